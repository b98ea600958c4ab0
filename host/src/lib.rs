//! The host of the proved core: a safe wrapper of its calls, and what a map desk needs around them.

pub mod compare;
pub mod core;
pub mod draw;
pub mod files;
pub mod form;
pub mod listing;
pub mod memory;
pub mod oracle;
pub mod plain;
pub mod reading;
pub mod sample;
pub mod sheet;
pub mod text;
pub mod wages;
