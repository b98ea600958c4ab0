//! Memory to lend to the core. What is not touched costs nothing, and memory that cannot be had is no panic.

use std::alloc::{alloc_zeroed, Layout};

/// Numbers of which one has all bits zero.
pub trait Number: Copy {}

impl Number for u8 {}
impl Number for u32 {}

/// So many zeros, or none where there is not so much memory. A large piece comes from the system as pages that are made when they are first touched.
pub fn zeroed<T: Number>(count: usize) -> Option<Vec<T>> {
    let layout = Layout::array::<T>(count).ok()?;
    if layout.size() == 0 {
        return Some(Vec::new());
    }
    // The layout is not empty; it is that of a vector of `count` elements, all of which are set: zero is a value of T.
    unsafe {
        let start = alloc_zeroed(layout).cast::<T>();
        (!start.is_null()).then(|| Vec::from_raw_parts(start, count, count))
    }
}
