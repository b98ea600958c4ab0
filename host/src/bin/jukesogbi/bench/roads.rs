//! Roads in random order, few and many, beside plain Rust: those that stand together have nothing in common, so that an index by blocks of roads helps little.

use super::{building, head, pairs, prepared, searching, sizes_up_to, Case, ANSWERS, ASKED, BESIDE_PLAIN};
use crate::output::Output;
use crate::stop::{Done, Stop};
use jukesogbi::form::{MAX_EDGES, MAX_GRID, MAX_NODES};
use jukesogbi::sample;

/// The sizes that are measured by default, as far as the number of nodes given.
const SIZES: [usize; 2] = [1024, 2048];

/// Roads a place, from about what a sample has up to the most where there are the most places.
const DENSITIES: [f64; 5] = [1.4, 2.0, 2.8, 3.3, MOST];
const MOST: f64 = (MAX_EDGES / MAX_NODES) as f64;

/// Sizes up to that given, or that one where it is below them all, under one grid, and where it is the most, the most places and roads; with a grid given,
/// that size alone under that one.
pub fn table(out: &mut Output, n: usize, grid: Option<u32>) -> Done {
    head(out, BESIDE_PLAIN)?;
    for (size, density) in sizes_up_to(n, grid, &SIZES).into_iter().flat_map(|size| DENSITIES.map(|density| (size, density))) {
        let case = built(out, size, density, grid.unwrap_or(ASKED))?;
        let (_, cells, _) = prepared(&case.oracle);
        let (far, local) = pairs(size, &cells, ANSWERS);
        searching(out, &case, &far, &local)?;
    }
    if grid.is_none() && n == MAX_NODES {
        built(out, n, MOST, MAX_GRID)?;
    }
    Ok(())
}

fn built(out: &mut Output, n: usize, density: f64, g: u32) -> Result<Case, Stop> {
    let net = sample::unordered(n, (density * n as f64).round() as usize, 1);
    building(out, &net, &format!("N {n}, {density} roads a place"), g)
}
