//! Counts of whole axes, indices of their values and values at an index.

mod cases;
pub mod rule;

#[cfg(feature = "library")]
mod library;

use plotters::coord::ranged1d::DiscreteRanged;
use plotters::coord::RangedCoordi32;

use crate::call::call;
use crate::lines;

#[cfg(feature = "library")]
pub use library::{bench, compare};

#[derive(Clone, Copy)]
pub struct Size {
    a: i32,
    b: i32,
}

#[derive(Clone, Copy)]
pub struct IndexOf {
    a: i32,
    b: i32,
    v: i32,
}

#[derive(Clone, Copy)]
pub struct FromIndex {
    a: i32,
    b: i32,
    k: u64,
}

call!(
    Size { a, b } -> u64, "size", rule::size,
    Some(RangedCoordi32::from(a..b).size() as u64)
);
call!(
    IndexOf { a, b, v } -> u64, "index_of", rule::index_of,
    RangedCoordi32::from(a..b).index_of(&v).map(|index| index as u64)
);
call!(
    FromIndex { a, b, k } -> i32, "from_index", rule::from_index,
    RangedCoordi32::from(a..b).from_index(k as usize)
);

pub fn vectors() {
    lines::print::<Size>(5);
    lines::print::<IndexOf>(6);
    lines::print::<FromIndex>(7);
}
