//! Readings: the value at a pixel.

pub mod cases;
pub mod rule;

#[cfg(feature = "library")]
mod directed;
#[cfg(feature = "library")]
mod library;
#[cfg(feature = "library")]
mod stray;

use plotters::coord::ranged1d::ReversibleRanged;
use plotters::coord::{RangedCoordf64, RangedCoordi32};

use crate::call::call;
use crate::lines;

#[cfg(feature = "library")]
pub use library::{bench, compare};

/// The ends of an axis, a pixel, and the limits of the film.
#[derive(Clone, Copy)]
pub struct Reading<N> {
    a: N,
    b: N,
    x: i32,
    p: i32,
    q: i32,
}

call!(
    Reading<i32> { a, b, x, p, q } -> i32, "unmap", rule::whole,
    RangedCoordi32::from(a..b).unmap(x, (p, q))
);
call!(
    Reading<f64> { a, b, x, p, q } -> f64, "runmap", rule::real,
    RangedCoordf64::from(a..b).unmap(x, (p, q))
);

pub fn vectors() {
    lines::print::<Reading<i32>>(8);
    lines::print::<Reading<f64>>(9);
}
