//! Places of values on the film.

mod cases;
pub mod rule;

#[cfg(feature = "library")]
mod exact;
#[cfg(feature = "library")]
mod library;

use plotters::coord::ranged1d::Ranged;
use plotters::coord::{RangedCoordf64, RangedCoordi32};

use crate::admitted::BOUND;
use crate::call::call;
use crate::lines;

#[cfg(feature = "library")]
pub use library::{bench, compare};

/// A value, the ends of its axis, and the limits of the film.
#[derive(Clone, Copy)]
pub struct Place<N> {
    pub a: N,
    pub b: N,
    pub v: N,
    pub p: i32,
    pub q: i32,
}

impl<N> Place<N> {
    /// Whether plotters panics, or gives a pixel further from p than the rule allows.
    pub fn goes_too_far(self, plotters: Option<Option<i32>>) -> bool {
        let distance = |pixel: i32| (i64::from(pixel) - i64::from(self.p)).abs();
        plotters
            .flatten()
            .is_none_or(|pixel| distance(pixel) > BOUND)
    }
}

call!(
    Place<i32> { a, b, v, p, q } -> i32, "wmap", rule::place,
    Some(RangedCoordi32::from(a..b).map(&v, (p, q))), may give Place::goes_too_far
);
call!(
    Place<f64> { a, b, v, p, q } -> i32, "rmap", rule::place,
    Some(RangedCoordf64::from(a..b).map(&v, (p, q))), may give Place::goes_too_far
);

pub fn vectors() {
    lines::print::<Place<i32>>(3);
    lines::print::<Place<f64>>(4);
}
