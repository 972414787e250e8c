//! Segments over whole and stepped axes.

mod axis;
mod calls;
mod cases;
mod marking;
mod rule;
mod value;

#[cfg(feature = "library")]
mod bench;
#[cfg(feature = "library")]
mod library;
#[cfg(feature = "library")]
mod marks;
#[cfg(feature = "library")]
mod mirror;

use crate::lines;
use crate::linspace::Steps;
use axis::Whole;
use calls::{FromIndex, IndexOf, Map, Size, Unmap};
use cases::Axes;

#[cfg(feature = "library")]
pub use bench::bench;

#[cfg(feature = "library")]
pub fn compare() -> bool {
    library::compare::<Whole>()
        & library::compare::<Steps<i32>>()
        & library::compare::<Steps<f64>>()
        & mirror::compare::<i32>()
        & mirror::compare::<f64>()
        & marks::compare::<Whole>()
        & marks::compare::<Steps<i32>>()
        & marks::compare::<Steps<f64>>()
        & marks::compare_mirror::<i32>()
        & marks::compare_mirror::<f64>()
}

fn print<A: Axes>(seed: u64) {
    lines::print::<Size<A>>(seed);
    lines::print::<FromIndex<A>>(seed + 1);
    lines::print::<IndexOf<A>>(seed + 2);
    lines::print::<Map<A>>(seed + 3);
    lines::print::<Unmap<A>>(seed + 4);
}

pub fn vectors() {
    print::<Whole>(22);
    marking::print::<Whole>(41);
    print::<Steps<i32>>(27);
    marking::print::<Steps<i32>>(42);
    print::<Steps<f64>>(32);
    marking::print::<Steps<f64>>(43);
}
