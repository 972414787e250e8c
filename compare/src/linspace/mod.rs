//! Stepped axes.

mod calls;
pub mod cases;
pub mod kind;
pub mod listing;
pub mod rule;

#[cfg(feature = "library")]
mod bench;
#[cfg(feature = "library")]
pub mod library;
#[cfg(feature = "library")]
mod lists;

use crate::lines;
use crate::number::Number;
use calls::{FromIndex, IndexOf, Map, Size, Unmap};
use cases::Numbers;

#[cfg(feature = "library")]
pub use bench::bench;

/// A stepped axis: its ends and its step.
#[derive(Clone, Copy)]
pub struct Steps<N> {
    pub a: N,
    pub b: N,
    pub d: N,
}

impl<N: Into<Number>> Steps<N> {
    pub fn named(self) -> [(&'static str, Number); 3] {
        let Steps { a, b, d } = self;
        [("a", a.into()), ("b", b.into()), ("d", d.into())]
    }
}

#[cfg(feature = "library")]
pub fn compare() -> bool {
    library::compare::<i32>()
        & library::compare::<f64>()
        & lists::compare::<i32>()
        & lists::compare::<f64>()
}

fn print<N: Numbers>(seed: u64) {
    lines::print::<Size<N>>(seed);
    lines::print::<FromIndex<N>>(seed + 1);
    lines::print::<IndexOf<N>>(seed + 2);
    lines::print::<Map<N>>(seed + 3);
    lines::print::<Unmap<N>>(seed + 4);
}

pub fn vectors() {
    print::<i32>(12);
    listing::print::<i32>(37);
    print::<f64>(17);
    listing::print::<f64>(39);
}
