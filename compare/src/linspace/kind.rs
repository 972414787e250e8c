//! The two kinds of stepped axes, as plotters has them.

use plotters::coord::{Exact, IntoLinspace, Linspace};

use super::Steps;
use crate::entry::Entry;

/// A word for each call on one sort of axis.
pub struct Words {
    pub size: &'static str,
    pub from_index: &'static str,
    pub index_of: &'static str,
    pub map: &'static str,
    pub unmap: &'static str,
    pub key_points: &'static str,
}

/// Words that begin alike: those by which the list of answers knows the calls, or their names.
macro_rules! words {
    (list, $start:literal) => {
        words!($start, "size", "at", "idx", "map", "read", "marks")
    };
    (names, $start:literal) => {
        words!(
            $start,
            "size",
            "from_index",
            "index_of",
            "map",
            "unmap",
            "key_points"
        )
    };
    (
        $start:literal, $size:literal, $from_index:literal, $index_of:literal, $map:literal,
        $unmap:literal, $key_points:literal
    ) => {
        $crate::linspace::kind::Words {
            size: concat!($start, $size),
            from_index: concat!($start, $from_index),
            index_of: concat!($start, $index_of),
            map: concat!($start, $map),
            unmap: concat!($start, $unmap),
            key_points: concat!($start, $key_points),
        }
    };
}
pub(crate) use words;

pub trait Kind: Entry {
    const WORDS: Words;
    /// The word for the call that writes all entries, which segments have not.
    const LIST: &'static str;

    /// plotters' axis, which makes its list at once.
    fn plotters(Steps { a, b, d }: Steps<Self>) -> Linspace<Self::Axis, Self, Exact<Self>> {
        Self::Axis::from(a..b).step(d)
    }
}

impl Kind for i32 {
    const WORDS: Words = words!(list, "wstep");
    const LIST: &'static str = "wsteplist";
}

impl Kind for f64 {
    const WORDS: Words = words!(list, "rstep");
    const LIST: &'static str = "rsteplist";
}
