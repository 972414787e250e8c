//! Counts and indices of culvraod.

use culvraod::counts::{culv_whole_from_index, culv_whole_index_of, culv_whole_size};
use culvraod::RangedCoordi32;
use std::hint::black_box;

use super::{FromIndex, IndexOf, Size};
use crate::beside::{self, library};
use crate::timing;

library!(
    Size { a, b } -> u64, "whole_size", culv_whole_size,
    RangedCoordi32(a, b).size().map(Some)
);
library!(
    IndexOf { a, b, v } -> u64, "whole_index_of", culv_whole_index_of,
    RangedCoordi32(a, b).index_of(v)
);
library!(
    FromIndex { a, b, k } -> i32, "whole_from_index", culv_whole_from_index,
    RangedCoordi32(a, b).from_index(k)
);

pub fn compare() -> bool {
    beside::compare::<Size>() & beside::compare::<IndexOf>() & beside::compare::<FromIndex>()
}

/// Times the cheapest call on one input: about what any call of a C function costs.
fn bench_bare() {
    timing::report_alone("whole_size of 0..9 again and again, a bare call", |n| {
        for _ in 0..n {
            let mut out = 0;
            // SAFETY: the pointer is that of a local number.
            black_box(unsafe { culv_whole_size(black_box(0), black_box(9), &mut out) });
            black_box(out);
        }
    });
}

pub fn bench() {
    bench_bare();
    beside::bench::<Size>();
    beside::bench::<IndexOf>();
    beside::bench::<FromIndex>();
}
