//! Times of calls on segments.

use super::axis::Whole;
use super::calls::{FromIndex, IndexOf, Map, Size, Unmap};
use super::library::{Library, Stepped};
use super::marking::Marking;
use crate::beside;
use crate::linspace::Steps;
use crate::timing::report_written;

/// Axes of so many entries are marked.
const ENTRIES: [u64; 4] = [10, 100, 1_000, 65_536];

const MARKS: u32 = 10;

/// Times the marks of an axis of so many entries.
fn marks<A: Library>(axis: A, n: u64) {
    report_written(
        &format!("{} of {n} entries", A::NAMES.key_points),
        Marking { axis, m: MARKS },
        MARKS as usize + 1,
        |Marking { axis, m }, out: &mut [A::Number], (step, told): &mut (A::Number, usize)| {
            let list = (out.as_mut_ptr(), out.len());
            // SAFETY: `out` is a list of that length, and the results are one number each.
            unsafe { axis.c_key_points(m, list, step, told) }
        },
        Marking::plotters,
    );
}

fn calls<A: Library>() {
    beside::bench::<Size<A>>();
    beside::bench::<FromIndex<A>>();
    beside::bench::<IndexOf<A>>();
    beside::bench::<Map<A>>();
    beside::bench::<Unmap<A>>();
}

fn stepped<N: Stepped>(step: N) {
    calls::<Steps<N>>();
    for n in ENTRIES {
        let (a, b) = (N::ZERO, N::after(N::ZERO, step, n));
        marks(Steps { a, b, d: step }, n);
    }
}

pub fn bench() {
    calls::<Whole>();
    for n in ENTRIES {
        let (a, b) = (0, n as i32 - 1);
        marks(Whole { a, b }, n);
    }
    stepped::<i32>(7);
    stepped::<f64>(0.7);
}
