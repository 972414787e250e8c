//! Times of calls on stepped axes.

use plotters::coord::ranged1d::DiscreteRanged;
use std::hint::black_box;
use std::ptr::null_mut;

use super::calls::{FromIndex, IndexOf, Map, Size, Unmap};
use super::library::Library;
use super::listing::Listing;
use super::{rule, Steps};
use crate::beside;
use crate::lends::Lends;
use crate::timing::report_written;

/// Lists of so many entries are written and marked.
const ENTRIES: [u64; 4] = [10, 100, 1_000, 65_536];

/// Times a call beside what plotters makes of the same.
fn time<N: Library, T>(
    call: &str,
    beside: &str,
    listing: Listing<N>,
    made: impl FnMut(Listing<N>) -> T,
) {
    let count = rule::count(listing.axis).unwrap_or(0);
    let title = format!("{call} of {count} entries{beside}");
    let ours = |listing: Listing<N>, out: &mut [N], told: &mut usize| {
        // SAFETY: `out` is a list of that length, and `told` is one number; no step is told.
        unsafe { listing.function((out.as_mut_ptr(), out.len()), null_mut(), told) }
    };
    report_written(&title, listing, count, ours, made);
}

/// Times the list, beside plotters' list as its `values` gives it, written to a list that is made
/// once, as for ours; and beside the making of plotters' list alone, of which only the last entry
/// is asked.
fn time_list<N: Library>(list: Listing<N>) {
    let held = &mut vec![N::ZERO; rule::count(list.axis).unwrap_or(0)];
    time(N::VALUES, ", all read", list, |list| {
        for (place, value) in held.iter_mut().zip(N::plotters(list.axis).values()) {
            *place = value;
        }
        black_box(&held);
    });
    time(N::VALUES, ", made and not read", list, |list| {
        let axis = N::plotters(list.axis);
        axis.from_index(axis.size() - 1)
    });
}

fn kind<N: Library>(step: N) {
    beside::bench::<Size<N>>();
    beside::bench::<FromIndex<N>>();
    beside::bench::<IndexOf<N>>();
    beside::bench::<Map<N>>();
    beside::bench::<Unmap<N>>();
    for n in ENTRIES {
        let axis = Steps {
            a: N::ZERO,
            b: N::after(N::ZERO, step, n),
            d: step,
        };
        let (list, marks) = (Listing { axis, m: None }, Listing { axis, m: Some(10) });
        time_list(list);
        time(N::NAMES.key_points, "", marks, Listing::plotters);
    }
}

pub fn bench() {
    kind::<i32>(7);
    kind::<f64>(0.7);
}
