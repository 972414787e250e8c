//! Times of pins, beside a search in a list that plotters has made before.

use culvraod::chart::{culv_chart_pull, culv_chart_set, COUNTS};
use plotters::coord::ranged1d::DiscreteRanged;
use std::hint::black_box;

use super::model::{list, List};
use super::Deed;
use crate::linspace::Steps;
use crate::random::Random;
use crate::timing::report_batch;

/// How many pins are set, or pulled, on a list of so many entries.
const BATCH: usize = 50_000;
const ENTRIES: [i32; 3] = [10, 100, 1_000];

type Counts = [u16; COUNTS];

/// What plotters has for a pin, and a count beside it.
#[inline(always)]
fn by_plotters(list: &List, deed: Deed, pin: i32, counts: &mut Counts) -> bool {
    let Some(count) = list.index_of(&pin).and_then(|k| counts.get_mut(k)) else {
        return false;
    };
    let new = match deed {
        Deed::Set => count.checked_add(1),
        Deed::Pull => count.checked_sub(1),
    };
    new.is_some_and(|new| {
        *count = new;
        true
    })
}

#[inline(never)]
fn behind_a_call(list: &List, deed: Deed, pin: i32, counts: &mut Counts) -> bool {
    by_plotters(list, deed, pin, counts)
}

fn time(entries: i32, deed: Deed, name: &str) {
    let axis = Steps {
        a: 0,
        b: 7 * entries,
        d: 7,
    };
    let (mut random, list) = (Random::fixed(1), list(axis));
    let pins = (0..BATCH).map(|_| random.below(7 * entries as u64) as i32);
    let pins: Vec<i32> = pins.collect();
    let (function, first): (unsafe extern "C" fn(_, _, _, _, _, _) -> _, u16) = match deed {
        Deed::Set => (culv_chart_set, 0),
        Deed::Pull => (culv_chart_pull, u16::MAX),
    };
    let mut refused = 0;
    let mut ours = || {
        let counts = &mut [first; COUNTS];
        for &pin in black_box(&pins) {
            let Steps { a, b, d } = black_box(axis);
            // SAFETY: the pointer is that of a list of this length.
            let code: i32 = unsafe { function(a, b, d, pin, counts.as_mut_ptr(), COUNTS) };
            refused += black_box(code);
        }
        black_box(counts);
    };
    let mut plotters = || {
        let counts = &mut [first; COUNTS];
        for &pin in black_box(&pins) {
            black_box(by_plotters(black_box(&list), deed, pin, counts));
        }
        black_box(counts);
    };
    let mut behind = || {
        let counts = &mut [first; COUNTS];
        for &pin in black_box(&pins) {
            black_box(behind_a_call(black_box(&list), deed, pin, counts));
        }
        black_box(counts);
    };
    let title = format!("{name} on a list of {entries} entries");
    report_batch(
        &title,
        BATCH as u64,
        [&mut ours, &mut plotters, &mut behind],
    );
    assert_eq!(refused, 0, "{title}");
}

pub fn bench() {
    for entries in ENTRIES {
        time(entries, Deed::Set, "chart_set");
        time(entries, Deed::Pull, "chart_pull");
    }
}
