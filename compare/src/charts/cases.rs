//! Histories: axes rising and falling with lists of every length that matters, and pins about their
//! entries.

use super::model::{COUNTS, FULL};
use super::Deed;
use crate::admitted::BOUND;
use crate::cases::held;
use crate::linspace::Steps;
use crate::random::Random;

/// Pins set and pulled one after the other, on so many lent counts, which are cleared first or
/// begin as they are given.
pub struct History {
    pub axis: Steps<i32>,
    pub len: usize,
    pub counts: Option<Vec<u16>>,
    pub actions: Vec<(Deed, i32)>,
}

/// An axis from a on with n entries, none or two and more, by a step of that size; the last step
/// passes b by the rest.
fn axis(a: i64, step: i64, n: i64, rest: i64, rises: bool) -> Steps<i32> {
    let length = if n == 0 { rest } else { step * n - rest };
    let sign = if rises { 1 } else { -1 };
    Steps {
        a: held(a),
        b: held(a + sign * length),
        d: held(sign * step),
    }
}

fn drawn_entries(random: &mut Random) -> i64 {
    match random.below(12) {
        0 => 0,
        1 => 2,
        2 => 3,
        3 => 1_023,
        4 => 1_024,
        5 => 1_025,
        6 => random.pick(&[1_026, 65_535, 65_536, 65_537, 100_000]),
        7 | 8 => random.within(2, 1_024) as i64,
        _ => random.within(2, 40) as i64,
    }
}

/// An axis that is admitted, and whose step leads from a to b.
fn drawn_axis(random: &mut Random) -> Steps<i32> {
    let n = drawn_entries(random);
    let widest = BOUND / n.max(1);
    let widest = random.pick(&[1, 10, 1_000, widest]).min(widest);
    let step = random.within(1, widest.into()) as i64;
    let rest = random.below(step as u64) as i64;
    let length = step * n.max(1);
    let a = random.pick(&[0, -length / 2, -length, length, BOUND, -BOUND, 17]);
    if random.below(2) == 0 {
        axis(a.min(BOUND - length), step, n, rest, true)
    } else {
        axis(a.max(length - BOUND), step, n, rest, false)
    }
}

/// One in eight of the axes is refused for its step or an end.
fn spoiled(random: &mut Random, Steps { a, b, d }: Steps<i32>) -> Steps<i32> {
    match random.below(24) {
        0 => Steps { a, b, d: -d },
        1 => Steps { a, b, d: 0 },
        2 => {
            let b = random.pick(&[1_000_000_001, i32::MIN, i32::MAX]);
            Steps { a, b, d }
        }
        _ => Steps { a, b, d },
    }
}

/// About an entry, one of the first few if there shall be few; about an end; or far away.
fn drawn_pin(random: &mut Random, Steps { a, b, d }: Steps<i32>, few: bool) -> i32 {
    let [a, b, d] = [a, b, d].map(i64::from);
    let entries = if few { 3 } else { 1_030 };
    let near = random.within(-2, 2) as i64;
    let between = random.below(d.unsigned_abs() + 1) as i64;
    held(match random.below(16) {
        0 => a + near,
        1 => b + near,
        2 => random.pick(&[BOUND, -BOUND, BOUND + 1, i32::MIN.into()]),
        3 => a + random.within(-2, entries.into()) as i64 * d + between,
        _ => a + random.below(entries) as i64 * d + random.pick(&[0, 0, near]),
    })
}

/// Counts near nothing, near full, or anywhere between, those past the list too.
fn drawn_counts(random: &mut Random) -> Vec<u16> {
    let kind = random.below(3);
    let count = |_| match kind {
        0 => random.below(3) as u16,
        1 => FULL - random.below(3) as u16,
        _ => random.bits() as u16,
    };
    (0..COUNTS).map(count).collect()
}

pub fn drawn(random: &mut Random, actions: usize) -> History {
    let axis = drawn_axis(random);
    let axis = spoiled(random, axis);
    let len = match random.below(8) {
        0 => random.pick(&[0, 1, COUNTS - 1]),
        1 => random.pick(&[COUNTS + 1, COUNTS + 6, 3_000]),
        _ => COUNTS,
    };
    let counts = (len >= COUNTS && random.below(2) == 0).then(|| drawn_counts(random));
    let few = random.below(2) == 0;
    let mut action = |_| {
        let deed = random.pick(&[Deed::Set, Deed::Set, Deed::Pull]);
        (deed, drawn_pin(random, axis, few))
    };
    let actions = (0..actions).map(&mut action).collect();
    History {
        axis,
        len,
        counts,
        actions,
    }
}

/// A history that begins with an empty chart.
fn from_empty(axis: Steps<i32>, actions: impl Iterator<Item = (Deed, i32)>) -> History {
    History {
        axis,
        len: COUNTS,
        counts: None,
        actions: actions.collect(),
    }
}

/// Lists that are passed from end to end: how many entries they have, and whether they rise.
const PASSED: [(i64, bool); 5] = [
    (1_024, true),
    (1_024, false),
    (1_025, true),
    (2, false),
    (0, true),
];

/// An entry filled up to the last pin that it takes, and beyond, and emptied again, and beyond; and
/// pins at and between all entries of lists.
pub fn worked() -> Vec<History> {
    let times = usize::from(FULL) + 3;
    let deeds = [Deed::Set, Deed::Pull].into_iter();
    let filled = deeds.flat_map(|deed| vec![(deed, 7); times]);
    let pins = || {
        let each = |pin: i32| [(Deed::Set, pin), (Deed::Set, -pin), (Deed::Pull, pin / 2)];
        (-3_200..=3_200).flat_map(each)
    };
    let passed = PASSED.map(|(n, rises)| from_empty(axis(-50, 3, n, 1, rises), pins()));
    let full = from_empty(axis(0, 5, 2, 0, true), filled);
    passed.into_iter().chain([full]).collect()
}
