//! Inputs of searches.

use super::rule::{EXACT, NEAREST};
use crate::cases::{nudged, real, whole};
use crate::entry::Entry;
use crate::random::Random;

/// The rows of the scope document's table.
pub const WORKED: [([i32; 3], i32, u32); 2] = [([0, 4, 8], 2, NEAREST), ([8, 4, 0], 2, NEAREST)];

/// Entries and targets of a kind.
pub trait Lists: Entry {
    const KEYWORD: &'static str;
    /// Entries of which all short lists are made, and their targets.
    #[cfg(feature = "library")]
    const SMALL: &'static [Self];
    /// The same at the edges of what is held and admitted.
    #[cfg(feature = "library")]
    const EDGES: &'static [Self];

    fn whole(n: i32) -> Self;
    fn any(random: &mut Random) -> Self;
    /// One of a few that are out of the ordinary.
    fn odd(random: &mut Random) -> Self;
    /// The number or one close to it.
    fn beside(random: &mut Random, n: Self) -> Self;
    /// About as far from the one as from the other.
    fn middle(one: Self, other: Self) -> Self;
    /// Entries at a small distance from each other.
    fn close(random: &mut Random, len: usize) -> Vec<Self>;
    /// Entries at equal distances.
    fn even(random: &mut Random, len: usize) -> Vec<Self>;
}

impl Lists for i32 {
    const KEYWORD: &'static str = "wsearch";
    #[cfg(feature = "library")]
    const SMALL: &'static [i32] = &[-3, -2, -1, 0, 1, 2, 3];
    #[cfg(feature = "library")]
    const EDGES: &'static [i32] = &[
        i32::MIN,
        -1_000_000_001,
        -1_000_000_000,
        0,
        999_999_999,
        1_000_000_000,
        1_000_000_001,
        i32::MAX,
    ];

    fn whole(n: i32) -> i32 {
        n
    }

    fn any(random: &mut Random) -> i32 {
        let n = whole(random);
        match random.below(100) {
            0 => n,
            _ => n.clamp(-1_000_000_000, 1_000_000_000),
        }
    }

    fn odd(random: &mut Random) -> i32 {
        let beyond = 1_000_000_001;
        random.pick(&[0, beyond - 1, 1 - beyond, beyond, -beyond])
    }

    fn beside(random: &mut Random, n: i32) -> i32 {
        n.saturating_add(random.pick(&[-1, 0, 0, 1]))
    }

    fn middle(one: i32, other: i32) -> i32 {
        one.midpoint(other)
    }

    fn close(random: &mut Random, len: usize) -> Vec<i32> {
        let first = random.within(-1_000, 1_000) as i32;
        let mut next = first;
        let step = |_| {
            next += random.pick(&[1, 1, 2, 3]);
            next
        };
        (0..len).map(step).collect()
    }

    fn even(random: &mut Random, len: usize) -> Vec<i32> {
        let first = random.within(-1_000_000, 1_000_000) as i32;
        let step = random.within(1, 1_000) as i32;
        (0..len as i32).map(|k| first + k * step).collect()
    }
}

impl Lists for f64 {
    const KEYWORD: &'static str = "rsearch";
    #[cfg(feature = "library")]
    const SMALL: &'static [f64] = &[-1.0, -0.0, 0.0, 0.5, 1.0, 2.5, f64::NAN, f64::INFINITY];
    #[cfg(feature = "library")]
    const EDGES: &'static [f64] = &[
        f64::NEG_INFINITY,
        f64::MIN,
        -5e-324,
        -0.0,
        5e-324,
        1.0 - f64::EPSILON / 2.0,
        1.0,
        f64::MAX,
        f64::INFINITY,
    ];

    fn whole(n: i32) -> f64 {
        n.into()
    }

    fn any(random: &mut Random) -> f64 {
        let n = real(random);
        if n.is_nan() && random.below(4) != 0 {
            random.pick(&[f64::INFINITY, f64::NEG_INFINITY, -0.0, 0.0])
        } else {
            n
        }
    }

    fn odd(random: &mut Random) -> f64 {
        random.pick(&[
            f64::NAN,
            f64::NAN,
            f64::INFINITY,
            f64::NEG_INFINITY,
            0.0,
            -0.0,
        ])
    }

    fn beside(random: &mut Random, n: f64) -> f64 {
        nudged(random, n)
    }

    fn middle(one: f64, other: f64) -> f64 {
        one / 2.0 + other / 2.0
    }

    fn close(random: &mut Random, len: usize) -> Vec<f64> {
        let first = real(random);
        let mut next = if first.is_nan() { 0.0 } else { first };
        let step = |_| {
            next = (0..=random.below(3)).fold(next, |n, _| n.next_up());
            next
        };
        (0..len).map(step).collect()
    }

    fn even(random: &mut Random, len: usize) -> Vec<f64> {
        let (first, step) = (random.unit() * 100.0 - 50.0, random.unit());
        let step = random.pick(&[step, 0.1, 0.25, 1.0]);
        (0..len).map(|k| first + k as f64 * step).collect()
    }
}

/// Puts the list out of order, often so little that it is easily overlooked.
fn disturb<N: Lists>(random: &mut Random, list: &mut [N]) {
    let Some(last) = list.len().checked_sub(1) else {
        return;
    };
    let at = random.below(list.len() as u64) as usize;
    let at = random.pick(&[at, at, 0, last]);
    match random.below(3) {
        0 => list[at] = list[at.saturating_sub(1)],
        1 => list.swap(at, last),
        _ => list[at] = N::any(random),
    }
}

/// A list of about so many entries: rising or falling as a rule.
pub fn list<N: Lists>(random: &mut Random, len: usize) -> Vec<N> {
    let mut list = match random.below(4) {
        0 => N::close(random, len),
        1 => N::even(random, len),
        _ => (0..len).map(|_| N::any(random)).collect(),
    };
    if random.below(16) != 0 {
        list.retain(|entry| !entry.is_nan());
        list.sort_by(|one, other| one.partial_cmp(other).unwrap());
        list.dedup();
    }
    if random.below(2) == 0 {
        list.reverse();
    }
    if random.below(8) == 0 {
        disturb(random, &mut list);
    }
    list
}

/// A target on an entry, close to one, or between two, as a rule.
pub fn target<N: Lists>(random: &mut Random, list: &[N]) -> N {
    match random.below(12) {
        0 => return N::odd(random),
        1 => return N::any(random),
        _ if list.is_empty() => return N::any(random),
        _ => (),
    }
    let entry = random.pick(list);
    let at = match random.below(4) {
        0 => entry,
        1 => N::middle(entry, random.pick(list)),
        _ => {
            let at = random.below(list.len() as u64) as usize;
            N::middle(list[at.saturating_sub(1)], list[at])
        }
    };
    N::beside(random, at)
}

pub fn method(random: &mut Random) -> u32 {
    match random.below(40) {
        0 => random.pick(&[4, 5, u32::MAX]),
        _ => random.within(EXACT.into(), NEAREST.into()) as u32,
    }
}
