//! Inputs of key points: small ones all, large ones at random and near where the rule turns.

use std::fmt;

use super::axis::Axis;
use super::rule::{ceil_div, BOUND, STEPS};
use crate::random::Random;

#[derive(Clone, Copy, PartialEq, Eq, PartialOrd, Ord)]
pub struct Case {
    pub a: i128,
    pub b: i128,
    pub m: u32,
}

pub const fn case(a: i128, b: i128, m: u32) -> Case {
    Case { a, b, m }
}

#[cfg(feature = "library")]
impl Case {
    /// A measure by which the smallest of several differing inputs is shown first.
    pub fn size(self) -> u128 {
        4 * (self.a.unsigned_abs() + self.b.unsigned_abs()) + u128::from(self.m)
    }
}

impl fmt::Display for Case {
    fn fmt(&self, f: &mut fmt::Formatter<'_>) -> fmt::Result {
        write!(f, "{}..{} m {}", self.a, self.b, self.m)
    }
}

const LARGE: [u32; 10] = [
    50,
    99,
    100,
    101,
    1_000,
    1_000_000_000,
    1 << 31,
    (1 << 31) - 1,
    u32::MAX - 1,
    u32::MAX,
];

/// Some cases with ten million marks.
#[cfg(feature = "library")]
pub const LONG: [Case; 4] = [
    case(-5_000_000, 5_000_000, u32::MAX),
    case(7_000_000, -3_000_000, 10_000_000),
    case(1, 1_000_000_000, 10_000_000),
    case(-1_000_000_000, -1, 10_000_000),
];

/// All cases with both ends from `least` to `greatest`, m up to `most` and some large m.
pub fn small(least: i128, greatest: i128, most: u32) -> impl Iterator<Item = Case> {
    let limits = move || (0..=most).chain(LARGE);
    let ends = move || least..=greatest;
    ends().flat_map(move |a| ends().flat_map(move |b| limits().map(move |m| Case { a, b, m })))
}

/// A number that a mistake is likely to show at: a step, a bound or a power of two, or beside one.
fn landmark(random: &mut Random) -> i128 {
    let near = random.within(-2, 2);
    near + match random.below(8) {
        0 => 0,
        1 => BOUND,
        2 => -BOUND,
        3 => random.pick(&[1, -1]) << random.below(32),
        _ => random.pick(&STEPS) * random.pick(&[1, -1]),
    }
}

fn end<A: Axis>(random: &mut Random) -> i128 {
    let drawn = match random.below(16) {
        0 => random.within(-30, 30),
        1..=6 => landmark(random),
        7..=10 => random.within(-BOUND, BOUND),
        11 => random.pick(&[BOUND + 1, -BOUND - 1, *A::HELD.start(), *A::HELD.end()]),
        _ => random.within(-BOUND, BOUND) >> random.below(31),
    };
    let drawn = if *A::HELD.start() == 0 {
        drawn.abs()
    } else {
        drawn
    };
    drawn.clamp(*A::HELD.start(), *A::HELD.end())
}

/// A second end, often at about a whole number of steps from the first.
fn second<A: Axis>(random: &mut Random, a: i128) -> i128 {
    let away = match random.below(4) {
        0 => random.pick(&STEPS) * random.within(-20, 20) + random.within(-1, 1),
        1 => landmark(random),
        _ => return end::<A>(random),
    };
    (a + away).clamp(*A::HELD.start(), *A::HELD.end())
}

/// A mark limit, often where one of the steps begins to serve.
fn limit(random: &mut Random, d: i128) -> u32 {
    let drawn = match random.below(16) {
        0..=6 => random.below(21).into(),
        7 => random.pick(&LARGE).into(),
        8 => landmark(random),
        9 => 1 << random.below(32),
        _ => ceil_div(d, random.pick(&STEPS)) + random.within(-1, 2),
    };
    drawn.clamp(0, u32::MAX.into()) as u32
}

pub fn large<A: Axis>(random: &mut Random) -> Case {
    let a = end::<A>(random);
    let b = second::<A>(random, a);
    Case {
        a,
        b,
        m: limit(random, (a - b).abs()),
    }
}

/// The same axis with so low a mark limit that there are at most `most` marks.
pub fn fewer<A: Axis>(random: &mut Random, case: Case, most: usize) -> Case {
    match A::rule(case) {
        Ok(marks) if marks.count > most => Case {
            m: random.below(most as u64) as u32,
            ..case
        },
        _ => case,
    }
}
