//! Inputs of marks of real axes.

use super::rule::parsed;
use super::RealMarks;
use crate::cases::{nudged, real};
use crate::random::Random;

const fn axis(a: f64, b: f64, m: u32) -> RealMarks {
    RealMarks { a, b, m }
}

/// Short lists of each sort, and one of each reason to refuse.
#[rustfmt::skip]
pub const WORKED: [RealMarks; 20] = [
    axis(0.0, 1.0, 3), axis(1.0, 0.0, 3), axis(-0.05, 0.25, 4), axis(0.001, 0.002, 5),
    axis(-1e6, 1e6, 2), axis(2.5, 2.5, 1), axis(0.0, -0.0, 7), axis(-0.0, 0.0, 7),
    axis(0.0, 0.001, 3), axis(-3.7, -1.2, 10), axis(999_999.999, 1e6, 20), axis(0.0, 1000.0, 40),
    axis(f64::NAN, 1.0, 0), axis(f64::NAN, 1.0, 1), axis(0.0, f64::INFINITY, 5),
    axis(0.0, 1.0, 1_001), axis(0.0, 0.0, 1_001), axis(0.0, f64::EPSILON, 5),
    axis(0.0, 0.000_999_999, 5), axis(-1_000_000.000_000_1, 1.0, 5),
];

/// Ends that marks depend on: the largest, and powers of ten and their multiples by 2 and 5.
#[cfg(feature = "library")]
#[rustfmt::skip]
const ENDS: [f64; 25] = [
    0.0, -0.0, 1e6, -1e6, 0.001, -0.001, 0.01, 0.1, 1.0, -1.0, 10.0, 100.0, -100.0, 1e3, 1e4, 1e5, 0.3, 0.7, 2.0, 5.0,
    0.5, -0.2, 49.0, 123_456.789, -999_999.5,
];

/// How far two ends may be apart, where the rule turns.
fn length(random: &mut Random) -> f64 {
    let n = random.below(9) as f64 + 1.0;
    let power = parsed(random.below(10) as i32 - 3);
    let length = match random.below(12) {
        0 => f64::EPSILON,
        1 => 0.001,
        2 | 3 => power,
        4 | 5 => n * power,
        6 => n * power / 3.0,
        7 => random.unit() * 0.002,
        _ => random.unit() * power * 10.0,
    };
    nudged(random, length)
}

/// An end that may be far out, or not admitted.
fn end(random: &mut Random) -> f64 {
    match random.below(16) {
        0 => real(random),
        1 => nudged(random, 1e6),
        2 => nudged(random, -1e6),
        3..=5 => 0.0,
        6..=8 => random.within(-1_000, 1_000) as f64,
        9 | 10 => random.within(-1_000_000, 1_000_000) as f64 / random.pick(&[3.0, 10.0, 1e3, 1e5]),
        11 => parsed(random.below(10) as i32 - 3) * random.pick(&[1.0, -1.0, 2.0, -5.0]),
        _ => (random.unit() - 0.5) * parsed(random.below(9) as i32 - 2),
    }
}

/// Few marks as a rule, so that there can be many axes.
#[cfg(feature = "library")]
fn limit(random: &mut Random) -> u32 {
    match random.below(64) {
        0 => random.pick(&[0, 1, 999, 1_000, 1_001, u32::MAX]),
        1 | 2 => random.below(1_000) as u32 + 1,
        3..=8 => random.below(200) as u32 + 1,
        _ => random.below(30) as u32 + 1,
    }
}

fn ends(random: &mut Random) -> (f64, f64) {
    let a = end(random);
    let b = match random.below(6) {
        0 => end(random),
        1 => nudged(random, a),
        _ => a + length(random) * random.pick(&[1.0, -1.0]),
    };
    // An end that the sum brought just past the farthest comes back, as a rule.
    let back = |random: &mut Random, end: f64| match random.below(8) {
        0 => end,
        _ => end.clamp(-1e6, 1e6),
    };
    (a, back(random, b))
}

#[cfg(feature = "library")]
pub fn drawn(random: &mut Random) -> RealMarks {
    let (a, b) = ends(random);
    axis(a, b, limit(random))
}

/// For the list of answers: lists that a line can have, as a rule.
pub fn listed(random: &mut Random) -> RealMarks {
    let (a, b) = ends(random);
    let m = match random.below(24) {
        0 => random.pick(&[0, 41, 1_000, 1_001]),
        _ => random.below(38) as u32 + 1,
    };
    axis(a, b, m)
}

/// All pairs of the ends above and of their neighbours, each with some mark limits.
#[cfg(feature = "library")]
pub fn all() -> impl Iterator<Item = RealMarks> {
    let ends = || {
        ENDS.iter()
            .flat_map(|&end| [end, end.next_up(), end.next_down()])
    };
    let limits = [0, 1, 2, 3, 5, 10, 11, 50, 100, 1_000];
    ends().flat_map(move |a| ends().flat_map(move |b| limits.map(|m| axis(a, b, m))))
}

/// As an ordinary caller has it: an axis that is marked.
#[cfg(feature = "library")]
pub fn ordinary(random: &mut Random, m: u32) -> RealMarks {
    loop {
        let [a, b] = [(); 2].map(|()| (random.unit() - 0.5) * parsed(random.below(8) as i32 - 1));
        if (a - b).abs() >= 0.001 {
            return axis(a, b, m);
        }
    }
}
