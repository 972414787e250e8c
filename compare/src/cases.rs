//! Inputs: all choices of numbers that a mistake is likely to show at, and random ones.

use crate::admitted::{BOUND, FILM};
use crate::call::Call;
use crate::random::Random;

/// The inputs of a call.
pub trait Cases: Call + 'static {
    /// The rows of the scope document's table.
    const WORKED: &'static [Self];
    /// How many lines the list of plotters' answers has for it, and how many more where the input
    /// is not admitted.
    const LINES: [usize; 2] = [340, 60];

    fn picked(pick: &mut impl Pick) -> Self;
    fn drawn(random: &mut Random) -> Self;
    /// As an ordinary caller would have it, and never refused.
    #[cfg(feature = "library")]
    fn ordinary(random: &mut Random) -> Self;
}

pub trait Pick {
    /// From a list of numbers at the edges of what is held and admitted, or from one of small ones.
    fn pick<T: Copy>(&mut self, lists: [&[T]; 2]) -> T;
}

/// Always at the edges.
impl Pick for Random {
    fn pick<T: Copy>(&mut self, [edges, _]: [&[T]; 2]) -> T {
        Random::pick(self, edges)
    }
}

/// Picks by the digits of a number, the base being the length of each list.
#[cfg(feature = "library")]
pub struct Digits {
    number: u64,
    /// From which of two lists.
    which: usize,
}

#[cfg(feature = "library")]
impl Pick for Digits {
    fn pick<T: Copy>(&mut self, lists: [&[T]; 2]) -> T {
        let list = lists[self.which];
        let base = list.len() as u64;
        let digit = self.number % base;
        self.number /= base;
        list[digit as usize]
    }
}

/// Everything that can be made by picking: all at the edges, then all of small numbers.
#[cfg(feature = "library")]
pub fn all<T>(make: impl Fn(&mut Digits) -> T + Copy) -> impl Iterator<Item = T> {
    (0..2).flat_map(move |which| {
        (0..).map_while(move |number| {
            let mut digits = Digits { number, which };
            let made = make(&mut digits);
            (digits.number == 0).then_some(made)
        })
    })
}

const WHOLE: i32 = BOUND as i32;
const PIXEL: i32 = FILM as i32;

#[rustfmt::skip]
pub const WHOLES: [i32; 19] = [
    i32::MIN, i32::MIN + 1, -WHOLE - 1, -WHOLE, -WHOLE + 1, -1_000, -7, -2, -1, 0,
    1, 2, 9, 1_000, WHOLE - 1, WHOLE, WHOLE + 1, i32::MAX - 1, i32::MAX,
];

#[rustfmt::skip]
pub const PIXELS: [i32; 16] = [
    i32::MIN, i32::MIN + 1, -PIXEL - 1, -PIXEL, -PIXEL + 1, -100, -1, 0,
    1, 2, 1_000, PIXEL - 1, PIXEL, PIXEL + 1, i32::MAX - 1, i32::MAX,
];

#[rustfmt::skip]
pub const REALS: [f64; 27] = [
    0.0, -0.0, f64::NAN, -f64::NAN, f64::INFINITY, f64::NEG_INFINITY,
    5e-324, -5e-324, f64::MIN_POSITIVE, -f64::MIN_POSITIVE, f64::MAX, f64::MIN,
    0.001, -0.001, 0.5, -0.5, 0.999, 1.0, -1.0, 1.0 - f64::EPSILON / 2.0, 1.0 + f64::EPSILON,
    49.0, -1e3, 1e9, -1e9, 1_000_000_000.999, -1_000_000_000.999,
];

pub const SMALL: [i32; 13] = [-6, -5, -4, -3, -2, -1, 0, 1, 2, 3, 4, 5, 6];

pub const SMALL_REALS: [f64; 13] = [
    -2.0, -1.5, -1.0, -0.5, -0.1, -0.0, 0.0, 0.1, 0.25, 0.5, 1.0, 1.5, 3.0,
];

pub fn held(wide: i64) -> i32 {
    wide.clamp(i32::MIN.into(), i32::MAX.into()) as i32
}

fn between(random: &mut Random, least: i64, greatest: i64) -> i64 {
    random.within(least.into(), greatest.into()) as i64
}

/// A power of ten, of either sign.
fn power_of_ten(random: &mut Random) -> i64 {
    random.pick(&[1, -1]) * 10i64.pow(random.below(10) as u32)
}

pub fn whole(random: &mut Random) -> i32 {
    held(match random.below(16) {
        0 => random.pick(&WHOLES).into(),
        1..=3 => between(random, -30, 30),
        4 | 5 => power_of_ten(random) + between(random, -2, 2),
        6 | 7 => (random.pick(&[1, -1]) << random.below(30)) + between(random, -2, 2),
        8..=11 => between(random, -BOUND, BOUND),
        _ => between(random, -BOUND, BOUND) >> random.below(31),
    })
}

/// Two ends, equal or near to each other at times.
pub fn whole_ends(random: &mut Random) -> (i32, i32) {
    let a = whole(random);
    let b = match random.below(8) {
        0 => a,
        1 => held(i64::from(a) + between(random, -3, 3)),
        2 => held(i64::from(a) + power_of_ten(random)),
        _ => whole(random),
    };
    (a, b)
}

pub fn pixel(random: &mut Random) -> i32 {
    match random.below(20) {
        0 => random.pick(&PIXELS),
        1..=3 => between(random, -20, 20) as i32,
        4..=11 => between(random, -3_000, 3_000) as i32,
        _ => between(random, -FILM, FILM) as i32,
    }
}

/// Two limits, equal or near to each other at times.
pub fn film(random: &mut Random) -> (i32, i32) {
    let p = pixel(random);
    let q = match random.below(10) {
        0 => p,
        1 => held(i64::from(p) + between(random, -3, 3)),
        _ => pixel(random),
    };
    (p, q)
}

/// The number, or one of its neighbours.
pub fn nudged(random: &mut Random, n: f64) -> f64 {
    match random.below(6) {
        0 => n.next_up(),
        1 => n.next_down(),
        _ => n,
    }
}

pub fn real(random: &mut Random) -> f64 {
    let drawn = match random.below(16) {
        0 => random.pick(&REALS),
        1 => f64::from_bits(random.bits()),
        2 => random.unit() * 2f64.powi(between(random, -1_074, 1_023) as i32),
        3..=5 => between(random, -1_000, 1_000) as f64,
        6..=8 => between(random, -100_000, 100_000) as f64 / random.pick(&[2.0, 3.0, 10.0, 1e3]),
        9 => whole(random).into(),
        _ => (random.unit() - 0.5) * 10f64.powi(between(random, -12, 12) as i32),
    };
    nudged(random, drawn)
}

/// Two ends, equal or near to each other at times.
pub fn real_ends(random: &mut Random) -> (f64, f64) {
    let a = real(random);
    match random.below(10) {
        0 => (a, a),
        1 => (a, nudged(random, a)),
        2 => (a, -a),
        3 => (0.0, 1.0),
        4 => (a, a + power_of_ten(random) as f64),
        _ => (a, real(random)),
    }
}

/// An ordinary axis and film.
#[cfg(feature = "library")]
pub mod ordinary {
    use super::{between, Random, BOUND};

    pub fn whole(random: &mut Random) -> i32 {
        (between(random, -BOUND, BOUND) >> random.below(28)) as i32
    }

    pub fn real(random: &mut Random) -> f64 {
        (random.unit() - 0.5) * 10f64.powi(between(random, -3, 6) as i32)
    }

    /// Two ends that differ.
    pub fn ends<N: PartialEq>(random: &mut Random, end: fn(&mut Random) -> N) -> (N, N) {
        loop {
            let (a, b) = (end(random), end(random));
            if a != b {
                return (a, b);
            }
        }
    }

    /// Two limits that differ.
    pub fn film(random: &mut Random) -> (i32, i32) {
        ends(random, |random| between(random, -4_000, 4_000) as i32)
    }

    /// A pixel within the limits.
    pub fn pixel(random: &mut Random, (p, q): (i32, i32)) -> i32 {
        between(random, p.min(q).into(), p.max(q).into()) as i32
    }
}
