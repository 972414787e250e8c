//! Inputs of labels.

use super::{Asked, Notation};
use crate::cases::{nudged, real};
use crate::random::Random;

const fn asked(n: f64, h: u32, e: u32) -> Asked {
    Asked { n, h, e }
}

/// The row of the scope document's table, labels that may surprise, and one of each refusal.
#[rustfmt::skip]
pub const WORKED: [Asked; 20] = [
    asked(3.0, 5, 1), asked(1.25, 5, 1), asked(-0.000001, 5, 1),
    asked(0.015, 2, 0), asked(2.9, 0, 0), asked(-0.5, 0, 1), asked(0.9, 1, 0), asked(1.005, 2, 0),
    asked(0.25, 1, 0), asked(-0.00001, 5, 1), asked(0.00001, 5, 1), asked(-0.0, 5, 0),
    asked(1.292, 2, 0), asked(-9007199254740991.0, 10, 20), asked(9007199254740992.0, 0, 0),
    asked(f64::NAN, 11, 21), asked(f64::INFINITY, 0, 0), asked(f64::NEG_INFINITY, 0, 0),
    asked(0.5, 11, 0), asked(0.5, 10, 21),
];

/// Numbers that are tried with every number of decimals.
#[cfg(feature = "library")]
#[rustfmt::skip]
pub const NUMBERS: [f64; 40] = [
    0.0, -0.0, 1.0, -1.0, 0.5, 1.5, 2.5, 0.05, 0.005, 0.25, 0.125, 0.9, 0.99, 0.999, 0.99999, 0.9999999,
    0.9999999999, 0.99999999999, 1e-5, -1e-5, 1e-6, -1e-6, 1e-10, -1e-10, 1e-11, 5e-11, 4.9e-11,
    5e-324, -5e-324, f64::MIN_POSITIVE, 1.005, 0.015, 123456.789, -2.9, 0.1, 0.3,
    9007199254740991.0, -9007199254740991.0, 4503599627370495.5, 2251799813685247.75,
];

/// A decimal of up to 17 digits, as a reader of text would round it.
fn decimal(random: &mut Random) -> f64 {
    let digits = random.below(17) as u32 + 1;
    let number = random.below(10u64.pow(digits));
    let behind = match random.below(4) {
        0 => random.below(17) as u32 + 1,
        _ => random.below(u64::from(digits) + 1) as u32,
    };
    format!("{number}e-{behind}").parse().unwrap()
}

/// A short decimal, with a half of its last place or nearly a one behind it.
fn halved(random: &mut Random) -> f64 {
    let places = random.below(11) as u32;
    let most = 10u64.pow(random.below(7) as u32);
    let number = random.below(most);
    let behind = random.pick(&[
        "5",
        "5",
        "49999999",
        "50000001",
        "99999",
        "9999999999",
        "00001",
    ]);
    format!("{number}{behind}e-{}", places as usize + behind.len())
        .parse()
        .unwrap()
}

/// A number next to 2^53, or to a smaller power of two.
fn large(random: &mut Random) -> f64 {
    let top = 2f64.powi(53 - random.below(4) as i32);
    let most = 1 << random.below(20);
    top - random.below(most) as f64 / random.pick(&[1.0, 2.0, 4.0, 8.0])
}

pub fn drawn(random: &mut Random) -> Asked {
    let n = match random.below(16) {
        0 => f64::from_bits(random.below(1 << 52)),
        1 => f64::from_bits((970 + random.below(108)) << 52 | random.below(1 << 52)),
        2 | 3 => large(random),
        4..=7 => halved(random),
        8 => real(random),
        9 => random.unit(),
        _ => decimal(random),
    };
    let n = nudged(random, n) * random.pick(&[1.0, 1.0, -1.0]);
    let h = match random.below(200) {
        0 => random.pick(&[11, 12, u32::MAX]),
        _ => random.below(11) as u32,
    };
    let e = match random.below(200) {
        0 => random.pick(&[21, 22, u32::MAX]),
        _ => random.below(21) as u32,
    };
    asked(n, h, e)
}

/// A number of any decade, next to a power of ten or to where the mantissa becomes ten as often as
/// not, or too small.
fn of_a_decade(random: &mut Random) -> f64 {
    let power: f64 = format!("1e{}", random.within(-308, 15)).parse().unwrap();
    let n = match random.below(6) {
        0 => power,
        1 => power * 9.99999,
        2 => power * 9.999_995,
        3 => power * (1.0 + random.below(90) as f64 / 10.0),
        4 => power * (1.0 + 9.0 * random.unit()),
        _ => f64::from_bits(random.below(1 << 53)),
    };
    nudged(random, n) * random.pick(&[1.0, -1.0])
}

/// As labels of this notation are drawn.
pub fn drawn_for(random: &mut Random, notation: Notation) -> Asked {
    let asked = drawn(random);
    match notation {
        Notation::Scientific if random.below(4) > 0 => Asked {
            n: of_a_decade(random),
            ..asked
        },
        _ => asked,
    }
}

/// A number below zero that is nearer to it than the tolerance, or not much further.
#[cfg(feature = "library")]
pub fn vanishing(random: &mut Random) -> Asked {
    let h = random.below(11) as u32;
    let tolerance = 1.0 / 10u64.pow(h) as f64;
    let size = match random.below(8) {
        0 => 0.0,
        1 => f64::from_bits(random.below(1 << 52)),
        2 => nudged(random, tolerance),
        3 => tolerance * (1.0 + random.unit()),
        _ => tolerance * random.unit(),
    };
    asked(-size, h, random.below(21) as u32)
}

/// Every number above, and its neighbours, with every number of decimals.
#[cfg(feature = "library")]
pub fn all() -> impl Iterator<Item = Asked> {
    let numbers = NUMBERS
        .iter()
        .flat_map(|n| [*n, n.next_up(), n.next_down()]);
    numbers.flat_map(|n| (0..=10).flat_map(move |h| (0..=20).map(move |e| asked(n, h, e))))
}

/// Tensions of every size down to 10^-9.
#[cfg(feature = "library")]
pub fn tiny(random: &mut Random, h: u32, e: u32) -> Asked {
    let n = random.within(-1_000_000, 1_000_000) as f64;
    asked(n / 10f64.powi(random.below(16) as i32), h, e)
}

/// As an ordinary axis has them: up to six decimals.
#[cfg(feature = "library")]
pub fn ordinary(random: &mut Random, h: u32, e: u32) -> Asked {
    let n = random.within(-1_000_000_000, 1_000_000_000) as f64;
    asked(n / 10f64.powi(random.below(7) as i32), h, e)
}
