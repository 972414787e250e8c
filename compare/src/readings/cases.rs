//! Inputs of readings.

use super::Reading;
use crate::cases::{film, held, pixel, real_ends, whole, whole_ends};
use crate::cases::{Cases, Pick, PIXELS, REALS, SMALL, SMALL_REALS, WHOLES};
use crate::random::Random;

#[cfg(feature = "library")]
use crate::cases::ordinary;

const fn reading<N: Copy>(a: N, b: N, x: i32, p: i32, q: i32) -> Reading<N> {
    Reading { a, b, x, p, q }
}

/// A reading made of picked numbers.
fn picked<N: Copy>(pick: &mut impl Pick, ends: [&[N]; 2]) -> Reading<N> {
    let [a, b] = [(); 2].map(|()| pick.pick(ends));
    let [x, p, q] = [(); 3].map(|()| pick.pick([&PIXELS, &SMALL]));
    reading(a, b, x, p, q)
}

/// A pixel at such a part of the way from p to q, or beside it.
fn pixel_at(random: &mut Random, part: f64, (p, q): (i32, i32)) -> i32 {
    let at = f64::from(p) + part * (f64::from(q) - f64::from(p));
    (at.round() as i32).saturating_add(random.pick(&[0, 0, 1, -1]))
}

fn any_pixel(random: &mut Random, limits: (i32, i32)) -> i32 {
    let part = match random.below(8) {
        0 => return pixel(random),
        1 => 0.0,
        2 => 1.0,
        3 => 4.0 * random.unit() - 1.5,
        _ => random.unit(),
    };
    pixel_at(random, part, limits)
}

/// A pixel where one of n parts of the film begins, or any.
pub fn part_or_any(random: &mut Random, n: u64, limits: (i32, i32)) -> i32 {
    if random.below(2) == 0 {
        return any_pixel(random, limits);
    }
    let part = random.below(n + 2) as f64 / n.max(1) as f64;
    pixel_at(random, part, limits)
}

/// A reading where the next value of the axis begins.
fn at_a_step(random: &mut Random) -> Reading<i32> {
    let ((a, b), (p, q)) = (whole_ends(random), film(random));
    let n = i64::from(b).abs_diff(a.into()) + 1;
    let part = random.below(n + 3) as f64 / n as f64;
    reading(a, b, pixel_at(random, part, (p, q)), p, q)
}

/// A reading at about the last index that has a value.
fn at_the_last(random: &mut Random) -> Reading<i32> {
    let (a, p) = (whole(random), pixel(random));
    let length = random.below(12) as i64 + 1;
    let away = random.below(40) as i64 + 1;
    let last = i64::from(i32::MAX) - random.pick(&[i64::from(a), 0]) + random.below(7) as i64 - 3;
    let b = held(i64::from(a) + last * length / away - 1);
    let [away, length] = [away, length].map(|n| n as i32 * if p < 0 { 1 } else { -1 });
    reading(a, b, p + away, p, p + length)
}

impl Cases for Reading<i32> {
    const WORKED: &'static [Self] = &[
        reading(0, 9, 99, 0, 100),
        reading(0, 9, 100, 0, 100),
        reading(0, 9, -1, 0, 100),
        reading(9, 0, 50, 0, 100),
    ];

    fn picked(pick: &mut impl Pick) -> Self {
        picked(pick, [&WHOLES, &SMALL])
    }

    fn drawn(random: &mut Random) -> Self {
        match random.below(4) {
            0 => at_a_step(random),
            1 => at_the_last(random),
            _ => {
                let ((a, b), (p, q)) = (whole_ends(random), film(random));
                reading(a, b, any_pixel(random, (p, q)), p, q)
            }
        }
    }

    #[cfg(feature = "library")]
    fn ordinary(random: &mut Random) -> Self {
        let (a, b) = ordinary::ends(random, ordinary::whole);
        let (p, q) = ordinary::film(random);
        reading(a, b, ordinary::pixel(random, (p, q)), p, q)
    }
}

impl Cases for Reading<f64> {
    const WORKED: &'static [Self] = &[reading(0.0, 49.0, 1, 0, 49)];

    fn picked(pick: &mut impl Pick) -> Self {
        picked(pick, [&REALS, &SMALL_REALS])
    }

    fn drawn(random: &mut Random) -> Self {
        let ((a, b), (p, q)) = (real_ends(random), film(random));
        reading(a, b, any_pixel(random, (p, q)), p, q)
    }

    #[cfg(feature = "library")]
    fn ordinary(random: &mut Random) -> Self {
        let (a, b) = ordinary::ends(random, ordinary::real);
        let (p, q) = ordinary::film(random);
        reading(a, b, ordinary::pixel(random, (p, q)), p, q)
    }
}
