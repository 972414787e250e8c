//! Inputs of places.

use super::Place;
use crate::admitted::BOUND;
use crate::cases::{film, held, nudged, real, real_ends, whole, whole_ends};
use crate::cases::{Cases, Pick, PIXELS, REALS, SMALL, SMALL_REALS, WHOLES};
use crate::random::Random;

#[cfg(feature = "library")]
use crate::cases::ordinary;

const fn place<N: Copy>(a: N, b: N, v: N, p: i32, q: i32) -> Place<N> {
    Place { a, b, v, p, q }
}

/// A place made of picked numbers.
fn picked<N: Copy>(pick: &mut impl Pick, values: [&[N]; 2]) -> Place<N> {
    let [a, b, v] = [(); 3].map(|()| pick.pick(values));
    let [p, q] = [(); 2].map(|()| pick.pick([&PIXELS, &SMALL]));
    place(a, b, v, p, q)
}

/// A distance from p, as a rule close to where the place changes or is refused.
fn distance(random: &mut Random, length: f64) -> f64 {
    let pixels = match random.below(8) {
        0 => random.pick(&[1.0, -1.0]) * (BOUND as f64 + random.below(3) as f64),
        1 | 2 => random.below(11) as f64 - 5.0,
        3 => length * (3.0 * random.unit() - 1.0),
        _ => length * random.unit(),
    };
    let beside = [0.0, 0.0, 0.5, 0.001, -0.001, 0.0005, -0.0005, 0.999, -0.999];
    pixels.round() + random.pick(&beside)
}

/// The value at a distance from p.
fn value_at(distance: f64, length: f64, a: f64, b: f64) -> f64 {
    a + (b - a) * distance / length
}

impl Cases for Place<i32> {
    const WORKED: &'static [Self] = &[place(7, 7, 7, 100, 300)];

    fn picked(pick: &mut impl Pick) -> Self {
        picked(pick, [&WHOLES, &SMALL])
    }

    fn drawn(random: &mut Random) -> Self {
        let ((a, b), (p, q)) = (whole_ends(random), film(random));
        let length = f64::from(q) - f64::from(p);
        let v = match random.below(8) {
            0 => random.pick(&[a, b]),
            1 => whole(random),
            _ => {
                let at = value_at(distance(random, length), length, a.into(), b.into());
                held(at.round() as i64).saturating_add(random.pick(&[0, 0, 1, -1]))
            }
        };
        place(a, b, v, p, q)
    }

    #[cfg(feature = "library")]
    fn ordinary(random: &mut Random) -> Self {
        let (a, b) = ordinary::ends(random, ordinary::whole);
        let (p, q) = ordinary::film(random);
        let span = f64::from(b) - f64::from(a);
        place(a, b, (f64::from(a) + random.unit() * span) as i32, p, q)
    }
}

impl Cases for Place<f64> {
    const WORKED: &'static [Self] = &[place(7.0, 7.0, 7.0, 100, 300)];

    fn picked(pick: &mut impl Pick) -> Self {
        picked(pick, [&REALS, &SMALL_REALS])
    }

    fn drawn(random: &mut Random) -> Self {
        let ((a, b), (p, q)) = (real_ends(random), film(random));
        let length = f64::from(q) - f64::from(p);
        let v = match random.below(8) {
            0 => random.pick(&[a, b]),
            1 => real(random),
            _ => value_at(distance(random, length), length, a, b),
        };
        place(a, b, nudged(random, v), p, q)
    }

    #[cfg(feature = "library")]
    fn ordinary(random: &mut Random) -> Self {
        let (a, b) = ordinary::ends(random, ordinary::real);
        let (p, q) = ordinary::film(random);
        place(a, b, a + random.unit() * (b - a), p, q)
    }
}
