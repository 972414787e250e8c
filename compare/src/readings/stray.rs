//! How far a reading can stray from the value that was placed: plotters' own places and readings,
//! held to what request (m) lets a setter rely on, in exact arithmetic.

use std::fmt;

use plotters::coord::ranged1d::{Ranged, ReversibleRanged};
use plotters::coord::{RangedCoordf64, RangedCoordi32};

use super::directed::Directed;
use crate::call::Call;
use crate::cases::{film, whole_ends};
use crate::random::Random;
use crate::reference::caught;
use crate::tally::{ensure, Tally};

/// How many values are placed and read back.
const DRAWN: usize = 10_000_000;

/// An axis with whole ends that differ, a whole value on it, and limits that differ.
#[derive(Clone, Copy)]
struct Placed {
    a: i32,
    b: i32,
    v: i32,
    p: i32,
    q: i32,
}

impl fmt::Display for Placed {
    fn fmt(&self, f: &mut fmt::Formatter<'_>) -> fmt::Result {
        let Placed { a, b, v, p, q } = self;
        write!(f, "a {a}, b {b}, v {v}, p {p}, q {q}")
    }
}

/// A value whose share of a pixel is about where its place becomes one more, or any value; on a film
/// of any length, of few pixels as often as not.
fn drawn(random: &mut Random) -> Placed {
    loop {
        let (a, b) = whole_ends(random);
        let (p, mut q) = film(random);
        if random.below(2) == 0 {
            q = p.saturating_add(random.pick(&[-3, -2, -1, 1, 2, 3]));
        }
        let within = |n: i32, most: i32| (-most..=most).contains(&n);
        let admitted = [a, b].iter().all(|&n| within(n, 1_000_000_000))
            && [p, q].iter().all(|&n| within(n, 1_000_000));
        if !admitted || a == b || p == q {
            continue;
        }
        let (length, pixels) = (i128::from(b) - i128::from(a), i128::from(q.abs_diff(p)));
        let share = random.pick(&[0, 998_000_000, 998_999_999, 999_000_000, 1_000_000_000]);
        let parts = random.within(0, pixels - 1) * 1_000_000_000 + share;
        let way = match random.below(4) {
            0 => random.within(0, length.abs()),
            _ => (length.abs() * parts / pixels / 1_000_000_000 + random.within(-1, 1))
                .clamp(0, length.abs()),
        };
        let v = i128::from(a) + way * length.signum();
        return Placed { a, b, v: v as i32, p, q };
    }
}

/// 2^64 times the distance from x to v, rounded up: x is at most 2^31 in size, so that this is exact
/// but for what lies below 2^-64.
fn distance(x: f64, v: i32) -> i128 {
    let scaled = x * 2f64.powi(64);
    let (low, high) = (scaled.floor() as i128, scaled.ceil() as i128);
    let v = i128::from(v) << 64;
    (low - v).abs().max((high - v).abs())
}

impl Placed {
    fn length(self) -> i128 {
        i128::from(self.b.abs_diff(self.a))
    }

    fn pixels(self) -> i128 {
        i128::from(self.q.abs_diff(self.p))
    }

    /// On the real axis: how far the reading is from the value, times the film's length, as a part
    /// of the axis's; at most one more than that.
    fn real(self) -> Result<f64, String> {
        let Placed { a, b, v, p, q } = self;
        let axis = RangedCoordf64::from(f64::from(a)..f64::from(b));
        let pixel = axis.map(&v.into(), (p, q));
        let Some(reading) = axis.unmap(pixel, (p, q)) else {
            return Err(format!("pixel {pixel} is read as none"));
        };
        let away = distance(reading, v) * self.pixels();
        ensure(away <= (self.length() + 1) << 64, || {
            format!("pixel {pixel} is read as {reading}, too far")
        })?;
        ensure(away < self.length() << 64, || {
            format!("pixel {pixel} is read as {reading}, not below the axis's length")
        })?;
        Ok(away as f64 / (self.length() << 64) as f64)
    }

    /// On the whole axis, read by the way it runs: less than both lengths together.
    fn whole(self) -> Result<f64, String> {
        let Placed { a, b, v, p, q } = self;
        let x = RangedCoordi32::from(a..b).map(&v, (p, q));
        let read = caught(|| Directed { a, b, x, p, q }.plotters()).flatten();
        let Some(reading) = read else {
            return Err(format!("pixel {x} is not read"));
        };
        let away = i128::from(reading.abs_diff(v)) * self.pixels();
        let most = self.length() + self.pixels();
        ensure(away < most, || format!("pixel {x} is read as {reading}, too far"))?;
        Ok(away as f64 / most as f64)
    }
}

/// One of the two statements on every drawn axis, and the worst that was met.
fn hold(title: &str, stray: impl Fn(Placed) -> Result<f64, String>) -> bool {
    let random = &mut Random::new();
    let mut tally = Tally::new(title);
    let mut worst = (0.0, None);
    for _ in 0..DRAWN {
        let placed = drawn(random);
        let found = stray(placed).map(|ratio| {
            if worst.0 < ratio {
                worst = (ratio, Some(placed));
            }
        });
        tally.count(placed.length() as u128, placed, found);
    }
    if let (ratio, Some(placed)) = worst {
        println!("{title}: at worst {ratio:.12} of the bound ({placed})");
    }
    tally.close() && worst.0 > 0.99
}

pub fn compare() -> bool {
    hold("real reading of a whole value's place", Placed::real)
        & hold("directed reading of a needle's place", Placed::whole)
}
