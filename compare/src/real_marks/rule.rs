//! The rule for marks of real axes, from the request's own words, each operation in plotters' order. Powers of ten are
//! those of Rust's parser.

use std::sync::LazyLock;

use super::RealMarks;

const FARTHEST: f64 = 1_000_000.0;
const MOST_ASKED: u32 = 1_000;
const MOST_ROUNDS: usize = 20;
const MOST_MARKS: usize = 2_000;

static POWERS: LazyLock<Vec<f64>> = LazyLock::new(|| (-307..=308).map(parsed).collect());

/// A power of ten as Rust reads it.
pub fn parsed(exponent: i32) -> f64 {
    format!("1e{exponent}").parse().unwrap()
}

pub struct Marks {
    pub list: Vec<f64>,
    /// How often the outer loop was begun.
    #[cfg_attr(not(feature = "library"), allow(dead_code))]
    pub rounds: usize,
}

#[derive(Clone, Copy)]
struct Scale {
    step: f64,
    grain: f64,
}

fn over_multiple(x: f64, s: f64) -> f64 {
    let cut = if s > 0.0 { f64::floor } else { f64::ceil };
    let over = x - cut(x / s) * s;
    match (over - s).abs() < f64::EPSILON {
        true => 0.0,
        false => over,
    }
}

/// The first and the last multiple of s on the axis.
fn outermost(lo: f64, hi: f64, s: f64) -> (f64, f64) {
    let first = lo - over_multiple(lo, s);
    let first = if first < lo { first + s } else { first };
    (first, hi - over_multiple(hi, s))
}

fn count(lo: f64, hi: f64, step: f64, parts: f64) -> u64 {
    let (first, last) = outermost(lo, hi, step / parts);
    (1.0 + (last - first) / step * parts).round() as u64
}

fn first_scale(lo: f64, hi: f64, m: u64) -> Scale {
    let length = hi - lo;
    let decade = *POWERS.iter().rfind(|&&power| power <= length).unwrap();
    let grain = decade / 10.0;
    match 1 + (length / decade).floor() as u64 > m {
        true => Scale {
            step: decade * 10.0,
            grain: grain * 10.0,
        },
        false => Scale {
            step: decade,
            grain,
        },
    }
}

/// The scale, and in which round it was found.
fn scale(lo: f64, hi: f64, m: u64) -> Result<(Scale, usize), i32> {
    let Scale {
        mut step,
        mut grain,
    } = first_scale(lo, hi, m);
    for round in 1..=MOST_ROUNDS {
        let mut kept = step;
        for parts in [2.0, 5.0, 10.0] {
            if count(lo, hi, step, parts) > m {
                return Ok((Scale { step: kept, grain }, round));
            }
            kept = step / parts;
        }
        step /= 10.0;
        grain /= 10.0;
    }
    Err(17)
}

fn list(lo: f64, hi: f64, Scale { step, grain }: Scale) -> Result<Vec<f64>, i32> {
    let (first, last) = outermost(lo, hi, step);
    let base = (first / grain).floor() * grain;
    let mut distance = first - base;
    let mut list = Vec::new();
    while last - distance - base >= -f64::EPSILON {
        if list.len() == MOST_MARKS {
            return Err(17);
        }
        if (distance / grain).round() * grain < 0.0 {
            distance += grain;
        }
        list.push(distance + base);
        distance += step;
    }
    Ok(list)
}

pub fn marks(RealMarks { a, b, m }: RealMarks) -> Result<Marks, i32> {
    let found = |list, rounds| Ok(Marks { list, rounds });
    if m == 0 {
        return found(vec![], 0);
    }
    let admitted = |end: f64| (-FARTHEST..=FARTHEST).contains(&end);
    if !(admitted(a) && admitted(b)) || m > MOST_ASKED {
        return Err(17);
    }
    let (lo, hi) = if b < a { (b, a) } else { (a, b) };
    match (lo - hi).abs() {
        near if near < f64::EPSILON => return found(vec![lo], 0),
        near if near < 0.001 => return Err(17),
        _ => {}
    }
    let (scale, rounds) = scale(lo, hi, m.into())?;
    found(list(lo, hi, scale)?, rounds)
}
