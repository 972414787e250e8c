//! The rule for places, from the scope document's own words.

use super::Place;
use crate::admitted::{self, BOUND};
use crate::call::Answer;
use crate::entry::Entry;

/// The greatest whole number that is not above it; far out, any number far out.
fn floor(x: f64) -> i128 {
    let cut = x.clamp(-1e30, 1e30) as i128;
    if cut as f64 > x {
        cut - 1
    } else {
        cut
    }
}

fn ceil(x: f64) -> i128 {
    -floor(-x)
}

pub fn place<N: Entry>(Place { a, b, v, p, q }: Place<N>) -> Answer<i32> {
    N::admitted(&[a, b, v])?;
    admitted::film([p, q])?;
    let (length, t) = (q - p, v.above(a) / b.above(a));
    if a == b {
        return Ok(Some(length / 2));
    }
    if length == 0 || t == f64::INFINITY {
        return Ok(Some(q));
    }
    if t == f64::NEG_INFINITY {
        return Ok(Some(p));
    }
    let product = f64::from(length) * t;
    let added = match length {
        _ if t.is_nan() => 0,
        1.. => floor(product + 0.001),
        _ => ceil(product - 0.001),
    };
    if added.unsigned_abs() > BOUND as u128 {
        return Err(5);
    }
    Ok(Some(p + added as i32))
}
