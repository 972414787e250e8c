//! The rules for readings, from the scope document's own words.

use super::Reading;
use crate::admitted;
use crate::call::Answer;
use crate::counts::rule::{count, value_at};

/// The greatest whole number that is not above n ÷ d.
fn floor_div(n: i128, d: i128) -> i128 {
    if d < 0 {
        (-n).div_euclid(-d)
    } else {
        n.div_euclid(d)
    }
}

/// The index of a pixel on an axis of n values.
pub fn index(n: i128, x: i32, p: i32, q: i32) -> Option<i128> {
    let (offset, length) = (i128::from(x - p), i128::from(q - p));
    match length {
        0 if offset > 0 && n > 0 => None,
        0 => Some(0),
        _ => Some(floor_div(offset * n, length).max(0)),
    }
}

pub fn whole(input: Reading<i32>) -> Answer<i32> {
    let Reading { a, b, x, p, q } = input;
    admitted::whole([a, b])?;
    admitted::film([x, p, q])?;
    index(count(a, b), x, p, q).map_or(Ok(None), |k| value_at(a, k))
}

pub fn real(input: Reading<f64>) -> Answer<f64> {
    let Reading { a, b, x, p, q } = input;
    admitted::film([x, p, q])?;
    let outside = x < p && x < q || x > p && x > q;
    if outside || p == q {
        return Ok(None);
    }
    let part = f64::from(x - p) / f64::from(q - p);
    Ok(Some((b - a) * part + a))
}
