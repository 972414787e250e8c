//! The rules for segments, from the scope document's own words.

use super::axis::Axis;
use super::calls::{FromIndex, IndexOf, Map, Unmap};
use super::value::{Value, EXACT, LAST};
use crate::admitted;
use crate::call::Answer;
use crate::entry::Entry;
use crate::readings::rule::index;

/// The number of entries that segments stand on; none, or too many, is refused.
pub fn entries<A: Axis>(axis: A) -> Result<u64, i32> {
    let n = axis.count()?;
    if n == 0 || n > A::MOST {
        return Err(4);
    }
    Ok(n)
}

/// Refuses a kind that there is not, and a number that is looked at and not admitted.
fn meant<N: Entry>(Value { v, kind }: Value<N>) -> Result<(), i32> {
    match kind {
        LAST => Ok(()),
        0..LAST => N::admitted(&[v]),
        _ => Err(1),
    }
}

/// Length over count, rounded as f32, then to a whole number, halves away from zero. A quotient
/// rounded to f64 first is the same f32, and no sum here is rounded.
fn margin(n: u64, (p, q): (i32, i32)) -> i32 {
    let quotient = f64::from((f64::from(q - p) / n as f64) as f32);
    let size = (quotient.abs() + 0.5) as i32;
    if quotient < 0.0 {
        -size
    } else {
        size
    }
}

pub fn size<A: Axis>(axis: A) -> Answer<u64> {
    axis.admitted()?;
    Ok(Some(entries(axis)? + 1))
}

pub fn map<A: Axis>(Map { search, p, q }: Map<A>) -> Answer<i32> {
    let (axis, method, value) = (search.axis, search.method, search.value);
    A::known(method)?;
    meant(value)?;
    axis.admitted()?;
    admitted::film([p, q])?;
    let n = entries(axis)?;
    let margin = margin(n, (p, q));
    let place = |v| axis.place(v, (p, q - margin)).map(Option::unwrap);
    if value.kind == LAST {
        return Ok(Some(q));
    }
    let start = place(value.v)?;
    if value.kind == EXACT {
        return Ok(Some(start));
    }
    let successor = axis.index(value.v, method)?.map(|k| k + 1);
    match successor.filter(|&k| k < n).and_then(|k| axis.entry(k)) {
        Some(w) => Ok(Some((start + place(w)?) / 2)),
        None => Ok(Some(start + margin / 2)),
    }
}

pub fn index_of<A: Axis>(input: IndexOf<A>) -> Answer<u64> {
    let (axis, method, value) = (input.axis, input.method, input.value);
    A::known(method)?;
    meant(value)?;
    axis.admitted()?;
    let n = entries(axis)?;
    if value.kind == LAST {
        return Ok(Some(n));
    }
    axis.index(value.v, method)
}

/// The value at an index, where there are n entries.
fn at<A: Axis>(axis: A, n: u64, k: u64) -> Option<Value<A::Number>> {
    if k == n {
        let (v, kind) = (A::Number::ZERO, LAST);
        return Some(Value { v, kind });
    }
    let v = if k < n { axis.entry(k) } else { None };
    v.map(|v| Value { v, kind: EXACT })
}

pub fn from_index<A: Axis>(FromIndex { axis, k }: FromIndex<A>) -> Answer<Value<A::Number>> {
    axis.admitted()?;
    Ok(at(axis, entries(axis)?, k))
}

pub fn unmap<A: Axis>(Unmap { axis, x, p, q }: Unmap<A>) -> Answer<Value<A::Number>> {
    axis.admitted()?;
    admitted::film([x, p, q])?;
    let n = entries(axis)?;
    let k = index(i128::from(n) + 1, x, p, q).and_then(|k| u64::try_from(k).ok());
    Ok(k.and_then(|k| at(axis, n, k)))
}
