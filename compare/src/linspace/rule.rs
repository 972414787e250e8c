//! The rules for stepped axes, from the scope document's own words.

use std::iter::successors;

use super::calls::{FromIndex, IndexOf, Map, Unmap};
use super::Steps;
use crate::admitted;
use crate::call::Answer;
use crate::entry::Entry;
use crate::places::rule as places;
use crate::readings::rule::index;
use crate::search::rule as search;

/// A list may have so many entries.
pub const MOST: usize = 65_536;

pub fn admitted<N: Entry>(axis: Steps<N>) -> Result<(), i32> {
    N::admitted(&[axis.a, axis.b, axis.d])
}

/// The entries, which may have no end, of an admitted axis.
pub fn entries<N: Entry>(Steps { a, b, d }: Steps<N>) -> impl Iterator<Item = N> {
    let before = move |x: N| a < b && x < b || a > b && x > b;
    let first = (before(a) && before(a + d)).then_some(a);
    successors(first, move |&x| before(x + d).then_some(x + d))
}

/// The step is zero or leads away from b.
fn leads_away<N: Entry>(Steps { a, b, d }: Steps<N>) -> bool {
    a < b && d <= N::ZERO || a > b && d >= N::ZERO
}

/// The number of entries.
pub fn count<N: Entry>(axis: Steps<N>) -> Result<usize, i32> {
    admitted(axis)?;
    if leads_away(axis) {
        return Err(6);
    }
    let count = entries(axis).take(MOST + 1).count();
    if count > MOST {
        return Err(7);
    }
    Ok(count)
}

/// The whole list.
pub fn list<N: Entry>(axis: Steps<N>) -> Result<Vec<N>, i32> {
    count(axis).map(|_| entries(axis).collect())
}

pub fn size<N: Entry>(axis: Steps<N>) -> Answer<u64> {
    count(axis).map(|count| Some(count as u64))
}

pub fn from_index<N: Entry>(FromIndex { axis, k }: FromIndex<N>) -> Answer<N> {
    let count = count(axis)? as u64;
    Ok((0..count)
        .zip(entries(axis))
        .find_map(|(at, entry)| (at == k).then_some(entry)))
}

pub fn index_of<N: Entry>(IndexOf { axis, v, method }: IndexOf<N>) -> Answer<u64> {
    search::known(method)?;
    N::admitted(&[v])?;
    search::index(&list(axis)?, v, method)
}

pub fn map<N: Entry>(Map { axis, place }: Map<N>) -> Answer<i32> {
    admitted(axis)?;
    let place = places::place(place)?;
    count(axis).map(|_| place)
}

pub fn unmap<N: Entry>(Unmap { axis, x, p, q }: Unmap<N>) -> Answer<N> {
    admitted(axis)?;
    admitted::film([x, p, q])?;
    let count = count(axis)?;
    let k = index(count as i128, x, p, q).and_then(|k| usize::try_from(k).ok());
    Ok(k.and_then(|k| entries(axis).nth(k)))
}

/// The marks; a list too short is left to the caller.
pub fn marks<N: Entry>(axis: Steps<N>, m: u32) -> Result<Vec<N>, i32> {
    admitted(axis)?;
    if m == 0 && entries(axis).next().is_some() {
        return Err(3);
    }
    let list = list(axis)?;
    let Some(last) = list.len().checked_sub(1) else {
        return Ok(list);
    };
    let marks = crate::numeric::marks(&(0..=last as i128), 0, last as i128, m)?;
    let step = marks.step as usize;
    Ok(list.into_iter().step_by(step).take(marks.count).collect())
}
