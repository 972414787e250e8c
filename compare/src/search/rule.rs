//! The rules for searches, from the scope document's own words.

use super::Search;
use crate::call::Answer;
use crate::entry::Entry;

pub const EXACT: u32 = 0;
pub const UP: u32 = 1;
pub const DOWN: u32 = 2;
pub const NEAREST: u32 = 3;

/// Refuses a number that stands for no search.
pub fn known(method: u32) -> Result<(), i32> {
    (method <= NEAREST).then_some(()).ok_or(1)
}

/// The least entry that is not below the target.
fn up<N: Entry>(list: &[N], target: N) -> Option<usize> {
    let qualify = (0..list.len()).filter(|&k| list[k] >= target);
    qualify.reduce(|best, k| if list[k] < list[best] { k } else { best })
}

/// The greatest entry that is not above the target.
fn down<N: Entry>(list: &[N], target: N) -> Option<usize> {
    let qualify = (0..list.len()).filter(|&k| list[k] <= target);
    qualify.reduce(|best, k| if list[k] > list[best] { k } else { best })
}

/// The nearer of the two neighbours, the later one if both are as near.
fn nearest<N: Entry>(list: &[N], target: N) -> Option<usize> {
    let (below, above) = match (down(list, target), up(list, target)) {
        (Some(below), Some(above)) => (below, above),
        (only, None) | (None, only) => return only.or(list.is_empty().then_some(0)),
    };
    let to_below = target.above(list[below]);
    let to_above = list[above].above(target);
    if to_below < to_above {
        Some(below)
    } else if to_above < to_below {
        Some(above)
    } else {
        Some(below.max(above))
    }
}

/// The search of a list that can be searched.
fn found<N: Entry>(list: &[N], target: N, method: u32) -> Option<usize> {
    match method {
        EXACT => list.iter().position(|&entry| entry == target),
        UP => up(list, target),
        DOWN => down(list, target),
        _ => nearest(list, target),
    }
}

/// What a known search gives on a list that strictly rises or falls.
pub fn index<N: Entry>(list: &[N], target: N, method: u32) -> Answer<u64> {
    if target.is_nan() && !list.is_empty() && method != EXACT {
        return Err(9);
    }
    Ok(found(list, target, method).map(|k| k as u64))
}

/// Strictly rising or falling, and without NaN.
fn can_be_searched<N: Entry>(list: &[N]) -> bool {
    let rises = list.windows(2).all(|pair| pair[0] < pair[1]);
    let falls = list.windows(2).all(|pair| pair[0] > pair[1]);
    (rises || falls) && !list.iter().any(|entry| entry.is_nan())
}

pub fn search<N: Entry>(input: Search<N>) -> Answer<u64> {
    let Search {
        list,
        target,
        method,
    } = input;
    known(method)?;
    N::admitted(list)?;
    N::admitted(&[target])?;
    if !can_be_searched(list) {
        return Err(8);
    }
    index(list, target, method)
}
