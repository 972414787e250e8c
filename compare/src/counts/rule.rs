//! The rules for counts and indices, from the scope document's own words.

use super::{FromIndex, IndexOf, Size};
use crate::admitted;
use crate::call::Answer;

/// The largest i32.
pub const LAST: i128 = 2_147_483_647;

pub fn size(Size { a, b }: Size) -> Answer<u64> {
    admitted::whole([a, b])?;
    Ok(Some(count(a, b) as u64))
}

/// The count of an admitted axis.
pub fn count(a: i32, b: i32) -> i128 {
    if b < a {
        0
    } else {
        i128::from(b) - i128::from(a) + 1
    }
}

pub fn index_of(IndexOf { a, b, v }: IndexOf) -> Answer<u64> {
    admitted::whole([a, b, v])?;
    let index = i64::from(v) - i64::from(a);
    Ok(u64::try_from(index).ok())
}

pub fn from_index(FromIndex { a, b, k }: FromIndex) -> Answer<i32> {
    admitted::whole([a, b])?;
    value_at(a, k.into())
}

/// The value at an index of an admitted axis.
pub fn value_at(a: i32, k: i128) -> Answer<i32> {
    let value = i128::from(a) + k;
    if k > LAST {
        Ok(None)
    } else if value > LAST {
        Err(10)
    } else {
        Ok(Some(value as i32))
    }
}
