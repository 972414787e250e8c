//! Counts of whole axes, indices of their values and values at an index.

use crate::refusal::{answered, answered_or_none, ask, declare, Refusal};
use crate::RangedCoordi32;

declare!("RangedCoordi32::size`]", culv_whole_size((a: i32, b: i32) n: *mut u64));
declare!("RangedCoordi32::index_of`]", culv_whole_index_of((a: i32, b: i32) v: i32, k: *mut u64));
declare!("RangedCoordi32::from_index`]", culv_whole_from_index((a: i32, b: i32) k: u64, v: *mut i32));

impl RangedCoordi32 {
    /// The number of values from the first end to the second: 0 on a falling axis.
    ///
    /// Refused as [`Refusal::WholeNotAdmitted`].
    pub fn size(self) -> Result<u64, Refusal> {
        ask!(answered, culv_whole_size(self.0, self.1))
    }

    /// The index of a value, which may lie past the second end; none below the first end.
    ///
    /// Refused as [`Refusal::WholeNotAdmitted`].
    pub fn index_of(self, v: i32) -> Result<Option<u64>, Refusal> {
        ask!(answered_or_none, culv_whole_index_of(self.0, self.1, v))
    }

    /// The value at an index, even past the second end; none if the index is above `i32::MAX`.
    ///
    /// Refused as [`Refusal::WholeNotAdmitted`] or [`Refusal::AboveI32`].
    #[allow(clippy::wrong_self_convention)] // plotters' name
    pub fn from_index(self, k: u64) -> Result<Option<i32>, Refusal> {
        ask!(answered_or_none, culv_whole_from_index(self.0, self.1, k))
    }
}

#[cfg(test)]
mod tests {
    use super::*;

    const AXIS: RangedCoordi32 = RangedCoordi32(1, 9);

    #[test]
    fn sizes() {
        assert_eq!(AXIS.size(), Ok(9));
        assert_eq!(RangedCoordi32(9, 1).size(), Ok(0));
        let whole = RangedCoordi32(-1_000_000_000, 1_000_000_000);
        assert_eq!(whole.size(), Ok(2_000_000_001));
    }

    #[test]
    fn indices_and_values() {
        assert_eq!(AXIS.index_of(0), Ok(None));
        assert_eq!(AXIS.index_of(12), Ok(Some(11)));
        assert_eq!(AXIS.from_index(11), Ok(Some(12)));
        assert_eq!(AXIS.from_index(2_147_483_646), Ok(Some(i32::MAX)));
        assert_eq!(AXIS.from_index(2_147_483_648), Ok(None));
        assert_eq!(AXIS.from_index(u64::MAX), Ok(None));
    }

    #[test]
    fn refusals() {
        let beyond = RangedCoordi32(0, 1_000_000_001);
        assert_eq!(beyond.size(), Err(Refusal::WholeNotAdmitted));
        assert_eq!(beyond.index_of(-1), Err(Refusal::WholeNotAdmitted));
        assert_eq!(beyond.from_index(u64::MAX), Err(Refusal::WholeNotAdmitted));
        assert_eq!(AXIS.from_index(2_147_483_647), Err(Refusal::AboveI32));
    }
}
