//! Searches of lists that strictly rise or strictly fall.

use crate::refusal::{answered_or_none, ask, declare, Refusal};

/// Which entry of a list is meant by a target.
#[derive(Clone, Copy, Debug, PartialEq, Eq, Hash)]
#[repr(u32)]
pub enum RoundingMethod {
    /// The one that equals the target.
    Exact = 0,
    /// Up: the least one that is not below the target.
    Ceil = 1,
    /// Down: the greatest one that is not above the target.
    Floor = 2,
    /// The nearest one, the later of two that are as near; index 0 in an empty list.
    Round = 3,
}

impl RoundingMethod {
    /// The number by which the C interface knows the method.
    pub fn number(self) -> u32 {
        self as u32
    }
}

/// A search, by its C function.
macro_rules! search {
    ($(#[$doc:meta])* $search:ident, $number:ty, $function:ident) => {
        declare!(
            concat!(stringify!($search), "`]"),
            $function((list: *const $number, len: usize) target: $number, method: u32, k: *mut u64)
        );

        $(#[$doc])*
        pub fn $search(
            list: &[$number],
            target: $number,
            method: RoundingMethod,
        ) -> Result<Option<u64>, Refusal> {
            let (start, len) = (list.as_ptr(), list.len());
            ask!(answered_or_none, $function(start, len, target, method.number()))
        }
    };
}

search!(
    /// The index of the entry that is meant, or none.
    ///
    /// Refused as [`Refusal::WholeNotAdmitted`] or [`Refusal::NotMonotone`].
    ///
    /// ```
    /// use culvraod::{search_whole, RoundingMethod};
    ///
    /// assert_eq!(search_whole(&[0, 4, 8], 2, RoundingMethod::Round), Ok(Some(1)));
    /// assert_eq!(search_whole(&[0, 4, 8], 2, RoundingMethod::Exact), Ok(None));
    /// ```
    search_whole, i32, culv_search_whole
);

search!(
    /// The index of the entry that is meant, or none; differences are rounded.
    ///
    /// Refused as [`Refusal::NotMonotone`] or [`Refusal::NanTarget`].
    search_real, f64, culv_search_real
);

#[cfg(test)]
mod tests {
    use super::RoundingMethod::{Ceil, Exact, Floor, Round};
    use super::*;

    #[test]
    fn whole_searches() {
        let (rising, falling) = ([0, 4, 8], [8, 4, 0]);
        assert_eq!(search_whole(&rising, 2, Round), Ok(Some(1)));
        assert_eq!(search_whole(&falling, 2, Round), Ok(Some(2)));
        assert_eq!(search_whole(&rising, 5, Ceil), Ok(Some(2)));
        assert_eq!(search_whole(&falling, 5, Ceil), Ok(Some(0)));
        assert_eq!(search_whole(&rising, 5, Floor), Ok(Some(1)));
        assert_eq!(search_whole(&falling, -1, Floor), Ok(None));
        assert_eq!(search_whole(&falling, 4, Exact), Ok(Some(1)));
        assert_eq!(search_whole(&falling, 5, Exact), Ok(None));
    }

    #[test]
    fn real_searches() {
        let list = [f64::NEG_INFINITY, -0.0, 1.0, f64::INFINITY];
        assert_eq!(search_real(&list, 0.0, Exact), Ok(Some(1)));
        assert_eq!(search_real(&list, 0.5, Round), Ok(Some(2)));
        assert_eq!(search_real(&list, 1e300, Round), Ok(Some(2)));
        assert_eq!(search_real(&list, f64::NAN, Exact), Ok(None));
        assert_eq!(search_real(&[-1e308, 1e308], -9e307, Round), Ok(Some(0)));
    }

    #[test]
    fn empty_lists() {
        assert_eq!(search_whole(&[], 7, Round), Ok(Some(0)));
        assert_eq!(search_whole(&[], 7, Ceil), Ok(None));
        assert_eq!(search_real(&[], f64::NAN, Round), Ok(Some(0)));
        assert_eq!(search_real(&[], f64::NAN, Floor), Ok(None));
    }

    #[test]
    fn refusals() {
        let beyond = 1_000_000_001;
        let refused = |list: &[i32], target| search_whole(list, target, Exact).unwrap_err();
        assert_eq!(refused(&[0, 0, beyond], 0), Refusal::WholeNotAdmitted);
        assert_eq!(refused(&[0, 0], beyond), Refusal::WholeNotAdmitted);
        assert_eq!(refused(&[0, 1, 1], 0), Refusal::NotMonotone);
        let refused = |list: &[f64], target| search_real(list, target, Ceil).unwrap_err();
        assert_eq!(refused(&[-0.0, 0.0], f64::NAN), Refusal::NotMonotone);
        assert_eq!(refused(&[f64::NAN], 0.0), Refusal::NotMonotone);
        assert_eq!(refused(&[0.0], f64::NAN), Refusal::NanTarget);
    }
}
