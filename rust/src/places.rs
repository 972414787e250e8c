//! Places of values on the film.

use crate::refusal::{answered, ask, declare, Refusal};
use crate::{Limit, RangedCoordf64, RangedCoordi32};

/// Places on one kind of axis, by their C function. `$also` is the refusal that whole numbers alone
/// meet.
macro_rules! places {
    ($axis:ident, $number:ty, also $also:literal, $map:ident) => {
        declare!(
            concat!(stringify!($axis), "::map`]"),
            $map((a: $number, b: $number) v: $number, p: i32, q: i32, pixel: *mut i32)
        );

        impl $axis {
            /// The pixel of a value, which may lie outside the axis.
            ///
            #[doc = concat!("Refused as ", $also, "[`Refusal::LimitNotAdmitted`] or")]
            /// [`Refusal::TooFar`].
            pub fn map(self, v: $number, limit: Limit) -> Result<i32, Refusal> {
                ask!(answered, $map(self.0, self.1, v, limit.0, limit.1))
            }
        }
    };
}

places!(RangedCoordi32, i32, also "[`Refusal::WholeNotAdmitted`], ", culv_whole_map);
places!(RangedCoordf64, f64, also "", culv_real_map);

/// How far a needle lies from the first limit, counted exactly: `quotient` pixels toward the second
/// one, and `remainder` parts of a pixel more, of which the length of the axis makes one.
#[derive(Clone, Copy, Debug, Default, PartialEq, Eq)]
pub struct ExactPlace {
    /// Whole pixels, at most the film's length.
    pub quotient: u32,
    /// Parts of a pixel, fewer than the axis is long.
    pub remainder: u32,
}

declare!(
    "RangedCoordi32::map_exact`]",
    culv_whole_map_exact((a: i32, b: i32) v: i32, p: i32, q: i32, quotient: *mut u32, remainder: *mut u32)
);

impl RangedCoordi32 {
    /// The exact place of a needle on the axis. The pixel that [`RangedCoordi32::map`] gives is
    /// `quotient` pixels away from the first limit, toward the second, or one more; one more only
    /// where 1,000 remainders are at least 998 lengths of the axis. The mirrored needle has the same
    /// quotient and remainder.
    ///
    /// ```
    /// use culvraod::{ExactPlace, Limit, RangedCoordi32};
    ///
    /// let axis = RangedCoordi32(0, 9);
    /// let exact = axis.map_exact(4, Limit(0, 100))?;
    /// assert_eq!(exact, ExactPlace { quotient: 44, remainder: 4 }); // 44 4/9 pixels
    /// # Ok::<(), culvraod::Refusal>(())
    /// ```
    ///
    /// Refused as [`Refusal::WholeNotAdmitted`], [`Refusal::LimitNotAdmitted`] or
    /// [`Refusal::NotOnAxis`].
    pub fn map_exact(self, v: i32, limit: Limit) -> Result<ExactPlace, Refusal> {
        let mut told = ExactPlace::default();
        let (quotient, remainder) = (&raw mut told.quotient, &raw mut told.remainder);
        // SAFETY: the two results are locals of their own.
        let code = unsafe {
            culv_whole_map_exact(self.0, self.1, v, limit.0, limit.1, quotient, remainder)
        };
        answered("culv_whole_map_exact", code, told)
    }
}

#[cfg(test)]
mod tests {
    use super::*;

    #[test]
    fn whole_places() {
        assert_eq!(RangedCoordi32(-15, -3).map(0, Limit(0, 120)), Ok(150));
        assert_eq!(RangedCoordi32(3, 15).map(5, Limit(0, -120)), Ok(-20));
        assert_eq!(RangedCoordi32(7, 7).map(7, Limit(100, 300)), Ok(100));
    }

    #[test]
    fn real_places() {
        let axis = RangedCoordf64(0.0, 1.0);
        assert_eq!(axis.map(0.999, Limit(10, 11)), Ok(11));
        assert_eq!(axis.map(f64::NAN, Limit(10, 20)), Ok(10));
        assert_eq!(axis.map(f64::INFINITY, Limit(10, 20)), Ok(20));
        assert_eq!(RangedCoordf64(0.0, -0.0).map(5.0, Limit(0, -3)), Ok(-1));
    }

    #[test]
    fn exact_places() {
        let exact = |quotient, remainder| {
            Ok(ExactPlace {
                quotient,
                remainder,
            })
        };
        assert_eq!(
            RangedCoordi32(9, 0).map_exact(4, Limit(100, 0)),
            exact(55, 5)
        );
        assert_eq!(
            RangedCoordi32(-9, 0).map_exact(-4, Limit(-100, 0)),
            exact(55, 5)
        );
        assert_eq!(RangedCoordi32(0, 9).map_exact(9, Limit(5, 5)), exact(0, 0));
        // plotters' place is one more, though 1,000 remainders are less than 999 lengths
        let (axis, film) = (
            RangedCoordi32(-931_844_309, 931_844_310),
            Limit(-977_562, 977_562),
        );
        assert_eq!(
            axis.map_exact(59_700_026, film),
            exact(1_040_190, 1_861_824_930)
        );
        assert_eq!(axis.map(59_700_026, film), Ok(film.0 + 1_040_191));
    }

    #[test]
    fn off_the_axis() {
        let exact = |a, b, v, q| RangedCoordi32(a, b).map_exact(v, Limit(0, q));
        assert_eq!(exact(0, 9, 10, 100), Err(Refusal::NotOnAxis));
        assert_eq!(exact(9, 0, -1, 100), Err(Refusal::NotOnAxis));
        assert_eq!(exact(9, 9, 9, 100), Err(Refusal::NotOnAxis));
        assert_eq!(exact(9, 9, 9, 1_000_001), Err(Refusal::LimitNotAdmitted));
        assert_eq!(
            exact(0, 9, 1_000_000_001, 1_000_001),
            Err(Refusal::WholeNotAdmitted)
        );
    }

    #[test]
    fn refusals() {
        let whole = |a, b, v, q| RangedCoordi32(a, b).map(v, Limit(0, q));
        let beyond = 1_000_000_001;
        assert_eq!(whole(0, 1, beyond, beyond), Err(Refusal::WholeNotAdmitted));
        assert_eq!(whole(0, 1, 2, 1_000_001), Err(Refusal::LimitNotAdmitted));
        assert_eq!(whole(0, 1, 1_000_000_000, 1), Ok(1_000_000_000));
        assert_eq!(whole(0, 1, 1_000_000_000, 2), Err(Refusal::TooFar));
        let real = RangedCoordf64(0.0, 1.0).map(1e300, Limit(0, -1));
        assert_eq!(real, Err(Refusal::TooFar));
    }
}
