//! Axes of whole numbers, of indices and of reals, and their marks.

use crate::refusal::{answered, ask, declare, Refusal};

#[cfg(not(target_pointer_width = "64"))]
compile_error!("culvraod needs a usize of 64 bits");

/// Marks that were written to the beginning of a lent list.
#[derive(Clone, Copy, Debug, Default, PartialEq, Eq)]
pub struct KeyPoints<T> {
    /// The distance between neighbouring marks.
    pub step: T,
    /// The number of marks.
    pub count: usize,
}

/// A whole axis: its two ends, within ±1,000,000,000, rising or falling.
#[derive(Clone, Copy, Debug, PartialEq, Eq)]
pub struct RangedCoordi32(pub i32, pub i32);

/// An index axis: its two ends, at most 1,000,000,000, rising or falling.
#[derive(Clone, Copy, Debug, PartialEq, Eq)]
pub struct RangedCoordusize(pub usize, pub usize);

/// A real axis: its two ends, any numbers, rising or falling.
#[derive(Clone, Copy, Debug, PartialEq)]
pub struct RangedCoordf64(pub f64, pub f64);

/// Marks of one kind of axis, by their C function, which has its numbers as `$c`, of the same size.
macro_rules! marks {
    ($axis:ident, $number:ty, $function:ident of $c:ty) => {
        // As include/culvraod.h declares and describes it.
        extern "C" {
            #[doc = concat!("The C function behind [`", stringify!($axis), "::key_points`].")]
            pub fn $function(
                a: $c,
                b: $c,
                m: u32,
                out: *mut $c,
                len: usize,
                step: *mut $c,
                count: *mut usize,
            ) -> i32;
        }

        impl $axis {
            /// Writes the marks, at most `m` + 1, to `out`, ascending.
            ///
            /// Refused as [`Refusal::WholeNotAdmitted`], [`Refusal::NoStep`] or
            /// [`Refusal::OutTooShort`].
            pub fn key_points(
                self,
                m: u32,
                out: &mut [$number],
            ) -> Result<KeyPoints<$number>, Refusal> {
                let (a, b, to, len) = (self.0 as $c, self.1 as $c, out.as_mut_ptr(), out.len());
                let mut told = KeyPoints::<$number>::default();
                let (step, count) = (&raw mut told.step, &raw mut told.count);
                // SAFETY: `out` is a list of that length, and the two results are locals of their
                // own; the numbers of both have the size that C gives them.
                let code = unsafe { $function(a, b, m, to.cast(), len, step.cast(), count) };
                answered(stringify!($function), code, told)
            }
        }
    };
}

marks!(RangedCoordi32, i32, culv_whole_key_points of i32);
marks!(RangedCoordusize, usize, culv_index_key_points of u64);

/// The most marks that a real axis has: a list of so many always suffices.
pub const REAL_MARKS_MAX: usize = 2000;

declare!(
    "RangedCoordf64::key_points`]",
    culv_real_key_points((a: f64, b: f64) m: u32, out: *mut f64, len: usize, count: *mut usize)
);

impl RangedCoordf64 {
    /// Writes the marks to `out`, ascending, and gives their number.
    ///
    /// They are those of plotters, with the decade of the length from a table of powers of ten. With
    /// an `m` of 0 there is none, and ends closer than `f64::EPSILON` have the smaller one as their
    /// only mark.
    ///
    /// Refused as [`Refusal::RealAxisNotMarked`] or, after that, [`Refusal::OutTooShort`].
    ///
    /// ```
    /// let mut out = [0.0; 8];
    /// let count = culvraod::RangedCoordf64(-0.05, 0.25).key_points(4, &mut out)?;
    /// assert_eq!(out[..count], [0.0, 0.1, 0.2]);
    /// # Ok::<(), culvraod::Refusal>(())
    /// ```
    pub fn key_points(self, m: u32, out: &mut [f64]) -> Result<usize, Refusal> {
        let (to, len) = (out.as_mut_ptr(), out.len());
        ask!(answered, culv_real_key_points(self.0, self.1, m, to, len))
    }
}

#[cfg(test)]
mod tests {
    use super::*;

    #[test]
    fn whole_marks_on_both_sides_of_zero() {
        let mut out = [77; 5];
        let told = RangedCoordi32(15, 3).key_points(4, &mut out);
        assert_eq!(told, Ok(KeyPoints { step: 5, count: 3 }));
        assert_eq!(out, [5, 10, 15, 77, 77]);
        let told = RangedCoordi32(-15, -3).key_points(4, &mut out);
        assert_eq!(told, Ok(KeyPoints { step: 5, count: 4 }));
        assert_eq!(out, [-15, -10, -5, 0, 77]);
    }

    #[test]
    fn index_marks() {
        let mut out = [77; 3];
        let told = RangedCoordusize(0, 1_000_000_000).key_points(1, &mut out);
        assert_eq!(
            told,
            Ok(KeyPoints {
                step: 1_000_000_000,
                count: 2
            })
        );
        assert_eq!(out, [0, 1_000_000_000, 77]);
    }

    #[test]
    fn no_mark_needs_no_list() {
        let told = RangedCoordi32(3, 5).key_points(1, &mut []);
        assert_eq!(told, Ok(KeyPoints { step: 10, count: 0 }));
    }

    #[test]
    fn real_marks() {
        let mut out = [77.0; 4];
        assert_eq!(RangedCoordf64(1.0, 0.0).key_points(3, &mut out), Ok(3));
        assert_eq!(out, [0.0, 0.5, 1.0, 77.0]);
        let near = RangedCoordf64(2.5, 2.5 + f64::EPSILON / 2.0);
        assert_eq!(near.key_points(1, &mut out), Ok(1));
        assert_eq!(out, [2.5, 0.5, 1.0, 77.0]);
        let nan = RangedCoordf64(f64::NAN, 1.0);
        assert_eq!(nan.key_points(0, &mut []), Ok(0));
    }

    #[test]
    fn refusals_of_real_marks() {
        let real = |a, b, m| RangedCoordf64(a, b).key_points(m, &mut []).unwrap_err();
        assert_eq!(real(f64::NAN, 1.0, 1), Refusal::RealAxisNotMarked);
        assert_eq!(real(0.0, 1_000_000.5, 1), Refusal::RealAxisNotMarked);
        assert_eq!(real(0.0, 0.000_999, 1), Refusal::RealAxisNotMarked);
        assert_eq!(real(0.0, f64::EPSILON, 1), Refusal::RealAxisNotMarked);
        assert_eq!(real(0.0, 0.0, 1_001), Refusal::RealAxisNotMarked);
        assert_eq!(real(0.0, 0.001, 1_000), Refusal::OutTooShort);
        assert_eq!(real(0.0, 0.0, 1), Refusal::OutTooShort);
    }

    #[test]
    fn refusals_write_nothing() {
        let mut out = [77; 2];
        let whole = |a, b, m, out: &mut [i32]| RangedCoordi32(a, b).key_points(m, out).unwrap_err();
        assert_eq!(
            whole(0, 1_000_000_001, 0, &mut out),
            Refusal::WholeNotAdmitted
        );
        assert_eq!(whole(-1, 1_000_000_000, 1, &mut out), Refusal::NoStep);
        assert_eq!(whole(3, 15, 4, &mut out), Refusal::OutTooShort);
        assert_eq!(out, [77; 2]);
        let index = RangedCoordusize(0, usize::MAX).key_points(9, &mut []);
        assert_eq!(index, Err(Refusal::WholeNotAdmitted));
    }
}
