//! Stepped axes: the list of an axis by a step, and what is found, placed, read and marked on it.

use std::any::type_name;
use std::fmt;

use crate::refusal::{answered, answered_or_none, ask, declare, Refusal};
use crate::{Limit, RangedCoordf64, RangedCoordi32, RoundingMethod};

/// An axis by a step that leads from the first end to the second.
///
/// Its list is the first end and every further sum before the second end, which is no entry; it is
/// empty where the first step reaches the second end.
///
/// ```
/// use culvraod::{RangedCoordi32, RoundingMethod};
///
/// let axis = RangedCoordi32(0, 10).step(4);
/// let mut out = [0; 8];
/// let count = axis.values(&mut out).unwrap();
/// assert_eq!(out[..count], [0, 4, 8]);
/// assert_eq!(axis.index_of(5, RoundingMethod::Floor), Ok(Some(1)));
/// ```
#[derive(Clone, Copy, PartialEq, Eq)]
pub struct Linspace<A, T> {
    /// The axis.
    pub inner: A,
    /// The distance from an entry to the next.
    pub step: T,
}

/// A whole axis by a step, within ±1,000,000,000.
pub type Linspacei32 = Linspace<RangedCoordi32, i32>;

/// A real axis by a step. Each sum of its list is rounded, and with NaN the list is empty.
pub type Linspacef64 = Linspace<RangedCoordf64, f64>;

/// A whole or a real axis by a step under its own name; anything else as a `Linspace`.
impl<A: fmt::Debug, T: fmt::Debug> fmt::Debug for Linspace<A, T> {
    fn fmt(&self, f: &mut fmt::Formatter<'_>) -> fmt::Result {
        let own = type_name::<Self>();
        let name = if own == type_name::<Linspacei32>() {
            "Linspacei32"
        } else if own == type_name::<Linspacef64>() {
            "Linspacef64"
        } else {
            "Linspace"
        };
        f.debug_struct(name)
            .field("inner", &self.inner)
            .field("step", &self.step)
            .finish()
    }
}

/// A stepped axis: the same calls for whole and for real numbers, by their C functions. `$also` is
/// the refusal that whole numbers alone meet, `$search` are the others of a search.
macro_rules! stepped {
    (
        $axis:ident, $ends:ident, $number:ty, also $also:literal, search $search:literal,
        $values:ident, $size:ident, $from_index:ident, $index_of:ident, $map:ident, $unmap:ident,
        $key_points:ident
    ) => {
        declare!(
            concat!(stringify!($axis), "::values`]"),
            $values((a: $number, b: $number, d: $number) out: *mut $number, len: usize, count: *mut usize)
        );
        declare!(
            concat!(stringify!($axis), "::size`]"),
            $size((a: $number, b: $number, d: $number) n: *mut u64)
        );
        declare!(
            concat!(stringify!($axis), "::from_index`]"),
            $from_index((a: $number, b: $number, d: $number) k: u64, v: *mut $number)
        );
        declare!(
            concat!(stringify!($axis), "::index_of`]"),
            $index_of((a: $number, b: $number, d: $number) v: $number, method: u32, k: *mut u64)
        );
        declare!(
            concat!(stringify!($axis), "::map`]"),
            $map((a: $number, b: $number, d: $number) v: $number, p: i32, q: i32, pixel: *mut i32)
        );
        declare!(
            concat!(stringify!($axis), "::unmap`]"),
            $unmap((a: $number, b: $number, d: $number) x: i32, p: i32, q: i32, v: *mut $number)
        );
        declare!(
            concat!(stringify!($axis), "::key_points`]"),
            $key_points((a: $number, b: $number, d: $number) m: u32, out: *mut $number, len: usize, count: *mut usize)
        );

        impl $ends {
            /// The axis by a step.
            pub fn step(self, step: $number) -> $axis {
                $axis { inner: self, step }
            }
        }

        impl $axis {
            /// Writes the list to `out` and gives the number of entries.
            ///
            #[doc = concat!("Refused as ", $also, "[`Refusal::StepAgainstAxis`] or")]
            /// [`Refusal::ListTooLong`], also where `out` is too short.
            pub fn values(self, out: &mut [$number]) -> Result<usize, Refusal> {
                let ($ends(a, b), d) = (self.inner, self.step);
                let (to, len) = (out.as_mut_ptr(), out.len());
                ask!(answered, $values(a, b, d, to, len))
            }

            /// The number of entries.
            ///
            #[doc = concat!("Refused as ", $also, "[`Refusal::StepAgainstAxis`] or")]
            /// [`Refusal::ListTooLong`].
            pub fn size(self) -> Result<u64, Refusal> {
                let ($ends(a, b), d) = (self.inner, self.step);
                ask!(answered, $size(a, b, d))
            }

            /// The entry at an index; none past the last one.
            ///
            #[doc = concat!("Refused as ", $also, "[`Refusal::StepAgainstAxis`] or")]
            /// [`Refusal::ListTooLong`].
            #[allow(clippy::wrong_self_convention)] // plotters' name
            pub fn from_index(self, k: u64) -> Result<Option<$number>, Refusal> {
                let ($ends(a, b), d) = (self.inner, self.step);
                ask!(answered_or_none, $from_index(a, b, d, k))
            }

            /// The index of the entry that is meant by a value, or none.
            ///
            #[doc = concat!("Refused as ", $also, $search, ".")]
            pub fn index_of(
                self,
                v: $number,
                method: RoundingMethod,
            ) -> Result<Option<u64>, Refusal> {
                let ($ends(a, b), d) = (self.inner, self.step);
                ask!(answered_or_none, $index_of(a, b, d, v, method.number()))
            }

            /// The pixel of a value, which may lie outside the axis or between entries.
            ///
            #[doc = concat!("Refused as ", $also, "[`Refusal::LimitNotAdmitted`],")]
            /// [`Refusal::TooFar`], [`Refusal::StepAgainstAxis`] or [`Refusal::ListTooLong`].
            pub fn map(self, v: $number, limit: Limit) -> Result<i32, Refusal> {
                let ($ends(a, b), d) = (self.inner, self.step);
                let Limit(p, q) = limit;
                ask!(answered, $map(a, b, d, v, p, q))
            }

            /// The entry whose share of the film holds pixel `x`, the first one before the film;
            /// none behind it.
            ///
            #[doc = concat!("Refused as ", $also, "[`Refusal::LimitNotAdmitted`],")]
            /// [`Refusal::StepAgainstAxis`] or [`Refusal::ListTooLong`].
            pub fn unmap(self, x: i32, limit: Limit) -> Result<Option<$number>, Refusal> {
                let ($ends(a, b), d) = (self.inner, self.step);
                let Limit(p, q) = limit;
                ask!(answered_or_none, $unmap(a, b, d, x, p, q))
            }

            /// Writes the marks, at most `m` + 1 of the entries, to `out` and gives their number.
            ///
            #[doc = concat!("Refused as ", $also, "[`Refusal::NoStep`],")]
            /// [`Refusal::StepAgainstAxis`], [`Refusal::ListTooLong`] or
            /// [`Refusal::OutTooShort`].
            pub fn key_points(self, m: u32, out: &mut [$number]) -> Result<usize, Refusal> {
                let ($ends(a, b), d) = (self.inner, self.step);
                let (to, len) = (out.as_mut_ptr(), out.len());
                ask!(answered, $key_points(a, b, d, m, to, len))
            }
        }
    };
}

stepped!(
    Linspacei32, RangedCoordi32, i32, also "[`Refusal::WholeNotAdmitted`], ",
    search "[`Refusal::StepAgainstAxis`] or [`Refusal::ListTooLong`]",
    culv_step_whole_values, culv_step_whole_size, culv_step_whole_from_index,
    culv_step_whole_index_of, culv_step_whole_map, culv_step_whole_unmap,
    culv_step_whole_key_points
);

stepped!(
    Linspacef64, RangedCoordf64, f64, also "",
    search "[`Refusal::StepAgainstAxis`], [`Refusal::ListTooLong`] or [`Refusal::NanTarget`]",
    culv_step_real_values, culv_step_real_size, culv_step_real_from_index,
    culv_step_real_index_of, culv_step_real_map, culv_step_real_unmap,
    culv_step_real_key_points
);

#[cfg(test)]
mod tests {
    use super::*;

    const FILM: Limit = Limit(0, 100);

    #[test]
    fn printed_under_its_own_name() {
        let whole = RangedCoordi32(0, 10).step(4);
        assert_eq!(format!("{whole:?}"), "Linspacei32 { inner: RangedCoordi32(0, 10), step: 4 }");
        let real = RangedCoordf64(0.0, 1.0).step(0.5);
        assert_eq!(format!("{real:?}"), "Linspacef64 { inner: RangedCoordf64(0.0, 1.0), step: 0.5 }");
    }

    /// Holds any `Linspace`, so that its own `Debug` asks for that of each.
    #[derive(Debug)]
    struct Held<A, T>(Linspace<A, T>);

    #[test]
    fn printed_whatever_it_is_of() {
        let held = Held(Linspace {
            inner: 'a',
            step: 1_u8,
        });
        assert_eq!(
            format!("{held:?}"),
            "Held(Linspace { inner: 'a', step: 1 })"
        );
        let mixed = Linspace {
            inner: RangedCoordf64(0.0, 1.0),
            step: 4_i32,
        };
        assert_eq!(
            format!("{mixed:?}"),
            "Linspace { inner: RangedCoordf64(0.0, 1.0), step: 4 }"
        );
    }

    #[test]
    fn whole_lists() {
        let mut out = [77; 4];
        assert_eq!(RangedCoordi32(0, 10).step(5).values(&mut out), Ok(2));
        assert_eq!(out, [0, 5, 77, 77]);
        assert_eq!(RangedCoordi32(10, 0).step(-4).values(&mut out), Ok(3));
        assert_eq!(out, [10, 6, 2, 77]);
        assert_eq!(RangedCoordi32(0, 10).step(10).values(&mut []), Ok(0));
        assert_eq!(RangedCoordi32(0, 65_536).step(1).size(), Ok(65_536));
    }

    #[test]
    fn real_lists() {
        let mut out = [77.0; 5];
        assert_eq!(RangedCoordf64(0.0, 0.3).step(0.1).values(&mut out), Ok(3));
        assert_eq!(out, [0.0, 0.1, 0.2, 77.0, 77.0]);
        assert_eq!(RangedCoordf64(1.0, -1.0).step(-0.5).size(), Ok(4));
        assert_eq!(RangedCoordf64(f64::NAN, 1.0).step(0.5).size(), Ok(0));
        assert_eq!(RangedCoordf64(0.0, 1.0).step(f64::INFINITY).size(), Ok(0));
    }

    #[test]
    fn entries_and_indices() {
        let axis = RangedCoordi32(8, -1).step(-4);
        assert_eq!(axis.from_index(2), Ok(Some(0)));
        assert_eq!(axis.from_index(3), Ok(None));
        assert_eq!(axis.index_of(2, RoundingMethod::Round), Ok(Some(2)));
        assert_eq!(axis.index_of(-1, RoundingMethod::Floor), Ok(None));
        let axis = RangedCoordf64(0.0, 1.0).step(0.25);
        assert_eq!(axis.from_index(3), Ok(Some(0.75)));
        assert_eq!(axis.from_index(u64::MAX), Ok(None));
        assert_eq!(axis.index_of(0.3, RoundingMethod::Ceil), Ok(Some(2)));
        assert_eq!(axis.index_of(f64::NAN, RoundingMethod::Exact), Ok(None));
    }

    #[test]
    fn places_and_readings() {
        let axis = RangedCoordi32(0, 10).step(4);
        assert_eq!(axis.map(5, FILM), Ok(50));
        assert_eq!(axis.unmap(34, FILM), Ok(Some(4)));
        assert_eq!(axis.unmap(-1, FILM), Ok(Some(0)));
        assert_eq!(axis.unmap(100, FILM), Ok(None));
        let axis = RangedCoordf64(0.0, 1.0).step(0.25);
        assert_eq!(axis.map(0.5, FILM), Ok(50));
        assert_eq!(axis.unmap(99, FILM), Ok(Some(0.75)));
    }

    #[test]
    fn marks() {
        let mut out = [77; 4];
        assert_eq!(RangedCoordi32(0, 44).step(4).key_points(3, &mut out), Ok(3));
        assert_eq!(out, [0, 20, 40, 77]);
        let mut out = [77.0; 3];
        let axis = RangedCoordf64(1.0, 0.0).step(-0.125);
        assert_eq!(axis.key_points(3, &mut out), Ok(2));
        assert_eq!(out, [1.0, 0.375, 77.0]);
    }

    #[test]
    fn refusals_write_nothing() {
        let mut out = [77; 1];
        let mut whole = |b, d| RangedCoordi32(0, b).step(d).values(&mut out).unwrap_err();
        assert_eq!(whole(9, -1_000_000_001), Refusal::WholeNotAdmitted);
        assert_eq!(whole(9, 0), Refusal::StepAgainstAxis);
        assert_eq!(whole(65_537, 1), Refusal::ListTooLong);
        assert_eq!(whole(2, 1), Refusal::ListTooLong);
        let axis = RangedCoordi32(0, 2).step(1);
        let marks = axis.key_points(2, &mut out);
        assert_eq!(marks, Err(Refusal::OutTooShort));
        assert_eq!(out, [77]);
        let beyond = Limit(0, 1_000_001);
        assert_eq!(axis.unmap(0, beyond), Err(Refusal::LimitNotAdmitted));
        assert_eq!(axis.map(1_000_000_000, FILM), Err(Refusal::TooFar));
    }

    #[test]
    fn refusals_of_real_axes() {
        let still = RangedCoordf64(1e300, 2e300).step(1.0);
        assert_eq!(still.size(), Err(Refusal::ListTooLong));
        assert_eq!(still.key_points(0, &mut []), Err(Refusal::NoStep));
        assert_eq!(still.map(2e300, FILM), Err(Refusal::ListTooLong));
        let back = RangedCoordf64(0.0, 1.0).step(-0.0);
        assert_eq!(back.size(), Err(Refusal::StepAgainstAxis));
        let nan = RangedCoordf64(0.0, 1.0).step(0.5);
        let found = nan.index_of(f64::NAN, RoundingMethod::Round);
        assert_eq!(found, Err(Refusal::NanTarget));
    }
}
