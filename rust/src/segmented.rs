//! Segments over whole and stepped axes: each entry begins one, and one value more stands behind
//! all of them.

use crate::refusal::{answered, answered_or_none, ask, declare, Refusal};
use crate::{KeyPoints, Limit, Linspacef64, Linspacei32, RoundingMethod};
use crate::{RangedCoordf64, RangedCoordi32};

declare!(
    "SegmentedCoord::map`] over a whole axis",
    culv_seg_whole_map((a: i32, b: i32) kind: u32, v: i32, p: i32, q: i32, pixel: *mut i32)
);
declare!(
    "SegmentedCoord::index_of`] over a whole axis",
    culv_seg_whole_index_of((a: i32, b: i32) kind: u32, v: i32, k: *mut u64)
);
declare!(
    "SegmentedCoord::key_points`] over a whole axis",
    culv_seg_whole_key_points((a: i32, b: i32) m: u32, out: *mut i32, len: usize, step: *mut i32, count: *mut usize)
);

/// A value of a segmented axis.
#[derive(Clone, Copy, Debug, PartialEq, Eq)]
pub enum SegmentValue<T> {
    /// Where the segment of an entry begins.
    Exact(T),
    /// The middle of the segment of an entry.
    CenterOf(T),
    /// What stands behind all entries.
    Last,
}

use SegmentValue::{CenterOf, Exact, Last};

impl<T> From<T> for SegmentValue<T> {
    fn from(v: T) -> SegmentValue<T> {
        Exact(v)
    }
}

impl<T: Default> SegmentValue<T> {
    /// The number by which the C interface knows the kind of value, and what the value carries.
    fn parts(self) -> (u32, T) {
        match self {
            Exact(v) => (0, v),
            CenterOf(v) => (1, v),
            Last => (2, T::default()),
        }
    }

    /// The value of a kind that a call has given.
    fn of_parts(kind: u32, v: T) -> SegmentValue<T> {
        match kind {
            0 => Exact(v),
            1 => CenterOf(v),
            2 => Last,
            _ => panic!("{kind} is no kind of segment value"),
        }
    }
}

/// Segments over a whole axis that does not fall and has at most 16,777,216 values, or over an axis
/// by a step whose list is not empty.
///
/// Entries are placed on the film without its last share, which is as long as one entry's.
///
/// ```
/// use culvraod::SegmentValue::{CenterOf, Exact, Last};
/// use culvraod::{Limit, RangedCoordi32};
///
/// let axis = RangedCoordi32(1, 4).into_segmented();
/// let film = Limit(0, 100);
/// assert_eq!(axis.map(Exact(2), film), Ok(25));
/// assert_eq!(axis.map(CenterOf(2), film), Ok(37));
/// assert_eq!(axis.map(Last, film), Ok(100));
/// assert_eq!(axis.unmap(30, film), Ok(Some(Exact(2))));
/// ```
#[derive(Clone, Copy, Debug, PartialEq, Eq)]
pub struct SegmentedCoord<D>(pub D);

/// What segments over every kind of axis have, which the pattern `$axis` takes apart into the
/// numbers that the C functions begin with. `$also` is the refusal that whole numbers alone meet,
/// `$none` are those of an axis without segments.
macro_rules! segments {
    (
        $coord:ident, $number:ty, $over:literal, $axis:pat => ($($part:ident),*),
        also $also:literal, none $none:literal, $size:ident, $from_index:ident, $unmap:ident
    ) => {
        declare!(
            concat!("SegmentedCoord::size`] over ", $over),
            $size(($($part: $number),*) n: *mut u64)
        );
        declare!(
            concat!("SegmentedCoord::from_index`] over ", $over),
            $from_index(($($part: $number),*) k: u64, kind: *mut u32, v: *mut $number)
        );
        declare!(
            concat!("SegmentedCoord::unmap`] over ", $over),
            $unmap(
                ($($part: $number),*)
                x: i32, p: i32, q: i32, kind: *mut u32, v: *mut $number
            )
        );

        impl $coord {
            /// Segments over the axis.
            pub fn into_segmented(self) -> SegmentedCoord<$coord> {
                SegmentedCoord(self)
            }
        }

        impl SegmentedCoord<$coord> {
            /// The number of values: one for each entry, and the last.
            ///
            #[doc = concat!("Refused as ", $also, $none, ".")]
            pub fn size(self) -> Result<u64, Refusal> {
                let $axis = self.0;
                ask!(answered, $size($($part),*))
            }

            /// The value at an index: where an entry begins, or the last; none behind that.
            ///
            #[doc = concat!("Refused as ", $also, $none, ".")]
            #[allow(clippy::wrong_self_convention)] // plotters' name
            pub fn from_index(self, k: u64) -> Result<Option<SegmentValue<$number>>, Refusal> {
                let $axis = self.0;
                let (mut kind, mut v) = (0, <$number>::default());
                // SAFETY: the results are locals of their own.
                let code = unsafe { $from_index($($part,)* k, &mut kind, &mut v) };
                answered_or_none(
                    stringify!($from_index),
                    code,
                    SegmentValue::of_parts(kind, v),
                )
            }

            /// The value whose share of the film holds pixel `x`, the first one before the film;
            /// none behind it.
            ///
            #[doc = concat!("Refused as ", $also, "[`Refusal::LimitNotAdmitted`], ", $none, ".")]
            pub fn unmap(
                self,
                x: i32,
                limit: Limit,
            ) -> Result<Option<SegmentValue<$number>>, Refusal> {
                let $axis = self.0;
                let Limit(p, q) = limit;
                let (mut kind, mut v) = (0, <$number>::default());
                // SAFETY: the results are locals of their own.
                let code = unsafe { $unmap($($part,)* x, p, q, &mut kind, &mut v) };
                answered_or_none(stringify!($unmap), code, SegmentValue::of_parts(kind, v))
            }
        }
    };
}

segments!(
    RangedCoordi32, i32, "a whole axis", RangedCoordi32(a, b) => (a, b),
    also "[`Refusal::WholeNotAdmitted`], ", none "or [`Refusal::NoSegments`]",
    culv_seg_whole_size, culv_seg_whole_from_index, culv_seg_whole_unmap
);

impl SegmentedCoord<RangedCoordi32> {
    /// The pixel of a value, which may carry a number outside the axis.
    ///
    /// Refused as [`Refusal::WholeNotAdmitted`], [`Refusal::LimitNotAdmitted`],
    /// [`Refusal::NoSegments`] or [`Refusal::TooFar`].
    pub fn map(self, value: SegmentValue<i32>, limit: Limit) -> Result<i32, Refusal> {
        let RangedCoordi32(a, b) = self.0;
        let (Limit(p, q), (kind, v)) = (limit, value.parts());
        ask!(answered, culv_seg_whole_map(a, b, kind, v, p, q))
    }

    /// The index of a value, also past the end; none for a number before the axis.
    ///
    /// Refused as [`Refusal::WholeNotAdmitted`] or [`Refusal::NoSegments`].
    pub fn index_of(self, value: SegmentValue<i32>) -> Result<Option<u64>, Refusal> {
        let RangedCoordi32(a, b) = self.0;
        let (kind, v) = value.parts();
        ask!(answered_or_none, culv_seg_whole_index_of(a, b, kind, v))
    }

    /// Writes the marks of the axis, at most `m` + 1, to `out`, ascending; each stands for the
    /// middle of its segment.
    ///
    /// Refused as [`Refusal::WholeNotAdmitted`], [`Refusal::NoStep`], [`Refusal::NoSegments`] or
    /// [`Refusal::OutTooShort`].
    pub fn key_points(self, m: u32, out: &mut [i32]) -> Result<KeyPoints<i32>, Refusal> {
        let RangedCoordi32(a, b) = self.0;
        let (to, len) = (out.as_mut_ptr(), out.len());
        let (mut step, mut count) = (0, 0);
        // SAFETY: `out` is a list of that length, and the results are locals of their own.
        let code = unsafe { culv_seg_whole_key_points(a, b, m, to, len, &mut step, &mut count) };
        answered("culv_seg_whole_key_points", code, KeyPoints { step, count })
    }
}

/// What segments over stepped axes have besides, for whole and for real numbers. `$also` and `$nan`
/// are the refusals that one kind alone meets.
macro_rules! stepped_segments {
    (
        $axis:ident, $ends:ident, $number:ty, $over:literal, also $also:literal, nan $nan:literal,
        $size:ident, $map:ident, $index_of:ident, $from_index:ident, $unmap:ident, $key_points:ident
    ) => {
        declare!(
            concat!("SegmentedCoord::map`] over ", $over),
            $map(
                (a: $number, b: $number, d: $number)
                method: u32, kind: u32, v: $number, p: i32, q: i32, pixel: *mut i32
            )
        );
        declare!(
            concat!("SegmentedCoord::index_of`] over ", $over),
            $index_of(
                (a: $number, b: $number, d: $number)
                method: u32, kind: u32, v: $number, k: *mut u64
            )
        );
        declare!(
            concat!("SegmentedCoord::key_points`] over ", $over),
            $key_points(
                (a: $number, b: $number, d: $number)
                m: u32, out: *mut $number, len: usize, count: *mut usize
            )
        );

        segments!(
            $axis, $number, $over, $axis { inner: $ends(a, b), step: d } => (a, b, d),
            also $also,
            none "[`Refusal::NoSegments`], [`Refusal::StepAgainstAxis`] or [`Refusal::ListTooLong`]",
            $size, $from_index, $unmap
        );

        impl SegmentedCoord<$axis> {
            /// The pixel of a value, which may carry a number outside the axis or between entries.
            ///
            #[doc = concat!("Refused as ", $also, "[`Refusal::LimitNotAdmitted`], ")]
            /// [`Refusal::NoSegments`], [`Refusal::TooFar`], [`Refusal::StepAgainstAxis`] or
            #[doc = concat!("[`Refusal::ListTooLong`]", $nan, ".")]
            pub fn map(
                self,
                method: RoundingMethod,
                value: SegmentValue<$number>,
                limit: Limit,
            ) -> Result<i32, Refusal> {
                let ($ends(a, b), d) = (self.0.inner, self.0.step);
                let (Limit(p, q), (kind, v)) = (limit, value.parts());
                ask!(answered, $map(a, b, d, method.number(), kind, v, p, q))
            }

            /// The index of the entry that is meant by a value, or none; the last value has the
            /// number of entries.
            ///
            #[doc = concat!("Refused as ", $also, "[`Refusal::NoSegments`], ")]
            /// [`Refusal::StepAgainstAxis`] or
            #[doc = concat!("[`Refusal::ListTooLong`]", $nan, ".")]
            pub fn index_of(
                self,
                method: RoundingMethod,
                value: SegmentValue<$number>,
            ) -> Result<Option<u64>, Refusal> {
                let ($ends(a, b), d) = (self.0.inner, self.0.step);
                let (kind, v) = value.parts();
                ask!(answered_or_none, $index_of(a, b, d, method.number(), kind, v))
            }

            /// Writes the marks of the axis, at most `m` + 1 of the entries, to `out` and gives
            /// their number; each stands for the middle of its segment.
            ///
            #[doc = concat!("Refused as ", $also, "[`Refusal::NoStep`], ")]
            /// [`Refusal::NoSegments`], [`Refusal::StepAgainstAxis`], [`Refusal::ListTooLong`] or
            /// [`Refusal::OutTooShort`].
            pub fn key_points(self, m: u32, out: &mut [$number]) -> Result<usize, Refusal> {
                let ($ends(a, b), d) = (self.0.inner, self.0.step);
                let (to, len) = (out.as_mut_ptr(), out.len());
                ask!(answered, $key_points(a, b, d, m, to, len))
            }
        }
    };
}

stepped_segments!(
    Linspacei32, RangedCoordi32, i32, "a stepped axis of whole numbers",
    also "[`Refusal::WholeNotAdmitted`], ", nan "",
    culv_seg_step_whole_size, culv_seg_step_whole_map, culv_seg_step_whole_index_of,
    culv_seg_step_whole_from_index, culv_seg_step_whole_unmap, culv_seg_step_whole_key_points
);

stepped_segments!(
    Linspacef64, RangedCoordf64, f64, "a stepped axis of reals", also "",
    nan ", where a search is made also as [`Refusal::NanTarget`]",
    culv_seg_step_real_size, culv_seg_step_real_map, culv_seg_step_real_index_of,
    culv_seg_step_real_from_index, culv_seg_step_real_unmap, culv_seg_step_real_key_points
);

#[cfg(test)]
mod tests {
    use super::*;
    use RoundingMethod::{Ceil, Floor, Round};

    const FILM: Limit = Limit(0, 100);
    const BY_EQUAL: RoundingMethod = RoundingMethod::Exact;

    #[test]
    fn values_of_a_whole_axis() {
        let axis = RangedCoordi32(1, 4).into_segmented();
        assert_eq!(axis.size(), Ok(5));
        assert_eq!(axis.from_index(3), Ok(Some(Exact(4))));
        assert_eq!(axis.from_index(4), Ok(Some(Last)));
        assert_eq!(axis.from_index(5), Ok(None));
        assert_eq!(axis.index_of(CenterOf(4)), Ok(Some(3)));
        assert_eq!(axis.index_of(Exact(9)), Ok(Some(8)));
        assert_eq!(axis.index_of(Exact(0)), Ok(None));
        assert_eq!(axis.index_of(Last), Ok(Some(4)));
    }

    #[test]
    fn places_on_a_whole_axis() {
        let axis = RangedCoordi32(1, 4).into_segmented();
        assert_eq!(axis.map(4.into(), FILM), Ok(75));
        assert_eq!(axis.map(CenterOf(1), FILM), Ok(12));
        assert_eq!(axis.map(CenterOf(4), FILM), Ok(87));
        assert_eq!(axis.map(CenterOf(0), FILM), Ok(-13));
        let one = RangedCoordi32(7, 7).into_segmented();
        assert_eq!(one.map(Exact(7), Limit(100, 300)), Ok(0));
        assert_eq!(one.map(CenterOf(7), Limit(100, 300)), Ok(100));
        assert_eq!(one.map(Last, Limit(100, 300)), Ok(300));
    }

    #[test]
    fn readings_of_a_whole_axis() {
        let axis = RangedCoordi32(1, 4).into_segmented();
        assert_eq!(axis.unmap(79, FILM), Ok(Some(Exact(4))));
        assert_eq!(axis.unmap(80, FILM), Ok(Some(Last)));
        assert_eq!(axis.unmap(100, FILM), Ok(None));
        assert_eq!(axis.unmap(-1, FILM), Ok(Some(Exact(1))));
    }

    #[test]
    fn values_of_stepped_axes() {
        let axis = RangedCoordi32(8, -1).step(-4).into_segmented();
        assert_eq!(axis.size(), Ok(4));
        assert_eq!(axis.from_index(2), Ok(Some(Exact(0))));
        assert_eq!(axis.from_index(3), Ok(Some(Last)));
        assert_eq!(axis.index_of(Round, Exact(2)), Ok(Some(2)));
        assert_eq!(axis.index_of(BY_EQUAL, Exact(2)), Ok(None));
        assert_eq!(axis.index_of(Floor, Last), Ok(Some(3)));
        let axis = RangedCoordf64(0.0, 1.0).step(0.25).into_segmented();
        assert_eq!(axis.size(), Ok(5));
        assert_eq!(axis.from_index(4), Ok(Some(Last)));
        assert_eq!(axis.index_of(Ceil, CenterOf(0.3)), Ok(Some(2)));
        assert_eq!(axis.unmap(99, FILM), Ok(Some(Last)));
    }

    #[test]
    fn places_on_stepped_axes() {
        let axis = RangedCoordi32(0, 8).step(4).into_segmented();
        assert_eq!(axis.map(BY_EQUAL, Exact(4), FILM), Ok(25));
        assert_eq!(axis.map(BY_EQUAL, CenterOf(0), FILM), Ok(12));
        assert_eq!(axis.map(BY_EQUAL, CenterOf(4), FILM), Ok(50));
        assert_eq!(axis.map(Floor, CenterOf(3), FILM), Ok(21));
        assert_eq!(axis.map(Ceil, CenterOf(3), FILM), Ok(43));
        let axis = RangedCoordf64(0.0, 1.0).step(0.25).into_segmented();
        assert_eq!(axis.map(Round, Exact(f64::NAN), FILM), Ok(0));
        assert_eq!(axis.map(BY_EQUAL, CenterOf(f64::NAN), FILM), Ok(12));
        let searched = axis.map(Round, CenterOf(f64::NAN), FILM);
        assert_eq!(searched, Err(Refusal::NanTarget));
    }

    #[test]
    fn marks() {
        let mut out = [77; 4];
        let told = RangedCoordi32(3, 15)
            .into_segmented()
            .key_points(4, &mut out);
        assert_eq!(told, Ok(KeyPoints { step: 5, count: 3 }));
        assert_eq!(out, [5, 10, 15, 77]);
        let stepped = RangedCoordi32(0, 44).step(4).into_segmented();
        assert_eq!(stepped.key_points(3, &mut out), Ok(3));
        assert_eq!(out, [0, 20, 40, 77]);
        let mut out = [77.0; 3];
        let stepped = RangedCoordf64(1.0, 0.0).step(-0.125).into_segmented();
        assert_eq!(stepped.key_points(3, &mut out), Ok(2));
        assert_eq!(out, [1.0, 0.375, 77.0]);
    }

    #[test]
    fn no_segments_or_too_many() {
        let size = |a, b| RangedCoordi32(a, b).into_segmented().size();
        assert_eq!(size(4, 3), Err(Refusal::NoSegments));
        assert_eq!(size(1, 16_777_216), Ok(16_777_217));
        assert_eq!(size(0, 16_777_216), Err(Refusal::NoSegments));
        let empty = RangedCoordi32(0, 10).step(10).into_segmented();
        assert_eq!(empty.key_points(0, &mut []), Err(Refusal::NoSegments));
        let still = RangedCoordf64(1e300, 2e300).step(1.0).into_segmented();
        assert_eq!(still.size(), Err(Refusal::ListTooLong));
    }

    #[test]
    fn refusals_write_nothing() {
        let mut out = [77; 2];
        let axis = RangedCoordi32(3, 15).into_segmented();
        assert_eq!(axis.key_points(4, &mut out), Err(Refusal::OutTooShort));
        assert_eq!(axis.key_points(0, &mut out), Err(Refusal::NoStep));
        assert_eq!(out, [77; 2]);
        let far = Exact(1_000_000_001);
        assert_eq!(axis.map(far, FILM), Err(Refusal::WholeNotAdmitted));
        let beyond = Limit(0, 1_000_001);
        assert_eq!(axis.map(Last, beyond), Err(Refusal::LimitNotAdmitted));
        assert_eq!(
            axis.map(Exact(1_000_000_000), Limit(0, 1_000_000)),
            Err(Refusal::TooFar)
        );
    }
}
