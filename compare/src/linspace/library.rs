//! Calls of culvraod on stepped axes.

use culvraod::linspace::*;
use culvraod::{Limit, RangedCoordf64, RangedCoordi32, Refusal, RoundingMethod};

use super::calls::{FromIndex, IndexOf, Map, Size, Unmap};
use super::cases::Numbers;
use super::kind::{words, Words};
use super::Steps;
use crate::beside::{self, Mirrored, Negated};
use crate::lent::Fill;
use crate::places::Place;
use crate::search::{chosen, exchanged};

/// How many random inputs of a call are compared, and how many beside their mirror.
const DRAWN: usize = 5_000_000;
const MIRRORED: usize = 2_000_000;

/// How many calls are timed.
const BATCH: usize = 50_000;

/// The C functions for one kind of axis.
pub struct Functions<N> {
    pub values: unsafe extern "C" fn(N, N, N, *mut N, usize, *mut usize) -> i32,
    size: unsafe extern "C" fn(N, N, N, *mut u64) -> i32,
    from_index: unsafe extern "C" fn(N, N, N, u64, *mut N) -> i32,
    index_of: unsafe extern "C" fn(N, N, N, N, u32, *mut u64) -> i32,
    map: unsafe extern "C" fn(N, N, N, N, i32, i32, *mut i32) -> i32,
    unmap: unsafe extern "C" fn(N, N, N, i32, i32, i32, *mut N) -> i32,
    pub key_points: unsafe extern "C" fn(N, N, N, u32, *mut N, usize, *mut usize) -> i32,
}

/// The safe calls on one kind of axis.
pub struct Safe<A, N> {
    pub values: fn(A, &mut [N]) -> Result<usize, Refusal>,
    size: fn(A) -> Result<u64, Refusal>,
    from_index: fn(A, u64) -> Result<Option<N>, Refusal>,
    index_of: fn(A, N, RoundingMethod) -> Result<Option<u64>, Refusal>,
    map: fn(A, N, Limit) -> Result<i32, Refusal>,
    unmap: fn(A, i32, Limit) -> Result<Option<N>, Refusal>,
    pub key_points: fn(A, u32, &mut [N]) -> Result<usize, Refusal>,
}

/// A kind of stepped axes as culvraod has it.
pub trait Library: Numbers + Fill + Negated {
    type Stepped;
    const NAMES: Words;
    /// The name of the call that writes all entries, which segments have not.
    const VALUES: &'static str;
    const C: Functions<Self>;
    const SAFE: Safe<Self::Stepped, Self>;

    fn stepped(axis: Steps<Self>) -> Self::Stepped;
}

/// A kind: its numbers, its axis with and without a step, how the names of its calls begin, and
/// the C function of each call.
macro_rules! kind {
    (
        $number:ident, $axis:ident, $ends:ident, $start:literal, $($call:ident: $function:ident),*
    ) => {
        impl Library for $number {
            type Stepped = $axis;
            const NAMES: Words = words!(names, $start);
            const VALUES: &'static str = concat!($start, "values");
            const C: Functions<$number> = Functions { $($call: $function),* };
            const SAFE: Safe<$axis, $number> = Safe { $($call: $axis::$call),* };

            fn stepped(Steps { a, b, d }: Steps<$number>) -> $axis {
                $ends(a, b).step(d)
            }
        }
    };
}

kind!(
    i32, Linspacei32, RangedCoordi32, "step_whole_",
    values: culv_step_whole_values, size: culv_step_whole_size,
    from_index: culv_step_whole_from_index, index_of: culv_step_whole_index_of,
    map: culv_step_whole_map, unmap: culv_step_whole_unmap, key_points: culv_step_whole_key_points
);
kind!(
    f64, Linspacef64, RangedCoordf64, "step_real_",
    values: culv_step_real_values, size: culv_step_real_size,
    from_index: culv_step_real_from_index, index_of: culv_step_real_index_of,
    map: culv_step_real_map, unmap: culv_step_real_unmap, key_points: culv_step_real_key_points
);

impl<N: Negated> Negated for Steps<N> {
    fn negated(self) -> Option<Steps<N>> {
        Some(Steps {
            a: self.a.negated()?,
            b: self.b.negated()?,
            d: self.d.negated()?,
        })
    }
}

impl<N: Library> beside::Library for Size<N> {
    const CALL: &'static str = N::NAMES.size;
    const DRAWN: usize = DRAWN;
    const BATCH: usize = BATCH;

    fn safe(self) -> Result<Option<u64>, Refusal> {
        (N::SAFE.size)(N::stepped(self.0)).map(Some)
    }

    unsafe fn function(self, out: *mut u64) -> i32 {
        let Steps { a, b, d } = self.0;
        (N::C.size)(a, b, d, out)
    }
}

impl<N: Library> Mirrored for Size<N> {
    const MIRRORED: usize = MIRRORED;
    const SAME: bool = true;

    fn mirror(self) -> Option<Self> {
        self.0.negated().map(Size)
    }
}

impl<N: Library> beside::Library for FromIndex<N> {
    const CALL: &'static str = N::NAMES.from_index;
    const DRAWN: usize = DRAWN;
    const BATCH: usize = BATCH;

    fn safe(self) -> Result<Option<N>, Refusal> {
        (N::SAFE.from_index)(N::stepped(self.axis), self.k)
    }

    unsafe fn function(self, out: *mut N) -> i32 {
        let Steps { a, b, d } = self.axis;
        (N::C.from_index)(a, b, d, self.k, out)
    }
}

impl<N: Library> Mirrored for FromIndex<N> {
    const MIRRORED: usize = MIRRORED;

    fn mirror(self) -> Option<Self> {
        let axis = self.axis.negated()?;
        Some(FromIndex { axis, ..self })
    }
}

impl<N: Library> beside::Library for IndexOf<N> {
    const CALL: &'static str = N::NAMES.index_of;
    const DRAWN: usize = DRAWN;
    const BATCH: usize = BATCH;

    fn safe(self) -> Result<Option<u64>, Refusal> {
        let method = chosen(self.method)?;
        (N::SAFE.index_of)(N::stepped(self.axis), self.v, method)
    }

    unsafe fn function(self, out: *mut u64) -> i32 {
        let Steps { a, b, d } = self.axis;
        (N::C.index_of)(a, b, d, self.v, self.method, out)
    }
}

impl<N: Library> Mirrored for IndexOf<N> {
    const MIRRORED: usize = MIRRORED;
    const SAME: bool = true;

    fn mirror(self) -> Option<Self> {
        Some(IndexOf {
            axis: self.axis.negated()?,
            v: self.v.negated()?,
            method: exchanged(self.method),
        })
    }
}

impl<N: Library> beside::Library for Map<N> {
    const CALL: &'static str = N::NAMES.map;
    const DRAWN: usize = DRAWN;
    const BATCH: usize = BATCH;

    fn safe(self) -> Result<Option<i32>, Refusal> {
        let Place { v, p, q, .. } = self.place;
        (N::SAFE.map)(N::stepped(self.axis), v, Limit(p, q)).map(Some)
    }

    unsafe fn function(self, out: *mut i32) -> i32 {
        let (Steps { a, b, d }, Place { v, p, q, .. }) = (self.axis, self.place);
        (N::C.map)(a, b, d, v, p, q, out)
    }
}

impl<N: Library> Mirrored for Map<N> {
    const MIRRORED: usize = MIRRORED;

    fn mirror(self) -> Option<Self> {
        let (axis, place) = (self.axis.negated()?, self.place.negated()?);
        Some(Map { axis, place })
    }
}

impl<N: Library> beside::Library for Unmap<N> {
    const CALL: &'static str = N::NAMES.unmap;
    const DRAWN: usize = DRAWN;
    const BATCH: usize = BATCH;

    fn safe(self) -> Result<Option<N>, Refusal> {
        (N::SAFE.unmap)(N::stepped(self.axis), self.x, Limit(self.p, self.q))
    }

    unsafe fn function(self, out: *mut N) -> i32 {
        let (Steps { a, b, d }, Unmap { x, p, q, .. }) = (self.axis, self);
        (N::C.unmap)(a, b, d, x, p, q, out)
    }
}

/// A call beside plotters, and beside its mirror.
fn both<C: Mirrored>() -> bool {
    beside::compare::<C>() & beside::compare_mirror::<C>()
}

pub fn compare<N: Library>() -> bool {
    both::<Size<N>>()
        & both::<FromIndex<N>>()
        & both::<IndexOf<N>>()
        & both::<Map<N>>()
        & beside::compare::<Unmap<N>>()
}
