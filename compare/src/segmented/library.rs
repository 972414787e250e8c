//! Calls of culvraod on segments.

use culvraod::segmented::*;
use culvraod::{KeyPoints, Limit, Linspacef64, Linspacei32, RangedCoordi32};
use culvraod::{Refusal, RoundingMethod};

use super::axis::{Whole, Worded};
use super::calls::{FromIndex, IndexOf, Map, Size, Unmap};
use super::cases::Axes;
use super::value::{Value, CENTER_OF, EXACT, LAST};
use crate::beside;
use crate::entry::Entry;
use crate::lent::Fill;
use crate::linspace::kind::{words, Words};
use crate::linspace::library as stepped;
use crate::linspace::Steps;
use crate::search::chosen;

type Answered<T> = Result<Option<T>, Refusal>;

/// Segments over a sort of axis as culvraod has them: the safe calls, and the C functions.
pub trait Library: Axes<Number: Fill> {
    const NAMES: Words;
    /// How many random inputs of a call are compared.
    const DRAWN: usize;
    /// How many calls are timed.
    const BATCH: usize;

    fn size(self) -> Result<u64, Refusal>;
    #[allow(clippy::wrong_self_convention)] // plotters' name
    fn from_index(self, k: u64) -> Answered<SegmentValue<Self::Number>>;
    fn index_of(self, by: Self::Method, value: SegmentValue<Self::Number>) -> Answered<u64>;
    fn map(
        self,
        by: Self::Method,
        value: SegmentValue<Self::Number>,
        limit: Limit,
    ) -> Result<i32, Refusal>;
    fn unmap(self, x: i32, limit: Limit) -> Answered<SegmentValue<Self::Number>>;
    /// The step, where the call tells it, and the number of marks.
    fn key_points(
        self,
        m: u32,
        out: &mut [Self::Number],
    ) -> Result<(Option<Self::Number>, usize), Refusal>;

    /// # Safety
    /// Here and below every pointer must be one to a number, that of a list to as many as it has.
    unsafe fn c_size(self, n: *mut u64) -> i32;
    unsafe fn c_from_index(self, k: u64, kind: *mut u32, v: *mut Self::Number) -> i32;
    unsafe fn c_index_of(self, by: Self::Method, value: Value<Self::Number>, k: *mut u64) -> i32;
    unsafe fn c_map(
        self,
        by: Self::Method,
        value: Value<Self::Number>,
        limits: (i32, i32),
        pixel: *mut i32,
    ) -> i32;
    unsafe fn c_unmap(
        self,
        x: i32,
        limits: (i32, i32),
        kind: *mut u32,
        v: *mut Self::Number,
    ) -> i32;
    /// `out_len` is a list and its length; `step` is left alone where the call does not tell it.
    unsafe fn c_key_points(
        self,
        m: u32,
        out_len: (*mut Self::Number, usize),
        step: *mut Self::Number,
        count: *mut usize,
    ) -> i32;
}

impl Whole {
    fn safe(self) -> SegmentedCoord<RangedCoordi32> {
        RangedCoordi32(self.a, self.b).into_segmented()
    }
}

impl Library for Whole {
    const NAMES: Words = words!(names, "seg_whole_");
    const DRAWN: usize = 20_000_000;
    const BATCH: usize = 1_000_000;

    fn size(self) -> Result<u64, Refusal> {
        self.safe().size()
    }

    fn from_index(self, k: u64) -> Answered<SegmentValue<i32>> {
        self.safe().from_index(k)
    }

    fn index_of(self, _: (), value: SegmentValue<i32>) -> Answered<u64> {
        self.safe().index_of(value)
    }

    fn map(self, _: (), value: SegmentValue<i32>, limit: Limit) -> Result<i32, Refusal> {
        self.safe().map(value, limit)
    }

    fn unmap(self, x: i32, limit: Limit) -> Answered<SegmentValue<i32>> {
        self.safe().unmap(x, limit)
    }

    fn key_points(self, m: u32, out: &mut [i32]) -> Result<(Option<i32>, usize), Refusal> {
        let told = self.safe().key_points(m, out);
        told.map(|KeyPoints { step, count }| (Some(step), count))
    }

    unsafe fn c_size(self, n: *mut u64) -> i32 {
        culv_seg_whole_size(self.a, self.b, n)
    }

    unsafe fn c_from_index(self, k: u64, kind: *mut u32, v: *mut i32) -> i32 {
        culv_seg_whole_from_index(self.a, self.b, k, kind, v)
    }

    unsafe fn c_index_of(self, _: (), Value { v, kind }: Value<i32>, k: *mut u64) -> i32 {
        culv_seg_whole_index_of(self.a, self.b, kind, v, k)
    }

    unsafe fn c_map(
        self,
        _: (),
        Value { v, kind }: Value<i32>,
        (p, q): (i32, i32),
        pixel: *mut i32,
    ) -> i32 {
        culv_seg_whole_map(self.a, self.b, kind, v, p, q, pixel)
    }

    unsafe fn c_unmap(self, x: i32, (p, q): (i32, i32), kind: *mut u32, v: *mut i32) -> i32 {
        culv_seg_whole_unmap(self.a, self.b, x, p, q, kind, v)
    }

    unsafe fn c_key_points(
        self,
        m: u32,
        (out, len): (*mut i32, usize),
        step: *mut i32,
        count: *mut usize,
    ) -> i32 {
        culv_seg_whole_key_points(self.a, self.b, m, out, len, step, count)
    }
}

/// The C functions for segments over one kind of stepped axis.
pub struct Functions<N> {
    size: unsafe extern "C" fn(N, N, N, *mut u64) -> i32,
    from_index: unsafe extern "C" fn(N, N, N, u64, *mut u32, *mut N) -> i32,
    index_of: unsafe extern "C" fn(N, N, N, u32, u32, N, *mut u64) -> i32,
    map: unsafe extern "C" fn(N, N, N, u32, u32, N, i32, i32, *mut i32) -> i32,
    unmap: unsafe extern "C" fn(N, N, N, i32, i32, i32, *mut u32, *mut N) -> i32,
    key_points: unsafe extern "C" fn(N, N, N, u32, *mut N, usize, *mut usize) -> i32,
}

/// The safe calls on the same.
pub struct Safe<A, N> {
    size: fn(A) -> Result<u64, Refusal>,
    from_index: fn(A, u64) -> Answered<SegmentValue<N>>,
    index_of: fn(A, RoundingMethod, SegmentValue<N>) -> Answered<u64>,
    map: fn(A, RoundingMethod, SegmentValue<N>, Limit) -> Result<i32, Refusal>,
    unmap: fn(A, i32, Limit) -> Answered<SegmentValue<N>>,
    key_points: fn(A, u32, &mut [N]) -> Result<usize, Refusal>,
}

/// A kind of stepped axes with segments on them.
pub trait Stepped: Worded + stepped::Library {
    const SEGMENT_NAMES: Words;
    const SEGMENT_C: Functions<Self>;
    const SEGMENT_SAFE: Safe<SegmentedCoord<Self::Stepped>, Self>;
}

/// A kind: its numbers, its axis, how the names of the calls begin, and the C function of each.
macro_rules! kind {
    ($number:ident, $axis:ident, $start:literal, $($call:ident: $function:ident),*) => {
        impl Stepped for $number {
            const SEGMENT_NAMES: Words = words!(names, $start);
            const SEGMENT_C: Functions<$number> = Functions { $($call: $function),* };
            const SEGMENT_SAFE: Safe<SegmentedCoord<$axis>, $number> =
                Safe { $($call: SegmentedCoord::<$axis>::$call),* };
        }
    };
}

kind!(
    i32, Linspacei32, "seg_step_whole_",
    size: culv_seg_step_whole_size, from_index: culv_seg_step_whole_from_index,
    index_of: culv_seg_step_whole_index_of, map: culv_seg_step_whole_map,
    unmap: culv_seg_step_whole_unmap, key_points: culv_seg_step_whole_key_points
);
kind!(
    f64, Linspacef64, "seg_step_real_",
    size: culv_seg_step_real_size, from_index: culv_seg_step_real_from_index,
    index_of: culv_seg_step_real_index_of, map: culv_seg_step_real_map,
    unmap: culv_seg_step_real_unmap, key_points: culv_seg_step_real_key_points
);

fn safe<N: Stepped>(axis: Steps<N>) -> SegmentedCoord<N::Stepped> {
    SegmentedCoord(N::stepped(axis))
}

impl<N: Stepped> Library for Steps<N> {
    const NAMES: Words = N::SEGMENT_NAMES;
    const DRAWN: usize = 5_000_000;
    const BATCH: usize = 50_000;

    fn size(self) -> Result<u64, Refusal> {
        (N::SEGMENT_SAFE.size)(safe(self))
    }

    fn from_index(self, k: u64) -> Answered<SegmentValue<N>> {
        (N::SEGMENT_SAFE.from_index)(safe(self), k)
    }

    fn index_of(self, by: u32, value: SegmentValue<N>) -> Answered<u64> {
        (N::SEGMENT_SAFE.index_of)(safe(self), chosen(by)?, value)
    }

    fn map(self, by: u32, value: SegmentValue<N>, limit: Limit) -> Result<i32, Refusal> {
        (N::SEGMENT_SAFE.map)(safe(self), chosen(by)?, value, limit)
    }

    fn unmap(self, x: i32, limit: Limit) -> Answered<SegmentValue<N>> {
        (N::SEGMENT_SAFE.unmap)(safe(self), x, limit)
    }

    fn key_points(self, m: u32, out: &mut [N]) -> Result<(Option<N>, usize), Refusal> {
        (N::SEGMENT_SAFE.key_points)(safe(self), m, out).map(|count| (None, count))
    }

    unsafe fn c_size(self, n: *mut u64) -> i32 {
        let Steps { a, b, d } = self;
        (N::SEGMENT_C.size)(a, b, d, n)
    }

    unsafe fn c_from_index(self, k: u64, kind: *mut u32, v: *mut N) -> i32 {
        let Steps { a, b, d } = self;
        (N::SEGMENT_C.from_index)(a, b, d, k, kind, v)
    }

    unsafe fn c_index_of(self, by: u32, Value { v, kind }: Value<N>, k: *mut u64) -> i32 {
        let Steps { a, b, d } = self;
        (N::SEGMENT_C.index_of)(a, b, d, by, kind, v, k)
    }

    unsafe fn c_map(
        self,
        by: u32,
        Value { v, kind }: Value<N>,
        (p, q): (i32, i32),
        pixel: *mut i32,
    ) -> i32 {
        let Steps { a, b, d } = self;
        (N::SEGMENT_C.map)(a, b, d, by, kind, v, p, q, pixel)
    }

    unsafe fn c_unmap(self, x: i32, (p, q): (i32, i32), kind: *mut u32, v: *mut N) -> i32 {
        let Steps { a, b, d } = self;
        (N::SEGMENT_C.unmap)(a, b, d, x, p, q, kind, v)
    }

    unsafe fn c_key_points(
        self,
        m: u32,
        (out, len): (*mut N, usize),
        _: *mut N,
        count: *mut usize,
    ) -> i32 {
        let Steps { a, b, d } = self;
        (N::SEGMENT_C.key_points)(a, b, d, m, out, len, count)
    }
}

impl<N: Fill> Fill for Value<N> {
    fn fill(at: usize) -> Value<N> {
        let (v, kind) = (N::fill(at), usize::fill(at) as u32);
        Value { v, kind }
    }

    fn same(self, other: Value<N>) -> bool {
        self.kind == other.kind && self.v.same(other.v)
    }
}

/// The value of this kind; where there is none, what C refuses it with.
fn of_kind<N: Copy>(Value { v, kind }: Value<N>) -> Result<SegmentValue<N>, Refusal> {
    match kind {
        EXACT => Ok(SegmentValue::Exact(v)),
        CENTER_OF => Ok(SegmentValue::CenterOf(v)),
        LAST => Ok(SegmentValue::Last),
        _ => Err(Refusal::WholeNotAdmitted),
    }
}

/// As C has the value.
fn as_c<N: Entry>(value: SegmentValue<N>) -> Value<N> {
    let (kind, v) = match value {
        SegmentValue::Exact(v) => (EXACT, v),
        SegmentValue::CenterOf(v) => (CENTER_OF, v),
        SegmentValue::Last => (LAST, N::ZERO),
    };
    Value { v, kind }
}

impl<A: Library> beside::Library for Size<A> {
    const CALL: &'static str = A::NAMES.size;
    const DRAWN: usize = A::DRAWN;
    const BATCH: usize = A::BATCH;

    fn safe(self) -> Result<Option<u64>, Refusal> {
        self.0.size().map(Some)
    }

    unsafe fn function(self, out: *mut u64) -> i32 {
        self.0.c_size(out)
    }
}

impl<A: Library> beside::Library for FromIndex<A> {
    const CALL: &'static str = A::NAMES.from_index;
    const DRAWN: usize = A::DRAWN;
    const BATCH: usize = A::BATCH;

    fn safe(self) -> Result<Option<Value<A::Number>>, Refusal> {
        self.axis.from_index(self.k).map(|value| value.map(as_c))
    }

    unsafe fn function(self, out: *mut Value<A::Number>) -> i32 {
        let (kind, v) = (&raw mut (*out).kind, &raw mut (*out).v);
        self.axis.c_from_index(self.k, kind, v)
    }
}

impl<A: Library> beside::Library for IndexOf<A> {
    const CALL: &'static str = A::NAMES.index_of;
    const DRAWN: usize = A::DRAWN;
    const BATCH: usize = A::BATCH;

    fn safe(self) -> Result<Option<u64>, Refusal> {
        self.axis.index_of(self.method, of_kind(self.value)?)
    }

    unsafe fn function(self, out: *mut u64) -> i32 {
        self.axis.c_index_of(self.method, self.value, out)
    }
}

impl<A: Library> beside::Library for Map<A> {
    const CALL: &'static str = A::NAMES.map;
    const DRAWN: usize = A::DRAWN;
    const BATCH: usize = A::BATCH;

    fn safe(self) -> Result<Option<i32>, Refusal> {
        let IndexOf { axis, method, .. } = self.search;
        let (value, limit) = (of_kind(self.search.value)?, Limit(self.p, self.q));
        axis.map(method, value, limit).map(Some)
    }

    unsafe fn function(self, out: *mut i32) -> i32 {
        let (search, limits) = (self.search, (self.p, self.q));
        search.axis.c_map(search.method, search.value, limits, out)
    }
}

impl<A: Library> beside::Library for Unmap<A> {
    const CALL: &'static str = A::NAMES.unmap;
    const DRAWN: usize = A::DRAWN;
    const BATCH: usize = A::BATCH;

    fn safe(self) -> Result<Option<Value<A::Number>>, Refusal> {
        let value = self.axis.unmap(self.x, Limit(self.p, self.q));
        value.map(|value| value.map(as_c))
    }

    unsafe fn function(self, out: *mut Value<A::Number>) -> i32 {
        let (kind, v) = (&raw mut (*out).kind, &raw mut (*out).v);
        self.axis.c_unmap(self.x, (self.p, self.q), kind, v)
    }
}

pub fn compare<A: Library>() -> bool {
    beside::compare::<Size<A>>()
        & beside::compare::<FromIndex<A>>()
        & beside::compare::<IndexOf<A>>()
        & beside::compare::<Map<A>>()
        & beside::compare::<Unmap<A>>()
}
