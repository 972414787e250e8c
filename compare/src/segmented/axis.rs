//! The three axes that segments stand on: what the rules ask of them, and plotters' own.

use plotters::coord::ranged1d::{
    DiscreteRanged, IntoSegmentedCoord, Ranged, SegmentValue, SegmentedCoord,
};
use plotters::coord::{Exact, Linspace, RangedCoordi32};

use crate::admitted;
use crate::call::Answer;
use crate::counts::rule as counts;
use crate::entry::Entry;
use crate::linspace::kind::{words, Kind, Words};
use crate::linspace::{rule as stepped, Steps};
use crate::number::Number;
use crate::places::{rule as places, Place};
use crate::search::rule::{self as search, DOWN, EXACT, NEAREST, UP};
use crate::written::Written;

/// What is asked of plotters' segments, whichever search they are made with.
pub trait Ask<N> {
    type Told;

    fn of<D: DiscreteRanged + Ranged<ValueType = SegmentValue<N>>>(self, axis: D) -> Self::Told;
}

pub trait Axis: Copy + 'static {
    type Number: Entry;
    /// How a value is found: the number of a search, where there are several.
    type Method: Copy + 'static;
    type Segments: DiscreteRanged + Ranged<ValueType = SegmentValue<Self::Number>>;
    const WORDS: Words;
    /// As many values as segments may stand on.
    const MOST: u64;

    fn named(self) -> Vec<(&'static str, Number)>;
    fn admitted(self) -> Result<(), i32>;
    /// The number of entries of an admitted axis; it has none if its list is refused.
    fn count(self) -> Result<u64, i32>;
    /// The entry at an index below the count.
    fn entry(self, k: u64) -> Option<Self::Number>;
    /// The place of a number, by the ends.
    fn place(self, v: Self::Number, limits: (i32, i32)) -> Answer<i32>;

    /// The method as a line has it.
    fn method_named(method: Self::Method) -> Option<(&'static str, Number)>;
    /// Refuses a number that stands for no search.
    fn known(method: Self::Method) -> Result<(), i32>;
    fn index(self, v: Self::Number, method: Self::Method) -> Answer<u64>;

    /// The step, where the call tells it, and the marks.
    fn marks(self, m: u32) -> Result<Written<Self::Number>, i32>;

    /// plotters' segments.
    fn plotters(self) -> Self::Segments;
    /// plotters' segments with a search.
    fn ask<Q: Ask<Self::Number>>(self, method: Self::Method, asked: Q) -> Q::Told;
}

/// A whole axis: its ends.
#[derive(Clone, Copy)]
pub struct Whole {
    pub a: i32,
    pub b: i32,
}

impl Axis for Whole {
    type Number = i32;
    type Method = ();
    type Segments = SegmentedCoord<RangedCoordi32>;
    const WORDS: Words = words!(list, "seg");
    const MOST: u64 = 16_777_216;

    fn named(self) -> Vec<(&'static str, Number)> {
        vec![("a", self.a.into()), ("b", self.b.into())]
    }

    fn admitted(self) -> Result<(), i32> {
        admitted::whole([self.a, self.b])
    }

    fn count(self) -> Result<u64, i32> {
        Ok(counts::count(self.a, self.b) as u64)
    }

    fn entry(self, k: u64) -> Option<i32> {
        let v = i128::from(self.a) + i128::from(k);
        (v <= self.b.into()).then_some(v as i32)
    }

    fn place(self, v: i32, (p, q): (i32, i32)) -> Answer<i32> {
        let Whole { a, b } = self;
        places::place(Place { a, b, v, p, q })
    }

    fn method_named(_: ()) -> Option<(&'static str, Number)> {
        None
    }

    fn known(_: ()) -> Result<(), i32> {
        Ok(())
    }

    fn index(self, v: i32, _: ()) -> Answer<u64> {
        Ok(u64::try_from(i64::from(v) - i64::from(self.a)).ok())
    }

    fn marks(self, m: u32) -> Result<Written<i32>, i32> {
        let bound = i128::from(admitted::BOUND);
        let (a, b) = (self.a.into(), self.b.into());
        let marks = crate::numeric::marks(&(-bound..=bound), a, b, m)?;
        super::rule::entries(self)?;
        let mark = |k: usize| (marks.first + k as i128 * marks.step) as i32;
        Ok(Written {
            step: Some(marks.step as i32),
            list: (0..marks.count).map(mark).collect(),
        })
    }

    fn plotters(self) -> Self::Segments {
        (self.a..self.b).into_segmented()
    }

    fn ask<Q: Ask<i32>>(self, _: (), asked: Q) -> Q::Told {
        asked.of(self.plotters())
    }
}

/// The words by which the list of answers knows segments over stepped axes.
pub trait Worded: Kind {
    const SEGMENT_WORDS: Words;
}

impl Worded for i32 {
    const SEGMENT_WORDS: Words = words!(list, "wseg");
}

impl Worded for f64 {
    const SEGMENT_WORDS: Words = words!(list, "rseg");
}

impl<N: Worded> Axis for Steps<N> {
    type Number = N;
    type Method = u32;
    type Segments = SegmentedCoord<Linspace<N::Axis, N, Exact<N>>>;
    const WORDS: Words = N::SEGMENT_WORDS;
    const MOST: u64 = stepped::MOST as u64;

    fn named(self) -> Vec<(&'static str, Number)> {
        Steps::named(self).to_vec()
    }

    fn admitted(self) -> Result<(), i32> {
        stepped::admitted(self)
    }

    fn count(self) -> Result<u64, i32> {
        stepped::count(self).map(|count| count as u64)
    }

    fn entry(self, k: u64) -> Option<N> {
        stepped::entries(self).nth(k as usize)
    }

    fn place(self, v: N, (p, q): (i32, i32)) -> Answer<i32> {
        let Steps { a, b, .. } = self;
        places::place(Place { a, b, v, p, q })
    }

    fn method_named(method: u32) -> Option<(&'static str, Number)> {
        Some(("method", u64::from(method).into()))
    }

    fn known(method: u32) -> Result<(), i32> {
        search::known(method)
    }

    fn index(self, v: N, method: u32) -> Answer<u64> {
        search::index(&stepped::list(self)?, v, method)
    }

    fn marks(self, m: u32) -> Result<Written<N>, i32> {
        let list = stepped::marks(self, m)?;
        super::rule::entries(self)?;
        Ok(Written { step: None, list })
    }

    fn plotters(self) -> Self::Segments {
        N::plotters(self).into_segmented()
    }

    fn ask<Q: Ask<N>>(self, method: u32, asked: Q) -> Q::Told {
        let axis = N::plotters(self);
        match method {
            EXACT => asked.of(axis.into_segmented()),
            UP => asked.of(axis.use_ceil().into_segmented()),
            DOWN => asked.of(axis.use_floor().into_segmented()),
            NEAREST => asked.of(axis.use_round().into_segmented()),
            method => panic!("plotters has no method {method}"),
        }
    }
}
