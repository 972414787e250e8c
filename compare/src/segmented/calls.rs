//! The calls on segments that answer with one number or one value.

use plotters::coord::ranged1d::{DiscreteRanged, Ranged, ReversibleRanged, SegmentValue};

use super::axis::{Ask, Axis};
use super::rule;
use super::value::{Value, EXACT, LAST};
use crate::admitted::{BOUND, FILM};
use crate::call::{Answer, Call};
use crate::entry::Entry;
use crate::number::Number;

#[derive(Clone, Copy)]
pub struct Size<A>(pub A);

#[derive(Clone, Copy)]
pub struct FromIndex<A> {
    pub axis: A,
    pub k: u64,
}

#[derive(Clone, Copy)]
pub struct IndexOf<A: Axis> {
    pub axis: A,
    pub method: A::Method,
    pub value: Value<A::Number>,
}

/// A value that is searched for, and the limits of the film.
#[derive(Clone, Copy)]
pub struct Map<A: Axis> {
    pub search: IndexOf<A>,
    pub p: i32,
    pub q: i32,
}

/// A pixel, and the limits of the film.
#[derive(Clone, Copy)]
pub struct Unmap<A> {
    pub axis: A,
    pub x: i32,
    pub p: i32,
    pub q: i32,
}

/// Whether plotters ends and its answer means something: not without entries, nor where a list has
/// no end. On more values than are admitted its margin is not that of their number.
fn ends<N>(rule: Answer<N>) -> bool {
    !matches!(rule, Err(1 | 2 | 4 | 6 | 7))
}

impl<A: Axis> Call for Size<A> {
    type Number = u64;
    const KEYWORD: &'static str = A::WORDS.size;

    fn fields(self) -> impl Iterator<Item = (&'static str, Number)> {
        self.0.named().into_iter()
    }

    fn rule(self) -> Answer<u64> {
        rule::size(self.0)
    }

    fn asks_plotters(self, rule: Answer<u64>) -> bool {
        ends(rule)
    }

    fn plotters(self) -> Option<u64> {
        Some(self.0.plotters().size() as u64)
    }
}

impl<A: Axis> Call for FromIndex<A> {
    type Number = Value<A::Number>;
    const KEYWORD: &'static str = A::WORDS.from_index;

    fn fields(self) -> impl Iterator<Item = (&'static str, Number)> {
        self.axis.named().into_iter().chain([("k", self.k.into())])
    }

    fn rule(self) -> Answer<Value<A::Number>> {
        rule::from_index(self)
    }

    fn asks_plotters(self, rule: Answer<Value<A::Number>>) -> bool {
        ends(rule)
    }

    fn plotters(self) -> Option<Value<A::Number>> {
        let value = self.axis.plotters().from_index(self.k as usize);
        value.map(Value::from)
    }
}

impl<A: Axis> Ask<A::Number> for IndexOf<A> {
    type Told = Option<u64>;

    fn of<D>(self, axis: D) -> Option<u64>
    where
        D: DiscreteRanged + Ranged<ValueType = SegmentValue<A::Number>>,
    {
        let index = axis.index_of(&self.value.plotters());
        index.map(|index| index as u64)
    }
}

impl<A: Axis> Call for IndexOf<A> {
    type Number = u64;
    const KEYWORD: &'static str = A::WORDS.index_of;

    fn fields(self) -> impl Iterator<Item = (&'static str, Number)> {
        let by = A::method_named(self.method);
        let axis = self.axis.named().into_iter();
        axis.chain(by).chain(self.value.named())
    }

    fn rule(self) -> Answer<u64> {
        rule::index_of(self)
    }

    /// If plotters has such a method and such a value.
    fn listed(self) -> bool {
        A::known(self.method).is_ok() && self.value.kind <= LAST
    }

    fn asks_plotters(self, rule: Answer<u64>) -> bool {
        ends(rule)
    }

    fn plotters(self) -> Option<u64> {
        self.axis.ask(self.method, self)
    }
}

impl<A: Axis> Map<A> {
    /// Whether plotters panics, or gives a pixel that shows how far out the value's place is; the
    /// middle between that and a successor's is half as far.
    fn goes_too_far(self, plotters: Option<Option<i32>>) -> bool {
        let least = match self.search.value.kind {
            EXACT => BOUND,
            _ => BOUND / 2 - 2 * FILM,
        };
        let distance = |pixel: i32| (i64::from(pixel) - i64::from(self.p)).abs();
        plotters
            .flatten()
            .is_none_or(|pixel| distance(pixel) > least)
    }
}

impl<A: Axis> Ask<A::Number> for Map<A> {
    type Told = i32;

    fn of<D>(self, axis: D) -> i32
    where
        D: DiscreteRanged + Ranged<ValueType = SegmentValue<A::Number>>,
    {
        axis.map(&self.search.value.plotters(), (self.p, self.q))
    }
}

impl<A: Axis> Call for Map<A> {
    type Number = i32;
    const KEYWORD: &'static str = A::WORDS.map;

    fn fields(self) -> impl Iterator<Item = (&'static str, Number)> {
        let limits = [("p", self.p.into()), ("q", self.q.into())];
        self.search.fields().chain(limits)
    }

    fn rule(self) -> Answer<i32> {
        rule::map(self)
    }

    fn listed(self) -> bool {
        self.search.listed()
    }

    fn asks_plotters(self, rule: Answer<i32>) -> bool {
        ends(rule)
    }

    fn plotters(self) -> Option<i32> {
        Some(self.search.axis.ask(self.search.method, self))
    }

    /// A number that cannot be searched for has a place, so that 5 is not met for it.
    fn may_give(self, plotters: Option<Option<i32>>) -> bool {
        if self.search.value.v.is_nan() {
            plotters.is_none()
        } else {
            self.goes_too_far(plotters)
        }
    }
}

impl<A: Axis> Call for Unmap<A> {
    type Number = Value<A::Number>;
    const KEYWORD: &'static str = A::WORDS.unmap;

    fn fields(self) -> impl Iterator<Item = (&'static str, Number)> {
        let Unmap { x, p, q, .. } = self;
        let more = [("x", x.into()), ("p", p.into()), ("q", q.into())];
        self.axis.named().into_iter().chain(more)
    }

    fn rule(self) -> Answer<Value<A::Number>> {
        rule::unmap(self)
    }

    fn asks_plotters(self, rule: Answer<Value<A::Number>>) -> bool {
        ends(rule)
    }

    fn plotters(self) -> Option<Value<A::Number>> {
        let value = self.axis.plotters().unmap(self.x, (self.p, self.q));
        value.map(Value::from)
    }
}
