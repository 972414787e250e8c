//! The calls on stepped axes that answer with one number.

use plotters::coord::ranged1d::{DiscreteRanged, Ranged, ReversibleRanged};

use super::kind::Kind;
use super::{rule, Steps};
use crate::call::{Answer, Call};
use crate::number::Number;
use crate::places::Place;
use crate::search::rule::{DOWN, EXACT, NEAREST, UP};

#[derive(Clone, Copy)]
pub struct Size<N>(pub Steps<N>);

#[derive(Clone, Copy)]
pub struct FromIndex<N> {
    pub axis: Steps<N>,
    pub k: u64,
}

/// A value, and the number of the method by which its index is found.
#[derive(Clone, Copy)]
pub struct IndexOf<N> {
    pub axis: Steps<N>,
    pub v: N,
    pub method: u32,
}

/// The axis, and the place on the axis without its step, which has the same ends.
#[derive(Clone, Copy)]
pub struct Map<N> {
    pub axis: Steps<N>,
    pub place: Place<N>,
}

/// A pixel, and the limits of the film.
#[derive(Clone, Copy)]
pub struct Unmap<N> {
    pub axis: Steps<N>,
    pub x: i32,
    pub p: i32,
    pub q: i32,
}

/// Whether plotters ends: with a step against the axis, or too many of them, it may not.
fn ends<N: Kind, M>(axis: Steps<N>, rule: Answer<M>) -> bool {
    match rule {
        Err(1 | 2 | 6 | 7) => false,
        Err(5) => rule::count(axis).is_ok(),
        _ => true,
    }
}

impl<N: Kind> Call for Size<N> {
    type Number = u64;
    const KEYWORD: &'static str = N::WORDS.size;

    fn fields(self) -> impl Iterator<Item = (&'static str, Number)> {
        self.0.named().into_iter()
    }

    fn rule(self) -> Answer<u64> {
        rule::size(self.0)
    }

    fn asks_plotters(self, rule: Answer<u64>) -> bool {
        ends(self.0, rule)
    }

    fn plotters(self) -> Option<u64> {
        Some(N::plotters(self.0).size() as u64)
    }
}

impl<N: Kind> Call for FromIndex<N> {
    type Number = N;
    const KEYWORD: &'static str = N::WORDS.from_index;

    fn fields(self) -> impl Iterator<Item = (&'static str, Number)> {
        self.axis.named().into_iter().chain([("k", self.k.into())])
    }

    fn rule(self) -> Answer<N> {
        rule::from_index(self)
    }

    fn asks_plotters(self, rule: Answer<N>) -> bool {
        ends(self.axis, rule)
    }

    fn plotters(self) -> Option<N> {
        N::plotters(self.axis).from_index(self.k as usize)
    }
}

impl<N: Kind> Call for IndexOf<N> {
    type Number = u64;
    const KEYWORD: &'static str = N::WORDS.index_of;

    fn fields(self) -> impl Iterator<Item = (&'static str, Number)> {
        let method = u64::from(self.method).into();
        let more = [("v", self.v.into()), ("method", method)];
        self.axis.named().into_iter().chain(more)
    }

    fn rule(self) -> Answer<u64> {
        rule::index_of(self)
    }

    fn listed(self) -> bool {
        self.method <= NEAREST
    }

    fn asks_plotters(self, rule: Answer<u64>) -> bool {
        ends(self.axis, rule)
    }

    fn plotters(self) -> Option<u64> {
        let axis = N::plotters(self.axis);
        let index = match self.method {
            EXACT => axis.index_of(&self.v),
            UP => axis.use_ceil().index_of(&self.v),
            DOWN => axis.use_floor().index_of(&self.v),
            NEAREST => axis.use_round().index_of(&self.v),
            method => panic!("plotters has no method {method}"),
        };
        index.map(|index| index as u64)
    }
}

impl<N: Kind> Call for Map<N> {
    type Number = i32;
    const KEYWORD: &'static str = N::WORDS.map;

    fn fields(self) -> impl Iterator<Item = (&'static str, Number)> {
        let Place { v, p, q, .. } = self.place;
        let more = [("v", v.into()), ("p", p.into()), ("q", q.into())];
        self.axis.named().into_iter().chain(more)
    }

    fn rule(self) -> Answer<i32> {
        rule::map(self)
    }

    fn asks_plotters(self, rule: Answer<i32>) -> bool {
        ends(self.axis, rule)
    }

    fn plotters(self) -> Option<i32> {
        let Place { v, p, q, .. } = self.place;
        Some(N::plotters(self.axis).map(&v, (p, q)))
    }

    fn may_give(self, plotters: Option<Option<i32>>) -> bool {
        self.place.goes_too_far(plotters)
    }
}

impl<N: Kind> Call for Unmap<N> {
    type Number = N;
    const KEYWORD: &'static str = N::WORDS.unmap;

    fn fields(self) -> impl Iterator<Item = (&'static str, Number)> {
        let Unmap { x, p, q, .. } = self;
        let more = [("x", x.into()), ("p", p.into()), ("q", q.into())];
        self.axis.named().into_iter().chain(more)
    }

    fn rule(self) -> Answer<N> {
        rule::unmap(self)
    }

    fn asks_plotters(self, rule: Answer<N>) -> bool {
        ends(self.axis, rule)
    }

    fn plotters(self) -> Option<N> {
        N::plotters(self.axis).unmap(self.x, (self.p, self.q))
    }
}
