//! Searches of lent lists.

pub mod cases;
pub mod rule;

#[cfg(feature = "library")]
mod library;

use plotters::coord::{Ceil, Exact, Floor, LinspaceRoundingMethod, Round};
use std::iter::once;

use crate::call::{Answer, Call};
use crate::entry::Entry;
use crate::lines;
use crate::number::Number;
use crate::random::Random;
use cases::{Lists, WORKED};

#[cfg(feature = "library")]
pub use library::{bench, chosen, compare, exchanged};

/// How many lines each search has in the list of plotters' answers, and how many more where the
/// input is not admitted.
const LINES: [usize; 2] = [130, 20];
const DRAWN: usize = 10_000;

/// A list, a target, and the number of a method.
#[derive(Clone, Copy)]
pub struct Search<'a, N> {
    list: &'a [N],
    target: N,
    method: u32,
}

fn plotters<N: Entry>(list: &[N], target: &N, method: u32) -> Option<usize> {
    match method {
        rule::EXACT => Exact::search(list, target),
        rule::UP => Ceil::search(list, target),
        rule::DOWN => Floor::search(list, target),
        rule::NEAREST => Round::<N, N>::search(list, target),
        _ => panic!("plotters has no method {method}"),
    }
}

impl<N: Lists> Call for Search<'_, N> {
    type Number = u64;
    const KEYWORD: &'static str = N::KEYWORD;

    fn fields(self) -> impl Iterator<Item = (&'static str, Number)> {
        let entries = self.list.iter().map(|&entry| ("entry", entry.into()));
        let target = ("target", self.target.into());
        let method = ("method", u64::from(self.method).into());
        once(("length", (self.list.len() as u64).into()))
            .chain(entries)
            .chain([target, method])
    }

    fn rule(self) -> Answer<u64> {
        rule::search(self)
    }

    fn listed(self) -> bool {
        self.method <= rule::NEAREST
    }

    /// On a list that is not monotone plotters' answer means nothing.
    fn asks_plotters(self, rule: Answer<u64>) -> bool {
        !matches!(rule, Err(1 | 8))
    }

    fn plotters(self) -> Option<u64> {
        plotters(self.list, &self.target, self.method).map(|k| k as u64)
    }
}

fn print<N: Lists>(seed: u64) {
    let mut random = Random::fixed(seed);
    let worked = WORKED.map(|(list, target, method)| {
        let list = list.map(N::whole).to_vec();
        (list, N::whole(target), method)
    });
    let drawn = (0..DRAWN).map(|_| {
        let len = random.below(8) as usize;
        let list = cases::list(&mut random, len);
        let target = cases::target(&mut random, &list);
        (list, target, cases::method(&mut random))
    });
    let asked: Vec<_> = worked.into_iter().chain(drawn).collect();
    let calls = asked.iter().map(|(list, target, method)| Search {
        list,
        target: *target,
        method: *method,
    });
    lines::print_all(calls, LINES);
}

pub fn vectors() {
    print::<i32>(10);
    print::<f64>(11);
}
