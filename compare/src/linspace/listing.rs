//! Lists and marks of stepped axes: the rule and plotters.

use plotters::coord::ranged1d::{DiscreteRanged, Ranged};
use std::fmt::{self, Display};

use super::cases::{drawn, mark_limit, picked, Drawn, Numbers};
use super::kind::Kind;
use super::{rule, Steps};
use crate::lines;
use crate::number::Number;
use crate::random::Random;
use crate::written::{named, Writes, Written};

/// An axis whose list is asked for, or, with a mark limit, its marks.
#[derive(Clone, Copy)]
pub struct Listing<N> {
    pub axis: Steps<N>,
    pub m: Option<u32>,
}

impl<N: Kind> Listing<N> {
    pub fn plotters(self) -> Vec<N> {
        let axis = N::plotters(self.axis);
        match self.m {
            None => axis.values().collect(),
            Some(m) => axis.key_points(m as usize),
        }
    }
}

impl<N: Kind> Display for Listing<N> {
    fn fmt(&self, f: &mut fmt::Formatter<'_>) -> fmt::Result {
        write!(f, "{}", named(self.fields()))
    }
}

impl<N: Kind> Writes for Listing<N> {
    type Number = N;

    fn keyword(self) -> &'static str {
        match self.m {
            None => N::LIST,
            Some(_) => N::WORDS.key_points,
        }
    }

    fn fields(self) -> Vec<(&'static str, Number)> {
        let m = self.m.map(|m| ("m", u64::from(m).into()));
        self.axis.named().into_iter().chain(m).collect()
    }

    fn rule(self) -> Result<Written<N>, i32> {
        let list = match self.m {
            None => rule::list(self.axis),
            Some(m) => rule::marks(self.axis, m),
        };
        list.map(|list| Written { step: None, list })
    }

    fn ends(self) -> bool {
        rule::count(self.axis).is_ok()
    }

    fn given(self) -> Vec<Number> {
        self.plotters().into_iter().map(N::into).collect()
    }

    fn shown(entry: N) -> Number {
        entry.into()
    }

    fn too_short(self) -> i32 {
        match self.m {
            None => 7,
            Some(_) => 13,
        }
    }
}

/// The mark limits that worked axes are marked with.
pub const LIMITS: [u32; 6] = [0, 1, 2, 5, 10, u32::MAX];

/// A random axis, of numbers at the edges at times, and a mark limit.
fn any<N: Numbers>(random: &mut Random) -> (Steps<N>, u32) {
    if random.below(3) == 0 {
        return (picked(random), random.pick(&LIMITS));
    }
    let Drawn { axis, n } = drawn(random);
    (axis, mark_limit(random, n))
}

pub fn print<N: Numbers>(seed: u64) {
    let most = N::LINES.map(|lines| 3 * lines);
    let axes = || N::LISTS.iter().copied();
    let lists = axes().map(|axis| Listing { axis, m: None });
    lines::print_lists(seed, most, lists, |random| {
        let (axis, _) = any(random);
        Listing { axis, m: None }
    });
    let marked = |axis| LIMITS.map(|m| Listing { axis, m: Some(m) });
    lines::print_lists(seed + 1, most, axes().flat_map(marked), |random| {
        let (axis, m) = any(random);
        Listing { axis, m: Some(m) }
    });
}
