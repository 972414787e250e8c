//! Marks of real axes, beside plotters with the decade from the table.

mod cases;
mod rule;

#[cfg(feature = "library")]
mod library;
#[cfg(feature = "library")]
mod powers;

use std::fmt::{self, Display};
use tabled::coord::ranged1d::Ranged;

use crate::lines;
use crate::number::Number;
use crate::written::{named, Writes, Written};

#[cfg(feature = "library")]
pub use library::{bench, compare};

/// How many lines the list of plotters' answers has, refusals among them.
const LINES: [usize; 2] = [500, 0];

/// The ends of an axis, and a mark limit.
#[derive(Clone, Copy)]
pub struct RealMarks {
    a: f64,
    b: f64,
    m: u32,
}

impl RealMarks {
    /// The marks of plotters' file with the table put in.
    fn tabled(self) -> Vec<f64> {
        tabled::coord::RangedCoordf64::from(self.a..self.b).key_points(self.m as usize)
    }
}

impl Display for RealMarks {
    fn fmt(&self, f: &mut fmt::Formatter<'_>) -> fmt::Result {
        write!(f, "{}", named(self.fields()))
    }
}

impl Writes for RealMarks {
    type Number = f64;

    fn keyword(self) -> &'static str {
        "rmarks"
    }

    fn fields(self) -> Vec<(&'static str, Number)> {
        let RealMarks { a, b, m } = self;
        vec![("a", a.into()), ("b", b.into()), ("m", u64::from(m).into())]
    }

    fn rule(self) -> Result<Written<f64>, i32> {
        let list = rule::marks(self)?.list;
        Ok(Written { step: None, list })
    }

    fn ends(self) -> bool {
        true
    }

    fn given(self) -> Vec<Number> {
        self.tabled().into_iter().map(Self::shown).collect()
    }

    /// Zeros of either sign count as equal: which of two equal ends plotters takes is not said.
    fn shown(entry: f64) -> Number {
        (entry + 0.0).into()
    }

    fn too_short(self) -> i32 {
        13
    }
}

pub fn vectors() {
    lines::print_lists(13, LINES, cases::WORKED.into_iter(), cases::listed);
}
