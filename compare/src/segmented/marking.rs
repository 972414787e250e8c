//! Marks of segments: the rule and plotters.

use plotters::coord::ranged1d::{Ranged, SegmentValue};
use std::fmt::{self, Display};

use super::axis::Axis;
use super::cases::Axes;
use super::value::{Value, CENTER_OF};
use crate::lines;
use crate::linspace::cases::{mark_limit, Drawn};
use crate::linspace::listing::LIMITS;
use crate::number::Number;
use crate::random::Random;
use crate::written::{named, Writes, Written};

/// No more marks than about so many are drawn on axes of more values.
const FEW: u64 = 100_000;

/// An axis and a mark limit.
#[derive(Clone, Copy)]
pub struct Marking<A> {
    pub axis: A,
    pub m: u32,
}

impl<A: Axis> Marking<A> {
    pub fn plotters(self) -> Vec<SegmentValue<A::Number>> {
        self.axis.plotters().key_points(self.m as usize)
    }
}

impl<A: Axis> Display for Marking<A> {
    fn fmt(&self, f: &mut fmt::Formatter<'_>) -> fmt::Result {
        write!(f, "{}", named(self.fields()))
    }
}

impl<A: Axis> Writes for Marking<A> {
    type Number = A::Number;

    fn keyword(self) -> &'static str {
        A::WORDS.key_points
    }

    fn fields(self) -> Vec<(&'static str, Number)> {
        let m = ("m", u64::from(self.m).into());
        self.axis.named().into_iter().chain([m]).collect()
    }

    fn rule(self) -> Result<Written<A::Number>, i32> {
        self.axis.marks(self.m)
    }

    fn ends(self) -> bool {
        self.axis.count().is_ok()
    }

    fn given(self) -> Vec<Number> {
        let marks = self.plotters().into_iter();
        marks.map(|mark| Value::from(mark).into()).collect()
    }

    /// plotters has each mark as the middle of its segment.
    fn shown(entry: A::Number) -> Number {
        entry.into().in_segment(CENTER_OF)
    }

    fn too_short(self) -> i32 {
        13
    }
}

pub fn drawn<A: Axes>(random: &mut Random) -> Marking<A> {
    let Drawn { axis, n } = A::drawn(random);
    let m = mark_limit(random, n);
    let m = if n > FEW { m % 64 } else { m };
    Marking { axis, m }
}

/// A random input, of numbers at the edges at times.
fn any<A: Axes>(random: &mut Random) -> Marking<A> {
    if random.below(3) == 0 {
        let (axis, m) = (A::picked(random), random.below(50) as u32);
        return Marking { axis, m };
    }
    drawn(random)
}

pub fn print<A: Axes>(seed: u64) {
    let most = A::LINES.map(|lines| 3 * lines);
    let marked = |&axis| LIMITS.map(|m| Marking { axis, m });
    lines::print_lists(seed, most, A::LISTS.iter().flat_map(marked), any);
}
