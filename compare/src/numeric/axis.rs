//! The two kinds of axes: plotters' marks, and culvraod's.

use plotters::coord::ranged1d::Ranged;
use std::fmt::{Debug, Display};
use std::ops::RangeInclusive;

use super::cases::Case;
use super::rule::{self, Marks, BOUND};
use crate::reference::caught;

/// An axis as plotters has it.
pub trait Axis {
    type Number: Copy + PartialEq + Debug + Display;
    const NAME: &'static str;
    /// The ends that the type can hold.
    const HELD: RangeInclusive<i128>;
    /// The ends that are admitted.
    const ADMITTED: RangeInclusive<i128>;

    fn number(wide: i128) -> Self::Number;
    fn wide(number: Self::Number) -> i128;
    fn plotters(a: Self::Number, b: Self::Number, m: usize) -> Vec<Self::Number>;

    /// Plotters' marks, or nothing where it panics.
    fn reference(case: Case) -> Option<Vec<Self::Number>> {
        caught(|| Self::plotters(Self::number(case.a), Self::number(case.b), case.m as usize))
    }

    /// The marks by the rule.
    fn rule(case: Case) -> Result<Marks, i32> {
        rule::marks(&Self::ADMITTED, case.a, case.b, case.m)
    }

    /// Whether plotters' marks are those of the rule, its step between neighbours included.
    fn agree(rule: &Marks, marks: &[Self::Number]) -> bool {
        let first = marks.first().map_or(rule.first, |&mark| Self::wide(mark));
        let step = |pair: &[Self::Number]| Self::wide(pair[1]) - Self::wide(pair[0]);
        rule.count == marks.len()
            && rule.first == first
            && marks.windows(2).all(|pair| step(pair) == rule.step)
    }
}

pub struct Whole;

impl Axis for Whole {
    type Number = i32;
    const NAME: &'static str = "whole";
    const HELD: RangeInclusive<i128> = i32::MIN as i128..=i32::MAX as i128;
    const ADMITTED: RangeInclusive<i128> = -BOUND..=BOUND;

    fn number(wide: i128) -> i32 {
        wide.try_into().unwrap()
    }

    fn wide(number: i32) -> i128 {
        number.into()
    }

    fn plotters(a: i32, b: i32, m: usize) -> Vec<i32> {
        plotters::coord::RangedCoordi32::from(a..b).key_points(m)
    }
}

pub struct Index;

impl Axis for Index {
    type Number = usize;
    const NAME: &'static str = "index";
    const HELD: RangeInclusive<i128> = 0..=u64::MAX as i128;
    const ADMITTED: RangeInclusive<i128> = 0..=BOUND;

    fn number(wide: i128) -> usize {
        wide.try_into().unwrap()
    }

    fn wide(number: usize) -> i128 {
        number as i128
    }

    fn plotters(a: usize, b: usize, m: usize) -> Vec<usize> {
        plotters::coord::RangedCoordusize::from(a..b).key_points(m)
    }
}

#[cfg(feature = "library")]
pub use library::Library;

#[cfg(feature = "library")]
mod library {
    use super::{Axis, Index, Whole};
    use crate::lent::Fill;
    use culvraod::numeric::{culv_index_key_points, culv_whole_key_points};
    use culvraod::{KeyPoints, RangedCoordi32, RangedCoordusize, Refusal};

    /// An axis as culvraod has it: by the safe call, and by the C function itself.
    pub trait Library: Axis<Number: Fill + Default> {
        const CALL: &'static str;

        fn key_points(
            a: Self::Number,
            b: Self::Number,
            m: u32,
            out: &mut [Self::Number],
        ) -> Result<KeyPoints<Self::Number>, Refusal>;

        /// # Safety
        /// `out` must point to `len` numbers, `step` and `count` to one each.
        unsafe fn function(
            a: Self::Number,
            b: Self::Number,
            m: u32,
            out: *mut Self::Number,
            len: usize,
            step: *mut Self::Number,
            count: *mut usize,
        ) -> i32;
    }

    /// An axis, its numbers, culvraod's axis, the call, and its C function, which has the numbers
    /// as `$c`, of the same size.
    macro_rules! library {
        ($axis:ident, $number:ident, $safe:ident, $call:literal, $function:ident of $c:ident) => {
            impl Library for $axis {
                const CALL: &'static str = $call;

                fn key_points(
                    a: $number,
                    b: $number,
                    m: u32,
                    out: &mut [$number],
                ) -> Result<KeyPoints<$number>, Refusal> {
                    $safe(a, b).key_points(m, out)
                }

                unsafe fn function(
                    a: $number,
                    b: $number,
                    m: u32,
                    out: *mut $number,
                    len: usize,
                    step: *mut $number,
                    count: *mut usize,
                ) -> i32 {
                    $function(a as $c, b as $c, m, out.cast(), len, step.cast(), count)
                }
            }
        };
    }

    library!(Whole, i32, RangedCoordi32, "whole_key_points", culv_whole_key_points of i32);
    library!(Index, usize, RangedCoordusize, "index_key_points", culv_index_key_points of u64);
}
