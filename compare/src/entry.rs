//! The two kinds of numbers that lists and stepped axes are made of.

use plotters::coord::ranged1d::Ranged;
use plotters::coord::{RangedCoordf64, RangedCoordi32};
use std::ops::{Add, Range, Sub};

use crate::admitted;
use crate::number::Number;

pub trait Entry:
    Copy + Default + PartialOrd + Add<Output = Self> + Sub<Output = Self> + Into<Number> + 'static
{
    /// plotters' axis without a step.
    type Axis: Ranged<ValueType = Self> + From<Range<Self>> + 'static;
    const ZERO: Self;

    /// Refuses numbers that are not admitted; of reals all are.
    fn admitted(numbers: &[Self]) -> Result<(), i32>;

    /// How much it is above the other: exactly for whole numbers, rounded for reals.
    fn above(self, other: Self) -> f64;

    fn is_nan(self) -> bool {
        self.partial_cmp(&self).is_none()
    }
}

impl Entry for i32 {
    type Axis = RangedCoordi32;
    const ZERO: i32 = 0;

    fn admitted(numbers: &[i32]) -> Result<(), i32> {
        numbers.iter().try_for_each(|&n| admitted::whole([n]))
    }

    fn above(self, other: i32) -> f64 {
        f64::from(self) - f64::from(other)
    }
}

impl Entry for f64 {
    type Axis = RangedCoordf64;
    const ZERO: f64 = 0.0;

    fn admitted(_: &[f64]) -> Result<(), i32> {
        Ok(())
    }

    fn above(self, other: f64) -> f64 {
        self - other
    }
}
