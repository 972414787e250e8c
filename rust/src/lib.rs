//! Safe calls of culvraod, a proved library of axes after plotters 0.3.7.
//!
//! An axis has two ends, and is placed on a film between two limits, which are pixels. The calls
//! choose marks along an axis, place values on the film, read pixels back, step along an axis,
//! search lists, cut an axis into segments, count pins at the entries of a list, write and read
//! rulers as bytes, and print labels.
//!
//! | type | stands for |
//! |---|---|
//! | [`RangedCoordi32`] | a whole axis |
//! | [`RangedCoordf64`] | a real axis |
//! | [`RangedCoordusize`] | an axis of indices |
//! | [`Linspacei32`], [`Linspacef64`] | an axis by a step, and the list of its entries |
//! | [`SegmentedCoord`] | the segments over a whole axis or one by a step |
//! | [`Chart`] | the pins at the entries of an axis by a step |
//! | [`FloatPrettyPrinter`] | the form of a label |
//!
//! Rulers are in [`ruler`], several borders on one film in [`film`], searches of any list in
//! [`search`], whole numbers with decimals in [`fixed`], the running week in [`week`].
//!
//! ```
//! use culvraod::{ruler, Limit, RangedCoordi32, Refusal};
//!
//! let (axis, film) = (RangedCoordi32(-15, -3), Limit(0, 120));
//! let mut out = [0; 8];
//! let marks = axis.key_points(4, &mut out)?;
//! assert_eq!(marks.step, 5);
//! assert_eq!(out[..marks.count], [-15, -10, -5, 0]);
//!
//! assert_eq!(axis.map(-10, film)?, 50);
//! assert_eq!(axis.unmap(50, film)?, Some(-10));
//! assert_eq!(axis.index_of(-16)?, None);
//!
//! let mut bytes = [0; 200];
//! let written = ruler::write(axis, film, 4, &mut bytes)?;
//! assert_eq!(ruler::label_of(&bytes[..written.bytes], -10), b"-10");
//!
//! let refused = RangedCoordi32(0, 1).key_points(0, &mut out);
//! assert_eq!(refused, Err(Refusal::NoStep));
//! # Ok::<(), Refusal>(())
//! ```
//!
//! # Answers
//!
//! A call gives `Ok` with its answer or `Err` with a [`Refusal`]. Where there may be no such value
//! the answer is an `Option`; `None` is an answer, not a refusal. Every combination of numbers may
//! be passed, and no call panics or allocates.
//!
//! Lists and bytes to be written are lent by the caller. They are written from their beginning, as
//! far as the answer says; the rest of them, and all of them on a refusal, stays as it was.
//! [`ruler::shift`] alone changes what it reads.
//!
//! # Refusals
//!
//! Each call names those that it can give. If several apply it is the first in the order 23, 26, 27,
//! 1, 2, 18, 3 to 9, 20 to 22, 10, 19, 11, 12, 28, 17, 24, 25, 13 to 16; of a film, behind 23, that of
//! its first border that is refused.
//!
//! | number | refusal | when |
//! |---|---|---|
//! | 1 | [`WholeNotAdmitted`](Refusal::WholeNotAdmitted) | a whole end, value, step or entry is beyond ±1,000,000,000, or an index end above 1,000,000,000 |
//! | 2 | [`LimitNotAdmitted`](Refusal::LimitNotAdmitted) | a limit or pixel is beyond ±1,000,000, or a limit would be, once it is moved |
//! | 3 | [`NoStep`](Refusal::NoStep) | the mark limit is 0 and the ends differ, or it is 1 and they are more than 1,000,000,000 apart; on an axis by a step, it is 0 and there are entries |
//! | 4 | [`NoSegments`](Refusal::NoSegments) | there is no entry to begin a segment, or a whole axis has more than 16,777,216 values |
//! | 5 | [`TooFar`](Refusal::TooFar) | more than 1,000,000,000 pixels would be added to the first limit, or taken from it |
//! | 6 | [`StepAgainstAxis`](Refusal::StepAgainstAxis) | the ends differ, and the step is zero or leads away from the second |
//! | 7 | [`ListTooLong`](Refusal::ListTooLong) | the list of an axis by a step has more than 65,536 entries, or has no room where it is to be written |
//! | 8 | [`NotMonotone`](Refusal::NotMonotone) | a list to be searched neither rises nor falls throughout, or holds NaN |
//! | 9 | [`NanTarget`](Refusal::NanTarget) | NaN is searched for in a list with entries, other than exactly |
//! | 10 | [`AboveI32`](Refusal::AboveI32) | the index is no larger than `i32::MAX`, but the value at it is |
//! | 11 | [`NotPrintable`](Refusal::NotPrintable) | the label of NaN, an infinity, or a number of size 2^53 or more is asked for |
//! | 12 | [`TooManyDecimals`](Refusal::TooManyDecimals) | more than 10 decimals are allowed, or more than 20 asked for |
//! | 13 | [`OutTooShort`](Refusal::OutTooShort) | the marks, the ruler, the label or the chart does not fit what is lent |
//! | 14 | [`NotARuler`](Refusal::NotARuler) | bytes to be read or moved are no ruler, or none of the kind that is moved |
//! | 15 | [`UnknownTwist`](Refusal::UnknownTwist) | a twist is neither 0 nor 1; [`ruler::Twist`] has no other |
//! | 16 | [`TwistLost`](Refusal::TwistLost) | a ruler with the twist Z is to move back |
//! | 17 | [`RealAxisNotMarked`](Refusal::RealAxisNotMarked) | marks of a real axis with an end that is NaN or beyond ±1,000,000, with ends that differ by less than 0.001 yet not by less than `f64::EPSILON`, or for a mark limit above 1,000 |
//! | 18 | [`NotOnAxis`](Refusal::NotOnAxis) | the exact place of a needle off its axis, or on an axis with equal ends, is asked for |
//! | 19 | [`BelowI32`](Refusal::BelowI32) | the value at an index is below −2,147,483,647 |
//! | 20 | [`NoChartEntry`](Refusal::NoChartEntry) | a pin is at no entry of its chart, or a chart's list has more than 1,024 entries |
//! | 21 | [`CountFull`](Refusal::CountFull) | a pin is set where 65,535 are counted |
//! | 22 | [`CountEmpty`](Refusal::CountEmpty) | a pin is pulled where none is counted |
//! | 23 | [`BorderCount`](Refusal::BorderCount) | a film has no border, or more than 16 |
//! | 24 | [`TooManyDigits`](Refusal::TooManyDigits) | more than 6 digits of a whole number are to be decimals |
//! | 25 | [`NotADecimal`](Refusal::NotADecimal) | a text is printed of no admitted number with so many decimals |
//! | 26 | [`BadWeek`](Refusal::BadWeek) | windows are empty, touch, descend, end beyond minute 10,080, or are more than 32 |
//! | 27 | [`BadMinute`](Refusal::BadMinute) | a clock minute is above 10,079 |
//! | 28 | [`TooSmall`](Refusal::TooSmall) | the number of a scientific label is not zero, but smaller in size than 1e-307 |
//!
//! # C functions
//!
//! Each module also declares the C functions that it rests on, `culv_` and the call's name, which
//! include/culvraod.h describes. They return 0, −1 for none, or the number of a refusal. To call
//! one is unsafe: every pointer must be aligned and valid for what it is to hold, that of an empty
//! list too, and what one refers to must not overlap what another does.

#![deny(missing_docs)]

pub mod chart;
pub mod counts;
pub mod film;
pub mod fixed;
pub mod label;
mod limit;
pub mod linspace;
pub mod numeric;
pub mod places;
pub mod readings;
mod refusal;
pub mod ruler;
pub mod search;
pub mod segmented;
pub mod week;

pub use chart::Chart;
pub use label::FloatPrettyPrinter;
pub use limit::Limit;
pub use linspace::{Linspace, Linspacef64, Linspacei32};
pub use numeric::{KeyPoints, RangedCoordf64, RangedCoordi32, RangedCoordusize};
pub use places::ExactPlace;
pub use refusal::Refusal;
pub use search::{search_real, search_whole, RoundingMethod};
pub use segmented::{SegmentValue, SegmentedCoord};
