//! The mirror theorem for marks of whole axes, on culvraod's own answers.

use culvraod::{KeyPoints, RangedCoordi32, Refusal};

use super::axis::{Axis, Whole};
use super::cases::{fewer, large, small, Case, LONG};
use crate::lent::Lent;
use crate::random::Random;
use crate::tally::Tally;

/// The marks of an axis in a list of the given length.
fn marks(case: Case, out: &mut [i32]) -> Result<(i32, &[i32]), Refusal> {
    let axis = RangedCoordi32(Whole::number(case.a), Whole::number(case.b));
    let KeyPoints { step, count } = axis.key_points(case.m, out)?;
    Ok((step, &out[..count]))
}

/// The end nearer to zero, or zero on an axis that holds it.
fn nearest_zero(case: Case) -> i128 {
    0.clamp(case.a.min(case.b), case.a.max(case.b))
}

fn mirrored(one: &[i32], other: &[i32]) -> bool {
    one.iter().rev().map(|mark| -mark).eq(other.iter().copied())
}

/// What the theorem says of the marks of an axis and of its mirror.
fn holds(case: Case, step: i32, one: &[i32], other: &[i32]) -> bool {
    let (nearest, wide_step) = (nearest_zero(case), i128::from(step));
    if nearest % wide_step == 0 {
        return mirrored(one, other);
    }
    let (below, above) = if nearest < 0 {
        (one, other)
    } else {
        (other, one)
    };
    let past = -nearest.abs() / wide_step * wide_step; // cut toward zero
    below
        .split_last()
        .is_some_and(|(&last, rest)| i128::from(last) == past && mirrored(rest, above))
}

fn shown(marks: &[i32]) -> String {
    match marks {
        [first, .., last] if marks.len() > 20 => {
            format!("{} marks, {first} to {last}", marks.len())
        }
        _ => format!("marks {marks:?}"),
    }
}

fn check(case: Case, lent: &mut [Lent<i32>; 2]) -> Result<(), String> {
    let mirror = Case {
        a: -case.a,
        b: -case.b,
        ..case
    };
    let len = Whole::rule(case).map_or(9, |marks| marks.count + 1);
    let [left, right] = lent;
    left.refill(len);
    right.refill(len);
    let shorter = match (marks(case, left.list()), marks(mirror, right.list())) {
        (Ok((step, one)), Ok((other_step, other))) => {
            if step != other_step || !holds(case, step, one, other) {
                let (one, other) = (shown(one), shown(other));
                return Err(format!(
                    "step {step}, {one}; mirror: step {other_step}, {other}"
                ));
            }
            one.len().min(other.len())
        }
        (Err(one), Err(other)) if one == other => return Ok(()),
        (one, other) => return Err(format!("{:?}, mirror {:?}", one.err(), other.err())),
    };
    if shorter == 0 {
        return Ok(());
    }
    let one = marks(case, &mut left.list()[..shorter - 1]).err();
    let other = marks(mirror, &mut right.list()[..shorter - 1]).err();
    if one == other && one == Some(Refusal::OutTooShort) {
        Ok(())
    } else {
        Err(format!("short lists: {one:?}, mirror {other:?}"))
    }
}

pub fn compare() -> bool {
    let mut tally = Tally::new("whole_key_points beside their mirror");
    let random = &mut Random::new();
    let lent = &mut [Lent::new(), Lent::new()];
    let drawn = (0..3_000_000).map(|_| {
        let case = large::<Whole>(random);
        let most = if random.below(1_000) == 0 { 20_000 } else { 50 };
        fewer::<Whole>(random, case, most)
    });
    let cases = small(-40, 40, 45).chain(LONG).chain(drawn);
    let negatable = |case: &Case| case.a.min(case.b) > i32::MIN.into();
    cases
        .filter(negatable)
        .for_each(|case| tally.count(case.size(), case, check(case, lent)));
    tally.close()
}
