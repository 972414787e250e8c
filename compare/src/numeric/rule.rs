//! The rule for marks, written in whole numbers from the scope document's own words.

use std::ops::RangeInclusive;

pub const BOUND: i128 = 1_000_000_000;

/// 1, 2, 5, 10, 20, 50 up to 1,000,000,000.
pub const STEPS: [i128; 28] = {
    let mut steps = [1; 28];
    let mut at = 0;
    while at < 28 {
        steps[at] = [1, 2, 5][at % 3] * 10i128.pow(at as u32 / 3);
        at += 1;
    }
    steps
};

pub struct Marks {
    pub step: i128,
    pub first: i128,
    pub count: usize,
}

pub fn ceil_div(d: i128, s: i128) -> i128 {
    -(-d).div_euclid(s)
}

/// Whether the axis has few enough parts for the step at this position of the table.
fn serves(at: usize, d: i128, m: u32) -> bool {
    let parts = ceil_div(d, STEPS[at]);
    let power_of_ten = at.is_multiple_of(3);
    if power_of_ten {
        parts <= m.into()
    } else {
        parts < m.into()
    }
}

/// The marks, or the number of the refusal; a list too short is left to the caller.
pub fn marks(admitted: &RangeInclusive<i128>, a: i128, b: i128, m: u32) -> Result<Marks, i32> {
    if !admitted.contains(&a) || !admitted.contains(&b) {
        return Err(1);
    }
    let (lo, hi) = (a.min(b), a.max(b));
    let at = (0..STEPS.len())
        .find(|&at| serves(at, hi - lo, m))
        .ok_or(3)?;
    let step = STEPS[at];
    let first = ceil_div(lo, step) * step;
    let last = hi / step * step; // division cuts toward zero
    let count = if last < first {
        0
    } else {
        (last - first) / step + 1
    };
    Ok(Marks {
        step,
        first,
        count: count as usize,
    })
}
