//! The running week: from clock minutes to running minutes, and back.
//!
//! A week has the minutes 0 to 10,079. The mill runs in up to 32 windows of it, each a pair of its
//! first minute and its end, which is no longer part of it; they ascend and do not touch.
//!
//! ```
//! use culvraod::week;
//!
//! let windows = [(60, 120), (200, 260)];
//! assert_eq!(week::running(&windows, 200), Ok(Some(60)));
//! assert_eq!(week::clock(&windows, 60), Ok(Some(200)));
//! assert_eq!(week::running(&windows, 120), Ok(None));
//! ```

use crate::refusal::{answered_or_none, ask, declare, Refusal};

/// How many windows a week may have.
pub const MOST_WINDOWS: usize = 32;

declare!(
    "running`]",
    culv_week_running((windows: *const u32, len: usize) clock: u32, running: *mut u32)
);
declare!(
    "clock`]",
    culv_week_clock((windows: *const u32, len: usize) running: u32, clock: *mut u32)
);

/// The windows as numbers in a row. One window too many is as bad as any number of them.
fn in_a_row(windows: &[(u32, u32)]) -> ([u32; 2 * MOST_WINDOWS + 2], usize) {
    let mut row = [0; 2 * MOST_WINDOWS + 2];
    let taken = windows.len().min(MOST_WINDOWS + 1);
    for (pair, &(first, end)) in row.chunks_exact_mut(2).zip(windows) {
        pair.copy_from_slice(&[first, end]);
    }
    (row, 2 * taken)
}

/// The running minute of a clock minute: how many minutes before it lie in windows. None outside
/// the windows.
///
/// Refused as [`Refusal::BadWeek`] or [`Refusal::BadMinute`].
pub fn running(windows: &[(u32, u32)], clock: u32) -> Result<Option<u32>, Refusal> {
    let (row, len) = in_a_row(windows);
    ask!(
        answered_or_none,
        culv_week_running(row.as_ptr(), len, clock)
    )
}

/// The clock minute of a running minute; none from the number of all window minutes on.
///
/// Refused as [`Refusal::BadWeek`].
pub fn clock(windows: &[(u32, u32)], running: u32) -> Result<Option<u32>, Refusal> {
    let (row, len) = in_a_row(windows);
    ask!(
        answered_or_none,
        culv_week_clock(row.as_ptr(), len, running)
    )
}

#[cfg(test)]
mod tests {
    use super::*;

    const WINDOWS: [(u32, u32); 2] = [(60, 120), (200, 260)];

    #[test]
    fn each_undoes_the_other() {
        for minute in 0..10_080 {
            let inside = WINDOWS.iter().any(|&(first, end)| first <= minute && minute < end);
            let running = running(&WINDOWS, minute).unwrap();
            assert_eq!(running.is_some(), inside);
            if let Some(running) = running {
                assert_eq!(clock(&WINDOWS, running), Ok(Some(minute)));
            }
        }
        assert_eq!(clock(&WINDOWS, 119), Ok(Some(259)));
        assert_eq!(clock(&WINDOWS, 120), Ok(None));
        assert_eq!(running(&[], 7), Ok(None));
    }

    #[test]
    fn refusals() {
        let bad = |windows: &[_]| running(windows, 10_080);
        assert_eq!(bad(&WINDOWS), Err(Refusal::BadMinute));
        assert_eq!(bad(&[(60, 60)]), Err(Refusal::BadWeek));
        assert_eq!(bad(&[(0, 10_081)]), Err(Refusal::BadWeek));
        assert_eq!(bad(&[(60, 120), (120, 180)]), Err(Refusal::BadWeek));
        let many: Vec<_> = (0..33).map(|at| (3 * at, 3 * at + 1)).collect();
        assert_eq!(bad(&many), Err(Refusal::BadWeek));
        assert_eq!(bad(&many[..32]), Err(Refusal::BadMinute));
    }
}
