//! Fault charts: pins that are counted at the entries of a stepped list.
//!
//! A pin counts at the greatest entry that is not above it. [`Chart`] owns its counts and its axis;
//! [`clear`], [`set`] and [`pull`] work on counts that the caller keeps.
//!
//! After any pins set and pulled on an empty chart each count is the number of pins set at its entry
//! less that of pins pulled there, those that were refused left out: that is proved.

use crate::refusal::{answered, Refusal};
use crate::{Linspacei32, RangedCoordi32};

// As include/culvraod.h declares and describes them.
extern "C" {
    /// The C function behind [`clear`].
    pub fn culv_chart_clear(a: i32, b: i32, d: i32, counts: *mut u16, len: usize) -> i32;

    /// The C function behind [`set`].
    pub fn culv_chart_set(a: i32, b: i32, d: i32, pin: i32, counts: *mut u16, len: usize) -> i32;

    /// The C function behind [`pull`].
    pub fn culv_chart_pull(a: i32, b: i32, d: i32, pin: i32, counts: *mut u16, len: usize) -> i32;
}

/// So many counts has every chart, however few entries its list has.
pub const COUNTS: usize = 1024;

/// Makes the first [`COUNTS`] of the lent counts an empty chart of the axis.
///
/// Refused as [`Refusal::WholeNotAdmitted`], [`Refusal::StepAgainstAxis`],
/// [`Refusal::ListTooLong`], [`Refusal::NoChartEntry`] where the list has more than [`COUNTS`]
/// entries, or [`Refusal::OutTooShort`] where fewer are lent.
pub fn clear(axis: Linspacei32, counts: &mut [u16]) -> Result<(), Refusal> {
    let (RangedCoordi32(a, b), d) = (axis.inner, axis.step);
    // SAFETY: `counts` has that length.
    let code = unsafe { culv_chart_clear(a, b, d, counts.as_mut_ptr(), counts.len()) };
    answered("culv_chart_clear", code, ())
}

/// A C function that does something with a pin.
type Deed = unsafe extern "C" fn(i32, i32, i32, i32, *mut u16, usize) -> i32;

fn done_by(
    name: &'static str,
    deed: Deed,
    axis: Linspacei32,
    pin: i32,
    counts: &mut [u16],
) -> Result<(), Refusal> {
    let (RangedCoordi32(a, b), d) = (axis.inner, axis.step);
    // SAFETY: `counts` has that length.
    let code = unsafe { deed(a, b, d, pin, counts.as_mut_ptr(), counts.len()) };
    answered(name, code, ())
}

/// Sets a pin on the chart of the axis: the count at its entry becomes one more, and no other
/// changes.
///
/// Refused as [`Refusal::WholeNotAdmitted`], [`Refusal::StepAgainstAxis`],
/// [`Refusal::ListTooLong`], [`Refusal::NoChartEntry`], [`Refusal::CountFull`] or
/// [`Refusal::OutTooShort`] where fewer than [`COUNTS`] are lent.
pub fn set(axis: Linspacei32, pin: i32, counts: &mut [u16]) -> Result<(), Refusal> {
    done_by("culv_chart_set", culv_chart_set, axis, pin, counts)
}

/// Pulls a pin: the count at its entry becomes one less.
///
/// Refused as [`set`] is, but as [`Refusal::CountEmpty`] in place of [`Refusal::CountFull`].
pub fn pull(axis: Linspacei32, pin: i32, counts: &mut [u16]) -> Result<(), Refusal> {
    done_by("culv_chart_pull", culv_chart_pull, axis, pin, counts)
}

/// A chart with its axis.
///
/// ```
/// use culvraod::{Chart, RangedCoordi32, Refusal};
///
/// let mut chart = Chart::new(RangedCoordi32(0, 100).step(10))?;
/// chart.set(34)?;
/// chart.set(38)?;
/// assert_eq!(chart.counts()[3], 2);
/// chart.pull(30)?;
/// assert_eq!(chart.counts()[3], 1);
/// assert_eq!(chart.pull(29), Err(Refusal::CountEmpty));
/// assert_eq!(chart.set(-1), Err(Refusal::NoChartEntry));
/// # Ok::<(), Refusal>(())
/// ```
#[derive(Clone, Debug, PartialEq, Eq)]
pub struct Chart {
    axis: Linspacei32,
    counts: [u16; COUNTS],
}

impl Chart {
    /// An empty chart of the axis.
    ///
    /// Refused as [`Refusal::WholeNotAdmitted`], [`Refusal::StepAgainstAxis`],
    /// [`Refusal::ListTooLong`], or [`Refusal::NoChartEntry`] where the list has more than
    /// [`COUNTS`] entries.
    pub fn new(axis: Linspacei32) -> Result<Chart, Refusal> {
        let mut counts = [0; COUNTS];
        clear(axis, &mut counts)?;
        Ok(Chart { axis, counts })
    }

    /// The axis, whose list has the entries.
    pub fn axis(&self) -> Linspacei32 {
        self.axis
    }

    /// The number of pins at each entry; zero past the list.
    pub fn counts(&self) -> &[u16; COUNTS] {
        &self.counts
    }

    /// Sets a pin.
    ///
    /// Refused as [`Refusal::WholeNotAdmitted`], [`Refusal::NoChartEntry`] or
    /// [`Refusal::CountFull`].
    pub fn set(&mut self, pin: i32) -> Result<(), Refusal> {
        set(self.axis, pin, &mut self.counts)
    }

    /// Pulls a pin.
    ///
    /// Refused as [`Refusal::WholeNotAdmitted`], [`Refusal::NoChartEntry`] or
    /// [`Refusal::CountEmpty`].
    pub fn pull(&mut self, pin: i32) -> Result<(), Refusal> {
        pull(self.axis, pin, &mut self.counts)
    }

    /// Takes all pins away.
    pub fn clear(&mut self) {
        clear(self.axis, &mut self.counts).expect("its axis has had a chart");
    }
}

#[cfg(test)]
mod tests {
    use super::*;

    fn stepped(a: i32, b: i32, d: i32) -> Linspacei32 {
        RangedCoordi32(a, b).step(d)
    }

    #[test]
    fn pins_are_counted_at_the_entry_below() {
        let mut chart = Chart::new(stepped(10, 0, -4)).unwrap();
        for pin in [11, 10, 9, 7, 6, 2, 5] {
            chart.set(pin).unwrap();
        }
        assert_eq!(chart.counts()[..4], [2, 3, 2, 0]);
        assert_eq!(chart.set(1), Err(Refusal::NoChartEntry));
        assert_eq!(chart.pull(1), Err(Refusal::NoChartEntry));
        chart.pull(8).unwrap();
        assert_eq!(chart.counts()[..4], [2, 2, 2, 0]);
        assert_eq!(chart.counts()[4..], [0; COUNTS - 4]);
        chart.clear();
        assert_eq!(Ok(chart), Chart::new(stepped(10, 0, -4)));
    }

    #[test]
    fn counts_end_at_zero_and_at_65_535() {
        let mut chart = Chart::new(stepped(0, 10, 5)).unwrap();
        assert_eq!(chart.pull(7), Err(Refusal::CountEmpty));
        for _ in 0..65_535 {
            chart.set(7).unwrap();
        }
        assert_eq!(chart.set(7), Err(Refusal::CountFull));
        assert_eq!(chart.counts()[..3], [0, 65_535, 0]);
        chart.set(4).unwrap();
        chart.pull(7).unwrap();
        assert_eq!(chart.counts()[..3], [1, 65_534, 0]);
    }

    #[test]
    fn the_longest_list_has_1024_entries() {
        let mut chart = Chart::new(stepped(0, 1024, 1)).unwrap();
        chart.set(i32::from(u16::MAX)).unwrap();
        assert_eq!(chart.counts()[1023], 1);
        let refused = |axis| Chart::new(axis).unwrap_err();
        assert_eq!(refused(stepped(0, 1025, 1)), Refusal::NoChartEntry);
        assert_eq!(refused(stepped(0, 65_537, 1)), Refusal::ListTooLong);
        assert_eq!(refused(stepped(0, 9, 0)), Refusal::StepAgainstAxis);
        assert_eq!(
            refused(stepped(0, 1_000_000_001, 1)),
            Refusal::WholeNotAdmitted
        );
        let mut none = Chart::new(stepped(7, 7, 1)).unwrap();
        assert_eq!(none.set(7), Err(Refusal::NoChartEntry));
    }

    #[test]
    fn lent_counts_behind_the_chart_stay() {
        let (axis, mut lent) = (stepped(0, 10, 5), [77; COUNTS + 2]);
        assert_eq!(set(axis, 0, &mut lent), Ok(()));
        assert_eq!((lent[0], lent[1]), (78, 77));
        assert_eq!(clear(axis, &mut lent), Ok(()));
        assert_eq!(lent[..COUNTS], [0; COUNTS]);
        assert_eq!(lent[COUNTS..], [77; 2]);
        assert_eq!(pull(axis, 0, &mut lent), Err(Refusal::CountEmpty));
    }

    #[test]
    fn refusals_write_nothing() {
        let mut lent = [77; COUNTS - 1];
        let mut refused = |axis, pin| pull(axis, pin, &mut lent).unwrap_err();
        let axis = stepped(0, 10, 5);
        assert_eq!(refused(axis, 1_000_000_001), Refusal::WholeNotAdmitted);
        assert_eq!(refused(axis, -1), Refusal::NoChartEntry);
        assert_eq!(refused(axis, 0), Refusal::OutTooShort);
        assert_eq!(refused(stepped(0, 1025, 1), 0), Refusal::NoChartEntry);
        assert_eq!(clear(axis, &mut lent), Err(Refusal::OutTooShort));
        assert_eq!(lent, [77; COUNTS - 1]);
    }
}
