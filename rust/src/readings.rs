//! Readings: the value at a pixel.

use crate::refusal::{answered_or_none, ask, declare, Refusal};
use crate::{Limit, RangedCoordf64, RangedCoordi32};

declare!(
    "RangedCoordi32::unmap`]",
    culv_whole_unmap((a: i32, b: i32) x: i32, p: i32, q: i32, v: *mut i32)
);
declare!(
    "RangedCoordi32::unmap_directed`]",
    culv_whole_unmap_directed((a: i32, b: i32) x: i32, p: i32, q: i32, v: *mut i32)
);
declare!(
    "RangedCoordf64::unmap`]",
    culv_real_unmap((a: f64, b: f64) x: i32, p: i32, q: i32, v: *mut f64)
);

impl RangedCoordi32 {
    /// The value whose share of the film holds pixel `x`, the first one before the film.
    ///
    /// None if its index is above `i32::MAX`, as it is behind a film of no length.
    /// Refused as [`Refusal::WholeNotAdmitted`], [`Refusal::LimitNotAdmitted`] or
    /// [`Refusal::AboveI32`].
    pub fn unmap(self, x: i32, limit: Limit) -> Result<Option<i32>, Refusal> {
        ask!(
            answered_or_none,
            culv_whole_unmap(self.0, self.1, x, limit.0, limit.1)
        )
    }

    /// The value whose share of the film holds pixel `x`, by the way the axis runs: an axis that
    /// descends has values too, from its first end down to its second, and past that.
    ///
    /// On an axis that does not descend this is [`unmap`](RangedCoordi32::unmap). With ends that
    /// differ and limits that differ, the mirrored axis gives the negated value at the negated
    /// pixel.
    ///
    /// None if its index is above `i32::MAX`, as it is behind a film of no length.
    /// Refused as [`Refusal::WholeNotAdmitted`], [`Refusal::LimitNotAdmitted`],
    /// [`Refusal::AboveI32`] or [`Refusal::BelowI32`].
    pub fn unmap_directed(self, x: i32, limit: Limit) -> Result<Option<i32>, Refusal> {
        ask!(
            answered_or_none,
            culv_whole_unmap_directed(self.0, self.1, x, limit.0, limit.1)
        )
    }
}

impl RangedCoordf64 {
    /// The value at pixel `x`; none outside the limits, or if they are equal.
    ///
    /// Refused as [`Refusal::LimitNotAdmitted`].
    pub fn unmap(self, x: i32, limit: Limit) -> Result<Option<f64>, Refusal> {
        ask!(
            answered_or_none,
            culv_real_unmap(self.0, self.1, x, limit.0, limit.1)
        )
    }
}

#[cfg(test)]
mod tests {
    use super::*;

    const FILM: Limit = Limit(0, 100);

    #[test]
    fn whole_readings() {
        let axis = RangedCoordi32(0, 9);
        assert_eq!(axis.unmap(99, FILM), Ok(Some(9)));
        assert_eq!(axis.unmap(100, FILM), Ok(Some(10)));
        assert_eq!(axis.unmap(-1, FILM), Ok(Some(0)));
        assert_eq!(RangedCoordi32(9, 0).unmap(50, FILM), Ok(Some(9)));
        assert_eq!(axis.unmap(6, Limit(5, 5)), Ok(None));
        assert_eq!(axis.unmap(5, Limit(5, 5)), Ok(Some(0)));
    }

    #[test]
    fn directed_readings() {
        let axis = RangedCoordi32(9, 0);
        assert_eq!(axis.unmap_directed(0, FILM), Ok(Some(9)));
        assert_eq!(axis.unmap_directed(50, FILM), Ok(Some(4)));
        assert_eq!(axis.unmap_directed(100, FILM), Ok(Some(-1)));
        assert_eq!(axis.unmap_directed(6, Limit(5, 5)), Ok(None));
        let rising = RangedCoordi32(0, 9);
        assert_eq!(rising.unmap_directed(50, FILM), rising.unmap(50, FILM));
        let far = RangedCoordi32(-500_000_000, -1_000_000_000);
        let read = |x| far.unmap_directed(x, Limit(0, 1));
        assert_eq!(read(4), Err(Refusal::BelowI32));
        assert_eq!(read(5), Ok(None));
    }

    #[test]
    fn real_readings() {
        let read = RangedCoordf64(0.0, 49.0).unmap(1, Limit(0, 49));
        assert_eq!(read, Ok(Some(1.0f64.next_down())));
        let axis = RangedCoordf64(-1.0, 1.0);
        assert_eq!(axis.unmap(25, Limit(100, 0)), Ok(Some(0.5)));
        assert_eq!(axis.unmap(101, FILM), Ok(None));
        assert_eq!(axis.unmap(5, Limit(5, 5)), Ok(None));
    }

    #[test]
    fn refusals() {
        let beyond = Limit(0, 1_000_001);
        let whole = |a, x, limit| RangedCoordi32(a, 1_000_000_000).unmap(x, limit);
        assert_eq!(
            whole(1_000_000_001, 0, beyond),
            Err(Refusal::WholeNotAdmitted)
        );
        assert_eq!(whole(0, 0, beyond), Err(Refusal::LimitNotAdmitted));
        assert_eq!(whole(500_000_000, 4, Limit(0, 1)), Err(Refusal::AboveI32));
        let real = RangedCoordf64(0.0, 1.0).unmap(-1_000_001, FILM);
        assert_eq!(real, Err(Refusal::LimitNotAdmitted));
    }
}
