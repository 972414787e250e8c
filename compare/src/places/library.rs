//! Places of culvraod.

use culvraod::places::{culv_real_map, culv_whole_map};
use culvraod::{Limit, RangedCoordf64, RangedCoordi32};

use super::{exact, Place};
use crate::beside::{self, library, Library, Mirrored, Negated};
use crate::cases::Cases;

library!(
    Place<i32> { a, b, v, p, q } -> i32, "whole_map", culv_whole_map,
    RangedCoordi32(a, b).map(v, Limit(p, q)).map(Some)
);
library!(
    Place<f64> { a, b, v, p, q } -> i32, "real_map", culv_real_map,
    RangedCoordf64(a, b).map(v, Limit(p, q)).map(Some)
);

impl<N: Negated> Negated for Place<N> {
    fn negated(self) -> Option<Self> {
        Some(Place {
            a: self.a.negated()?,
            b: self.b.negated()?,
            v: self.v.negated()?,
            p: self.p.negated()?,
            q: self.q.negated()?,
        })
    }
}

impl<N: Negated> Mirrored for Place<N>
where
    Place<N>: Library + Cases,
{
    fn mirror(self) -> Option<Self> {
        self.negated()
    }
}

pub fn compare() -> bool {
    beside::compare::<Place<i32>>()
        & beside::compare::<Place<f64>>()
        & beside::compare_mirror::<Place<i32>>()
        & beside::compare_mirror::<Place<f64>>()
        & exact::compare()
}

pub fn bench() {
    beside::bench::<Place<i32>>();
    beside::bench::<Place<f64>>();
}
