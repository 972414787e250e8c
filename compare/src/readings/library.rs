//! Readings of culvraod.

use culvraod::readings::{culv_real_unmap, culv_whole_unmap, culv_whole_unmap_directed};
use culvraod::{Limit, RangedCoordf64, RangedCoordi32};

use super::directed::Directed;
use super::{stray, Reading};
use crate::beside::{self, library, Mirrored};
use crate::call::Told;

library!(
    Reading<i32> { a, b, x, p, q } -> i32, "whole_unmap", culv_whole_unmap,
    RangedCoordi32(a, b).unmap(x, Limit(p, q))
);
library!(
    Reading<f64> { a, b, x, p, q } -> f64, "real_unmap", culv_real_unmap,
    RangedCoordf64(a, b).unmap(x, Limit(p, q))
);

library!(
    Directed { a, b, x, p, q } -> i32, "whole_unmap_directed", culv_whole_unmap_directed,
    RangedCoordi32(a, b).unmap_directed(x, Limit(p, q))
);

impl Mirrored for Directed {
    fn mirror(self) -> Option<Self> {
        self.negated()
            .filter(|_| self.a != self.b && self.p != self.q)
    }

    /// 10 and 19 are each other's mirror.
    fn across(told: Told) -> Told {
        match told {
            Told::Refused(10) => Told::Refused(19),
            Told::Refused(19) => Told::Refused(10),
            _ => told,
        }
    }
}

impl Mirrored for Reading<f64> {
    fn mirror(self) -> Option<Self> {
        Some(Reading {
            a: -self.a,
            b: -self.b,
            x: self.x.checked_neg()?,
            p: self.p.checked_neg()?,
            q: self.q.checked_neg()?,
        })
    }
}

pub fn compare() -> bool {
    beside::compare::<Reading<i32>>()
        & beside::compare::<Reading<f64>>()
        & beside::compare_mirror::<Reading<f64>>()
        & beside::compare::<Directed>()
        & beside::compare_mirror::<Directed>()
        & stray::compare()
}

pub fn bench() {
    beside::bench::<Reading<i32>>();
    beside::bench::<Reading<f64>>();
    beside::bench::<Directed>();
}
