//! Readings of a whole axis by the way it runs.

use plotters::coord::ranged1d::ReversibleRanged;
use plotters::coord::RangedCoordi32;

use super::{rule, Reading};
use crate::admitted;
use crate::call::{call, Answer};
use crate::cases::{Cases, Pick};
use crate::counts::rule::{count, LAST};
use crate::random::Random;

/// The ends of an axis, a pixel, and the limits of the film.
#[derive(Clone, Copy)]
pub struct Directed {
    pub a: i32,
    pub b: i32,
    pub x: i32,
    pub p: i32,
    pub q: i32,
}

impl Directed {
    fn of(Reading { a, b, x, p, q }: Reading<i32>) -> Directed {
        Directed { a, b, x, p, q }
    }

    /// All numbers negated, if their type can hold that.
    pub fn negated(self) -> Option<Directed> {
        Some(Directed {
            a: self.a.checked_neg()?,
            b: self.b.checked_neg()?,
            x: self.x.checked_neg()?,
            p: self.p.checked_neg()?,
            q: self.q.checked_neg()?,
        })
    }

    /// plotters' own reading where the axis does not descend; where it does, that of the mirrored
    /// axis, which rises. A film without length has no mirror: there it is the index on an axis of
    /// as many values that rises from 0.
    fn by_plotters(self) -> Option<i32> {
        let Directed { a, b, x, p, q } = self;
        if a <= b {
            RangedCoordi32::from(a..b).unmap(x, (p, q))
        } else if p == q {
            let index = RangedCoordi32::from(0..a - b).unmap(x, (p, q));
            index.map(|k| a - k)
        } else {
            let mirrored = RangedCoordi32::from(-a..-b).unmap(-x, (-p, -q));
            mirrored.map(|v| -v)
        }
    }
}

/// A descending axis has values from a down to b; any other is read as before.
fn directed(Directed { a, b, x, p, q }: Directed) -> Answer<i32> {
    if a <= b {
        return rule::whole(Reading { a, b, x, p, q });
    }
    admitted::whole([a, b])?;
    admitted::film([x, p, q])?;
    let Some(k) = rule::index(count(b, a), x, p, q).filter(|&k| k <= LAST) else {
        return Ok(None);
    };
    let value = i128::from(a) - k;
    if value < -LAST {
        return Err(19);
    }
    Ok(Some(value as i32))
}

call!(
    Directed { a, b, x, p, q } -> i32, "dunmap", directed,
    Directed { a, b, x, p, q }.by_plotters()
);

impl Cases for Directed {
    const WORKED: &'static [Self] = &[];

    fn picked(pick: &mut impl Pick) -> Self {
        Directed::of(Reading::picked(pick))
    }

    /// Every other one is mirrored, so that what is aimed at 10 is aimed at 19 too.
    fn drawn(random: &mut Random) -> Self {
        let drawn = Directed::of(Reading::drawn(random));
        match random.below(2) {
            0 => drawn,
            _ => drawn.negated().unwrap_or(drawn),
        }
    }

    fn ordinary(random: &mut Random) -> Self {
        Directed::of(Reading::ordinary(random))
    }
}
