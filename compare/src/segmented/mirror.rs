//! Segments over a stepped axis beside those over its mirror, on culvraod's own answers.

use super::calls::{FromIndex, IndexOf, Map, Size};
use super::library::Stepped;
use super::value::Value;
use crate::beside::{self, Mirrored, Negated};
use crate::linspace::Steps;
use crate::search::exchanged;

/// How many random inputs of a call are compared beside their mirror.
const MIRRORED: usize = 2_000_000;

impl<N: Stepped> Mirrored for Size<Steps<N>> {
    const MIRRORED: usize = MIRRORED;
    const SAME: bool = true;

    fn mirror(self) -> Option<Self> {
        self.0.negated().map(Size)
    }
}

impl<N: Stepped> Mirrored for FromIndex<Steps<N>> {
    const MIRRORED: usize = MIRRORED;

    fn mirror(self) -> Option<Self> {
        let axis = self.axis.negated()?;
        Some(FromIndex { axis, ..self })
    }
}

impl<N: Negated> Negated for Value<N> {
    fn negated(self) -> Option<Value<N>> {
        let v = self.v.negated()?;
        Some(Value { v, ..self })
    }
}

impl<N: Stepped> Mirrored for IndexOf<Steps<N>> {
    const MIRRORED: usize = MIRRORED;
    const SAME: bool = true;

    fn mirror(self) -> Option<Self> {
        Some(IndexOf {
            axis: self.axis.negated()?,
            method: exchanged(self.method),
            value: self.value.negated()?,
        })
    }
}

impl<N: Stepped> Mirrored for Map<Steps<N>> {
    const MIRRORED: usize = MIRRORED;

    fn mirror(self) -> Option<Self> {
        Some(Map {
            search: self.search.mirror()?,
            p: self.p.negated()?,
            q: self.q.negated()?,
        })
    }
}

pub fn compare<N: Stepped>() -> bool {
    beside::compare_mirror::<Size<Steps<N>>>()
        & beside::compare_mirror::<FromIndex<Steps<N>>>()
        & beside::compare_mirror::<IndexOf<Steps<N>>>()
        & beside::compare_mirror::<Map<Steps<N>>>()
}
