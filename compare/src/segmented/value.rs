//! Values of segmented axes, as C has them: the number of a kind, and a number that it carries.

use plotters::coord::ranged1d::SegmentValue;

use crate::entry::Entry;
use crate::number::Number;

pub const EXACT: u32 = 0;
pub const CENTER_OF: u32 = 1;
pub const LAST: u32 = 2;

#[derive(Clone, Copy, PartialEq)]
pub struct Value<N> {
    pub v: N,
    pub kind: u32,
}

impl<N: Entry> From<Value<N>> for Number {
    fn from(Value { v, kind }: Value<N>) -> Number {
        v.into().in_segment(kind)
    }
}

impl<N: Entry> From<SegmentValue<N>> for Value<N> {
    fn from(value: SegmentValue<N>) -> Value<N> {
        let (kind, v) = match value {
            SegmentValue::Exact(v) => (EXACT, v),
            SegmentValue::CenterOf(v) => (CENTER_OF, v),
            SegmentValue::Last => (LAST, N::ZERO),
        };
        Value { v, kind }
    }
}

impl<N: Entry> Value<N> {
    /// As the words of a line have it.
    pub fn named(self) -> [(&'static str, Number); 2] {
        [("kind", u64::from(self.kind).into()), ("v", self.v.into())]
    }

    pub fn plotters(self) -> SegmentValue<N> {
        match self.kind {
            EXACT => SegmentValue::Exact(self.v),
            CENTER_OF => SegmentValue::CenterOf(self.v),
            LAST => SegmentValue::Last,
            kind => panic!("plotters has no kind {kind}"),
        }
    }
}
