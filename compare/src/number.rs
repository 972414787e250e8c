//! Numbers that calls take and give: when two are the same, and how they are written.

use std::fmt;

#[derive(Clone, Copy)]
pub enum Number {
    Whole(i128),
    Real(f64),
    /// A value of a segmented axis: its kind, and the number that it carries.
    WholeSegment(u32, i128),
    RealSegment(u32, f64),
}

use Number::{Real, RealSegment, Whole, WholeSegment};

impl From<i32> for Number {
    fn from(n: i32) -> Number {
        Whole(n.into())
    }
}

impl From<u32> for Number {
    fn from(n: u32) -> Number {
        u64::from(n).into()
    }
}

impl From<u64> for Number {
    fn from(n: u64) -> Number {
        Whole(n.into())
    }
}

impl From<f64> for Number {
    fn from(n: f64) -> Number {
        Real(n)
    }
}

/// Reals are the same bit for bit, and every NaN is as any other.
pub fn same(one: f64, other: f64) -> bool {
    one.to_bits() == other.to_bits() || one.is_nan() && other.is_nan()
}

impl PartialEq for Number {
    fn eq(&self, other: &Number) -> bool {
        match (*self, *other) {
            (Whole(one), Whole(other)) => one == other,
            (Real(one), Real(other)) => same(one, other),
            (WholeSegment(kind, one), WholeSegment(other_kind, other)) => {
                kind == other_kind && one == other
            }
            (RealSegment(kind, one), RealSegment(other_kind, other)) => {
                kind == other_kind && same(one, other)
            }
            _ => false,
        }
    }
}

impl fmt::Display for Number {
    fn fmt(&self, f: &mut fmt::Formatter<'_>) -> fmt::Result {
        match self {
            Whole(n) => write!(f, "{n}"),
            Real(n) => write!(f, "{n:?}"),
            WholeSegment(kind, n) => write!(f, "kind {kind} of {n}"),
            RealSegment(kind, n) => write!(f, "kind {kind} of {n:?}"),
        }
    }
}

impl Number {
    /// The value of this kind that carries the number.
    pub fn in_segment(self, kind: u32) -> Number {
        match self {
            Whole(n) | WholeSegment(_, n) => WholeSegment(kind, n),
            Real(n) | RealSegment(_, n) => RealSegment(kind, n),
        }
    }

    /// The number in base ten; of a real number its bits, of NaN always the same. A segment's kind
    /// comes before its number.
    pub fn digits(self) -> String {
        match self {
            Whole(n) => n.to_string(),
            Real(n) if n.is_nan() => 0x7ff8_0000_0000_0000u64.to_string(),
            Real(n) => n.to_bits().to_string(),
            WholeSegment(kind, n) => format!("{kind} {n}"),
            RealSegment(kind, n) => format!("{kind} {}", Real(n).digits()),
        }
    }
}

#[cfg(feature = "library")]
impl Number {
    /// A measure of how hard the number is to read: few digits come first.
    pub fn size(self) -> u128 {
        match self {
            Whole(n) => n.unsigned_abs(),
            Real(n) => n.abs().to_bits().reverse_bits().into(),
            WholeSegment(_, n) => Whole(n).size(),
            RealSegment(_, n) => Real(n).size(),
        }
    }

    /// Whether one is the other negated; zeros are equal, and NaN equals NaN.
    pub fn mirrors(self, other: Number) -> bool {
        match (self, other) {
            (Whole(one), Whole(other)) => one == -other,
            (Real(one), Real(other)) => one == -other || one.is_nan() && other.is_nan(),
            (WholeSegment(kind, one), WholeSegment(other_kind, other)) => {
                kind == other_kind && Whole(one).mirrors(Whole(other))
            }
            (RealSegment(kind, one), RealSegment(other_kind, other)) => {
                kind == other_kind && Real(one).mirrors(Real(other))
            }
            _ => false,
        }
    }
}
