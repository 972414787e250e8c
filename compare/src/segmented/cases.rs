//! Inputs of segments.

use super::axis::{Axis, Whole, Worded};
use super::calls::{FromIndex, IndexOf, Map, Size, Unmap};
use super::value::{Value, CENTER_OF, EXACT, LAST};
use crate::admitted::FILM;
use crate::cases::{self, held, whole, whole_ends, Cases, Pick, SMALL};
use crate::counts::rule::count;
use crate::linspace::cases::{self as stepped, Drawn, Numbers, SMALL_LIMITS, SMALL_PIXELS};
use crate::linspace::Steps;
use crate::random::Random;
use crate::readings::cases::part_or_any;
use crate::search::cases::method;
use crate::search::rule::{self as search, DOWN, NEAREST, UP};

#[cfg(feature = "library")]
use crate::cases::ordinary;
#[cfg(feature = "library")]
use crate::linspace::cases::{ordinary_axis, ordinary_value};

/// Axes of a sort that segments stand on.
pub trait Axes: Axis {
    /// Ways to find a value, each with a kind of value.
    const CHOICES: &'static [(Self::Method, u32)];
    /// How many lines the calls have that take neither a value nor limits.
    const LINES: [usize; 2];
    /// Axes whose marks show what marks can be.
    const LISTS: &'static [Self];
    /// What is picked from.
    const PICKED: [&'static [Self::Number]; 2];

    /// An axis made of picked numbers.
    fn picked(pick: &mut impl Pick) -> Self;
    fn drawn(random: &mut Random) -> Drawn<Self>;
    /// A number at an entry, close to one or between two, as a rule.
    fn number(random: &mut Random, drawn: Drawn<Self>) -> Self::Number;
    fn method(random: &mut Random) -> Self::Method;

    /// An axis as an ordinary caller would have it.
    #[cfg(feature = "library")]
    fn ordinary(random: &mut Random) -> Drawn<Self>;
    /// A number on an ordinary axis, and a search that there is.
    #[cfg(feature = "library")]
    fn ordinary_number(random: &mut Random, drawn: Drawn<Self>) -> Self::Number;
    #[cfg(feature = "library")]
    fn ordinary_method(random: &mut Random) -> Self::Method;
}

const WHOLE: i32 = 1_000_000_000;
const PIXEL: i32 = FILM as i32;
const LIMITS: [i32; 5] = [-PIXEL - 1, -PIXEL, 0, 1_000, PIXEL];
const MOST: i64 = Whole::MOST as i64;

const fn ends(a: i32, b: i32) -> Whole {
    Whole { a, b }
}

/// Whole ends whose number of values is often about as large as may be.
fn drawn_ends(random: &mut Random) -> (i32, i32) {
    let near = random.within(-1, 2) as i64;
    let values = match random.below(8) {
        0 => return whole_ends(random),
        1 => MOST + near,
        2 => 1 + near,
        3 | 4 => random.below(MOST as u64) as i64 >> random.below(25),
        _ => random.below(20) as i64,
    };
    let a = whole(random);
    (a, held(i64::from(a) + values - 1))
}

#[rustfmt::skip]
const WHOLES: [i32; 15] = [
    i32::MIN, -WHOLE - 1, -WHOLE, -16_777_216, -1, 0, 1, 2, 9, 16_777_215, 16_777_216, WHOLE - 1,
    WHOLE, WHOLE + 1, i32::MAX,
];

impl Axes for Whole {
    const CHOICES: &'static [((), u32)] = &[
        ((), EXACT),
        ((), CENTER_OF),
        ((), LAST),
        ((), LAST + 1),
        ((), u32::MAX),
    ];
    const LINES: [usize; 2] = [85, 15];
    const LISTS: &'static [Whole] = &[
        ends(0, 10),
        ends(3, 15),
        ends(-15, -3),
        ends(-5, 5),
        ends(7, 7),
        ends(1, 0),
        ends(10, 0),
        ends(-7, 32),
        ends(99_999_999, 100_000_007),
        ends(-WHOLE, -WHOLE + 20),
        ends(WHOLE - 3, WHOLE),
        ends(WHOLE, WHOLE + 1),
        ends(i32::MIN, 0),
        ends(0, -WHOLE),
        ends(-WHOLE, WHOLE),
        ends(0, 16_777_216),
    ];
    const PICKED: [&'static [i32]; 2] = [&WHOLES, &SMALL];

    fn picked(pick: &mut impl Pick) -> Whole {
        let [a, b] = [(); 2].map(|()| pick.pick(Self::PICKED));
        Whole { a, b }
    }

    fn drawn(random: &mut Random) -> Drawn<Whole> {
        let (a, b) = drawn_ends(random);
        Drawn {
            axis: Whole { a, b },
            n: count(a, b) as u64,
        }
    }

    fn number(random: &mut Random, Drawn { axis, n }: Drawn<Whole>) -> i32 {
        let Whole { a, b } = axis;
        match random.below(8) {
            0 => whole(random),
            1 | 2 => {
                let end = i64::from(random.pick(&[a, b]));
                held(end + random.within(-2, 2) as i64)
            }
            _ => held(i64::from(a) + random.below(n + 2) as i64),
        }
    }

    fn method(_: &mut Random) {}

    #[cfg(feature = "library")]
    fn ordinary(random: &mut Random) -> Drawn<Whole> {
        let a = random.within(-1_000_000, 1_000_000) as i32;
        let n = 2 + random.below(100);
        let b = a + n as i32 - 1;
        Drawn {
            axis: Whole { a, b },
            n,
        }
    }

    #[cfg(feature = "library")]
    fn ordinary_number(random: &mut Random, Drawn { axis, n }: Drawn<Whole>) -> i32 {
        axis.a + random.below(n) as i32
    }

    #[cfg(feature = "library")]
    fn ordinary_method(_: &mut Random) {}
}

impl<N: Worded + Numbers> Axes for Steps<N> {
    const CHOICES: &'static [(u32, u32)] = &[
        (search::EXACT, EXACT),
        (search::EXACT, CENTER_OF),
        (UP, CENTER_OF),
        (DOWN, CENTER_OF),
        (NEAREST, CENTER_OF),
        (NEAREST, LAST),
        (UP, LAST + 1),
        (NEAREST + 1, EXACT),
        (u32::MAX, LAST),
    ];
    const LINES: [usize; 2] = N::LINES;
    const LISTS: &'static [Steps<N>] = N::LISTS;
    const PICKED: [&'static [N]; 2] = N::PICKED;

    fn picked(pick: &mut impl Pick) -> Steps<N> {
        stepped::picked(pick)
    }

    fn drawn(random: &mut Random) -> Drawn<Steps<N>> {
        stepped::drawn(random)
    }

    fn number(random: &mut Random, drawn: Drawn<Steps<N>>) -> N {
        stepped::value(random, drawn)
    }

    fn method(random: &mut Random) -> u32 {
        method(random)
    }

    #[cfg(feature = "library")]
    fn ordinary(random: &mut Random) -> Drawn<Steps<N>> {
        ordinary_axis(random)
    }

    #[cfg(feature = "library")]
    fn ordinary_number(random: &mut Random, drawn: Drawn<Steps<N>>) -> N {
        ordinary_value(random, drawn)
    }

    #[cfg(feature = "library")]
    fn ordinary_method(random: &mut Random) -> u32 {
        random.below(4) as u32
    }
}

fn kind(random: &mut Random) -> u32 {
    match random.below(40) {
        0 => random.pick(&[LAST + 1, 4, u32::MAX]),
        1 | 2 => LAST,
        3..16 => EXACT,
        _ => CENTER_OF,
    }
}

fn drawn_search<A: Axes>(random: &mut Random, drawn: Drawn<A>) -> IndexOf<A> {
    let method = A::method(random);
    let (v, kind) = (A::number(random, drawn), kind(random));
    IndexOf {
        axis: drawn.axis,
        method,
        value: Value { v, kind },
    }
}

/// Limits an odd number of halves of n apart, if n has a half and the film holds it.
fn halves(random: &mut Random, n: u64) -> Option<(i32, i32)> {
    let half = (n > 0 && n.is_multiple_of(2)).then_some(n / 2)?;
    let most = (2 * FILM as u64 / half).min(random.pick(&[9, 99, 2 * FILM as u64]));
    let length = half * (1 + 2 * random.below(most.div_ceil(2).max(1)));
    let first = i128::from(FILM).checked_sub(length.into())?;
    let p = (first >= (-FILM).into()).then(|| random.within((-FILM).into(), first))?;
    let (p, q) = (p as i32, (p + i128::from(length)) as i32);
    Some(random.pick(&[(p, q), (q, p)]))
}

/// Two limits; often n parts of the film end in a half.
fn film(random: &mut Random, n: u64) -> (i32, i32) {
    let halves = match random.below(4) {
        0 => halves(random, n),
        _ => None,
    };
    halves.unwrap_or_else(|| cases::film(random))
}

impl<A: Axes> Cases for Size<A> {
    const WORKED: &'static [Self] = &[];
    const LINES: [usize; 2] = A::LINES;

    fn picked(pick: &mut impl Pick) -> Self {
        Size(A::picked(pick))
    }

    fn drawn(random: &mut Random) -> Self {
        Size(A::drawn(random).axis)
    }

    #[cfg(feature = "library")]
    fn ordinary(random: &mut Random) -> Self {
        Size(A::ordinary(random).axis)
    }
}

#[rustfmt::skip]
const INDICES: [u64; 12] = [
    0, 1, 2, 9, 10, 65_536, 16_777_215, 16_777_216, 16_777_217, 1 << 32, 1 << 63, u64::MAX,
];
const SMALL_INDICES: [u64; 15] = [0, 1, 2, 3, 4, 5, 6, 7, 8, 9, 10, 11, 12, 13, 14];

impl<A: Axes> Cases for FromIndex<A> {
    const WORKED: &'static [Self] = &[];
    const LINES: [usize; 2] = A::LINES;

    fn picked(pick: &mut impl Pick) -> Self {
        let k = pick.pick([&INDICES, &SMALL_INDICES]);
        let axis = A::picked(pick);
        FromIndex { axis, k }
    }

    fn drawn(random: &mut Random) -> Self {
        let Drawn { axis, n } = A::drawn(random);
        let k = match random.below(8) {
            0 => random.bits() >> random.below(64),
            1..=3 => (n + random.below(4)).saturating_sub(1),
            _ => random.below(n + 2),
        };
        FromIndex { axis, k }
    }

    #[cfg(feature = "library")]
    fn ordinary(random: &mut Random) -> Self {
        let Drawn { axis, n } = A::ordinary(random);
        let k = random.below(n);
        FromIndex { axis, k }
    }
}

impl<A: Axes> Cases for IndexOf<A> {
    const WORKED: &'static [Self] = &[];
    const LINES: [usize; 2] = [85, 15];

    fn picked(pick: &mut impl Pick) -> Self {
        let (method, kind) = pick.pick([A::CHOICES; 2]);
        let v = pick.pick(A::PICKED);
        IndexOf {
            axis: A::picked(pick),
            method,
            value: Value { v, kind },
        }
    }

    fn drawn(random: &mut Random) -> Self {
        let drawn = A::drawn(random);
        drawn_search(random, drawn)
    }

    #[cfg(feature = "library")]
    fn ordinary(random: &mut Random) -> Self {
        let drawn = A::ordinary(random);
        let v = A::ordinary_number(random, drawn);
        IndexOf {
            axis: drawn.axis,
            method: A::ordinary_method(random),
            value: Value { v, kind: EXACT },
        }
    }
}

impl<A: Axes> Cases for Map<A> {
    const WORKED: &'static [Self] = &[];
    const LINES: [usize; 2] = [170, 30];

    fn picked(pick: &mut impl Pick) -> Self {
        let [p, q] = [(); 2].map(|()| pick.pick([&LIMITS, &SMALL_LIMITS]));
        let search = IndexOf::picked(pick);
        Map { search, p, q }
    }

    fn drawn(random: &mut Random) -> Self {
        let drawn = A::drawn(random);
        let (p, q) = film(random, drawn.n);
        let search = drawn_search(random, drawn);
        Map { search, p, q }
    }

    #[cfg(feature = "library")]
    fn ordinary(random: &mut Random) -> Self {
        let drawn = A::ordinary(random);
        let (p, q) = ordinary::film(random);
        let v = A::ordinary_number(random, drawn);
        let kind = random.pick(&[EXACT, CENTER_OF]);
        let search = IndexOf {
            axis: drawn.axis,
            method: A::ordinary_method(random),
            value: Value { v, kind },
        };
        Map { search, p, q }
    }
}

impl<A: Axes> Cases for Unmap<A> {
    const WORKED: &'static [Self] = &[];
    const LINES: [usize; 2] = [85, 15];

    fn picked(pick: &mut impl Pick) -> Self {
        let [x, p, q] = [(); 3].map(|()| pick.pick([&LIMITS, &SMALL_PIXELS]));
        let axis = A::picked(pick);
        Unmap { axis, x, p, q }
    }

    fn drawn(random: &mut Random) -> Self {
        let (Drawn { axis, n }, (p, q)) = (A::drawn(random), cases::film(random));
        let x = part_or_any(random, n + 1, (p, q));
        Unmap { axis, x, p, q }
    }

    #[cfg(feature = "library")]
    fn ordinary(random: &mut Random) -> Self {
        let (p, q) = ordinary::film(random);
        let (axis, x) = (A::ordinary(random).axis, ordinary::pixel(random, (p, q)));
        Unmap { axis, x, p, q }
    }
}
