//! Inputs of stepped axes.

use super::calls::{FromIndex, IndexOf, Map, Size, Unmap};
use super::kind::Kind;
use super::Steps;
use crate::admitted::FILM;
use crate::cases::{film, held, real, real_ends, whole_ends, Cases, Pick, SMALL, SMALL_REALS};
use crate::places::Place;
use crate::random::Random;
use crate::readings::cases::part_or_any;
use crate::search::cases::{method, Lists};
use crate::search::rule::NEAREST;

#[cfg(feature = "library")]
use crate::cases::ordinary;

/// Numbers of a kind that stepped axes are made of.
pub trait Numbers: Kind + Lists {
    /// The rows of the scope document's table.
    const SIZES: &'static [Size<Self>];
    /// Axes whose lists show what a list can be.
    const LISTS: &'static [Steps<Self>];
    const INDICES: &'static [IndexOf<Self>];
    /// How many lines the calls have that take neither a value nor limits.
    const LINES: [usize; 2];
    /// What is picked from.
    const PICKED: [&'static [Self]; 2];

    fn ends(random: &mut Random) -> (Self, Self);
    /// A first end and a step.
    fn start(random: &mut Random) -> (Self, Self);
    /// The number after so many steps.
    fn after(a: Self, d: Self, k: u64) -> Self;
    /// A first end and a step as an ordinary caller would have them.
    #[cfg(feature = "library")]
    fn ordinary_start(random: &mut Random) -> (Self, Self);
}

const fn steps<N: Copy>(a: N, b: N, d: N) -> Steps<N> {
    Steps { a, b, d }
}

const fn nearest<N: Copy>(axis: Steps<N>, v: N) -> IndexOf<N> {
    let method = NEAREST;
    IndexOf { axis, v, method }
}

const WHOLE: i32 = 1_000_000_000;

#[rustfmt::skip]
const WHOLES: [i32; 13] = [
    i32::MIN, -WHOLE - 1, -WHOLE, -15_258, -1, 0, 1, 2, 9, WHOLE - 1, WHOLE, WHOLE + 1, i32::MAX,
];

#[rustfmt::skip]
const REALS: [f64; 10] = [
    0.0, -0.0, f64::NAN, f64::INFINITY, f64::NEG_INFINITY, 1.0, -1.0, 5e-324, f64::MAX,
    1.0 - f64::EPSILON / 2.0,
];

impl Numbers for i32 {
    const SIZES: &'static [Size<i32>] = &[Size(steps(0, 10, 5)), Size(steps(0, 10, 10))];
    const LISTS: &'static [Steps<i32>] = &[
        steps(0, 10, 5),
        steps(0, 10, 10),
        steps(0, 10, 11),
        steps(0, 10, 9),
        steps(0, 10, 1),
        steps(0, 40, 1),
        steps(-7, 9, 3),
        steps(10, 0, -3),
        steps(10, 0, -10),
        steps(9, -30, -1),
        steps(0, 10, -5),
        steps(0, 10, 0),
        steps(10, 0, 5),
        steps(5, 5, 0),
        steps(5, 5, 1),
        steps(5, 5, -1),
        steps(-WHOLE, WHOLE, WHOLE),
        steps(WHOLE, -WHOLE, -300_000_000),
        steps(0, 65_536, 1),
        steps(0, 65_537, 1),
        steps(-WHOLE, WHOLE, 1),
        steps(WHOLE + 1, 0, -1),
        steps(0, 10, WHOLE + 1),
    ];
    const INDICES: &'static [IndexOf<i32>] =
        &[nearest(steps(0, 10, 4), 2), nearest(steps(8, -1, -4), 2)];
    const LINES: [usize; 2] = [85, 15];
    const PICKED: [&'static [i32]; 2] = [&WHOLES, &SMALL];

    fn ends(random: &mut Random) -> (i32, i32) {
        whole_ends(random)
    }

    fn start(random: &mut Random) -> (i32, i32) {
        let size = random.pick(&[1, 3, 10, 1_000, 20_000, 1_000_000, 1_000_000_000]);
        (i32::any(random), random.within(-size, size) as i32)
    }

    fn after(a: i32, d: i32, k: u64) -> i32 {
        held(i64::from(a) + k as i64 * i64::from(d))
    }

    #[cfg(feature = "library")]
    fn ordinary_start(random: &mut Random) -> (i32, i32) {
        let step = random.within(1, 1_000) as i32;
        let a = random.within(-1_000_000, 1_000_000) as i32;
        (a, random.pick(&[step, -step]))
    }
}

impl Numbers for f64 {
    const SIZES: &'static [Size<f64>] =
        &[Size(steps(0.0, 10.0, 5.0)), Size(steps(0.0, 10.0, 10.0))];
    const LISTS: &'static [Steps<f64>] = &[
        steps(0.0, 10.0, 5.0),
        steps(0.0, 10.0, 10.0),
        steps(0.0, 10.0, 11.0),
        steps(0.0, 1.0, 0.1),
        steps(1.0, 0.0, -0.1),
        steps(-1.0, 1.0, 0.1),
        steps(0.0, 0.3, 0.1),
        steps(-0.0, 1.0, 0.25),
        steps(-0.0, -1.0, -0.25),
        steps(0.0, -0.0, 1.0),
        steps(5.0, 5.0, 0.0),
        steps(0.0, 1.0, -0.1),
        steps(0.0, 1.0, -0.0),
        steps(1.0, 0.0, 0.1),
        steps(f64::NAN, 1.0, 0.1),
        steps(0.0, f64::NAN, 0.1),
        steps(0.0, 1.0, f64::NAN),
        steps(0.0, f64::INFINITY, 1.0),
        steps(0.0, f64::INFINITY, 1e308),
        steps(0.0, f64::INFINITY, f64::INFINITY),
        steps(0.0, f64::NEG_INFINITY, -1e308),
        steps(f64::NEG_INFINITY, 0.0, 1.0),
        steps(f64::INFINITY, 0.0, f64::NEG_INFINITY),
        steps(1e16, 2e16, 1.0),
        steps(1.0, 2.0, f64::EPSILON / 2.0),
        steps(1.0, 1.0 + 9.0 * f64::EPSILON, f64::EPSILON * 0.75),
        steps(0.0, 4e-323, 5e-324),
        steps(0.0, 65_536.0, 1.0),
    ];
    const INDICES: &'static [IndexOf<f64>] = &[
        nearest(steps(0.0, 10.0, 4.0), 2.0),
        nearest(steps(8.0, -1.0, -4.0), 2.0),
    ];
    const LINES: [usize; 2] = [100, 0];
    const PICKED: [&'static [f64]; 2] = [&REALS, &SMALL_REALS];

    fn ends(random: &mut Random) -> (f64, f64) {
        real_ends(random)
    }

    fn start(random: &mut Random) -> (f64, f64) {
        let a = real(random);
        let step = match random.below(8) {
            0 => real(random),
            1 => a * f64::EPSILON * random.pick(&[0.25, 0.5, 0.75, 1.0, 1.5]),
            2 => random.pick(&[0.1, 0.25, 1.0, 3.0]),
            3 => a / 7.0,
            _ => random.unit() * 10f64.powi(random.within(-3, 5) as i32),
        };
        (a, random.pick(&[step, -step]))
    }

    fn after(a: f64, d: f64, k: u64) -> f64 {
        (0..k).fold(a, |sum, _| sum + d)
    }

    #[cfg(feature = "library")]
    fn ordinary_start(random: &mut Random) -> (f64, f64) {
        let step = random.unit() * 10.0 + 0.1;
        (ordinary::real(random), random.pick(&[step, -step]))
    }
}

/// An axis, and about how many entries it has.
#[derive(Clone, Copy)]
pub struct Drawn<A> {
    pub axis: A,
    pub n: u64,
}

/// How many entries a random axis has: few as a rule, so that there can be many axes. The list of
/// answers to be replayed, which is written without the library, has no middling ones.
fn entries(random: &mut Random) -> u64 {
    match random.below(5_000) {
        0 => 65_534 + random.below(5),
        1..=20 => random.below(3_000),
        #[cfg(feature = "library")]
        21..=270 => 20 + random.below(600),
        _ => random.below(20),
    }
}

/// An axis that ends at an entry, or about there; now and then one of any three numbers.
pub fn drawn<N: Numbers>(random: &mut Random) -> Drawn<Steps<N>> {
    if random.below(300) == 0 {
        let ((a, b), d) = (N::ends(random), N::any(random));
        return Drawn {
            axis: steps(a, b, d),
            n: 10,
        };
    }
    let ((a, d), n) = (N::start(random), entries(random));
    let end = N::after(a, d, n);
    let b = match random.below(4) {
        0 => N::beside(random, end),
        1 => N::middle(end, N::after(end, d, 1)),
        _ => end,
    };
    let d = match random.below(100) {
        0 => N::ZERO,
        1 => N::ZERO - d,
        _ => d,
    };
    Drawn {
        axis: steps(a, b, d),
        n,
    }
}

/// A value at an entry, close to one or between two, as a rule.
pub fn value<N: Numbers>(random: &mut Random, Drawn { axis, n }: Drawn<Steps<N>>) -> N {
    let Steps { a, b, d } = axis;
    match random.below(12) {
        0 => return N::odd(random),
        1 => return N::any(random),
        2 => return random.pick(&[a, b]),
        _ => (),
    }
    let entry = N::after(a, d, random.below(n + 2));
    match random.below(3) {
        0 => entry,
        1 => N::beside(random, entry),
        _ => {
            let middle = N::middle(entry, N::after(entry, d, 1));
            N::beside(random, middle)
        }
    }
}

/// A mark limit, often about the number of entries.
pub fn mark_limit(random: &mut Random, n: u64) -> u32 {
    match random.below(8) {
        0 => random.pick(&[0, 1, 100_000, u32::MAX]),
        1 => (n + random.below(4)).saturating_sub(2) as u32,
        2 => random.below(n + 1) as u32,
        _ => random.below(12) as u32,
    }
}

const LIMITS: [i32; 4] = [FILM as i32 + 1, -(FILM as i32), 0, 1_000];
const INDICES: [u64; 9] = [0, 1, 2, 9, 65_535, 65_536, 1 << 32, 1 << 63, u64::MAX];
const SMALL_INDICES: [u64; 14] = [0, 1, 2, 3, 4, 5, 6, 7, 8, 9, 10, 11, 12, 13];
const METHODS: [u32; 6] = [0, 1, 2, 3, 4, u32::MAX];

pub const SMALL_LIMITS: [i32; 4] = [-3, 0, 1, 5];
pub const SMALL_PIXELS: [i32; 6] = [-3, -1, 0, 1, 2, 5];

/// An axis made of picked numbers.
pub fn picked<N: Numbers>(pick: &mut impl Pick) -> Steps<N> {
    let [a, b, d] = [(); 3].map(|()| pick.pick(N::PICKED));
    steps(a, b, d)
}

/// An ordinary axis, of 10 to 100 entries.
#[cfg(feature = "library")]
pub fn ordinary_axis<N: Numbers>(random: &mut Random) -> Drawn<Steps<N>> {
    let ((a, d), n) = (N::ordinary_start(random), 10 + random.below(91));
    Drawn {
        axis: steps(a, N::after(a, d, n), d),
        n,
    }
}

/// A value between two entries of an ordinary axis.
#[cfg(feature = "library")]
pub fn ordinary_value<N: Numbers>(random: &mut Random, Drawn { axis, n }: Drawn<Steps<N>>) -> N {
    let entry = N::after(axis.a, axis.d, random.below(n));
    N::middle(entry, N::after(entry, axis.d, 1))
}

impl<N: Numbers> Cases for Size<N> {
    const WORKED: &'static [Self] = N::SIZES;
    const LINES: [usize; 2] = N::LINES;

    fn picked(pick: &mut impl Pick) -> Self {
        Size(picked(pick))
    }

    fn drawn(random: &mut Random) -> Self {
        Size(drawn(random).axis)
    }

    #[cfg(feature = "library")]
    fn ordinary(random: &mut Random) -> Self {
        Size(ordinary_axis(random).axis)
    }
}

impl<N: Numbers> Cases for FromIndex<N> {
    const WORKED: &'static [Self] = &[];
    const LINES: [usize; 2] = N::LINES;

    fn picked(pick: &mut impl Pick) -> Self {
        let k = pick.pick([&INDICES, &SMALL_INDICES]);
        let axis = picked(pick);
        FromIndex { axis, k }
    }

    fn drawn(random: &mut Random) -> Self {
        let Drawn { axis, n } = drawn(random);
        let k = match random.below(8) {
            0 => random.bits() >> random.below(64),
            1 => (n + random.below(3)).saturating_sub(1),
            _ => random.below(n + 2),
        };
        FromIndex { axis, k }
    }

    #[cfg(feature = "library")]
    fn ordinary(random: &mut Random) -> Self {
        let Drawn { axis, n } = ordinary_axis(random);
        let k = random.below(n);
        FromIndex { axis, k }
    }
}

impl<N: Numbers> Cases for IndexOf<N> {
    const WORKED: &'static [Self] = N::INDICES;
    const LINES: [usize; 2] = [85, 15];

    fn picked(pick: &mut impl Pick) -> Self {
        let (method, v) = (pick.pick([&METHODS; 2]), pick.pick(N::PICKED));
        let axis = picked(pick);
        IndexOf { axis, v, method }
    }

    fn drawn(random: &mut Random) -> Self {
        let drawn = drawn(random);
        IndexOf {
            axis: drawn.axis,
            v: value(random, drawn),
            method: method(random),
        }
    }

    #[cfg(feature = "library")]
    fn ordinary(random: &mut Random) -> Self {
        let drawn = ordinary_axis(random);
        IndexOf {
            axis: drawn.axis,
            v: ordinary_value(random, drawn),
            method: random.below(4) as u32,
        }
    }
}

/// The axis with a value and a film.
fn map<N: Copy>(axis: Steps<N>, v: N, (p, q): (i32, i32)) -> Map<N> {
    let Steps { a, b, .. } = axis;
    let place = Place { a, b, v, p, q };
    Map { axis, place }
}

impl<N: Numbers> Cases for Map<N> {
    const WORKED: &'static [Self] = &[];
    const LINES: [usize; 2] = [85, 15];

    fn picked(pick: &mut impl Pick) -> Self {
        let [p, q] = [(); 2].map(|()| pick.pick([&LIMITS, &SMALL_LIMITS]));
        let v = pick.pick(N::PICKED);
        map(picked(pick), v, (p, q))
    }

    fn drawn(random: &mut Random) -> Self {
        let drawn = drawn(random);
        map(drawn.axis, value(random, drawn), film(random))
    }

    #[cfg(feature = "library")]
    fn ordinary(random: &mut Random) -> Self {
        let drawn = ordinary_axis(random);
        let v = ordinary_value(random, drawn);
        map(drawn.axis, v, ordinary::film(random))
    }
}

impl<N: Numbers> Cases for Unmap<N> {
    const WORKED: &'static [Self] = &[];
    const LINES: [usize; 2] = [85, 15];

    fn picked(pick: &mut impl Pick) -> Self {
        let [x, p, q] = [(); 3].map(|()| pick.pick([&LIMITS, &SMALL_PIXELS]));
        let axis = picked(pick);
        Unmap { axis, x, p, q }
    }

    fn drawn(random: &mut Random) -> Self {
        let (Drawn { axis, n }, (p, q)) = (drawn(random), film(random));
        let x = part_or_any(random, n, (p, q));
        Unmap { axis, x, p, q }
    }

    #[cfg(feature = "library")]
    fn ordinary(random: &mut Random) -> Self {
        let (p, q) = ordinary::film(random);
        let (axis, x) = (ordinary_axis(random).axis, ordinary::pixel(random, (p, q)));
        Unmap { axis, x, p, q }
    }
}
