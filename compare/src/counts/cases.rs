//! Inputs of counts and indices.

use super::{FromIndex, IndexOf, Size};
use crate::cases::{whole, whole_ends, Cases, Pick, SMALL, WHOLES};
use crate::random::Random;

#[cfg(feature = "library")]
use crate::cases::ordinary;

const LAST: u64 = i32::MAX as u64;

#[rustfmt::skip]
const INDICES: [u64; 18] = [
    0, 1, 2, 9, 10, 1_000_000_000, LAST - 1_000_000_001, LAST - 1_000_000_000,
    LAST - 999_999_999, LAST - 1, LAST, LAST + 1, (1 << 32) - 1, 1 << 32, (1 << 32) + 7,
    1 << 63, u64::MAX - 1, u64::MAX,
];

impl Cases for Size {
    const WORKED: &'static [Self] = &[];

    fn picked(pick: &mut impl Pick) -> Self {
        let [a, b] = [(); 2].map(|()| pick.pick([&WHOLES, &SMALL]));
        Size { a, b }
    }

    fn drawn(random: &mut Random) -> Self {
        let (a, b) = whole_ends(random);
        Size { a, b }
    }

    #[cfg(feature = "library")]
    fn ordinary(random: &mut Random) -> Self {
        let (a, b) = ordinary::ends(random, ordinary::whole);
        Size { a, b }
    }
}

impl Cases for IndexOf {
    const WORKED: &'static [Self] = &[];

    fn picked(pick: &mut impl Pick) -> Self {
        let [a, b, v] = [(); 3].map(|()| pick.pick([&WHOLES, &SMALL]));
        IndexOf { a, b, v }
    }

    fn drawn(random: &mut Random) -> Self {
        let (a, b) = whole_ends(random);
        let v = match random.below(4) {
            0 => random
                .pick(&[a, b])
                .saturating_add(random.pick(&[-1, 0, 1])),
            _ => whole(random),
        };
        IndexOf { a, b, v }
    }

    #[cfg(feature = "library")]
    fn ordinary(random: &mut Random) -> Self {
        let (a, b) = ordinary::ends(random, ordinary::whole);
        let v = ordinary::whole(random);
        IndexOf { a, b, v }
    }
}

/// An index, often close to the end of the axis or of what i32 holds.
fn index(random: &mut Random, a: i32, b: i32) -> u64 {
    let (a, b, near) = (i64::from(a), i64::from(b), random.below(5) as i64 - 2);
    let drawn = match random.below(8) {
        0 => return random.pick(&INDICES),
        1 => return random.bits() >> random.below(64),
        2 => random.pick(&[1 << 31, 1 << 32, 1 << 33, 1 << 62]) + near,
        3 | 4 => i64::from(i32::MAX) - a + near,
        5 => b - a + near,
        _ => random.below(1 << 31) as i64 >> random.below(31),
    };
    drawn.max(0) as u64
}

impl Cases for FromIndex {
    const WORKED: &'static [Self] = &[];

    fn picked(pick: &mut impl Pick) -> Self {
        let [a, b] = [(); 2].map(|()| pick.pick([&WHOLES, &SMALL]));
        let k = pick.pick([&INDICES, &[0, 1, 2, 3, 4, 5, 6, 7, 8, 9, 10, 11, 12]]);
        FromIndex { a, b, k }
    }

    fn drawn(random: &mut Random) -> Self {
        let (a, b) = whole_ends(random);
        let k = index(random, a, b);
        FromIndex { a, b, k }
    }

    #[cfg(feature = "library")]
    fn ordinary(random: &mut Random) -> Self {
        let (a, b) = ordinary::ends(random, ordinary::whole);
        let (a, b) = (a.min(b), a.max(b));
        let k = random.below(1 + u64::from(a.abs_diff(b)));
        FromIndex { a, b, k }
    }
}
