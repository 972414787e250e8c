//! Lists and marks of stepped axes, written to lent memory.

use culvraod::Refusal;

use super::cases::{drawn, mark_limit, picked, Drawn};
use super::library::Library;
use super::listing::Listing;
use super::Steps;
use crate::beside::Negated;
use crate::cases::all;
use crate::lends::{self, Lends};
use crate::random::Random;

/// How many random inputs of a call are compared, and how many beside their mirror.
const DRAWN: usize = 5_000_000;
const MIRRORED: usize = 2_000_000;

const LIMITS: [u32; 6] = [0, 1, 2, 3, 10, u32::MAX];

impl<N: Library> Listing<N> {
    fn mirror(self) -> Option<Listing<N>> {
        let axis = self.axis.negated()?;
        Some(Listing { axis, ..self })
    }
}

impl<N: Library> Lends for Listing<N> {
    type Entry = N;

    fn safe(self, out: &mut [N]) -> Result<(Option<N>, usize), Refusal> {
        let axis = N::stepped(self.axis);
        let told = match self.m {
            None => (N::SAFE.values)(axis, out),
            Some(m) => (N::SAFE.key_points)(axis, m, out),
        };
        told.map(|count| (None, count))
    }

    unsafe fn function(self, (out, len): (*mut N, usize), _: *mut N, count: *mut usize) -> i32 {
        let Steps { a, b, d } = self.axis;
        match self.m {
            None => (N::C.values)(a, b, d, out, len, count),
            Some(m) => (N::C.key_points)(a, b, d, m, out, len, count),
        }
    }
}

/// A call: whether it gives marks, all its corners and small inputs, and random ones.
struct Call {
    name: &'static str,
    marks: bool,
}

impl Call {
    fn inputs<N: Library>(&self, count: usize) -> impl Iterator<Item = Listing<N>> {
        let limits = if self.marks {
            &LIMITS[..]
        } else {
            &LIMITS[..1]
        };
        let marks = self.marks;
        let listing = move |axis, m| Listing {
            axis,
            m: marks.then_some(m),
        };
        let axes = all(|pick| picked(pick));
        let picked = axes.flat_map(move |axis| limits.iter().map(move |&m| listing(axis, m)));
        let mut random = Random::new();
        let drawn = (0..count).map(move |_| {
            let Drawn { axis, n } = drawn(&mut random);
            listing(axis, mark_limit(&mut random, n))
        });
        picked.chain(drawn)
    }

    fn compare<N: Library>(&self) -> bool {
        let mirrored = self.inputs::<N>(MIRRORED);
        let pairs = mirrored.filter_map(|one| one.mirror().map(|other| [one, other]));
        lends::compare(self.name, self.inputs::<N>(DRAWN)) & lends::compare_mirror(self.name, pairs)
    }
}

pub fn compare<N: Library>() -> bool {
    let values = Call {
        name: N::VALUES,
        marks: false,
    };
    let key_points = Call {
        name: N::NAMES.key_points,
        marks: true,
    };
    values.compare::<N>() & key_points.compare::<N>()
}
