//! Marks of segments, written to lent memory.

use culvraod::Refusal;

use super::library::{Library, Stepped};
use super::marking::{drawn, Marking};
use crate::beside::Negated;
use crate::cases::all;
use crate::lends::{self, Lends};
use crate::linspace::Steps;
use crate::random::Random;

/// How many random inputs are compared, and how many beside their mirror.
const DRAWN: usize = 5_000_000;
const MIRRORED: usize = 2_000_000;

const LIMITS: [u32; 6] = [0, 1, 2, 3, 10, 50];

impl<A: Library> Lends for Marking<A> {
    type Entry = A::Number;

    fn safe(self, out: &mut [A::Number]) -> Result<(Option<A::Number>, usize), Refusal> {
        self.axis.key_points(self.m, out)
    }

    unsafe fn function(
        self,
        out_len: (*mut A::Number, usize),
        step: *mut A::Number,
        count: *mut usize,
    ) -> i32 {
        self.axis.c_key_points(self.m, out_len, step, count)
    }
}

/// All corners and small inputs, and so many at random.
fn inputs<A: Library>(count: usize) -> impl Iterator<Item = Marking<A>> {
    let axes = all(|pick| A::picked(pick));
    let picked = axes.flat_map(|axis| LIMITS.iter().map(move |&m| Marking { axis, m }));
    let mut random = Random::new();
    let drawn = (0..count).map(move |_| drawn(&mut random));
    picked.chain(drawn)
}

pub fn compare<A: Library>() -> bool {
    lends::compare(A::NAMES.key_points, inputs::<A>(DRAWN))
}

pub fn compare_mirror<N: Stepped>() -> bool {
    let mirrored = inputs::<Steps<N>>(MIRRORED);
    let pairs = mirrored.filter_map(|marking| {
        let axis = marking.axis.negated()?;
        Some([marking, Marking { axis, ..marking }])
    });
    lends::compare_mirror(<Steps<N> as Library>::NAMES.key_points, pairs)
}
