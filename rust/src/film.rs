//! Several borders on one film, under one mark limit.
//!
//! The rulers are of kind 6 and stand one behind another in border order. Each border gets the very
//! ruler that [`write_inside_twisted`](crate::ruler::write_inside_twisted) gives it alone with its
//! [`share`] of the mark limit.
//!
//! ```
//! use culvraod::film::{self, Border};
//! use culvraod::ruler::{self, Twist};
//! use culvraod::{Limit, RangedCoordi32, Refusal};
//!
//! let left = Border { axis: RangedCoordi32(-15, -3), limit: Limit(0, 120), twist: Twist::S };
//! let right = Border { axis: RangedCoordi32(3, 15), limit: Limit(0, 120), twist: Twist::Z };
//! let (mut out, mut alone) = ([0; 200], [0; 200]);
//! let written = film::write(&[left, right], 9, &mut out)?;
//!
//! assert_eq!((film::share(9, 2, 0), film::share(9, 2, 1)), (5, 4));
//! let first = ruler::write_inside_twisted(left.axis, left.limit, 5, left.twist, &mut alone)?;
//! assert_eq!(out[..first.bytes], alone[..first.bytes]);
//! let second = ruler::write_inside_twisted(right.axis, right.limit, 4, right.twist, &mut alone)?;
//! assert_eq!(out[first.bytes..written.bytes], alone[..second.bytes]);
//! assert_eq!(written.marks, first.marks + second.marks);
//! # Ok::<(), Refusal>(())
//! ```

use crate::refusal::{answered, Refusal};
use crate::ruler::{Twist, Written};
use crate::{Limit, RangedCoordi32};

/// How many borders a film may have.
pub const MOST_BORDERS: usize = 16;

// As include/culvraod.h declares and describes it.
extern "C" {
    /// The C function behind [`write()`].
    pub fn culv_film_write(
        borders: *const i32,
        len: usize,
        m: u32,
        out: *mut u8,
        out_len: usize,
        bytes: *mut usize,
        marks: *mut usize,
    ) -> i32;
}

/// A border: its axis, its limits on the film, and its thread's twist.
#[derive(Clone, Copy, Debug, PartialEq, Eq)]
pub struct Border {
    /// The axis.
    pub axis: RangedCoordi32,
    /// Its limits on the film.
    pub limit: Limit,
    /// The twist.
    pub twist: Twist,
}

/// The mark limit of border i, counted from 0, of n borders under the mark limit m: the whole part
/// of m ÷ n, and one more for the first ones, as many as the remainder. 0 where there is no border.
pub fn share(m: u32, n: usize, i: usize) -> u32 {
    let (m, n, i) = (u64::from(m), n as u64, i as u64);
    match m.checked_div(n) {
        // no share is more than m
        Some(each) => (each + u64::from(i < m % n)) as u32,
        None => 0,
    }
}

/// The borders as numbers in a row. One border too many is as bad as any number of them.
fn in_a_row(borders: &[Border]) -> ([i32; 5 * (MOST_BORDERS + 1)], usize) {
    let mut row = [0; 5 * (MOST_BORDERS + 1)];
    let taken = borders.len().min(MOST_BORDERS + 1);
    for (five, border) in row.chunks_exact_mut(5).zip(borders) {
        let (RangedCoordi32(a, b), Limit(p, q)) = (border.axis, border.limit);
        five.copy_from_slice(&[a, b, p, q, border.twist as i32]);
    }
    (row, 5 * taken)
}

/// Writes the rulers of all borders to the beginning of `out`, one behind another, once every
/// border is accepted. `m` is the mark limit of the film.
///
/// Refused as [`Refusal::BorderCount`]; else as the first border that is refused:
/// [`Refusal::WholeNotAdmitted`], [`Refusal::LimitNotAdmitted`], [`Refusal::NoStep`] or
/// [`Refusal::OutTooShort`], the last where the rulers before it leave too few bytes.
pub fn write(borders: &[Border], m: u32, out: &mut [u8]) -> Result<Written, Refusal> {
    let (row, len) = in_a_row(borders);
    let mut written = Written::default();
    let (to, out_len) = (out.as_mut_ptr(), out.len());
    // SAFETY: both lists have the lengths that are passed, and the results are locals of their own.
    let code = unsafe {
        let (bytes, marks) = (&mut written.bytes, &mut written.marks);
        culv_film_write(row.as_ptr(), len, m, to, out_len, bytes, marks)
    };
    answered("culv_film_write", code, written)
}

#[cfg(test)]
mod tests {
    use super::*;
    use crate::ruler::{read, write_inside_twisted};

    fn border(at: i32) -> Border {
        Border {
            axis: RangedCoordi32(-7 * at, 40 + at),
            limit: Limit(at, 300 - at),
            twist: if at % 2 == 0 { Twist::S } else { Twist::Z },
        }
    }

    #[test]
    fn each_border_gets_the_ruler_that_it_would_get_alone() {
        for n in 1..=MOST_BORDERS {
            let borders: Vec<Border> = (0..n as i32).map(border).collect();
            let m = 9 * n as u32 + 5;
            let (mut out, mut alone) = ([0; 8_000], [0; 8_000]);
            let written = write(&borders, m, &mut out).unwrap();
            let (mut at, mut marks, mut shares) = (0, 0, 0);
            for (i, x) in borders.iter().enumerate() {
                let own = share(m, n, i);
                let ruler =
                    write_inside_twisted(x.axis, x.limit, own, x.twist, &mut alone).unwrap();
                let bytes = &out[at..at + ruler.bytes];
                assert_eq!(bytes, &alone[..ruler.bytes]);
                assert_eq!(read(bytes).unwrap().m, own);
                at += ruler.bytes;
                marks += ruler.marks;
                shares += own;
            }
            assert_eq!((written.bytes, written.marks, shares), (at, marks, m));
            let old = out;
            assert_eq!(
                write(&borders, m, &mut out[..at - 1]),
                Err(Refusal::OutTooShort)
            );
            assert_eq!(out, old);
        }
    }

    #[test]
    fn the_first_refused_border_decides() {
        let mut out = [7; 8_000];
        let mut refused = |borders: &[Border]| {
            let told = write(borders, 160, &mut out).unwrap_err();
            assert_eq!(out, [7; 8_000]);
            told
        };
        assert_eq!(refused(&[]), Refusal::BorderCount);
        assert_eq!(refused(&[border(1); 17]), Refusal::BorderCount);
        let mut bad = [border(1); 3];
        bad[1].limit = Limit(0, 1_000_001);
        bad[2].axis = RangedCoordi32(0, 1_000_000_001);
        assert_eq!(refused(&bad), Refusal::LimitNotAdmitted);
        bad[1] = border(2);
        assert_eq!(refused(&bad), Refusal::WholeNotAdmitted);
        assert_eq!(write(&[border(1)], 0, &mut out), Err(Refusal::NoStep));
    }
}
