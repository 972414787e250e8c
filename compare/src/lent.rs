//! Memory to be lent, filled with a pattern by which a stray write shows.

use crate::number;

/// A number that a pattern can be made of.
pub trait Fill: Copy + PartialEq {
    /// The pattern's number at a position.
    fn fill(at: usize) -> Self;

    fn same(self, other: Self) -> bool {
        self == other
    }
}

impl Fill for i32 {
    fn fill(at: usize) -> i32 {
        usize::fill(at) as i32
    }
}

impl Fill for u32 {
    fn fill(at: usize) -> u32 {
        usize::fill(at) as u32
    }
}

impl Fill for usize {
    fn fill(at: usize) -> usize {
        (at + 1).wrapping_mul(0x9e37_79b9_7f4a_7c15) ^ 0x5a5a_5a5a_5a5a_5a5a
    }
}

impl Fill for u64 {
    fn fill(at: usize) -> u64 {
        usize::fill(at) as u64
    }
}

impl Fill for u16 {
    fn fill(at: usize) -> u16 {
        usize::fill(at) as u16
    }
}

impl Fill for u8 {
    fn fill(at: usize) -> u8 {
        usize::fill(at) as u8
    }
}

impl Fill for f64 {
    fn fill(at: usize) -> f64 {
        usize::fill(at) as f64
    }

    fn same(self, other: f64) -> bool {
        number::same(self, other)
    }
}

/// Cells before and behind the lent ones, which nobody may touch.
const EDGE: usize = 4;

/// A list to be lent.
pub struct Lent<N> {
    cells: Vec<N>,
}

impl<N: Fill> Lent<N> {
    pub fn new() -> Lent<N> {
        Lent { cells: Vec::new() }
    }

    /// Makes it a list of `len` entries, all as the pattern has them.
    pub fn refill(&mut self, len: usize) {
        self.cells.clear();
        self.cells.extend((0..len + 2 * EDGE).map(N::fill));
    }

    pub fn len(&self) -> usize {
        self.cells.len() - 2 * EDGE
    }

    pub fn pointer(&mut self) -> *mut N {
        self.cells[EDGE..].as_mut_ptr()
    }

    pub fn list(&mut self) -> &mut [N] {
        let end = self.cells.len() - EDGE;
        &mut self.cells[EDGE..end]
    }

    pub fn entries(&self) -> &[N] {
        &self.cells[EDGE..self.cells.len() - EDGE]
    }

    /// The list begins with `written`, and every other cell is as it was.
    pub fn holds(&self, written: &[N]) -> bool {
        let (before, rest) = self.cells.split_at(EDGE);
        let (list, behind) = rest.split_at(written.len());
        let kept =
            |cells: &[N], start: usize| (start..).zip(cells).all(|(at, &n)| n == N::fill(at));
        let mut pairs = list.iter().zip(written);
        kept(before, 0)
            && pairs.all(|(&n, &wanted)| n.same(wanted))
            && kept(behind, EDGE + written.len())
    }
}

/// Lengths of lent lists: none, one short, exact, one more, some more.
pub fn lengths(count: usize) -> Vec<usize> {
    let around = [count.wrapping_sub(1), count, count + 1];
    match count {
        0 => vec![0, 1, 7],
        1..=64 => [&[0][..], &around, &[count + 7]].concat(),
        _ => around.to_vec(),
    }
}
