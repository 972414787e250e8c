//! Whole numbers whose last digits are taken as decimals: their text, and its reader.
//!
//! ```
//! use culvraod::fixed;
//!
//! let mut out = [0; fixed::MOST_BYTES];
//! let written = fixed::print(-5, 2, &mut out)?;
//! assert_eq!(&out[..written], b"-0.05");
//! assert_eq!(fixed::read(b"-0.05", 2), Ok(-5));
//! # Ok::<(), culvraod::Refusal>(())
//! ```

use crate::refusal::{answered, ask, declare, Refusal};

/// The most bytes that [`print()`] writes.
pub const MOST_BYTES: usize = 12;

declare!(
    "print()`]",
    culv_decimal_print((x: i32, f: u32) out: *mut u8, len: usize, written: *mut usize)
);
declare!(
    "read`]",
    culv_decimal_read((text: *const u8, len: usize) f: u32, x: *mut i32)
);

/// Writes the text of `x`, its last `f` digits as decimals, to the start of `out`, and gives the
/// number of its bytes.
///
/// Refused as [`Refusal::WholeNotAdmitted`], [`Refusal::TooManyDigits`] or
/// [`Refusal::OutTooShort`].
pub fn print(x: i32, f: u32, out: &mut [u8]) -> Result<usize, Refusal> {
    let (start, len) = (out.as_mut_ptr(), out.len());
    ask!(answered, culv_decimal_print(x, f, start, len))
}

/// The number that [`print()`] writes as this text with `f` decimals.
///
/// Refused as [`Refusal::TooManyDigits`] or [`Refusal::NotADecimal`].
pub fn read(text: &[u8], f: u32) -> Result<i32, Refusal> {
    ask!(answered, culv_decimal_read(text.as_ptr(), text.len(), f))
}

#[cfg(test)]
mod tests {
    use super::*;

    fn printed(x: i32, f: u32) -> Result<Vec<u8>, Refusal> {
        let mut out = [0; MOST_BYTES];
        print(x, f, &mut out).map(|written| out[..written].to_vec())
    }

    #[test]
    fn printed_and_read() {
        assert_eq!(printed(120, 2).unwrap(), b"1.20");
        assert_eq!(printed(-5, 0).unwrap(), b"-5");
        assert_eq!(printed(0, 3).unwrap(), b"0.000");
        assert_eq!(printed(-1_000_000_000, 6).unwrap(), b"-1000.000000");
        for x in [-1_000_000_000, -10, -1, 0, 1, 99, 1_000_000_000] {
            for f in 0..=6 {
                assert_eq!(read(&printed(x, f).unwrap(), f), Ok(x));
            }
        }
    }

    #[test]
    fn refusals() {
        assert_eq!(printed(1_000_000_001, 7), Err(Refusal::WholeNotAdmitted));
        assert_eq!(printed(5, 7), Err(Refusal::TooManyDigits));
        assert_eq!(print(5, 2, &mut [0; 3]), Err(Refusal::OutTooShort));
        assert_eq!(read(b"", 7), Err(Refusal::TooManyDigits));
        for text in [&b"-0.00"[..], b"+0.05", b"00.05", b".05", b"0.5", b"5.", b""] {
            assert_eq!(read(text, 2), Err(Refusal::NotADecimal));
        }
    }
}
