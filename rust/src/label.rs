//! Labels of real numbers.

use std::str;

use crate::refusal::{answered, ask, declare, Refusal};

declare!(
    "FloatPrettyPrinter::print`]",
    culv_label(
        (n: f64, max_decimal: u32, min_decimal: u32)
        out: *mut u8, len: usize, written: *mut usize
    )
);

declare!(
    "FloatPrettyPrinter::print_scientific`]",
    culv_label_scientific(
        (n: f64, max_decimal: u32, min_decimal: u32)
        out: *mut u8, len: usize, written: *mut usize
    )
);

/// So many bytes are enough for every label.
pub const LONGEST: usize = 38;

/// How a label is written.
#[derive(Clone, Copy, Debug, PartialEq, Eq)]
pub struct FloatPrettyPrinter {
    /// So many decimals at least: zeros are added. At most 20.
    pub min_decimal: u32,
    /// The number is shortened to so many decimals at most. At most 10.
    pub max_decimal: u32,
}

impl FloatPrettyPrinter {
    /// The label of `n`, which is written to the beginning of `out`. A label whose digits are all
    /// zero carries no minus sign.
    ///
    /// Refused as [`Refusal::NotPrintable`], [`Refusal::TooManyDecimals`] or
    /// [`Refusal::OutTooShort`].
    ///
    /// ```
    /// use culvraod::label::{FloatPrettyPrinter, LONGEST};
    ///
    /// let printer = FloatPrettyPrinter { min_decimal: 1, max_decimal: 5 };
    /// let mut out = [0; LONGEST];
    /// assert_eq!(printer.print(3.0, &mut out), Ok("3.0"));
    /// assert_eq!(printer.print(1.25, &mut out), Ok("1.25"));
    /// assert_eq!(printer.print(-0.000001, &mut out), Ok("0.0"));
    /// ```
    pub fn print(self, n: f64, out: &mut [u8]) -> Result<&str, Refusal> {
        let (most, least) = (self.max_decimal, self.min_decimal);
        let (to, len) = (out.as_mut_ptr(), out.len());
        let written: usize = ask!(answered, culv_label(n, most, least, to, len))?;
        Ok(text(&out[..written]))
    }

    /// The label of `n`, in scientific notation where that is shorter by more than a byte, or where
    /// the plain label would show nothing of the number; it is written to the beginning of `out`,
    /// for which [`LONGEST`] bytes are enough too.
    ///
    /// Refused as [`Refusal::NotPrintable`], [`Refusal::TooManyDecimals`], [`Refusal::TooSmall`] or
    /// [`Refusal::OutTooShort`].
    ///
    /// ```
    /// use culvraod::label::{FloatPrettyPrinter, LONGEST};
    ///
    /// let printer = FloatPrettyPrinter { min_decimal: 1, max_decimal: 5 };
    /// let mut out = [0; LONGEST];
    /// assert_eq!(printer.print_scientific(0.0000004, &mut out), Ok("4.0e-7"));
    /// assert_eq!(printer.print_scientific(1234.5, &mut out), Ok("1234.5"));
    /// ```
    pub fn print_scientific(self, n: f64, out: &mut [u8]) -> Result<&str, Refusal> {
        let (most, least) = (self.max_decimal, self.min_decimal);
        let (to, len) = (out.as_mut_ptr(), out.len());
        let written: usize = ask!(answered, culv_label_scientific(n, most, least, to, len))?;
        Ok(text(&out[..written]))
    }
}

fn text(label: &[u8]) -> &str {
    str::from_utf8(label).expect("a label is ASCII")
}

#[cfg(test)]
mod tests {
    use super::*;

    fn printer(max_decimal: u32, min_decimal: u32) -> FloatPrettyPrinter {
        FloatPrettyPrinter {
            min_decimal,
            max_decimal,
        }
    }

    #[test]
    fn labels() {
        let rows = [
            (3.0, 5, 1, "3.0"),
            (1.25, 5, 1, "1.25"),
            (-0.000001, 5, 1, "0.0"),
            (-0.5, 0, 1, "0.0"),
            (-0.5, 1, 1, "-0.5"),
            (0.015, 2, 0, "0.02"),
            (2.9, 0, 0, "2"),
            (-0.0, 10, 0, "0"),
            (-1e15, 10, 20, "-1000000000000000.00000000000000000000"),
        ];
        for (n, h, e, label) in rows {
            let mut out = [77; LONGEST + 1];
            assert_eq!(printer(h, e).print(n, &mut out), Ok(label));
            assert!(out[label.len()..].iter().all(|&byte| byte == 77));
        }
    }

    #[test]
    fn scientific_labels() {
        let rows = [
            (0.0000004, 5, 1, "4.0e-7"),
            (-0.0, 5, 1, "0"),
            (1234.5, 5, 1, "1234.5"),
            (999.9999, 5, 0, "1e3"),
            (-0.0012, 2, 0, "-1.2e-3"),
            (-1e-307, 10, 20, "-1.00000000000000000000e-307"),
        ];
        for (n, h, e, label) in rows {
            let mut out = [77; LONGEST + 1];
            assert_eq!(printer(h, e).print_scientific(n, &mut out), Ok(label));
            assert!(out[label.len()..].iter().all(|&byte| byte == 77));
        }
        let mut out = [77; 1];
        let mut refused = |n| printer(5, 1).print_scientific(n, &mut out).unwrap_err();
        assert_eq!(refused(1e-307f64.next_down()), Refusal::TooSmall);
        assert_eq!(refused(f64::NAN), Refusal::NotPrintable);
        assert_eq!(refused(1e-307), Refusal::OutTooShort);
        assert_eq!(out, [77; 1]);
    }

    #[test]
    fn refusals_write_nothing() {
        let mut out = [77; 3];
        let mut refused = |n, h, e| printer(h, e).print(n, &mut out).unwrap_err();
        assert_eq!(refused(f64::NAN, 11, 0), Refusal::NotPrintable);
        assert_eq!(refused(f64::NEG_INFINITY, 0, 0), Refusal::NotPrintable);
        assert_eq!(refused(9007199254740992.0, 0, 0), Refusal::NotPrintable);
        assert_eq!(refused(0.25, 11, 0), Refusal::TooManyDecimals);
        assert_eq!(refused(0.25, 0, 21), Refusal::TooManyDecimals);
        assert_eq!(refused(0.25, 10, 0), Refusal::OutTooShort);
        assert_eq!(out, [77; 3]);
    }
}
