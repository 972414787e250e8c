use std::fmt;

/// The refusals, each by its number, its name and when it is met: the enum, their list and their
/// texts.
macro_rules! refusals {
    ($(#[$doc:meta])* $($number:literal $name:ident $when:literal;)*) => {
        $(#[$doc])*
        #[derive(Clone, Copy, Debug, PartialEq, Eq, Hash)]
        #[non_exhaustive]
        #[repr(i32)]
        pub enum Refusal {
            $(
                #[doc = concat!("Refused, since ", $when, ".")]
                $name = $number,
            )*
        }

        use Refusal::*;

        /// Every refusal, in the order of their numbers.
        const ALL: [Refusal; 28] = [$($name),*];

        impl Refusal {
            fn text(self) -> &'static str {
                match self {
                    $($name => $when,)*
                }
            }
        }
    };
}

refusals! {
    /// Why a call stopped. Of several reasons it is the first in the order 23, 26, 27, 1, 2, 18, 3 to
    /// 9, 20 to 22, 10, 19, 11, 12, 28, 17, 24, 25, 13 to 16; of a film, behind 23, that of its first
    /// border that is refused.
    ///
    /// The [crate's page](crate#refusals) has a table of the numbers and of when each is met.
    ///
    /// ```
    /// use culvraod::{RangedCoordi32, Refusal};
    ///
    /// let refused = RangedCoordi32(0, 1_000_000_001).size().unwrap_err();
    /// assert_eq!(refused, Refusal::WholeNotAdmitted);
    /// assert_eq!(refused.number(), 1);
    /// assert_eq!(Refusal::from_number(1), Some(refused));
    /// ```
    1 WholeNotAdmitted "a whole end, value, step or list entry is not admitted";
    2 LimitNotAdmitted "a limit or pixel is not admitted";
    3 NoStep "none of the 28 steps serves";
    4 NoSegments "there are no segments, or too many";
    5 TooFar "the place is too far from the first limit";
    6 StepAgainstAxis "the step is zero or leads away from the end";
    7 ListTooLong "the stepped list has more than 65,536 entries, or more than are lent";
    8 NotMonotone "the searched list neither rises nor falls strictly, or holds NaN";
    9 NanTarget "the target of the search is NaN";
    10 AboveI32 "the value at the index is above 2147483647";
    11 NotPrintable "the number has no label";
    12 TooManyDecimals "more decimals are asked for than a label can have";
    13 OutTooShort "the list or the bytes to be written are too short";
    14 NotARuler "the bytes are no ruler, or none of the kind that is asked for";
    15 UnknownTwist "the twist is neither 0 nor 1";
    16 TwistLost "the ruler has the twist Z, which its old kind cannot tell";
    17 RealAxisNotMarked "the real axis, or its mark limit, has no marks";
    18 NotOnAxis "the needle lies off its axis, or the axis has no length";
    19 BelowI32 "the value at the index is below -2147483647";
    20 NoChartEntry "the pin is at no entry, or the list is too long for a chart";
    21 CountFull "there are 65,535 pins at the entry already";
    22 CountEmpty "there is no pin at the entry";
    23 BorderCount "the film has no border, or more than 16";
    24 TooManyDigits "more than 6 digits are to be decimals";
    25 NotADecimal "the text is printed of no admitted number with so many decimals";
    26 BadWeek "the windows are no running week";
    27 BadMinute "the clock minute is above 10079";
    28 TooSmall "the number of a scientific label is smaller in size than 1e-307";
}

impl Refusal {
    /// The number that the C interface returns for this refusal.
    pub fn number(self) -> i32 {
        self as i32
    }

    /// The refusal with this number.
    pub fn from_number(number: i32) -> Option<Refusal> {
        ALL.into_iter().find(|refusal| refusal.number() == number)
    }
}

impl fmt::Display for Refusal {
    fn fmt(&self, f: &mut fmt::Formatter<'_>) -> fmt::Result {
        write!(f, "refused {}: {}", self.number(), self.text())
    }
}

impl std::error::Error for Refusal {}

/// Reads what a call that never answers none has returned, beside the value it wrote if it did.
///
/// # Panics
/// If the code is none that such a call returns.
pub(crate) fn answered<T>(call: &str, code: i32, value: T) -> Result<T, Refusal> {
    match code {
        0 => Ok(value),
        _ => Err(Refusal::from_number(code)
            .unwrap_or_else(|| panic!("{call} returned {code}, which is no code of this call"))),
    }
}

/// The same for a call that may answer none.
///
/// # Panics
/// If the code is none that such a call returns.
pub(crate) fn answered_or_none<T>(call: &str, code: i32, value: T) -> Result<Option<T>, Refusal> {
    match code {
        -1 => Ok(None),
        _ => answered(call, code, Some(value)),
    }
}

/// Declares the C function behind a call as include/culvraod.h does: the parameters that its family
/// begins with, and its own.
macro_rules! declare {
    ($call:expr, $function:ident(($($first:ident: $number:ty),*) $($own:ident: $t:ty),*)) => {
        extern "C" {
            #[doc = concat!("The C function behind [`", $call, ".")]
            pub fn $function($($first: $number,)* $($own: $t),*) -> i32;
        }
    };
}
pub(crate) use declare;

/// What a C function tells behind its last pointer, its code read by `$read`. Each pointer among the
/// arguments has to be that of a list, with its length beside it.
macro_rules! ask {
    ($read:ident, $function:ident($($argument:expr),*)) => {{
        let mut told = Default::default();
        // SAFETY: the result is a local, and a lent list has the length that is passed.
        let code = unsafe { $function($($argument,)* &mut told) };
        $read(stringify!($function), code, told)
    }};
}
pub(crate) use ask;

#[cfg(test)]
mod tests {
    use super::*;

    #[test]
    fn numbers_are_in_order() {
        let numbers = 1..=28;
        assert!(ALL.iter().map(|refusal| refusal.number()).eq(numbers));
        assert_eq!(Refusal::from_number(13), Some(OutTooShort));
        assert_eq!(answered("call", 0, 7), Ok(7));
        assert_eq!(answered("call", 14, 7), Err(NotARuler));
    }

    #[test]
    fn none_is_told_from_answers_and_refusals() {
        assert_eq!(answered_or_none("call", -1, 7), Ok(None));
        assert_eq!(answered_or_none("call", 0, 7), Ok(Some(7)));
        assert_eq!(answered_or_none("call", 10, 7), Err(AboveI32));
    }

    #[test]
    #[should_panic(expected = "call returned 99")]
    fn an_unknown_code_is_not_accepted() {
        let _ = answered("call", 99, 7);
    }

    #[test]
    #[should_panic(expected = "call returned -1")]
    fn none_is_not_accepted_where_it_is_no_answer() {
        let _ = answered("call", -1, 7);
    }
}
