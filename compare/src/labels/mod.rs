//! Labels of real numbers.

mod cases;
mod rule;

#[cfg(feature = "library")]
mod library;

use plotters::data::float::FloatPrettyPrinter;
use tabled::data::float::FloatPrettyPrinter as Tabled;
use std::collections::BTreeSet;
use std::fmt::{self, Display};

use crate::number::Number;
use crate::random::Random;
use crate::reference::caught;

#[cfg(feature = "library")]
pub use library::{bench, compare};

/// How many lines the list of plotters' answers has, and how many more that are refused.
const LINES: [usize; 2] = [340, 60];

/// Plain labels, or scientific ones where they are short.
#[derive(Clone, Copy, PartialEq)]
pub enum Notation {
    Plain,
    Scientific,
}

/// A number, and how many decimals its label has at most and at least.
#[derive(Clone, Copy)]
pub struct Asked {
    n: f64,
    h: u32,
    e: u32,
}

impl Display for Asked {
    fn fmt(&self, out: &mut fmt::Formatter) -> fmt::Result {
        let Asked { n, h, e } = self;
        write!(out, "{n:?}, at most {h} and at least {e} decimals")
    }
}

impl Asked {
    /// plotters' text, that of scientific labels with the decade from our table.
    fn plotters(self, notation: Notation) -> String {
        let (min_decimal, max_decimal) = (self.e as i32, self.h as i32);
        match notation {
            Notation::Plain => FloatPrettyPrinter {
                allow_scientific: false,
                min_decimal,
                max_decimal,
            }
            .print(self.n),
            Notation::Scientific => Tabled {
                allow_scientific: true,
                min_decimal,
                max_decimal,
            }
            .print(self.n),
        }
    }

    /// plotters' own scientific label, by a logarithm and a power.
    #[cfg(feature = "library")]
    fn by_logarithm(self) -> String {
        let printer = FloatPrettyPrinter {
            allow_scientific: true,
            min_decimal: self.e as i32,
            max_decimal: self.h as i32,
        };
        printer.print(self.n)
    }

    fn rule(self, notation: Notation) -> Result<rule::Label, i32> {
        match notation {
            Notation::Plain => rule::label(self),
            Notation::Scientific => rule::scientific(self),
        }
    }

    /// What the call must give: the rule's label, if plotters does not gainsay it. By request (b)
    /// plotters' text is stripped first of a minus sign before zeros alone; in a scientific text
    /// there is always another digit. plotters may panic only where the decimals fill up to a one.
    fn wanted(self, notation: Notation) -> Result<Result<String, i32>, String> {
        let label = match self.rule(notation) {
            Err(refusal) => return Ok(Err(refusal)),
            Ok(label) => label,
        };
        let agrees = match caught(|| self.plotters(notation)).map(rule::zero_unsigned) {
            Some(given) if given == label.text => return Ok(Ok(label.text)),
            Some(given) => given,
            None if label.fills_up => return Ok(Ok(label.text)),
            None => "a panic".into(),
        };
        Err(format!("the rule gives {}, plotters {agrees}", label.text))
    }

    fn line(self, notation: Notation) -> String {
        let wanted = self
            .wanted(notation)
            .unwrap_or_else(|what| panic!("{self}: {what}"));
        let told = wanted.map_or_else(|refusal| refusal.to_string(), |text| format!("0 {text}"));
        let Asked { n, h, e } = self;
        let word = match notation {
            Notation::Plain => "label",
            Notation::Scientific => "slabel",
        };
        format!("{word} {} {h} {e} {told}", Number::from(n).digits())
    }
}

/// The worked labels, then random ones, each once.
fn print_lines(notation: Notation, seed: u64) {
    let mut random = Random::fixed(seed);
    let mut printed = BTreeSet::new();
    let mut left = LINES;
    let mut worked = cases::WORKED.iter().copied();
    while left != [0, 0] {
        let asked = worked
            .next()
            .unwrap_or_else(|| cases::drawn_for(&mut random, notation));
        let sort = usize::from(asked.rule(notation).is_err());
        let line = asked.line(notation);
        if left[sort] > 0 && printed.insert(line.clone()) {
            left[sort] -= 1;
            println!("{line}");
        }
    }
}

pub fn vectors() {
    print_lines(Notation::Plain, 12);
    print_lines(Notation::Scientific, 13);
}
