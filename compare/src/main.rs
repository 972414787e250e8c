//! Runs plotters and culvraod side by side: `compare`, `bench` or `vectors`; `lines` and `rule` are for the ruler program.
//!
//! Each family of calls has a module with an entry of each name; a new family is added below. `compare`
//! and `bench` take one family's name, to run that alone.

mod counts;
mod labels;
mod linspace;
mod numeric;
mod places;
mod readings;
mod real_marks;
mod search;
mod segmented;

mod admitted;
mod call;
mod cases;
mod entry;
mod lines;
mod number;
mod program;
mod random;
mod reference;
mod written;

#[cfg(feature = "library")]
mod beside;
#[cfg(feature = "library")]
mod charts;
#[cfg(feature = "library")]
mod film;
#[cfg(feature = "library")]
mod fixed;
#[cfg(feature = "library")]
mod lends;
#[cfg(feature = "library")]
mod lent;
#[cfg(feature = "library")]
mod rulers;
#[cfg(feature = "library")]
mod tally;
#[cfg(feature = "library")]
mod timing;
#[cfg(feature = "library")]
mod week;

use std::env;
use std::process::ExitCode;

/// A family of calls: its name, what compares it, and what times it.
#[cfg(feature = "library")]
type Family = (&'static str, fn() -> bool, fn());

#[cfg(feature = "library")]
macro_rules! family {
    ($name:ident) => {
        (stringify!($name), $name::compare, $name::bench)
    };
}

#[cfg(feature = "library")]
const FAMILIES: &[Family] = &[
    family!(numeric),
    family!(places),
    family!(counts),
    family!(readings),
    family!(real_marks),
    family!(rulers),
    family!(film),
    family!(search),
    family!(linspace),
    family!(labels),
    family!(segmented),
    family!(charts),
    family!(fixed),
    family!(week),
];

/// The families, or the one that is named behind `compare` or `bench`.
#[cfg(feature = "library")]
fn families() -> impl Iterator<Item = &'static Family> {
    let only = env::args().nth(2);
    FAMILIES
        .iter()
        .filter(move |(name, ..)| only.as_deref().is_none_or(|only| only == *name))
}

/// Runs every family against plotters; true if nothing differs.
#[cfg(feature = "library")]
fn compare() -> bool {
    let agrees: Vec<bool> = families().map(|(_, compare, _)| compare()).collect();
    !agrees.is_empty() && agrees.iter().all(|&agrees| agrees)
}

/// Times every family beside plotters.
#[cfg(feature = "library")]
fn bench() -> bool {
    println!("{}", timing::HEADING);
    families().for_each(|(_, _, bench)| bench());
    true
}

/// Prints plotters' answers for every family.
fn vectors() -> bool {
    print!("{}", include_str!("vectors-heading.txt"));
    numeric::vectors();
    places::vectors();
    counts::vectors();
    readings::vectors();
    real_marks::vectors();
    search::vectors();
    linspace::vectors();
    segmented::vectors();
    labels::vectors();
    true
}

fn main() -> ExitCode {
    reference::hush();
    let done = match env::args().nth(1).as_deref() {
        #[cfg(feature = "library")]
        Some("compare") => compare(),
        #[cfg(feature = "library")]
        Some("bench") => bench(),
        Some("vectors") => vectors(),
        Some("lines") => program::lines(),
        Some("rule") => program::rule(),
        _ => panic!("one of compare, bench, vectors, lines, rule is wanted"),
    };
    if done {
        ExitCode::SUCCESS
    } else {
        ExitCode::FAILURE
    }
}
