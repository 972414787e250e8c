//! Plotters' answers as lines of text.

use std::collections::BTreeSet;

use super::axis::{Axis, Index, Whole};
use super::cases::{case, fewer, large, small, Case};
use crate::random::Random;

/// The rows of the scope document's table.
const WORKED: [Case; 11] = [
    case(3, 15, 4),
    case(-15, -3, 4),
    case(0, 10, 10),
    case(0, 10, 9),
    case(0, 10, 5),
    case(3, 5, 1),
    case(-5, -3, 1),
    case(7, 7, 0),
    case(0, 1, 0),
    case(0, 1_000_000_000, 1),
    case(-1, 1_000_000_000, 1),
];

/// What plotters gives on an admitted axis, or the refusal that stands for it.
fn answer<A: Axis>(case: Case) -> String {
    let rule = A::rule(case);
    if let Err(1) = rule {
        return "1".into();
    }
    match (rule, A::reference(case)) {
        (Err(3), None) => "3".into(),
        (Ok(rule), Some(marks)) if A::agree(&rule, &marks) => {
            let marks: String = marks.iter().map(|mark| format!(" {mark}")).collect();
            format!("0 {} {}{marks}", rule.step, rule.count)
        }
        _ => panic!("{case}: the rule and plotters differ"),
    }
}

fn line<A: Axis>(case: Case) -> String {
    let Case { a, b, m } = case;
    format!("{} {a} {b} {m} {}", A::NAME, answer::<A>(case))
}

/// Every so many of the small cases.
fn sampled(least: i128, greatest: i128, every: usize) -> impl Iterator<Item = Case> {
    small(least, greatest, 9)
        .filter(|case| case.m < 12 || case.m > 1_000_000_000)
        .step_by(every)
}

fn drawn<A: Axis>(seed: u64, count: usize) -> Vec<Case> {
    let mut random = Random::fixed(seed);
    let draw = |_| {
        let case = large::<A>(&mut random);
        let most = random.pick(&[4, 6, 10, 12, 40]);
        fewer::<A>(&mut random, case, most)
    };
    (0..count).map(draw).collect()
}

/// Each case once, in the order given.
fn print<A: Axis>(cases: impl Iterator<Item = Case>) {
    let mut seen = BTreeSet::new();
    cases
        .filter(|&case| seen.insert(case))
        .for_each(|case| println!("{}", line::<A>(case)));
}

pub fn vectors() {
    let whole = WORKED.into_iter().chain(sampled(-12, 12, 11));
    print::<Whole>(whole.chain(drawn::<Whole>(1, 1_300)));
    let index = WORKED
        .into_iter()
        .filter(|case| case.a.min(case.b) >= 0)
        .chain(sampled(0, 16, 11));
    print::<Index>(index.chain(drawn::<Index>(2, 700)));
}
