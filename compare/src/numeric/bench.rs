//! Times of key points.

use super::axis::{Index, Library, Whole};
use super::cases::{case, Case};
use crate::timing::report_written;

const WHOLE: [Case; 7] = [
    case(3, 15, 4),
    case(-15, -3, 4),
    case(0, 1_000, 10),
    case(-1_000_000_000, 1_000_000_000, 50),
    case(-500, 499, 1_000),
    case(-50_000, 49_999, 100_000),
    case(-500_000, 499_999, 1_000_000),
];

const INDEX: [Case; 6] = [
    case(3, 15, 4),
    case(0, 1_000, 10),
    case(0, 1_000_000_000, 50),
    case(0, 999, 1_000),
    case(0, 99_999, 100_000),
    case(0, 999_999, 1_000_000),
];

fn axis<A: Library>(case: Case) {
    let count = A::rule(case).map_or(0, |marks| marks.count);
    let title = format!("{} {case}", A::CALL);
    let input = (A::number(case.a), A::number(case.b), case.m);
    report_written(
        &title,
        input,
        count,
        |(a, b, m), out: &mut [A::Number], (step, told): &mut (A::Number, usize)| {
            // SAFETY: `out` is a list of that length, and the results are one number each.
            unsafe { A::function(a, b, m, out.as_mut_ptr(), out.len(), step, told) }
        },
        |(a, b, m)| A::plotters(a, b, m as usize),
    );
}

pub fn bench() {
    WHOLE.into_iter().for_each(axis::<Whole>);
    INDEX.into_iter().for_each(axis::<Index>);
}
