//! Marks of culvraod beside those of plotters and of the rule.

use culvraod::Refusal;
use std::marker::PhantomData;

use super::axis::{Index, Library, Whole};
use super::cases::{fewer, large, small, Case, LONG};
use super::rule::BOUND;
use crate::lends::{with_list, with_lists, Lends, Memory};
use crate::random::Random;
use crate::tally::{ensure, Tally};

/// Cases with more marks than this are not drawn at random.
const MOST: usize = 200_000;

const TOO_SHORT: i32 = 13;

/// The conditions of refusal 3 in the words of the table of refusals.
fn no_step(case: Case) -> bool {
    let d = (case.a - case.b).abs();
    (case.m == 0 && case.a != case.b) || (case.m == 1 && d > BOUND)
}

/// A case on one kind of axis.
struct On<A>(Case, PhantomData<A>);

impl<A> Clone for On<A> {
    fn clone(&self) -> On<A> {
        *self
    }
}

impl<A> Copy for On<A> {}

impl<A: Library> Lends for On<A> {
    type Entry = A::Number;

    fn safe(self, out: &mut [A::Number]) -> Result<(Option<A::Number>, usize), Refusal> {
        let Case { a, b, m } = self.0;
        let told = A::key_points(A::number(a), A::number(b), m, out);
        told.map(|told| (Some(told.step), told.count))
    }

    unsafe fn function(
        self,
        (out, len): (*mut A::Number, usize),
        step: *mut A::Number,
        count: *mut usize,
    ) -> i32 {
        let Case { a, b, m } = self.0;
        A::function(A::number(a), A::number(b), m, out, len, step, count)
    }
}

fn check<A: Library>(case: Case, memory: &mut Memory<A::Number>) -> Result<(), String> {
    let rule = match A::rule(case) {
        Ok(rule) => rule,
        Err(number) => return check_refusal::<A>(case, number, memory),
    };
    ensure(!no_step(case), || {
        "the rule answers, the table refuses with 3".into()
    })?;
    let marks = A::reference(case).ok_or("the rule answers, plotters panics")?;
    ensure(A::agree(&rule, &marks), || {
        format!("the rule and plotters differ, step {}", rule.step)
    })?;
    let told = (Some(A::number(rule.step)), &marks[..]);
    with_lists(On::<A>(case, PhantomData), told, TOO_SHORT, memory)
}

fn check_refusal<A: Library>(
    case: Case,
    number: i32,
    memory: &mut Memory<A::Number>,
) -> Result<(), String> {
    if number == 3 {
        ensure(no_step(case), || "3 outside the table's conditions".into())?;
        ensure(A::reference(case).is_none(), || {
            "the rule refuses with 3, plotters answers".into()
        })?;
    }
    [0, 1, 9]
        .into_iter()
        .try_for_each(|len| with_list(On::<A>(case, PhantomData), len, memory, Err(number)))
}

/// A case with too many marks to write: every list is too short.
fn check_short<A: Library>(case: Case, memory: &mut Memory<A::Number>) -> Result<(), String> {
    [0, 1, 50]
        .into_iter()
        .try_for_each(|len| with_list(On::<A>(case, PhantomData), len, memory, Err(TOO_SHORT)))
}

/// How many marks a random case may have: few as a rule, so that there can be many cases.
fn most(random: &mut Random) -> usize {
    match random.below(20_000) {
        0..=9 => MOST,
        10..=99 => 20_000,
        100..=1_999 => 1_000,
        _ => 50,
    }
}

struct Run<A: Library> {
    tally: Tally,
    short: Tally,
    memory: Memory<A::Number>,
}

impl<A: Library> Run<A> {
    fn new() -> Run<A> {
        Run {
            tally: Tally::new(A::CALL),
            short: Tally::new(format!("{} in short lists, over {MOST} marks", A::CALL)),
            memory: Memory::new(),
        }
    }

    fn case(&mut self, case: Case) {
        let found = check::<A>(case, &mut self.memory);
        self.tally.count(case.size(), case, found);
    }

    fn random(&mut self, random: &mut Random) {
        let case = large::<A>(random);
        if A::rule(case).is_ok_and(|marks| marks.count > MOST) {
            let found = check_short::<A>(case, &mut self.memory);
            self.short.count(case.size(), case, found);
        }
        let most = most(random);
        self.case(fewer::<A>(random, case, most));
    }
}

fn run<A: Library>(cases: impl Iterator<Item = Case>, random_cases: usize) -> bool {
    let mut run = Run::<A>::new();
    cases.for_each(|case| run.case(case));
    let held = |case: &Case| A::HELD.contains(&case.a.min(case.b));
    LONG.into_iter()
        .filter(held)
        .for_each(|case| run.case(case));
    let random = &mut Random::new();
    (0..random_cases).for_each(|_| run.random(random));
    run.tally.close() & run.short.close()
}

pub fn compare() -> bool {
    run::<Whole>(small(-40, 40, 45), 6_000_000) & run::<Index>(small(0, 60, 65), 2_500_000)
}
