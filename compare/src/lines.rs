//! Plotters' answers of one call as lines of text.

use std::collections::BTreeSet;
use std::iter::repeat_with;

use crate::call::{self, Call, Shown, Told};
use crate::cases::Cases;
use crate::number::Number;
use crate::random::Random;
use crate::written::{self, Writes, Written};

/// A line, and whether its input is not admitted.
struct Line {
    words: Vec<String>,
    refused: bool,
}

impl Line {
    fn new(keyword: &str, code: i32, fields: impl Iterator<Item = (&'static str, Number)>) -> Line {
        let mut words = vec![keyword.to_string()];
        words.extend(fields.map(|(_, number)| number.digits()));
        words.push(code.to_string());
        Line {
            words,
            refused: matches!(code, 1 | 2),
        }
    }
}

fn line<C: Call>(call: C) -> Line {
    let told = call::wanted(call).unwrap_or_else(|what| panic!("{}: {what}", Shown(call)));
    let mut line = Line::new(C::KEYWORD, told.code(), call.fields());
    if let Told::Given(number) = told {
        line.words.push(number.digits());
    }
    line
}

fn any<C: Cases>(random: &mut Random) -> C {
    if random.below(3) == 0 {
        C::picked(random)
    } else {
        C::drawn(random)
    }
}

/// Prints so many lines, and so many more whose input is not admitted, each once.
fn print_lines(lines: impl Iterator<Item = Line>, most: [usize; 2]) {
    let mut printed = [BTreeSet::new(), BTreeSet::new()];
    for Line { words, refused } in lines {
        let (sort, line) = (usize::from(refused), words.join(" "));
        if printed[sort].len() < most[sort] && printed[sort].insert(line.clone()) {
            println!("{line}");
        }
        if printed.each_ref().map(BTreeSet::len) == most {
            return;
        }
    }
}

/// The lines of the calls that the list of answers may have.
pub fn print_all<C: Call>(calls: impl Iterator<Item = C>, most: [usize; 2]) {
    print_lines(calls.filter(|&call| call.listed()).map(line), most);
}

/// How many inputs are drawn at most: some calls have no input that is not admitted.
const DRAWN: usize = 20_000;

/// The worked rows, then corners and random inputs.
pub fn print<C: Cases>(seed: u64) {
    let mut random = Random::fixed(seed);
    let drawn = repeat_with(|| any::<C>(&mut random)).take(DRAWN);
    print_all(C::WORKED.iter().copied().chain(drawn), C::LINES);
}

/// As many places has the list that the replaying program lends, and so many entries a line.
const PLACES: usize = 64;
const ENTRIES: usize = 40;

/// A list long enough, if a line can have the entries.
fn ample(count: usize) -> usize {
    if count > ENTRIES {
        ENTRIES
    } else {
        PLACES
    }
}

/// A list that is often just long enough, or too short.
fn tight(random: &mut Random, count: usize) -> usize {
    if count > ENTRIES {
        return random.pick(&[0, ENTRIES, PLACES.min(count - 1)]);
    }
    random.pick(&[0, count.saturating_sub(1), count, count + 1, PLACES, PLACES])
}

/// The numbers of an answer: the step where the call tells it, the count and the entries.
fn told<N: Into<Number>>(Written { step, list }: Written<N>) -> impl Iterator<Item = Number> {
    let count = Number::from(list.len() as u64);
    let entries = list.into_iter().map(N::into);
    step.map(N::into).into_iter().chain([count]).chain(entries)
}

/// The line of a call with a lent list, whose length is chosen by the number of entries.
fn list_line<C: Writes>(call: C, length: impl FnOnce(usize) -> usize) -> Line {
    let wanted = written::wanted(call).unwrap_or_else(|what| panic!("{call}: {what}"));
    let count = wanted.as_ref().map_or(0, |written| written.list.len());
    let len = length(count);
    let wanted = match wanted {
        Ok(_) if count > len => Err(call.too_short()),
        wanted => wanted,
    };
    let code = wanted.as_ref().map_or_else(|&number| number, |_| 0);
    let fields = call.fields().into_iter();
    let lent = ("len", Number::from(len as u64));
    let mut line = Line::new(call.keyword(), code, fields.chain([lent]));
    let numbers = wanted.into_iter().flat_map(told);
    line.words.extend(numbers.map(Number::digits));
    line
}

/// The worked inputs of a call that writes a list, then drawn ones.
pub fn print_lists<C: Writes>(
    seed: u64,
    most: [usize; 2],
    worked: impl Iterator<Item = C>,
    draw: impl Fn(&mut Random) -> C,
) {
    let mut random = Random::fixed(seed);
    let drawn = repeat_with(|| {
        let call = draw(&mut random);
        list_line(call, |count| tight(&mut random, count))
    });
    let worked = worked.map(|call| list_line(call, ample));
    print_lines(worked.chain(drawn.take(DRAWN)), most);
}
