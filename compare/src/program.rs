//! The ruler program over plotters, and the lines that both programs are run on.

use plotters::coord::ranged1d::Ranged;
use plotters::coord::RangedCoordi32;
use std::io::{self, BufRead, BufWriter, Write};
use std::str::FromStr;

use crate::admitted::{film, whole, BOUND};
use crate::numeric::{marks, Marks};
use crate::random::Random;

const LINES: usize = 1_000_000;

/// What a ruler is asked for.
#[derive(Clone, Copy)]
pub struct Draft {
    pub ends: [i32; 2],
    pub limits: [i32; 2],
    pub m: u32,
}

impl Draft {
    /// The marks by the rule, or the number of the refusal.
    pub fn rule(self) -> Result<Marks, i32> {
        let ([a, b], bound) = (self.ends, i128::from(BOUND));
        whole(self.ends).and(film(self.limits))?;
        marks(&(-bound..=bound), a.into(), b.into(), self.m)
    }
}

/// A number, if the text is what is printed of it.
fn number<N: FromStr + ToString>(text: &str) -> Option<N> {
    let n: N = text.parse().ok()?;
    (n.to_string() == text).then_some(n)
}

fn asked(line: &[u8]) -> Option<Draft> {
    let mut words = std::str::from_utf8(line).ok()?.split(' ');
    let read = match (words.next()?, words.next()?, words.next()?) {
        ("rule", a, b) => Draft {
            ends: [number(a)?, number(b)?],
            limits: [number(words.next()?)?, number(words.next()?)?],
            m: number(words.next()?)?,
        },
        _ => return None,
    };
    words.next().is_none().then_some(read)
}

/// Plotters' marks and places. It returns no step; that is the rule's.
fn draw(out: &mut impl Write, draft: Draft) -> io::Result<()> {
    let Draft { ends, limits, m } = draft;
    match draft.rule() {
        Err(refusal) => writeln!(out, "refused {refusal}"),
        Ok(rule) => {
            let axis = RangedCoordi32::from(ends[0]..ends[1]);
            let needles = axis.key_points(m as usize);
            writeln!(out, "step {}", rule.step)?;
            for needle in &needles {
                let place = axis.map(needle, (limits[0], limits[1]));
                writeln!(out, "{needle} {place}")?;
            }
            writeln!(out, "marks {}", needles.len())
        }
    }
}

/// Answers every line of standard input.
pub fn rule() -> bool {
    let mut out = BufWriter::with_capacity(1 << 16, io::stdout().lock());
    for line in io::stdin().lock().split(b'\n') {
        match asked(&line.expect("standard input cannot be read")) {
            Some(draft) => draw(&mut out, draft),
            None => writeln!(out, "bad line"),
        }
        .expect("standard output cannot be written");
    }
    out.flush().is_ok()
}

/// A number of any size up to `most`, of either sign, or one at the edges.
pub fn drawn(random: &mut Random, most: i128) -> i128 {
    if random.below(16) == 0 {
        return random.pick(&[0, 1, -1, most, -most, most + 1, -most - 1]);
    }
    let size = 10i128.pow(random.below(11) as u32).min(most);
    random.within(-size, size)
}

/// A line that asks for a ruler, with a few marks.
fn good(random: &mut Random) -> String {
    let (a, b) = (drawn(random, 1_000_000_000), drawn(random, 1_000_000_000));
    let (p, q) = (drawn(random, 1_000_000), drawn(random, 1_000_000));
    format!("rule {a} {b} {p} {q} {}", random.below(16))
}

/// Whether a line asks for no more than a few marks.
fn asks_for_few(line: &str) -> bool {
    asked(line.as_bytes()).is_none_or(|draft| draft.m < 100)
}

/// A line that is damaged in one place; some can still be read.
fn bad(random: &mut Random) -> String {
    let line = good(random);
    let at = random.below(line.len() as u64) as usize;
    let (left, right) = line.split_at(at);
    let damaged = match random.below(6) {
        0 => format!("{left} {right}"),
        1 => format!("{left}0{right}"),
        2 => format!("{left}-{right}"),
        3 => left.to_string(),
        4 => format!("{line}\r"),
        _ => format!("{left}{}{right}", "9".repeat(random.below(200) as usize)),
    };
    if asks_for_few(&damaged) {
        damaged
    } else {
        line
    }
}

/// Prints a million lines, good and bad.
pub fn lines() -> bool {
    let mut random = Random::fixed(1);
    let mut out = BufWriter::new(io::stdout().lock());
    for _ in 0..LINES {
        let line = match random.below(8) {
            0 => bad(&mut random),
            _ => good(&mut random),
        };
        writeln!(out, "{line}").expect("standard output cannot be written");
    }
    out.flush().is_ok()
}
