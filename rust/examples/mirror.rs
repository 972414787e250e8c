//! Writes the ruler of a draft and that of its mirror, of either kind, and prints beside each other
//! the records that must match: the mirror's are negated and stand in reverse order. Of kind 1 one
//! ruler may have one mark more, its last; the marks of kind 3 stay on the axis, and always match.
//!
//!     mirror [a b p q m]

use std::env;
use std::fmt;
use std::process::ExitCode;

use culvraod::ruler::{read, write, write_inside, Ruler};
use culvraod::{Limit, RangedCoordi32, Refusal};

const AXIS_BYTES: usize = 25;
const MARK_BYTES: usize = 20;

#[derive(Clone, Copy)]
struct Draft {
    axis: RangedCoordi32,
    limit: Limit,
    m: u32,
}

impl fmt::Display for Draft {
    fn fmt(&self, f: &mut fmt::Formatter<'_>) -> fmt::Result {
        let (RangedCoordi32(a, b), Limit(p, q)) = (self.axis, self.limit);
        write!(f, "{a} {b} {p} {q} {}", self.m)
    }
}

impl Draft {
    /// The mirror of a draft that is not refused, so that every number can be negated.
    fn mirror(self) -> Draft {
        let (RangedCoordi32(a, b), Limit(p, q)) = (self.axis, self.limit);
        Draft {
            axis: RangedCoordi32(-a, -b),
            limit: Limit(-p, -q),
            m: self.m,
        }
    }

    /// Its ruler of a kind, in the memory that is lent for it.
    fn ruler(self, kind: u32, out: &mut [u8]) -> Result<&[u8], Refusal> {
        let write = if kind == 1 { write } else { write_inside };
        let told = write(self.axis, self.limit, self.m, out);
        print!("kind {kind}, {self}: ");
        match told {
            Ok(written) => println!("{} bytes, {} marks", written.bytes, written.marks),
            Err(refusal) => println!("refused {}", refusal.number()),
        }
        told.map(|written| &out[..written.bytes])
    }
}

/// A mark's record.
#[derive(Clone, Copy)]
struct Mark<'a> {
    needle: i32,
    place: i32,
    label: &'a [u8],
}

impl fmt::Display for Mark<'_> {
    fn fmt(&self, f: &mut fmt::Formatter<'_>) -> fmt::Result {
        let label = String::from_utf8_lossy(self.label);
        write!(f, "{label} at {}", self.place)
    }
}

impl Mark<'_> {
    /// Needle and place negated, and the label that of the negated needle.
    fn matches(self, other: Mark<'_>) -> bool {
        let label = format!("{:>11}", -self.needle);
        self.needle == -other.needle
            && self.place == -other.place
            && other.label == label.as_bytes()
    }
}

fn marks(ruler: &[u8]) -> Vec<Mark<'_>> {
    let number = |bytes: &[u8]| i32::from_le_bytes(bytes.try_into().unwrap());
    let records = ruler[AXIS_BYTES..].chunks_exact(MARK_BYTES);
    let mark = |record| {
        let (numbers, label) = <[u8]>::split_at(record, 9);
        Mark {
            needle: number(&numbers[1..5]),
            place: number(&numbers[5..9]),
            label,
        }
    };
    records.map(mark).collect()
}

/// Ends and limits negated, the same kind, m and step.
fn axes_match(one: Ruler, other: Ruler) -> bool {
    let (RangedCoordi32(a, b), Limit(p, q)) = (one.axis, one.limit);
    other.axis == RangedCoordi32(-a, -b)
        && other.limit == Limit(-p, -q)
        && (other.kind, other.m, other.step) == (one.kind, one.m, one.step)
}

fn said(matches: bool) -> &'static str {
    if matches {
        "match"
    } else {
        "differ"
    }
}

fn print_difference(one: &[u8], other: &[u8]) -> Result<(), Refusal> {
    let axis = read(one)?;
    let matches = axes_match(axis, read(other)?);
    println!("axes {}, step {}", said(matches), axis.step);
    let (one, other) = (marks(one), marks(other));
    let both = one.len().min(other.len());
    for (here, there) in one[..both].iter().zip(other[..both].iter().rev()) {
        println!("{here} and {there} {}", said(here.matches(*there)));
    }
    for mark in &one[both..] {
        println!("{mark} is one more");
    }
    for mark in &other[both..] {
        println!("{mark} is one more, of the mirror");
    }
    Ok(())
}

fn run(kind: u32, draft: Draft) -> Result<(), Refusal> {
    let mut out = [[0; 65536]; 2];
    let [one, other] = &mut out;
    let one = draft.ruler(kind, one)?;
    let other = draft.mirror().ruler(kind, other)?;
    print_difference(one, other)
}

fn draft_of(words: &[String]) -> Draft {
    let number = |at: usize| words[at].parse().expect("no number");
    match words.len() {
        5 => Draft {
            axis: RangedCoordi32(number(0), number(1)),
            limit: Limit(number(2), number(3)),
            m: words[4].parse().expect("no number"),
        },
        _ => Draft {
            axis: RangedCoordi32(-15, -3),
            limit: Limit(0, 120),
            m: 4,
        },
    }
}

fn main() -> ExitCode {
    let words: Vec<String> = env::args().skip(1).collect();
    let draft = draft_of(&words);
    match [1, 3].map(|kind| run(kind, draft)) {
        [Ok(()), Ok(())] => ExitCode::SUCCESS,
        _ => ExitCode::FAILURE,
    }
}
