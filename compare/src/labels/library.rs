//! Labels of culvraod.

use culvraod::label::{culv_label, culv_label_scientific, FloatPrettyPrinter, LONGEST};
use std::hint::black_box;

use super::{cases, Asked, Notation};
use crate::reference::caught;
use crate::lent::{lengths, Lent};
use crate::number::Number;
use crate::random::Random;
use crate::tally::{ensure, Tally};
use crate::timing::{report_batch, written};

const DRAWN: usize = 20_000_000;
const VANISHING: usize = 2_000_000;
const SCIENTIFIC: usize = 10_000_000;
/// So many bytes are enough for every scientific label, as is proved.
const LONGEST_SCIENTIFIC: usize = 29;
const BATCH: usize = 1_000_000;

/// How many decimals the timed labels have at most and at least.
const TIMED: [(u32, u32); 4] = [(5, 0), (5, 1), (10, 0), (2, 2)];

impl Asked {
    fn printer(self) -> FloatPrettyPrinter {
        FloatPrettyPrinter {
            min_decimal: self.e,
            max_decimal: self.h,
        }
    }

    /// Calls the C function itself.
    fn function(self, notation: Notation, out: &mut [u8], len: &mut usize) -> i32 {
        let Asked { n, h, e } = self;
        let function = match notation {
            Notation::Plain => culv_label,
            Notation::Scientific => culv_label_scientific,
        };
        // SAFETY: `out` is bytes of that length, and `len` is one number.
        unsafe { function(n, h, e, out.as_mut_ptr(), out.len(), len) }
    }

    /// The same as it is timed; gives what was returned.
    #[inline(always)]
    fn timed(self, notation: Notation, out: &mut [u8]) -> i32 {
        written(out, |out, len| self.function(notation, out, len)).0
    }

    fn size(self) -> u128 {
        Number::from(self.n).size() + u128::from(self.h) + u128::from(self.e)
    }
}

/// Holds a call with so many lent bytes against the label or the refusal that is wanted.
fn check_length(
    asked: Asked,
    notation: Notation,
    len: usize,
    wanted: &Result<String, i32>,
    out: &mut Lent<u8>,
) -> Result<(), String> {
    let wanted = match wanted {
        Ok(text) if len < text.len() => Err(13),
        Ok(text) => Ok(text.as_bytes()),
        Err(refusal) => Err(*refusal),
    };
    out.refill(len);
    let mut written = usize::MAX;
    let code = asked.function(notation, out.list(), &mut written);
    let (held, told) = match wanted {
        Ok(text) => (text, (0, text.len())),
        Err(refusal) => (&[][..], (refusal, usize::MAX)),
    };
    ensure((code, written) == told, || {
        format!("{len} bytes lent: {code} and {written}, wanted {told:?}")
    })?;
    ensure(out.holds(held), || {
        let text = String::from_utf8_lossy(out.list()).into_owned();
        format!("{len} bytes lent: {text:?}, wanted {wanted:?}")
    })
}

fn check(asked: Asked, notation: Notation, out: &mut Lent<u8>) -> Result<(), String> {
    let wanted = asked.wanted(notation)?;
    let long = wanted.as_ref().map_or(0, String::len);
    let most = match notation {
        Notation::Plain => LONGEST,
        Notation::Scientific => LONGEST_SCIENTIFIC,
    };
    ensure(long <= most, || format!("{long} bytes"))?;
    for len in lengths(long) {
        check_length(asked, notation, len, &wanted, out)?;
    }
    let mut bytes = [0; LONGEST];
    let safe = match notation {
        Notation::Plain => asked.printer().print(asked.n, &mut bytes),
        Notation::Scientific => asked.printer().print_scientific(asked.n, &mut bytes),
    };
    let safe = safe.map(String::from).map_err(|refusal| refusal.number());
    ensure(safe == wanted, || {
        format!("safe call: {safe:?}, wanted {wanted:?}")
    })
}

/// How often plotters' own label differs from that with the table, and the shortest such text.
#[derive(Default)]
struct Unlike {
    count: u64,
    shortest: Option<(usize, String)>,
}

impl Unlike {
    fn look(&mut self, asked: Asked) {
        if asked.rule(Notation::Scientific).is_err() {
            return;
        }
        let pair = [
            caught(|| asked.by_logarithm()),
            caught(|| asked.plotters(Notation::Scientific)),
        ];
        if pair[0] == pair[1] {
            return;
        }
        self.count += 1;
        let shown = format!("{asked}: {pair:?}");
        if self.shortest.as_ref().is_none_or(|(len, _)| shown.len() < *len) {
            self.shortest = Some((shown.len(), shown));
        }
    }
}

fn compare_scientific() -> bool {
    let mut tally = Tally::new("label_scientific");
    let (mut random, mut unlike) = (Random::new(), Unlike::default());
    let out = &mut Lent::new();
    let drawn = (0..SCIENTIFIC).map(|_| cases::drawn_for(&mut random, Notation::Scientific));
    let worked = cases::WORKED.iter().copied().chain(cases::all());
    for asked in worked.chain(drawn) {
        unlike.look(asked);
        let found = check(asked, Notation::Scientific, out);
        tally.count(asked.size(), asked, found);
    }
    println!(
        "label_scientific: without the table plotters differs on {}: {}",
        unlike.count,
        unlike.shortest.map_or_else(String::new, |(_, shown)| shown)
    );
    tally.close()
}

pub fn compare() -> bool {
    let mut tally = Tally::new("label");
    let mut random = Random::new();
    let drawn = (0..DRAWN + VANISHING).map(|k| match k < DRAWN {
        true => cases::drawn(&mut random),
        false => cases::vanishing(&mut random),
    });
    let out = &mut Lent::new();
    let worked = cases::WORKED.iter().copied().chain(cases::all());
    for asked in worked.chain(drawn) {
        tally.count(asked.size(), asked, check(asked, Notation::Plain, out));
    }
    tally.close() & compare_scientific()
}

/// plotters' call where the compiler may not inline it, as it may not the C function.
#[inline(never)]
fn behind_a_call(asked: Asked, notation: Notation) -> String {
    asked.plotters(notation)
}

/// Times a batch of labels.
fn report(title: &str, notation: Notation, batch: &[Asked]) {
    let mut out = [0; LONGEST];
    assert!(
        batch.iter().all(|asked| asked.timed(notation, &mut out) == 0),
        "{title}"
    );
    let mut ours = || {
        for asked in black_box(batch) {
            asked.timed(notation, &mut out);
        }
    };
    let mut plotters = || {
        for asked in black_box(batch) {
            black_box(asked.plotters(notation));
        }
    };
    let mut behind = || {
        for asked in black_box(batch) {
            black_box(behind_a_call(*asked, notation));
        }
    };
    report_batch(
        title,
        batch.len() as u64,
        [&mut ours, &mut plotters, &mut behind],
    );
}

/// A batch of labels, as one of them is drawn.
fn batch(drawn: impl Fn(&mut Random) -> Asked) -> Vec<Asked> {
    let mut random = Random::fixed(1);
    (0..BATCH).map(|_| drawn(&mut random)).collect()
}

pub fn bench() {
    for (h, e) in TIMED {
        let title = format!("label with at most {h} and at least {e} decimals");
        let batch = batch(|random| cases::ordinary(random, h, e));
        report(&title, Notation::Plain, &batch);
    }
    for (h, e) in [(5, 1), (10, 0)] {
        let title = format!("scientific label with at most {h} and at least {e} decimals");
        let batch = batch(|random| cases::tiny(random, h, e));
        report(&title, Notation::Scientific, &batch);
    }
}
