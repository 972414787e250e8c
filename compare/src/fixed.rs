//! Whole numbers with decimals, beside Rust's own formatting: plotters has none.

use std::hint::black_box;

use culvraod::fixed::{self, culv_decimal_print, culv_decimal_read};
use culvraod::Refusal;

use crate::admitted;
use crate::lent::{lengths, Lent};
use crate::random::Random;
use crate::tally::{ensure, Tally};
use crate::timing::report_beside;

/// How many numbers are printed, each with every f and with several lengths of lent memory.
const DRAWN: usize = 1_000_000;
/// Bytes of the texts that are all read, up to the longest of them.
const BYTES: &[u8] = b"-.0159 ";
const LONGEST: u32 = 5;

/// The text, from the request's own words, by Rust's formatting in i64.
fn text(x: i32, f: u32) -> String {
    let (size, one) = (i64::from(x).abs(), 10i64.pow(f));
    let sign = if x < 0 { "-" } else { "" };
    let (whole, rest) = (size / one, size % one);
    match f as usize {
        0 => format!("{sign}{whole}"),
        f => format!("{sign}{whole}.{rest:0f$}"),
    }
}

fn print_rule(x: i32, f: u32) -> Result<String, i32> {
    admitted::whole([x])?;
    if f > 6 {
        return Err(24);
    }
    Ok(text(x, f))
}

/// What the text stands for once its point is left out, if it is then printed as this text.
fn read_rule(bytes: &[u8], f: u32) -> Result<i32, i32> {
    if f > 6 {
        return Err(24);
    }
    let digits: Vec<u8> = bytes.iter().copied().filter(|&c| c != b'.').collect();
    let number = String::from_utf8(digits).ok().and_then(|s| s.parse().ok());
    number
        .filter(|&x| admitted::whole([x]).is_ok() && text(x, f).as_bytes() == bytes)
        .ok_or(25)
}

fn check_print(x: i32, f: u32, len: usize, out: &mut Lent<u8>) -> Result<(), String> {
    let mut wanted = print_rule(x, f);
    if wanted.as_ref().is_ok_and(|text| len < text.len()) {
        wanted = Err(13);
    }
    out.refill(len);
    let mut written = 77;
    // SAFETY: the list has the length that is passed, and the count is a local.
    let code = unsafe { culv_decimal_print(x, f, out.pointer(), len, &mut written) };
    let (bytes, count) = match &wanted {
        Ok(text) => (text.as_bytes(), text.len()),
        Err(_) => (&[][..], 77),
    };
    let right = code == wanted.as_ref().err().copied().unwrap_or(0);
    ensure(right && written == count && out.holds(bytes), || {
        format!("returned {code}, wrote {written}, wanted {wanted:?}, or memory was written to")
    })?;
    out.refill(len);
    let told = fixed::print(x, f, out.list()).map_err(Refusal::number);
    let right = told == wanted.as_ref().map(String::len).map_err(|&n| n);
    ensure(right, || format!("safe call: {told:?}, wanted {wanted:?}"))
}

fn check_read(bytes: &[u8], f: u32) -> Result<(), String> {
    let wanted = read_rule(bytes, f);
    let mut number = 77;
    // SAFETY: the text has the length that is passed, and the number is a local.
    let code = unsafe { culv_decimal_read(bytes.as_ptr(), bytes.len(), f, &mut number) };
    let kept = number == wanted.unwrap_or(77);
    ensure(code == wanted.err().unwrap_or(0) && kept, || {
        format!("returned {code} and gave {number}, wanted {wanted:?}")
    })?;
    let told = fixed::read(bytes, f).map_err(Refusal::number);
    ensure(told == wanted, || format!("safe call: {told:?}, wanted {wanted:?}"))
}

/// Texts that are read: counted, with the smallest that differ.
fn read_all(texts: impl Iterator<Item = (Vec<u8>, u32)>, tally: &mut Tally) {
    for (bytes, f) in texts {
        let shown = format!("{:?}, f {f}", String::from_utf8_lossy(&bytes));
        tally.count(bytes.len() as u128, shown, check_read(&bytes, f));
    }
}

/// Every text of `len` bytes out of `BYTES`.
fn every_text(len: u32) -> impl Iterator<Item = Vec<u8>> {
    let n = BYTES.len();
    (0..n.pow(len)).map(move |at| (0..len).map(|k| BYTES[at / n.pow(k) % n]).collect())
}

/// A number: at the border of what is admitted, of any size, or small.
fn drawn(random: &mut Random) -> i32 {
    let near = random.within(-3, 3) as i64;
    let sign = random.pick(&[-1, 1]);
    let number = match random.below(4) {
        0 => sign * (1_000_000_000 + near),
        1 => sign * (10i64.pow(random.below(10) as u32) + near),
        2 => random.bits() as i32 as i64,
        _ => random.within(-1_000_000, 1_000_000) as i64,
    };
    number as i32
}

/// A byte changed, left out or put in.
fn damaged(random: &mut Random, mut bytes: Vec<u8>) -> Vec<u8> {
    let at = random.below(bytes.len() as u64) as usize;
    let byte = random.pick(b"-+.,0123456789 \0");
    match random.below(4) {
        0 => bytes[at] = byte,
        1 => bytes[at] = random.bits() as u8,
        2 => _ = bytes.remove(at),
        _ => bytes.insert(at, byte),
    }
    bytes
}

pub fn compare() -> bool {
    let random = &mut Random::new();
    let mut printed = Tally::new("decimal_print");
    let mut read = Tally::new("decimal_read");
    let out = &mut Lent::new();
    for _ in 0..DRAWN {
        let (x, f) = (drawn(random), random.below(9) as u32);
        let long = print_rule(x, f).map_or(0, |text| text.len());
        for len in lengths(long) {
            let shown = format!("{x}, f {f}, lent {len}");
            printed.count(x.unsigned_abs().into(), shown, check_print(x, f, len, out));
        }
    }
    for f in 0..=7 {
        read_all((0..=LONGEST).flat_map(every_text).map(|t| (t, f)), &mut read);
    }
    let texts = (0..DRAWN).map(|at| {
        let (x, f) = (drawn(random), random.below(8) as u32);
        let bytes = text(x, f).into_bytes();
        let damage = if at % 2 == 0 { bytes } else { damaged(random, bytes) };
        (damage, if at % 16 == 3 { random.below(8) as u32 } else { f })
    });
    read_all(texts, &mut read);
    printed.close() & read.close()
}

/// Printing beside `format!`, and reading beside Rust's parser of the digits.
pub fn bench() {
    let random = &mut Random::fixed(1);
    let numbers: Vec<i32> = (0..100_000)
        .map(|_| random.within(-1_000_000_000, 1_000_000_000) as i32)
        .collect();
    let texts: Vec<String> = numbers.iter().map(|&x| text(x, 3)).collect();
    let mut out = [0u8; fixed::MOST_BYTES];
    let print = || {
        for &x in black_box(&numbers) {
            let mut written = 0;
            // SAFETY: the bytes have the length that is passed, and the count is a local.
            let code = unsafe { culv_decimal_print(x, 3, out.as_mut_ptr(), out.len(), &mut written) };
            black_box((code, written, &out));
        }
    };
    let format = || {
        for &x in black_box(&numbers) {
            black_box(text(x, 3));
        }
    };
    let n = numbers.len() as u64;
    report_beside("decimal_print, f 3", "format!", n, [&mut { print }, &mut { format }]);
    let read = || {
        for text in black_box(&texts) {
            let mut x = 0;
            // SAFETY: the text has the length that is passed, and the number is a local.
            let code = unsafe { culv_decimal_read(text.as_ptr(), text.len(), 3, &mut x) };
            black_box((code, x));
        }
    };
    let parse = || {
        for text in black_box(&texts) {
            let (whole, rest) = text.split_once('.').expect("a point");
            let joined = [whole, rest].concat();
            black_box(joined.parse::<i32>().ok());
        }
    };
    report_beside("decimal_read, f 3", "parse", n, [&mut { read }, &mut { parse }]);
}
