//! The rule for labels, from the scope document's own words, level by level and without recursion,
//! with the sign as request (b) has it.

use super::Asked;
use tabled::powers::POWERS;

/// From this size on a number has no label.
const TOO_LARGE: f64 = 9_007_199_254_740_992.0;

pub struct Label {
    pub text: String,
    /// Whether the rounded decimals fill up to a one.
    pub fills_up: bool,
}

fn refused(asked: Asked) -> Result<(), i32> {
    let Asked { n, h, e } = asked;
    let printable = -TOO_LARGE < n && n < TOO_LARGE;
    printable.then_some(()).ok_or(11)?;
    (h <= 10 && e <= 20).then_some(()).ok_or(12)
}

/// The number at the last level, before it is put back under the floors that were left.
fn last(n: f64, tolerance: f64) -> Option<f64> {
    let reached = tolerance >= 1.0;
    let (down, up) = (n.floor(), n.ceil());
    let near = [(n - down, down), (up - n, up)];
    let near = near.iter().find(|(distance, _)| *distance < tolerance);
    reached.then_some(n).or(near.map(|&(_, whole)| whole))
}

/// The number shortened with this tolerance, and how many levels it took.
fn shortened(mut n: f64, mut tolerance: f64) -> (f64, usize) {
    let mut floors = Vec::new();
    let found = loop {
        if let Some(found) = last(n, tolerance) {
            break found;
        }
        floors.push(n.floor());
        n = (n - n.floor()) * 10.0;
        tolerance *= 10.0;
    };
    let back = floors.iter().rev();
    let value = back.fold(found, |below, floor| floor + below / 10.0);
    (value, floors.len())
}

/// A text whose digits are all zero carries no minus sign; any other is the text that it was.
pub fn zero_unsigned(text: String) -> String {
    let zeros = !text.contains(|c: char| ('1'..='9').contains(&c));
    match text.strip_prefix('-') {
        Some(rest) if zeros => rest.into(),
        _ => text,
    }
}

/// The text of a shortened number with at least e decimals, its sign as it is.
fn text_of((value, levels): (f64, usize), e: u32) -> Label {
    let size = value.abs();
    let one = 10u64.pow(levels as u32);
    let decimals = match levels {
        0 => 0,
        _ => ((size - size.floor()) * one as f64).round() as u64,
    };
    let fills_up = decimals >= one;
    let whole = size.floor() as u64 + u64::from(fills_up);
    let mut shown = match fills_up || levels == 0 {
        true => String::new(),
        false => format!("{decimals:0levels$}"),
    };
    shown.truncate(shown.trim_end_matches('0').len());
    while shown.len() < e as usize {
        shown.push('0');
    }
    let sign = if value.is_sign_negative() { "-" } else { "" };
    let point = if shown.is_empty() { "" } else { "." };
    let text = format!("{sign}{whole}{point}{shown}");
    Label { text, fills_up }
}

/// What a label's number is shortened to.
fn plain(asked: Asked) -> (f64, usize) {
    shortened(asked.n, 1.0 / 10u64.pow(asked.h) as f64)
}

pub fn label(asked: Asked) -> Result<Label, i32> {
    refused(asked)?;
    let Label { text, fills_up } = text_of(plain(asked), asked.e);
    let text = zero_unsigned(text);
    Ok(Label { text, fills_up })
}

/// The scientific label, from the request's own words.
pub fn scientific(asked: Asked) -> Result<Label, i32> {
    refused(asked)?;
    let (n, size) = (asked.n, asked.n.abs());
    if n == 0.0 {
        let text = "0".into();
        return Ok(Label { text, fills_up: false });
    }
    if size < POWERS[0] {
        return Err(28);
    }
    let place = POWERS.iter().rposition(|&power| power <= size).expect("28");
    let (mut exponent, mut power) = (place as i32 - 307, POWERS[place]);
    if size / power + 0.00001 >= 10.0 {
        exponent += 1;
        power *= 10.0;
    }
    if exponent.abs() < 3 {
        return label(asked);
    }
    let short = text_of(shortened(n / power, 0.00001), asked.e);
    let long = text_of(plain(asked), asked.e);
    let text = format!("{}e{exponent}", short.text);
    let chosen = text.len() + 1 < long.text.len() || plain(asked).0 == 0.0;
    let fills_up = short.fills_up || long.fills_up;
    let text = if chosen { text } else { zero_unsigned(long.text) };
    Ok(Label { text, fills_up })
}
