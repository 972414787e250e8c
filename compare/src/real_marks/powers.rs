//! The table of powers of ten beside Rust's parser: as the code has it, as its proof has it, and as it is put into
//! plotters.

use super::rule::parsed;
use crate::tally::{ensure, Tally};

const CODE: &str = include_str!("../../../crates/decades/src/lib.rt");
const PROOF: &str = include_str!("../../../crates/decades/proofs/Table.antt");

/// What stands in a text from one mark up to another.
fn between<'a>(text: &'a str, from: &str, to: &str) -> &'a str {
    let start = text.find(from).expect("the table's beginning") + from.len();
    let end = text[start..].find(to).expect("the table's end");
    &text[start..start + end]
}

fn words<'a>(text: &'a str, split: &'a str) -> impl Iterator<Item = &'a str> {
    text.split(split)
        .map(str::trim)
        .filter(|word| !word.is_empty())
}

pub fn compare() -> bool {
    let code = between(CODE, "const POWERS: [f64; 616] = [", "];");
    let code: Vec<f64> = words(code, ",").map(|word| word.parse().unwrap()).collect();
    let proof = between(PROOF, "\ntable =", "[]");
    let proof: Vec<u64> = words(proof, "∷")
        .map(|word| word.parse().unwrap())
        .collect();
    let put_in = &tabled::powers::POWERS;
    let mut tally = Tally::new("powers of ten beside Rust's parser");
    for (k, exponent) in (-307..=308).enumerate() {
        let bits = Some(parsed(exponent).to_bits());
        let code = code.get(k).map(|power| power.to_bits());
        let put_in = put_in.get(k).map(|power| power.to_bits());
        let same = code == bits && proof.get(k).copied() == bits && put_in == bits;
        let found = ensure(same, || "another double".into());
        tally.count(k as u128, format!("10^{exponent}"), found);
    }
    let whole = [code.len(), proof.len(), put_in.len()] == [616; 3];
    tally.close() && whole
}
