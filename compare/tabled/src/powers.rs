//! What is put into plotters' files: the decade of a number, from the table of crates/decades as its source has it.

pub static POWERS: [f64; 616] = include!("powers.in");

/// Where the greatest of the powers stands that is not above x; the first where there is none.
fn place(x: f64) -> usize {
    POWERS.partition_point(|&power| power <= x).max(1) - 1
}

pub fn decade(x: f64) -> f64 {
    POWERS[place(x)]
}

/// Its exponent: the table begins with 10^-307.
pub fn exponent(x: f64) -> f64 {
    place(x) as f64 - 307.0
}
