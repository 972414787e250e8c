//! Writes three borders on one film under one mark limit, and reads them back, each where the one
//! before it ends: `cargo run --example film`.

use culvraod::film::{self, Border};
use culvraod::ruler::{self, Ruler, Twist};
use culvraod::{Limit, RangedCoordi32, Refusal};

/// The ruler that a film begins with, and its length: of the lengths that a ruler of kind 6 can
/// have, only its own is read.
fn first(film: &[u8]) -> Option<(Ruler, usize)> {
    let mut lengths = (26..=film.len()).step_by(20);
    lengths.find_map(|len| Some((ruler::read(&film[..len]).ok()?, len)))
}

fn main() -> Result<(), Refusal> {
    let border = |a, b, twist| Border {
        axis: RangedCoordi32(a, b),
        limit: Limit(0, 120),
        twist,
    };
    let borders = [
        border(-15, -3, Twist::S),
        border(3, 15, Twist::Z),
        border(0, 1_000, Twist::S),
    ];
    let mut out = [0; 1_000];
    let written = film::write(&borders, 14, &mut out)?;
    println!("{} bytes, {} marks", written.bytes, written.marks);

    let mut film = &out[..written.bytes];
    while let Some((ruler, len)) = first(film) {
        let RangedCoordi32(a, b) = ruler.axis;
        println!(
            "{a}..{b} {:?}: at most {} marks and one more, {} at a step of {}",
            ruler.twist.unwrap(),
            ruler.m,
            ruler.marks,
            ruler.step
        );
        film = &film[len..];
    }
    assert!(film.is_empty());
    Ok(())
}
