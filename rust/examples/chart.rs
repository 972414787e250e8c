//! Sets and pulls pins on the chart of a stepped list, one after the other, and prints what became
//! of each; then the entries that have pins.
//!
//!     chart [a b d [set|pull pin]...]

use std::env;
use std::process::ExitCode;

use culvraod::{Chart, Linspacei32, RangedCoordi32, Refusal};

const SHOWN: &str =
    "0 100 10 set 34 set 38 pull 30 pull 29 set -1 set 1000 set 90 pull -2147483648";

fn open(axis: Linspacei32) -> Result<Chart, Refusal> {
    let RangedCoordi32(a, b) = axis.inner;
    print!("{a}..{b} by {}: ", axis.step);
    let told = Chart::new(axis);
    match &told {
        Ok(_) => println!("{} entries", axis.size()?),
        Err(refusal) => println!("refused {}", refusal.number()),
    }
    told
}

fn act(chart: &mut Chart, deed: &str, pin: i32) {
    let told = match deed {
        "set" => chart.set(pin),
        _ => chart.pull(pin),
    };
    match told {
        Ok(()) => println!("{deed} {pin}: done"),
        Err(refusal) => println!("{deed} {pin}: refused {}", refusal.number()),
    }
}

fn print_pins(chart: &Chart) -> Result<(), Refusal> {
    let pinned = (0..).zip(chart.counts()).filter(|&(_, &count)| count > 0);
    for (k, count) in pinned {
        if let Some(entry) = chart.axis().from_index(k)? {
            println!("entry {k}, {entry}: {count}");
        }
    }
    Ok(())
}

fn run(words: &[String]) -> Result<(), Refusal> {
    let number = |word: &String| word.parse().expect("no number");
    let [a, b, d] = [0, 1, 2].map(|at| number(&words[at]));
    let mut chart = open(RangedCoordi32(a, b).step(d))?;
    for pair in words[3..].chunks_exact(2) {
        act(&mut chart, &pair[0], number(&pair[1]));
    }
    print_pins(&chart)
}

fn main() -> ExitCode {
    let given: Vec<String> = env::args().skip(1).collect();
    let shown: Vec<String> = SHOWN.split(' ').map(String::from).collect();
    let words = if given.len() < 3 { shown } else { given };
    match run(&words) {
        Ok(()) => ExitCode::SUCCESS,
        Err(_) => ExitCode::FAILURE,
    }
}
