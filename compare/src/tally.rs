//! Counts of what was compared and what differs.

use std::fmt::Display;

/// How many differing inputs are printed.
const SHOWN: usize = 5;

/// What is to hold, and what to say if it does not.
pub fn ensure(holds: bool, what: impl FnOnce() -> String) -> Result<(), String> {
    if holds {
        Ok(())
    } else {
        Err(what())
    }
}

pub struct Tally {
    call: String,
    compared: u64,
    differ: u64,
    smallest: Vec<(u128, String)>,
}

impl Tally {
    pub fn new(call: impl Into<String>) -> Tally {
        Tally {
            call: call.into(),
            compared: 0,
            differ: 0,
            smallest: Vec::new(),
        }
    }

    /// Counts one input, of the given size, and what was found to differ on it.
    pub fn count(&mut self, size: u128, input: impl Display, found: Result<(), String>) {
        self.compared += 1;
        let Err(what) = found else { return };
        self.differ += 1;
        if self.smallest.len() < SHOWN || size < self.smallest[SHOWN - 1].0 {
            self.smallest.push((size, format!("{input}: {what}")));
            self.smallest.sort();
            self.smallest.dedup();
            self.smallest.truncate(SHOWN);
        }
    }

    /// Prints the counts and the smallest differing inputs; true if nothing differs.
    pub fn close(self) -> bool {
        println!(
            "{}: {} compared, {} differ",
            self.call, self.compared, self.differ
        );
        self.smallest
            .iter()
            .for_each(|(_, shown)| println!("  {shown}"));
        self.compared > 0 && self.differ == 0
    }
}
