//! The running week, beside a count minute by minute: plotters has none.

use std::fmt;
use std::hint::black_box;

use culvraod::week::{self, culv_week_clock, culv_week_running};
use culvraod::Refusal;

use crate::call::{Answer, Told};
use crate::lent::Lent;
use crate::random::Random;
use crate::tally::{ensure, Tally};
use crate::timing::report_alone;

/// How many weeks of up to 33 windows are drawn.
const DRAWN: usize = 200_000;
/// Numbers of the short day: all lists of up to six of them are compared.
const SHORT: u32 = 9;

/// The minute after the week's last.
const END: u32 = 10_080;

/// Numbers that are to be windows, and a minute.
#[derive(Clone, Copy)]
struct Asked<'a> {
    numbers: &'a [u32],
    minute: u32,
}

impl fmt::Display for Asked<'_> {
    fn fmt(&self, f: &mut fmt::Formatter<'_>) -> fmt::Result {
        write!(f, "windows {:?}, minute {}", self.numbers, self.minute)
    }
}

impl Asked<'_> {
    fn bad(&self) -> bool {
        let windows = || self.numbers.chunks_exact(2);
        self.numbers.len() % 2 == 1
            || windows().len() > 32
            || windows().any(|w| w[1] <= w[0] || END < w[1])
            || windows().zip(windows().skip(1)).any(|(v, w)| w[0] <= v[1])
    }

    fn runs(&self, minute: u32) -> bool {
        let mut windows = self.numbers.chunks_exact(2);
        windows.any(|w| w[0] <= minute && minute < w[1])
    }

    /// The rule, from the request's own words: window minutes are counted one by one.
    fn running(&self) -> Answer<u32> {
        if self.bad() {
            return Err(26);
        }
        if END <= self.minute {
            return Err(27);
        }
        let before = (0..self.minute).filter(|&minute| self.runs(minute)).count();
        Ok(self.runs(self.minute).then_some(before as u32))
    }

    /// The minute of the week that has so many window minutes before it. No minute behind the last
    /// window lies in one.
    fn clock(&self) -> Answer<u32> {
        if self.bad() {
            return Err(26);
        }
        let end = self.numbers.last().copied().unwrap_or(0);
        let mut running = (0..end).filter(|&minute| self.runs(minute));
        Ok(running.nth(self.minute as usize))
    }

    /// As pairs, where no number stands alone.
    fn pairs(&self) -> Option<Vec<(u32, u32)>> {
        let pairs = self.numbers.chunks_exact(2);
        let whole = pairs.remainder().is_empty();
        whole.then(|| pairs.map(|w| (w[0], w[1])).collect())
    }
}

type Function = unsafe extern "C" fn(*const u32, usize, u32, *mut u32) -> i32;
type Safe = fn(&[(u32, u32)], u32) -> Result<Option<u32>, Refusal>;

/// Makes one of the two calls, and holds its answer and all memory in reach against the rule.
fn check(
    asked: Asked,
    wanted: Answer<u32>,
    function: Function,
    safe: Safe,
    cell: &mut Lent<u32>,
) -> Result<(), String> {
    let wanted = Told::from(wanted);
    cell.refill(1);
    // SAFETY: the windows have the length that is passed, and the cell is one number.
    let code = unsafe {
        let (start, len) = (asked.numbers.as_ptr(), asked.numbers.len());
        function(start, len, asked.minute, cell.pointer())
    };
    let given = cell.list()[0];
    let kept = match wanted {
        Told::Given(_) => cell.holds(&[given]) && Told::Given(given.into()) == wanted,
        _ => cell.holds(&[]),
    };
    ensure(code == wanted.code() && kept, || {
        format!("returned {code} and gave {given}, wanted {wanted}, or memory was written to")
    })?;
    if let Some(pairs) = asked.pairs() {
        let told: Told = safe(&pairs, asked.minute).map_err(Refusal::number).into();
        ensure(told == wanted, || {
            format!("safe call: {told}, wanted {wanted}")
        })?;
    }
    Ok(())
}

/// Both calls on these windows, at each of the minutes.
fn compare_at(numbers: &[u32], minutes: &[u32], tallies: &mut [Tally; 2], cell: &mut Lent<u32>) {
    let [running, clock] = tallies;
    let size: u128 = numbers.iter().map(|&n| u128::from(n)).sum();
    for &minute in minutes {
        let asked = Asked { numbers, minute };
        let found = check(
            asked,
            asked.running(),
            culv_week_running,
            week::running,
            cell,
        );
        running.count(size, asked, found);
        let found = check(asked, asked.clock(), culv_week_clock, week::clock, cell);
        clock.count(size, asked, found);
    }
}

/// All lists of `len` numbers below `SHORT`, one after the other.
fn short_lists(len: u32) -> impl Iterator<Item = Vec<u32>> {
    (0..SHORT.pow(len)).map(move |at| (0..len).map(|k| at / SHORT.pow(k) % SHORT).collect())
}

/// A week of so many windows, spread over its minutes, the last perhaps to its end.
fn drawn(random: &mut Random, windows: usize) -> Vec<u32> {
    let mut numbers: Vec<u32> = (0..2 * windows)
        .map(|_| random.below(u64::from(END) + 1) as u32)
        .collect();
    if random.below(4) == 0 {
        numbers.push(END);
        numbers.push(0);
    }
    numbers.sort_unstable();
    numbers
}

/// One number changed by one, one left out, or another number of windows.
fn damaged(random: &mut Random, mut numbers: Vec<u32>) -> Vec<u32> {
    if numbers.is_empty() {
        return vec![random.below(3) as u32];
    }
    let at = random.below(numbers.len() as u64) as usize;
    match random.below(4) {
        0 => numbers[at] = numbers[at].wrapping_add(1),
        1 => numbers[at] = numbers[at].wrapping_sub(1),
        2 => _ = numbers.remove(at),
        _ => numbers.swap(0, at),
    }
    numbers
}

/// Minutes at the windows' borders, at the total, and at the week's end.
fn minutes(numbers: &[u32]) -> Vec<u32> {
    let lengths = numbers.chunks_exact(2).map(|w| w[1].wrapping_sub(w[0]));
    let total = lengths.fold(0u32, u32::wrapping_add);
    let borders = numbers.iter().copied();
    let near = borders.chain([0, total, END]);
    near.flat_map(|n| [n.wrapping_sub(1), n, n.wrapping_add(1)])
        .collect()
}

pub fn compare() -> bool {
    let mut tallies = ["week_running", "week_clock"].map(Tally::new);
    let cell = &mut Lent::new();
    let short: Vec<u32> = (0..=SHORT).chain([END - 1, END, u32::MAX]).collect();
    for numbers in (0..=6).flat_map(short_lists) {
        compare_at(&numbers, &short, &mut tallies, cell);
    }
    let random = &mut Random::new();
    for at in 0..DRAWN {
        let windows = random.pick(&[1, 2, 5, 31, 32, 33]);
        let mut numbers = drawn(random, windows);
        if at % 2 == 1 {
            numbers = damaged(random, numbers);
        }
        let all = minutes(&numbers);
        let some = [(); 6].map(|()| random.pick(&all));
        compare_at(&numbers, &some, &mut tallies, cell);
    }
    let agree = tallies.map(Tally::close);
    agree[0] && agree[1]
}

/// Both calls on a week of 32 windows, at every minute in turn.
pub fn bench() {
    let windows: Vec<u32> = (0..32).flat_map(|at| [315 * at, 315 * at + 240]).collect();
    let calls: [(&str, Function); 2] = [
        ("week_running, 32 windows", culv_week_running),
        ("week_clock, 32 windows", culv_week_clock),
    ];
    for (title, function) in calls {
        let mut at = 0;
        report_alone(title, |n| {
            for _ in 0..n {
                at = (at + 1) % 7_680;
                let mut told = 0;
                // SAFETY: the windows have the length that is passed, and the result is a local.
                let code = unsafe { function(windows.as_ptr(), windows.len(), at, &mut told) };
                black_box((code, told));
            }
        });
    }
}
