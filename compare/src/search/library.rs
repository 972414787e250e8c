//! Searches of culvraod.

use culvraod::search::{culv_search_real, culv_search_whole};
use culvraod::{search_real, search_whole, Refusal, RoundingMethod};
use std::hint::black_box;

use super::cases::{self, Lists};
use super::rule::{DOWN, EXACT, NEAREST, UP};
use super::Search;
use crate::beside::{self, check, size, timed, told, Library as _, Negated};
use crate::call::{Call, Shown};
use crate::lent::{Fill, Lent};
use crate::random::Random;
use crate::tally::{ensure, Tally};
use crate::timing::report;

/// How many random lists are made; each is searched by every method, for some targets.
const DRAWN: usize = 1_500_000;
const TARGETS: usize = 2;

/// Every method, and some numbers that are none.
const METHODS: [u32; 6] = [EXACT, UP, DOWN, NEAREST, NEAREST + 1, u32::MAX];

type Safe<N> = fn(&[N], N, RoundingMethod) -> Result<Option<u64>, Refusal>;
type Function<N> = unsafe extern "C" fn(*const N, usize, N, u32, *mut u64) -> i32;

/// The searches of a kind of list: the safe one, and the C function itself.
trait Library: Lists + Fill + Negated {
    const CALL: &'static str;
    const SAFE: Safe<Self>;
    const FUNCTION: Function<Self>;
}

impl Library for i32 {
    const CALL: &'static str = "search_whole";
    const SAFE: Safe<i32> = search_whole;
    const FUNCTION: Function<i32> = culv_search_whole;
}

impl Library for f64 {
    const CALL: &'static str = "search_real";
    const SAFE: Safe<f64> = search_real;
    const FUNCTION: Function<f64> = culv_search_real;
}

/// The method with this number; where there is none, what C refuses it with.
pub fn chosen(method: u32) -> Result<RoundingMethod, Refusal> {
    match method {
        EXACT => Ok(RoundingMethod::Exact),
        UP => Ok(RoundingMethod::Ceil),
        DOWN => Ok(RoundingMethod::Floor),
        NEAREST => Ok(RoundingMethod::Round),
        _ => Err(Refusal::WholeNotAdmitted),
    }
}

/// The method of the mirror: up and down are exchanged.
pub fn exchanged(method: u32) -> u32 {
    match method {
        UP => DOWN,
        DOWN => UP,
        _ => method,
    }
}

impl<N: Library> beside::Library for Search<'_, N> {
    const CALL: &'static str = N::CALL;

    fn safe(self) -> Result<Option<u64>, Refusal> {
        chosen(self.method).and_then(|method| (N::SAFE)(self.list, self.target, method))
    }

    unsafe fn function(self, k: *mut u64) -> i32 {
        let (start, len) = (self.list.as_ptr(), self.list.len());
        (N::FUNCTION)(start, len, self.target, self.method, k)
    }
}

/// The same search of the mirrored list for the mirrored target.
fn check_mirror<N: Library>(search: Search<N>, list: &[N], target: N) -> Result<(), String> {
    let mirror = Search {
        list,
        target,
        method: exchanged(search.method),
    };
    let (one, other) = (told(search.safe()), told(mirror.safe()));
    ensure(one == other, || format!("{one}, mirror {other}"))
}

struct Run<N> {
    tally: Tally,
    mirrored: Tally,
    lent: Lent<N>,
    index: Lent<u64>,
}

impl<N: Library> Run<N> {
    fn new() -> Run<N> {
        Run {
            tally: Tally::new(N::CALL),
            mirrored: Tally::new(format!("{} beside its mirror", N::CALL)),
            lent: Lent::new(),
            index: Lent::new(),
        }
    }

    /// Searches a list and its mirror for every target, by every method.
    fn list(&mut self, list: &[N], targets: &[N]) {
        self.lent.refill(list.len());
        self.lent.list().copy_from_slice(list);
        let mirror: Option<Vec<N>> = list.iter().map(|entry| entry.negated()).collect();
        for (&target, method) in targets.iter().flat_map(|t| METHODS.map(|m| (t, m))) {
            let search = Search {
                list: self.lent.entries(),
                target,
                method,
            };
            let found = check(search, &mut self.index)
                .and_then(|()| ensure(self.lent.holds(list), || "the list was written to".into()));
            self.tally.count(size(search), Shown(search), found);
            if let (Some(mirror), Some(target)) = (&mirror, target.negated()) {
                let found = check_mirror(search, mirror, target);
                self.mirrored.count(size(search), Shown(search), found);
            }
        }
    }

    /// All lists of these entries with at most so many, for all of them as targets.
    fn all(&mut self, entries: &[N], most: u32) {
        for len in 0..=most {
            for number in 0..entries.len().pow(len) {
                let digit = |place| number / entries.len().pow(place) % entries.len();
                let list: Vec<N> = (0..len).map(|place| entries[digit(place)]).collect();
                self.list(&list, entries);
            }
        }
    }

    fn random(&mut self, random: &mut Random) {
        let len = length(random);
        let list = cases::list(random, len);
        let targets = [(); TARGETS].map(|()| cases::target(random, &list));
        self.list(&list, &targets);
    }
}

/// How long a random list is: short as a rule, so that there can be many.
fn length(random: &mut Random) -> usize {
    let most = match random.below(100_000) {
        0 => 200_000,
        1..=9 => 10_000,
        10..=999 => 500,
        _ => 14,
    };
    random.below(most) as usize
}

fn run<N: Library>() -> bool {
    let mut run = Run::<N>::new();
    run.all(N::SMALL, 4);
    run.all(N::EDGES, 3);
    let random = &mut Random::new();
    (0..DRAWN).for_each(|_| run.random(random));
    run.tally.close() & run.mirrored.close()
}

pub fn compare() -> bool {
    run::<i32>() & run::<f64>()
}

/// Times searches of a list for targets all over it, ours beside plotters' bare search.
fn time<N: Library>(len: usize, method: u32) {
    let mut random = Random::fixed(1);
    let list: Vec<N> = (0..len as i32).map(|k| N::whole(3 * k)).collect();
    let targets = [(); 1 << 10].map(|()| N::whole(random.below(3 * len as u64) as i32));
    let title = format!("{} of {len} entries, method {method}", N::CALL);
    let search = |target| Search {
        list: black_box(&list),
        target,
        method,
    };
    let answered = |target| timed(&search(target)) <= 0;
    assert!(targets.into_iter().all(answered), "{title}");
    let [mut targets, mut others] = [(); 2].map(|()| targets.iter().copied().cycle());
    let ours = |n| {
        for _ in 0..n {
            timed(&search(targets.next().unwrap()));
        }
    };
    let plotters = |n| {
        for _ in 0..n {
            black_box(search(others.next().unwrap()).plotters());
        }
    };
    report(&title, ours, plotters);
}

pub fn bench() {
    for len in [10, 100, 1_000, 65_536] {
        for method in [EXACT, UP, NEAREST] {
            time::<i32>(len, method);
            time::<f64>(len, method);
        }
    }
}
