//! Times of two calls, taken in turns.

use std::hint::black_box;
use std::time::Instant;

pub const HEADING: &str = "\
# Medians of 21 repetitions, both sides in turns, all built for release. Ours is the C function
# itself. Lists lent to it are made once and not cleared between calls; plotters makes a new Vec or
# String in every call. Calls that answer with one number, and labels, are timed in a batch of a
# million ordinary inputs, of fifty thousand on stepped axes, the same for both. The compiler may
# inline what plotters does, but not a C function; so plotters is timed behind a call as well. On a
# stepped axis, with segments or without, plotters makes the list in every call; in a lent list it
# searches without a look at the order that ours tests. Segments stand on whole axes of 2 to 101
# values and on stepped ones of 10 to 100 entries; plotters makes the axis in every call, and half
# of the places are centers. Pins are timed in a batch of fifty thousand on one axis, of which
# plotters has its list made before; it searches that and changes a count.";

const REPETITIONS: usize = 21;
const AT_LEAST: f64 = 2e6;

/// Nanoseconds a call, over `n` calls.
fn time(n: u64, call: &mut dyn FnMut(u64)) -> f64 {
    let start = Instant::now();
    call(n);
    start.elapsed().as_nanos() as f64 / n as f64
}

/// A number of calls that takes long enough to be timed.
fn enough(call: &mut dyn FnMut(u64)) -> u64 {
    let mut n = 1;
    while time(n, call) * (n as f64) < AT_LEAST {
        n *= 2;
    }
    n
}

fn median(mut times: Vec<f64>) -> f64 {
    times.sort_by(f64::total_cmp);
    times[times.len() / 2]
}

/// The median time of each side, which are timed in turns.
fn in_turns<const N: usize>(calls: [u64; N], mut sides: [&mut dyn FnMut(u64); N]) -> [f64; N] {
    let mut times = [(); N].map(|()| Vec::new());
    for _ in 0..REPETITIONS {
        for ((times, n), side) in times.iter_mut().zip(calls).zip(&mut sides) {
            times.push(time(n, side));
        }
    }
    times.map(median)
}

/// Prints the times of both sides; each is told how often to make its call.
pub fn report(title: &str, mut ours: impl FnMut(u64), mut plotters: impl FnMut(u64)) {
    let calls = [enough(&mut ours), enough(&mut plotters)];
    let [ours, plotters] = in_turns(calls, [&mut ours, &mut plotters]);
    let ratio = ours / plotters;
    println!("{title}: ours {ours:.1} ns, plotters {plotters:.1} ns, ratio {ratio:.2}");
}

/// Prints the times of two calls of ours, by their names.
pub fn report_two(
    title: &str,
    (one, mut first): (&str, impl FnMut(u64)),
    (other, mut second): (&str, impl FnMut(u64)),
) {
    let calls = [enough(&mut first), enough(&mut second)];
    let [first, second] = in_turns(calls, [&mut first, &mut second]);
    let ratio = first / second;
    println!("{title}: {one} {first:.1} ns, {other} {second:.1} ns, ratio {ratio:.2}");
}

/// Calls a C function that writes to a lent list, and gives what it returned and what it told beside
/// the list. The compiler may not leave the call out, nor put one of its own around it.
#[inline(always)]
pub fn written<N, T: Default>(
    out: &mut [N],
    call: impl FnOnce(&mut [N], &mut T) -> i32,
) -> (i32, T) {
    let mut told = T::default();
    let code = black_box(call(black_box(out), &mut told));
    black_box(&told);
    (code, told)
}

/// Prints the times of a C function that writes to a lent list of so many entries, beside plotters
/// on the same input.
///
/// # Panics
/// If the C function does not answer.
pub fn report_written<I: Copy, N: Copy + Default, T: Default, P>(
    title: &str,
    input: I,
    len: usize,
    ours: impl Fn(I, &mut [N], &mut T) -> i32,
    mut plotters: impl FnMut(I) -> P,
) {
    let out = &mut vec![N::default(); len];
    let mut last_code = |n| {
        let mut code = 0;
        for _ in 0..n {
            (code, _) = written(out, |out, told| ours(black_box(input), out, told));
        }
        code
    };
    assert_eq!(last_code(1), 0, "{title}");
    let plotters = |n| {
        for _ in 0..n {
            black_box(plotters(black_box(input)));
        }
    };
    report(title, |n| _ = last_code(n), plotters);
}

/// Prints the times of sides that make `n` calls whatever they are told: ours, plotters inlined,
/// and plotters behind a call.
pub fn report_batch(title: &str, n: u64, sides: [&mut dyn FnMut(); 3]) {
    let [ours, plotters, behind] = sides;
    let [ours, plotters, behind] = in_turns(
        [n; 3],
        [&mut |_| ours(), &mut |_| plotters(), &mut |_| behind()],
    );
    let (ratio, fair) = (ours / plotters, ours / behind);
    println!(
        "{title}: ours {ours:.1} ns, plotters {plotters:.1} ns, ratio {ratio:.2}; \
         plotters behind a call {behind:.1} ns, ratio {fair:.2}"
    );
}

/// Prints the times of two sides that make `n` calls whatever they are told: ours, and one that
/// has this name.
pub fn report_beside(title: &str, name: &str, n: u64, sides: [&mut dyn FnMut(); 2]) {
    let [ours, other] = sides;
    let [ours, other] = in_turns([n; 2], [&mut |_| ours(), &mut |_| other()]);
    let ratio = ours / other;
    println!("{title}: ours {ours:.1} ns, {name} {other:.1} ns, ratio {ratio:.2}");
}

/// Prints the time of one call.
pub fn report_alone(title: &str, mut call: impl FnMut(u64)) {
    let n = enough(&mut call);
    let times = (0..REPETITIONS).map(|_| time(n, &mut call)).collect();
    println!("{title}: {:.1} ns", median(times));
}
