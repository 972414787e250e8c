//! A call of culvraod that answers with one number, beside the rule and plotters.

use culvraod::Refusal;
use std::hint::black_box;

use crate::call::{wanted, Answer, Call, Shown, Told};
use crate::cases::{all, Cases};
use crate::lent::{Fill, Lent};
use crate::number::Number;
use crate::random::Random;
use crate::tally::{ensure, Tally};
use crate::timing::report_batch;

/// A call as culvraod has it: the safe one, and the C function itself.
pub trait Library: Call<Number: Fill> {
    const CALL: &'static str;
    /// How many random inputs are compared.
    const DRAWN: usize = 100_000_000;
    /// How many calls are timed.
    const BATCH: usize = 1_000_000;

    fn safe(self) -> Result<Option<Self::Number>, Refusal>;

    /// # Safety
    /// `out` must point to a number.
    unsafe fn function(self, out: *mut Self::Number) -> i32;
}

/// A call whose C function takes the parts of its input: what it gives, its name, the C function,
/// and the safe call with the parts.
macro_rules! library {
    (
        $input:ident $(<$kind:ident>)? { $($part:ident),* } -> $number:ident,
        $name:literal, $function:ident, $safe:expr
    ) => {
        impl $crate::beside::Library for $input $(<$kind>)? {
            const CALL: &'static str = $name;

            fn safe(self) -> Result<Option<$number>, culvraod::Refusal> {
                let $input { $($part),* } = self;
                $safe
            }

            unsafe fn function(self, out: *mut $number) -> i32 {
                let $input { $($part),* } = self;
                $function($($part),*, out)
            }
        }
    };
}
pub(crate) use library;

pub fn told<N: Into<Number>>(safe: Result<Option<N>, Refusal>) -> Told {
    let answer: Answer<N> = safe.map_err(Refusal::number);
    answer.into()
}

/// Calls the C function and holds its answer and all memory in reach against what is wanted.
fn by_function<C: Library>(
    call: C,
    cell: &mut Lent<C::Number>,
    wanted: Told,
) -> Result<(), String> {
    cell.refill(1);
    // SAFETY: the pointer is that of a list of one number.
    let code = unsafe { call.function(cell.pointer()) };
    let given = cell.list()[0];
    let found = |what: &str| match code {
        0 => format!("gave {}, wanted {wanted}{what}", given.into()),
        _ => format!("returned {code}, wanted {wanted}{what}"),
    };
    ensure(code == wanted.code(), || found(""))?;
    let kept = match wanted {
        Told::Given(number) => {
            ensure(given.into() == number, || found(""))?;
            cell.holds(&[given])
        }
        _ => cell.holds(&[]),
    };
    ensure(kept, || found("; memory was written to"))
}

/// Makes both calls.
pub fn check<C: Library>(call: C, cell: &mut Lent<C::Number>) -> Result<(), String> {
    let wanted = wanted(call)?;
    by_function(call, cell, wanted)?;
    let safe = told(call.safe());
    ensure(safe == wanted, || {
        format!("safe call: {safe}, wanted {wanted}")
    })
}

/// A measure by which the smallest of several differing inputs is shown first.
pub fn size<C: Call>(call: C) -> u128 {
    call.fields().map(|(_, number)| number.size()).sum()
}

/// All corners, all small inputs, and so many at random.
fn inputs<C: Cases>(drawn: usize) -> impl Iterator<Item = C> {
    let mut random = Random::new();
    let worked = C::WORKED.iter().copied();
    let picked = all(|pick| C::picked(pick));
    let drawn = (0..drawn).map(move |_| C::drawn(&mut random));
    worked.chain(picked).chain(drawn)
}

pub fn compare<C: Library + Cases>() -> bool {
    let mut tally = Tally::new(C::CALL);
    let cell = &mut Lent::new();
    inputs::<C>(C::DRAWN).for_each(|call| tally.count(size(call), Shown(call), check(call, cell)));
    tally.close()
}

/// A part of an input, which the mirrored input has negated.
pub trait Negated: Copy {
    /// All its numbers negated, if their types can hold that.
    fn negated(self) -> Option<Self>;
}

impl Negated for i32 {
    fn negated(self) -> Option<i32> {
        self.checked_neg()
    }
}

impl Negated for f64 {
    fn negated(self) -> Option<f64> {
        Some(-self)
    }
}

/// A call that the mirror theorem covers.
pub trait Mirrored: Library + Cases {
    /// How many random inputs are compared with their mirror.
    const MIRRORED: usize = 30_000_000;
    /// Whether both give the same number, and not one that is the other negated.
    const SAME: bool = false;

    /// The mirrored input, if the type can hold it and the theorem covers it.
    fn mirror(self) -> Option<Self>;

    /// What the mirrored input gives where this is no number.
    fn across(told: Told) -> Told {
        told
    }
}

fn check_mirror<C: Mirrored>(call: C, mirror: C) -> Result<(), String> {
    let (one, other) = (told(call.safe()), told(mirror.safe()));
    let holds = match (one, other) {
        (Told::Given(one), Told::Given(other)) if !C::SAME => one.mirrors(other),
        _ => C::across(one) == other,
    };
    ensure(holds, || format!("{one}, mirror {other}"))
}

/// The mirror theorem on culvraod's own answers.
pub fn compare_mirror<C: Mirrored>() -> bool {
    let mut tally = Tally::new(format!("{} beside its mirror", C::CALL));
    inputs::<C>(C::MIRRORED)
        .filter_map(|call| call.mirror().map(|mirror| (call, mirror)))
        .for_each(|(call, mirror)| {
            tally.count(size(call), Shown(call), check_mirror(call, mirror));
        });
    tally.close()
}

/// plotters' call where the compiler may not inline it, as it may not the C function.
#[inline(never)]
fn behind_a_call<C: Call>(call: &C) -> Option<C::Number> {
    call.plotters()
}

/// Calls the C function, and nothing else that the compiler may not inline.
#[inline(always)]
pub fn timed<C: Library>(call: &C) -> i32 {
    let mut out = C::Number::fill(0);
    // SAFETY: the pointer is that of a local number.
    let code = black_box(unsafe { call.function(&mut out) });
    // By reference: a copy of two numbers as one would wait for both stores.
    black_box(&out);
    code
}

/// Times a batch of ordinary calls, the C function beside plotters.
///
/// # Panics
/// If one of them is refused.
pub fn bench<C: Library + Cases>() {
    let mut random = Random::fixed(1);
    let batch: Vec<C> = (0..C::BATCH).map(|_| C::ordinary(&mut random)).collect();
    assert!(batch.iter().all(|call| timed(call) <= 0), "{}", C::CALL);
    let ours = || {
        for call in black_box(&batch) {
            timed(call);
        }
    };
    let plotters = || {
        for call in black_box(&batch) {
            black_box(call.plotters());
        }
    };
    let behind = || {
        for call in black_box(&batch) {
            black_box(behind_a_call(call));
        }
    };
    report_batch(
        C::CALL,
        C::BATCH as u64,
        [&mut { ours }, &mut { plotters }, &mut { behind }],
    );
}
