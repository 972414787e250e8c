//! A call of culvraod that writes a list to lent memory, beside the rule and plotters.

use culvraod::Refusal;

use crate::lent::{lengths, Fill, Lent};
use crate::number::Number;
use crate::tally::{ensure, Tally};
use crate::written::{wanted, Writes, Written};

/// A call as culvraod has it: the safe one, and the C function itself.
pub trait Lends: Copy {
    type Entry: Fill;

    /// The step, where the call tells it, and the number of entries.
    fn safe(self, out: &mut [Self::Entry]) -> Result<(Option<Self::Entry>, usize), Refusal>;

    /// `out_len` is a list and its length; `step` is left alone where the call does not tell it.
    ///
    /// # Safety
    /// Every pointer must be one to a number, that of the list to as many as it has.
    unsafe fn function(
        self,
        out_len: (*mut Self::Entry, usize),
        step: *mut Self::Entry,
        count: *mut usize,
    ) -> i32;
}

/// What a call must give: the step where it is told, and the list, or the number of its refusal.
pub type Wanted<'a, N> = Result<(Option<N>, &'a [N]), i32>;

/// What is lent in one call.
pub struct Memory<N> {
    list: Lent<N>,
    step: Lent<N>,
    count: Lent<usize>,
}

impl<N: Fill> Memory<N> {
    pub fn new() -> Memory<N> {
        let (list, step, count) = (Lent::new(), Lent::new(), Lent::new());
        Memory { list, step, count }
    }

    fn refill(&mut self, len: usize) {
        self.list.refill(len);
        self.step.refill(1);
        self.count.refill(1);
    }

    /// Holds this and no more.
    fn holds(&self, step: Option<N>, list: &[N], count: &[usize]) -> bool {
        self.list.holds(list) && self.step.holds(step.as_slice()) && self.count.holds(count)
    }
}

/// Calls the C function and holds its answer and all memory in reach against what is wanted.
fn by_function<C: Lends>(
    call: C,
    memory: &mut Memory<C::Entry>,
    wanted: Wanted<C::Entry>,
) -> Result<(), String> {
    let len = memory.list.len();
    let list = (memory.list.pointer(), len);
    let (step, count) = (memory.step.pointer(), memory.count.pointer());
    // SAFETY: the pointers are those of a list of this length and of one number each.
    let code = unsafe { call.function(list, step, count) };
    let told = memory.count.list()[0];
    let found = |what: String| format!("list of {len}: returned {code}, count {told}; {what}");
    let (want, kept) = match wanted {
        Ok((step, list)) => (0, memory.holds(step, list, &[list.len()])),
        Err(number) => (number, memory.holds(None, &[], &[])),
    };
    ensure(code == want, || found(format!("wanted {want}")))?;
    ensure(kept, || found("memory is not as wanted".into()))
}

/// Makes the safe call and holds its answer and the list against what is wanted.
fn by_wrapper<C: Lends>(
    call: C,
    list: &mut Lent<C::Entry>,
    wanted: Wanted<C::Entry>,
) -> Result<(), String> {
    let told = call.safe(list.list());
    let entries = wanted.map_or(&[][..], |(_, list)| list);
    let right = match (told, wanted) {
        (Ok((step, count)), Ok((want, _))) => step == want && count == entries.len(),
        (Err(refusal), Err(number)) => refusal.number() == number,
        _ => false,
    };
    ensure(right && list.holds(entries), || {
        let told = told.map(|(_, count)| count).map_err(Refusal::number);
        format!("safe call: {told:?} entries, or not the list that is wanted")
    })
}

/// Makes both calls with a list of that length.
pub fn with_list<C: Lends>(
    call: C,
    len: usize,
    memory: &mut Memory<C::Entry>,
    wanted: Wanted<C::Entry>,
) -> Result<(), String> {
    memory.refill(len);
    by_function(call, memory, wanted)?;
    memory.refill(len);
    by_wrapper(call, &mut memory.list, wanted)
}

/// Lists of every length that matters, `too_short` being the refusal below the length.
pub fn with_lists<C: Lends>(
    call: C,
    (step, list): (Option<C::Entry>, &[C::Entry]),
    too_short: i32,
    memory: &mut Memory<C::Entry>,
) -> Result<(), String> {
    lengths(list.len()).into_iter().try_for_each(|len| {
        let wanted = if len < list.len() {
            Err(too_short)
        } else {
            Ok((step, list))
        };
        with_list(call, len, memory, wanted)
    })
}

fn check<C: Lends + Writes<Number = C::Entry>>(
    call: C,
    memory: &mut Memory<C::Entry>,
) -> Result<(), String> {
    match wanted(call)? {
        Ok(Written { step, list }) => with_lists(call, (step, &list), call.too_short(), memory),
        Err(number) => [0, 9]
            .into_iter()
            .try_for_each(|len| with_list(call, len, memory, Err(number))),
    }
}

/// A measure by which the smallest of several differing inputs is shown first.
fn size<C: Writes>(call: C) -> u128 {
    let fields = call.fields().into_iter();
    fields.map(|(_, number)| number.size()).sum()
}

pub fn compare<C: Lends + Writes<Number = C::Entry>>(
    name: &str,
    calls: impl Iterator<Item = C>,
) -> bool {
    let mut tally = Tally::new(name);
    let memory = &mut Memory::new();
    calls.for_each(|call| tally.count(size(call), call, check(call, memory)));
    tally.close()
}

/// A call on an axis and on its mirror, with lists of the same length.
fn check_pair<C: Lends<Entry: Into<Number>>>(
    [one, other]: [C; 2],
    len: usize,
    [left, right]: &mut [Lent<C::Entry>; 2],
) -> Result<(), String> {
    left.refill(len);
    right.refill(len);
    let told = |call: C, list: &mut Lent<C::Entry>| call.safe(list.list()).map(|(_, count)| count);
    let (one, other) = (told(one, left), told(other, right));
    let mirrors =
        |(&one, &other): (&C::Entry, &C::Entry)| Number::mirrors(one.into(), other.into());
    let count = one.unwrap_or(0);
    let mut pairs = left.list()[..count].iter().zip(&right.list()[..count]);
    ensure(one == other && pairs.all(mirrors), || {
        format!("{one:?}, mirror {other:?}, or a list that is not its mirror")
    })
}

/// The mirror theorem, with lists that are long enough and too short.
fn check_mirror<C: Lends + Writes<Number = C::Entry>>(
    pair: [C; 2],
    lent: &mut [Lent<C::Entry>; 2],
) -> Result<(), String>
where
    C::Entry: Into<Number>,
{
    let Ok(count) = pair[0].rule().map(|written| written.list.len()) else {
        return check_pair(pair, 9, lent);
    };
    check_pair(pair, count, lent)?;
    count
        .checked_sub(1)
        .map_or(Ok(()), |short| check_pair(pair, short, lent))
}

/// Calls beside those on their mirrors.
pub fn compare_mirror<C: Lends + Writes<Number = C::Entry>>(
    name: &str,
    pairs: impl Iterator<Item = [C; 2]>,
) -> bool
where
    C::Entry: Into<Number>,
{
    let mut tally = Tally::new(format!("{name} beside their mirror"));
    let lent = &mut [Lent::new(), Lent::new()];
    pairs.for_each(|pair| tally.count(size(pair[0]), pair[0], check_mirror(pair, lent)));
    tally.close()
}
