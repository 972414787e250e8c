//! Fault charts: culvraod beside a model that keeps its pins in a map, and finds their entries by
//! plotters' own search in plotters' own list.

mod bench;
mod cases;
mod model;

use culvraod::chart::{clear, culv_chart_clear, culv_chart_pull, culv_chart_set, pull, set, Chart};
use culvraod::{Linspacei32, RangedCoordi32, Refusal};
use std::fmt;

use crate::lent::Lent;
use crate::linspace::Steps;
use crate::random::Random;
use crate::tally::{ensure, Tally};
use cases::History;
use model::Model;

pub use bench::bench;

/// How many random histories are run, and how many actions each of them has.
const HISTORIES: usize = 5_000;
const ACTIONS: usize = 500;

/// What is done with a pin.
#[derive(Clone, Copy, Debug, PartialEq)]
pub enum Deed {
    Set,
    Pull,
}

/// An action as a person reads it.
struct Shown {
    axis: Steps<i32>,
    deed: Deed,
    pin: i32,
}

impl fmt::Display for Shown {
    fn fmt(&self, f: &mut fmt::Formatter<'_>) -> fmt::Result {
        let (Steps { a, b, d }, Shown { deed, pin, .. }) = (self.axis, self);
        write!(f, "{a}..{b} by {d}, {deed:?} {pin}")
    }
}

impl Shown {
    fn size(&self) -> u128 {
        let Steps { a, b, d } = self.axis;
        let sizes = [a, b, d, self.pin].map(|n| u128::from(n.unsigned_abs()));
        sizes.iter().sum()
    }
}

fn stepped(Steps { a, b, d }: Steps<i32>) -> Linspacei32 {
    RangedCoordi32(a, b).step(d)
}

fn code(told: Result<(), i32>) -> i32 {
    told.err().unwrap_or(0)
}

/// A chart as culvraod has it: counts that are lent to the C functions, counts that are lent to the
/// safe calls, and a chart of its own where the history begins with an empty one.
struct Charts {
    axis: Steps<i32>,
    lent: [Lent<u16>; 2],
    owned: Option<Chart>,
}

impl Charts {
    fn clear(&mut self) -> [i32; 2] {
        let (Steps { a, b, d }, [by_c, safe]) = (self.axis, &mut self.lent);
        // SAFETY: the pointer is that of a list of this length.
        let code_c = unsafe { culv_chart_clear(a, b, d, by_c.pointer(), by_c.len()) };
        let told = clear(stepped(self.axis), safe.list());
        [code_c, code(told.map_err(Refusal::number))]
    }

    fn act(&mut self, deed: Deed, pin: i32) -> [i32; 2] {
        let (Steps { a, b, d }, [by_c, safe]) = (self.axis, &mut self.lent);
        let (counts, len) = (by_c.pointer(), by_c.len());
        // SAFETY: the pointer is that of a list of this length.
        let code_c = unsafe {
            match deed {
                Deed::Set => culv_chart_set(a, b, d, pin, counts, len),
                Deed::Pull => culv_chart_pull(a, b, d, pin, counts, len),
            }
        };
        let told = match deed {
            Deed::Set => set(stepped(self.axis), pin, safe.list()),
            Deed::Pull => pull(stepped(self.axis), pin, safe.list()),
        };
        [code_c, code(told.map_err(Refusal::number))]
    }

    /// What its own chart says, if there is one.
    fn act_owned(&mut self, deed: Deed, pin: i32) -> Option<i32> {
        let chart = self.owned.as_mut()?;
        let told = match deed {
            Deed::Set => chart.set(pin),
            Deed::Pull => chart.pull(pin),
        };
        Some(code(told.map_err(Refusal::number)))
    }

    /// Every count is the model's, and all other memory is as it was.
    fn hold(&self, model: &Model) -> Result<(), String> {
        let counts = model.counts();
        let held = self.lent.iter().all(|lent| lent.holds(&counts));
        ensure(held, || "lent counts, or memory beside them, differ".into())?;
        let owned = self
            .owned
            .iter()
            .all(|chart| chart.counts()[..] == counts[..]);
        ensure(owned, || "the counts of its own chart differ".into())
    }
}

/// Clears the charts; where that is refused, what was lent stays.
fn empty(charts: &mut Charts, model: &mut Model) -> Result<(), String> {
    model.begin(charts.lent[0].entries());
    let wanted = code(model.clear());
    let codes = charts.clear();
    ensure(codes == [wanted; 2], || {
        format!("clear gave {codes:?}, wanted {wanted}")
    })?;
    let own = Chart::new(stepped(charts.axis));
    let told = code(own.as_ref().map(|_| ()).map_err(|why| why.number()));
    let wanted = if wanted == 13 { 0 } else { wanted };
    charts.owned = own.ok().filter(|_| model.holds_chart());
    ensure(told == wanted, || {
        format!("Chart::new gave {told}, wanted {wanted}")
    })
}

/// Begins a history, with a chart that is cleared or with the counts that were drawn.
fn begin(history: &History) -> Result<(Charts, Model), String> {
    let (axis, len) = (history.axis, history.len);
    let mut charts = Charts {
        axis,
        lent: [Lent::new(), Lent::new()],
        owned: None,
    };
    let mut model = Model::new(axis, len);
    charts.lent.iter_mut().for_each(|lent| lent.refill(len));
    match &history.counts {
        None => empty(&mut charts, &mut model)?,
        Some(counts) => {
            model.begin(counts);
            for lent in &mut charts.lent {
                lent.list()[..counts.len()].copy_from_slice(counts);
            }
        }
    }
    charts.hold(&model)?;
    Ok((charts, model))
}

fn check(charts: &mut Charts, model: &mut Model, deed: Deed, pin: i32) -> Result<i32, String> {
    let wanted = code(model.act(deed, pin));
    let codes = charts.act(deed, pin);
    ensure(codes == [wanted; 2], || {
        format!("gave {codes:?}, wanted {wanted}")
    })?;
    let own = charts.act_owned(deed, pin);
    ensure(own.is_none_or(|own| own == wanted), || {
        format!("its own chart gave {own:?}, wanted {wanted}")
    })?;
    charts.hold(model)?;
    Ok(wanted)
}

/// Runs a history up to its end, or to the first action that differs; `met` counts what is returned.
fn run(history: History, tally: &mut Tally, met: &mut [u64; 23]) {
    let axis = history.axis;
    let shown = |deed, pin| Shown { axis, deed, pin };
    let (mut charts, mut model) = match begin(&history) {
        Ok(begun) => begun,
        Err(what) => return tally.count(0, shown(Deed::Set, 0), Err(what)),
    };
    for (deed, pin) in history.actions {
        let shown = shown(deed, pin);
        let found = check(&mut charts, &mut model, deed, pin);
        let differs = found.is_err();
        tally.count(
            shown.size(),
            shown,
            found.map(|code| met[code as usize] += 1),
        );
        if differs {
            return;
        }
    }
}

pub fn compare() -> bool {
    let mut tally =
        Tally::new("chart_clear, chart_set, chart_pull, every count after every action");
    let (mut random, mut met) = (Random::new(), [0; 23]);
    let drawn = (0..HISTORIES).map(|_| cases::drawn(&mut random, ACTIONS));
    let histories = cases::worked().into_iter().chain(drawn);
    histories.for_each(|history| run(history, &mut tally, &mut met));
    let met_all = [0, 1, 6, 7, 13, 20, 21, 22]
        .iter()
        .all(|&code| met[code] > 0);
    let met = (0..).zip(met).filter(|&(_, n): &(i32, u64)| n > 0);
    let met: Vec<String> = met.map(|(code, n)| format!("{code}: {n}")).collect();
    println!("chart actions by what is returned: {}", met.join(", "));
    tally.close() && met_all
}
