//! A chart as the request has it: a map from entries to the pins there.

use plotters::coord::ranged1d::DiscreteRanged;
use plotters::coord::{Floor, Linspace, RangedCoordi32};
use std::collections::BTreeMap;

use super::Deed;
use crate::admitted;
use crate::linspace::kind::Kind;
use crate::linspace::{rule, Steps};

/// Every chart has so many counts.
pub const COUNTS: usize = 1_024;

/// A count is at most this.
pub const FULL: u16 = 65_535;

pub type List = Linspace<RangedCoordi32, i32, Floor<i32>>;

/// plotters' list, which is searched down.
pub fn list(axis: Steps<i32>) -> List {
    i32::plotters(axis).use_floor()
}

pub struct Model {
    axis: Steps<i32>,
    len: usize,
    /// plotters' list, or why there is none.
    list: Result<List, i32>,
    pins: BTreeMap<usize, u16>,
}

impl Model {
    pub fn new(axis: Steps<i32>, len: usize) -> Model {
        Model {
            axis,
            len,
            list: rule::count(axis).map(|_| list(axis)),
            pins: BTreeMap::new(),
        }
    }

    /// Begins with these counts.
    pub fn begin(&mut self, counts: &[u16]) {
        let pinned = (0..).zip(counts).filter(|&(_, &count)| count > 0);
        self.pins = pinned.map(|(k, &count)| (k, count)).collect();
    }

    pub fn holds_chart(&self) -> bool {
        self.len >= COUNTS
    }

    /// The list, if a chart can have it.
    fn charted(&self) -> Result<&List, i32> {
        let list = self.list.as_ref().map_err(|&number| number)?;
        if list.size() > COUNTS {
            return Err(20);
        }
        Ok(list)
    }

    pub fn clear(&mut self) -> Result<(), i32> {
        self.charted()?;
        if !self.holds_chart() {
            return Err(13);
        }
        self.pins.clear();
        Ok(())
    }

    fn entry(&self, pin: i32) -> Result<usize, i32> {
        rule::admitted(self.axis)?;
        admitted::whole([pin])?;
        self.charted()?.index_of(&pin).ok_or(20)
    }

    pub fn act(&mut self, deed: Deed, pin: i32) -> Result<(), i32> {
        let k = self.entry(pin)?;
        if !self.holds_chart() {
            return Err(13);
        }
        let count = self.pins.get(&k).copied().unwrap_or(0);
        let count = match deed {
            Deed::Set if count == FULL => return Err(21),
            Deed::Pull if count == 0 => return Err(22),
            Deed::Set => count + 1,
            Deed::Pull => count - 1,
        };
        match count {
            0 => self.pins.remove(&k),
            _ => self.pins.insert(k, count),
        };
        Ok(())
    }

    /// Every count, as memory is to hold them: none where it is too short for a chart.
    pub fn counts(&self) -> Vec<u16> {
        let mut counts = vec![0; if self.holds_chart() { COUNTS } else { 0 }];
        for (&k, &count) in self.pins.range(..counts.len()) {
            counts[k] = count;
        }
        counts
    }
}
