//! Marks of culvraod on real axes.

use culvraod::numeric::{culv_real_key_points, REAL_MARKS_MAX};
use culvraod::{RangedCoordf64, Refusal};
use plotters::coord::ranged1d::Ranged;
use std::hint::black_box;

use super::{cases, powers, rule, RealMarks};
use crate::lends::{self, Lends};
use crate::random::Random;
use crate::timing::{report, written};

const DRAWN: usize = 5_000_000;
const BATCH: usize = 1_000;

/// Mark limits that are timed.
const TIMED: [u32; 3] = [10, 100, 1_000];

impl Lends for RealMarks {
    type Entry = f64;

    fn safe(self, out: &mut [f64]) -> Result<(Option<f64>, usize), Refusal> {
        let told = RangedCoordf64(self.a, self.b).key_points(self.m, out);
        told.map(|count| (None, count))
    }

    unsafe fn function(self, (out, len): (*mut f64, usize), _: *mut f64, count: *mut usize) -> i32 {
        culv_real_key_points(self.a, self.b, self.m, out, len, count)
    }
}

impl RealMarks {
    /// The marks of plotters as it is, which takes the decade by a logarithm.
    fn unchanged(self) -> Vec<f64> {
        plotters::coord::RangedCoordf64::from(self.a..self.b).key_points(self.m as usize)
    }

    /// How many digits its ends have, so that an example can be read.
    fn length(self) -> usize {
        format!("{:?}{:?}{}", self.a, self.b, self.m).len()
    }
}

/// What the marks of many axes came to.
#[derive(Default)]
struct Seen {
    marked: usize,
    rounds: usize,
    marks: usize,
    above: usize,
    changed: usize,
    example: Option<RealMarks>,
}

impl Seen {
    fn see(&mut self, axis: RealMarks) {
        let Ok(marks) = rule::marks(axis) else { return };
        self.marked += 1;
        self.rounds = self.rounds.max(marks.rounds);
        self.marks = self.marks.max(marks.list.len());
        self.above = self
            .above
            .max(marks.list.len().saturating_sub(axis.m as usize));
        if axis.m > 0 && axis.unchanged() != axis.tabled() {
            self.changed += 1;
            let shorter = |shown: RealMarks| axis.length() < shown.length();
            if self.example.is_none_or(shorter) {
                self.example = Some(axis);
            }
        }
    }

    fn close(self) {
        let Seen {
            marked,
            rounds,
            marks,
            above,
            changed,
            example,
        } = self;
        println!(
            "  {marked} axes were marked: at most {rounds} rounds, {marks} marks, {above} more than m"
        );
        println!("  plotters without the table differs on {changed} of them");
        if let Some(axis) = example {
            let (with, without) = (axis.tabled(), axis.unchanged());
            println!("  {axis}: with the table {with:?}, without {without:?}");
        }
    }
}

pub fn compare() -> bool {
    let mut random = Random::new();
    let drawn = (0..DRAWN).map(|_| cases::drawn(&mut random));
    let axes = cases::WORKED.into_iter().chain(cases::all()).chain(drawn);
    let mut seen = Seen::default();
    let agrees = lends::compare("real_key_points", axes.inspect(|&axis| seen.see(axis)));
    seen.close();
    agrees & powers::compare()
}

/// Times the C function beside plotters with the table, over axes with few marks and with many.
pub fn bench() {
    for m in TIMED {
        let mut random = Random::fixed(1);
        let batch: Vec<_> = (0..BATCH)
            .map(|_| cases::ordinary(&mut random, m))
            .collect();
        let mut next = (0..BATCH).cycle();
        let mut out = vec![0.0; REAL_MARKS_MAX];
        let ours = |n| {
            for _ in 0..n {
                let axis = black_box(batch[next.next().unwrap()]);
                let (code, _) = written(&mut out, |out: &mut [f64], count| {
                    // SAFETY: `out` is a list of that length, and `count` is one number.
                    unsafe { axis.function((out.as_mut_ptr(), out.len()), &mut 0.0, count) }
                });
                assert_eq!(code, 0, "{axis}");
            }
        };
        let mut other = (0..BATCH).cycle();
        let plotters = |n| {
            for _ in 0..n {
                black_box(black_box(batch[other.next().unwrap()]).tabled());
            }
        };
        report(
            &format!("real_key_points, m {m}, over {BATCH} axes"),
            ours,
            plotters,
        );
    }
}
