//! Rulers: built here from plotters' marks and places, and compared byte for byte.

use culvraod::ruler::{culv_ruler_downgrade, culv_ruler_read, culv_ruler_shift};
use culvraod::ruler::{culv_ruler_upgrade, culv_ruler_write, culv_ruler_write_inside};
use culvraod::ruler::{culv_ruler_write_inside_twisted, culv_ruler_write_twisted};
use culvraod::ruler::{downgrade, label_of, pair_record, read, shift, upgrade, write};
use culvraod::ruler::{write_inside, write_inside_twisted, write_twisted, Ruler, Twist, Written};
use culvraod::{Limit, RangedCoordi32, Refusal};
use plotters::coord::ranged1d::Ranged;
use std::fmt::{self, Display};
use std::hint::black_box;

use crate::program::{drawn, Draft};
use crate::random::Random;
use crate::tally::{ensure, Tally};
use crate::timing::{report_two, written};

/// Of each kind; half as many of each twist.
const DRAWN: usize = 5_000_000;
const SHIFTED: usize = 2_000_000;
const DAMAGED: usize = 5_000;

/// Which marks a ruler has, plotters' own or those of them that lie on the axis; and its twist.
#[derive(Clone, Copy, PartialEq)]
pub struct Kind {
    inside: bool,
    twist: Option<Twist>,
}

const CUT: Kind = Kind {
    inside: false,
    twist: None,
};
pub const INSIDE: Kind = Kind {
    inside: true,
    twist: None,
};

impl Kind {
    pub fn with(self, twist: Twist) -> Kind {
        let twist = Some(twist);
        Kind { twist, ..self }
    }

    /// All six: two without a twist and two with either.
    fn all() -> impl Iterator<Item = Kind> {
        [CUT, INSIDE]
            .into_iter()
            .flat_map(|old| [old, old.with(Twist::S), old.with(Twist::Z)])
    }

    /// The first byte of a ruler of this kind.
    fn byte(self) -> u8 {
        match (self.inside, self.twist) {
            (false, None) => 1,
            (true, None) => 3,
            (false, _) => 5,
            (true, _) => 6,
        }
    }

    /// How long the axis's record is.
    fn head(self) -> usize {
        25 + self.twist.is_some() as usize
    }

    /// The kind that bytes would be of.
    fn of(bytes: &[u8]) -> Option<Kind> {
        Kind::all().find(|kind| {
            kind.byte() == bytes[0] && kind.twist.is_none_or(|t| bytes.get(25) == Some(&(t as u8)))
        })
    }

    fn write(self, draft: Draft, out: &mut [u8]) -> Result<Written, Refusal> {
        let (axis, limit, m) = (draft.axis(), draft.limit(), draft.m);
        match (self.inside, self.twist) {
            (false, None) => write(axis, limit, m, out),
            (true, None) => write_inside(axis, limit, m, out),
            (false, Some(twist)) => write_twisted(axis, limit, m, twist, out),
            (true, Some(twist)) => write_inside_twisted(axis, limit, m, twist, out),
        }
    }
}

impl Display for Kind {
    fn fmt(&self, out: &mut fmt::Formatter) -> fmt::Result {
        write!(out, "kind {}", self.byte())?;
        self.twist.map_or(Ok(()), |twist| write!(out, " {twist:?}"))
    }
}

impl Display for Draft {
    fn fmt(&self, out: &mut fmt::Formatter) -> fmt::Result {
        let Draft { ends, limits, m } = self;
        write!(out, "ends {ends:?}, limits {limits:?}, m {m}")
    }
}

impl Draft {
    pub fn random(random: &mut Random) -> Draft {
        let mut number = |most| drawn(random, most) as i32;
        let ends = [number(1_000_000_000), number(1_000_000_000)];
        let limits = [number(1_000_000), number(1_000_000)];
        let m = random.below(16) as u32;
        Draft { ends, limits, m }
    }

    /// With both limits moved, if each is still an i32.
    fn moved(self, c: i32) -> Option<Draft> {
        let [p, q] = self.limits.map(|limit| limit.checked_add(c));
        let limits = [p?, q?];
        Some(Draft { limits, ..self })
    }

    fn axis(self) -> RangedCoordi32 {
        RangedCoordi32(self.ends[0], self.ends[1])
    }

    fn limit(self) -> Limit {
        Limit(self.limits[0], self.limits[1])
    }

    /// How much there is to read in a draft that differs.
    fn size(self) -> u128 {
        let numbers = self.ends.iter().chain(&self.limits);
        numbers.map(|n| u128::from(n.unsigned_abs())).sum::<u128>() + u128::from(self.m)
    }

    /// The step, and the marks of a kind with their places, both of plotters; or the refusal.
    pub fn plotters(self, kind: Kind) -> Result<(i32, Vec<(i32, i32)>), i32> {
        let [a, b] = self.ends;
        let rule = self.rule()?;
        let axis = plotters::coord::RangedCoordi32::from(a..b);
        let limits = (self.limits[0], self.limits[1]);
        let mut needles = axis.key_points(self.m as usize);
        if kind.inside {
            needles.retain(|needle| (a.min(b)..=a.max(b)).contains(needle));
        }
        let places = needles
            .iter()
            .map(|needle| (*needle, axis.map(needle, limits)));
        Ok((rule.step as i32, places.collect()))
    }
}

pub fn bytes_of(kind: Kind, draft: Draft, step: i32, marks: &[(i32, i32)]) -> Vec<u8> {
    let Draft { ends, limits, m } = draft;
    let mut bytes = vec![kind.byte()];
    let numbers = ends.iter().chain(&limits);
    numbers.for_each(|n| bytes.extend(n.to_le_bytes()));
    bytes.extend(m.to_le_bytes());
    bytes.extend(step.to_le_bytes());
    bytes.extend(kind.twist.map(|twist| twist as u8));
    for (needle, place) in marks {
        bytes.push(2);
        bytes.extend(needle.to_le_bytes());
        bytes.extend(place.to_le_bytes());
        bytes.extend(format!("{needle:>11}").bytes());
    }
    bytes
}

fn check_refused(kind: Kind, draft: Draft, refusal: i32, out: &mut [u8]) -> Result<(), String> {
    out.fill(77);
    let told = kind.write(draft, out);
    ensure(told.map_err(|why| why as i32) == Err(refusal), || {
        format!("{told:?}, and not refused with {refusal}")
    })?;
    ensure(out.iter().all(|&byte| byte == 77), || "written to".into())
}

/// Every mark's label and record, and those of the numbers beside it.
fn check_lookups(kind: Kind, ruler: &[u8], marks: &[(i32, i32)]) -> Result<(), String> {
    for (k, (needle, _)) in marks.iter().enumerate() {
        let record = &ruler[kind.head() + 20 * k..][..20];
        let (left, right) = if *needle < 0 {
            (ruler, &[][..])
        } else {
            (&[][..], ruler)
        };
        let found = pair_record(left, right, *needle);
        ensure(std::ptr::eq(found, record), || {
            format!("record of {needle}")
        })?;
        let label = label_of(ruler, *needle);
        let wanted = &record[20 - needle.to_string().len()..];
        ensure(std::ptr::eq(label, wanted), || format!("label of {needle}"))?;
        let beside = needle + 1;
        if marks.iter().all(|&(other, _)| other != beside) {
            ensure(label_of(ruler, beside).is_empty(), || {
                format!("label of {beside}")
            })?;
        }
    }
    Ok(())
}

fn check(kind: Kind, draft: Draft, out: &mut [u8]) -> Result<(), String> {
    let (step, marks) = match draft.plotters(kind) {
        Err(refusal) => return check_refused(kind, draft, refusal, out),
        Ok(told) => told,
    };
    let wanted = bytes_of(kind, draft, step, &marks);
    let size = wanted.len();
    check_refused(kind, draft, 13, &mut out[..size - 1])?;
    out.fill(77);
    let told = kind.write(draft, out);
    let (bytes, count) = (size, marks.len());
    ensure(
        told == Ok(Written {
            bytes,
            marks: count,
        }),
        || format!("{told:?}"),
    )?;
    ensure(out[..size] == wanted, || format!("{:?}", &out[..size]))?;
    ensure(out[size..].iter().all(|&byte| byte == 77), || {
        "written past its end".into()
    })?;
    let (axis, limit, m) = (draft.axis(), draft.limit(), draft.m);
    let ruler = Ruler {
        axis,
        limit,
        m,
        step,
        marks: count,
        kind: kind.byte() as u32,
        twist: kind.twist,
    };
    ensure(read(&wanted) == Ok(ruler), || {
        format!("read {:?}", read(&wanted))
    })?;
    check_lookups(kind, &wanted, &marks)?;
    check_moving(kind, draft, &wanted, out)
}

/// A ruler moved over or back, with a byte too few lent, just enough, and more; and the other way.
fn check_moving(kind: Kind, draft: Draft, ruler: &[u8], out: &mut [u8]) -> Result<(), String> {
    let (step, marks) = draft.plotters(kind).unwrap();
    let (goes, stays): (Mover, Mover) = match kind.twist {
        None => (upgrade, downgrade),
        Some(_) => (downgrade, upgrade),
    };
    let other = match kind.twist {
        None => kind.with(Twist::S),
        Some(_) => Kind {
            twist: None,
            ..kind
        },
    };
    let wanted = bytes_of(other, draft, step, &marks);
    let lost = kind.twist == Some(Twist::Z);
    for (room, refusal) in [
        (wanted.len() - 1, Some(Refusal::OutTooShort)),
        (wanted.len(), lost.then_some(Refusal::TwistLost)),
        (wanted.len() + 7, lost.then_some(Refusal::TwistLost)),
    ] {
        out.fill(77);
        let told = goes(ruler, &mut out[..room]);
        let written = if refusal.is_none() { wanted.len() } else { 0 };
        ensure(told == refusal.map_or(Ok(wanted.len()), Err), || {
            format!("moved: {told:?}")
        })?;
        ensure(out[..written] == wanted[..written], || {
            "moved to other bytes".into()
        })?;
        ensure(out[written..].iter().all(|&byte| byte == 77), || {
            "moved past its end".into()
        })?;
    }
    for room in [0, wanted.len()] {
        let told = stays(ruler, &mut out[..room]);
        ensure(told == Err(Refusal::NotARuler), || {
            format!("moved the other way: {told:?}")
        })?;
    }
    if !lost {
        goes(ruler, out).unwrap();
        let mut again = vec![0; ruler.len()];
        let told = stays(&out[..wanted.len()], &mut again);
        ensure(told == Ok(ruler.len()) && again == ruler, || {
            "there and back".into()
        })?;
    }
    Ok(())
}

/// Copies of a ruler with one byte changed, cut, lengthened, two records exchanged, a label filled
/// with other bytes, or the kind or the twist's byte through all 256 values.
fn damaged(ruler: &[u8], random: &mut Random) -> Vec<Vec<u8>> {
    let mut copies: Vec<Vec<u8>> = (0..ruler.len()).map(|len| ruler[..len].to_vec()).collect();
    copies.extend((0..=255).map(|kind| [&[kind], &ruler[1..]].concat()));
    if ruler.len() > 25 {
        copies.extend((0..=255).map(|twist| [&ruler[..25], &[twist], &ruler[26..]].concat()));
    }
    copies.push([ruler, &[0]].concat());
    copies.push([ruler, &ruler[ruler.len() - 20..]].concat());
    for at in 0..ruler.len() {
        let mut copy = ruler.to_vec();
        copy[at] ^= 1 << random.below(8);
        copies.push(copy);
    }
    let head = Kind::of(ruler).unwrap().head();
    if ruler.len() >= head + 40 {
        let mut copy = ruler.to_vec();
        copy[head..head + 40].rotate_left(20);
        copies.push(copy);
    }
    if ruler.len() >= head + 20 && ruler[head + 9] == b' ' {
        let mut copy = ruler.to_vec();
        copy[head + 9] = b'0';
        copies.push(copy);
    }
    copies
}

/// Whether bytes are what is written for the numbers in them, by the comparison's own rule.
fn is_ruler(bytes: &[u8]) -> bool {
    let Some(head) = bytes.get(..25) else {
        return false;
    };
    let Some(kind) = Kind::of(bytes) else {
        return false;
    };
    let word = |at: usize| i32::from_le_bytes(head[at..at + 4].try_into().unwrap());
    let draft = Draft {
        ends: [word(1), word(5)],
        limits: [word(9), word(13)],
        m: word(17) as u32,
    };
    // plotters is asked only where there are not many marks more than the bytes have room for
    let right_size = draft
        .rule()
        .is_ok_and(|rule| bytes.len() <= 26 + 20 * rule.count && 20 * rule.count <= bytes.len());
    right_size
        && draft
            .plotters(kind)
            .is_ok_and(|(step, marks)| bytes == bytes_of(kind, draft, step, &marks))
}

fn compare_damaged(kind: Kind) -> bool {
    let mut tally = Tally::new(&format!("damaged rulers of {kind}"));
    let mut random = Random::fixed(2);
    for _ in 0..DAMAGED {
        let draft = Draft::random(&mut random);
        let Ok((step, marks)) = draft.plotters(kind) else {
            continue;
        };
        for copy in damaged(&bytes_of(kind, draft, step, &marks), &mut random) {
            let found = read(&copy);
            let moves = [upgrade(&copy, &mut []), downgrade(&copy, &mut [])];
            let mut kept = copy.clone();
            let shifted = shift(&mut kept, 0);
            let agrees = match is_ruler(&copy) {
                true => found.is_ok() && shifted.is_ok(),
                false => {
                    found == Err(Refusal::NotARuler)
                        && label_of(&copy, 0).is_empty()
                        && moves == [Err(Refusal::NotARuler); 2]
                        && shifted == Err(Refusal::NotARuler)
                }
            } && kept == copy;
            let what = || format!("{found:?} for {copy:?}");
            tally.count(draft.size(), draft, ensure(agrees, what));
        }
    }
    tally.close()
}

fn compare_drawn(kind: Kind) -> bool {
    let mut tally = Tally::new(&format!("rulers of {kind}: write, read, label, pair, move"));
    let mut random = Random::new();
    let mut out = [0; 400];
    for _ in 0..DRAWN / (kind.head() - 24) {
        let draft = Draft::random(&mut random);
        tally.count(draft.size(), draft, check(kind, draft, &mut out));
    }
    tally.close()
}

/// By how much a film is moved: to an edge of what is admitted, or a pixel past it, by a few pixels,
/// by many, or by anything.
fn drawn_move(random: &mut Random, draft: Draft) -> i32 {
    let [p, q] = draft.limits;
    match random.below(8) {
        0 => 1_000_000 - p.max(q) + random.below(2) as i32,
        1 => -1_000_000 - p.min(q) - random.below(2) as i32,
        2 => random.below(u64::from(u32::MAX) + 1) as u32 as i32,
        3 => drawn(random, 2_000_000) as i32,
        _ => random.below(2_001) as i32 - 1_000,
    }
}

/// A ruler shifted, beside the bytes for the moved limits, from plotters' places and by our writer;
/// and back.
fn check_shift(kind: Kind, draft: Draft, c: i32, out: &mut [u8]) -> Result<(), String> {
    let Ok((step, marks)) = draft.plotters(kind) else {
        return Ok(());
    };
    let ruler = bytes_of(kind, draft, step, &marks);
    let shifted = &mut out[..ruler.len()];
    shifted.copy_from_slice(&ruler);
    let told = shift(shifted, c);
    let after = draft.moved(c).map(|moved| (moved, moved.plotters(kind)));
    let Some((moved, Ok((step, marks)))) = after else {
        ensure(told == Err(Refusal::LimitNotAdmitted), || {
            format!("{told:?}, moved by {c} to where a limit is not admitted")
        })?;
        return ensure(shifted == ruler, || "a refusal wrote".into());
    };
    ensure(told == Ok(()), || format!("{told:?}, moved by {c}"))?;
    let wanted = bytes_of(kind, moved, step, &marks);
    ensure(shifted == wanted, || {
        format!("moved by {c} to {shifted:?}")
    })?;
    let mut anew = vec![0; wanted.len()];
    let written = kind.write(moved, &mut anew);
    ensure(written.is_ok() && anew == wanted, || {
        format!("{written:?}, written anew")
    })?;
    let back = shift(shifted, -c);
    ensure(back == Ok(()) && shifted == ruler, || {
        format!("{back:?}, moved by {c} and back")
    })
}

fn compare_shifted(kind: Kind) -> bool {
    let mut tally = Tally::new(&format!("rulers of {kind}: shift, beside writing anew"));
    let mut random = Random::new();
    let mut out = [0; 400];
    for _ in 0..SHIFTED / (kind.head() - 24) {
        let mut draft = Draft::random(&mut random);
        if random.below(8) == 0 {
            draft.ends[1] = draft.ends[0];
        }
        let c = drawn_move(&mut random, draft);
        tally.count(draft.size(), draft, check_shift(kind, draft, c, &mut out));
    }
    tally.close()
}

/// Pairs of rulers of either kind, the marks of both looked up.
fn compare_pairs() -> bool {
    let mut tally = Tally::new("rulers: pairs of mixed kinds");
    let mut random = Random::fixed(3);
    for _ in 0..DAMAGED {
        let mut side = || {
            let kind = Kind::all().nth(random.below(6) as usize).unwrap();
            let draft = Draft::random(&mut random);
            let (step, marks) = draft.plotters(kind).ok()?;
            Some((
                kind.head(),
                draft,
                bytes_of(kind, draft, step, &marks),
                marks,
            ))
        };
        let (Some((left_head, draft, left, lefts)), Some((right_head, _, right, rights))) =
            (side(), side())
        else {
            continue;
        };
        for (needle, _) in lefts.iter().chain(&rights) {
            let (head, ruler, marks) = if *needle < 0 {
                (left_head, &left, &lefts)
            } else {
                (right_head, &right, &rights)
            };
            let place = marks.iter().position(|(other, _)| other == needle);
            let wanted = place.map_or(&[][..], |k| &ruler[head + 20 * k..][..20]);
            let found = pair_record(&left, &right, *needle);
            let what = || format!("record of {needle}: {found:?}");
            tally.count(draft.size(), draft, ensure(found == wanted, what));
        }
    }
    tally.close()
}

/// 15, which a `Twist` cannot be: behind 1, 2, 3 and 13.
fn compare_unknown() -> bool {
    let mut tally = Tally::new("rulers: unknown twists");
    let mut random = Random::fixed(4);
    let mut out = [0; 400];
    for _ in 0..DAMAGED {
        let draft = Draft::random(&mut random);
        let twist = 2 + (random.below(u64::from(u32::MAX) - 2) as u32);
        for (inside, writer) in [
            (CUT, culv_ruler_write_twisted as TwistedWriter),
            (INSIDE, culv_ruler_write_inside_twisted),
        ] {
            let kind = inside.with(Twist::S);
            let size = draft
                .plotters(kind)
                .map(|(_, marks)| kind.head() + 20 * marks.len());
            for short in [0, 1] {
                let len = size.unwrap_or(400) - short;
                let wanted =
                    size.map_or_else(|refusal| refusal, |_| if short == 1 { 13 } else { 15 });
                out.fill(77);
                let code = write_at(writer, draft, twist, &mut out[..len]);
                let agrees = code == wanted && out.iter().all(|&byte| byte == 77);
                let what = || format!("{code} with twist {twist}, and not {wanted}");
                tally.count(draft.size(), draft, ensure(agrees, what));
            }
        }
    }
    tally.close()
}

fn write_at(writer: TwistedWriter, draft: Draft, twist: u32, out: &mut [u8]) -> i32 {
    let ([a, b], [p, q]) = (draft.ends, draft.limits);
    let (mut bytes, mut marks) = (0, 0);
    let (to, len) = (out.as_mut_ptr(), out.len());
    // SAFETY: `out` is bytes of that length, and the results are locals of their own.
    unsafe { writer(a, b, p, q, draft.m, twist, to, len, &mut bytes, &mut marks) }
}

pub fn compare() -> bool {
    let drawn = Kind::all().map(compare_drawn);
    let shifted = Kind::all().map(compare_shifted);
    let damaged = Kind::all().map(compare_damaged);
    let others = [compare_pairs(), compare_unknown()];
    drawn
        .chain(shifted)
        .chain(damaged)
        .chain(others)
        .fold(true, |all, agrees| all && agrees)
}

type Mover = fn(&[u8], &mut [u8]) -> Result<usize, Refusal>;

type TwistedWriter = unsafe extern "C" fn(
    i32,
    i32,
    i32,
    i32,
    u32,
    u32,
    *mut u8,
    usize,
    *mut usize,
    *mut usize,
) -> i32;

const MARKS: usize = 1_000_000;

type Writer =
    unsafe extern "C" fn(i32, i32, i32, i32, u32, *mut u8, usize, *mut usize, *mut usize) -> i32;

fn write_million(writer: Writer, out: &mut [u8]) -> usize {
    let (a, b, p, q, m) = black_box((-500_000, 499_999, -1_000, 1_000, MARKS as u32));
    let (code, told) = written(out, |out, (bytes, marks): &mut (usize, usize)| {
        let (to, len) = (out.as_mut_ptr(), out.len());
        // SAFETY: `out` is bytes of that length, and the results are one number each.
        unsafe { writer(a, b, p, q, m, to, len, bytes, marks) }
    });
    assert_eq!((code, told.1), (0, MARKS));
    told.0
}

fn read_million(out: &mut [u8]) -> usize {
    let ruler = black_box(&out[..out.len() - 20]);
    let (from, len) = (ruler.as_ptr(), ruler.len());
    let ([mut a, mut b, mut p, mut q, mut d], mut m, mut marks) = ([0; 5], 0, 0);
    // SAFETY: `ruler` is bytes of that length, and the results are locals of their own.
    let code = unsafe {
        culv_ruler_read(
            from, len, &mut a, &mut b, &mut p, &mut q, &mut m, &mut d, &mut marks,
        )
    };
    assert_eq!((code, marks), (0, MARKS));
    len
}

/// Writes and reads a ruler of a million marks of each kind, in bytes a second.
pub fn bench() {
    let mut out = vec![0; 25 + 20 * (MARKS + 1)];
    let mut rate = |title: &str, call: &mut dyn FnMut(&mut [u8]) -> usize| {
        let best = (0..9).map(|_| {
            let start = std::time::Instant::now();
            call(&mut out) as f64 / start.elapsed().as_secs_f64()
        });
        let best = best.fold(0.0, f64::max);
        println!(
            "{title}, a million marks: {:.0} million bytes a second",
            best / 1e6
        );
    };
    let kinds = [
        (1, culv_ruler_write as Writer),
        (3, culv_ruler_write_inside),
    ];
    for (kind, writer) in kinds {
        rate(&format!("writing a ruler of kind {kind}"), &mut |out| {
            write_million(writer, out)
        });
        rate(
            &format!("reading a ruler of kind {kind}"),
            &mut read_million,
        );
    }
    let (mut old, mut new) = (vec![0; 25 + 20 * MARKS], vec![0; 26 + 20 * MARKS]);
    write_million(culv_ruler_write, &mut old);
    rate("moving a ruler of kind 1 over", &mut |_| {
        move_million(culv_ruler_upgrade, &old, &mut new)
    });
    rate("moving a ruler of kind 5 back", &mut |_| {
        move_million(culv_ruler_downgrade, &new, &mut old)
    });
    bench_shift();
}

/// Writes the ruler of kind 1 from -1,000 to 1,000 on the film, and tells how many bytes it has.
fn write_short((a, b, m): (i32, i32, u32), out: &mut [u8]) -> usize {
    let (a, b, m) = black_box((a, b, m));
    let (code, told) = written(out, |out, (bytes, marks): &mut (usize, usize)| {
        let (to, len) = (out.as_mut_ptr(), out.len());
        // SAFETY: `out` is bytes of that length, and the results are one number each.
        unsafe { culv_ruler_write(a, b, -1_000, 1_000, m, to, len, bytes, marks) }
    });
    assert_eq!(code, 0);
    told.0
}

/// Shifts rulers with few marks and many, to and fro, beside writing them anew.
fn bench_shift() {
    for axis in [
        (-15, -3, 4),
        (0, 10, 10),
        (-50, 49, 11),
        (-500, 499, 100),
        (-500, 499, 1_000),
        (-500_000, 499_999, MARKS as u32),
    ] {
        let (a, b, m) = axis;
        let mut out = vec![0; 25 + 20 * (m as usize + 1)];
        let size = write_short(axis, &mut out);
        let mut ruler = out[..size].to_vec();
        let mut c = 5;
        report_two(
            &format!("ruler of {a}..{b} m {m}"),
            ("shift", |n| {
                for _ in 0..n {
                    let (bytes, len) = (black_box(ruler.as_mut_ptr()), ruler.len());
                    // SAFETY: `ruler` is bytes of that length.
                    let code = unsafe { culv_ruler_shift(bytes, len, black_box(c)) };
                    assert_eq!(code, 0);
                    c = -c;
                }
            }),
            ("write", |n| {
                for _ in 0..n {
                    write_short(axis, &mut out);
                }
            }),
        );
    }
}

fn move_million(
    mover: unsafe extern "C" fn(*const u8, usize, *mut u8, usize, *mut usize) -> i32,
    ruler: &[u8],
    out: &mut [u8],
) -> usize {
    let ruler = black_box(ruler);
    let mut written = 0;
    let (from, len, to, room) = (ruler.as_ptr(), ruler.len(), out.as_mut_ptr(), out.len());
    // SAFETY: both are bytes of those lengths, and the result is a local.
    let code = unsafe { mover(from, len, to, room, &mut written) };
    assert_eq!((code, written), (0, room));
    len
}
