//! Films: the rulers of all borders built here from plotters' marks and places with each border's
//! share, and compared byte for byte.

use std::fmt;
use std::hint::black_box;

use culvraod::film::{self, culv_film_write, Border, MOST_BORDERS};
use culvraod::ruler::{culv_ruler_write_inside_twisted, read, Twist, Written};
use culvraod::{Limit, RangedCoordi32, Refusal};

use crate::lent::Lent;
use crate::program::Draft;
use crate::random::Random;
use crate::rulers::{bytes_of, INSIDE};
use crate::tally::{ensure, Tally};
use crate::timing::report_beside;

/// How many films are drawn, and how many of short axes under any mark limit.
const DRAWN: usize = 40_000;
const SHORT: usize = 20_000;

/// Five numbers for each border, and the mark limit of the film.
struct Asked {
    numbers: Vec<i32>,
    m: u32,
}

impl fmt::Display for Asked {
    fn fmt(&self, f: &mut fmt::Formatter<'_>) -> fmt::Result {
        write!(f, "borders {:?}, mark limit {}", self.numbers, self.m)
    }
}

/// The rulers of a film and their marks, and where each ruler begins.
#[derive(Default)]
struct Film {
    bytes: Vec<u8>,
    marks: usize,
    starts: Vec<usize>,
}

impl Asked {
    /// By the request's own words: the limit shared out, and each border's ruler behind those before
    /// it; the first border that is refused decides.
    fn rule(&self, room: usize) -> Result<Film, i32> {
        let n = (self.numbers.len() / 5) as u32;
        if self.numbers.len() % 5 != 0 || n == 0 || n > 16 {
            return Err(23);
        }
        let mut film = Film::default();
        for (five, i) in self.numbers.chunks_exact(5).zip(0..) {
            let draft = Draft {
                ends: [five[0], five[1]],
                limits: [five[2], five[3]],
                m: self.m / n + u32::from(i < self.m % n),
            };
            let twist = if five[4] == 1 { Twist::Z } else { Twist::S };
            let kind = INSIDE.with(twist);
            let (step, marks) = draft.plotters(kind)?;
            let bytes = bytes_of(kind, draft, step, &marks);
            if room - film.bytes.len() < bytes.len() {
                return Err(13);
            }
            if five[4] != 0 && five[4] != 1 {
                return Err(15);
            }
            film.starts.push(film.bytes.len());
            film.bytes.extend(bytes);
            film.marks += marks.len();
        }
        Ok(film)
    }

    /// As borders, where every twist is one.
    fn borders(&self) -> Option<Vec<Border>> {
        let fives = self.numbers.chunks_exact(5);
        let known = fives.clone().all(|five| five[4] == 0 || five[4] == 1);
        let whole = fives.remainder().is_empty();
        let border = |five: &[i32]| Border {
            axis: RangedCoordi32(five[0], five[1]),
            limit: Limit(five[2], five[3]),
            twist: if five[4] == 1 { Twist::Z } else { Twist::S },
        };
        (known && whole).then(|| fives.map(border).collect())
    }

    fn size(&self) -> u128 {
        let sizes = self.numbers.iter().map(|n| u128::from(n.unsigned_abs()));
        sizes.sum::<u128>() + u128::from(self.m) + (self.numbers.len() as u128) * 1_000_000
    }
}

/// Every ruler of a film is read as its border with its share.
fn check_read(asked: &Asked, film: &Film) -> Result<(), String> {
    let n = film.starts.len();
    let ends = film.starts.iter().skip(1).copied();
    for (i, (&start, end)) in film
        .starts
        .iter()
        .zip(ends.chain([film.bytes.len()]))
        .enumerate()
    {
        let five = &asked.numbers[5 * i..][..5];
        let told = read(&film.bytes[start..end]);
        let agrees = told.is_ok_and(|ruler| {
            ruler.axis == RangedCoordi32(five[0], five[1])
                && ruler.limit == Limit(five[2], five[3])
                && ruler.m == film::share(asked.m, n, i)
                && ruler.kind == 6
                && ruler.twist.map(|twist| twist as i32) == Some(five[4])
                && end - start == 26 + 20 * ruler.marks
        });
        ensure(agrees, || format!("border {i} is read as {told:?}"))?;
    }
    Ok(())
}

/// Makes the call with so many bytes lent, and holds its answer and all memory in reach against the
/// rule; then the safe call.
fn check(asked: &Asked, room: usize, out: &mut Lent<u8>) -> Result<(), String> {
    let wanted = asked.rule(room);
    out.refill(room);
    let (mut bytes, mut marks) = (usize::MAX, usize::MAX);
    // SAFETY: both lists have the lengths that are passed, and the results are locals of their own.
    let code = unsafe {
        let (start, len) = (asked.numbers.as_ptr(), asked.numbers.len());
        culv_film_write(
            start,
            len,
            asked.m,
            out.pointer(),
            room,
            &mut bytes,
            &mut marks,
        )
    };
    let (agrees, told) = match &wanted {
        Ok(film) => (
            code == 0 && out.holds(&film.bytes) && marks == film.marks && bytes == film.bytes.len(),
            Ok(Written { bytes, marks }),
        ),
        Err(refusal) => (
            code == *refusal && out.holds(&[]) && (bytes, marks) == (usize::MAX, usize::MAX),
            Err(Refusal::from_number(*refusal).unwrap()),
        ),
    };
    ensure(agrees, || {
        let wanted = wanted.as_ref().map(|film| (film.bytes.len(), film.marks));
        format!("returned {code}, {bytes}, {marks} for {room} bytes, wanted {wanted:?}, or memory was written to")
    })?;
    if let Some(borders) = asked.borders() {
        let mut again = vec![0; room];
        let safe = film::write(&borders, asked.m, &mut again);
        ensure(safe == told, || {
            format!("safe call: {safe:?}, wanted {told:?}")
        })?;
    }
    wanted.map_or(Ok(()), |film| check_read(asked, &film))
}

/// The film with every length of bytes near the begin of a ruler, near the end, and more.
fn compare_at(asked: &Asked, tally: &mut Tally, out: &mut Lent<u8>) {
    let rooms = match asked.rule(usize::MAX) {
        Err(_) => vec![0, 26, 4_000],
        Ok(film) => {
            let size = film.bytes.len();
            let near = film.starts.iter().copied().chain([size]);
            let near = near.flat_map(|at| [at.saturating_sub(1), at, at + 1]);
            near.chain([size + 40]).collect()
        }
    };
    for room in rooms {
        tally.count(asked.size(), asked, check(asked, room, out));
    }
}

/// A film that is accepted: its borders, as many as are asked for, are drawn until each has a ruler.
fn drawn(random: &mut Random, n: u32) -> Asked {
    let m = n * random.below(12) as u32 + random.below(u64::from(n) + 1) as u32;
    let mut numbers = Vec::new();
    while numbers.len() < 5 * n as usize {
        let Draft { ends, limits, .. } = Draft::random(random);
        let i = (numbers.len() / 5) as u32;
        let m = m / n + u32::from(i < m % n);
        let equal = [ends[0]; 2];
        let ends = if m == 0 { equal } else { ends };
        if (Draft { ends, limits, m }).rule().is_ok() {
            numbers.extend(ends.iter().chain(&limits));
            numbers.push(random.below(2) as i32);
        }
    }
    Asked { numbers, m }
}

/// One or two borders with an end, a limit or a twist that is not admitted, or numbers too few.
fn damaged(random: &mut Random, mut asked: Asked) -> Asked {
    for _ in 0..=random.below(2) {
        let at = 5 * (random.below(asked.numbers.len() as u64 / 5) as usize);
        match random.below(6) {
            0 => asked.numbers[at + random.below(2) as usize] = 1_000_000_001,
            1 => asked.numbers[at + 2 + random.below(2) as usize] = -1_000_001,
            2 => asked.numbers[at + 4] = random.pick(&[2, -1, i32::MIN, i32::MAX]),
            3 => asked.m = random.below(3) as u32,
            4 => asked.numbers[at] = random.pick(&[i32::MIN, i32::MAX, 1_000_000_000]),
            _ => _ = asked.numbers.pop(),
        }
        if asked.numbers.len() < 5 {
            break;
        }
    }
    asked
}

/// A film of axes so short that any mark limit gives few marks.
fn short(random: &mut Random) -> Asked {
    let n = 1 + random.below(17);
    let mut near = |most: u64| random.below(2 * most + 1) as i32 - most as i32;
    let border = |_| [near(12), near(12), near(400), near(400), near(1).abs()];
    let numbers = (0..n).flat_map(border).collect();
    let m = random.pick(&[
        0,
        1,
        15,
        16,
        17,
        31,
        33,
        1_000,
        u32::MAX - 16,
        u32::MAX - 1,
        u32::MAX,
    ]);
    Asked { numbers, m }
}

pub fn compare() -> bool {
    let out = &mut Lent::new();
    let mut random = Random::new();
    let mut films = Tally::new("films of 1 to 16 borders");
    let mut refused = Tally::new("films with refused borders, and of 0 or 17");
    for at in 0..DRAWN {
        let asked = drawn(&mut random, 1 + (at % MOST_BORDERS) as u32);
        compare_at(&asked, &mut films, out);
        compare_at(&damaged(&mut random, asked), &mut refused, out);
        if at % 64 == 0 {
            for n in [0, 17] {
                compare_at(&drawn(&mut random, n), &mut refused, out);
            }
        }
    }
    let mut shorts = Tally::new("films of short axes, under any mark limit");
    for _ in 0..SHORT {
        compare_at(&short(&mut random), &mut shorts, out);
    }
    [films, refused, shorts]
        .map(Tally::close)
        .iter()
        .all(|&agrees| agrees)
}

/// A film of 16 borders beside the 16 rulers, each written alone with its share.
pub fn bench() {
    const N: u64 = 20_000;
    let borders: Vec<[i32; 5]> = (0..16)
        .map(|i| [-500 - i, 500 + i, i, 1_000, i % 2])
        .collect();
    let row: Vec<i32> = borders.concat();
    let (mut film, mut rulers) = (vec![0; 8_000], vec![0; 8_000]);
    let mut together = || {
        for _ in 0..N {
            let (mut bytes, mut marks) = (0, 0);
            let row = black_box(&row);
            // SAFETY: both lists have the lengths that are passed, and the results are locals.
            let code = unsafe {
                let (to, len) = (film.as_mut_ptr(), film.len());
                culv_film_write(
                    row.as_ptr(),
                    row.len(),
                    160,
                    to,
                    len,
                    &mut bytes,
                    &mut marks,
                )
            };
            assert_eq!(black_box(code), 0);
        }
    };
    let mut alone = || {
        for _ in 0..N {
            let mut at = 0;
            for &[a, b, p, q, twist] in black_box(&borders) {
                let (mut bytes, mut marks) = (0, 0);
                let out = &mut rulers[at..];
                // SAFETY: the list has the length that is passed, and the results are locals.
                let code = unsafe {
                    let (to, len) = (out.as_mut_ptr(), out.len());
                    let twist = twist as u32;
                    culv_ruler_write_inside_twisted(
                        a, b, p, q, 10, twist, to, len, &mut bytes, &mut marks,
                    )
                };
                assert_eq!(black_box(code), 0);
                at += bytes;
            }
        }
    };
    report_beside(
        "film of 16 borders",
        "16 rulers",
        N,
        [&mut together, &mut alone],
    );
}
