//! Exact places: culvraod beside a count in i128, and what they say of plotters' places.

use culvraod::places::{culv_whole_map_exact, ExactPlace};
use culvraod::{Limit, RangedCoordi32, Refusal};

use super::Place;
use crate::admitted;
use crate::beside::{size, Negated};
use crate::call::{Call, Shown};
use crate::cases::{all, film, held, whole_ends, Cases};
use crate::lent::Lent;
use crate::random::Random;
use crate::reference::caught;
use crate::tally::{ensure, Tally};

/// How many random inputs are compared, every other one with a remainder that is aimed at.
const DRAWN: usize = 20_000_000;

fn apart(one: i32, other: i32) -> i128 {
    (i128::from(other) - i128::from(one)).abs()
}

/// The rule, from the request's own words.
fn rule(Place { a, b, v, p, q }: Place<i32>) -> Result<ExactPlace, i32> {
    admitted::whole([a, b, v])?;
    admitted::film([p, q])?;
    if a == b || v < a.min(b) || a.max(b) < v {
        return Err(18);
    }
    let (product, length) = (apart(p, q) * apart(a, v), apart(a, b));
    Ok(ExactPlace {
        quotient: (product / length) as u32,
        remainder: (product % length) as u32,
    })
}

/// A needle whose remainder is about where the old place becomes one more, or where a pixel is full.
fn aimed(random: &mut Random) -> Place<i32> {
    let ((a, b), (p, q)) = (whole_ends(random), film(random));
    let (pixels, length) = (apart(p, q), apart(a, b));
    if pixels == 0 || length == 0 {
        return Place::drawn(random);
    }
    let share = random.pick(&[
        998_000_000,
        998_999_999,
        999_000_000,
        999_000_001,
        1_000_000_000,
    ]);
    let parts = random.within(0, pixels - 1) * length + length * share / 1_000_000_000;
    let way = parts / pixels + random.pick(&[0, 0, 1, -1]);
    let v = i128::from(a) + way * i128::from((i64::from(b) - i64::from(a)).signum());
    let v = held(v as i64);
    Place { a, b, v, p, q }
}

/// Memory for quotient and remainder.
struct Cells([Lent<u32>; 2]);

/// Calls the C function and holds its answer and all memory in reach against what is wanted.
fn by_function(
    place: Place<i32>,
    cells: &mut Cells,
    wanted: Result<ExactPlace, i32>,
) -> Result<(), String> {
    let Place { a, b, v, p, q } = place;
    let [quotient, remainder] = &mut cells.0;
    quotient.refill(1);
    remainder.refill(1);
    // SAFETY: the pointers are those of two lists of one number each.
    let code =
        unsafe { culv_whole_map_exact(a, b, v, p, q, quotient.pointer(), remainder.pointer()) };
    let kept = match wanted {
        Ok(exact) => quotient.holds(&[exact.quotient]) && remainder.holds(&[exact.remainder]),
        Err(_) => quotient.holds(&[]) && remainder.holds(&[]),
    };
    ensure(code == wanted.err().unwrap_or(0), || {
        format!("returned {code}, wanted {wanted:?}")
    })?;
    ensure(kept, || {
        let given = (quotient.list()[0], remainder.list()[0]);
        format!("gave {given:?}, wanted {wanted:?}, or other memory was written to")
    })
}

fn safe(Place { a, b, v, p, q }: Place<i32>) -> Result<ExactPlace, i32> {
    let told = RangedCoordi32(a, b).map_exact(v, Limit(p, q));
    told.map_err(Refusal::number)
}

/// How many pixels plotters' place is away from p toward q, if it is not on the other side.
fn away(place: Place<i32>) -> Option<i128> {
    let pixel = caught(|| place.plotters())??;
    let away = i128::from(pixel) - i128::from(place.p);
    let away = if place.q < place.p { -away } else { away };
    (away >= 0).then_some(away)
}

/// What a setter may rely on; whether plotters' place is one more than the quotient.
fn relied(place: Place<i32>, exact: ExactPlace) -> Result<bool, String> {
    let (length, quotient) = (apart(place.a, place.b), i128::from(exact.quotient));
    let full = 1_000 * i128::from(exact.remainder) >= 998 * length;
    let away = away(place);
    let more = away == Some(quotient + 1);
    ensure(away == Some(quotient) || more && full, || {
        format!("plotters' place is {away:?} away from p, the exact one {exact:?}")
    })?;
    Ok(more)
}

fn check(place: Place<i32>, cells: &mut Cells) -> Result<bool, String> {
    let wanted = rule(place);
    by_function(place, cells, wanted)?;
    let told = safe(place);
    ensure(told == wanted, || {
        format!("safe call: {told:?}, wanted {wanted:?}")
    })?;
    if let Some(mirror) = place.negated() {
        let told = safe(mirror);
        ensure(told == wanted, || {
            format!("mirror {told:?}, wanted {wanted:?}")
        })?;
    }
    wanted.map_or(Ok(false), |exact| relied(place, exact))
}

pub fn compare() -> bool {
    let mut tally = Tally::new("whole_map_exact, its mirror, and plotters' place");
    let (mut random, cells) = (Random::new(), &mut Cells([Lent::new(), Lent::new()]));
    let picked = all(|pick| Place::<i32>::picked(pick));
    let drawn = (0..DRAWN).map(|at| match at % 2 {
        0 => aimed(&mut random),
        _ => Place::drawn(&mut random),
    });
    let mut more = 0u64;
    for place in picked.chain(drawn) {
        let found = check(place, cells).map(|one_more| more += u64::from(one_more));
        tally.count(size(place), Shown(place), found);
    }
    println!("whole_map_exact: plotters' place is one more on {more} of them");
    tally.close() && more > 0
}
