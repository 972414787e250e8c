//! What is admitted, in the scope document's words.

/// Whole ends, values and steps lie within plus and minus this.
pub const BOUND: i64 = 1_000_000_000;

/// Limits and pixels lie within plus and minus this.
pub const FILM: i64 = 1_000_000;

fn within<const N: usize>(numbers: [i32; N], bound: i64, refusal: i32) -> Result<(), i32> {
    let admitted = |&n: &i32| -bound <= n.into() && i64::from(n) <= bound;
    numbers.iter().all(admitted).then_some(()).ok_or(refusal)
}

pub fn whole<const N: usize>(numbers: [i32; N]) -> Result<(), i32> {
    within(numbers, BOUND, 1)
}

pub fn film<const N: usize>(numbers: [i32; N]) -> Result<(), i32> {
    within(numbers, FILM, 2)
}
