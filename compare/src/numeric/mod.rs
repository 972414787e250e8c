//! Axes of whole numbers and of indices.

mod axis;
mod cases;
mod rule;
mod vectors;

#[cfg(feature = "library")]
mod bench;
#[cfg(feature = "library")]
mod key_points;
#[cfg(feature = "library")]
mod mirror;

pub use rule::{marks, Marks};
pub use vectors::vectors;

#[cfg(feature = "library")]
pub use bench::bench;

#[cfg(feature = "library")]
pub fn compare() -> bool {
    [key_points::compare(), mirror::compare()]
        .iter()
        .all(|&agrees| agrees)
}
