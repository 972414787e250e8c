/// The limits of the film: the pixels of an axis's two ends, within ±1,000,000.
#[derive(Clone, Copy, Debug, PartialEq, Eq)]
pub struct Limit(pub i32, pub i32);
