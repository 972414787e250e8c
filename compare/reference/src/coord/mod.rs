pub mod ranged1d;
pub use ranged1d::combinators::*;
pub use ranged1d::types::*;
