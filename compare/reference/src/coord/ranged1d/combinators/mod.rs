mod linspace;
pub use linspace::*;
mod logarithmic;
pub use logarithmic::*;
