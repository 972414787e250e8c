//! A call that writes a list: the rule beside plotters.

use std::fmt::Display;

use crate::entry::Entry;
use crate::number::Number;
use crate::reference::caught;

/// The list, and the step where the call tells it.
pub struct Written<N> {
    pub step: Option<N>,
    pub list: Vec<N>,
}

/// The input of a call, and what the rule and plotters make of it. How long the lent list is does
/// not belong to it.
pub trait Writes: Copy + Display {
    type Number: Entry;

    /// The word by which the list of answers knows the call.
    fn keyword(self) -> &'static str;
    fn fields(self) -> Vec<(&'static str, Number)>;
    fn rule(self) -> Result<Written<Self::Number>, i32>;
    /// Whether plotters' list has an end, so that it can be asked.
    fn ends(self) -> bool;
    /// What plotters gives.
    fn given(self) -> Vec<Number>;
    /// An entry as plotters has it.
    fn shown(entry: Self::Number) -> Number;
    /// The refusal where the lent list is too short.
    fn too_short(self) -> i32;
}

/// The named numbers of an input as a person reads them.
pub fn named(fields: Vec<(&'static str, Number)>) -> String {
    let fields = fields.iter().map(|(name, n)| format!("{name} {n}"));
    fields.collect::<Vec<_>>().join(", ")
}

/// What the call must give, if the lent list is long enough: what the rule gives, if plotters does
/// not gainsay it.
pub fn wanted<C: Writes>(call: C) -> Result<Result<Written<C::Number>, i32>, String> {
    let rule = call.rule();
    let asked = match rule {
        Ok(_) => true,
        Err(number) => number == 3 && call.ends(),
    };
    if !asked {
        return Ok(rule);
    }
    let agrees = match (&rule, caught(|| call.given())) {
        (Ok(written), Some(given)) => given
            .into_iter()
            .eq(written.list.iter().map(|&n| C::shown(n))),
        (Err(_), None) => true,
        _ => false,
    };
    agrees
        .then_some(rule)
        .ok_or("the rule and plotters differ, or one of them alone refuses".into())
}
