//! A call that answers with one number: the rule beside plotters.

use std::fmt;

use crate::number::Number;
use crate::reference::caught;

/// What a call gives: an answer, none, or the number of its refusal.
pub type Answer<N> = Result<Option<N>, i32>;

/// The input of a call, and what the rule and plotters make of it.
pub trait Call: Copy {
    type Number: Copy + Into<Number>;
    /// The word by which the list of answers knows the call.
    const KEYWORD: &'static str;

    fn fields(self) -> impl Iterator<Item = (&'static str, Number)>;
    fn rule(self) -> Answer<Self::Number>;
    fn plotters(self) -> Option<Self::Number>;

    /// Whether plotters can be asked where the rule gives this.
    fn asks_plotters(self, rule: Answer<Self::Number>) -> bool {
        !matches!(rule, Err(1 | 2))
    }

    /// Whether the list of answers may have the input: the program that replays it chooses a
    /// search by its name, so that a number which is no search stays out.
    fn listed(self) -> bool {
        true
    }

    /// Whether plotters may give this, or panic, where the rule refuses an admitted input.
    fn may_give(self, plotters: Option<Option<Self::Number>>) -> bool {
        plotters.is_none()
    }
}

/// A call: its input with the parts that are its fields, what it gives, its word, the rule, what
/// plotters makes of the parts, and what plotters may give besides a panic, if anything.
macro_rules! call {
    (
        $input:ident $(<$kind:ident>)? { $($part:ident),* } -> $number:ident,
        $keyword:literal, $rule:path, $plotters:expr $(, may give $may:path)?
    ) => {
        impl $crate::call::Call for $input $(<$kind>)? {
            type Number = $number;
            const KEYWORD: &'static str = $keyword;

            fn fields(self) -> impl Iterator<Item = (&'static str, $crate::number::Number)> {
                let $input { $($part),* } = self;
                [$((stringify!($part), $part.into())),*].into_iter()
            }

            fn rule(self) -> $crate::call::Answer<$number> {
                $rule(self)
            }

            fn plotters(self) -> Option<$number> {
                let $input { $($part),* } = self;
                $plotters
            }

            $(fn may_give(self, plotters: Option<Option<$number>>) -> bool {
                $may(self, plotters)
            })?
        }
    };
}
pub(crate) use call;

/// What a call gives, whatever the kind of its numbers.
#[derive(Clone, Copy, PartialEq)]
pub enum Told {
    Given(Number),
    Nothing,
    Refused(i32),
}

impl<N: Into<Number>> From<Answer<N>> for Told {
    fn from(answer: Answer<N>) -> Told {
        match answer {
            Ok(Some(number)) => Told::Given(number.into()),
            Ok(None) => Told::Nothing,
            Err(number) => Told::Refused(number),
        }
    }
}

impl Told {
    /// What the C function returns.
    pub fn code(self) -> i32 {
        match self {
            Told::Given(_) => 0,
            Told::Nothing => -1,
            Told::Refused(number) => number,
        }
    }
}

impl fmt::Display for Told {
    fn fmt(&self, f: &mut fmt::Formatter<'_>) -> fmt::Result {
        match self {
            Told::Given(number) => write!(f, "{number}"),
            Told::Nothing => write!(f, "none"),
            Told::Refused(number) => write!(f, "refusal {number}"),
        }
    }
}

/// An input as a person reads it.
pub struct Shown<C>(pub C);

impl<C: Call> fmt::Display for Shown<C> {
    fn fmt(&self, f: &mut fmt::Formatter<'_>) -> fmt::Result {
        let fields = self.0.fields().map(|(name, n)| format!("{name} {n}"));
        write!(f, "{}", fields.collect::<Vec<_>>().join(", "))
    }
}

/// What the call must give: the rule's answer, if plotters does not gainsay it.
pub fn wanted<C: Call>(call: C) -> Result<Told, String> {
    let rule = call.rule();
    let told = Told::from(rule);
    if !call.asks_plotters(rule) {
        return Ok(told);
    }
    let plotters = caught(|| call.plotters());
    let agrees = match (rule, plotters) {
        (Ok(_), Some(given)) => told == Ok(given).into(),
        (Ok(_), None) => false,
        (Err(_), given) => call.may_give(given),
    };
    if agrees {
        return Ok(told);
    }
    let plotters = plotters.map_or("a panic".into(), |given| Told::from(Ok(given)).to_string());
    Err(format!("the rule gives {told}, plotters {plotters}"))
}
