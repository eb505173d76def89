//! What a call answers where it does not admit its input.
use crate::sys::{Answer, QUESTIONS};
use std::fmt;

/// The number of the question about the screen.
pub(crate) const NO_SCREEN: u32 = 15;

/// A refusal: the number of the first question at the door that was answered no.
///
/// ```
/// use savoiky::{service_second, Settings, Tally};
/// let refusal = service_second(&mut Tally::new(), 0, Settings::DEFAULT, 48, 0, 0).unwrap_err();
/// assert_eq!(refusal.number(), 5);
/// assert_eq!(refusal.to_string(), "refused by question 5: Is every time and code in its range?");
/// ```
#[derive(Clone, Copy, PartialEq, Eq, Hash, Debug)]
pub struct Refusal(u32);

impl Refusal {
    /// The question's number: 1 to 8, or one of two that every call asks, 14, after 1 and before 2, and 15, before all others.
    pub fn number(&self) -> u32 {
        self.0
    }

    /// The question's text.
    pub fn question(&self) -> &'static str {
        QUESTIONS.iter().find(|(number, _)| *number == self.0).map_or("unknown", |(_, question)| question)
    }
}

impl fmt::Display for Refusal {
    fn fmt(&self, f: &mut fmt::Formatter) -> fmt::Result {
        write!(f, "refused by question {}: {}", self.0, self.question())
    }
}

impl std::error::Error for Refusal {}

/// A code as a result: 0 is success.
pub(crate) fn checked(code: u32) -> Result<(), Refusal> {
    match code {
        0 => Ok(()),
        n => Err(Refusal(n)),
    }
}

/// The value of an answer.
pub(crate) fn value(a: Answer) -> Result<u32, Refusal> {
    checked(a.code).map(|()| a.value)
}

/// The value of an answer that says yes or no.
pub(crate) fn holds(a: Answer) -> Result<bool, Refusal> {
    value(a).map(|v| v == 1)
}
