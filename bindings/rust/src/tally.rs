//! The box's record of the answered and refused calls of each screen.
use crate::sys;

/// How many screens a tally counts for: 0 to 63.
const SCREENS: usize = 64;

/// The answered and refused calls of each screen, 0 to 63.
///
/// The box owns one and lends it to every call, with the number of the screen that the call is for. The call adds one for that
/// screen: to answered where it is answered ([`Answer::NoWay`](crate::Answer::NoWay) is an answer), to refused where it comes
/// back as a [`Refusal`](crate::Refusal). A count at 4,294,967,295 stays there. A screen above 63 is refused by 15, before every
/// other question: then nothing is touched and nothing counted.
///
/// A function or method that takes a tally makes one call where nothing else is said. What it answers does not depend on the
/// tally. Calls on different threads need a tally each.
///
/// ```
/// use savoiky::{service_second, Settings, Tally};
/// let mut tally = Tally::new();
/// let settings = Settings::DEFAULT;
/// service_second(&mut tally, 3, settings, 8, 30, 0).unwrap();
/// service_second(&mut tally, 3, settings, 48, 0, 0).unwrap_err();
/// assert_eq!((tally.answered(3), tally.refused(3), tally.total()), (1, 1, 2));
/// let refusal = service_second(&mut tally, 64, settings, 8, 30, 0).unwrap_err();
/// assert_eq!(refusal.to_string(), "refused by question 15: Is the screen one of 0 to 63?");
/// assert_eq!(tally.total(), 2);
/// ```
#[derive(Clone, PartialEq, Debug)]
#[repr(transparent)]
pub struct Tally(sys::Tally);

// the fields are whole numbers
impl Eq for Tally {}

impl Tally {
    /// A tally with every count 0.
    pub const fn new() -> Tally {
        Tally(sys::Tally { answered: [0; SCREENS], refused: [0; SCREENS] })
    }

    /// A tally that was kept as [`words`](Tally::words): the answered calls of screens 0 to 63, then the refused ones.
    ///
    /// ```
    /// use savoiky::{max_rounds, Settings, Tally};
    /// let mut tally = Tally::new();
    /// max_rounds(&mut tally, 5, Settings::DEFAULT, 0, 3).unwrap();
    /// let kept = tally.words(); // before a restart, and after it:
    /// let mut tally = Tally::from_words(kept);
    /// max_rounds(&mut tally, 5, Settings::DEFAULT, 0, 3).unwrap();
    /// assert_eq!((kept[5], tally.answered(5)), (1, 2));
    /// ```
    pub fn from_words(words: [u32; 2 * SCREENS]) -> Tally {
        let mut tally = Tally::new();
        tally.0.answered.copy_from_slice(&words[..SCREENS]);
        tally.0.refused.copy_from_slice(&words[SCREENS..]);
        tally
    }

    /// All counts, to be kept over a restart: the answered calls of screens 0 to 63, then the refused ones.
    pub fn words(&self) -> [u32; 2 * SCREENS] {
        let mut words = [0; 2 * SCREENS];
        words[..SCREENS].copy_from_slice(&self.0.answered);
        words[SCREENS..].copy_from_slice(&self.0.refused);
        words
    }

    /// The answered calls of a screen; of one above 63 none are counted.
    pub fn answered(&self, screen: u32) -> u32 {
        self.0.answered.get(screen as usize).copied().unwrap_or(0)
    }

    /// The refused calls of a screen; of one above 63 none are counted.
    pub fn refused(&self, screen: u32) -> u32 {
        self.0.refused.get(screen as usize).copied().unwrap_or(0)
    }

    /// The answered and refused calls of all screens.
    pub fn total(&self) -> u64 {
        self.0.answered.iter().chain(&self.0.refused).map(|n| u64::from(*n)).sum()
    }

    /// As the calls take it.
    pub(crate) fn record(&mut self) -> &mut sys::Tally {
        &mut self.0
    }
}

/// [`Tally::new`].
impl Default for Tally {
    fn default() -> Tally {
        Tally::new()
    }
}
