//! The leaves that are no method of a type: walks, rounds, frequency boarding, clock readings.
use crate::calls;
use crate::refusal::{checked, value, Refusal};
use crate::settings::Settings;
use crate::tables::{count, words, FrequencyWindow, PathwayMode};
use crate::tally::Tally;

/// Seconds of a walk: stairs and escalators take 100 times as long for a wheelchair. Refused by 14 and 5 (above 1,048,575 s).
pub fn walk_duration(
    tally: &mut Tally,
    screen: u32,
    settings: Settings,
    duration_s: u32,
    pathway_mode: PathwayMode,
    wheelchair: bool,
) -> Result<u32, Refusal> {
    value(calls::walk_duration(tally, screen, settings, duration_s, pathway_mode as u32, u32::from(wheelchair)))
}

/// The rounds of a query: min(12, max(wanted, transfers + 2, 4)). Refused by 14.
pub fn max_rounds(tally: &mut Tally, screen: u32, settings: Settings, wanted: u32, transfers: u32) -> Result<u32, Refusal> {
    value(calls::max_rounds(tally, screen, settings, wanted, transfers))
}

/// The service second of a clock reading. Refused by 14 and 5 (hour above 47, minute or second above 59).
pub fn service_second(
    tally: &mut Tally,
    screen: u32,
    settings: Settings,
    hour: u32,
    minute: u32,
    second: u32,
) -> Result<u32, Refusal> {
    value(calls::service_second(tally, screen, settings, hour, minute, second))
}

/// A boarded run of a frequency trip, and the waiting for it. `need` is here: the wanted time, less the time that a run takes from its
/// first departure to the one here, less the window's start; it may be below zero.
#[derive(Clone, Copy, PartialEq, Eq, Debug)]
pub struct FreqBoard {
    /// Service second of the departure.
    pub departure_s: u32,
    /// By how much the run is later than the trip's stop times.
    pub time_shift_s: i32,
    /// The number of the run's window, from 0: the first of those that give this departure.
    pub window: u32,
    /// The number of the run in its window, from 0: the whole headways from the window's start to it.
    pub run: u32,
    /// Whole headways in `need` where that is above zero, else 0.
    pub quotient: u32,
    /// Seconds of `need` beyond them where it is above zero, else 0.
    pub remainder: u32,
    /// Seconds from the wanted time to the departure.
    pub wait_s: u32,
    /// Seconds between the runs of the window; never 0.
    pub headway_s: u32,
}

impl FreqBoard {
    /// The wait in minutes, rounded up.
    pub fn wait_minutes(&self) -> u32 {
        self.wait_s.div_ceil(60)
    }

    /// What a guest reads: "every 10 minutes, 4 to wait". The wait is in minutes, rounded up. A headway that is no whole number of
    /// minutes is in seconds, and then a wait above 0 has its unit too: "every 90 seconds, 2 minutes to wait". The headway is the
    /// window's: that another run follows this one is not said.
    pub fn sentence(&self) -> String {
        let wait = self.wait_minutes();
        let (minutes, seconds) = (self.headway_s / 60, self.headway_s % 60);
        match (minutes, seconds, wait) {
            (1, 0, _) => format!("every minute, {wait} to wait"),
            (2.., 0, _) => format!("every {minutes} minutes, {wait} to wait"),
            (_, _, 0) => format!("every {}, 0 to wait", counted(self.headway_s, "second")),
            _ => format!("every {}, {} to wait", counted(self.headway_s, "second"), counted(wait, "minute")),
        }
    }
}

/// A count with its unit: "1 second", "90 seconds".
fn counted(n: u32, unit: &str) -> String {
    format!("{n} {unit}{}", if n == 1 { "" } else { "s" })
}

/// The earliest run that leaves here no sooner than `after_s`, if any: the trip's stop times have its first departure at `base_s`
/// and the one here at `departure_s`. Refused by 1 (more than 65,536 windows), 14 and 5 (a number above 1,048,575).
///
/// ```
/// use savoiky::{earliest_freq_board, FrequencyWindow, Settings, Tally};
/// // runs leave the first stop at 600, 1200 and so on, and this one 60 s later
/// let windows = [FrequencyWindow { start_s: 600, end_s: 7200, headway_s: 600 }];
/// let found = earliest_freq_board(&mut Tally::new(), 0, Settings::DEFAULT, &windows, 600, 660, 1020).unwrap();
/// let board = found.expect("a run after 1020");
/// assert_eq!((board.window, board.run, board.departure_s, board.wait_s), (0, 1, 1260, 240));
/// assert_eq!(board.sentence(), "every 10 minutes, 4 to wait");
/// ```
pub fn earliest_freq_board(
    tally: &mut Tally,
    screen: u32,
    settings: Settings,
    windows: &[FrequencyWindow],
    base_s: u32,
    departure_s: u32,
    after_s: u32,
) -> Result<Option<FreqBoard>, Refusal> {
    let rows = words(windows, FrequencyWindow::words);
    let a = calls::freq_board(tally, screen, settings, count(windows.len()), &rows, [base_s, departure_s, after_s]);
    checked(a.code)?;
    // where a run is found, its window is one of these
    let window = windows.get(a.window as usize).filter(|_| a.found == 1);
    Ok(window.map(|w| FreqBoard {
        departure_s: a.departure,
        time_shift_s: a.time_shift_s as i32,
        window: a.window,
        run: a.run,
        quotient: a.quotient,
        remainder: a.remainder,
        wait_s: a.wait,
        headway_s: w.headway_s,
    }))
}
