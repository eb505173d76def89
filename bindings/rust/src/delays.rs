//! Delays: of trips, and of single stop times.
use crate::calls::{self, Delay, Delayed};
use crate::refusal::{checked, holds, value, Refusal};
use crate::settings::Settings;
use crate::tables::count;
use crate::tally::Tally;

/// The number of a trip that the timetable does not know.
const UNKNOWN: u32 = u32::MAX;

/// A trip's delay. Delay rows strictly rise by trip; unknown trips stand at the end.
#[derive(Clone, Copy, PartialEq, Eq, Debug, Default)]
pub struct TripDelay {
    /// The trip; none: one that the timetable does not know.
    pub trip: Option<u32>,
    /// Seconds, early below 0.
    pub delay_s: i32,
}

/// What is known of one stop time of a delayed trip. Stop rows strictly rise by delay row, then sequence.
#[derive(Clone, Copy, PartialEq, Eq, Debug, Default)]
pub struct StopDelay {
    /// The number of the trip's delay row.
    pub delay_row: u32,
    /// The stop time's sequence number.
    pub stop_sequence: u32,
    /// The departure's own delay, where given.
    pub departure_delay_s: Option<i32>,
    /// The arrival's own delay, where given.
    pub arrival_delay_s: Option<i32>,
    /// Does the trip pass through?
    pub skipped: bool,
}

/// The delays of a query.
///
/// ```
/// use savoiky::{Delays, Settings, Tally, TripDelay};
/// let (tally, settings) = (&mut Tally::new(), Settings::DEFAULT);
/// let late = Delays { rows: vec![TripDelay { trip: Some(2), delay_s: 300 }], stop_rows: vec![] };
/// assert_eq!(late.margin(tally, 0, settings, 3)?, 300);
/// assert_eq!(late.delay_at(tally, 0, settings, 3, 2, 1)?.unwrap().trip_delay_s, 300);
/// assert_eq!(late.delay_at(tally, 0, settings, 3, 1, 1)?, None);
/// # Ok::<(), savoiky::Refusal>(())
/// ```
#[derive(Clone, PartialEq, Eq, Debug, Default)]
pub struct Delays {
    /// Delay rows.
    pub rows: Vec<TripDelay>,
    /// Stop rows.
    pub stop_rows: Vec<StopDelay>,
}

/// What the delays say of one stop time.
#[derive(Clone, Copy, PartialEq, Eq, Debug, Default)]
pub struct DelayAt {
    /// The trip's delay.
    pub trip_delay_s: i32,
    /// The departure's own delay, where given.
    pub departure_delay_s: Option<i32>,
    /// The arrival's own delay, where given.
    pub arrival_delay_s: Option<i32>,
    /// Does the trip pass through?
    pub skipped: bool,
}

fn flags(departure: Option<i32>, arrival: Option<i32>, skipped: bool) -> u32 {
    u32::from(departure.is_some()) | u32::from(arrival.is_some()) << 1 | u32::from(skipped) << 2
}

/// The bits of a delay; one that is not given is 0.
fn bits(delay: Option<i32>) -> u32 {
    delay.unwrap_or(0) as u32
}

impl Delays {
    pub(crate) fn row_words(&self) -> impl Iterator<Item = u32> + '_ {
        self.rows.iter().flat_map(|r| [r.trip.unwrap_or(UNKNOWN), r.delay_s as u32])
    }

    pub(crate) fn stop_row_words(&self) -> impl Iterator<Item = u32> + '_ {
        self.stop_rows.iter().flat_map(|s| {
            let flags = flags(s.departure_delay_s, s.arrival_delay_s, s.skipped);
            [s.delay_row, s.stop_sequence, flags, bits(s.departure_delay_s), bits(s.arrival_delay_s)]
        })
    }

    fn asked<T>(&self, trips: u32, ask: impl FnOnce(&Delayed) -> T) -> T {
        let (rows, stop_rows): (Vec<u32>, Vec<u32>) = (self.row_words().collect(), self.stop_row_words().collect());
        let (delay_rows, stop_row_count) = (count(self.rows.len()), count(self.stop_rows.len()));
        ask(&Delayed { trips, delay_rows, stop_row_count, rows: &rows, stop_rows: &stop_rows })
    }

    /// The largest size of a delay here, at most the settings' `margin_cap`; with so many trips. Refused by 1, 14, 4, 5, 6.
    pub fn margin(&self, tally: &mut Tally, screen: u32, settings: Settings, trips: u32) -> Result<u32, Refusal> {
        value(self.asked(trips, |d| calls::margin(tally, screen, settings, d)))
    }

    /// What these delays say of a trip's stop time; nothing where the trip has no row. Refused by 1, 14, 4, 5, 6.
    pub fn delay_at(
        &self,
        tally: &mut Tally,
        screen: u32,
        settings: Settings,
        trips: u32,
        trip: u32,
        stop_sequence: u32,
    ) -> Result<Option<DelayAt>, Refusal> {
        let a = self.asked(trips, |d| calls::delay_at(tally, screen, settings, d, trip, stop_sequence));
        checked(a.code)?;
        let given = |flag: u32, delay: u32| (a.flags & flag != 0).then_some(delay as i32);
        Ok((a.known == 1).then_some(DelayAt {
            trip_delay_s: a.trip_delay as i32,
            departure_delay_s: given(1, a.departure_delay),
            arrival_delay_s: given(2, a.arrival_delay),
            skipped: a.flags & 4 != 0,
        }))
    }
}

impl DelayAt {
    fn flags(&self) -> u32 {
        flags(self.departure_delay_s, self.arrival_delay_s, self.skipped)
    }

    fn delay(&self, own: Option<i32>) -> Delay {
        Delay { of_trip: self.trip_delay_s as u32, flags: self.flags(), own: bits(own) }
    }

    /// The departure under this delay. Refused by 14 and 5.
    pub fn effective_departure(
        &self,
        tally: &mut Tally,
        screen: u32,
        settings: Settings,
        departure_s: u32,
    ) -> Result<u32, Refusal> {
        value(calls::effective_departure(tally, screen, settings, departure_s, self.delay(self.departure_delay_s)))
    }

    /// The arrival under this delay; the shift of a frequency trip's run counts where the stop has no time given. Refused by 14 and 5.
    pub fn effective_arrival(
        &self,
        tally: &mut Tally,
        screen: u32,
        settings: Settings,
        arrival_s: u32,
        time_shift_s: i32,
    ) -> Result<u32, Refusal> {
        let delay = self.delay(self.arrival_delay_s);
        value(calls::effective_arrival(tally, screen, settings, arrival_s, time_shift_s as u32, delay))
    }

    /// Does the trip pass through? Refused by 14.
    pub fn is_skipped(&self, tally: &mut Tally, screen: u32, settings: Settings) -> Result<bool, Refusal> {
        holds(calls::skipped(tally, screen, settings, self.flags()))
    }
}
