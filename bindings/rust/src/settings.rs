//! The settings of the house, which every call receives.
use crate::sys;

/// Four numbers that every call receives; the same for a whole house, as a rule.
///
/// A call that is handed one outside its range refuses by 14, whatever it would do with it. [`Settings::DEFAULT`] has the numbers of
/// the Rust that this is a port of.
///
/// Tables may be built under some settings and asked under others. Journeys on a plain day (docs/PROMISE.md) keep their guarantee
/// under every setting where the tables were built with the `transfer_time` that the query is asked with. With another one the day is
/// not a plain one; with arc flags off the answer is the same all the same, since no transfer is read then.
///
/// ```
/// use savoiky::{max_rounds, Settings, Tally};
/// let mut tally = Tally::new();
/// let settings = Settings { transfer_time: 180, ..Settings::DEFAULT };
/// assert_eq!(max_rounds(&mut tally, 0, settings, 0, 3), Ok(5));
/// let unheard = Settings { transfer_time: 3_601, ..Settings::DEFAULT };
/// let refusal = max_rounds(&mut tally, 0, unheard, 0, 3).unwrap_err();
/// assert_eq!(refusal.to_string(), "refused by question 14: Is every setting in its range?");
/// ```
#[derive(Clone, Copy, PartialEq, Eq, Hash, Debug)]
pub struct Settings {
    /// Seconds for a change by a built transfer, 0 to 3,600: from an arrival to a departure no sooner than so much later. Building
    /// transfers reads it. It is not the [`change_s`](crate::Query::change_s) of a query.
    pub transfer_time: u32,
    /// How many trips of a line are tried, from a transfer's own trip on, for one that can be boarded: 1 to 4,096. A query with arc
    /// flags in use reads it.
    pub line_scan: u32,
    /// How much later than the best total a candidate may arrive, in seconds, 0 to 21,600. A query reads it.
    pub candidate_slack: u32,
    /// The largest delay margin, in seconds, 0 to 1,048,575: by so much at most a query looks beyond scheduled departures for trips
    /// that are late or early. A query and [`Delays::margin`](crate::Delays::margin) read it.
    pub margin_cap: u32,
}

impl Settings {
    /// The numbers of the Rust: 120, 64, 3,600 and 21,600.
    pub const DEFAULT: Settings = Settings {
        transfer_time: sys::DEFAULT_SETTINGS.transfer_time,
        line_scan: sys::DEFAULT_SETTINGS.line_scan,
        candidate_slack: sys::DEFAULT_SETTINGS.candidate_slack,
        margin_cap: sys::DEFAULT_SETTINGS.margin_cap,
    };

    /// As the calls take them.
    pub(crate) fn words(self) -> sys::Settings {
        let Settings { transfer_time, line_scan, candidate_slack, margin_cap } = self;
        sys::Settings { transfer_time, line_scan, candidate_slack, margin_cap }
    }
}

/// [`Settings::DEFAULT`].
impl Default for Settings {
    fn default() -> Settings {
        Settings::DEFAULT
    }
}
