//! Labels: when and how a stop was reached in a round.
use crate::calls::{self, Place, Stored};
use crate::refusal::{checked, value, Refusal};
use crate::settings::Settings;
use crate::sys::{LabelRow, QuerySizes};
use crate::tables::count;
use crate::tally::Tally;

/// How many rows of labels a stop has: row 0 for the access walk, row k + 1 for round k.
pub const ROWS: u32 = 13;

const WORDS: usize = 8;

/// When and how a stop was reached in a round.
///
/// A ride leads back to its `board_stop`, a walk to its `from_stop`: there to the highest row that is not empty and not above the
/// label's own (a round sees its own gains). Compare the times all the same: a walk begins its duration before it arrives, a ride
/// when it departs (its stop time's effective departure, a frequency trip's plus `time_shift_s`), in a row above 1 the change time
/// before. Where one begins before the label that it leads back to arrives, or a ride ends before it departs (times that fall, times
/// given for single stops, arc flags), show the total without legs.
#[derive(Clone, Copy, PartialEq, Debug, Default)]
pub enum Label {
    /// It was not reached in this round.
    #[default]
    Empty,
    /// On foot from the query's start.
    Access {
        /// The stop.
        stop_idx: u32,
        /// Service second of the arrival.
        arrival_s: u32,
        /// Seconds of the walk.
        walk_duration: u32,
        /// The origin's distance.
        walk_distance: f64,
    },
    /// By a trip.
    Transit {
        /// Service second of the arrival.
        arrival_s: u32,
        /// The trip.
        trip_idx: u32,
        /// Where it was boarded.
        board_stop: u32,
        /// At which of its stop times.
        board_off: u32,
        /// At which of its stop times it was left.
        alight_off: u32,
        /// The round of the ride: the label's row less 1.
        prev_round: u32,
        /// A frequency trip: by how much its run is later than its stop times; another: its delay where it was boarded.
        time_shift_s: i32,
    },
    /// By a walk edge.
    Walk {
        /// Service second of the arrival.
        arrival_s: u32,
        /// From this stop.
        from_stop: u32,
        /// To this stop.
        to_stop: u32,
        /// Seconds, as this query counts them.
        duration_s: u32,
        /// The walk edge's distance.
        distance_m: f64,
        /// The label's row.
        prev_round: u32,
    },
}

impl Label {
    /// Service second of the arrival.
    pub fn arrival_s(&self) -> Option<u32> {
        match *self {
            Label::Empty => None,
            Label::Access { arrival_s, .. } | Label::Transit { arrival_s, .. } | Label::Walk { arrival_s, .. } => Some(arrival_s),
        }
    }

    fn of(r: LabelRow) -> Label {
        match r.kind {
            1 => Label::Access { stop_idx: r.word1, arrival_s: r.word2, walk_duration: r.word3, walk_distance: r.distance },
            2 => Label::Transit {
                arrival_s: r.word1,
                trip_idx: r.word2,
                board_stop: r.word3,
                board_off: r.word4,
                alight_off: r.word5,
                prev_round: r.word6,
                time_shift_s: r.word7 as i32,
            },
            3 => Label::Walk {
                arrival_s: r.word1,
                from_stop: r.word2,
                to_stop: r.word3,
                duration_s: r.word4,
                distance_m: r.distance,
                prev_round: r.word5,
            },
            _ => Label::Empty,
        }
    }
}

/// The labels of some stops, 13 rows each.
///
/// ```
/// use savoiky::{Label, Labels, Settings, Tally};
/// let (tally, settings) = (&mut Tally::new(), Settings::DEFAULT);
/// let mut labels = Labels::new(tally, 0, settings, 2)?;
/// let label = Label::Access { stop_idx: 1, arrival_s: 100, walk_duration: 10, walk_distance: 12.5 };
/// labels.store(tally, 0, settings, 1, 0, label)?;
/// assert_eq!(labels.load(tally, 0, settings, 1, 0)?, label);
/// assert_eq!(labels.load(tally, 0, settings, 1, 1)?, Label::Empty);
/// assert_eq!(labels.load(tally, 0, settings, 2, 0).unwrap_err().number(), 4);
/// # Ok::<(), savoiky::Refusal>(())
/// ```
#[derive(Clone, PartialEq, Debug, Default)]
pub struct Labels {
    stops: usize,
    pub(crate) words: Vec<u32>,
    pub(crate) distances: Vec<f64>,
}

impl Labels {
    /// Empty labels of so many stops. Refused by 1 (more than 4,096) and 14.
    pub fn new(tally: &mut Tally, screen: u32, settings: Settings, stops: usize) -> Result<Labels, Refusal> {
        // the call that asks just this; how long a query's workspace is says nothing here
        value(calls::work_size(tally, screen, settings, QuerySizes { stops: count(stops), ..QuerySizes::default() }))?;
        let mut labels = Labels::default();
        labels.resize(stops);
        Ok(labels)
    }

    /// Of so many stops from now on; what they hold is left as it is.
    pub(crate) fn resize(&mut self, stops: usize) {
        self.stops = stops;
        self.distances.resize(ROWS as usize * stops, 0.0);
        self.words.resize(WORDS * ROWS as usize * stops, 0);
    }

    pub(crate) fn clear(&mut self) {
        self.words.fill(0);
        self.distances.fill(0.0);
    }

    /// How many stops they are of.
    pub fn stops(&self) -> usize {
        self.stops
    }

    /// The label of a stop in a row. Refused by 14, 4 (the stop) and 5 (a row above 12).
    pub fn load(&self, tally: &mut Tally, screen: u32, settings: Settings, stop: u32, row: u32) -> Result<Label, Refusal> {
        let place = Stored { stops: count(self.stops), stop, row, labels: &self.words, distances: &self.distances };
        let answer = calls::label_load(tally, screen, settings, &place);
        checked(answer.code).map(|()| Label::of(answer.row))
    }

    /// Puts a label in a stop's row. Refused as `load` is, and by 4 where a stop number in the label is not below the count of stops.
    pub fn store(
        &mut self,
        tally: &mut Tally,
        screen: u32,
        settings: Settings,
        stop: u32,
        row: u32,
        label: Label,
    ) -> Result<(), Refusal> {
        let place = Place { stops: count(self.stops), stop, row, labels: &mut self.words, distances: &mut self.distances };
        checked(match label {
            Label::Empty => return self.empty(tally, screen, settings, stop, row),
            Label::Access { stop_idx, arrival_s, walk_duration, walk_distance } => {
                calls::label_store_access(tally, screen, settings, place, [stop_idx, arrival_s, walk_duration], walk_distance)
            }
            Label::Transit { arrival_s, trip_idx, board_stop, board_off, alight_off, prev_round, time_shift_s } => {
                let shift = time_shift_s as u32;
                calls::label_store_transit(
                    tally,
                    screen,
                    settings,
                    place,
                    [arrival_s, trip_idx, board_stop, board_off, alight_off, prev_round, shift],
                )
            }
            Label::Walk { arrival_s, from_stop, to_stop, duration_s, distance_m, prev_round } => calls::label_store_walk(
                tally,
                screen,
                settings,
                place,
                [arrival_s, from_stop, to_stop, duration_s, prev_round],
                distance_m,
            ),
        })
    }

    /// No call stores an empty label: the door's answer is that of reading one.
    fn empty(&mut self, tally: &mut Tally, screen: u32, settings: Settings, stop: u32, row: u32) -> Result<(), Refusal> {
        self.load(tally, screen, settings, stop, row)?;
        let record = (ROWS * stop + row) as usize;
        self.words[WORDS * record..WORDS * (record + 1)].fill(0);
        self.distances[record] = 0.0;
        Ok(())
    }
}
