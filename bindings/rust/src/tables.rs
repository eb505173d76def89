//! The caller's timetable: stops, trips, stop times, windows, walk edges, listed departures, cells and patterns.
use crate::calls::Counts;
use crate::cells::CellBitSet;

/// A row count as the calls take it; one past a u32 is past every limit, and question 1 refuses it.
pub(crate) fn count(rows: usize) -> u32 {
    u32::try_from(rows).unwrap_or(u32::MAX)
}

/// Rows as words, one row after the other.
pub(crate) fn words<T: Copy, const N: usize>(rows: &[T], row: impl Fn(T) -> [u32; N]) -> Vec<u32> {
    rows.iter().flat_map(|r| row(*r)).collect()
}

/// Some rows of a table that follow each other.
#[derive(Clone, Copy, PartialEq, Eq, Debug, Default)]
pub struct Run {
    /// The first row's number.
    pub first: u32,
    /// How many rows.
    pub count: u32,
}

impl Run {
    pub(crate) fn words(self) -> [u32; 2] {
        [self.first, self.count]
    }

    pub(crate) fn read(words: &[u32]) -> Vec<Run> {
        words.chunks_exact(2).map(|w| Run { first: w[0], count: w[1] }).collect()
    }

    /// The rows of this run, where it lies in the table.
    pub fn of<'a, T>(&self, rows: &'a [T]) -> Option<&'a [T]> {
        let first = self.first as usize;
        rows.get(first..first.checked_add(self.count as usize)?)
    }
}

/// What runs on a route, in the order of the source's `RouteMode`.
#[derive(Clone, Copy, PartialEq, Eq, Hash, Debug, Default)]
pub enum RouteMode {
    /// 0
    #[default]
    Tram,
    /// 1
    Metro,
    /// 2
    Rail,
    /// 3
    Bus,
    /// 4
    Ferry,
    /// 5
    Coach,
    /// 6
    Other,
}

/// May a wheelchair board? As GTFS `wheelchair_accessible`.
#[derive(Clone, Copy, PartialEq, Eq, Hash, Debug, Default)]
pub enum Wheelchair {
    /// 0: no information; allowed.
    #[default]
    Unknown,
    /// 1: yes.
    Possible,
    /// 2: no; bars a wheelchair query.
    Impossible,
}

/// May passengers get on, or off? As GTFS `pickup_type` and `drop_off_type`; only `No` bars.
#[derive(Clone, Copy, PartialEq, Eq, Hash, Debug, Default)]
pub enum Permission {
    /// 0: as scheduled.
    #[default]
    Regular,
    /// 1: no.
    No,
    /// 2: by phoning the agency.
    Phone,
    /// 3: by arrangement with the driver.
    Driver,
}

/// What a walk edge is, as GTFS `pathway_mode`.
#[derive(Clone, Copy, PartialEq, Eq, Hash, Debug, Default)]
pub enum PathwayMode {
    /// 0: not said.
    #[default]
    Absent,
    /// 1
    Walkway,
    /// 2: takes 100 times as long in a wheelchair query.
    Stairs,
    /// 3
    MovingSidewalk,
    /// 4: takes 100 times as long in a wheelchair query.
    Escalator,
    /// 5
    Elevator,
    /// 6
    FareGate,
    /// 7
    ExitGate,
}

/// A stop.
#[derive(Clone, Copy, PartialEq, Eq, Debug, Default)]
pub struct Stop {
    /// Its cell, any number; 0 where no arc flags are used.
    pub cell: u32,
}

/// A trip's stop at a place and a time.
#[derive(Clone, Copy, PartialEq, Eq, Debug, Default)]
pub struct StopTime {
    /// The stop's number.
    pub stop_idx: u32,
    /// Service second of the arrival.
    pub arrival_s: u32,
    /// Service second of the departure.
    pub departure_s: u32,
    /// Any number: what a stop's delay refers to.
    pub stop_sequence: u32,
    /// Boarding.
    pub pickup_type: Permission,
    /// Alighting.
    pub drop_off_type: Permission,
}

impl StopTime {
    /// A stop time where passengers may get on and off.
    pub fn new(stop_idx: u32, arrival_s: u32, departure_s: u32) -> StopTime {
        StopTime { stop_idx, arrival_s, departure_s, ..StopTime::default() }
    }

    fn words(self) -> [u32; 6] {
        let (pickup, drop_off) = (self.pickup_type as u32, self.drop_off_type as u32);
        [self.stop_idx, self.arrival_s, self.departure_s, self.stop_sequence, pickup, drop_off]
    }
}

/// A trip.
#[derive(Clone, Copy, PartialEq, Eq, Debug)]
pub struct Trip {
    /// Its stop times, at least one.
    pub stop_times: Run,
    /// Its windows; a trip that has any is a frequency trip.
    pub windows: Run,
    /// What runs.
    pub mode: RouteMode,
    /// May a wheelchair board?
    pub wheelchair: Wheelchair,
    /// Does it run on the day asked about?
    pub active: bool,
    /// Has the caller shut it out?
    pub excluded: bool,
}

impl Trip {
    /// An active trip with these stop times.
    pub fn new(stop_times: Run) -> Trip {
        let (mode, wheelchair) = (RouteMode::Tram, Wheelchair::Unknown);
        Trip { stop_times, windows: Run::default(), mode, wheelchair, active: true, excluded: false }
    }

    fn words(self) -> [u32; 8] {
        let (times, windows) = (self.stop_times.words(), self.windows.words());
        let (mode, wheelchair) = (self.mode as u32, self.wheelchair as u32);
        [times[0], times[1], mode, wheelchair, windows[0], windows[1], self.active as u32, self.excluded as u32]
    }
}

/// Runs of a frequency trip leave its first stop at the start, a headway later and so on, before the end.
#[derive(Clone, Copy, PartialEq, Eq, Debug, Default)]
pub struct FrequencyWindow {
    /// Service second of the first run.
    pub start_s: u32,
    /// Service second that no run reaches.
    pub end_s: u32,
    /// Seconds between runs.
    pub headway_s: u32,
}

impl FrequencyWindow {
    pub(crate) fn words(self) -> [u32; 3] {
        [self.start_s, self.end_s, self.headway_s]
    }
}

/// A way to walk from one stop to another. Edges stand in rising order of their from-stop.
#[derive(Clone, Copy, PartialEq, Debug, Default)]
pub struct WalkEdge {
    /// From this stop.
    pub from_stop_idx: u32,
    /// To this stop.
    pub to_stop_idx: u32,
    /// Seconds.
    pub duration_s: u32,
    /// Any number, carried into the labels.
    pub distance_m: f64,
    /// What it is.
    pub pathway_mode: PathwayMode,
    /// The number of its arc flags' pattern; one past the table holds all cells.
    pub flag_pattern: u32,
}

impl WalkEdge {
    fn words(self) -> [u32; 5] {
        [self.from_stop_idx, self.to_stop_idx, self.duration_s, self.pathway_mode as u32, self.flag_pattern]
    }
}

/// A departure that may be boarded.
#[derive(Clone, Copy, PartialEq, Eq, Debug, Default)]
pub struct Departure {
    /// The trip's number.
    pub trip: u32,
    /// Which of the trip's stop times, from 0.
    pub offset: u32,
}

impl Departure {
    pub(crate) fn words(self) -> [u32; 2] {
        [self.trip, self.offset]
    }
}

/// Departures by stop: a run of rows for each stop.
#[derive(Clone, PartialEq, Eq, Debug, Default)]
pub struct Departures {
    /// Each stop's run.
    pub runs: Vec<Run>,
    /// The rows.
    pub rows: Vec<Departure>,
}

impl Departures {
    /// The departures of each stop, stop by stop.
    pub fn of_stops(stops: &[Vec<Departure>]) -> Departures {
        let mut listed = Departures::default();
        for rows in stops {
            listed.runs.push(Run { first: count(listed.rows.len()), count: count(rows.len()) });
            listed.rows.extend(rows);
        }
        listed
    }
}

/// The caller's timetable. Numbers of stops, trips, stop times and windows are places in these lists.
///
/// The trips may be laid out by hand, or added one by one:
///
/// ```
/// use savoiky::{Settings, Stop, StopTime, Tally, Timetable};
/// let mut t = Timetable { stops: vec![Stop::default(); 2], ..Timetable::default() };
/// t.add_trip(&[StopTime::new(0, 100, 100), StopTime::new(1, 200, 200)]).excluded = false;
/// t.list_departures();
/// let tables = t.build(&mut Tally::new(), 0, Settings::DEFAULT)?;
/// assert_eq!(tables.built().lines.of_trip, [0]);
/// # Ok::<(), savoiky::Refusal>(())
/// ```
#[derive(Clone, PartialEq, Debug, Default)]
pub struct Timetable {
    /// Stops.
    pub stops: Vec<Stop>,
    /// Trips.
    pub trips: Vec<Trip>,
    /// The trips' stop times.
    pub stop_times: Vec<StopTime>,
    /// The trips' windows.
    pub windows: Vec<FrequencyWindow>,
    /// Walk edges, in rising order of from-stop.
    pub walk_edges: Vec<WalkEdge>,
    /// The departures that may be boarded, in any order; `build` sorts them.
    pub departures: Departures,
    /// How many cells there are.
    pub cells: u32,
    /// The arc flags' patterns; none where no arc flags are used.
    pub patterns: Vec<CellBitSet>,
}

impl Timetable {
    /// Adds stop times and an active trip that has them, and gives the trip.
    pub fn add_trip(&mut self, stop_times: &[StopTime]) -> &mut Trip {
        let run = Run { first: count(self.stop_times.len()), count: count(stop_times.len()) };
        self.stop_times.extend(stop_times);
        let at = self.trips.len();
        self.trips.push(Trip::new(run));
        &mut self.trips[at]
    }

    /// Lists, at its stop, every departure of every trip but the one at its last stop.
    pub fn list_departures(&mut self) {
        let mut stops = vec![vec![]; self.stops.len()];
        for (trip, t) in self.trips.iter().enumerate() {
            let times = t.stop_times.of(&self.stop_times).unwrap_or(&[]);
            for (offset, time) in times.iter().enumerate().take(times.len().saturating_sub(1)) {
                // a stop that does not exist is for the door to refuse
                if let Some(rows) = stops.get_mut(time.stop_idx as usize) {
                    rows.push(Departure { trip: count(trip), offset: count(offset) });
                }
            }
        }
        self.departures = Departures::of_stops(&stops);
    }

    pub(crate) fn counts(&self) -> Counts {
        Counts {
            stops: count(self.stops.len()),
            trips: count(self.trips.len()),
            times: count(self.stop_times.len()),
            windows: count(self.windows.len()),
            edges: count(self.walk_edges.len()),
        }
    }

    /// The timetable in one slice, as the calls read it.
    pub(crate) fn words(&self) -> Vec<u32> {
        let mut out = words(&self.stop_times, StopTime::words);
        out.extend(words(&self.trips, Trip::words));
        out.extend(words(&self.windows, FrequencyWindow::words));
        out.extend(words(&self.walk_edges, WalkEdge::words));
        out.extend(self.stops.iter().map(|s| s.cell));
        out
    }

    /// How many stop times the trips have together.
    pub(crate) fn events(&self) -> u64 {
        self.trips.iter().map(|t| u64::from(t.stop_times.count)).sum()
    }
}
