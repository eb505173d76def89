//! The building calls: lines, sorted departures, transfers; and the tables that a query is asked of.
use crate::calls::{self, Laid, LineAreas, LineTable, Linked, SortAreas};
use crate::refusal::{checked, value, Refusal};
use crate::settings::Settings;
use crate::sys::QuerySizes;
use crate::tables::{count, words, Departure, Departures, Run, Timetable};
use crate::tally::Tally;

/// How many transfers there may be.
const TRANSFER_LIMIT: usize = 65_536;

/// How many stop times the trips of an admitted timetable have together, at most: 4,096 trips of 65,536.
const EVENT_LIMIT: u64 = 1 << 28;

/// Trips with the same stops in the same order, grouped.
#[derive(Clone, PartialEq, Eq, Debug, Default)]
pub struct Lines {
    /// Each trip's line.
    pub of_trip: Vec<u32>,
    /// Each line's run of entries.
    pub runs: Vec<Run>,
    /// Trip numbers, by first departure inside a line.
    pub entries: Vec<u32>,
}

/// What a query works out of lines by itself.
#[derive(Clone, PartialEq, Eq, Debug)]
pub struct Layout {
    /// Each trip's position in its line; none where no line lists it.
    pub positions: Vec<Option<u32>>,
    /// Does no trip of the line overtake another?
    pub fifo: Vec<bool>,
}

/// A change from a stop time to a trip.
#[derive(Clone, Copy, PartialEq, Eq, Debug, Default)]
pub struct TripTransfer {
    /// The trip boarded.
    pub target_trip: u32,
    /// At which of its stop times.
    pub target_board_off: u32,
    /// Seconds for the change.
    pub min_transfer_s: u32,
    /// The number of its arc flags' pattern; one past the table holds all cells.
    pub flag_pattern: u32,
}

impl TripTransfer {
    fn words(self) -> [u32; 4] {
        [self.target_trip, self.target_board_off, self.min_transfer_s, self.flag_pattern]
    }

    fn read(area: &[u32]) -> Vec<TripTransfer> {
        let row =
            |w: &[u32]| TripTransfer { target_trip: w[0], target_board_off: w[1], min_transfer_s: w[2], flag_pattern: w[3] };
        area.chunks_exact(4).map(row).collect()
    }
}

/// Transfers: a run of rows for each stop time of each trip, trip by trip.
#[derive(Clone, PartialEq, Eq, Debug, Default)]
pub struct Transfers {
    /// The run of each stop time of each trip.
    pub runs: Vec<Run>,
    /// The rows.
    pub rows: Vec<TripTransfer>,
}

/// What the building calls write, or a caller makes by hand.
#[derive(Clone, PartialEq, Eq, Debug, Default)]
pub struct Built {
    /// Lines.
    pub lines: Lines,
    /// Departures, each stop's by scheduled departure.
    pub departures: Departures,
    /// Has a stop a departure of a trip with windows?
    pub marks: Vec<bool>,
    /// Transfers.
    pub transfers: Transfers,
}

impl Timetable {
    /// Lines, sorted departures and transfers of this timetable, ready to ask: built once for each `transfer_time` that queries are
    /// asked with, see [`Settings`]. Refused by 1 to 7 and 14. Needs about 1 MiB of stack.
    ///
    /// Three calls, for lines, departures and transfers. Each counts; after one that is refused none is made.
    pub fn build(&self, tally: &mut Tally, screen: u32, settings: Settings) -> Result<Tables, Refusal> {
        let lines = self.compute_line_groups(tally, screen, settings)?;
        let (departures, marks) = self.sort_stop_departures(tally, screen, settings)?;
        let transfers = self.compute_trip_transfers(tally, screen, settings, &lines, TRANSFER_LIMIT)?;
        Ok(Tables::new(self, Built { lines, departures, marks, transfers }))
    }

    /// The trips grouped into lines. Refused by 1 to 6 and 14.
    pub fn compute_line_groups(&self, tally: &mut Tally, screen: u32, settings: Settings) -> Result<Lines, Refusal> {
        let trips = self.trips.len();
        let (mut of_trip, mut runs, mut entries) = (vec![0; trips], vec![0; 2 * trips], vec![0; trips]);
        let (mut work, mut other) = (vec![0; trips], vec![0; trips]);
        let areas = LineAreas { lines: &mut of_trip, runs: &mut runs, entries: &mut entries, work: &mut work, other: &mut other };
        let laid = Laid { counts: self.counts(), tables: &self.words() };
        let lines = value(calls::compute_line_groups(tally, screen, settings, &laid, areas))?;
        runs.truncate(2 * lines as usize);
        Ok(Lines { of_trip, runs: Run::read(&runs), entries })
    }

    /// Each stop's listed departures sorted by scheduled departure, and each stop's mark. Refused by 1 to 6 and 14.
    pub fn sort_stop_departures(
        &self,
        tally: &mut Tally,
        screen: u32,
        settings: Settings,
    ) -> Result<(Departures, Vec<bool>), Refusal> {
        let listed = &self.departures;
        let (mut rows, mut marks) = (words(&listed.rows, Departure::words), vec![0; self.stops.len()]);
        let (mut work, mut other) = (vec![0; listed.rows.len()], vec![0; listed.rows.len()]);
        let areas = SortAreas { rows: &mut rows, marks: &mut marks, work: &mut work, other: &mut other };
        let runs = words(&listed.runs, Run::words);
        let laid = Laid { counts: self.counts(), tables: &self.words() };
        checked(calls::sort_stop_departures(tally, screen, settings, &laid, count(listed.rows.len()), &runs, areas))?;
        let rows = rows.chunks_exact(2).map(|w| Departure { trip: w[0], offset: w[1] }).collect();
        Ok((Departures { runs: listed.runs.clone(), rows }, marks.iter().map(|m| *m == 1).collect()))
    }

    /// Each trip's position and each line's FIFO flag, of any lines. Refused by 1 to 6 and 14.
    pub fn line_layout(&self, tally: &mut Tally, screen: u32, settings: Settings, lines: &Lines) -> Result<Layout, Refusal> {
        let (mut positions, mut fifo) = (vec![0; self.trips.len()], vec![0; lines.runs.len()]);
        let runs = words(&lines.runs, Run::words);
        let (line_count, entry_count) = (count(lines.runs.len()), count(lines.entries.len()));
        let table = LineTable { lines: line_count, entry_count, runs: &runs, entries: &lines.entries };
        let laid = Laid { counts: self.counts(), tables: &self.words() };
        checked(calls::line_layout(tally, screen, settings, &laid, &table, &mut positions, &mut fifo))?;
        let positions = positions.iter().map(|p| (*p != u32::MAX).then_some(*p)).collect();
        Ok(Layout { positions, fifo: fifo.iter().map(|f| *f == 1).collect() })
    }

    /// The transfers of every stop time of every trip, each of the settings' `transfer_time`, at most so many. Refused by 1 to 6 and
    /// 14, and by 7: more than 65,536, or than so many. Needs about 1 MiB of stack.
    pub fn compute_trip_transfers(
        &self,
        tally: &mut Tally,
        screen: u32,
        settings: Settings,
        lines: &Lines,
        space: usize,
    ) -> Result<Transfers, Refusal> {
        if self.events() > EVENT_LIMIT || self.trips.iter().any(|t| t.stop_times.of(&self.stop_times).is_none()) {
            // no runs can be lent for such trips; the lines call asks the same of them, and refuses
            self.compute_line_groups(tally, screen, settings)?;
        }
        let listed = &self.departures;
        let (runs, rows) = (words(&listed.runs, Run::words), words(&listed.rows, Departure::words));
        let (line_count, departures) = (count(lines.runs.len()), count(listed.rows.len()));
        let linked = Linked { line_count, departures, lines: &lines.of_trip, runs: &runs, rows: &rows };
        let mut area = vec![0; 4 * space.min(TRANSFER_LIMIT)];
        let mut transfer_runs = vec![0; 2 * self.events() as usize];
        let laid = Laid { counts: self.counts(), tables: &self.words() };
        let made = calls::compute_trip_transfers(tally, screen, settings, &laid, &linked, &mut area, &mut transfer_runs);
        area.truncate(4 * value(made)? as usize);
        Ok(Transfers { runs: Run::read(&transfer_runs), rows: TripTransfer::read(&area) })
    }
}

/// Tables ready to ask: a timetable and what was built of it, or laid out by hand. They keep no settings: [`Settings`] says what holds where
/// they are asked under others than they were built under.
///
/// ```
/// use savoiky::{Built, Departure, Departures, Lines, Run, Settings, Stop, StopTime, Tables, Tally, Timetable, Transfers};
/// let mut t = Timetable { stops: vec![Stop::default(); 2], ..Timetable::default() };
/// t.add_trip(&[StopTime::new(0, 100, 100), StopTime::new(1, 200, 200)]);
/// let built = Built {
///     lines: Lines { of_trip: vec![0], runs: vec![Run { first: 0, count: 1 }], entries: vec![0] },
///     departures: Departures::of_stops(&[vec![Departure { trip: 0, offset: 0 }], vec![]]),
///     marks: vec![false; 2],
///     transfers: Transfers { runs: vec![Run::default(); 2], rows: vec![] },
/// };
/// let by_hand = Tables::new(&t, built);
/// t.list_departures();
/// assert_eq!(by_hand, t.build(&mut Tally::new(), 0, Settings::DEFAULT)?);
/// # Ok::<(), savoiky::Refusal>(())
/// ```
#[derive(Clone, PartialEq, Debug)]
pub struct Tables {
    pub(crate) sizes: QuerySizes,
    pub(crate) words: Vec<u32>,
    pub(crate) built_words: Vec<u32>,
    pub(crate) transfers: Vec<u32>,
    pub(crate) patterns: Vec<u8>,
    pub(crate) distances: Vec<f64>,
    built: Built,
}

impl Tables {
    /// A timetable with lines, departures, marks and transfers as they are, made by hand or built. Nothing is asked here: a
    /// query's door looks at them. (The timetable's own listed departures are not read.)
    pub fn new(timetable: &Timetable, built: Built) -> Tables {
        Tables {
            sizes: sizes(timetable, &built),
            words: timetable.words(),
            built_words: built_words(timetable, &built),
            transfers: words(&built.transfers.rows, TripTransfer::words),
            patterns: timetable.patterns.iter().flat_map(|p| *p.bytes()).collect(),
            distances: timetable.walk_edges.iter().map(|e| e.distance_m).collect(),
            built,
        }
    }

    /// Lines, departures, marks and transfers.
    pub fn built(&self) -> &Built {
        &self.built
    }

    /// Lets a trip run from now on, or not; nothing built depends on it. False: there is no such trip.
    pub fn set_active(&mut self, trip: u32, active: bool) -> bool {
        self.set(trip, 6, active)
    }

    /// Shuts a trip out from now on, or lets it in again; nothing built depends on it. False: there is no such trip.
    pub fn set_excluded(&mut self, trip: u32, excluded: bool) -> bool {
        self.set(trip, 7, excluded)
    }

    /// A field of a trip's row: the trips' eight words stand after the stop times' six.
    fn set(&mut self, trip: u32, field: usize, value: bool) -> bool {
        let at = 6 * self.sizes.times as usize + 8 * trip as usize + field;
        match self.words.get_mut(at) {
            Some(word) if trip < self.sizes.trips => {
                *word = u32::from(value);
                true
            }
            _ => false,
        }
    }
}

fn sizes(t: &Timetable, b: &Built) -> QuerySizes {
    let c = t.counts();
    QuerySizes {
        stops: c.stops,
        trips: c.trips,
        times: c.times,
        windows: c.windows,
        edges: c.edges,
        cells: t.cells,
        patterns: count(t.patterns.len()),
        lines: count(b.lines.runs.len()),
        entries: count(b.lines.entries.len()),
        transfers: count(b.transfers.rows.len()),
        departures: count(b.departures.rows.len()),
        ..QuerySizes::default()
    }
}

/// The built parts in one slice. Parts of wrong lengths must not pass where only their sum is right: then it gets a word more.
fn built_words(t: &Timetable, b: &Built) -> Vec<u32> {
    let mut out = b.lines.of_trip.clone();
    out.extend(words(&b.lines.runs, Run::words));
    out.extend(&b.lines.entries);
    out.extend(words(&b.departures.runs, Run::words));
    out.extend(words(&b.departures.rows, Departure::words));
    out.extend(b.marks.iter().map(|m| u32::from(*m)));
    out.extend(words(&b.transfers.runs, Run::words));
    let stops = t.stops.len();
    let right = b.lines.of_trip.len() == t.trips.len()
        && b.departures.runs.len() == stops
        && b.marks.len() == stops
        && b.transfers.runs.len() as u64 == t.events();
    let (lines, departures) = (2 * b.lines.runs.len() + b.lines.entries.len(), 2 * b.departures.rows.len());
    let sum = (t.trips.len() + lines + 3 * stops + departures) as u64 + 2 * t.events();
    if !right && out.len() as u64 == sum {
        out.push(0);
    }
    out
}
