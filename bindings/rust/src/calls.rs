//! Every exported call on slices, and all the unsafe code of the crate.
//!
//! Each function is safe for any arguments: the calls have no precondition but that a pointer and a length are those of a
//! slice, that the tally is a record of the box and that nothing else has what they write. They answer every input, what they do
//! not admit by a number.
use crate::settings::Settings;
use crate::sys::{self, Answer, CellBitSet, CellSetAnswer, DelayAt, FreqAnswer, LabelAnswer, QuerySizes, Reply};
use crate::tally::Tally;

/// The counts of a timetable: stops, trips, stop times, windows, walk edges.
#[derive(Clone, Copy)]
pub struct Counts {
    pub stops: u32,
    pub trips: u32,
    pub times: u32,
    pub windows: u32,
    pub edges: u32,
}

/// A timetable laid out: its counts and its words.
pub struct Laid<'a> {
    pub counts: Counts,
    pub tables: &'a [u32],
}

pub fn cell_bitset_new(tally: &mut Tally, screen: u32, settings: Settings, num_cells: u32) -> CellSetAnswer {
    unsafe { sys::savoiky_cell_bitset_new(tally.record(), screen, settings.words(), num_cells) }
}

pub fn cell_bitset_ensure_sized(
    tally: &mut Tally,
    screen: u32,
    settings: Settings,
    set: CellBitSet,
    num_cells: u32,
) -> CellSetAnswer {
    unsafe { sys::savoiky_cell_bitset_ensure_sized(tally.record(), screen, settings.words(), set, num_cells) }
}

pub fn cell_bitset_set_bit(tally: &mut Tally, screen: u32, settings: Settings, set: CellBitSet, cell: u32) -> CellSetAnswer {
    unsafe { sys::savoiky_cell_bitset_set_bit(tally.record(), screen, settings.words(), set, cell) }
}

pub fn cell_bitset_get_bit(tally: &mut Tally, screen: u32, settings: Settings, set: CellBitSet, cell: u32) -> Answer {
    unsafe { sys::savoiky_cell_bitset_get_bit(tally.record(), screen, settings.words(), set, cell) }
}

pub fn cell_bitset_intersects(tally: &mut Tally, screen: u32, settings: Settings, set: CellBitSet, other: CellBitSet) -> Answer {
    unsafe { sys::savoiky_cell_bitset_intersects(tally.record(), screen, settings.words(), set, other) }
}

pub fn cell_bitset_union_with(
    tally: &mut Tally,
    screen: u32,
    settings: Settings,
    set: CellBitSet,
    other: CellBitSet,
) -> CellSetAnswer {
    unsafe { sys::savoiky_cell_bitset_union_with(tally.record(), screen, settings.words(), set, other) }
}

pub fn cell_bitset_is_empty(tally: &mut Tally, screen: u32, settings: Settings, set: CellBitSet) -> Answer {
    unsafe { sys::savoiky_cell_bitset_is_empty(tally.record(), screen, settings.words(), set) }
}

pub fn walk_duration(
    tally: &mut Tally,
    screen: u32,
    settings: Settings,
    duration: u32,
    pathway_mode: u32,
    wheelchair: u32,
) -> Answer {
    unsafe { sys::savoiky_walk_duration(tally.record(), screen, settings.words(), duration, pathway_mode, wheelchair) }
}

pub fn max_rounds(tally: &mut Tally, screen: u32, settings: Settings, wanted: u32, transfers: u32) -> Answer {
    unsafe { sys::savoiky_max_rounds(tally.record(), screen, settings.words(), wanted, transfers) }
}

pub fn freq_board(
    tally: &mut Tally,
    screen: u32,
    settings: Settings,
    count: u32,
    windows: &[u32],
    [base, dep, after]: [u32; 3],
) -> FreqAnswer {
    unsafe {
        sys::savoiky_freq_board(
            tally.record(),
            screen,
            settings.words(),
            count,
            windows.as_ptr(),
            windows.len(),
            base,
            dep,
            after,
        )
    }
}

/// The delay of a stop time: the trip's, the flags, the departure's or the arrival's own.
pub struct Delay {
    pub of_trip: u32,
    pub flags: u32,
    pub own: u32,
}

pub fn effective_departure(tally: &mut Tally, screen: u32, settings: Settings, departure: u32, d: Delay) -> Answer {
    unsafe { sys::savoiky_effective_departure(tally.record(), screen, settings.words(), departure, d.of_trip, d.flags, d.own) }
}

pub fn effective_arrival(tally: &mut Tally, screen: u32, settings: Settings, arrival: u32, shift: u32, d: Delay) -> Answer {
    unsafe { sys::savoiky_effective_arrival(tally.record(), screen, settings.words(), arrival, shift, d.of_trip, d.flags, d.own) }
}

pub fn skipped(tally: &mut Tally, screen: u32, settings: Settings, flags: u32) -> Answer {
    unsafe { sys::savoiky_skipped(tally.record(), screen, settings.words(), flags) }
}

/// The delay tables: how many trips there are, delay rows, stop rows; the rows' words.
pub struct Delayed<'a> {
    pub trips: u32,
    pub delay_rows: u32,
    pub stop_row_count: u32,
    pub rows: &'a [u32],
    pub stop_rows: &'a [u32],
}

pub fn margin(tally: &mut Tally, screen: u32, settings: Settings, d: &Delayed) -> Answer {
    unsafe {
        sys::savoiky_margin(
            tally.record(),
            screen,
            settings.words(),
            d.trips,
            d.delay_rows,
            d.stop_row_count,
            d.rows.as_ptr(),
            d.rows.len(),
            d.stop_rows.as_ptr(),
            d.stop_rows.len(),
        )
    }
}

pub fn delay_at(tally: &mut Tally, screen: u32, settings: Settings, d: &Delayed, trip: u32, sequence: u32) -> DelayAt {
    unsafe {
        sys::savoiky_delay_at(
            tally.record(),
            screen,
            settings.words(),
            d.trips,
            d.delay_rows,
            d.stop_row_count,
            d.rows.as_ptr(),
            d.rows.len(),
            d.stop_rows.as_ptr(),
            d.stop_rows.len(),
            trip,
            sequence,
        )
    }
}

pub fn service_second(tally: &mut Tally, screen: u32, settings: Settings, hour: u32, minute: u32, second: u32) -> Answer {
    unsafe { sys::savoiky_service_second(tally.record(), screen, settings.words(), hour, minute, second) }
}

/// Where a label is stored: how many stops there are, its stop and row, the label tables.
pub struct Place<'a> {
    pub stops: u32,
    pub stop: u32,
    pub row: u32,
    pub labels: &'a mut [u32],
    pub distances: &'a mut [f64],
}

/// `stop_idx`, `arrival_s`, `walk_duration`.
pub fn label_store_access(
    tally: &mut Tally,
    screen: u32,
    settings: Settings,
    p: Place,
    [stop_idx, arrival_s, walk_duration]: [u32; 3],
    walk_distance: f64,
) -> u32 {
    let (labels, distances) = (p.labels, p.distances);
    unsafe {
        sys::savoiky_label_store_access(
            tally.record(),
            screen,
            settings.words(),
            p.stops,
            p.stop,
            p.row,
            stop_idx,
            arrival_s,
            walk_duration,
            walk_distance,
            labels.as_mut_ptr(),
            labels.len(),
            distances.as_mut_ptr(),
            distances.len(),
        )
    }
}

/// `arrival_s`, `trip_idx`, `board_stop`, `board_off`, `alight_off`, `prev_round`, `time_shift_s`.
pub fn label_store_transit(
    tally: &mut Tally,
    screen: u32,
    settings: Settings,
    p: Place,
    [arrival_s, trip_idx, board_stop, board_off, alight_off, prev_round, shift]: [u32; 7],
) -> u32 {
    let (labels, distances) = (p.labels, p.distances);
    unsafe {
        sys::savoiky_label_store_transit(
            tally.record(),
            screen,
            settings.words(),
            p.stops,
            p.stop,
            p.row,
            arrival_s,
            trip_idx,
            board_stop,
            board_off,
            alight_off,
            prev_round,
            shift,
            labels.as_mut_ptr(),
            labels.len(),
            distances.as_mut_ptr(),
            distances.len(),
        )
    }
}

/// `arrival_s`, `from_stop`, `to_stop`, `duration_s`, `prev_round`.
pub fn label_store_walk(
    tally: &mut Tally,
    screen: u32,
    settings: Settings,
    p: Place,
    [arrival_s, from_stop, to_stop, duration_s, prev_round]: [u32; 5],
    distance_m: f64,
) -> u32 {
    let (labels, distances) = (p.labels, p.distances);
    unsafe {
        sys::savoiky_label_store_walk(
            tally.record(),
            screen,
            settings.words(),
            p.stops,
            p.stop,
            p.row,
            arrival_s,
            from_stop,
            to_stop,
            duration_s,
            distance_m,
            prev_round,
            labels.as_mut_ptr(),
            labels.len(),
            distances.as_mut_ptr(),
            distances.len(),
        )
    }
}

/// Where a label is read: how many stops there are, its stop and row, the label tables.
pub struct Stored<'a> {
    pub stops: u32,
    pub stop: u32,
    pub row: u32,
    pub labels: &'a [u32],
    pub distances: &'a [f64],
}

pub fn label_load(tally: &mut Tally, screen: u32, settings: Settings, s: &Stored) -> LabelAnswer {
    unsafe {
        sys::savoiky_label_load(
            tally.record(),
            screen,
            settings.words(),
            s.stops,
            s.stop,
            s.row,
            s.labels.as_ptr(),
            s.labels.len(),
            s.distances.as_ptr(),
            s.distances.len(),
        )
    }
}

/// What departure sorting writes.
pub struct SortAreas<'a> {
    pub rows: &'a mut [u32],
    pub marks: &'a mut [u32],
    pub work: &'a mut [u64],
    pub other: &'a mut [u64],
}

pub fn sort_stop_departures(
    tally: &mut Tally,
    screen: u32,
    settings: Settings,
    t: &Laid,
    departures: u32,
    runs: &[u32],
    a: SortAreas,
) -> u32 {
    unsafe {
        sys::savoiky_sort_stop_departures(
            tally.record(),
            screen,
            settings.words(),
            t.counts.stops,
            t.counts.trips,
            t.counts.times,
            t.counts.windows,
            t.counts.edges,
            departures,
            t.tables.as_ptr(),
            t.tables.len(),
            runs.as_ptr(),
            runs.len(),
            a.rows.as_mut_ptr(),
            a.rows.len(),
            a.marks.as_mut_ptr(),
            a.marks.len(),
            a.work.as_mut_ptr(),
            a.work.len(),
            a.other.as_mut_ptr(),
            a.other.len(),
        )
    }
}

/// What line grouping writes.
pub struct LineAreas<'a> {
    pub lines: &'a mut [u32],
    pub runs: &'a mut [u32],
    pub entries: &'a mut [u32],
    pub work: &'a mut [u64],
    pub other: &'a mut [u64],
}

pub fn compute_line_groups(tally: &mut Tally, screen: u32, settings: Settings, t: &Laid, a: LineAreas) -> Answer {
    unsafe {
        sys::savoiky_compute_line_groups(
            tally.record(),
            screen,
            settings.words(),
            t.counts.stops,
            t.counts.trips,
            t.counts.times,
            t.counts.windows,
            t.counts.edges,
            t.tables.as_ptr(),
            t.tables.len(),
            a.lines.as_mut_ptr(),
            a.lines.len(),
            a.runs.as_mut_ptr(),
            a.runs.len(),
            a.entries.as_mut_ptr(),
            a.entries.len(),
            a.work.as_mut_ptr(),
            a.work.len(),
            a.other.as_mut_ptr(),
            a.other.len(),
        )
    }
}

/// Lines as `line_layout` reads them: how many, how many entries, the runs, the entries.
pub struct LineTable<'a> {
    pub lines: u32,
    pub entry_count: u32,
    pub runs: &'a [u32],
    pub entries: &'a [u32],
}

pub fn line_layout(
    tally: &mut Tally,
    screen: u32,
    settings: Settings,
    t: &Laid,
    l: &LineTable,
    positions: &mut [u32],
    fifo: &mut [u32],
) -> u32 {
    unsafe {
        sys::savoiky_line_layout(
            tally.record(),
            screen,
            settings.words(),
            t.counts.stops,
            t.counts.trips,
            t.counts.times,
            t.counts.windows,
            t.counts.edges,
            l.lines,
            l.entry_count,
            t.tables.as_ptr(),
            t.tables.len(),
            l.runs.as_ptr(),
            l.runs.len(),
            l.entries.as_ptr(),
            l.entries.len(),
            positions.as_mut_ptr(),
            positions.len(),
            fifo.as_mut_ptr(),
            fifo.len(),
        )
    }
}

/// What transfer building reads beside the timetable: how many lines and departures, each trip's line, the stops' runs, the
/// departures.
pub struct Linked<'a> {
    pub line_count: u32,
    pub departures: u32,
    pub lines: &'a [u32],
    pub runs: &'a [u32],
    pub rows: &'a [u32],
}

pub fn compute_trip_transfers(
    tally: &mut Tally,
    screen: u32,
    settings: Settings,
    t: &Laid,
    l: &Linked,
    area: &mut [u32],
    transfer_runs: &mut [u32],
) -> Answer {
    unsafe {
        sys::savoiky_compute_trip_transfers(
            tally.record(),
            screen,
            settings.words(),
            t.counts.stops,
            t.counts.trips,
            t.counts.times,
            t.counts.windows,
            t.counts.edges,
            l.line_count,
            l.departures,
            t.tables.as_ptr(),
            t.tables.len(),
            l.lines.as_ptr(),
            l.lines.len(),
            l.runs.as_ptr(),
            l.runs.len(),
            l.rows.as_ptr(),
            l.rows.len(),
            area.as_mut_ptr(),
            area.len(),
            transfer_runs.as_mut_ptr(),
            transfer_runs.len(),
        )
    }
}

pub fn work_size(tally: &mut Tally, screen: u32, settings: Settings, sizes: QuerySizes) -> Answer {
    unsafe { sys::savoiky_work_size(tally.record(), screen, settings.words(), sizes) }
}

/// Which call answers a query.
#[derive(Clone, Copy)]
pub enum Call {
    RunTbr,
    Query,
}

/// What a query is lent to read.
pub struct Read<'a> {
    pub sizes: QuerySizes,
    pub tables: &'a [u32],
    pub built: &'a [u32],
    pub transfers: &'a [u32],
    pub patterns: &'a [u8],
    pub distances: &'a [f64],
    pub query: &'a [u32],
}

/// What a query is lent to write.
pub struct Areas<'a> {
    pub labels: &'a mut [u32],
    pub label_distances: &'a mut [f64],
    pub work: &'a mut [u32],
    pub queue_a: &'a mut [u32],
    pub queue_b: &'a mut [u32],
    pub candidates: &'a mut [u32],
}

pub fn ask(tally: &mut Tally, screen: u32, settings: Settings, call: Call, r: &Read, a: Areas) -> Reply {
    let answer = match call {
        Call::RunTbr => sys::savoiky_run_tbr,
        Call::Query => sys::savoiky_query,
    };
    unsafe {
        answer(
            tally.record(),
            screen,
            settings.words(),
            r.sizes,
            r.tables.as_ptr(),
            r.tables.len(),
            r.built.as_ptr(),
            r.built.len(),
            r.transfers.as_ptr(),
            r.transfers.len(),
            r.patterns.as_ptr(),
            r.patterns.len(),
            r.distances.as_ptr(),
            r.distances.len(),
            r.query.as_ptr(),
            r.query.len(),
            a.labels.as_mut_ptr(),
            a.labels.len(),
            a.label_distances.as_mut_ptr(),
            a.label_distances.len(),
            a.work.as_mut_ptr(),
            a.work.len(),
            a.queue_a.as_mut_ptr(),
            a.queue_a.len(),
            a.queue_b.as_mut_ptr(),
            a.queue_b.len(),
            a.candidates.as_mut_ptr(),
            a.candidates.len(),
        )
    }
}

#[cfg(test)]
mod tests {
    use super::*;

    /// Memory of any content that a call is lent to write.
    #[derive(Clone, PartialEq, Debug)]
    struct Lent {
        words: [Vec<u32>; 6],
        distances: Vec<f64>,
        sorted: [Vec<u64>; 2],
    }

    fn lent(words: [usize; 6], distances: usize, sorted: usize) -> Lent {
        Lent { words: words.map(|len| vec![7; len]), distances: vec![7.5; distances], sorted: [vec![7; sorted], vec![7; sorted]] }
    }

    const SETTINGS: Settings = Settings::DEFAULT;

    /// A trip from stop 0 to stop 1, listed at stop 0.
    const TABLES: [u32; 22] = [0, 100, 100, 1, 0, 0, 1, 200, 200, 2, 0, 0, 0, 2, 0, 0, 0, 0, 1, 0, 0, 0];
    const LAID: Laid = Laid { counts: Counts { stops: 2, trips: 1, times: 2, windows: 0, edges: 0 }, tables: &TABLES };
    const RUNS: [u32; 4] = [0, 1, 1, 0];

    fn place(l: &mut Lent) -> Place<'_> {
        Place { stops: 2, stop: 1, row: 3, labels: &mut l.words[0], distances: &mut l.distances }
    }

    fn asked(call: Call, l: &mut Lent, tally: &mut Tally, screen: u32) -> u32 {
        let (origins, egress) = (1, 1);
        let sizes = QuerySizes {
            trips: 1,
            times: 2,
            stops: 2,
            lines: 1,
            entries: 1,
            departures: 1,
            origins,
            egress,
            ..Default::default()
        };
        // a line, its run, its entry; the stops' runs, the departure, the marks; the transfers' runs
        let built = [0, 0, 1, 0, 0, 1, 1, 0, 0, 0, 0, 0, 0, 0, 0, 0];
        let query = [90, 120, 0, 0, 0, 0, 0, 0, 10, 1, 5];
        let read =
            Read { sizes, tables: &TABLES, built: &built, transfers: &[], patterns: &[], distances: &[1.5], query: &query };
        let [labels, work, queue_a, queue_b, candidates, _] = &mut l.words;
        let areas = Areas { labels, label_distances: &mut l.distances, work, queue_a, queue_b, candidates };
        ask(tally, screen, SETTINGS, call, &read, areas).code
    }

    type Made = fn(&mut Lent, &mut Tally, u32) -> u32;

    /// Every call that writes, and memory for it.
    fn writing() -> [(Lent, Made); 9] {
        let labels = lent([208, 0, 0, 0, 0, 0], 26, 0);
        let query = lent([208, 149, 8, 8, 39, 0], 26, 0);
        let mut listed = lent([2, 2, 0, 0, 0, 0], 0, 1);
        listed.words[0].fill(0); // trip 0 at its offset 0
        [
            (labels.clone(), |l, t, n| label_store_access(t, n, SETTINGS, place(l), [1, 2, 3], 4.5)),
            (labels.clone(), |l, t, n| label_store_transit(t, n, SETTINGS, place(l), [1; 7])),
            (labels, |l, t, n| label_store_walk(t, n, SETTINGS, place(l), [1; 5], 4.5)),
            (listed, |l, t, n| {
                let ([rows, marks, ..], [work, other]) = (&mut l.words, &mut l.sorted);
                sort_stop_departures(t, n, SETTINGS, &LAID, 1, &RUNS, SortAreas { rows, marks, work, other })
            }),
            (lent([1, 2, 1, 0, 0, 0], 0, 1), |l, t, n| {
                let ([lines, runs, entries, ..], [work, other]) = (&mut l.words, &mut l.sorted);
                compute_line_groups(t, n, SETTINGS, &LAID, LineAreas { lines, runs, entries, work, other }).code
            }),
            (lent([1, 1, 0, 0, 0, 0], 0, 0), |l, t, n| {
                let table = LineTable { lines: 1, entry_count: 1, runs: &[0, 1], entries: &[0] };
                let [positions, fifo, ..] = &mut l.words;
                line_layout(t, n, SETTINGS, &LAID, &table, positions, fifo)
            }),
            (lent([4, 4, 0, 0, 0, 0], 0, 0), |l, t, n| {
                let linked = Linked { line_count: 1, departures: 1, lines: &[0], runs: &RUNS, rows: &[0, 0] };
                let [area, transfer_runs, ..] = &mut l.words;
                compute_trip_transfers(t, n, SETTINGS, &LAID, &linked, area, transfer_runs).code
            }),
            (query.clone(), |l, t, n| asked(Call::RunTbr, l, t, n)),
            (query, |l, t, n| asked(Call::Query, l, t, n)),
        ]
    }

    #[test]
    fn nothing_lent_is_touched_for_no_screen() {
        for (before, call) in writing() {
            let (mut lent, mut tally) = (before.clone(), Tally::new());
            for screen in [64, u32::MAX] {
                assert_eq!((call(&mut lent, &mut tally, screen), tally.total()), (15, 0));
                assert_eq!(lent, before);
            }
            assert_eq!((call(&mut lent, &mut tally, 63), tally.answered(63), tally.total()), (0, 1, 1));
            assert_ne!(lent, before);
        }
    }
}
