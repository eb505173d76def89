// The exported calls, as crates/exports declares them; bindings/c/savoiky.h says what each takes and gives.
// Written by bindings/generate: change crates/exports/src/lib.rt, not this file.

// What each code says: the question that was answered no. In the order of asking.
pub const QUESTIONS: [(u32, &str); 11] = [
    (0, "none: success"),
    (15, "Is the screen one of 0 to 63?"),
    (1, "Are all counts within the limits?"),
    (14, "Is every setting in its range?"),
    (2, "Is every lent slice exactly as long as its counts say?"),
    (3, "Has every trip a stop time, and do all runs lie in their tables?"),
    (4, "Is every stop, trip, line and delay-row number below its count, and each departure's offset below its trip's count, with that stop time at its stop?"),
    (5, "Is every time and code in its range?"),
    (6, "Are walk edges, delay rows, stop rows, egress stops and, for a query, departures in order?"),
    (7, "Building transfers: are there at most 65,536, and does the area hold all of them?"),
    (8, "Query: does a half of the segment queue hold every round's segments?"),
];

#[repr(C)]
#[derive(Clone, Copy, PartialEq, Debug)]
pub struct Tally {
    pub answered: [u32; 64],
    pub refused: [u32; 64],
}
const _: () = assert!(std::mem::size_of::<Tally>() == 512 && std::mem::align_of::<Tally>() == 4);

#[repr(C)]
#[derive(Clone, Copy, PartialEq, Debug)]
pub struct Settings {
    pub transfer_time: u32,
    pub line_scan: u32,
    pub candidate_slack: u32,
    pub margin_cap: u32,
}
const _: () = assert!(std::mem::size_of::<Settings>() == 16 && std::mem::align_of::<Settings>() == 4);

// The Rust's own four numbers, for a house that wants no others.
pub const DEFAULT_SETTINGS: Settings = Settings { transfer_time: 120, line_scan: 64, candidate_slack: 3600, margin_cap: 21600 };

#[repr(C)]
#[derive(Clone, Copy, PartialEq, Debug)]
pub struct CellBitSet {
    pub bytes: [u8; 64],
    pub reserved: u32,
}
const _: () = assert!(std::mem::size_of::<CellBitSet>() == 68 && std::mem::align_of::<CellBitSet>() == 4);

#[repr(C)]
#[derive(Clone, Copy, PartialEq, Debug)]
pub struct CellSetAnswer {
    pub code: u32,
    pub set: CellBitSet,
}
const _: () = assert!(std::mem::size_of::<CellSetAnswer>() == 72 && std::mem::align_of::<CellSetAnswer>() == 4);

#[repr(C)]
#[derive(Clone, Copy, PartialEq, Debug, Default)]
pub struct Answer {
    pub code: u32,
    pub value: u32,
}
const _: () = assert!(std::mem::size_of::<Answer>() == 8 && std::mem::align_of::<Answer>() == 4);

#[repr(C)]
#[derive(Clone, Copy, PartialEq, Debug, Default)]
pub struct FreqAnswer {
    pub code: u32,
    pub found: u32,
    pub departure: u32,
    pub time_shift_s: u32,
    pub window: u32,
    pub run: u32,
    pub quotient: u32,
    pub remainder: u32,
    pub wait: u32,
}
const _: () = assert!(std::mem::size_of::<FreqAnswer>() == 36 && std::mem::align_of::<FreqAnswer>() == 4);

#[repr(C)]
#[derive(Clone, Copy, PartialEq, Debug, Default)]
pub struct DelayAt {
    pub code: u32,
    pub known: u32,
    pub trip_delay: u32,
    pub flags: u32,
    pub departure_delay: u32,
    pub arrival_delay: u32,
}
const _: () = assert!(std::mem::size_of::<DelayAt>() == 24 && std::mem::align_of::<DelayAt>() == 4);

#[repr(C)]
#[derive(Clone, Copy, PartialEq, Debug, Default)]
pub struct LabelRow {
    pub kind: u32,
    pub word1: u32,
    pub word2: u32,
    pub word3: u32,
    pub word4: u32,
    pub word5: u32,
    pub word6: u32,
    pub word7: u32,
    pub distance: f64,
}
const _: () = assert!(std::mem::size_of::<LabelRow>() == 40 && std::mem::align_of::<LabelRow>() == 8);

#[repr(C)]
#[derive(Clone, Copy, PartialEq, Debug)]
pub struct LabelAnswer {
    pub code: u32,
    pub row: LabelRow,
}
const _: () = assert!(std::mem::size_of::<LabelAnswer>() == 48 && std::mem::align_of::<LabelAnswer>() == 8);

#[repr(C)]
#[derive(Clone, Copy, PartialEq, Debug, Default)]
pub struct QuerySizes {
    pub trips: u32,
    pub windows: u32,
    pub times: u32,
    pub edges: u32,
    pub stops: u32,
    pub cells: u32,
    pub patterns: u32,
    pub lines: u32,
    pub entries: u32,
    pub transfers: u32,
    pub departures: u32,
    pub delays: u32,
    pub stop_rows: u32,
    pub origins: u32,
    pub egress: u32,
}
const _: () = assert!(std::mem::size_of::<QuerySizes>() == 60 && std::mem::align_of::<QuerySizes>() == 4);

#[repr(C)]
#[derive(Clone, Copy, PartialEq, Debug, Default)]
pub struct Reply {
    pub code: u32,
    pub total: u32,
    pub stop: u32,
    pub candidates: u32,
}
const _: () = assert!(std::mem::size_of::<Reply>() == 16 && std::mem::align_of::<Reply>() == 4);

extern "C" {
    pub fn savoiky_cell_bitset_new(tally: *mut Tally, screen: u32, settings: Settings, num_cells: u32) -> CellSetAnswer;
    pub fn savoiky_cell_bitset_ensure_sized(tally: *mut Tally, screen: u32, settings: Settings, set: CellBitSet,
        num_cells: u32) -> CellSetAnswer;
    pub fn savoiky_cell_bitset_set_bit(tally: *mut Tally, screen: u32, settings: Settings, set: CellBitSet,
        cell: u32) -> CellSetAnswer;
    pub fn savoiky_cell_bitset_get_bit(tally: *mut Tally, screen: u32, settings: Settings, set: CellBitSet, cell: u32) -> Answer;
    pub fn savoiky_cell_bitset_intersects(tally: *mut Tally, screen: u32, settings: Settings, set: CellBitSet,
        other: CellBitSet) -> Answer;
    pub fn savoiky_cell_bitset_union_with(tally: *mut Tally, screen: u32, settings: Settings, set: CellBitSet,
        other: CellBitSet) -> CellSetAnswer;
    pub fn savoiky_cell_bitset_is_empty(tally: *mut Tally, screen: u32, settings: Settings, set: CellBitSet) -> Answer;
    pub fn savoiky_walk_duration(tally: *mut Tally, screen: u32, settings: Settings, duration: u32, pathway_mode: u32,
        wheelchair: u32) -> Answer;
    pub fn savoiky_max_rounds(tally: *mut Tally, screen: u32, settings: Settings, wanted: u32, transfers: u32) -> Answer;
    pub fn savoiky_freq_board(tally: *mut Tally, screen: u32, settings: Settings, count: u32, windows: *const u32,
        windows_len: usize, base: u32, dep: u32, after: u32) -> FreqAnswer;
    pub fn savoiky_effective_departure(tally: *mut Tally, screen: u32, settings: Settings, departure: u32, trip_delay: u32,
        flags: u32, departure_delay: u32) -> Answer;
    pub fn savoiky_effective_arrival(tally: *mut Tally, screen: u32, settings: Settings, arrival: u32, time_shift_s: u32,
        trip_delay: u32, flags: u32, arrival_delay: u32) -> Answer;
    pub fn savoiky_skipped(tally: *mut Tally, screen: u32, settings: Settings, flags: u32) -> Answer;
    pub fn savoiky_margin(tally: *mut Tally, screen: u32, settings: Settings, trips: u32, delay_row_count: u32,
        stop_row_count: u32, delay_rows: *const u32, delay_rows_len: usize, stop_rows: *const u32,
        stop_rows_len: usize) -> Answer;
    pub fn savoiky_delay_at(tally: *mut Tally, screen: u32, settings: Settings, trips: u32, delay_row_count: u32,
        stop_row_count: u32, delay_rows: *const u32, delay_rows_len: usize, stop_rows: *const u32, stop_rows_len: usize,
        trip: u32, sequence: u32) -> DelayAt;
    pub fn savoiky_service_second(tally: *mut Tally, screen: u32, settings: Settings, hour: u32, minute: u32,
        second: u32) -> Answer;
    pub fn savoiky_label_store_access(tally: *mut Tally, screen: u32, settings: Settings, stops: u32, stop: u32, row: u32,
        stop_idx: u32, arrival_s: u32, walk_duration: u32, walk_distance: f64, labels: *mut u32, labels_len: usize,
        label_distances: *mut f64, label_distances_len: usize) -> u32;
    pub fn savoiky_label_store_transit(tally: *mut Tally, screen: u32, settings: Settings, stops: u32, stop: u32, row: u32,
        arrival_s: u32, trip_idx: u32, board_stop: u32, board_off: u32, alight_off: u32, prev_round: u32, time_shift_s: u32,
        labels: *mut u32, labels_len: usize, label_distances: *mut f64, label_distances_len: usize) -> u32;
    pub fn savoiky_label_store_walk(tally: *mut Tally, screen: u32, settings: Settings, stops: u32, stop: u32, row: u32,
        arrival_s: u32, from_stop: u32, to_stop: u32, duration_s: u32, distance_m: f64, prev_round: u32, labels: *mut u32,
        labels_len: usize, label_distances: *mut f64, label_distances_len: usize) -> u32;
    pub fn savoiky_label_load(tally: *mut Tally, screen: u32, settings: Settings, stops: u32, stop: u32, row: u32,
        labels: *const u32, labels_len: usize, label_distances: *const f64, label_distances_len: usize) -> LabelAnswer;
    pub fn savoiky_sort_stop_departures(tally: *mut Tally, screen: u32, settings: Settings, stops: u32, trips: u32, times: u32,
        windows: u32, edges: u32, departures: u32, tables: *const u32, tables_len: usize, runs: *const u32, runs_len: usize,
        rows: *mut u32, rows_len: usize, marks: *mut u32, marks_len: usize, work: *mut u64, work_len: usize, other: *mut u64,
        other_len: usize) -> u32;
    pub fn savoiky_compute_line_groups(tally: *mut Tally, screen: u32, settings: Settings, stops: u32, trips: u32, times: u32,
        windows: u32, edges: u32, tables: *const u32, tables_len: usize, lines: *mut u32, lines_len: usize, runs: *mut u32,
        runs_len: usize, entries: *mut u32, entries_len: usize, work: *mut u64, work_len: usize, other: *mut u64,
        other_len: usize) -> Answer;
    pub fn savoiky_line_layout(tally: *mut Tally, screen: u32, settings: Settings, stops: u32, trips: u32, times: u32,
        windows: u32, edges: u32, lines: u32, entry_count: u32, tables: *const u32, tables_len: usize, runs: *const u32,
        runs_len: usize, entries: *const u32, entries_len: usize, positions: *mut u32, positions_len: usize, fifo: *mut u32,
        fifo_len: usize) -> u32;
    pub fn savoiky_compute_trip_transfers(tally: *mut Tally, screen: u32, settings: Settings, stops: u32, trips: u32, times: u32,
        windows: u32, edges: u32, line_count: u32, departures: u32, tables: *const u32, tables_len: usize, lines: *const u32,
        lines_len: usize, runs: *const u32, runs_len: usize, rows: *const u32, rows_len: usize, area: *mut u32, area_len: usize,
        transfer_runs: *mut u32, transfer_runs_len: usize) -> Answer;
    pub fn savoiky_work_size(tally: *mut Tally, screen: u32, settings: Settings, sizes: QuerySizes) -> Answer;
    pub fn savoiky_run_tbr(tally: *mut Tally, screen: u32, settings: Settings, sizes: QuerySizes, tables: *const u32,
        tables_len: usize, built: *const u32, built_len: usize, transfers: *const u32, transfers_len: usize, patterns: *const u8,
        patterns_len: usize, distances: *const f64, distances_len: usize, query: *const u32, query_len: usize, labels: *mut u32,
        labels_len: usize, label_distances: *mut f64, label_distances_len: usize, work: *mut u32, work_len: usize,
        queue_a: *mut u32, queue_a_len: usize, queue_b: *mut u32, queue_b_len: usize, candidates: *mut u32,
        candidates_len: usize) -> Reply;
    pub fn savoiky_query(tally: *mut Tally, screen: u32, settings: Settings, sizes: QuerySizes, tables: *const u32,
        tables_len: usize, built: *const u32, built_len: usize, transfers: *const u32, transfers_len: usize, patterns: *const u8,
        patterns_len: usize, distances: *const f64, distances_len: usize, query: *const u32, query_len: usize, labels: *mut u32,
        labels_len: usize, label_distances: *mut f64, label_distances_len: usize, work: *mut u32, work_len: usize,
        queue_a: *mut u32, queue_a_len: usize, queue_b: *mut u32, queue_b_len: usize, candidates: *mut u32,
        candidates_len: usize) -> Reply;
}
