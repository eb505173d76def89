// The metered calls: each exported call under its own name without tally and screen, for the comparisons. It is lent a tally and made for a random
// screen, and the tally is then compared with a count of ours, every byte; one call in 16 is made before for a screen above 63 as well, with the same
// arguments: it must be refused by 15, and leave the tally and every slice lent to be written as they came. Of each thread: a tally, a count and random
// numbers of its own; about once in 1,024 calls the tally is set anew, at times to the greatest counts. `--cfg timed`, for the timings: the call alone, for
// one screen, nothing compared. What is called is the library or, for MOCK=1, the stand-ins (mock.rs, mock_boarding.rs, mock_cells.rs).
#[cfg(not(mock))]
use sys as exported;

// ANSWERS

// an answer's code; are two answers the same, bit for bit?
trait Coded {
    fn code(&self) -> u32;
    fn same(&self, other: &Self) -> bool;
}

impl Coded for u32 {
    fn code(&self) -> u32 {
        *self
    }
    fn same(&self, other: &u32) -> bool {
        self == other
    }
}

macro_rules! coded {
    ($($answer:ty),*) => {$(
        impl Coded for $answer {
            fn code(&self) -> u32 {
                self.code
            }
            fn same(&self, other: &$answer) -> bool {
                self == other
            }
        }
    )*};
}
coded!(CellSetAnswer, Answer, FreqAnswer, DelayAt, Reply);

impl Coded for LabelAnswer {
    fn code(&self) -> u32 {
        self.code
    }
    fn same(&self, other: &LabelAnswer) -> bool {
        self == other && self.row.distance.to_bits() == other.row.distance.to_bits()
    }
}

// THE COUNT

// the counts in a tally: answered of each screen, then refused of each
const SCREENS: usize = 64;
const GREATEST: u64 = u32::MAX as u64;

// Of one thread.
struct Meter {
    r: Random,
    // an allocation of its own, so that a memory checker sees an access past its end
    tally: Box<sys::Tally>,
    // our count: without a greatest number, and cut to it as the tally must show it
    counts: [u64; 2 * SCREENS],
    shown: [u32; 2 * SCREENS],
    seen: Seen,
}

// What was met: of each call, how many were made for a screen up to 63, and how many above; of each count, how often it was added to and how often of
// these it stayed at the greatest number.
struct Seen {
    made: [u64; CALLS.len()],
    above: [u64; CALLS.len()],
    added: [u64; 2 * SCREENS],
    stayed: [u64; 2 * SCREENS],
}

const UNSEEN: Seen = Seen { made: [0; CALLS.len()], above: [0; CALLS.len()], added: [0; 2 * SCREENS], stayed: [0; 2 * SCREENS] };

thread_local! {
    static METER: std::cell::RefCell<Meter> = std::cell::RefCell::new(Meter::new(0x7A11));
}
// of all threads that have handed in what they have seen; differences at once
static SEEN: std::sync::Mutex<Seen> = std::sync::Mutex::new(UNSEEN);
static DIFFERED: std::sync::atomic::AtomicU64 = std::sync::atomic::AtomicU64::new(0);

impl Meter {
    fn new(seed: u64) -> Meter {
        let tally = Box::new(sys::Tally { answered: [0; SCREENS], refused: [0; SCREENS] });
        let mut m = Meter { r: Random(seed), tally, counts: [0; 2 * SCREENS], shown: [0; 2 * SCREENS], seen: UNSEEN };
        m.set_anew();
        m
    }

    // all counts 0, all at one of the greatest, all any, or each of its own kind
    fn set_anew(&mut self) {
        let kind = self.r.below(6);
        for n in &mut self.counts {
            *n = match if kind < 4 { kind } else { self.r.below(4) } {
                0 => 0,
                1 => GREATEST,
                2 => GREATEST - 1,
                _ => self.r.next() % (GREATEST + 1),
            };
        }
        self.shown = self.counts.map(|n| n.min(GREATEST) as u32);
        self.put_back();
    }

    // the tally as it must be
    fn put_back(&mut self) {
        self.tally.answered.copy_from_slice(&self.shown[..SCREENS]);
        self.tally.refused.copy_from_slice(&self.shown[SCREENS..]);
    }

    // the screen of a call, the first and the last more often; for one call in 16 a screen above 63 besides
    fn screens(&mut self) -> (u32, Option<u32>) {
        let n = self.r.next();
        if n >> 40 & 1023 == 0 {
            self.set_anew();
        }
        let any = (n & 63) as u32;
        let screen = match n >> 8 & 15 {
            0 => 0,
            1 => SCREENS as u32 - 1,
            _ => any,
        };
        (screen, if n >> 16 & 15 == 0 { Some(self.above(any)) } else { None })
    }

    // next to the last, at the ends of fewer bits, the greatest, a screen in its lowest bits, any
    fn above(&mut self, screen: u32) -> u32 {
        match self.r.below(10) {
            k @ 0..=6 => [64, 65, 127, 128, 255, 256, u32::MAX][k as usize],
            7 => screen + (64 << self.r.below(26)),
            _ => (self.r.next() as u32).max(64),
        }
    }

    fn differs(&mut self, call: Metered, screen: u32, code: u32, what: &str) {
        if DIFFERED.fetch_add(1, std::sync::atomic::Ordering::Relaxed) < 10 {
            println!("tally: {} for screen {screen}, code {code}: {what}", CALLS[call as usize]);
        }
    }

    // is the tally ours, every byte? Where not, it is put back.
    fn compare(&mut self, call: Metered, screen: u32, code: u32) {
        let (answered, refused) = self.shown.split_at(SCREENS);
        if self.tally.answered == answered && self.tally.refused == refused {
            return;
        }
        let counts = self.tally.answered.iter().chain(&self.tally.refused);
        let (k, (is, want)) = counts.zip(&self.shown).enumerate().find(|(_, (is, want))| is != want).unwrap();
        let which = if k < SCREENS { "answered" } else { "refused" };
        let what = format!("{which} of screen {} is {is}, not {want}", k % SCREENS);
        self.differs(call, screen, code, &what);
        self.put_back();
    }

    // after a call for a screen up to 63: one more of the answered or refused
    fn count(&mut self, call: Metered, screen: u32, code: u32) {
        let k = screen as usize + if code == 0 { 0 } else { SCREENS };
        self.counts[k] += 1;
        self.shown[k] = self.counts[k].min(GREATEST) as u32;
        self.seen.made[call as usize] += 1;
        self.seen.added[k] += 1;
        self.seen.stayed[k] += (self.counts[k] > GREATEST) as u64;
        if code == 15 {
            self.differs(call, screen, code, "refused by 15");
        }
        self.compare(call, screen, code);
    }

    // after one for a screen above 63: none more
    fn refuse(&mut self, call: Metered, screen: u32, code: u32, right: bool, kept: bool) {
        self.seen.above[call as usize] += 1;
        if !right {
            self.differs(call, screen, code, if code == 15 { "other values beside 15 than there must be" } else { "not refused by 15" });
        }
        if !kept {
            self.differs(call, screen, code, "a slice that was lent is not as it came");
        }
        self.compare(call, screen, code);
    }
}

// THE ENDS OF A RUN

// the random numbers of this thread
fn meter_from(seed: u64) {
    METER.with(|m| *m.borrow_mut() = Meter::new(!seed.rotate_left(17)));
}

// what this thread has seen, put to that of the others
fn hand_in() {
    let seen = METER.with(|m| std::mem::replace(&mut m.borrow_mut().seen, UNSEEN));
    let mut all = SEEN.lock().unwrap();
    let add = |to: &mut [u64], from: &[u64]| to.iter_mut().zip(from).for_each(|(a, b)| *a += b);
    add(&mut all.made, &seen.made);
    add(&mut all.above, &seen.above);
    add(&mut all.added, &seen.added);
    add(&mut all.stayed, &seen.stayed);
}

fn tally_differed() -> u64 {
    DIFFERED.load(std::sync::atomic::Ordering::Relaxed)
}

// At a program's end: prints what was counted. Has nothing differed, were both counts of every screen added to and some of each at the greatest number,
// and was each call that was made refused by 15 too?
fn tally_fine() -> bool {
    hand_in();
    let t = SEEN.lock().unwrap();
    let (kinds, above) = (t.made.iter().filter(|n| **n > 0).count(), t.above.iter().filter(|n| **n > 0).count());
    let screens = (0..SCREENS).filter(|s| t.added[*s] > 0 && t.added[s + SCREENS] > 0).count();
    let [answered, refused] = [0, SCREENS].map(|k| t.stayed[k..k + SCREENS].iter().sum::<u64>());
    let (made, by_15, differed) = (t.made.iter().sum::<u64>(), t.above.iter().sum::<u64>(), tally_differed());
    let greatest = format!("{} at the greatest count ({answered} answered, {refused} refused)", answered + refused);
    println!("tally: {made} calls of {kinds} kinds for {screens} screens, {by_15} more of {above} kinds refused by 15, {greatest}: {differed} differed");
    differed == 0 && screens == SCREENS && kinds == above && answered > 0 && refused > 0
}

// THE CALLS

unsafe fn bytes_of_slice<T>(p: *mut T, n: usize) -> &'static [u8] {
    std::slice::from_raw_parts(p as *const u8, n * std::mem::size_of::<T>())
}

// for the timings: one tally, one screen
const TIMED: u32 = 7;
static mut TIMED_TALLY: sys::Tally = sys::Tally { answered: [0; SCREENS], refused: [0; SCREENS] };

// of each call: what it takes after the settings, what it gives for a screen above 63, and which slices it is lent to write, with their lengths
macro_rules! metered {
    ($($name:ident($($arg:ident: $type:ty),*) -> $answer:ty { $above:expr } $(writes $($slice:ident $len:ident),*)?;)*) => {
        #[derive(Clone, Copy)]
        enum Metered { $($name),* }
        const CALLS: [&str; 27] = [$(stringify!($name)),*];
        $(
            #[cfg(not(timed))]
            pub unsafe fn $name(settings: Settings, $($arg: $type),*) -> $answer {
                METER.with(|m| {
                    let m = &mut *m.borrow_mut();
                    let (screen, above) = m.screens();
                    if let Some(above) = above {
                        let came: Vec<Vec<u8>> = vec![$($(bytes_of_slice($slice, $len).to_vec()),*)?];
                        let got: $answer = exported::$name(&mut *m.tally, above, settings, $($arg),*);
                        let lent: Vec<&[u8]> = vec![$($(bytes_of_slice($slice, $len)),*)?];
                        m.refuse(Metered::$name, above, got.code(), got.same(&$above), came == lent);
                    }
                    let got: $answer = exported::$name(&mut *m.tally, screen, settings, $($arg),*);
                    m.count(Metered::$name, screen, got.code());
                    got
                })
            }
            #[cfg(timed)]
            #[inline(always)]
            pub unsafe fn $name(settings: Settings, $($arg: $type),*) -> $answer {
                exported::$name(std::ptr::addr_of_mut!(TIMED_TALLY), TIMED, settings, $($arg),*)
            }
        )*
    };
}

metered! {
    savoiky_cell_bitset_new(num_cells: u32) -> CellSetAnswer { CellSetAnswer { code: 15, set: CellBitSet { bytes: [0; 64], reserved: 0 } } };
    savoiky_cell_bitset_ensure_sized(set: CellBitSet, num_cells: u32) -> CellSetAnswer { CellSetAnswer { code: 15, set } };
    savoiky_cell_bitset_set_bit(set: CellBitSet, cell: u32) -> CellSetAnswer { CellSetAnswer { code: 15, set } };
    savoiky_cell_bitset_get_bit(set: CellBitSet, cell: u32) -> Answer { Answer { code: 15, value: 0 } };
    savoiky_cell_bitset_intersects(set: CellBitSet, other: CellBitSet) -> Answer { Answer { code: 15, value: 0 } };
    savoiky_cell_bitset_union_with(set: CellBitSet, other: CellBitSet) -> CellSetAnswer { CellSetAnswer { code: 15, set } };
    savoiky_cell_bitset_is_empty(set: CellBitSet) -> Answer { Answer { code: 15, value: 0 } };
    savoiky_walk_duration(duration: u32, pathway_mode: u32, wheelchair: u32) -> Answer { Answer { code: 15, value: 0 } };
    savoiky_max_rounds(wanted: u32, transfers: u32) -> Answer { Answer { code: 15, value: 0 } };
    savoiky_freq_board(count: u32, windows: *const u32, windows_len: usize, base: u32, dep: u32, after: u32) -> FreqAnswer { no_board(15) };
    savoiky_effective_departure(departure: u32, trip_delay: u32, flags: u32, departure_delay: u32) -> Answer { Answer { code: 15, value: 0 } };
    savoiky_effective_arrival(arrival: u32, time_shift_s: u32, trip_delay: u32, flags: u32, arrival_delay: u32) -> Answer { Answer { code: 15, value: 0 } };
    savoiky_skipped(flags: u32) -> Answer { Answer { code: 15, value: 0 } };
    savoiky_margin(
        trips: u32, delay_row_count: u32, stop_row_count: u32, delay_rows: *const u32, delay_rows_len: usize, stop_rows: *const u32, stop_rows_len: usize
    ) -> Answer { Answer { code: 15, value: 0 } };
    savoiky_delay_at(
        trips: u32, delay_row_count: u32, stop_row_count: u32, delay_rows: *const u32, delay_rows_len: usize, stop_rows: *const u32, stop_rows_len: usize,
        trip: u32, sequence: u32
    ) -> DelayAt { DelayAt { code: 15, known: 0, trip_delay: 0, flags: 0, departure_delay: 0, arrival_delay: 0 } };
    savoiky_service_second(hour: u32, minute: u32, second: u32) -> Answer { Answer { code: 15, value: 0 } };
    savoiky_label_store_access(
        stops: u32, stop: u32, row: u32, stop_idx: u32, arrival_s: u32, walk_duration: u32, walk_distance: f64, labels: *mut u32, labels_len: usize,
        label_distances: *mut f64, label_distances_len: usize
    ) -> u32 { 15 } writes labels labels_len, label_distances label_distances_len;
    savoiky_label_store_transit(
        stops: u32, stop: u32, row: u32, arrival_s: u32, trip_idx: u32, board_stop: u32, board_off: u32, alight_off: u32, prev_round: u32,
        time_shift_s: u32, labels: *mut u32, labels_len: usize, label_distances: *mut f64, label_distances_len: usize
    ) -> u32 { 15 } writes labels labels_len, label_distances label_distances_len;
    savoiky_label_store_walk(
        stops: u32, stop: u32, row: u32, arrival_s: u32, from_stop: u32, to_stop: u32, duration_s: u32, distance_m: f64, prev_round: u32, labels: *mut u32,
        labels_len: usize, label_distances: *mut f64, label_distances_len: usize
    ) -> u32 { 15 } writes labels labels_len, label_distances label_distances_len;
    savoiky_label_load(
        stops: u32, stop: u32, row: u32, labels: *const u32, labels_len: usize, label_distances: *const f64, label_distances_len: usize
    ) -> LabelAnswer {
        LabelAnswer { code: 15, row: LabelRow { kind: 0, word1: 0, word2: 0, word3: 0, word4: 0, word5: 0, word6: 0, word7: 0, distance: 0.0 } }
    };
    savoiky_sort_stop_departures(
        stops: u32, trips: u32, times: u32, windows: u32, edges: u32, departures: u32, tables: *const u32, tables_len: usize, runs: *const u32,
        runs_len: usize, rows: *mut u32, rows_len: usize, marks: *mut u32, marks_len: usize, work: *mut u64, work_len: usize, other: *mut u64,
        other_len: usize
    ) -> u32 { 15 } writes rows rows_len, marks marks_len, work work_len, other other_len;
    savoiky_compute_line_groups(
        stops: u32, trips: u32, times: u32, windows: u32, edges: u32, tables: *const u32, tables_len: usize, lines: *mut u32, lines_len: usize,
        runs: *mut u32, runs_len: usize, entries: *mut u32, entries_len: usize, work: *mut u64, work_len: usize, other: *mut u64, other_len: usize
    ) -> Answer { Answer { code: 15, value: 0 } } writes lines lines_len, runs runs_len, entries entries_len, work work_len, other other_len;
    savoiky_line_layout(
        stops: u32, trips: u32, times: u32, windows: u32, edges: u32, lines: u32, entry_count: u32, tables: *const u32, tables_len: usize,
        runs: *const u32, runs_len: usize, entries: *const u32, entries_len: usize, positions: *mut u32, positions_len: usize, fifo: *mut u32,
        fifo_len: usize
    ) -> u32 { 15 } writes positions positions_len, fifo fifo_len;
    savoiky_compute_trip_transfers(
        stops: u32, trips: u32, times: u32, windows: u32, edges: u32, line_count: u32, departures: u32, tables: *const u32, tables_len: usize,
        lines: *const u32, lines_len: usize, runs: *const u32, runs_len: usize, rows: *const u32, rows_len: usize, area: *mut u32, area_len: usize,
        transfer_runs: *mut u32, transfer_runs_len: usize
    ) -> Answer { Answer { code: 15, value: 0 } } writes area area_len, transfer_runs transfer_runs_len;
    savoiky_work_size(sizes: QuerySizes) -> Answer { Answer { code: 15, value: 0 } };
    savoiky_run_tbr(
        sizes: QuerySizes, tables: *const u32, tables_len: usize, built: *const u32, built_len: usize, transfers: *const u32, transfers_len: usize,
        patterns: *const u8, patterns_len: usize, distances: *const f64, distances_len: usize, query: *const u32, query_len: usize, labels: *mut u32,
        labels_len: usize, label_distances: *mut f64, label_distances_len: usize, work: *mut u32, work_len: usize, queue_a: *mut u32,
        queue_a_len: usize, queue_b: *mut u32, queue_b_len: usize, candidates: *mut u32, candidates_len: usize
    ) -> Reply { Reply { code: 15, total: 0, stop: 0, candidates: 0 } } writes labels labels_len, label_distances label_distances_len, work work_len,
        queue_a queue_a_len, queue_b queue_b_len, candidates candidates_len;
    savoiky_query(
        sizes: QuerySizes, tables: *const u32, tables_len: usize, built: *const u32, built_len: usize, transfers: *const u32, transfers_len: usize,
        patterns: *const u8, patterns_len: usize, distances: *const f64, distances_len: usize, query: *const u32, query_len: usize, labels: *mut u32,
        labels_len: usize, label_distances: *mut f64, label_distances_len: usize, work: *mut u32, work_len: usize, queue_a: *mut u32,
        queue_a_len: usize, queue_b: *mut u32, queue_b_len: usize, candidates: *mut u32, candidates_len: usize
    ) -> Reply { Reply { code: 15, total: 0, stop: 0, candidates: 0 } } writes labels labels_len, label_distances label_distances_len, work work_len,
        queue_a queue_a_len, queue_b queue_b_len, candidates candidates_len;
}
