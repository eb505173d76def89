// Inputs, the oracle's answers to them, and an independent reading of the doors of document 01.
use gtfs::cell_bitset::CellBitSet as Oracle;
use gtfs::pack::{FrequencyWindow, GlobalTrip, PackedStopTime, StaticEpoch, WalkEdge};
use routing::journey::{ItineraryQuery, RtTripAdjust};

pub fn refused(code: u32) -> Answer {
    Answer { code, value: 0 }
}

pub fn given(value: u32) -> Answer {
    Answer { code: 0, value }
}

pub fn near_limit() -> [u32; 5] {
    [LIMIT - 1, LIMIT, LIMIT + 1, u32::MAX - 1, u32::MAX]
}

pub fn oracle_duration(duration_s: u32, mode: u32, wheelchair: bool) -> u32 {
    let pathway_mode = if mode == 0 { None } else { Some(mode as u8) };
    WalkEdge { from_stop_idx: 0, to_stop_idx: 0, duration_s, distance_m: 0.0, pathway_mode }.effective_duration_s(wheelchair)
}

pub fn oracle_rounds(wanted: u32, transfers: u32) -> u32 {
    let q = ItineraryQuery { raptor_max_rounds: wanted, max_transfers: transfers, ..Default::default() };
    routing::tbr::rounds(&q) as u32
}

pub fn trip_of(w: &[u32]) -> GlobalTrip {
    let windows = w.chunks(3).map(|c| FrequencyWindow { start_s: c[0], end_s: c[1], headway_s: c[2] }).collect();
    GlobalTrip { frequency_windows: windows, ..Default::default() }
}

// The first run of a window that leaves the stop in time, and need, as document 02, T-02 words them.
#[derive(Clone, Copy)]
pub struct WindowRun {
    pub window: usize,
    pub run: i64,
    pub departure: i64,
    pub need: i64,
    pub headway: i64,
}

// It is sought by halving, apart from the Rust's division and ours: of two runs the later one leaves later.
fn window_run(window: usize, w: &[u32], offset: i64, wanted: i64) -> Option<WindowRun> {
    let [start, end, headway] = [w[0] as i64, w[1] as i64, w[2] as i64];
    if headway == 0 || end <= start {
        return None;
    }
    let leaves = |run: i64| start + run * headway + offset;
    // from `low` to `high`; the last of these begins no sooner than the window ends
    let (mut low, mut high) = (0, end - start);
    while low < high {
        let half = (low + high) / 2;
        (low, high) = if leaves(half) < wanted { (half + 1, high) } else { (low, half) };
    }
    let need = wanted - offset - start;
    (start + low * headway < end).then_some(WindowRun { window, run: low, departure: leaves(low), need, headway })
}

// of each window that has one, in their order
pub fn window_runs(w: &[u32], base: u32, dep: u32, after: u32) -> Vec<WindowRun> {
    let offset = dep as i64 - base as i64;
    w.chunks(3).enumerate().filter_map(|(i, c)| window_run(i, c, offset, after as i64)).collect()
}

// the one that leaves first, of equals that of the first window
pub fn boarded(runs: &[WindowRun]) -> Option<WindowRun> {
    runs.iter().copied().reduce(|best, next| if next.departure < best.departure { next } else { best })
}

impl WindowRun {
    // window, run, quotient, remainder and wait, by T-02's sentence
    pub fn waiting(&self, wanted: u32) -> [u32; 5] {
        let [quotient, remainder, wait] = if self.need > 0 {
            let remainder = self.need % self.headway;
            [self.need / self.headway, remainder, if remainder == 0 { 0 } else { self.headway - remainder }]
        } else {
            [0, 0, self.departure - wanted as i64]
        };
        [self.window as i64, self.run, quotient, remainder, wait].map(|n| n as u32)
    }
}

// none, or a refusal
pub fn no_board(code: u32) -> FreqAnswer {
    FreqAnswer { code, ..Default::default() }
}

// Departure and shift are the Rust's. Where T-02's sentence finds another departure, what no call answers.
pub fn freq_outcome(s: Settings, count: u32, w: &[u32], base: u32, dep: u32, after: u32) -> FreqAnswer {
    if count > 65536 {
        return no_board(1);
    }
    if !s.in_range() {
        return no_board(14);
    }
    if w.len() as u64 != 3 * count as u64 {
        return no_board(2);
    }
    if w.iter().any(|&x| x > LIMIT) || base > LIMIT || dep > LIMIT || after > LIMIT {
        return no_board(5);
    }
    match (routing::freq_board(&trip_of(w), base, dep, after), boarded(&window_runs(w, base, dep, after))) {
        (None, None) => no_board(0),
        (Some((departure, shift)), Some(b)) if b.departure == departure as i64 => {
            let [window, run, quotient, remainder, wait] = b.waiting(after);
            FreqAnswer { code: 0, found: 1, departure, time_shift_s: shift as u32, window, run, quotient, remainder, wait }
        }
        _ => no_board(u32::MAX),
    }
}

pub fn random_windows(r: &mut Random) -> (u32, Vec<u32>, u32, u32, u32) {
    let count = r.below(5);
    let scale = [20, 400, 5000, LIMIT][r.below(4) as usize];
    let mut w = vec![];
    for _ in 0..count {
        let (start, parts, spread) = (r.below(scale), 1 + r.below(3), 1 + r.below(40));
        w.extend([start, start + r.below(scale) / parts, r.below(1 + scale / spread)]);
    }
    for x in w.iter_mut() {
        *x = (*x).min(LIMIT);
    }
    let base = r.below(scale);
    let dep = if r.below(4) == 0 { r.below(scale) } else { (base + r.below(scale / 2 + 1)).min(LIMIT) };
    let after = r.below((scale as u64 * 3 / 2) as u32).min(LIMIT);
    let mut out = (count, w, base, dep, after);
    match r.below(60) {
        0 => out.0 = r.any(),
        1 => out.1.push(r.time()),
        2 => out.2 = r.any(),
        3 => out.3 = r.any(),
        4 => out.4 = r.any(),
        5 | 6 if !out.1.is_empty() => {
            let i = r.below(out.1.len() as u32) as usize;
            out.1[i] = r.any();
        }
        _ => {}
    }
    out
}

// The same; at times the wanted time is when a run leaves, or a second beside it, and another window may begin with this run. These are drawn apart,
// so that all else stays as it was drawn.
pub fn random_boarding(r: &mut Random) -> (u32, Vec<u32>, u32, u32, u32) {
    let (count, mut w, base, dep, after) = random_windows(r);
    let mut own = Random(!r.0);
    if count == 0 || own.below(3) > 0 || freq_outcome(OWN, count, &w, base, dep, after).code != 0 {
        return (count, w, base, dep, after);
    }
    let k = 3 * own.below(count) as usize;
    let runs = w[k + 1].saturating_sub(w[k]) / w[k + 2].max(1);
    let run = (w[k] + own.below(runs + 1) * w[k + 2]).min(LIMIT);
    if own.below(2) == 0 {
        w[3 * own.below(count) as usize] = run;
    }
    let leaves = run as i64 + dep as i64 - base as i64;
    (count, w, base, dep, (leaves + own.below(3) as i64 - 1).clamp(0, LIMIT as i64) as u32)
}

pub fn large(bits: u32) -> bool {
    (bits as i32).unsigned_abs() > LIMIT
}

pub fn stop_time(time: u32, sequence: u32) -> PackedStopTime {
    PackedStopTime {
        stop_idx: 0, arrival_s: time, departure_s: time, stop_sequence: sequence, pickup_type: 0, drop_off_type: 0, stop_headsign_idx: 0, timepoint: 0,
        shape_dist_traveled: None,
    }
}

pub fn adjust(trip: u32, flags: u32, departure: u32, arrival: u32) -> RtTripAdjust {
    let mut a = RtTripAdjust { trip_delay_s: trip as i32, ..Default::default() };
    add_stop(&mut a, 7, flags, departure, arrival);
    a
}

fn add_stop(a: &mut RtTripAdjust, sequence: u32, flags: u32, departure: u32, arrival: u32) {
    if flags & 1 != 0 {
        a.dep_delay.insert(sequence, departure as i32);
    }
    if flags & 2 != 0 {
        a.arr_delay.insert(sequence, arrival as i32);
    }
    if flags & 4 != 0 {
        a.skipped.insert(sequence);
    }
}

// of a call that asks 14 and then 5
pub fn numbers_outcome(s: Settings, ranged: bool, value: impl FnOnce() -> u32) -> Answer {
    match s.code(if ranged { 0 } else { 5 }) {
        0 => given(value()),
        code => refused(code),
    }
}

pub fn walk_outcome(s: Settings, duration: u32, mode: u32, wheelchair: u32) -> Answer {
    numbers_outcome(s, duration <= LIMIT && mode <= 7 && wheelchair <= 1, || oracle_duration(duration, mode, wheelchair == 1))
}

pub fn clock_outcome(s: Settings, hour: u32, minute: u32, second: u32) -> Answer {
    numbers_outcome(s, hour <= 47 && minute <= 59 && second <= 59, || 3600 * hour + 60 * minute + second)
}

pub fn skipped_outcome(s: Settings, flags: u32) -> Answer {
    numbers_outcome(s, flags <= 7, || flags / 4)
}

pub fn rounds_outcome(s: Settings, wanted: u32, transfers: u32) -> Answer {
    numbers_outcome(s, true, || oracle_rounds(wanted, transfers))
}

pub fn oracle_departure(s: Settings, time: u32, trip: u32, flags: u32, own: u32) -> Answer {
    let ranged = time <= LIMIT && !large(trip) && !large(own) && flags <= 7;
    numbers_outcome(s, ranged, || routing::effective_dep(Some(&adjust(trip, flags, own, 9)), &stop_time(time, 7)))
}

pub fn oracle_arrival(s: Settings, time: u32, shift: u32, trip: u32, flags: u32, own: u32) -> Answer {
    let ranged = time <= LIMIT && !large(shift) && !large(trip) && !large(own) && flags <= 7;
    numbers_outcome(s, ranged, || routing::effective_arr(Some(&adjust(trip, flags, 9, own)), &stop_time(time, 7), shift as i32))
}

// Delay tables, with counts that may be damaged.
#[derive(Clone)]
pub struct Delays {
    pub settings: Settings,
    pub trips: u32,
    pub rows: Vec<u32>,
    pub stop_rows: Vec<u32>,
    pub row_count: u32,
    pub stop_row_count: u32,
}

impl Delays {
    // n rows and n stop rows, in order
    pub fn filled(n: u32) -> Delays {
        let rows = (0..n).flat_map(|i| [i, i.wrapping_sub(3)]).collect();
        let stop_rows = (0..n).flat_map(|i| [i / 2, i, i % 8, i, 0u32.wrapping_sub(i)]).collect();
        Delays { settings: OWN, trips: n.min(4096), rows, stop_rows, row_count: n, stop_row_count: n }
    }

    // questions 4, 5 and 6 of the rows, each: is it answered yes? (4 to 6 may be asked only where 2 is yes.)
    pub fn numbered(&self) -> bool {
        self.rows.chunks(2).all(|c| c[0] == UNKNOWN || c[0] < self.trips) && self.stop_rows.chunks(5).all(|c| c[0] < self.row_count)
    }
    pub fn ranged(&self) -> bool {
        !self.rows.chunks(2).any(|c| large(c[1])) && !self.stop_rows.chunks(5).any(|c| c[2] > 7 || large(c[3]) || large(c[4]))
    }
    pub fn ordered(&self) -> bool {
        let rows: Vec<_> = self.rows.chunks(2).collect();
        let stops: Vec<_> = self.stop_rows.chunks(5).collect();
        let falls = rows.windows(2).any(|p| p[0][0] > p[1][0] || (p[0][0] == p[1][0] && p[0][0] != UNKNOWN));
        !falls && stops.windows(2).all(|p| (p[0][0], p[0][1]) < (p[1][0], p[1][1]))
    }

    // the number of the first no of document 01, read independently
    pub fn door(&self) -> u32 {
        if self.trips > 4096 || self.row_count > 4096 || self.stop_row_count > 4096 {
            return 1;
        }
        if !self.settings.in_range() {
            return 14;
        }
        if self.rows.len() as u64 != 2 * self.row_count as u64 || self.stop_rows.len() as u64 != 5 * self.stop_row_count as u64 {
            return 2;
        }
        if !self.numbered() {
            return 4;
        }
        if !self.ranged() {
            return 5;
        }
        if self.ordered() { 0 } else { 6 }
    }

    // the delay rows as the Rust has them
    pub fn adjusts(&self) -> Vec<RtTripAdjust> {
        let mut out: Vec<_> = self.rows.chunks(2).map(|c| RtTripAdjust { trip_delay_s: c[1] as i32, ..Default::default() }).collect();
        for c in self.stop_rows.chunks(5) {
            add_stop(&mut out[c[0] as usize], c[1], c[2], c[3], c[4]);
        }
        out
    }

    // the same tables as the Rust takes them
    pub fn fill(&self, e: &mut StaticEpoch, q: &mut ItineraryQuery) {
        for i in 0..self.trips {
            e.trips.push(GlobalTrip::default());
            e.trip_id_to_idx.insert(format!("t{i}"), i);
        }
        for (i, a) in self.adjusts().into_iter().enumerate() {
            let trip = self.rows[i * 2];
            q.rt_adjust.insert(if trip == UNKNOWN { format!("unknown{i}") } else { format!("t{trip}") }, a);
        }
    }

    pub fn oracle_margin(&self) -> u32 {
        let mut e = StaticEpoch::default();
        let mut q = ItineraryQuery::default();
        self.fill(&mut e, &mut q);
        under(self.settings, || routing::tbr::margin(&e, &q))
    }
}

pub fn random_delays(r: &mut Random) -> Delays {
    let trips = r.below(12);
    let mut rows = vec![];
    for t in 0..trips {
        if r.below(3) == 0 {
            rows.extend([t, r.signed_inside()]);
        }
    }
    for _ in 0..r.below(3) {
        rows.extend([UNKNOWN, r.signed_inside()]);
    }
    let row_count = rows.len() as u32 / 2;
    let mut stop_rows = vec![];
    for row in 0..row_count {
        let mut sequence = r.below(3);
        for _ in 0..r.below(4) {
            stop_rows.extend([row, sequence, r.below(8), r.signed_inside(), r.signed_inside()]);
            sequence += 1 + r.below(3);
        }
    }
    let stop_row_count = stop_rows.len() as u32 / 5;
    let mut d = Delays { settings: r.any_settings(), trips, rows, stop_rows, row_count, stop_row_count };
    match r.below(12) {
        0 => d.trips = r.any(),
        1 => d.row_count = r.any(),
        2 => d.stop_row_count = r.any(),
        3 => d.rows.push(r.any()),
        4 => d.stop_rows.push(r.any()),
        5 if !d.rows.is_empty() => {
            let i = r.below(d.rows.len() as u32) as usize;
            d.rows[i] = r.any();
        }
        6 | 7 if !d.stop_rows.is_empty() => {
            let i = r.below(d.stop_rows.len() as u32) as usize;
            d.stop_rows[i] = r.any();
        }
        _ => {}
    }
    d
}
