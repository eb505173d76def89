// Timetables as the calls take them, the same as the Rust takes them, an independent door, and the comparison of each call.
use gtfs::pack::{build_departures, build_lines, build_transfers};

// Everything that the building calls are lent, with the counts handed in beside it.
#[derive(Clone, Default)]
pub struct Timetable {
    pub settings: Settings,
    // stops, trips, stop times, windows, walk edges
    pub counts: [u32; 5],
    pub tables: Vec<u32>,
    pub departures: u32,
    pub runs: Vec<u32>,
    pub rows: Vec<u32>,
    // hand-made lines: count, entries, runs, entries
    pub lines: u32,
    pub entry_count: u32,
    pub line_runs: Vec<u32>,
    pub entries: Vec<u32>,
    // what is lent to be written, of any content
    pub marks: Vec<u32>,
    pub line_of: Vec<u32>,
    pub made_runs: Vec<u32>,
    pub made_entries: Vec<u32>,
    pub positions: Vec<u32>,
    pub fifo: Vec<u32>,
    pub work: Vec<u64>,
    pub other: Vec<u64>,
    pub line_work: Vec<u64>,
    pub line_other: Vec<u64>,
    // for the transfers: how many lines, each trip's line, the area and the runs of the events
    pub line_count: u32,
    pub lines_of: Vec<u32>,
    pub area: Vec<u32>,
    pub transfer_runs: Vec<u32>,
}

impl Timetable {
    fn known(&self) -> Rows {
        Rows { counts: self.counts, tables: &self.tables }
    }
    fn epoch(&self) -> StaticEpoch {
        self.known().epoch()
    }

    fn listed(&self, e: &mut StaticEpoch) {
        for s in 0..self.counts[0] as usize {
            let (a, n) = (self.runs[2 * s] as usize, self.runs[2 * s + 1] as usize);
            e.stop_departures.push((a..a + n).map(|k| (self.rows[2 * k], self.rows[2 * k + 1])).collect());
        }
    }

    // the first no of a call that also asks these of its own tables
    fn door(&self, small: bool, sized: bool, runs: impl Fn() -> bool, numbers: impl Fn() -> bool) -> u32 {
        if !(self.known().small() && small) {
            return 1;
        }
        if !self.settings.in_range() {
            return 14;
        }
        if !(self.known().sized() && sized) {
            return 2;
        }
        if !(self.known().runs_lie() && runs()) {
            return 3;
        }
        if !(self.known().numbered() && numbers()) {
            return 4;
        }
        if !self.known().ranged() {
            return 5;
        }
        if self.known().ordered() { 0 } else { 6 }
    }

    fn departures_door(&self) -> u32 {
        let (stops, d) = (self.counts[0] as u64, self.departures as u64);
        let sized = self.runs.len() as u64 == 2 * stops
            && self.rows.len() as u64 == 2 * d
            && self.marks.len() as u64 == stops
            && self.work.len() as u64 == d
            && self.other.len() as u64 == d;
        let run = |s: usize| (self.runs[2 * s] as u64, self.runs[2 * s + 1] as u64);
        self.door(
            d <= 65536,
            sized,
            || (0..stops as usize).all(|s| run(s).0 + run(s).1 <= d),
            || self.known().listed_right(&self.runs, &self.rows),
        )
    }

    fn lines_door(&self) -> u32 {
        let n = self.counts[1] as usize;
        let sized = self.line_of.len() == n && self.made_runs.len() == 2 * n && self.made_entries.len() == n && self.line_work.len() == n && self.line_other.len() == n;
        self.door(true, sized, || true, || true)
    }

    fn layout_door(&self) -> u32 {
        let (l, n) = (self.lines as u64, self.entry_count as u64);
        let sized = self.line_runs.len() as u64 == 2 * l
            && self.entries.len() as u64 == n
            && self.positions.len() as u64 == self.counts[1] as u64
            && self.fifo.len() as u64 == l;
        self.door(
            l <= 4096 && n <= 4096,
            sized,
            || self.line_runs.chunks(2).all(|c| c[0] as u64 + c[1] as u64 <= n),
            || self.entries.iter().all(|&t| t < self.counts[1]),
        )
    }

    fn transfers_door(&self) -> u32 {
        let (stops, d) = (self.counts[0] as u64, self.departures as u64);
        let run = |s: usize| (self.runs[2 * s] as u64, self.runs[2 * s + 1] as u64);
        if !(self.known().small() && self.line_count <= 4096 && d <= 65536) {
            return 1;
        }
        if !self.settings.in_range() {
            return 14;
        }
        if !(self.known().sized()
            && self.lines_of.len() as u64 == self.counts[1] as u64
            && self.runs.len() as u64 == 2 * stops
            && self.rows.len() as u64 == 2 * d
            && self.transfer_runs.len() as u64 == 2 * self.known().events())
        {
            return 2;
        }
        self.door(
            true,
            true,
            || (0..stops as usize).all(|s| run(s).0 + run(s).1 <= d),
            || self.lines_of.iter().all(|&l| l < self.line_count) && self.known().listed_right(&self.runs, &self.rows),
        )
    }

    // the last walk edge first
    fn turn_edges(&mut self) {
        let c = self.counts.map(|n| n as usize);
        let first = 6 * c[2] + 8 * c[1] + 3 * c[3];
        if let Some(edges) = self.tables.get_mut(first..first + 5 * c[4]) {
            let turned: Vec<u32> = edges.chunks(5).rev().flatten().copied().collect();
            edges.copy_from_slice(&turned);
        }
    }

    pub fn damage(&mut self, r: &mut Random) {
        for _ in 0..1 + r.below(2) {
            let any = r.any();
            match r.below(21) {
                20 => self.turn_edges(),
                16 => self.line_count = any,
                17 => poke(&mut self.lines_of, r, any),
                18 => self.transfer_runs.push(any),
                19 => self.area.truncate(r.below(9) as usize),
                0 => self.counts[r.below(5) as usize] = any,
                1 => self.departures = any,
                2 => self.lines = any,
                3 => self.entry_count = any,
                4 => self.tables.push(any),
                5 => drop(self.tables.pop()),
                6 => self.rows.push(any),
                7 => drop(self.marks.pop()),
                8 => drop(self.positions.pop()),
                9 => self.made_runs.push(any),
                10 => drop(self.line_work.pop()),
                11 => poke(&mut self.runs, r, any),
                12 => poke(&mut self.rows, r, any),
                13 => poke(&mut self.line_runs, r, any),
                14 => poke(&mut self.entries, r, any),
                _ => poke(&mut self.tables, r, any),
            }
        }
    }
}

fn poke(v: &mut [u32], r: &mut Random, any: u32) {
    if !v.is_empty() {
        v[r.below(v.len() as u32) as usize] = any;
    }
}

fn junk(r: &mut Random, n: usize) -> Vec<u32> {
    (0..n).map(|_| r.next() as u32).collect()
}

pub fn random_timetable(r: &mut Random) -> Timetable {
    let stops = r.below(7);
    let (mut times, mut trips, mut windows) = (vec![], vec![], vec![]);
    let mut edges: Vec<[u32; 5]> = vec![];
    let wide = [8, 40, 900, LIMIT][r.below(4) as usize];
    let mut trip_list: Vec<(u32, u32)> = vec![];
    let mut shapes: Vec<Vec<u32>> = vec![];
    if stops > 0 {
        for _ in 0..1 + r.below(4) {
            shapes.push((0..1 + r.below(5)).map(|_| r.below(stops)).collect());
        }
        for _ in 0..r.below(11) {
            let first = times.len() as u32 / 6;
            let (a, n) = if !trip_list.is_empty() && r.below(6) == 0 {
                // shares the stop times of an earlier trip, or a part of them
                let (f, n) = trip_list[r.below(trip_list.len() as u32) as usize];
                let skip = r.below(n);
                (f + skip, 1 + r.below(n - skip))
            } else {
                let shape = shapes[r.below(shapes.len() as u32) as usize].clone();
                let mut t = r.below(wide);
                for (o, &s) in shape.iter().enumerate() {
                    let stay = r.below(4);
                    let code = |r: &mut Random| if r.below(8) == 0 { r.below(4) } else { 0 };
                    times.extend([s, t.min(LIMIT), (t + stay).min(LIMIT), o as u32, code(r), code(r)]);
                    t = (t + stay + r.below(1 + wide / 6)).saturating_sub(r.below(2) * r.below(3));
                }
                (first, shape.len() as u32)
            };
            let w = windows.len() as u32 / 3;
            for _ in 0..if r.below(8) == 0 { 1 + r.below(2) } else { 0 } {
                windows.extend([r.below(wide), r.below(wide), r.below(9)]);
            }
            let n_windows = windows.len() as u32 / 3 - w;
            trip_list.push((a, n));
            trips.extend([a, n, r.below(7), r.below(3), w, n_windows, r.below(2), r.below(2)]);
        }
        for _ in 0..r.below(4) {
            edges.push([r.below(stops), r.below(stops), r.below(wide), r.below(8), r.next() as u32]);
        }
    }
    // now and then not in order
    if r.below(20) > 0 {
        edges.sort_by_key(|e| e[0]);
    }
    // departures: listed, some twice, some in no run
    let n_trips = trips.len() as u32 / 8;
    let mut listed: Vec<Vec<(u32, u32)>> = vec![vec![]; stops as usize];
    for (t, &(a, n)) in trip_list.iter().enumerate() {
        for o in 0..n {
            let s = times[6 * (a + o) as usize] as usize;
            for _ in 0..[1, 1, 1, 0, 2][r.below(5) as usize] {
                let k = r.below(listed[s].len() as u32 + 1) as usize;
                listed[s].insert(k, (t as u32, o));
            }
        }
    }
    let (mut runs, mut rows) = (vec![], vec![]);
    for l in &listed {
        if n_trips > 0 && r.below(10) == 0 {
            rows.extend([r.below(n_trips), 0]);
        }
        runs.extend([rows.len() as u32 / 2, l.len() as u32]);
        rows.extend(l.iter().flat_map(|p| [p.0, p.1]));
    }
    // hand-made lines: any runs of any entries
    let entry_count = if n_trips == 0 { 0 } else { r.below(9) };
    let entries: Vec<u32> = (0..entry_count).map(|_| r.below(n_trips)).collect();
    let lines = r.below(5);
    let line_runs = (0..lines)
        .flat_map(|_| {
            let a = r.below(entry_count + 1);
            [a, r.below(entry_count - a + 1)]
        })
        .collect();
    let d = rows.len() / 2;
    let counts = [stops, n_trips, times.len() as u32 / 6, windows.len() as u32 / 3, edges.len() as u32];
    let mut tables = times;
    tables.extend(trips);
    tables.extend(windows);
    tables.extend(edges.concat());
    tables.extend(junk(r, stops as usize));
    let t = n_trips as usize;
    let events: u32 = trip_list.iter().map(|p| p.1).sum();
    let line_count = r.below(5) + (n_trips > 0) as u32;
    let lines_of = (0..t).map(|_| r.below(line_count.max(1))).collect();
    let area = { let n = r.below(200) as usize * r.below(3) as usize; junk(r, n) };
    let transfer_runs = junk(r, 2 * events as usize);
    let long = |r: &mut Random, n: usize| -> Vec<u64> { (0..n).map(|_| r.next()).collect() };
    let settings = r.settings();
    Timetable {
        settings, counts, tables, departures: d as u32, runs, rows, lines, entry_count, line_runs, entries, marks: junk(r, stops as usize), line_of: junk(r, t),
        made_runs: junk(r, 2 * t), made_entries: junk(r, t), positions: junk(r, t), fifo: junk(r, lines as usize), work: long(r, d), other: long(r, d),
        line_work: long(r, t), line_other: long(r, t), line_count, lines_of, area, transfer_runs,
    }
}

// 0, 1, the limit and one more of each count that a table of one stop can have; one line, and three, whose transfers are too many.
pub fn limits() -> Vec<Timetable> {
    let mut out = vec![];
    for (trips, each, line_count) in [1, 3].iter().flat_map(|&l| COUNTS.map(|(t, e)| (t, e, l))) {
        out.push(at_limit(trips, each, line_count));
    }
    // stops, windows, walk edges; lines and entries handed to the layout; line count handed to the transfers
    for n in [0, 1, 4096, 4097] {
        let mut x = at_limit(1, 1, 1);
        x.counts[0] = n;
        x.tables.resize(6 + 8 + n as usize, 0);
        x.runs = if n == 0 { vec![] } else { (0..n).flat_map(|s| [0, (s == 0) as u32]).collect() };
        x.marks = vec![7; n as usize];
        out.push(x);
        let mut x = at_limit(1, 1, 1);
        x.entry_count = n;
        x.entries = vec![0; n as usize];
        x.line_runs = vec![0, n];
        out.push(x);
        let mut x = at_limit(1, 1, 1);
        x.lines = n;
        x.line_runs = vec![0; 2 * n as usize];
        x.fifo = vec![7; n as usize];
        x.line_count = n;
        out.push(x);
    }
    for n in [0, 1, 65536, 65537u32] {
        for (section, words) in [(3, vec![1, 9, 2]), (4, vec![0, 0, 5, 2, 1])] {
            let mut x = at_limit(1, 1, 1);
            x.counts[section] = n;
            let cell = x.tables.pop().unwrap();
            x.tables.extend((0..n).flat_map(|_| words.clone()));
            x.tables.push(cell);
            out.push(x);
        }
    }
    out
}

// At the ends of the settings' ranges and one past each: a good table, one with too many trips and one that is too long. With the code where it is plain.
pub fn settings_limits() -> Vec<(Timetable, u32)> {
    let with = |settings: Settings, code: u32| {
        let [good, many] = [(9, 2, 2), (4097, 1, 1)].map(|(trips, each, lines)| Timetable { settings, area: vec![7; 4096], ..at_limit(trips, each, lines) });
        let mut long = good.clone();
        long.tables.push(0);
        [(good, code), (many, 1), (long, if code == 0 { 2 } else { code })]
    };
    range_ends().into_iter().flat_map(|(s, code)| with(s, code)).collect()
}

// Transfers at their limit and one past it, in an area that holds them just so and in one that is a word short, with what the call must
// answer. 32 lines at one stop: each event has a transfer to each line but for a line's first departure to itself, so 32 (trips - 1).
pub fn transfer_limits() -> Vec<(Timetable, Answer)> {
    let mut past = at_limit(2050, 1, 32);
    past.tables[5] = 1; // one event of 31 transfers is barred: 65,568 - 31
    let mut just = at_limit(2049, 1, 32);
    just.area.truncate(4 * 65536);
    let mut short = just.clone();
    short.area.pop();
    let held = Answer { code: 0, value: 65536 };
    let refused = Answer { code: 7, value: 0 };
    vec![(at_limit(2049, 1, 32), held), (past, refused), (just, held), (short, refused)]
}

const COUNTS: [(u32, u32); 7] = [(0, 1), (1, 1), (1, 65536), (1, 65537), (4096, 1), (4097, 1), (4096, 16)];

fn at_limit(trips: u32, each: u32, line_count: u32) -> Timetable {
    let t = trips as usize;
    let mut tables: Vec<u32> = (0..trips * each).flat_map(|i| [0, i % 7, 1000 + i % 7, i, 0, 0]).collect();
    tables.extend((0..trips).flat_map(|i| [i * each, each, 0, 0, 0, 0, 1, 0]));
    tables.push(9);
    let d = (trips * each) as usize;
    let rows: Vec<u32> = (0..trips).flat_map(|i| (0..each).flat_map(move |o| [i, o])).collect();
    Timetable {
        settings: OWN, counts: [1, trips, trips * each, 0, 0], tables, departures: d as u32, runs: vec![0, d as u32], rows, lines: 1, entry_count: trips,
        line_runs: vec![0, trips], entries: (0..trips).collect(), marks: vec![7], line_of: vec![7; t], made_runs: vec![7; 2 * t], made_entries: vec![7; t],
        positions: vec![7; t], fifo: vec![7], work: vec![7; d], other: vec![7; d], line_work: vec![7; t], line_other: vec![7; t],
        line_count, lines_of: (0..trips).map(|i| i % line_count).collect(), area: vec![7; 4 * 300000],
        transfer_runs: vec![7; 2 * d],
    }
}

// The calls, put to what is lent; for MOCK=1 chains.rs has stand-ins.
#[cfg(not(mock))]
pub fn sort_departures(y: &mut Timetable) -> u32 {
    let c = y.counts;
    unsafe {
        savoiky_sort_stop_departures(
            y.settings, c[0], c[1], c[2], c[3], c[4], y.departures, y.tables.as_ptr(), y.tables.len(), y.runs.as_ptr(), y.runs.len(), y.rows.as_mut_ptr(),
            y.rows.len(), y.marks.as_mut_ptr(), y.marks.len(), y.work.as_mut_ptr(), y.work.len(), y.other.as_mut_ptr(), y.other.len(),
        )
    }
}

#[cfg(not(mock))]
pub fn group_lines(y: &mut Timetable) -> Answer {
    let c = y.counts;
    unsafe {
        savoiky_compute_line_groups(
            y.settings, c[0], c[1], c[2], c[3], c[4], y.tables.as_ptr(), y.tables.len(), y.line_of.as_mut_ptr(), y.line_of.len(), y.made_runs.as_mut_ptr(),
            y.made_runs.len(), y.made_entries.as_mut_ptr(), y.made_entries.len(), y.line_work.as_mut_ptr(), y.line_work.len(), y.line_other.as_mut_ptr(),
            y.line_other.len(),
        )
    }
}

#[cfg(not(mock))]
pub fn make_transfers(y: &mut Timetable) -> Answer {
    let c = y.counts;
    unsafe {
        savoiky_compute_trip_transfers(
            y.settings, c[0], c[1], c[2], c[3], c[4], y.line_count, y.departures, y.tables.as_ptr(), y.tables.len(), y.lines_of.as_ptr(), y.lines_of.len(),
            y.runs.as_ptr(), y.runs.len(), y.rows.as_ptr(), y.rows.len(), y.area.as_mut_ptr(), y.area.len(), y.transfer_runs.as_mut_ptr(),
            y.transfer_runs.len(),
        )
    }
}

pub fn sorting_agrees(x: &Timetable) -> (bool, u32) {
    let mut y = x.clone();
    let code = sort_departures(&mut y);
    let (want, z) = sorting_outcome(x);
    (code == want && y.rows == z.rows && y.marks == z.marks && y.work == z.work && y.other == z.other, want)
}

// What the call must answer, and everything lent as it must be then.
pub fn sorting_outcome(x: &Timetable) -> (u32, Timetable) {
    let code = x.departures_door();
    let mut z = x.clone();
    if code == 0 {
        let mut e = x.epoch();
        x.listed(&mut e);
        build_departures(&mut e);
        for (s, l) in e.stop_departures.iter().enumerate() {
            for (k, p) in l.iter().enumerate() {
                let at = 2 * (x.runs[2 * s] as usize + k);
                z.rows[at] = p.0;
                z.rows[at + 1] = p.1;
            }
            z.marks[s] = e.stop_has_freq[s] as u32;
        }
        z.work.fill(0);
        z.other.fill(0);
    }
    (code, z)
}

pub fn lines_agree(x: &Timetable) -> (bool, u32) {
    let mut y = x.clone();
    let a = group_lines(&mut y);
    let (want, z) = lines_outcome(x);
    let same = a == want
        && y.line_of == z.line_of
        && y.made_runs == z.made_runs
        && y.made_entries == z.made_entries
        && y.line_work == z.line_work
        && y.line_other == z.line_other;
    (same, want.code)
}

pub fn lines_outcome(x: &Timetable) -> (Answer, Timetable) {
    let code = x.lines_door();
    let mut z = x.clone();
    let mut value = 0;
    if code == 0 {
        let mut e = x.epoch();
        build_lines(&mut e);
        value = e.line_trips.len() as u32;
        z.line_of = e.line_of_trip.clone();
        let mut n = 0;
        for (l, trips) in e.line_trips.iter().enumerate() {
            z.made_runs[2 * l] = n as u32;
            z.made_runs[2 * l + 1] = trips.len() as u32;
            z.made_entries[n..n + trips.len()].copy_from_slice(trips);
            n += trips.len();
        }
        z.line_work.fill(0);
        z.line_other.fill(0);
    }
    (Answer { code, value }, z)
}

pub fn layout_agrees(x: &Timetable) -> (bool, u32) {
    let mut y = x.clone();
    let c = y.counts;
    let got = unsafe {
        savoiky_line_layout(
            y.settings, c[0], c[1], c[2], c[3], c[4], y.lines, y.entry_count, y.tables.as_ptr(), y.tables.len(), y.line_runs.as_ptr(), y.line_runs.len(),
            y.entries.as_ptr(), y.entries.len(), y.positions.as_mut_ptr(), y.positions.len(), y.fifo.as_mut_ptr(), y.fifo.len(),
        )
    };
    let (code, z) = layout_outcome(x);
    (got == code && y.positions == z.positions && y.fifo == z.fifo, code)
}

pub fn layout_outcome(x: &Timetable) -> (u32, Timetable) {
    let code = x.layout_door();
    let mut z = x.clone();
    if code == 0 {
        let mut e = x.epoch();
        e.line_trips = x.line_runs.chunks(2).map(|c| x.entries[c[0] as usize..(c[0] + c[1]) as usize].to_vec()).collect();
        let (pos, fifo) = routing::tbr::layout(&e);
        z.positions = pos;
        z.fifo = fifo.iter().map(|&b| b as u32).collect();
    }
    (code, z)
}

pub fn transfers_agree(x: &Timetable) -> (bool, u32) {
    let mut y = x.clone();
    let a = make_transfers(&mut y);
    let (want, z) = transfers_outcome(x);
    (a == want && y.area == z.area && y.transfer_runs == z.transfer_runs, want.code)
}

pub fn transfers_outcome(x: &Timetable) -> (Answer, Timetable) {
    let mut code = x.transfers_door();
    let mut z = x.clone();
    let mut value = 0;
    if code == 0 {
        let mut e = x.epoch();
        x.listed(&mut e);
        e.line_of_trip = x.lines_of.clone();
        under(x.settings, || build_transfers(&mut e));
        let total: usize = e.trip_transfers.iter().flatten().map(|l| l.len()).sum();
        if total > 65536 || 4 * total > x.area.len() {
            code = 7;
        } else {
            let (mut n, mut k) = (0usize, 0usize);
            for l in e.trip_transfers.iter().flatten() {
                z.transfer_runs[2 * k] = n as u32;
                z.transfer_runs[2 * k + 1] = l.len() as u32;
                k += 1;
                for t in l {
                    z.area[4 * n..4 * n + 4].copy_from_slice(&[t.target_trip, t.target_board_off, t.min_transfer_s, t.flag_pattern]);
                    n += 1;
                }
            }
            value = n as u32;
        }
    }
    (Answer { code, value }, z)
}
