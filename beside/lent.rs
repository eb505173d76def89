// A search in the form that `run_tbr` and `query` take it: written out of a case, read back into one, asked of the calls, and the questions at
// the door, read independently from document 01.

// What a call is lent to read.
#[derive(Clone)]
pub struct Lent {
    pub settings: Settings,
    pub sizes: QuerySizes,
    // the timetable (rows.rs)
    pub tables: Vec<u32>,
    // each trip's line; lines (first entry, count); line entries (trip); stops (first departure, count); departures (trip, offset); marks;
    // for each stop time of each trip: first transfer, count
    pub built: Vec<u32>,
    // transfers (target trip, offset, time, pattern); any length, the first ones count
    pub transfers: Vec<u32>,
    // 64 bytes each
    pub patterns: Vec<u8>,
    // the bits of the walk edges' distances, then of the origins'
    pub distances: Vec<u64>,
    // start, change time, wanted rounds, transfers, modes, wheelchair, switch; origins (stop, duration); egress stops (stop, duration); delay rows
    // (trip, delay); stop rows (delay row, sequence, flags, departure delay, arrival delay)
    pub query: Vec<u32>,
}

// What it is lent to write: labels (13 of 8 words a stop), their distances' bits, the workspace, the two queue halves (4 words a segment), candidates (13
// of total, stop, row).
#[derive(Clone, PartialEq)]
pub struct Areas {
    pub labels: Vec<u32>,
    pub label_distances: Vec<u64>,
    pub work: Vec<u32>,
    pub queue_a: Vec<u32>,
    pub queue_b: Vec<u32>,
    pub candidates: Vec<u32>,
}

#[derive(Clone, Copy, PartialEq)]
pub enum Call {
    RunTbr,
    Query,
}

// words of workspace for each stop, trip and line, and beyond them (crates/query_types/specs/Layout.antt, workSize)
const WORK: [usize; 4] = [5, 8, 3, 128];

pub fn work_size(n: &QuerySizes) -> usize {
    WORK[0] * n.stops as usize + WORK[1] * n.trips as usize + WORK[2] * n.lines as usize + WORK[3]
}

impl QuerySizes {
    pub fn numbers(&mut self) -> &mut [u32; 15] {
        // fifteen u32 in a row
        unsafe { &mut *(self as *mut QuerySizes as *mut [u32; 15]) }
    }
}

pub fn ask_ours(call: Call, x: &Lent, a: &mut Areas) -> Reply {
    let f = if call == Call::RunTbr { savoiky_run_tbr } else { savoiky_query };
    unsafe {
        f(
            x.settings, x.sizes, x.tables.as_ptr(), x.tables.len(), x.built.as_ptr(), x.built.len(), x.transfers.as_ptr(), x.transfers.len(),
            x.patterns.as_ptr(), x.patterns.len(), x.distances.as_ptr() as *const f64, x.distances.len(), x.query.as_ptr(), x.query.len(),
            a.labels.as_mut_ptr(), a.labels.len(), a.label_distances.as_mut_ptr() as *mut f64, a.label_distances.len(), a.work.as_mut_ptr(), a.work.len(),
            a.queue_a.as_mut_ptr(), a.queue_a.len(), a.queue_b.as_mut_ptr(), a.queue_b.len(), a.candidates.as_mut_ptr(), a.candidates.len(),
        )
    }
}

// WRITING OUT

fn table_words(c: &Case) -> Vec<u32> {
    let e = &c.e;
    let mut out: Vec<u32> = e
        .stop_times
        .iter()
        .flat_map(|t| [t.stop_idx, t.arrival_s, t.departure_s, t.stop_sequence, t.pickup_type as u32, t.drop_off_type as u32])
        .collect();
    let mut windows = vec![];
    for (t, trip) in e.trips.iter().enumerate() {
        let mode = MODES.iter().position(|m| *m == trip.mode).unwrap() as u32;
        let (first, count) = (windows.len() as u32 / 3, trip.frequency_windows.len() as u32);
        let (active, excluded) = (e.active[t] as u32, c.q.excluded_trip_ids.contains(&trip.id) as u32);
        out.extend([trip.stop_time_start, trip.stop_time_len, mode, trip.wheelchair as u32, first, count, active, excluded]);
        windows.extend(trip.frequency_windows.iter().flat_map(|w| [w.start_s, w.end_s, w.headway_s]));
    }
    out.extend(windows);
    for (w, pattern) in e.walk_edges.iter().zip(&e.arc_flag_pattern) {
        out.extend([w.from_stop_idx, w.to_stop_idx, w.duration_s, w.pathway_mode.unwrap_or(0) as u32, *pattern]);
    }
    out.extend(&e.stop_partition);
    out
}

// runs (first row, count) and the rows themselves; with some to choose from, at times a row that no run has, one of these, stands between two runs,
// the last run comes first, a run of no rows begins anywhere, and equal lists share their rows
fn runs_of<T: Clone + PartialEq>(r: &mut Random, lists: &[Vec<T>], loose: &[T]) -> (Vec<u32>, Vec<T>) {
    let (mut runs, mut rows) = (vec![0; 2 * lists.len()], vec![]);
    let odd = !loose.is_empty() && r.yes(30);
    for k in 0..lists.len() {
        let i = if odd { lists.len() - 1 - k } else { k };
        let l = &lists[i];
        if !loose.is_empty() && r.yes(5) {
            rows.push(loose[r.below(loose.len() as u32) as usize].clone());
        }
        let shared = (i + 1..lists.len()).find(|j| odd && lists[*j] == *l);
        let first = if odd && l.is_empty() { r.below(rows.len() as u32 + 1) } else { shared.map_or(rows.len() as u32, |j| runs[2 * j]) };
        (runs[2 * i], runs[2 * i + 1]) = (first, l.len() as u32);
        if shared.is_none() {
            rows.extend(l.iter().cloned());
        }
    }
    (runs, rows)
}

fn query_words(c: &Case) -> Vec<u32> {
    let mut out = vec![c.start, c.q.default_transfer_s, c.q.raptor_max_rounds, c.q.max_transfers, c.modes, c.q.wheelchair as u32, c.off as u32];
    out.extend(c.origins.iter().flat_map(|o| [o.stop_idx, o.duration_s]));
    out.extend(c.egress.iter().flat_map(|(s, a)| [*s, a.duration_s]));
    out.extend(c.delays.iter().flat_map(|d| [d.0, d.1 as u32]));
    out.extend(c.stop_rows.iter().flatten());
    out
}

fn pattern_bytes(c: &Case) -> Vec<u8> {
    let mut out = vec![];
    for p in &c.e.flag_patterns {
        out.extend((0..64).map(|byte| (0..8).map(|bit| (p.get_bit(8 * byte + bit) as u8) << bit).sum::<u8>()));
    }
    out
}

// loose: with rows that no run has, and an area that is longer than its transfers
fn lend(r: &mut Random, c: &Case, loose: bool) -> Lent {
    let words = |t: &TripTransferEntry| [t.target_trip, t.target_board_off, t.min_transfer_s, t.flag_pattern];
    let events: Vec<Vec<[u32; 4]>> = c.e.trip_transfers.iter().flatten().map(|l| l.iter().map(words).collect()).collect();
    let (mut trips, mut rows, mut other) = (vec![], vec![], vec![]);
    if loose {
        trips.extend(0..c.e.trips.len() as u32);
        rows.extend(c.e.stop_departures.iter().flatten().copied());
        other.extend((0..5).map(|p| [r.any(), r.any(), LIMIT, p]));
    }
    let (line_runs, entries) = runs_of(r, &c.e.line_trips, &trips);
    let (stop_runs, departures) = runs_of(r, &c.e.stop_departures, &rows);
    let (transfer_runs, transfers) = runs_of(r, &events, &other);
    let mut built = c.e.line_of_trip.clone();
    built.extend(line_runs);
    built.extend(&entries);
    built.extend(stop_runs);
    built.extend(departures.iter().flat_map(|d| [d.0, d.1]));
    built.extend(c.e.stop_has_freq.iter().map(|m| *m as u32));
    built.extend(transfer_runs);
    let sizes = QuerySizes {
        stops: c.e.stops.len() as u32, trips: c.e.trips.len() as u32, times: c.e.stop_times.len() as u32,
        windows: c.e.trips.iter().map(|t| t.frequency_windows.len() as u32).sum(), edges: c.e.walk_edges.len() as u32, cells: c.e.num_cells,
        patterns: c.e.flag_patterns.len() as u32, lines: c.e.line_trips.len() as u32, entries: entries.len() as u32,
        departures: departures.len() as u32, transfers: transfers.len() as u32, delays: c.delays.len() as u32, stop_rows: c.stop_rows.len() as u32,
        origins: c.origins.len() as u32, egress: c.egress.len() as u32,
    };
    let distances = c.e.walk_edges.iter().map(|w| w.distance_m.to_bits()).chain(c.origins.iter().map(|o| o.distance_m.to_bits())).collect();
    let mut area: Vec<u32> = transfers.concat();
    if loose {
        area.extend((0..r.below(9)).map(|_| r.next() as u32));
    }
    Lent { settings: c.settings, sizes, tables: table_words(c), built, transfers: area, patterns: pattern_bytes(c), distances, query: query_words(c) }
}

// areas of the right lengths, of any content
fn areas(r: &mut Random, n: &QuerySizes, half: usize) -> Areas {
    let (first, step) = (r.next(), r.next() | 1);
    let word = |i: usize| first.wrapping_add(step.wrapping_mul(i as u64));
    let words = |k: usize| -> Vec<u32> { (0..k).map(|i| (word(i) >> 16) as u32).collect() };
    let stops = n.stops as usize;
    let (labels, work, queue_a, queue_b, candidates) = (words(104 * stops), words(work_size(n)), words(half), words(half), words(39));
    Areas { labels, label_distances: (0..13 * stops).map(word).collect(), work, queue_a, queue_b, candidates }
}

// THE SECTIONS

pub struct Sections<'a> {
    line_of: &'a [u32],
    line_runs: &'a [u32],
    entries: &'a [u32],
    stop_runs: &'a [u32],
    departures: &'a [u32],
    marks: &'a [u32],
    transfer_runs: &'a [u32],
    // the query's first seven
    first: &'a [u32],
    origins: &'a [u32],
    egress: &'a [u32],
    delays: Delays,
}

fn cut<'a>(rest: &mut &'a [u32], count: usize) -> &'a [u32] {
    let (a, b) = rest.split_at(count);
    *rest = b;
    a
}

impl Lent {
    fn rows(&self) -> Rows {
        let n = &self.sizes;
        Rows { counts: [n.stops, n.trips, n.times, n.windows, n.edges], tables: &self.tables }
    }

    // where questions 1 and 2 are yes
    fn sections(&self) -> Sections {
        let n = &self.sizes;
        let (b, q) = (&mut &self.built[..], &mut &self.query[..]);
        Sections {
            line_of: cut(b, n.trips as usize),
            line_runs: cut(b, 2 * n.lines as usize),
            entries: cut(b, n.entries as usize),
            stop_runs: cut(b, 2 * n.stops as usize),
            departures: cut(b, 2 * n.departures as usize),
            marks: cut(b, n.stops as usize),
            transfer_runs: b,
            first: cut(q, 7),
            origins: cut(q, 2 * n.origins as usize),
            egress: cut(q, 2 * n.egress as usize),
            delays: Delays {
                settings: self.settings, trips: n.trips, rows: cut(q, 2 * n.delays as usize).to_vec(), stop_rows: q.to_vec(), row_count: n.delays,
                stop_row_count: n.stop_rows,
            },
        }
    }

    // THE QUESTIONS
    fn question_1(&self) -> bool {
        let n = &self.sizes;
        self.rows().small()
            && n.cells <= 512 && n.patterns <= 4096 && n.lines <= 4096 && n.entries <= 4096 && n.departures <= 65536 && n.transfers <= 65536
            && n.delays <= 4096 && n.stop_rows <= 4096 && n.origins <= 64 && n.egress <= 64
    }

    fn question_2(&self, a: &Areas) -> bool {
        let n = &self.sizes;
        let (stops, trips, edges, patterns, lines) = (n.stops as u64, n.trips as u64, n.edges as u64, n.patterns as u64, n.lines as u64);
        let (entries, departures, delays, stop_rows) = (n.entries as u64, n.departures as u64, n.delays as u64, n.stop_rows as u64);
        let (origins, egress) = (n.origins as u64, n.egress as u64);
        self.rows().sized()
            && self.built.len() as u64 == trips + 2 * lines + entries + 3 * stops + 2 * departures + 2 * self.rows().events()
            && self.patterns.len() as u64 == 64 * patterns
            && self.distances.len() as u64 == edges + origins
            && self.query.len() as u64 == 7 + 2 * origins + 2 * egress + 2 * delays + 5 * stop_rows
            && a.labels.len() as u64 == 8 * 13 * stops
            && a.label_distances.len() as u64 == 13 * stops
            && a.work.len() == work_size(&self.sizes)
            && a.queue_a.len() == a.queue_b.len()
            && a.candidates.len() == 39
    }

    // the transfers counted that the area holds
    fn transfer_rows(&self) -> usize {
        (self.sizes.transfers as usize).min(self.transfers.len() / 4)
    }

    fn question_3(&self, s: &Sections) -> bool {
        let inside = |runs: &[u32], rows: usize| runs.chunks(2).all(|c| c[0] as u64 + c[1] as u64 <= rows as u64);
        self.rows().runs_lie()
            && inside(s.line_runs, s.entries.len())
            && inside(s.stop_runs, self.sizes.departures as usize)
            && inside(s.transfer_runs, self.transfer_rows())
    }

    fn question_4(&self, s: &Sections) -> bool {
        let n = &self.sizes;
        self.rows().numbered()
            && s.line_of.iter().all(|&l| l < n.lines)
            && s.entries.iter().all(|&t| t < n.trips)
            && self.rows().listed_right(s.stop_runs, s.departures)
            && s.origins.chunks(2).chain(s.egress.chunks(2)).all(|c| c[0] < n.stops)
            && s.delays.numbered()
    }

    fn question_5(&self, s: &Sections) -> bool {
        let q = s.first;
        self.rows().ranged()
            && s.marks.iter().all(|&m| m <= 1)
            && self.transfers.chunks(4).take(self.transfer_rows()).all(|t| t[2] <= LIMIT)
            && q[0] <= LIMIT && q[1] <= LIMIT && q[4] <= 127 && q[5] <= 1 && q[6] <= 1
            && s.origins.chunks(2).chain(s.egress.chunks(2)).all(|c| c[1] <= LIMIT)
            && s.delays.ranged()
    }

    fn question_6(&self, s: &Sections) -> bool {
        let t = self.rows();
        let leaves = |k: u32| {
            let (trip, offset) = (s.departures[2 * k as usize], s.departures[2 * k as usize + 1]);
            t.at(0, (t.at(1, trip as usize, 0) + offset) as usize, 2)
        };
        t.ordered()
            && s.stop_runs.chunks(2).all(|c| (1..c[1]).all(|i| leaves(c[0] + i - 1) <= leaves(c[0] + i)))
            && s.egress.chunks(2).zip(s.egress.chunks(2).skip(1)).all(|(a, b)| a[0] < b[0])
            && s.delays.ordered()
    }

    // the number of the first no, or 0
    fn door(&self, a: &Areas) -> u32 {
        if !self.question_1() {
            return 1;
        }
        if !self.settings.in_range() {
            return 14;
        }
        if !self.question_2(a) {
            return 2;
        }
        let s = self.sections();
        if !self.question_3(&s) {
            return 3;
        }
        if !self.question_4(&s) {
            return 4;
        }
        if !self.question_5(&s) {
            return 5;
        }
        if self.question_6(&s) { 0 } else { 6 }
    }

    // READING BACK, where all questions are yes
    fn epoch(&self, s: &Sections) -> StaticEpoch {
        let rows = self.rows();
        let mut e = rows.epoch();
        for (t, trip) in e.trips.iter_mut().enumerate() {
            trip.id = format!("t{t}");
            e.trip_id_to_idx.insert(trip.id.clone(), t as u32);
            trip.mode = MODES[rows.at(1, t, 2) as usize];
            trip.wheelchair = rows.at(1, t, 3) as u8;
            e.active.push(rows.at(1, t, 6) == 1);
        }
        e.walk_adj = vec![vec![]; e.stops.len()];
        for i in 0..self.sizes.edges as usize {
            let f = |k| rows.at(3, i, k);
            let (pathway_mode, distance_m) = (if f(3) == 0 { None } else { Some(f(3) as u8) }, f64::from_bits(self.distances[i]));
            e.walk_adj[f(0) as usize].push(i);
            e.walk_edges.push(WalkEdge { from_stop_idx: f(0), to_stop_idx: f(1), duration_s: f(2), distance_m, pathway_mode });
            e.arc_flag_pattern.push(f(4));
        }
        e.stop_partition = rows.cells().to_vec();
        e.num_cells = self.sizes.cells;
        e.line_of_trip = s.line_of.to_vec();
        e.line_trips = s.line_runs.chunks(2).map(|c| s.entries[c[0] as usize..(c[0] + c[1]) as usize].to_vec()).collect();
        let departure = |k: u32| (s.departures[2 * k as usize], s.departures[2 * k as usize + 1]);
        e.stop_departures = s.stop_runs.chunks(2).map(|c| (c[0]..c[0] + c[1]).map(departure).collect()).collect();
        e.stop_has_freq = s.marks.iter().map(|m| *m == 1).collect();
        self.read_transfers(s, &mut e);
        for bytes in self.patterns.chunks(64) {
            let mut p = gtfs::cell_bitset::CellBitSet::new(512);
            (0..512).filter(|c| bytes[c / 8] >> (c % 8) & 1 == 1).for_each(|c| p.set_bit(c));
            e.flag_patterns.push(p);
        }
        e
    }

    fn read_transfers(&self, s: &Sections, e: &mut StaticEpoch) {
        let entry = |k: u32| {
            let t = &self.transfers[4 * k as usize..4 * k as usize + 4];
            TripTransferEntry { target_trip: t[0], target_board_off: t[1], min_transfer_s: t[2], flag_pattern: t[3] }
        };
        let mut runs = s.transfer_runs.chunks(2);
        for trip in &e.trips {
            let of_trip = (0..trip.stop_time_len).map(|_| runs.next().unwrap()).map(|c| (c[0]..c[0] + c[1]).map(entry).collect());
            e.trip_transfers.push(of_trip.collect());
        }
    }

    fn read(&self) -> Case {
        let s = self.sections();
        let e = self.epoch(&s);
        let w = s.first;
        let excluded = (0..e.trips.len()).filter(|t| self.rows().at(1, *t, 7) == 1).map(|t| format!("t{t}")).collect();
        let modes = (0..7).filter(|m| (w[4] >> m) & 1 == 1).map(|m| MODES[m]).collect();
        let mut q = ItineraryQuery {
            rt_adjust: HashMap::new(), raptor_max_rounds: w[2], max_transfers: w[3], modes: if w[4] == 0 { None } else { Some(modes) },
            excluded_trip_ids: excluded, wheelchair: w[5] == 1, default_transfer_s: w[1],
        };
        for (i, a) in s.delays.adjusts().into_iter().enumerate() {
            let trip = s.delays.rows[2 * i];
            q.rt_adjust.insert(if trip == UNKNOWN { format!("unknown{i}") } else { format!("t{trip}") }, a);
        }
        let far = &self.distances[self.sizes.edges as usize..];
        Case {
            settings: self.settings,
            q,
            modes: w[4],
            delays: s.delays.rows.chunks(2).map(|c| (c[0], c[1] as i32)).collect(),
            stop_rows: s.delays.stop_rows.chunks(5).map(|c| c.try_into().unwrap()).collect(),
            start: w[0],
            origins: s.origins.chunks(2).zip(far).map(|(c, d)| access(c[0], c[1], f64::from_bits(*d))).collect(),
            egress: s.egress.chunks(2).map(|c| (c[0], access(c[0], c[1], 0.0))).collect(),
            off: w[6] == 1,
            ..unasked(e)
        }
    }
}
