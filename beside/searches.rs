// Random searches: tables and queries as the Rust has them, and the reference's answers to them.
// KIND, a sum: 1 frequency windows, 2 delays, 4 arc flags, 8 hand-made lines, marks, departures and transfers.
// Every case has a yes to every question at the door; its settings are in their ranges.
use gtfs::pack::*;
use routing::journey::*;
use routing::tbr::{ask, Given};
use routing::walk::AccessStop;
use std::cell::RefCell;
use std::collections::{BTreeMap, HashMap, HashSet};

thread_local! {
    static SCANS: RefCell<Vec<(u32, u32, u32)>> = RefCell::new(vec![]);
    static QUEUED: RefCell<Vec<usize>> = RefCell::new(vec![]);
}
pub fn record_scan(round: u32, trip: u32, offset: u32) {
    SCANS.with(|s| s.borrow_mut().push((round, trip, offset)))
}
pub fn record_queue(n: usize) {
    QUEUED.with(|q| q.borrow_mut().push(n))
}

// a pattern: its cells, and for how many cells it was made
type Cells = (u32, Vec<u32>);

#[derive(Clone)]
struct Case {
    settings: Settings,
    e: StaticEpoch,
    listed: Vec<Vec<(u32, u32)>>,
    patterns: Vec<Cells>,
    q: ItineraryQuery,
    modes: u32,
    delays: Vec<(u32, i32)>,
    stop_rows: Vec<[u32; 5]>,
    start: u32,
    origins: Vec<AccessStop>,
    egress: BTreeMap<u32, AccessStop>,
    off: bool,
    // what it was drawn by, for another query on the same tables: kind, size, shapes, how much later than drawn all times are
    kind: u32,
    size: &'static Size,
    shapes: Vec<(Vec<u32>, u32)>,
    later: u32,
}

const MODES: [RouteMode; 7] = [RouteMode::Tram, RouteMode::Metro, RouteMode::Rail, RouteMode::Bus, RouteMode::Ferry, RouteMode::Coach, RouteMode::Other];

fn access(s: u32, d: u32, m: f64) -> AccessStop {
    AccessStop { stop_idx: s, duration_s: d, distance_m: m, geometry: None }
}

fn at_stop(stop_idx: u32, arrival_s: u32, departure_s: u32, stop_sequence: u32, (pickup_type, drop_off_type): (u8, u8)) -> PackedStopTime {
    PackedStopTime { stop_idx, arrival_s, departure_s, stop_sequence, pickup_type, drop_off_type, stop_headsign_idx: 0, timepoint: 1, shape_dist_traveled: None }
}

// how many stops, shapes and trips a case has at most beyond the least (3, 1, 3); and of a hundred: shapes that begin where the one before ends,
// to be left later; queries from the first shape's begin to a shape's end; queries for 20 rounds; queries for some modes only;
// stops with walk edges
struct Size {
    stops: u32,
    shapes: u32,
    trips: u32,
    chained: u32,
    far: u32,
    long: u32,
    choosy: u32,
    walks: u32,
}

const SMALL: Size = Size { stops: 3, shapes: 3, trips: 7, chained: 0, far: 0, long: 5, choosy: 35, walks: 50 };
const LARGE: Size = Size { stops: 57, shapes: 14, trips: 77, chained: 90, far: 85, long: 50, choosy: 6, walks: 50 };
const LADDER: Size = Size { stops: 0, shapes: 0, trips: 0, chained: 0, far: 90, long: 70, choosy: 3, walks: 8 };

// shapes, each with how much later than others its trips leave
fn shapes(r: &mut Random, ns: u32, size: &Size) -> Vec<(Vec<u32>, u32)> {
    let mut out: Vec<(Vec<u32>, u32)> = vec![];
    for _ in 0..1 + r.below(size.shapes + 1) {
        let stops = if r.yes(3) { 1 } else { 2 + r.below(4) };
        let mut shape: Vec<u32> = (0..stops).map(|_| r.below(ns)).collect();
        let mut later = 0;
        if r.yes(size.chained) {
            if let Some((before, late)) = out.last() {
                (shape[0], later) = (*before.last().unwrap(), late + 60 + r.below(250));
            }
        }
        out.push((shape, later));
    }
    out
}

// trips over a few shapes, some of them on stop times that another trip has too
fn trips(r: &mut Random, e: &mut StaticEpoch, windows: bool, size: &Size, shapes: &[(Vec<u32>, u32)]) -> Vec<Vec<(u32, u32)>> {
    let ns = e.stops.len() as u32;
    let mut listed = vec![vec![]; ns as usize];
    for t in 0..3 + r.below(size.trips + 1) {
        let shared = t > 0 && r.yes(12);
        let (first, len) = if shared {
            let u = &e.trips[r.below(t as u32) as usize];
            let cut = if u.stop_time_len > 2 && r.yes(30) { 1 } else { 0 };
            (u.stop_time_start + if r.yes(50) { cut } else { 0 }, u.stop_time_len - cut)
        } else {
            let (shape, later) = &shapes[r.below(shapes.len() as u32) as usize];
            let first = e.stop_times.len() as u32;
            let mut time = 50 + 30 * r.below(20) + later;
            for (o, s) in shape.iter().enumerate() {
                let arrival_s = time;
                let departure_s = if r.yes(4) { arrival_s.saturating_sub(20) } else { arrival_s + 10 * r.below(3) };
                time = if r.yes(4) { departure_s.saturating_sub(15) } else { departure_s + 20 * r.below(7) };
                let mut code = || if r.yes(12) { r.below(4) as u8 } else { 0 };
                let codes = (code(), code());
                e.stop_times.push(at_stop(*s, arrival_s, departure_s, o as u32 + r.below(2), codes));
            }
            (first, shape.len() as u32)
        };
        enter(r, e, &mut listed, windows, size, (first, len));
    }
    shuffle(r, &mut listed);
    listed
}

// its departures, listed in any order
fn shuffle(r: &mut Random, listed: &mut [Vec<(u32, u32)>]) {
    for d in listed.iter_mut().filter(|d| d.len() > 1) {
        for _ in 0..3 {
            let (i, j) = (r.below(d.len() as u32) as usize, r.below(d.len() as u32) as usize);
            d.swap(i, j);
        }
    }
}

// a trip on these stop times; most of its departures but the last are listed
fn enter(r: &mut Random, e: &mut StaticEpoch, listed: &mut [Vec<(u32, u32)>], windows: bool, size: &Size, (first, len): (u32, u32)) {
    let t = e.trips.len() as u32;
    for o in 0..len {
        if (o + 1 < len || r.yes(20)) && !r.yes(6) {
            listed[e.stop_times[(first + o) as usize].stop_idx as usize].push((t, o));
        }
    }
    let mut w = vec![];
    if windows && r.yes(40) {
        for _ in 0..1 + r.below(2) {
            let s = 60 * r.below(10);
            let back = if r.yes(5) { 120 } else { 0 };
            w.push(FrequencyWindow { start_s: s, end_s: (s + 50 * r.below(10)).saturating_sub(back), headway_s: 20 * r.below(6) });
        }
    }
    let (wheelchair, mode) = (if r.yes(80) { 0 } else { r.below(3) as u8 }, MODES[r.below(7) as usize]);
    e.trips.push(GlobalTrip { id: format!("t{t}"), wheelchair, mode, stop_time_start: first, stop_time_len: len, frequency_windows: w });
    e.trip_id_to_idx.insert(format!("t{t}"), t);
    e.active.push(!r.yes(size.choosy / 3));
}

// a ladder: rides from each stop to the next, and from each one to the last, the earlier there the more rides came before
fn rungs(r: &mut Random, m: u32) -> Vec<(u32, u32, u32, u32)> {
    let mut rides = vec![];
    for k in 0..m {
        rides.extend((0..1 + r.below(2)).map(|late| (k, k + 1, 200 * k + 100 + 5 * late, 200 * k + 170)));
        rides.push((k, m, 200 * k + 110, 6000 - 150 * k + r.below(200)));
    }
    rides
}

// trips of one ride each: from, to, departure, arrival
fn rides_of(r: &mut Random, e: &mut StaticEpoch, windows: bool, rides: &[(u32, u32, u32, u32)]) -> Vec<Vec<(u32, u32)>> {
    let mut listed = vec![vec![]; e.stops.len()];
    for &(from, to, leaves, arrives) in rides {
        let first = e.stop_times.len() as u32;
        e.stop_times.extend([at_stop(from, leaves, leaves, 0, (0, 0)), at_stop(to, arrives, arrives, 1, (0, 0))]);
        let windows = windows && r.yes(10);
        enter(r, e, &mut listed, windows, &LADDER, (first, 2));
    }
    shuffle(r, &mut listed);
    listed
}

// a multiple of a step, now and then the greatest
fn duration(r: &mut Random, step: u32, steps: u32) -> u32 {
    if r.below(300) == 0 { LIMIT } else { step * r.below(steps) }
}

fn walks(r: &mut Random, e: &mut StaticEpoch, size: &Size) {
    let ns = e.stops.len() as u32;
    e.walk_adj = vec![vec![]; ns as usize];
    for from in 0..ns {
        for _ in 0..if r.yes(size.walks) { r.below(3) } else { 0 } {
            e.walk_adj[from as usize].push(e.walk_edges.len());
            let (to_stop_idx, duration_s, distance_m) = (r.below(ns), duration(r, 10, 8), (2 * r.below(3) + 1) as f64);
            let pathway_mode = if r.yes(30) { None } else { Some(1 + r.below(7) as u8) };
            e.walk_edges.push(WalkEdge { from_stop_idx: from, to_stop_idx, duration_s, distance_m, pathway_mode });
        }
    }
}

// cells, and patterns that hold some, all or none of them; numbers past the tables
fn flags(r: &mut Random, e: &mut StaticEpoch, on: bool) -> Vec<Cells> {
    e.num_cells = [1, 3, 3, 64, 65, 130, 512, 0][r.below(if on { 7 } else { 8 }) as usize];
    let cells = [0, 1, 2, 63, 64, 127, 128, 129, 511, 512];
    let near = if e.num_cells < 64 { 3 } else { 10 };
    for _ in 0..e.stops.len() {
        e.stop_partition.push(if r.yes(5) { 1000 } else { cells[r.below(near) as usize] });
    }
    let mut patterns = vec![];
    let dense = [30, 65, 100][r.below(3) as usize];
    for _ in 0..if on { 1 + r.below(3) } else { 0 } {
        let made = if r.yes(20) { [1, 65, 130][r.below(3) as usize] } else { e.num_cells };
        let held: Vec<u32> = cells.iter().copied().filter(|_| r.yes(dense)).collect();
        let mut c = gtfs::cell_bitset::CellBitSet::new(made);
        held.iter().for_each(|&k| c.set_bit(k as usize));
        e.flag_patterns.push(c);
        patterns.push((made, held));
    }
    let np = patterns.len() as u32;
    for _ in 0..e.walk_edges.len() {
        e.arc_flag_pattern.push(if r.yes(90) { r.below(np.max(1)) } else { r.below(5) });
    }
    if on && r.yes(70) {
        for x in e.trip_transfers.iter_mut().flatten().flatten() {
            x.flag_pattern = if r.yes(90) { r.below(np) } else { r.below(5) };
        }
    }
    patterns
}

// a transfer's target is not active; in its line there follow about as many entries that are not active either as a transfer tries
fn long_line(r: &mut Random, e: &mut StaticEpoch, tried: u32) {
    let nt = e.trips.len() as u32;
    let targets: Vec<u32> = e.trip_transfers.iter().flatten().flatten().map(|x| x.target_trip).collect();
    let y = r.below(nt);
    if targets.is_empty() {
        return;
    }
    let a = targets[r.below(targets.len() as u32) as usize];
    if a == y {
        return;
    }
    (e.active[a as usize], e.active[y as usize]) = (false, false);
    let line = &mut e.line_trips[e.line_of_trip[a as usize] as usize];
    line.retain(|t| *t != a);
    // no longer than for the Rust's own number
    let tried = if tried > 70 { 64 } else { tried };
    (0..(tried + r.below(4)).saturating_sub(3)).for_each(|_| line.insert(0, y));
    line.insert(0, a);
}

// lines, marks, departures and transfers that no building call wrote
fn by_hand(r: &mut Random, e: &mut StaticEpoch, settings: Settings) {
    let (nt, nl) = (e.trips.len() as u32, e.line_trips.len() as u32);
    for m in e.stop_has_freq.iter_mut().filter(|_| r.yes(30)) {
        *m = !*m;
    }
    for i in 0..e.line_of_trip.len() {
        if r.yes(15) {
            e.line_of_trip[i] = r.below(nl);
        }
    }
    for l in e.line_trips.iter_mut() {
        if r.yes(30) && !l.is_empty() {
            let i = r.below(l.len() as u32) as usize;
            l[i] = r.below(nt);
        }
        if r.yes(20) {
            l.push(r.below(nt));
        }
        if r.yes(10) {
            l.pop();
        }
    }
    if r.yes(40) {
        long_line(r, e, settings.line_scan);
    }
    for d in e.stop_departures.iter_mut() {
        if r.yes(30) && !d.is_empty() {
            let i = r.below(d.len() as u32) as usize;
            if r.yes(50) {
                d.remove(i);
            } else {
                d.insert(i, d[i]);
            }
        }
    }
    transfers_by_hand(r, e);
}

// some transfers changed, some added
fn transfers_by_hand(r: &mut Random, e: &mut StaticEpoch) {
    let nt = e.trips.len() as u32;
    for x in e.trip_transfers.iter_mut().flatten().flatten() {
        if r.yes(8) {
            (x.target_trip, x.target_board_off) = (r.below(nt + 2), r.below(5));
        }
        if r.yes(15) {
            x.min_transfer_s = 30 * r.below(5);
        }
    }
    for _ in 0..r.below(3) {
        let t = r.below(nt) as usize;
        let o = r.below(e.trip_transfers[t].len() as u32) as usize;
        e.trip_transfers[t][o].push(TripTransferEntry { target_trip: r.below(nt), target_board_off: r.below(4), min_transfer_s: 30 * r.below(5), flag_pattern: r.below(4) });
    }
}

// somewhat more than the margin's cap, where that is not too large
fn past_cap_of(c: &Case) -> u32 {
    c.settings.margin_cap.min(500_000) + 400
}

// delay rows by trip, stop rows by row and sequence, some skipped, and one of an unknown trip, at times past the margin's cap
fn late(r: &mut Random, c: &mut Case) {
    // at times all delays are longer than the cap, and the query is as much later; at times most trips run early
    let (most, past) = (LIMIT as i32 - 400, past_cap_of(c) as i32);
    let far = if r.yes(12) { past } else if r.yes(20) { -250 } else if r.yes(3) { [most, -most][r.below(2) as usize] } else { 0 };
    c.start += if far > 0 { past as u32 - 200 } else { 0 };
    for t in 0..c.e.trips.len() as u32 {
        if !r.yes(if far != 0 { 85 } else { 45 }) {
            continue;
        }
        let mut adj = RtTripAdjust { trip_delay_s: far + r.below(400) as i32 - 150, ..Default::default() };
        for sequence in 0..5u32 {
            if !r.yes(35) {
                continue;
            }
            let (flags, dep, arr) = (r.below(8), far + r.below(300) as i32 - 120, far + r.below(300) as i32 - 120);
            if flags & 1 != 0 {
                adj.dep_delay.insert(sequence, dep);
            }
            if flags & 2 != 0 {
                adj.arr_delay.insert(sequence, arr);
            }
            if flags & 4 != 0 {
                adj.skipped.insert(sequence);
            }
            c.stop_rows.push([c.delays.len() as u32, sequence, flags, dep as u32, arr as u32]);
        }
        c.delays.push((t, adj.trip_delay_s));
        c.q.rt_adjust.insert(format!("t{t}"), adj);
    }
    unknown(r, c);
}

// at times one or two unknown trips, with a stop row each
fn unknown(r: &mut Random, c: &mut Case) {
    for i in 0..if r.yes(25) { 1 + r.below(2) } else { 0 } {
        let delay = if r.yes(30) { 30000 - 60000 * r.below(2) as i32 } else { r.below(900) as i32 - 450 };
        let mut adj = RtTripAdjust { trip_delay_s: delay, ..Default::default() };
        if r.yes(30) {
            let own = r.below(2000) as i32 - 1000;
            adj.arr_delay.insert(i, own);
            c.stop_rows.push([c.delays.len() as u32, i, 2, 0, own as u32]);
        }
        c.q.rt_adjust.insert(format!("unknown{i}"), adj);
        c.delays.push((u32::MAX, delay));
    }
}

// one of three in so many of a hundred; else a few, at times more
fn few(r: &mut Random, percent: u32, far: [u32; 3], least: u32, most: u32) -> u32 {
    let more = r.yes(20);
    if r.yes(percent) { far[r.below(3) as usize] } else { r.below(if more { most } else { least }) }
}

// modes, rounds, wheelchair, change time, excluded trips
fn wishes(r: &mut Random, e: &StaticEpoch, size: &Size) -> (ItineraryQuery, u32) {
    let mut q = ItineraryQuery {
        raptor_max_rounds: few(r, size.long, [20, 12, u32::MAX], 7, 14), max_transfers: few(r, 5, [u32::MAX, u32::MAX - 1, 40], 4, 12), wheelchair: r.yes(30),
        default_transfer_s: if r.yes(90) { [0, 30, 120, 121][r.below(4) as usize] } else { duration(r, 1, 400) }, ..Default::default()
    };
    let modes = if r.yes(size.choosy) { r.below(127) + 1 } else { 0 };
    if modes > 0 {
        q.modes = Some((0..7).filter(|m| (modes >> m) & 1 == 1).map(|m| MODES[m]).collect());
    }
    for t in 0..e.trips.len() {
        if r.yes(size.choosy / 3) {
            q.excluded_trip_ids.insert(format!("t{t}"));
        }
    }
    (q, modes)
}

// origins, some at one stop, and egress stops; now and then none
fn ends(r: &mut Random, ns: u32, slack: u32) -> (Vec<AccessStop>, BTreeMap<u32, AccessStop>) {
    let mut origins: Vec<AccessStop> = (0..1 + r.below(3)).map(|_| access(r.below(ns), duration(r, 10, 6), r.below(4) as f64)).collect();
    if r.yes(25) {
        let again = origins[0].stop_idx;
        origins.push(access(again, 10 * r.below(6), r.below(4) as f64));
    }
    let mut egress = BTreeMap::new();
    for _ in 0..1 + r.below(3) {
        let s = r.below(ns);
        egress.insert(s, access(s, duration(r, 7, 5), 0.0));
    }
    // a long walk to an egress stop: a candidate of row 0, at times later than the best by more than the slack
    if r.yes(15) {
        origins.push(access(*egress.keys().next().unwrap(), slack + 100 * r.below(12), 1.0));
    }
    if r.yes(1) {
        origins.clear();
    }
    if r.yes(1) {
        egress.clear();
    }
    (origins, egress)
}

// from the first shape's begin to the end of a later one, early
fn far(r: &mut Random, shapes: &[(Vec<u32>, u32)], slack: u32) -> (Vec<AccessStop>, BTreeMap<u32, AccessStop>, u32) {
    let mut egress = BTreeMap::new();
    for _ in 0..1 + r.below(2) {
        let shape = &shapes[(r.below(shapes.len() as u32).max(r.below(shapes.len() as u32))) as usize].0;
        egress.insert(*shape.last().unwrap(), access(*shape.last().unwrap(), 7 * r.below(400), 0.0));
    }
    let mut origins = vec![access(shapes[0].0[0], 10 * r.below(6), r.below(4) as f64)];
    if r.yes(20) {
        origins.push(access(*egress.keys().next().unwrap(), slack.saturating_sub(1100) + r.below(4000), 2.0));
    }
    (origins, egress, 30 * r.below(3))
}

fn build_all(e: &mut StaticEpoch, settings: Settings) {
    build_departures(e);
    build_lines(e);
    under(settings, || build_transfers(e));
}

fn case(r: &mut Random, kind: u32, size: &'static Size) -> Case {
    let mut e = StaticEpoch::default();
    e.stops = (0..3 + r.below(size.stops + 1)).collect();
    let ns = e.stops.len() as u32;
    let shapes = shapes(r, ns, size);
    let listed = trips(r, &mut e, kind & 1 != 0, size, &shapes);
    asked_of(r, e, listed, shapes, kind, size)
}

fn ladder(r: &mut Random, kind: u32) -> Case {
    let mut e = StaticEpoch::default();
    e.stops = (0..4 + r.below(14)).collect();
    let m = e.stops.len() as u32 - 1;
    let rides = rungs(r, m);
    let listed = rides_of(r, &mut e, kind & 1 != 0, &rides);
    asked_of(r, e, listed, vec![(vec![0, m], 0)], kind, &LADDER)
}

// one ride, then a line of close departures, and a walk to the end that is about as fast: delays decide
fn close(r: &mut Random, kind: u32) -> Case {
    let mut e = StaticEpoch::default();
    e.stops = (0..4).collect();
    let mut rides = vec![(0, 1, 100, 200)];
    rides.extend((0..2 + r.below(5)).map(|k| (1, 2, 320 + 40 * k, 400 + 40 * k)));
    let listed = rides_of(r, &mut e, kind & 1 != 0, &rides);
    let mut c = asked_of(r, e, listed, vec![(vec![0, 2], 0)], kind, &LADDER);
    c.origins.push(access(2, 250 + r.below(400), 3.0));
    c.egress.values_mut().for_each(|a| a.duration_s = r.below(30));
    if r.yes(15) && c.delays.iter().all(|d| d.1.abs() < 100_000) {
        early(&mut c);
    }
    c
}

// all trips but the first leave later by more than the margin's cap, and those with a delay row run as much early
fn early(c: &mut Case) {
    let by = past_cap_of(c);
    c.e.stop_times.iter_mut().skip(2).for_each(|s| (s.arrival_s, s.departure_s) = (s.arrival_s + by, s.departure_s + by));
    for (row, (t, delay)) in c.delays.iter_mut().enumerate().filter(|(_, d)| d.0 > 0 && d.0 != u32::MAX) {
        *delay -= by as i32;
        let adj = c.q.rt_adjust.get_mut(&format!("t{t}")).unwrap();
        adj.trip_delay_s -= by as i32;
        adj.dep_delay.values_mut().chain(adj.arr_delay.values_mut()).for_each(|d| *d -= by as i32);
        for s in c.stop_rows.iter_mut().filter(|s| s[0] as usize == row) {
            (s[3], s[4]) = (s[3].wrapping_sub(by), s[4].wrapping_sub(by));
        }
    }
}

// walks, flags and a query on these trips
fn asked_of(r: &mut Random, mut e: StaticEpoch, listed: Vec<Vec<(u32, u32)>>, shapes: Vec<(Vec<u32>, u32)>, kind: u32, size: &'static Size) -> Case {
    let settings = r.settings();
    e.stop_departures = listed.clone();
    build_all(&mut e, settings);
    walks(r, &mut e, size);
    let patterns = flags(r, &mut e, kind & 4 != 0);
    if kind & 8 != 0 {
        by_hand(r, &mut e, settings);
    }
    let mut c = Case { settings, listed, patterns, kind, size, shapes, ..unasked(e) };
    ask_anew(r, &mut c);
    c
}

// these tables with a query that says nothing
fn unasked(e: StaticEpoch) -> Case {
    Case {
        settings: OWN, e, listed: vec![], patterns: vec![], q: ItineraryQuery::default(), modes: 0, delays: vec![], stop_rows: vec![], start: 0,
        origins: vec![], egress: BTreeMap::new(), off: false, kind: 0, size: &SMALL, shapes: vec![], later: 0,
    }
}

// another query, with other delays and at times other settings, on the same tables; the transfer time stays the one that they were built with
fn ask_anew(r: &mut Random, c: &mut Case) {
    if r.yes(30) {
        c.settings = r.settings().with(0, c.settings.transfer_time);
    }
    (c.q, c.modes) = wishes(r, &c.e, c.size);
    (c.origins, c.egress) = ends(r, c.e.stops.len() as u32, c.settings.candidate_slack);
    c.start = 30 * r.below(16);
    if r.yes(c.size.far) {
        (c.origins, c.egress, c.start) = far(r, &c.shapes, c.settings.candidate_slack);
    }
    c.off = r.yes(15);
    (c.delays, c.stop_rows) = (vec![], vec![]);
    if c.kind & 2 != 0 {
        late(r, c);
    }
    c.start = (c.start + c.later).min(LIMIT);
}

// the reference's answer; then its scans and queue lengths, last first
type Ran = (Given, Vec<(u32, u32, u32)>, Vec<usize>);
fn run(c: &Case, off: bool) -> Ran {
    SCANS.with(|s| s.borrow_mut().clear());
    QUEUED.with(|q| q.borrow_mut().clear());
    let egress = c.egress.iter().map(|(s, a)| (*s, a.clone())).collect();
    let g = under(c.settings, || ask(&c.e, &c.q, c.start, &c.origins, &egress, off));
    let (mut s, mut q) = (SCANS.with(|s| s.borrow().clone()), QUEUED.with(|q| q.borrow().clone()));
    s.reverse();
    q.reverse();
    (g, s, q)
}

// the cells of the egress stops; are the flags on (`use_arc_flags`)?
fn target_cells(c: &Case) -> gtfs::cell_bitset::CellBitSet {
    let mut target = gtfs::cell_bitset::CellBitSet::new(c.e.num_cells);
    c.egress.keys().for_each(|s| target.set_bit(c.e.stop_partition[*s as usize] as usize));
    target
}
fn flags_on(c: &Case) -> bool {
    !target_cells(c).is_empty() && !c.e.flag_patterns.is_empty() && !c.off
}

// are the flags on, and do they skip nothing? Then `query` puts them off.
fn skip_nothing(c: &Case) -> bool {
    let target = target_cells(c);
    let holds = |p: u32| c.e.flag_patterns.get(p as usize).map(|p| p.intersects(&target)).unwrap_or(true);
    flags_on(c) && c.e.arc_flag_pattern.iter().all(|p| holds(*p)) && c.e.trip_transfers.iter().flatten().flatten().all(|x| holds(x.flag_pattern))
}

// few scans, or all in round 0; with flags, no segment queued; with delays, no delay row
fn dull(c: &Case, kind: u32, scans: &[(u32, u32, u32)], queue: &[usize]) -> bool {
    scans.len() < 4
        || scans.iter().all(|x| x.0 < 1)
        || kind & 4 != 0 && !c.off && queue.iter().all(|n| *n == 0)
        || kind & 2 != 0 && c.delays.is_empty()
}
