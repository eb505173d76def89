// Chains: the tables of a day as our building calls write them from the caller's list of departures, called as a board calls them, and then `query` on
// these tables. Its answer is held to all journeys and ways of the timetable and of the caller's list; no table that a call of ours wrote is read for
// that. Each building call is lent stop times and trips as the query has them, with bytes active and excluded, walk edges, cells and unused windows
// that may be others, and settings of its own: only the transfer time that transfers are built with is the query's. On plain days all three calls
// are made; on steady days lines and departures, beside transfers of any origin.

// what chains on plain days must have met: of the tables, then of the query
const CHAINS: [&str; 22] = [
    "a list that sorting changed", "a departure listed twice", "rows in no run", "a departure that is not listed", "transfers written",
    "transfers made of the unsorted list", "transfers made of the sorted list", "bytes of its own for each call",
    "other walk edges, cells and windows at building", "a trip that calls at a stop twice", "shared stop times", "barred pickup or drop-off", "two rides",
    "three rides", "a wheelchair query", "modes that bar a trip", "the best total by a walk", "flags on", "bytes changed since building",
    "an answer that the change altered", "the best total by a trip that did not run at building", "running trips that overtake since the change alone",
];

// THE LIST AND THE BYTES

// the same departures in any order, at times one of them twice
fn list_anew(r: &mut Random, c: &mut Case) {
    c.listed = c.e.stop_departures.clone();
    for d in c.listed.iter_mut().filter(|d| !d.is_empty()) {
        if r.yes(10) {
            d.push(d[r.below(d.len() as u32) as usize]);
        }
        for i in (1..d.len()).rev() {
            d.swap(i, r.below(i as u32 + 1) as usize);
        }
    }
    c.e.stop_departures = c.listed.clone();
}

// of each trip: is it active, is it excluded?
type Bytes = Vec<[bool; 2]>;

fn bytes_of(c: &Case) -> Bytes {
    c.e.trips.iter().zip(&c.e.active).map(|(t, active)| [*active, c.q.excluded_trip_ids.contains(&t.id)]).collect()
}

fn put_bytes(c: &mut Case, bytes: &Bytes) {
    c.e.active = bytes.iter().map(|b| b[0]).collect();
    c.q.excluded_trip_ids = c.e.trips.iter().zip(bytes).filter(|(_, b)| b[1]).map(|(t, _)| t.id.clone()).collect();
}

fn any_bytes(r: &mut Random, trips: usize) -> Bytes {
    let (idle, out) = ([3, 15, 50][r.below(3) as usize], [0, 8, 25][r.below(3) as usize]);
    (0..trips).map(|_| [!r.yes(idle), r.yes(out)]).collect()
}

fn runs_now(b: &[bool; 2]) -> bool {
    b[0] && !b[1]
}

// BUILDING

// What our calls wrote: their slices, how many transfers there are; the bytes that the three calls were lent; have all answered 0; what was met.
struct Made {
    y: Timetable,
    transfers: u32,
    bytes: [Bytes; 3],
    fine: bool,
    met: Vec<bool>,
}

// the timetable as a building call is lent it, with these bytes; at times windows that no trip has, other walk edges and other cells
fn lend_to_build(r: &mut Random, c: &Case, bytes: &Bytes, other: bool, y: &mut Timetable) {
    y.settings = r.settings();
    let (stops, trips, times) = (c.e.stops.len() as u32, c.e.trips.len() as u32, c.e.stop_times.len() as u32);
    let first = 6 * times as usize;
    y.counts = [stops, trips, times, 0, c.e.walk_edges.len() as u32];
    y.tables = table_words(c);
    for (b, trip) in bytes.iter().zip(y.tables[first..].chunks_mut(8)) {
        (trip[6], trip[7]) = (b[0] as u32, b[1] as u32);
    }
    if other {
        let mut from: Vec<u32> = (0..r.below(5)).map(|_| r.below(stops)).collect();
        from.sort();
        (y.counts[3], y.counts[4]) = (r.below(3), from.len() as u32);
        y.tables.truncate(first + 8 * trips as usize);
        y.tables.extend((0..3 * y.counts[3]).map(|_| r.below(900)));
        from.iter().for_each(|s| y.tables.extend([*s, r.below(stops), r.below(90), r.below(8), r.any()]));
        y.tables.extend(junk(r, stops as usize));
    }
}

// what is lent to the calls besides: the caller's list, at times with rows that no stop's run has; areas of any content
fn lent_list(r: &mut Random, c: &Case) -> Timetable {
    let loose: Vec<(u32, u32)> = if r.yes(30) { c.listed.iter().flatten().copied().collect() } else { vec![] };
    let (runs, rows) = runs_of(r, &c.listed, &loose);
    let (stops, n, d) = (c.e.stops.len(), c.e.trips.len(), rows.len());
    let events: u32 = c.e.trips.iter().map(|t| t.stop_time_len).sum();
    Timetable {
        departures: d as u32, runs, rows: rows.iter().flat_map(|p| [p.0, p.1]).collect(), marks: junk(r, stops), line_of: junk(r, n),
        made_runs: junk(r, 2 * n), made_entries: junk(r, n), work: vec![7; d], other: vec![7; d], line_work: vec![7; n], line_other: vec![7; n],
        area: vec![7; 4 * events as usize * c.e.line_trips.len() + r.below(9) as usize], transfer_runs: junk(r, 2 * events as usize),
        ..Timetable::default()
    }
}

// lines, departures and, on a plain day, transfers, made of the caller's list or of the sorted one; on a steady day the transfers are the case's
fn build_ours(r: &mut Random, c: &Case, day: Day) -> Made {
    let n = c.e.trips.len();
    let first = if r.yes(50) { bytes_of(c) } else { any_bytes(r, n) };
    let own = r.yes(30);
    let bytes = [first.clone(), if own { any_bytes(r, n) } else { first.clone() }, if own { any_bytes(r, n) } else { first }];
    let (other, early) = (r.yes(30), r.yes(50));
    let mut y = lent_list(r, c);
    let list = y.rows.clone();
    lend_to_build(r, c, &bytes[0], other, &mut y);
    let lines = group_lines(&mut y);
    (y.line_count, y.lines_of) = (lines.value, y.line_of.clone());
    lend_to_build(r, c, &bytes[1], other, &mut y);
    let sorted = sort_departures(&mut y);
    let rows = y.rows.clone();
    let made = if day == Day::Plain {
        lend_to_build(r, c, &bytes[2], other, &mut y);
        y.settings.transfer_time = c.settings.transfer_time;
        y.rows = if early { list.clone() } else { y.rows };
        make_transfers(&mut y)
    } else {
        let x = lend(r, c, false);
        (y.transfer_runs, y.area) = (x.sections().transfer_runs.to_vec(), x.transfers.clone());
        given(x.sizes.transfers)
    };
    y.rows = rows;
    let met = [&[y.rows != list][..], &list_met(c, &y), &[made.value > 0, early, !early, own, other], &timetable_met(c)].concat();
    Made { y, transfers: made.value, bytes, fine: lines.code == 0 && sorted == 0 && made.code == 0, met }
}

// what the calls wrote, in the layout's order, in place of the tables of the case
fn put_built(x: &mut Lent, m: &Made) {
    let y = &m.y;
    let lines = y.line_count.min(y.counts[1]);
    x.built = [&y.line_of[..], &y.made_runs[..2 * lines as usize], &y.made_entries, &y.runs, &y.rows, &y.marks, &y.transfer_runs].concat();
    x.transfers = y.area.clone();
    (x.sizes.lines, x.sizes.entries, x.sizes.departures, x.sizes.transfers) = (lines, y.counts[1], y.departures, m.transfers);
}

// ASKING

fn chain_searches(r: &mut Random, t: &mut Tallies, day: Day) {
    let mut c = day_of(r, day);
    list_anew(r, &mut c);
    // the same by the Rust, for its scans
    build_departures(&mut c.e);
    if day == Day::Plain {
        under(c.settings, || build_transfers(&mut c.e));
    }
    let m = build_ours(r, &c, day);
    t.wrong += !(m.fine && calm(&c) && (day != Day::Plain || built_for(&c))) as u64;
    for k in 0..ASKED {
        if k > 0 || day != Day::Plain {
            ask_again(r, &mut c);
        }
        let changed = r.yes(50);
        let bytes = if changed { any_bytes(r, c.e.trips.len()) } else { m.bytes[0].clone() };
        put_bytes(&mut c, &bytes);
        delay(r, &mut c, day);
        if !is_of(&c, day) {
            t.wrong += (day == Day::Plain || schedule_rises(&c.e)) as u64;
            continue;
        }
        chain_search(r, t, &mut c, &m, day);
    }
}

fn chain_search(r: &mut Random, t: &mut Tallies, c: &mut Case, m: &Made, day: Day) {
    let mut x = lend(r, c, false);
    put_built(&mut x, m);
    let mut a = areas(r, &x.sizes, 64);
    let reply = ask_ours(Call::Query, &x, &mut a);
    let scans = run(c, switch(Call::Query, c)).1;
    // the journeys and ways are those of the caller's list
    std::mem::swap(&mut c.e.stop_departures, &mut c.listed);
    let right = reply.code == 0 && demand_3(c, &scans, &reply, &a.candidates);
    std::mem::swap(&mut c.e.stop_departures, &mut c.listed);
    t.wrong += (reply.code != 0) as u64;
    t.houses_of(c, &reply);
    let chains = &mut t.chains[(day != Day::Plain) as usize];
    chains.compared += 1;
    chains.no_way += (reply.total == u32::MAX) as u64;
    chains.flagged += flags_on(c) as u64;
    chains.differed += !right as u64;
    if day == Day::Plain {
        let met = [&m.met[..], &query_met(c, &reply, &a), &change_met(r, c, m, &mut x, &reply, &a)].concat();
        t.chains_met.iter_mut().zip(met).for_each(|(n, yes)| *n += yes as u64);
    }
}

// WHAT IT HAS

fn list_met(c: &Case, y: &Timetable) -> [bool; 3] {
    let listed: HashSet<(u32, u32)> = c.listed.iter().flatten().copied().collect();
    let count = c.listed.iter().flatten().count();
    let left_out = |t: u32, o: u32| stop_time_of(&c.e, t, o).pickup_type != 1 && !listed.contains(&(t, o));
    let missing = |t: u32| (0..c.e.trips[t as usize].stop_time_len - 1).any(|o| left_out(t, o));
    [listed.len() < count, count < y.departures as usize, (0..c.e.trips.len() as u32).any(missing)]
}

fn timetable_met(c: &Case) -> [bool; 3] {
    let stop = |t: u32, o: u32| stop_time_of(&c.e, t, o).stop_idx;
    let twice = |t: u32| (0..c.e.trips[t as usize].stop_time_len).any(|o| (0..o).any(|p| stop(t, p) == stop(t, o)));
    let times: u32 = c.e.trips.iter().map(|t| t.stop_time_len).sum();
    let barred = c.e.stop_times.iter().any(|s| s.pickup_type == 1 || s.drop_off_type == 1);
    [(0..c.e.trips.len() as u32).any(twice), times as usize > c.e.stop_times.len(), barred]
}

fn query_met(c: &Case, reply: &Reply, a: &Areas) -> [bool; 6] {
    let rides = if reply.candidates > 0 { a.candidates[3 * reply.candidates as usize - 1] } else { 0 };
    let mode = |t: &GlobalTrip| MODES.iter().position(|m| *m == t.mode).unwrap();
    let barred = c.modes != 0 && c.e.trips.iter().any(|t| c.modes >> mode(t) & 1 == 0);
    [rides == 2, rides == 3, c.q.wheelchair, barred, best_by(c, reply, &a.labels, 3, |_| true), flags_on(c)]
}

// does a running trip of a line arrive or leave before one that stands before it in the line?
fn overtaken(c: &Case, bytes: &Bytes) -> bool {
    let earlier = |t: u32, u: u32| {
        let times = |t: u32| (0..c.e.trips[t as usize].stop_time_len).map(move |o| stop_time_of(&c.e, t, o));
        times(t).zip(times(u)).any(|(a, b)| b.arrival_s < a.arrival_s || b.departure_s < a.departure_s)
    };
    c.e.line_trips.iter().any(|line| {
        let running: Vec<u32> = line.iter().copied().filter(|t| runs_now(&bytes[*t as usize])).collect();
        running.windows(2).any(|w| earlier(w[0], w[1]))
    })
}

// what the bytes do, where they are not those that each call was lent: the answer before the change is asked of some
fn change_met(r: &mut Random, c: &Case, m: &Made, x: &mut Lent, reply: &Reply, a: &Areas) -> [bool; 4] {
    let now = bytes_of(c);
    if m.bytes.iter().all(|b| *b == now) {
        return [false; 4];
    }
    let idle = best_by(c, reply, &a.labels, 2, |t| m.bytes.iter().all(|b| !runs_now(&b[t as usize])));
    let overtakes = overtaken(c, &now) && m.bytes.iter().all(|b| !overtaken(c, b));
    [true, r.yes(20) && answer_before(r, m, x) != (reply.total, reply.stop), idle, overtakes]
}

// the answer with the bytes that the first call was lent
fn answer_before(r: &mut Random, m: &Made, x: &mut Lent) -> (u32, u32) {
    for (b, trip) in m.bytes[0].iter().zip(x.tables[6 * x.sizes.times as usize..].chunks_mut(8)) {
        (trip[6], trip[7]) = (b[0] as u32, b[1] as u32);
    }
    let mut a = areas(r, &x.sizes, 64);
    let before = ask_ours(Call::Query, x, &mut a);
    (before.total, before.stop)
}

// STAND-INS for the building calls (`--cfg mock`), which leave what these must leave, with no tally; MUTANT=13 to 16 makes them wrong in one way each.

// the last row of each run of at least two becomes the one before it
#[cfg(mock)]
fn spoil_runs(runs: &[u32], rows: &mut [u32], width: usize) {
    for c in runs.chunks(2).filter(|c| c[1] > 1) {
        let last = (c[0] + c[1] - 1) as usize * width;
        rows.copy_within(last - width..last, last);
    }
}

#[cfg(mock)]
fn sort_departures(y: &mut Timetable) -> u32 {
    let (code, mut z) = sorting_outcome(y);
    match mutant() {
        // a stop's last departure is lost
        13 => spoil_runs(&z.runs, &mut z.rows, 2),
        // the departures of trips that do not run at building are lost: the one before stands in their place
        14 => {
            let idle = |k: &usize| [6, 7].map(|field| z.known().at(1, z.rows[2 * k] as usize, field)) != [1, 0];
            let later = |c: &[u32]| c[0] as usize + 1..(c[0] + c[1].max(1)) as usize;
            let lost: Vec<usize> = z.runs.chunks(2).flat_map(later).filter(idle).collect();
            lost.iter().for_each(|k| z.rows.copy_within(2 * k - 2..2 * k, 2 * k));
        }
        _ => {}
    }
    *y = z;
    code
}

// trips of the same first stop and as many stop times in one line, by first departure
#[cfg(mock)]
fn merge_lines(z: &mut Timetable, lines: u32) {
    let at = |t: usize, field: usize| z.known().at(0, z.known().at(1, t, 0) as usize, field);
    let alike = |t: usize, u: usize| at(t, 0) == at(u, 0) && z.known().at(1, t, 1) == z.known().at(1, u, 1);
    let line_of: Vec<u32> = (0..z.line_of.len()).map(|t| z.line_of[(0..t).find(|u| alike(*u, t)).unwrap_or(t)]).collect();
    let mut trips: Vec<u32> = (0..line_of.len() as u32).collect();
    trips.sort_by_key(|t| (line_of[*t as usize], at(*t as usize, 2)));
    let of = |l: u32| line_of.iter().filter(|k| **k == l).count() as u32;
    let before = |l: u32| line_of.iter().filter(|k| **k < l).count() as u32;
    z.made_runs = (0..lines).flat_map(|l| [before(l), of(l)]).collect();
    (z.line_of, z.made_entries) = (line_of, trips);
}

#[cfg(mock)]
fn group_lines(y: &mut Timetable) -> Answer {
    let (a, mut z) = lines_outcome(y);
    match mutant() {
        // a line's last trip is lost
        15 => spoil_runs(&z.made_runs[..2 * a.value as usize], &mut z.made_entries, 1),
        16 => merge_lines(&mut z, a.value),
        _ => {}
    }
    *y = z;
    a
}

#[cfg(mock)]
fn make_transfers(y: &mut Timetable) -> Answer {
    let (a, z) = transfers_outcome(y);
    *y = z;
    a
}
