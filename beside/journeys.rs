// Plain and steady days, and all journeys and ways on them, as crates/model/specs/Promise.antt defines them; no search of the Rust's and none of
// its readings of delays stands here.
use std::collections::BTreeSet;

// no time falls
fn rising_times(e: &mut StaticEpoch) {
    for t in &e.trips {
        let mut last = 0;
        for s in &mut e.stop_times[t.stop_time_start as usize..(t.stop_time_start + t.stop_time_len) as usize] {
            s.arrival_s = s.arrival_s.max(last);
            s.departure_s = s.departure_s.max(s.arrival_s);
            last = s.departure_s;
        }
    }
}

// where one trip of a line is listed all are, save some whose pickup is 1
fn list_evenly(r: &mut Random, e: &mut StaticEpoch) {
    let mut listed = vec![vec![]; e.stops.len()];
    for line in &e.line_trips {
        let len = e.trips[line[0] as usize].stop_time_len;
        for o in 0..len {
            if !(o + 1 < len || r.yes(20)) || r.yes(8) {
                continue;
            }
            for t in line {
                let s = &e.stop_times[(e.trips[*t as usize].stop_time_start + o) as usize];
                if s.pickup_type != 1 || r.yes(50) {
                    listed[s.stop_idx as usize].push((*t, o));
                }
            }
        }
    }
    e.stop_departures = listed;
}

// no walk, and longer than any
const FAR: u64 = u64::MAX / 4;

// the shortest walks between stops, of any number of edges, with this query's durations
fn shortest(c: &Case) -> Vec<Vec<u64>> {
    let n = c.e.stops.len();
    let mut d = vec![vec![FAR; n]; n];
    for w in &c.e.walk_edges {
        let at = &mut d[w.from_stop_idx as usize][w.to_stop_idx as usize];
        *at = (*at).min(w.effective_duration_s(c.q.wheelchair) as u64);
    }
    for k in 0..n {
        for i in 0..n {
            for j in 0..n {
                d[i][j] = d[i][j].min(d[i][k] + d[k][j]);
            }
        }
    }
    d
}

// walks complete: an edge, and an origin, for each shortest walk; false where one is longer than a duration may be
fn complete_walks(c: &mut Case) -> bool {
    let d = shortest(c);
    let n = c.e.stops.len();
    let from = |j: usize| c.origins.iter().map(|o| o.duration_s as u64 + d[o.stop_idx as usize][j]).min().filter(|v| *v < FAR);
    let origins: Vec<Option<u64>> = (0..n).map(from).collect();
    let all = d.iter().flatten().filter(|v| **v < FAR).chain(origins.iter().flatten());
    if all.into_iter().any(|v| *v > LIMIT as u64) {
        return false;
    }
    for (i, row) in d.iter().enumerate() {
        for (j, v) in row.iter().enumerate().filter(|(j, v)| *j != i && **v < FAR) {
            c.e.walk_edges.push(WalkEdge { from_stop_idx: i as u32, to_stop_idx: j as u32, duration_s: *v as u32, distance_m: 1.0, pathway_mode: None });
        }
    }
    c.e.walk_edges.sort_by_key(|w| w.from_stop_idx);
    c.e.walk_adj = (0..n).map(|s| (0..c.e.walk_edges.len()).filter(|k| c.e.walk_edges[*k].from_stop_idx as usize == s).collect()).collect();
    c.e.arc_flag_pattern = c.e.walk_edges.iter().enumerate().map(|(i, _)| i as u32 % 4).collect();
    for (j, v) in origins.iter().enumerate() {
        c.origins.extend(v.map(|v| access(j as u32, v as u32, 0.5)));
    }
    true
}

// what a day is made as: without delays; steady; steady save for one condition (steady.rs)
#[derive(Clone, Copy, PartialEq)]
enum Day {
    Plain,
    Steady,
    Broken(usize),
}

// tables of such a day, with a query; on a plain day the lines evenly listed, else any departures and any transfers
fn day_of(r: &mut Random, day: Day) -> Case {
    let kind = 4 * r.below(2);
    let which = [1, 3, 2][r.below(if day == Day::Plain { 2 } else { 3 }) as usize];
    let mut c = loop {
        let mut c = drawn(r, kind, which).0;
        if complete_walks(&mut c) && (c.later == 0 || day != Day::Broken(3)) {
            break c;
        }
    };
    // further queries draw no delays of their own
    c.kind = kind;
    // a steady day's schedule may fall, where nobody rides or other times are given
    if day != Day::Steady || r.yes(85) {
        rising_times(&mut c.e);
    }
    build_lines(&mut c.e);
    if day == Day::Plain {
        list_evenly(r, &mut c.e);
    } else {
        list_unevenly(r, &mut c);
        leave_later(r, &mut c, day);
    }
    build_all(&mut c.e, c.settings);
    if day != Day::Plain {
        any_transfers(r, &mut c.e);
    }
    // the flags skip nothing
    for p in c.e.flag_patterns.iter_mut() {
        *p = gtfs::cell_bitset::CellBitSet::new(512);
        (0..512).for_each(|k| p.set_bit(k));
    }
    c
}

fn stop_time_of(e: &StaticEpoch, t: u32, o: u32) -> &PackedStopTime {
    &e.stop_times[(e.trips[t as usize].stop_time_start + o) as usize]
}

// the delay row of a trip: the rows stand by trip, each trip in the table once at most
fn delay_row(c: &Case, t: u32) -> Option<usize> {
    c.delays.binary_search_by_key(&t, |d| d.0).ok()
}

// the stop row of trip t at offset o: of its delay row and the stop time's sequence; they stand by row and sequence
fn stop_row(c: &Case, t: u32, o: u32) -> Option<&[u32; 5]> {
    let of = (delay_row(c, t)? as u32, stop_time_of(&c.e, t, o).stop_sequence);
    c.stop_rows.binary_search_by_key(&of, |s| (s[0], s[1])).ok().map(|k| &c.stop_rows[k])
}

// a scheduled time of trip t at offset o, moved by the delay that its stop row gives in this field under this flag, else by the trip's; not below 0
fn moved(c: &Case, (t, o): (u32, u32), time: u32, flag: u32, field: usize) -> u32 {
    let of_trip = || delay_row(c, t).map_or(0, |k| c.delays[k].1);
    let delay = stop_row(c, t, o).filter(|s| s[2] & flag != 0).map_or_else(of_trip, |s| s[field] as i32);
    (time as i64 + delay as i64).max(0) as u32
}

// the effective departure of trip t at offset o
fn departs(c: &Case, t: u32, o: u32) -> u32 {
    moved(c, (t, o), stop_time_of(&c.e, t, o).departure_s, 1, 3)
}

// the effective arrival
fn arrives(c: &Case, t: u32, o: u32) -> u32 {
    moved(c, (t, o), stop_time_of(&c.e, t, o).arrival_s, 2, 4)
}

// is its stop there not skipped?
fn served(c: &Case, t: u32, o: u32) -> bool {
    stop_row(c, t, o).map_or(true, |s| s[2] & 4 == 0)
}

fn permitted(c: &Case, t: u32) -> bool {
    let trip = &c.e.trips[t as usize];
    c.e.active[t as usize]
        && !c.q.excluded_trip_ids.contains(&trip.id)
        && (c.modes == 0 || c.modes >> MODES.iter().position(|m| *m == trip.mode).unwrap() & 1 == 1)
        && !(c.q.wheelchair && trip.wheelchair == 2)
}

// may trip t be boarded at offset o at stop x, standing there at v with so much change time before it?
fn boards(c: &Case, x: u32, t: u32, o: u32, v: u32, change: u32) -> bool {
    permitted(c, t)
        && stop_time_of(&c.e, t, o).pickup_type != 1
        && v + change <= departs(c, t, o)
        && served(c, t, o)
        && c.e.stop_departures[x as usize].contains(&(t, o))
}

// where and when it may be left
fn alights(c: &Case, t: u32, o: u32) -> Vec<(u32, u32)> {
    let left = |p: &u32| stop_time_of(&c.e, t, *p).drop_off_type != 1 && served(c, t, *p);
    (o + 1..c.e.trips[t as usize].stop_time_len).filter(left).map(|p| (stop_time_of(&c.e, t, p).stop_idx, arrives(c, t, p))).collect()
}

fn walked(c: &Case, x: u32, v: u32) -> Vec<(u32, u32)> {
    c.e.walk_edges.iter().filter(|w| w.from_stop_idx == x).map(|w| (w.to_stop_idx, v + w.effective_duration_s(c.q.wheelchair))).collect()
}

// the earliest arrival of a whole journey of at most n rides, for each n up to the rounds
fn journeys(c: &Case) -> Vec<u32> {
    let mut at: BTreeSet<(u32, u32)> = c.origins.iter().map(|o| (o.stop_idx, c.start + o.duration_s)).collect();
    let mut out = vec![];
    for n in 0..=routing::tbr::rounds(&c.q) as u32 {
        let arrives = at.iter().filter_map(|(x, v)| c.egress.get(x).map(|e| v + e.duration_s)).min().unwrap_or(u32::MAX);
        out.push(arrives.min(*out.last().unwrap_or(&u32::MAX)));
        let change = if n == 0 { 0 } else { c.q.default_transfer_s };
        let mut rode = BTreeSet::new();
        for (x, v) in &at {
            for (t, o) in c.e.stop_departures[*x as usize].iter().filter(|d| boards(c, *x, d.0, d.1, *v, change)) {
                rode.extend(alights(c, *t, *o));
            }
        }
        at = rode.iter().flat_map(|(x, v)| walked(c, *x, *v)).chain(rode.iter().copied()).collect();
    }
    out
}

type Ways = BTreeSet<(u32, u32, u32, u32)>;

// all ways of at most so many walk edges in a row that stand at a stop no later than `end`: (stop, time, round of the last ride, walks that may follow)
fn ways(c: &Case, scans: &[(u32, u32, u32)], end: u32, walks: u32) -> Ways {
    let mut todo: Vec<(u32, u32, u32, u32)> = c.origins.iter().map(|o| (o.stop_idx, c.start + o.duration_s, 0, walks)).collect();
    let mut seen = Ways::new();
    while let Some((x, v, q, left)) = todo.pop() {
        if v > end || !seen.insert((x, v, q, left)) {
            continue;
        }
        if left > 0 {
            // where any number may follow, it stays any number
            let left = if left == u32::MAX { left } else { left - 1 };
            todo.extend(walked(c, x, v).into_iter().map(|(y, w)| (y, w, q, left)));
        }
        for (r, t, o) in scans.iter().filter(|s| s.0 >= q) {
            if boards(c, x, *t, *o, v, if *r == 0 { 0 } else { c.q.default_transfer_s }) {
                todo.extend(alights(c, *t, *o).into_iter().map(|(y, w)| (y, w, *r, walks)));
            }
        }
    }
    seen
}

// demand 3 of an answer, where the reference has these scans: no journey arrives earlier, "no way" only if there is none, each total is the arrival
// of a way; and for at most n rides a candidate of row n or lower arrives no later than any journey within the slack of the best
fn demand_3(c: &Case, scans: &[(u32, u32, u32)], reply: &Reply, candidates: &[u32]) -> bool {
    let (total, stop) = (reply.total, reply.stop);
    let candidates: Vec<&[u32]> = candidates.chunks(3).take(reply.candidates as usize).collect();
    let earliest = journeys(c);
    if earliest.iter().any(|v| *v < total) {
        return false;
    }
    if total == u32::MAX {
        return true;
    }
    let last = candidates.iter().map(|k| k[0]).max().unwrap_or(0).max(total);
    let arrives = |all: &Ways, v: u32, s: u32| c.egress.get(&s).is_some_and(|e| all.iter().any(|w| w.0 == s && w.1 + e.duration_s == v));
    // first among the ways without two walk edges in a row, which are few, then among all
    let by_ways = |walks: u32| {
        let all = ways(c, scans, last, walks);
        arrives(&all, total, stop) && candidates.iter().all(|k| arrives(&all, k[0], k[1]))
    };
    let covered = |n: usize, v: u32| v > total + c.settings.candidate_slack || candidates.iter().any(|k| k[0] <= v && k[2] as usize <= n);
    (by_ways(1) || by_ways(u32::MAX)) && earliest.iter().enumerate().all(|(n, v)| *v == u32::MAX || covered(n, *v))
}
