// `query` and `run_tbr` timed beside the Rust (`TbrScratch::new` and `run_tbr`): same tables, one run, both optimised, doors and clearing included
// (the Rust has no doors). Prints microseconds a query, the median of all queries and passes, taken in turn. Beside it, of `query`:
//   idle      the same query without origins: doors, setting up (positions, FIFO flags) and clearing, and nothing to search
//   refused   by the last question: there the questions are asked one by one
//   zeroing   zeroing areas of these sizes, by the program
//   doors%    of a query, its doors: questions 1 to 3 (a refusal by 3 that reads all runs) and the pass that asks 4 to 6 at once (a refusal by 6 after
//             that pass, less one before it); clear%: zeroing
// The last rows have 65,536 walk edges, and 4,096 patterns of 500 cells, each with about half of them; all three the same queries. Under each stands
// which share of the edges and transfers the flags skip, and the least and the greatest ratio of its passes over all queries. They draw from
// numbers of their own. On these tables the Rust's first calls of a query take up to twice as long as its later ones, ours a quarter longer; all
// are counted, as in the other rows. `bench_query walks`: these rows alone.
#![allow(dead_code, unused)]
include!(concat!(env!("BESIDE"), "/query_parts.rs"));
use std::hint::black_box;
use std::time::Instant;

// of a row: queries, passes over all of them, and calls of each in a pass
struct Effort {
    queries: usize,
    passes: usize,
    calls: usize,
}
const ONE_PASS: Effort = Effort { queries: 60, passes: 1, calls: 5 };
const PASSES: Effort = Effort { queries: 20, passes: 7, calls: 5 };
// segments that a queue half holds
const HALF: usize = 8192;

// walk edges (all stops have as many, or one more), cells, patterns, and how many of a hundred cells a pattern holds
struct Flags {
    edges: u32,
    cells: u32,
    patterns: u32,
    held: u32,
}
// as many edges and patterns as there may be
const WALKS: Flags = Flags { edges: 65_536, cells: 500, patterns: 4096, held: 50 };

fn median(v: &mut Vec<f64>) -> f64 {
    v.sort_by(|a, b| a.partial_cmp(b).unwrap());
    v[v.len() / 2] * 1e6
}

fn timed<T>(into: &mut Vec<f64>, f: impl FnOnce() -> T) -> T {
    let t = Instant::now();
    let x = f();
    into.push(t.elapsed().as_secs_f64());
    x
}

// lines of `each` stops, one stop in ten of them shared with other lines; 40 trips a line over 16 hours, all of a line equally fast
fn network(r: &mut Random, stops: u32, trips: u32, each: u32) -> StaticEpoch {
    let mut e = StaticEpoch::default();
    e.stops = (0..stops).collect();
    let (lines, hubs) = (trips / 40, stops / 25);
    let mut own = 0;
    for _ in 0..lines {
        let shape: Vec<u32> = (0..each)
            .map(|_| {
                own += 1;
                if r.yes(10) { r.below(hubs) } else { hubs + own % (stops - hubs) }
            })
            .collect();
        let rides: Vec<u32> = shape.iter().map(|_| 60 + r.below(200)).collect();
        for k in 0..40 {
            let mut at = 18_000 + 1440 * k + r.below(600);
            let first = e.stop_times.len() as u32;
            for (o, s) in shape.iter().enumerate() {
                e.stop_times.push(at_stop(*s, at, at + 20, o as u32, (0, 0)));
                at += 20 + rides[o];
            }
            let id = format!("t{}", e.trips.len());
            e.trip_id_to_idx.insert(id.clone(), e.trips.len() as u32);
            e.trips.push(GlobalTrip { id, mode: MODES[r.below(7) as usize], stop_time_start: first, stop_time_len: each, ..Default::default() });
            e.active.push(true);
        }
    }
    e.stop_departures = vec![vec![]; stops as usize];
    for t in 0..e.trips.len() {
        for o in 0..each - 1 {
            let s = e.stop_times[(e.trips[t].stop_time_start + o) as usize].stop_idx;
            e.stop_departures[s as usize].push((t as u32, o));
        }
    }
    build_all(&mut e, OWN);
    e
}

// walk edges; cells, and patterns that hold some of them, for edges and transfers
fn walks_and_flags(r: &mut Random, e: &mut StaticEpoch, n: &Flags) {
    let stops = e.stops.len() as u32;
    e.walk_adj = vec![vec![]; stops as usize];
    for from in 0..stops {
        for _ in n.edges * from / stops..n.edges * (from + 1) / stops {
            e.walk_adj[from as usize].push(e.walk_edges.len());
            let (to_stop_idx, duration_s) = (r.below(stops), 60 + r.below(540));
            e.walk_edges.push(WalkEdge { from_stop_idx: from, to_stop_idx, duration_s, distance_m: 100.0, pathway_mode: None });
            e.arc_flag_pattern.push(r.below(n.patterns));
        }
    }
    e.num_cells = n.cells;
    e.stop_partition = (0..stops).map(|s| s * n.cells / stops).collect();
    for _ in 0..n.patterns {
        let mut p = gtfs::cell_bitset::CellBitSet::new(n.cells);
        (0..n.cells).filter(|_| r.yes(n.held)).for_each(|c| p.set_bit(c as usize));
        e.flag_patterns.push(p);
    }
    e.trip_transfers.iter_mut().flatten().flatten().for_each(|x| x.flag_pattern = r.below(n.patterns));
}

fn put_query(r: &mut Random, c: &mut Case, rounds: u32, off: bool) {
    let stops = c.e.stops.len() as u32;
    c.q = ItineraryQuery { raptor_max_rounds: rounds, default_transfer_s: 120, ..Default::default() };
    c.start = 20_000 + r.below(40_000);
    c.origins = (0..1 + r.below(3)).map(|_| access(r.below(stops), r.below(600), 1.0)).collect();
    c.egress = (0..1 + r.below(3)).map(|_| r.below(stops)).map(|s| (s, access(s, 60 + s % 500, 1.0))).collect();
    c.off = off;
}

// the same search with two delay rows out of order: refused by the last question
fn refused_last(x: &Lent) -> Lent {
    let mut y = x.clone();
    y.sizes.delays = 2;
    y.query.extend([5, 0, 3, 0]);
    y
}

// the same search with the departures of the last stop that has some turned round: refused by 6 too, after the pass that asks questions 4 to 6 at once
fn refused_late(x: &Lent) -> Lent {
    let mut y = x.clone();
    let n = &x.sizes;
    let runs = (n.trips + 2 * n.lines + n.entries) as usize;
    let rows = runs + 2 * n.stops as usize;
    let last = (0..n.stops as usize).rev().find(|s| x.built[runs + 2 * s + 1] > 1).unwrap();
    let (first, count) = (x.built[runs + 2 * last] as usize, x.built[runs + 2 * last + 1] as usize);
    let turned: Vec<u32> = x.built[rows + 2 * first..rows + 2 * (first + count)].chunks(2).rev().flatten().copied().collect();
    y.built[rows + 2 * first..rows + 2 * (first + count)].copy_from_slice(&turned);
    y
}

// the same search with its last transfer run too long: refused by 3, every run read
fn refused_runs(x: &Lent) -> Lent {
    let mut y = x.clone();
    *y.built.last_mut().unwrap() = 65_537;
    y
}

// the same search without origins
fn no_origins(x: &Lent) -> Lent {
    let mut y = x.clone();
    let n = x.sizes.origins as usize;
    y.query.drain(7..7 + 2 * n);
    y.distances.truncate(x.distances.len() - n);
    y.sizes.origins = 0;
    y
}

#[derive(Default)]
struct Times {
    query: Vec<f64>,
    run_tbr: Vec<f64>,
    rust: Vec<f64>,
    idle: Vec<f64>,
    refused: Vec<f64>,
    late: Vec<f64>,
    early: Vec<f64>,
    runs: Vec<f64>,
    zeroing: Vec<f64>,
    ways: usize,
    differed: usize,
    // walk edges and transfers that the flags skip, of all queries
    skipped: [usize; 2],
}

fn one(t: &mut Times, c: &Case, x: &Lent, a: &mut Areas, calls: usize) {
    let egress = c.egress.iter().map(|(s, e)| (*s, e.clone())).collect();
    let (last, idle) = (refused_last(x), no_origins(x));
    for _ in 0..calls {
        let reply = timed(&mut t.query, || ask_ours(Call::Query, black_box(x), a));
        let (best, candidates) = timed(&mut t.rust, || black_box(routing::tbr::search(&c.e, &c.q, c.start, &c.origins, &egress, c.off)));
        t.ways += best.is_some() as usize;
        t.differed += (reply.code != 0 || reply.total != best.map(|b| b.0).unwrap_or(u32::MAX) || reply.candidates as usize != candidates) as usize;
        t.differed += (timed(&mut t.run_tbr, || ask_ours(Call::RunTbr, black_box(x), a)).code != 0) as usize;
        t.differed += (timed(&mut t.idle, || ask_ours(Call::Query, black_box(&idle), a)).code != 0) as usize;
        t.differed += (timed(&mut t.refused, || ask_ours(Call::Query, black_box(&last), a)).code != 6) as usize;
        timed(&mut t.zeroing, || clear(black_box(a)));
    }
    // the doors apart, so that these tables do not push the others out of the cache
    let (late, runs) = (refused_late(x), refused_runs(x));
    for _ in 0..calls {
        t.differed += (timed(&mut t.late, || ask_ours(Call::Query, black_box(&late), a)).code != 6) as usize;
        t.differed += (timed(&mut t.early, || ask_ours(Call::Query, black_box(&last), a)).code != 6) as usize;
        t.differed += (timed(&mut t.runs, || ask_ours(Call::Query, black_box(&runs), a)).code != 3) as usize;
    }
}

// how many walk edges and transfers the flags skip
fn skipped(c: &Case) -> [usize; 2] {
    let target = target_cells(c);
    let skips: Vec<bool> = c.e.flag_patterns.iter().map(|p| flags_on(c) && !p.intersects(&target)).collect();
    let edges = c.e.arc_flag_pattern.iter().filter(|p| skips[**p as usize]).count();
    [edges, c.e.trip_transfers.iter().flatten().flatten().filter(|x| skips[x.flag_pattern as usize]).count()]
}

// the least and the greatest ratio of the passes, each that of two medians
fn spread(ours: &[f64], rust: &[f64], n: &Effort) -> String {
    let medians = |v: &[f64]| -> Vec<f64> { v.chunks(n.queries * n.calls).map(|pass| median(&mut pass.to_vec())).collect() };
    let mut ratios: Vec<f64> = medians(ours).iter().zip(medians(rust)).map(|(a, b)| a / b).collect();
    ratios.sort_by(|a, b| a.partial_cmp(b).unwrap());
    format!("{:.2} to {:.2}", ratios[0], ratios[n.passes - 1])
}

fn row(r: &mut Random, name: &str, c: &mut Case, rounds: u32, off: bool, n: &Effort) -> usize {
    let mut t = Times::default();
    let sizes = lend(r, c, false).sizes;
    let mut a = areas(r, &sizes, 4 * HALF);
    let mut asked = vec![];
    for _ in 0..n.queries {
        put_query(r, c, rounds, off);
        t.skipped.iter_mut().zip(skipped(c)).for_each(|(n, k)| *n += k);
        asked.push((c.q.clone(), c.start, c.origins.clone(), c.egress.clone()));
    }
    for q in (0..n.passes).flat_map(|_| &asked) {
        (c.q, c.start, c.origins, c.egress) = q.clone();
        let x = lend(r, c, false);
        one(&mut t, c, &x, &mut a, n.calls);
    }
    let spreads = [&t.query, &t.run_tbr].map(|ours| spread(ours, &t.rust, n));
    let (ours, tbr, rust) = (median(&mut t.query), median(&mut t.run_tbr), median(&mut t.rust));
    let (idle, refused, zeroing) = (median(&mut t.idle), median(&mut t.refused), median(&mut t.zeroing));
    let (flags, ways) = (if off { "off" } else { "on" }, 100 * t.ways / t.rust.len());
    let (doors, cleared) = (100.0 * (median(&mut t.late) - median(&mut t.early) + median(&mut t.runs)) / ours, 100.0 * zeroing / ours);
    println!(
        "{name:<54} {rounds:>6} {flags:>5} {ours:>7.0} {tbr:>7.0} {rust:>7.0} {:>6.2} {:>7.2} {idle:>7.0} {refused:>7.0} {zeroing:>7.0} {doors:>6.0} {cleared:>6.0} {ways:>5}",
        ours / rust,
        tbr / rust
    );
    if n.passes > 1 {
        let share = |k: usize, of: u32| 100 * t.skipped[k] / (n.queries * of as usize);
        let (edges, transfers) = (share(0, sizes.edges), share(1, sizes.transfers));
        let skips = format!("{} walk edges, {edges} % of them skipped, of the transfers {transfers} %", sizes.edges);
        println!("  {skips}; ratios in {} passes {}, of run_tbr {}", n.passes, spreads[0], spreads[1]);
    }
    t.differed
}

fn day(r: &mut Random, stops: u32, trips: u32, each: u32, flags: &Flags) -> (String, Case) {
    let mut e = network(r, stops, trips, each);
    walks_and_flags(r, &mut e, flags);
    let transfers: usize = e.trip_transfers.iter().flatten().map(|l| l.len()).sum();
    let name = format!("{} trips, {stops} stops, {} times, {transfers} transfers", e.trips.len(), e.stop_times.len());
    (name, unasked(e))
}

// two walk edges a stop
fn few_walks(r: &mut Random) -> usize {
    let few = |stops: u32| Flags { edges: 2 * stops, cells: 16, patterns: 64, held: 60 };
    let (name, mut c) = day(r, 1000, 2000, 20, &few(1000));
    let mut differed = 0;
    for (rounds, off) in [(4, true), (4, false), (12, true), (12, false)] {
        differed += row(r, &name, &mut c, rounds, off, &ONE_PASS);
    }
    for trips in [500, 1000, 2000, 4000] {
        let (name, mut c) = day(r, trips / 2, trips, 10, &few(trips / 2));
        for off in [true, false] {
            differed += row(r, &name, &mut c, 4, off, &ONE_PASS);
        }
    }
    differed
}

// the same queries in each row
fn many_walks(r: &mut Random) -> usize {
    let (name, mut c) = day(r, 1000, 2000, 20, &WALKS);
    [(4, true), (4, false), (12, false)].into_iter().map(|(rounds, off)| row(&mut Random(r.0), &name, &mut c, rounds, off, &PASSES)).sum()
}

fn main() {
    let head = ["rounds", "flags", "query", "run_tbr", "Rust", "ratio", "ratio", "idle", "refused", "zeroing", "doors%", "clear%", "ways%"];
    let wide = [6, 5, 7, 7, 7, 6, 7, 7, 7, 7, 6, 6, 5];
    let names: Vec<String> = head.iter().zip(wide).map(|(h, w)| format!("{h:>w$}")).collect();
    println!("{:<54} {}", "microseconds, medians; doors and clearing counted", names.join(" "));
    let mut differed = 0;
    if std::env::args().nth(1).as_deref() != Some("walks") {
        differed += few_walks(&mut Random(2026));
    }
    differed += many_walks(&mut Random(2027));
    println!("{differed} answers differed");
    std::process::exit((differed > 0) as i32);
}
