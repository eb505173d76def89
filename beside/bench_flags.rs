// The test of `query` whether arc flags skip anything, timed where it is dear: tables without departures and walk edges, so that nothing is searched.
// Prints microseconds a query (the least of a few passes) with the flags on and with the switch off: the difference is the test. Nothing is
// asked of the Rust. The last row is left out for EACH = 0; else its 4,096 trips share EACH stop times (4,096).
#![allow(dead_code, unused)]
include!(concat!(env!("BESIDE"), "/query_parts.rs"));
use std::hint::black_box;
use std::time::Instant;

const PASSES: usize = 5;

// all trips share the same stop times; one line without entries; two stops in cell 0; pattern 0 holds every cell, pattern 1 none. Event e has the run
// that `run` says, row k the pattern that `pattern` says.
fn lent(trips: usize, each: usize, rows: usize, run: impl Fn(usize) -> (u32, u32), pattern: impl Fn(usize) -> u32) -> Lent {
    let mut tables: Vec<u32> = (0..each as u32).flat_map(|k| [k % 2, k, k, k, 0, 0]).collect();
    (0..trips).for_each(|_| tables.extend([0, each as u32, 0, 0, 0, 0, 1, 0]));
    tables.extend([0, 0]);
    // each trip's line; the line's run; the stops' runs; the marks
    let mut built = vec![0; trips + 2 + 4 + 2];
    built.extend((0..trips * each).flat_map(|e| <[u32; 2]>::from(run(e))));
    let transfers = (0..rows).flat_map(|k| [0, 0, 120, pattern(k)]).collect();
    let sizes = QuerySizes {
        stops: 2, trips: trips as u32, times: each as u32, windows: 0, edges: 0, cells: 1, patterns: 2, lines: 1, entries: 0, departures: 0,
        transfers: rows as u32, delays: 0, stop_rows: 0, origins: 1, egress: 1,
    };
    let patterns = [[255u8; 64], [0; 64]].concat();
    // origin: stop 0; egress: stop 1
    let query = vec![100, 120, 4, 0, 127, 0, 0, 0, 10, 1, 10];
    Lent { settings: OWN, sizes, tables, built, transfers, patterns, distances: vec![0], query }
}

fn least(x: &Lent, a: &mut Areas) -> f64 {
    let times = (0..PASSES).map(|_| {
        let t = Instant::now();
        assert!(ask_ours(Call::Query, black_box(x), a).code == 0);
        t.elapsed().as_secs_f64() * 1e6
    });
    times.fold(f64::MAX, f64::min)
}

fn row(name: &str, mut x: Lent) {
    let mut a = areas(&mut Random(1), &x.sizes, 4);
    let on = least(&x, &mut a);
    x.query[6] = 1;
    let off = least(&x, &mut a);
    let events = x.sizes.trips as usize * x.sizes.times as usize;
    println!("{name:<58} {events:>10} {:>8} {on:>12.0} {off:>12.0} {:>12.0}", x.sizes.transfers, on - off);
}

fn main() {
    let each: usize = std::env::args().nth(1).map_or(4096, |n| n.parse().unwrap());
    println!("{:<58} {:>10} {:>8} {:>12} {:>12} {:>12}", "microseconds, the least of a few", "events", "rows", "flags on", "switch off", "the test");
    // as the building calls leave them: each row in one run, six rows for five events
    let own = |e: usize| ((e * 6 / 5) as u32, ((e + 1) * 6 / 5 - e * 6 / 5) as u32);
    row("own rows, none skipped", lent(2000, 20, 48_000, own, |_| 0));
    row("own rows, every second skipped", lent(2000, 20, 48_000, own, |k| k as u32 % 2));
    row("own rows, the last skipped", lent(2000, 20, 48_000, own, |k| (k == 47_999) as u32));
    row("one run for all events, none skipped", lent(16, 1000, 4000, |_| (0, 4000), |_| 0));
    row("one run for all events, a row outside skipped", lent(16, 1000, 4000, |_| (0, 3999), |k| (k == 3999) as u32));
    row("the same, as many rows as there may be", lent(16, 1000, 65_536, |_| (0, 65_535), |k| (k == 65_535) as u32));
    if each > 0 {
        row("the same, many events", lent(4096, each, 65_536, |_| (0, 65_535), |k| (k == 65_535) as u32));
    }
}
