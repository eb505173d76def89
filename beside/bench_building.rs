// The building calls timed beside the Rust: same tables, one run, both optimised, doors included (the Rust has none).
// Prints milliseconds a call (median of 9 passes) and the ratio.
#![allow(dead_code, unused)]
include!(concat!(env!("BESIDE"), "/parts.rs"));
include!(concat!(env!("BESIDE"), "/rows.rs"));
include!(concat!(env!("BESIDE"), "/timetables.rs"));
use std::hint::black_box;
use std::time::Instant;

const PASSES: usize = 9;

fn median(mut v: Vec<f64>) -> f64 {
    v.sort_by(|a, b| a.partial_cmp(b).unwrap());
    v[v.len() / 2]
}

fn row(name: &str, call: &str, mut ours: impl FnMut() -> f64, mut rust: impl FnMut() -> f64) {
    let (mut a, mut b) = (vec![], vec![]);
    for _ in 0..PASSES {
        a.push(ours());
        b.push(rust());
    }
    let (a, b) = (median(a) * 1e3, median(b) * 1e3);
    println!("{name:<34} {call:<20} {a:>9.3} {b:>9.3} {:>7.2}", a / b);
}

fn timed(f: impl FnOnce()) -> f64 {
    let t = Instant::now();
    f();
    t.elapsed().as_secs_f64()
}

// trips of the given shapes; departures listed at every stop but a trip's last, shuffled
fn timetable(r: &mut Random, stops: u32, shapes: &[Vec<u32>], trips: u32, shared: bool) -> Timetable {
    let (mut times, mut trip_words) = (vec![], vec![]);
    let mut rows_at: Vec<Vec<(u32, u32)>> = vec![vec![]; stops as usize];
    let mut first_of: Vec<Option<u32>> = vec![None; shapes.len()];
    // a line's trips take the same time from stop to stop
    let rides: Vec<Vec<u32>> = shapes.iter().map(|s| s.iter().map(|_| 60 + r.below(200)).collect()).collect();
    for t in 0..trips {
        let k = r.below(shapes.len() as u32) as usize;
        let shape = &shapes[k];
        let first = match first_of[k] {
            Some(f) if shared => f,
            _ => {
                let f = times.len() as u32 / 6;
                let mut at = r.below(80_000);
                for (o, &s) in shape.iter().enumerate() {
                    times.extend([s, at, at + 20, o as u32, 0, 0]);
                    at += rides[k][o];
                }
                first_of[k] = Some(f);
                f
            }
        };
        trip_words.extend([first, shape.len() as u32, 0, 0, 0, 0, 1, 0]);
        for o in 0..shape.len() as u32 - 1 {
            rows_at[shape[o as usize] as usize].push((t, o));
        }
    }
    let total: usize = rows_at.iter().map(|l| l.len()).sum();
    if total > 65536 {
        for l in rows_at.iter_mut() {
            let keep = l.len() * 65000 / total;
            l.truncate(keep);
        }
    }
    let (mut runs, mut rows) = (vec![], vec![]);
    for l in rows_at.iter_mut() {
        for i in (1..l.len()).rev() {
            l.swap(i, r.below(i as u32 + 1) as usize);
        }
        runs.extend([rows.len() as u32 / 2, l.len() as u32]);
        rows.extend(l.iter().flat_map(|p| [p.0, p.1]));
    }
    let (d, t) = (rows.len() / 2, trips as usize);
    let counts = [stops, trips, times.len() as u32 / 6, 0, 0];
    let mut tables = times;
    tables.extend(trip_words);
    tables.extend(vec![0; stops as usize]);
    Timetable {
        settings: OWN, counts, tables, departures: d as u32, runs, rows, lines: 0, entry_count: 0, line_runs: vec![], entries: vec![],
        marks: vec![0; stops as usize], line_of: vec![0; t], made_runs: vec![0; 2 * t], made_entries: vec![0; t], positions: vec![0; t], fifo: vec![], work: vec![0; d], other: vec![0; d],
        line_work: vec![0; t], line_other: vec![0; t], line_count: 0, lines_of: vec![], area: vec![0; 4 * 65536], transfer_runs: vec![],
    }
}

fn case(name: &str, mut x: Timetable) {
    let c = x.counts;
    let e0 = {
        let mut e = x.epoch();
        x.listed(&mut e);
        e
    };
    let listed = e0.stop_departures.clone();
    let mut e = e0;
    row(
        name,
        "departure sorting",
        || {
            let mut rows = x.rows.clone();
            timed(|| {
                let code = unsafe {
                    savoiky_sort_stop_departures(
                        OWN, c[0], c[1], c[2], c[3], c[4], x.departures, x.tables.as_ptr(), x.tables.len(), x.runs.as_ptr(), x.runs.len(), rows.as_mut_ptr(),
                        rows.len(), x.marks.as_mut_ptr(), x.marks.len(), x.work.as_mut_ptr(), x.work.len(), x.other.as_mut_ptr(), x.other.len(),
                    )
                };
                assert_eq!(code, 0);
                black_box(&rows);
            })
        },
        || {
            e.stop_departures = listed.clone();
            timed(|| {
                build_departures(&mut e);
                black_box(&e.stop_departures);
            })
        },
    );
    let mut lines = 0;
    row(
        name,
        "lines",
        || {
            timed(|| {
                let a = unsafe {
                    savoiky_compute_line_groups(
                        OWN, c[0], c[1], c[2], c[3], c[4], x.tables.as_ptr(), x.tables.len(), x.line_of.as_mut_ptr(), x.line_of.len(),
                        x.made_runs.as_mut_ptr(), x.made_runs.len(), x.made_entries.as_mut_ptr(), x.made_entries.len(), x.line_work.as_mut_ptr(),
                        x.line_work.len(), x.line_other.as_mut_ptr(), x.line_other.len(),
                    )
                };
                assert_eq!(a.code, 0);
                lines = a.value;
            })
        },
        || timed(|| build_lines(&mut e)),
    );
    let mut fifo = vec![0; lines as usize];
    let line_runs = x.made_runs[..2 * lines as usize].to_vec();
    row(
        name,
        "positions and FIFO",
        || {
            timed(|| {
                let code = unsafe {
                    savoiky_line_layout(
                        OWN, c[0], c[1], c[2], c[3], c[4], lines, c[1], x.tables.as_ptr(), x.tables.len(), line_runs.as_ptr(), line_runs.len(),
                        x.made_entries.as_ptr(), x.made_entries.len(), x.positions.as_mut_ptr(), x.positions.len(), fifo.as_mut_ptr(), fifo.len(),
                    )
                };
                assert_eq!(code, 0);
                black_box(&fifo);
            })
        },
        || {
            timed(|| {
                black_box(routing::tbr::layout(&e));
            })
        },
    );
    let events: usize = e.trips.iter().map(|t| t.stop_time_len as usize).sum();
    if events > 1 << 20 {
        return;
    }
    let mut transfer_runs = vec![0u32; 2 * events];
    let mut transfers = |area: &mut [u32]| unsafe {
        savoiky_compute_trip_transfers(
            OWN, c[0], c[1], c[2], c[3], c[4], lines, x.departures, x.tables.as_ptr(), x.tables.len(), x.line_of.as_ptr(), x.line_of.len(), x.runs.as_ptr(),
            x.runs.len(), x.rows.as_ptr(), x.rows.len(), area.as_mut_ptr(), area.len(), transfer_runs.as_mut_ptr(), transfer_runs.len(),
        )
    };
    // with space for 65,536, and with space for just those that there are
    let mut area = vec![0u32; 4 * 65536];
    let a = transfers(&mut area);
    row(name, if a.code == 0 { "transfers" } else { "transfers (refused)" }, || timed(|| drop(black_box(transfers(&mut area)))), || timed(|| build_transfers(&mut e)));
    if a.code == 0 {
        area.truncate(4 * a.value as usize);
        row(name, "transfers, no more", || timed(|| drop(black_box(transfers(&mut area)))), || timed(|| build_transfers(&mut e)));
    }
}

fn main() {
    println!("{:<34} {:<20} {:>9} {:>9} {:>7}", "milliseconds, medians", "doors counted", "ours", "Rust", "ratio");
    let mut r = Random(99);
    let shapes = |r: &mut Random, n: u32, len: u32, stops: u32| -> Vec<Vec<u32>> { (0..n).map(|_| (0..len).map(|_| r.below(stops)).collect()).collect() };
    let s = shapes(&mut r, 80, 20, 1000);
    case("2,000 trips, 1,000 stops, 40,000", timetable(&mut r, 1000, &s, 2000, false));
    let s = shapes(&mut r, 80, 20, 4000);
    case("2,000 trips, 4,000 stops, 40,000", timetable(&mut r, 4000, &s, 2000, false));
    let s = shapes(&mut r, 2600, 16, 1000);
    case("4,096 trips of about 2,600 lines", timetable(&mut r, 1000, &s, 4096, false));
    let s = vec![vec![0; 16]; 4];
    case("61,440 departures at one stop", timetable(&mut r, 1, &s, 4096, false));
    let from_one = |lines: u32| -> Vec<Vec<u32>> { (1..=lines).map(|k| vec![0, k]).collect() };
    case("4,096 departures of 16 lines", timetable(&mut r, 17, &from_one(16), 4096, false));
    case("1,024 departures of 64 lines", timetable(&mut r, 65, &from_one(64), 1024, false));
    let s = shapes(&mut r, 16, 4000, 1000);
    case("trips that share long runs", timetable(&mut r, 1000, &s, 4096, true));
}
