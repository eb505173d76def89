// The leaves timed beside the Rust: same inputs, one run, both optimised, each call through a function that is not inlined.
// Prints nanoseconds a call (median of 15 passes) and the ratio.
#![allow(dead_code, unused)]
include!(concat!(env!("BESIDE"), "/parts.rs"));
include!(concat!(env!("BESIDE"), "/ours.rs"));
use std::hint::black_box;
use std::time::Instant;

const PASSES: usize = 15;

fn median(mut v: Vec<f64>) -> f64 {
    v.sort_by(|a, b| a.partial_cmp(b).unwrap());
    v[v.len() / 2]
}

// Times both over all inputs, alternating, and prints a row.
fn row<I>(name: &str, inputs: &[I], mut ours: impl FnMut(&I) -> u64, mut rust: impl FnMut(&I) -> u64) {
    let (mut a, mut b) = (vec![], vec![]);
    for _ in 0..PASSES {
        let t = Instant::now();
        for x in inputs {
            black_box(ours(black_box(x)));
        }
        a.push(t.elapsed().as_secs_f64());
        let t = Instant::now();
        for x in inputs {
            black_box(rust(black_box(x)));
        }
        b.push(t.elapsed().as_secs_f64());
    }
    let n = inputs.len() as f64;
    let (a, b) = (median(a) * 1e9 / n, median(b) * 1e9 / n);
    println!("{name:<28} ours {a:9.1} ns   Rust {b:9.1} ns   ratio {:.2}", a / b);
}

#[inline(never)]
fn rust_set(s: &mut Oracle, c: usize) {
    s.set_bit(c)
}
#[inline(never)]
fn rust_get(s: &Oracle, c: usize) -> bool {
    s.get_bit(c)
}
#[inline(never)]
fn rust_meets(a: &Oracle, b: &Oracle) -> bool {
    a.intersects(b)
}
#[inline(never)]
fn rust_union(a: &mut Oracle, b: &Oracle) {
    a.union_with(b)
}
#[inline(never)]
fn rust_empty(a: &Oracle) -> bool {
    a.is_empty()
}
#[inline(never)]
fn rust_new(n: u32) -> Oracle {
    Oracle::new(n)
}
#[inline(never)]
fn rust_walk(e: &WalkEdge, w: bool) -> u32 {
    e.effective_duration_s(w)
}
#[inline(never)]
fn rust_rounds(q: &ItineraryQuery) -> usize {
    routing::tbr::rounds(q)
}
#[inline(never)]
fn rust_freq(t: &GlobalTrip, x: (u32, u32, u32)) -> Option<(u32, i32)> {
    routing::freq_board(t, x.0, x.1, x.2)
}
#[inline(never)]
fn rust_dep(a: Option<&RtTripAdjust>, st: &PackedStopTime) -> u32 {
    routing::effective_dep(a, st)
}
#[inline(never)]
fn rust_arr(a: Option<&RtTripAdjust>, st: &PackedStopTime, s: i32) -> u32 {
    routing::effective_arr(a, st, s)
}
fn main() {
    let mut r = Random(7);
    let n = 20_000;
    // sets of 500 cells that share none, so that a test looks at all of them
    let sets: Vec<_> = (0..n)
        .map(|_| {
            let (mut s, mut o) = (unsafe { savoiky_cell_bitset_new(OWN, 500) }.set, Oracle::new(500));
            let (mut s2, mut o2) = (s, o.clone());
            for _ in 0..20 {
                let c = r.below(250) * 2;
                s = unsafe { savoiky_cell_bitset_set_bit(OWN, s, c) }.set;
                o.set_bit(c as usize);
                s2 = unsafe { savoiky_cell_bitset_set_bit(OWN, s2, c + 1) }.set;
                o2.set_bit(c as usize + 1);
            }
            (s, o, s2, o2, r.below(500))
        })
        .collect();
    row("cell set: new", &sets, |x| unsafe { savoiky_cell_bitset_new(OWN, x.4) }.set.reserved as u64, |x| rust_new(x.4).words().len() as u64);
    row("cell set: get_bit", &sets, |x| unsafe { savoiky_cell_bitset_get_bit(OWN, x.0, x.4) }.value as u64, |x| rust_get(&x.1, x.4 as usize) as u64);
    row("cell set: set_bit", &sets, |x| unsafe { savoiky_cell_bitset_set_bit(OWN, x.0, x.4) }.set.bytes[0] as u64, |x| {
        let mut o = x.1.clone();
        rust_set(&mut o, x.4 as usize);
        o.words()[0]
    });
    row("cell set: intersects", &sets, |x| unsafe { savoiky_cell_bitset_intersects(OWN, x.0, x.2) }.value as u64, |x| rust_meets(&x.1, &x.3) as u64);
    row("cell set: union_with", &sets, |x| unsafe { savoiky_cell_bitset_union_with(OWN, x.0, x.2) }.set.bytes[0] as u64, |x| {
        let mut o = x.1.clone();
        rust_union(&mut o, &x.3);
        o.words()[0]
    });
    let none: Vec<_> = (0..n).map(|_| (unsafe { savoiky_cell_bitset_new(OWN, 500) }.set, Oracle::new(500))).collect();
    row("cell set: is_empty", &none, |x| unsafe { savoiky_cell_bitset_is_empty(OWN, x.0) }.value as u64, |x| rust_empty(&x.1) as u64);
    let walks: Vec<_> = (0..n)
        .map(|_| {
            let (d, m, w) = (r.below(LIMIT), r.below(8), r.below(2));
            let pathway_mode = if m == 0 { None } else { Some(m as u8) };
            (d, m, w, WalkEdge { from_stop_idx: 0, to_stop_idx: 0, duration_s: d, distance_m: 0.0, pathway_mode })
        })
        .collect();
    row("walk duration", &walks, |x| unsafe { savoiky_walk_duration(OWN, x.0, x.1, x.2) }.value as u64, |x| rust_walk(&x.3, x.2 == 1) as u64);
    let asked: Vec<_> = (0..n).map(|_| ItineraryQuery { raptor_max_rounds: r.below(20), max_transfers: r.below(20), ..Default::default() }).collect();
    row("round count", &asked, |q| unsafe { savoiky_max_rounds(OWN, q.raptor_max_rounds, q.max_transfers) }.value as u64, |q| rust_rounds(q) as u64);
    let windows: Vec<_> = (0..n)
        .map(|_| loop {
            let (count, w, base, dep, after) = random_windows(&mut r);
            if count > 0 && freq_outcome(OWN, count, &w, base, dep, after).code == 0 {
                break (count, w.clone(), trip_of(&w), (base, dep, after));
            }
        })
        .collect();
    row("frequency boarding", &windows, |x| unsafe { savoiky_freq_board(OWN, x.0, x.1.as_ptr(), x.1.len(), x.3 .0, x.3 .1, x.3 .2) }.departure as u64, |x| {
        rust_freq(&x.2, x.3).map(|b| b.0).unwrap_or(0) as u64
    });
    let delays: Vec<_> = (0..n)
        .map(|_| {
            let (time, trip, flags, own) = (r.below(LIMIT), r.signed_inside(), r.below(8), r.signed_inside());
            let shift = r.signed_inside();
            (time, trip, flags, own, shift, adjust(trip, flags, own, own), stop_time(time, 7))
        })
        .collect();
    row("effective departure", &delays, |x| unsafe { savoiky_effective_departure(OWN, x.0, x.1, x.2, x.3) }.value as u64, |x| {
        rust_dep(Some(&x.5), &x.6) as u64
    });
    row("effective arrival", &delays, |x| unsafe { savoiky_effective_arrival(OWN, x.0, x.4, x.1, x.2, x.3) }.value as u64, |x| {
        rust_arr(Some(&x.5), &x.6, x.4 as i32) as u64
    });
    let tables: Vec<_> = (0..200)
        .map(|_| {
            let d = loop {
                let d = Delays { settings: OWN, ..random_delays(&mut r) };
                if d.door() == 0 {
                    break d;
                }
            };
            let (mut e, mut q) = (StaticEpoch::default(), ItineraryQuery::default());
            d.fill(&mut e, &mut q);
            (d, e, q)
        })
        .collect();
    row("delay margin", &tables, |x| x.0.margin().value as u64, |x| routing::tbr::margin(&x.1, &x.2) as u64);
    let clock: Vec<_> = (0..n).map(|_| (r.below(48), r.below(60), r.below(60))).collect();
    row("clock reading (no Rust)", &clock, |x| unsafe { savoiky_service_second(OWN, x.0, x.1, x.2) }.value as u64, |x| (x.0 * 3600 + x.1 * 60 + x.2) as u64);
    let labels: Vec<_> = (0..n).map(|_| (r.below(3), r.below(13), [r.below(99), 2, 1, 4, 5, 6, 7], r.below(9) as f64)).collect();
    let (mut words, mut dist) = (vec![0u32; 312], vec![0f64; 39]);
    let mut table = routing::tbr::LabelTable::new(3);
    row(
        "label stored and read",
        &labels,
        |x| unsafe {
            savoiky_label_store_transit(
                OWN, 3, x.0, x.1, x.2[0], x.2[1], x.2[2], x.2[3], x.2[4], x.2[5], x.2[6], words.as_mut_ptr(), 312, dist.as_mut_ptr(), 39,
            );
            savoiky_label_load(OWN, 3, x.0, x.1, words.as_ptr(), 312, dist.as_ptr(), 39).row.word1 as u64
        },
        |x| table.store_and_read(x.0 as usize, x.1 as usize, x.2) as u64,
    );
}
