// main SEED COUNT KIND: writes COUNT random cases as theorems: the definitions on the case's tables and query give what the Rust gives.
// KIND, a sum: 1 frequency windows, 2 delays, 4 arc flags, 8 hand-made lines, marks, departures and transfers.
// Every case has a yes to every question at the door; its settings are random, in their ranges.
#![allow(dead_code, unused)]
include!(concat!(env!("ORACLE"), "/oracle.rs"));
include!(concat!(env!("BESIDE"), "/ffi.rs"));
include!(concat!(env!("BESIDE"), "/random.rs"));
include!(concat!(env!("BESIDE"), "/settings.rs"));
include!(concat!(env!("BESIDE"), "/searches.rs"));
include!("print.rs");

fn main() {
    let a: Vec<u64> = std::env::args().skip(1).map(|x| x.parse().unwrap()).collect();
    let (seed, count, kind) = (a[0], a[1], a[2]);
    let (mut kept, mut i, mut none, mut queued, mut idle_flags) = (0, 0, 0, 0, 0);
    while kept < count {
        let number = seed * 1000000 + i;
        i += 1;
        let mut r = Random(number.wrapping_mul(0x9E3779B97F4A7C15) ^ kind ^ 0xABCDEF);
        let c = case(&mut r, kind as u32, &SMALL);
        let (g, scans, queue) = run(&c, c.off);
        let bare = c.origins.is_empty() || c.egress.is_empty();
        // most cases have a way and are not dull
        if dull(&c, kind as u32, &scans, &queue) && number % if bare { 16 } else { 128 } != 0 || g.best.is_none() && number % 4 != 0 {
            continue;
        }
        kept += 1;
        none += g.best.is_none() as u64;
        queued += queue.iter().any(|n| *n > 0) as u64;
        print_tables(number, &c);
        print_answer(number, "run_tbr", "r", &c, &g, &scans, &queue);
        if skip_nothing(&c) {
            idle_flags += 1;
            let (g, scans, queue) = run(&c, true);
            print_answer(number, "query", "q", &c, &g, &scans, &queue);
        }
        if kind & 8 == 0 && number % 4 == 0 {
            print_building(number, &c);
        }
    }
    eprintln!("{kept} cases of {i} tried; {none} with no way, {queued} that queue segments, {idle_flags} whose flags skip nothing");
}
