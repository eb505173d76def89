// building [COUNT]: the building calls beside the Rust: COUNT random tables, damaged ones among them, every limit; random settings, one in twenty out of
// range, and each end of their ranges; every word of every slice compared, after refusals too. It prints how many were compared, how many
// differed, how many must be refused for the order of walk edges and how many for a setting, and of a sample how many were built with another
// transfer time than 120 and how many of them have other targets; status 1 where any differed, tallies too (tally.rs), or where a code or such a table
// was never met.
#![allow(dead_code, unused)]
include!(concat!(env!("BESIDE"), "/parts.rs"));
include!(concat!(env!("BESIDE"), "/rows.rs"));
include!(concat!(env!("BESIDE"), "/timetables.rs"));

// random tables, where the command does not say how many; FIRST=1: no further than a first difference (beside/mutants)
const TABLES: u64 = 300_000;

// What was compared: how many tables, how many differed, and how often each code was answered.
struct Tally {
    name: &'static str,
    compared: u64,
    differed: u64,
    codes: [u64; 15],
}

fn compare(tallies: &mut [Tally; 4], x: &Timetable) {
    for (t, (same, code)) in tallies.iter_mut().zip([sorting_agrees(x), lines_agree(x), layout_agrees(x), transfers_agree(x)]) {
        t.compared += 1;
        t.differed += !same as u64;
        t.codes[code as usize] += 1;
    }
}

// is the transfer time another than 120 and a transfer made, and has it other targets than 120 s give?
fn other_transfers(x: &Timetable) -> [bool; 2] {
    let (a, z) = transfers_outcome(x);
    if x.settings.transfer_time == 120 || a.code != 0 || a.value == 0 {
        return [false; 2];
    }
    let (own, y) = transfers_outcome(&Timetable { settings: OWN, ..x.clone() });
    let targets = |t: &Timetable, n: u32| -> Vec<[u32; 2]> { t.area.chunks(4).take(n as usize).map(|c| [c[0], c[1]]).collect() };
    [true, a.value != own.value || targets(&z, a.value) != targets(&y, own.value)]
}

fn right(yes: bool, what: &str) {
    if !yes {
        println!("{what}: the table is not what it should be");
        std::process::exit(1);
    }
}

// so many tables drawn at random; of a sample, how many were built with another time and have other targets
fn random_tables(r: &mut Random, tables: u64, tallies: &mut [Tally; 4]) -> [u64; 2] {
    let mut others = [0; 2];
    let first = std::env::var("FIRST").is_ok();
    for i in 0..tables {
        let mut x = random_timetable(r);
        if i % 8 == 0 {
            others.iter_mut().zip(other_transfers(&x)).for_each(|(n, yes)| *n += yes as u64);
        }
        if r.below(20) == 0 {
            x.settings = r.settings_outside();
        }
        if r.below(3) == 0 {
            x.damage(r);
        }
        compare(tallies, &x);
        if first && (tally_differed() > 0 || tallies.iter().any(|t| t.differed > 0)) {
            println!("first difference after {} tables", i + 1);
            std::process::exit(1);
        }
    }
    others
}

fn tables_at_limits(tallies: &mut [Tally; 4]) {
    for x in limits() {
        compare(tallies, &x);
    }
    for (x, want) in transfer_limits() {
        right(transfers_outcome(&x).0 == want, "transfers at their limit");
        compare(tallies, &x);
    }
    for (x, want) in settings_limits() {
        let codes = [x.departures_door(), x.lines_door(), x.layout_door(), x.transfers_door()];
        right(codes == [want; 4], "settings at the ends of their ranges");
        compare(tallies, &x);
    }
}

fn main() {
    let tables = std::env::args().nth(1).map_or(TABLES, |n| n.parse().unwrap());
    let mut tallies = ["departure sorting", "lines", "positions and FIFO", "transfers"].map(|name| Tally { name, compared: 0, differed: 0, codes: [0; 15] });
    let others = random_tables(&mut Random(0xB17D), tables, &mut tallies);
    tables_at_limits(&mut tallies);
    for t in &tallies {
        println!("{}: {} tables compared, {} differed ({} refused by 6, {} by 14)", t.name, t.compared, t.differed, t.codes[6], t.codes[14]);
    }
    println!("transfers, of {} tables: {} built with another time than 120, {} of them with other targets", tables / 8, others[0], others[1]);
    // a comparison that never met one of the codes shows too little
    let met = |t: &Tally| !t.codes[..7].contains(&0) && t.codes[14] > 0;
    if !tally_fine() || others.contains(&0) || tallies.iter().any(|t| t.differed > 0 || !met(t)) || tallies[3].codes[7] == 0 {
        std::process::exit(1);
    }
}
