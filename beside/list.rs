// The fixed list of the oracle's answers that crates/replay replays: a case a line, numbers in decimal, kind first.
// Only the Rust of docs/src is asked (and, for refusals and the clock, cases.rs's own reading of document 01). After the kind stand the screen that
// the line's calls are for, one in 16 above 63, so that every call answers 15 and leaves everything as it came, and the four settings
// (transfer_time, line_scan, candidate_slack, margin_cap), some of them out of range, so that every call answers 14; then:
//   1 cells: the screen that the sets are made for and the union is looked into; n, k, k cells set, m, j, j cells set, probe; then: code, code of
//      looking into the union, probe held, empty, intersects, probe held by the union, union's bytes reserved
//   2 walk: duration, mode, wheelchair; then code, value          3 rounds: wanted, transfers; then code, value
//   4 frequency: count, length, words, base, departure, wanted; then code, found, departure, shift, window, run, quotient, remainder, wait
//   5 departure: time, trip delay, flags, own; then code, value   6 arrival: time, shift, trip delay, flags, own; then code, value
//   7 margin: trips, rows, stop rows, length, words, length, words; then code, value
//   8 one stop time: the tables as in 7, trip, sequence, time, shift; then code, skipped, departure, arrival
//   9 clock: hour, minute, second; then code, value
//   11 building, of 3 stops, 5 trips of 3 stop times, 15 stop times, 1 window, 1 walk edge, 10 departures, 3 lines of 6 entries: the five
//      counts, departures, line count, lines, entries; timetable (141), runs (6), rows (20), each trip's line (5), line runs (6),
//      entries (6); then sorting: code, rows (20), marks (3); lines: code, count, lines (5), runs (10), entries (5); layout: code,
//      positions (5), FIFO (3); transfers: code, count, area (96), runs (30). What is lent to be written holds 7 in every word.
//   10 label: kind, seven fields, distance (a whole number), stop, row of three stops, the screen that it is read for; then the codes of storing and
//      of reading, the record's eight words and its distance
//   12 a search put to run_tbr and query: list_queries.rs says what it holds
//   13 a timetable put to the building calls, and a query on what they wrote: list_chains.rs says what it holds
// Two kinds have 128 words and no more, answered calls of screens 0 to 63 and refused ones:
//   14 the tally is set to these words                           15 the tally must hold these words
// The program has one tally for the whole list, zero at first. Every call that it makes of a line counts, by the screen that it is for and by whether
// its expected code is 0: in 1 two sets made, each of their cells set and five calls; four in 8 and 11; two in 10 and 12; in 13 three, and where
// these answer 0 the query; else one.
#![allow(dead_code, unused)]
include!(concat!(env!("BESIDE"), "/query_parts.rs"));
include!(concat!(env!("BESIDE"), "/timetables.rs"));
include!(concat!(env!("BESIDE"), "/damage.rs"));
include!(concat!(env!("BESIDE"), "/drawn.rs"));
include!(concat!(env!("BESIDE"), "/ours.rs"));
include!(concat!(env!("BESIDE"), "/journeys.rs"));
include!(concat!(env!("BESIDE"), "/steady.rs"));
include!(concat!(env!("BESIDE"), "/list_queries.rs"));
include!(concat!(env!("BESIDE"), "/list_chains.rs"));

const EACH: u32 = 240;
const QUERIES: u32 = 66 * 18;
const CHAINS: u32 = 18 * 9;

// The program reads the list in blocks of so many bytes; a line that would go from one into the next begins with that one, after empty lines.
const BLOCK: usize = 262_144;

// a comparison of the tally after so many lines of calls, and after so many such comparisons another tally
const COMPARED: u32 = 100;
const SET: u32 = 4;

// the screens that lines are for, drawn apart from all else; the tally as this list counts it, and how many lines of calls there were
struct Screens {
    draw: Random,
    tally: [u32; 128],
    lines: u32,
}

impl Screens {
    // most often one of the 64
    fn any(&mut self) -> u32 {
        match self.draw.below(16) {
            0 => [64, 65, 128, u32::MAX, (self.draw.next() as u32).max(64)][self.draw.below(5) as usize],
            _ => self.draw.below(64),
        }
    }
    // a call for each of these codes
    fn count(&mut self, screen: u32, codes: &[u32]) {
        for code in codes.iter().filter(|_| screen < 64) {
            let n = &mut self.tally[(if *code == 0 { screen } else { 64 + screen }) as usize];
            *n = n.saturating_add(1);
        }
    }
    // the greatest count, the one below it, one near them; more often zero or any
    fn set(&mut self) {
        let r = &mut self.draw;
        self.tally = [0; 128].map(|_: u32| match r.below(8) {
            n @ 0..2 => u32::MAX - n,
            2 => u32::MAX - r.below(40),
            3 | 4 => 0,
            _ => r.any(),
        });
    }
    fn compared(&self) {
        put(15, &self.tally);
    }
}

// what a call for this screen answers, which answers so where there is such a screen
fn for_screen<T>(screen: u32, refused: T, answer: T) -> T {
    if screen > 63 { refused } else { answer }
}

fn put(kind: u32, words: &[u32]) {
    static BYTES: std::sync::atomic::AtomicUsize = std::sync::atomic::AtomicUsize::new(0);
    let mut s = kind.to_string();
    for w in words {
        s += " ";
        s += &w.to_string();
    }
    s += "\n";
    let at = BYTES.load(std::sync::atomic::Ordering::Relaxed);
    let left = BLOCK - at % BLOCK;
    if left < s.len() {
        s = "\n".repeat(left) + &s;
    }
    BYTES.store(at + s.len(), std::sync::atomic::Ordering::Relaxed);
    print!("{s}");
}

// a line whose calls, all for this screen, have these codes where there is such a screen
fn line(s: &mut Screens, kind: u32, screen: u32, settings: Settings, words: &[u32], codes: &[u32]) {
    put(kind, &[&[screen][..], &settings.numbers(), words].concat());
    s.count(screen, codes);
    s.lines += 1;
    if s.lines % COMPARED == 0 {
        s.compared();
    }
    if s.lines % (COMPARED * SET) == 0 {
        s.set();
        put(14, &s.tally);
    }
}

// a line of one call, which answers so where there is such a screen
fn answer_line(s: &mut Screens, kind: u32, settings: Settings, words: &[u32], answer: Answer) {
    let screen = s.any();
    let a = for_screen(screen, refused(15), answer);
    line(s, kind, screen, settings, &[words, &[a.code, a.value]].concat(), &[a.code]);
}

fn some_cells(r: &mut Random) -> (u32, Vec<u32>, Oracle) {
    let n = [0, 1, 63, 64, 65, 128, 500, 512][r.below(8) as usize];
    let cells: Vec<u32> = (0..r.below(4)).map(|_| r.below(n + 70)).collect();
    let mut o = Oracle::new(n);
    for &c in &cells {
        o.set_bit(c as usize);
    }
    (n, cells, o)
}

fn cells(r: &mut Random, h: Settings, s: &mut Screens) {
    let (n, a, mut oa) = some_cells(r);
    let (m, b, mut ob) = some_cells(r);
    let probe = match (a.first(), b.first()) {
        (Some(&c), _) if r.below(2) == 0 => c,
        (_, Some(&c)) if r.below(2) == 0 => c,
        _ => r.below(520),
    };
    let (screen, making) = (s.any(), s.any());
    let (code, made) = (for_screen(screen, 15, h.code(0)), for_screen(making, 15, h.code(0)));
    if made != 0 {
        (oa, ob) = (Oracle::new(0), Oracle::new(0));
    }
    let mut u = oa.clone();
    if code == 0 {
        u.union_with(&ob);
    }
    let mut w = vec![making, n, a.len() as u32];
    w.extend(&a);
    w.extend([m, b.len() as u32]);
    w.extend(&b);
    let p = probe as usize;
    let values = [oa.get_bit(p) as u32, oa.is_empty() as u32, oa.intersects(&ob) as u32];
    w.extend([probe, code, made]);
    w.extend(if code == 0 { values } else { [0; 3] });
    w.extend([(made == 0 && u.get_bit(p)) as u32, 8 * u.words().len() as u32]);
    s.count(making, &vec![made; 3 + a.len() + b.len()]);
    line(s, 1, screen, h, &w, &[code; 4]);
}

fn tables(d: &Delays) -> Vec<u32> {
    let mut w = vec![d.trips, d.row_count, d.stop_row_count, d.rows.len() as u32];
    w.extend(&d.rows);
    w.push(d.stop_rows.len() as u32);
    w.extend(&d.stop_rows);
    w
}

fn delays(r: &mut Random, s: &mut Screens) {
    let d = random_delays(r);
    let a = match d.door() {
        0 => given(d.oracle_margin()),
        n => refused(n),
    };
    answer_line(s, 7, d.settings, &tables(&d), a);
    let (mut d, h) = (random_delays(r), r.any_settings());
    while !(Delays { settings: OWN, ..d.clone() }.door() == 0 && d.trips > 0) {
        d = random_delays(r);
    }
    let mut w = tables(&d);
    let trip = if d.rows.is_empty() || r.below(3) == 0 || d.rows[0] == UNKNOWN { r.below(d.trips) } else { d.rows[0] };
    let sequence = if d.stop_rows.is_empty() || r.below(3) == 0 { r.below(6) } else { d.stop_rows[1] };
    let time = r.below(5000);
    let shift = r.below(4000) as i32 - 2000;
    let all = d.adjusts();
    let adj = d.rows.chunks(2).position(|c| c[0] == trip).map(|i| &all[i]);
    let st = stop_time(time, sequence);
    let skipped = adj.map(|a| a.is_skipped(sequence)).unwrap_or(false);
    let values = [skipped as u32, routing::effective_dep(adj, &st), routing::effective_arr(adj, &st, shift)];
    let screen = s.any();
    let code = for_screen(screen, 15, h.code(0));
    w.extend([trip, sequence, time, shift as u32, code]);
    w.extend(if code == 0 { values } else { [0; 3] });
    line(s, 8, screen, h, &w, &[code; 4]);
}

// A timetable of the fixed shape, damaged in one word or count now and then.
fn fixed_timetable(r: &mut Random) -> Timetable {
    let mut tables = vec![];
    let shapes: Vec<[u32; 3]> = (0..2).map(|_| [r.below(3), r.below(3), r.below(3)]).collect();
    let mut t = 0;
    for trip in 0..5 {
        let shape = shapes[r.below(2) as usize];
        t = r.below(400);
        for (o, s) in shape.iter().enumerate() {
            let drop_off = if r.below(8) == 0 { r.below(4) } else { 0 };
            tables.extend([*s, t, t + r.below(60), o as u32, 0, drop_off]);
            t += 30 + r.below(200);
        }
    }
    let times = tables.clone();
    let firsts: Vec<u32> = (0..5).map(|i| if r.below(6) == 0 { 3 * r.below(5) } else { 3 * i }).collect();
    for &f in &firsts {
        let with = (r.below(8) == 0) as u32;
        tables.extend([f, 3, r.below(7), r.below(3), 0, with, 1, 0]);
    }
    tables.extend([100, 500, 50, 0, 1, 30, 2, 9, 0, 0, 0]);
    let mut listed: Vec<Vec<[u32; 2]>> = vec![vec![]; 3];
    for k in 0..10u32 {
        let (trip, o) = (k / 2, k % 2);
        listed[times[6 * (firsts[trip as usize] + o) as usize] as usize].push([trip, o]);
    }
    let (mut runs, mut rows) = (vec![], vec![]);
    for l in listed.iter_mut() {
        l.reverse();
        runs.extend([rows.len() as u32 / 2, l.len() as u32]);
        rows.extend(l.iter().flatten());
    }
    let line_runs = (0..3).flat_map(|_| { let a = r.below(7); [a, r.below(7 - a)] }).collect();
    let mut x = Timetable {
        settings: r.any_settings(), counts: [3, 5, 15, 1, 1], tables, departures: 10, runs, rows, lines: 3, entry_count: 6, line_runs,
        entries: (0..6).map(|_| r.below(5)).collect(), marks: vec![7; 3], line_of: vec![7; 5], made_runs: vec![7; 10], made_entries: vec![7; 5], positions: vec![7; 5], fifo: vec![7; 3],
        work: vec![7; 10], other: vec![7; 10], line_work: vec![7; 5], line_other: vec![7; 5], line_count: 3, lines_of: (0..5).map(|_| r.below(3)).collect(),
        area: vec![7; 96], transfer_runs: vec![7; 30],
    };
    let any = r.any();
    match r.below(12) {
        0 => x.counts[r.below(5) as usize] = any,
        1 => poke(&mut x.runs, r, any),
        2 => poke(&mut x.rows, r, any),
        3 => poke(&mut x.tables, r, any),
        4 => poke(&mut x.lines_of, r, any),
        _ => {}
    }
    x
}

fn building(r: &mut Random, s: &mut Screens) {
    let (x, screen) = (fixed_timetable(r), s.any());
    let mut w = x.counts.to_vec();
    w.extend([x.departures, x.line_count, x.lines, x.entry_count]);
    for part in [&x.tables, &x.runs, &x.rows, &x.lines_of, &x.line_runs, &x.entries] {
        w.extend(part);
    }
    let (sorted, z) = for_screen(screen, (15, x.clone()), sorting_outcome(&x));
    w.push(sorted);
    w.extend(z.rows.iter().chain(&z.marks));
    let (grouped, z) = for_screen(screen, (refused(15), x.clone()), lines_outcome(&x));
    w.extend([grouped.code, grouped.value]);
    w.extend(z.line_of.iter().chain(&z.made_runs).chain(&z.made_entries));
    let (laid, z) = for_screen(screen, (15, x.clone()), layout_outcome(&x));
    w.push(laid);
    w.extend(z.positions.iter().chain(&z.fifo));
    let (moved, z) = for_screen(screen, (refused(15), x.clone()), transfers_outcome(&x));
    w.extend([moved.code, moved.value]);
    w.extend(z.area.iter().chain(&z.transfer_runs));
    line(s, 11, screen, x.settings, &w, &[sorted, grouped.code, laid, moved.code]);
}

// the label's own stops most often below the count; where one is not, nothing is stored
fn label(r: &mut Random, h: Settings, apart: &mut Random, s: &mut Screens) {
    let kind = 1 + r.below(3);
    let mut f = [0u32; 7];
    for x in f.iter_mut() {
        *x = r.any();
    }
    f[if kind == 2 { 5 } else { 4 }] = if kind == 1 { 0 } else { r.below(13) };
    stop_fields(kind).iter().for_each(|k| f[*k] = apart.stop_number(3));
    let d = r.below(100_000);
    let (screen, reading) = (s.any(), s.any());
    let code = for_screen(screen, 15, h.code(if stop_fields(kind).iter().any(|k| f[*k] > 2) { 4 } else { 0 }));
    let read = for_screen(reading, 15, h.code(0));
    let (words, bits) = if code != 0 || read != 0 { ([0; 8], 0) } else { routing::tbr::label_words(kind, f, d as f64) };
    let mut all = vec![kind];
    all.extend(f);
    all.extend([d, r.below(3), r.below(13), reading, code, read]);
    all.extend(words);
    all.push(f64::from_bits(bits) as u32);
    s.count(reading, &[read]);
    line(s, 10, screen, h, &all, &[code]);
}

// the calls that take numbers only, and frequency boarding
fn numbers(r: &mut Random, s: &mut Screens) {
    let (h, d, m, w) = (r.any_settings(), r.time(), r.below(9), r.below(3));
    answer_line(s, 2, h, &[d, m, w], walk_outcome(h, d, m, w));
    let (h, x, y) = (r.any_settings(), r.any(), r.any());
    answer_line(s, 3, h, &[x, y], rounds_outcome(h, x, y));
    let (h, (count, w, base, dep, after), screen) = (r.any_settings(), random_boarding(r), s.any());
    let f = for_screen(screen, no_board(15), freq_outcome(h, count, &w, base, dep, after));
    let told = [f.code, f.found, f.departure, f.time_shift_s, f.window, f.run, f.quotient, f.remainder, f.wait];
    let all = [&[count, w.len() as u32][..], &w, &[base, dep, after], &told].concat();
    line(s, 4, screen, h, &all, &[f.code]);
    let (h, time, trip, flags, own, shift) = (r.any_settings(), r.time(), r.signed(), r.below(9), r.signed(), r.signed());
    answer_line(s, 5, h, &[time, trip, flags, own], oracle_departure(h, time, trip, flags, own));
    answer_line(s, 6, h, &[time, shift, trip, flags, own], oracle_arrival(h, time, shift, trip, flags, own));
    let (set, h, m, x) = (r.any_settings(), r.below(50), r.below(62), r.below(62));
    answer_line(s, 9, set, &[h, m, x], clock_outcome(set, h, m, x));
}

fn main() {
    let mut r = Random(2026);
    // for the labels' stops and the chains, and for settings
    let (mut apart, mut house) = (Random(13), Random(14));
    let mut s = Screens { draw: Random(15), tally: [0; 128], lines: 0 };
    for _ in 0..EACH {
        numbers(&mut r, &mut s);
        cells(&mut r, house.any_settings(), &mut s);
        delays(&mut r, &mut s);
        label(&mut r, house.any_settings(), &mut apart, &mut s);
    }
    for _ in 0..160 {
        building(&mut r, &mut s);
    }
    stored_queries(&mut r, QUERIES, &mut s);
    stored_chains(&mut apart, CHAINS, &mut s);
    s.compared();
}
