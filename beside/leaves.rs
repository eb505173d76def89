// The leaves beside the Rust: the same inputs to the exported calls and to docs/src, every answer compared.
// Each input has settings of its own, one in twenty of them out of range; besides, each call is made at all ends of the ranges and one past each.
// It prints only how many inputs of each leaf were compared, how many must be refused by 14 and how many differed, tallies too (tally.rs), and what
// the boardings (boardings.rs) and the cell sets of any length (meetings.rs) have met; status 1 where any differed or something was never met.
// MOCK=1: frequency boarding and `intersects` alone, by their stand-ins (mock_boarding.rs, mock_cells.rs).
#![allow(dead_code, unused)]
include!(concat!(env!("BESIDE"), "/parts.rs"));
include!(concat!(env!("BESIDE"), "/ours.rs"));
include!(concat!(env!("BESIDE"), "/boardings.rs"));
include!(concat!(env!("BESIDE"), "/set_pairs.rs"));
include!(concat!(env!("BESIDE"), "/meetings.rs"));
#[cfg(mock)]
include!(concat!(env!("BESIDE"), "/mock_boarding.rs"));
#[cfg(mock)]
include!(concat!(env!("BESIDE"), "/mock_cells.rs"));

const RANDOM: u64 = 1_000_000;

// A leaf's tally: how many inputs, how many there must be at least, how many of them must be refused by 14, how many differed, which the first;
// where it must meet things, how often it has.
struct Tally {
    name: &'static str,
    inputs: u64,
    least: u64,
    refused: u64,
    differed: u64,
    first: u64,
    met: Vec<(&'static str, u64)>,
}

impl Tally {
    fn new(name: &'static str) -> Self {
        Tally { name, inputs: 0, least: RANDOM, refused: 0, differed: 0, first: 0, met: vec![] }
    }
    fn same(&mut self, s: Settings, yes: bool) {
        self.inputs += 1;
        self.refused += !s.in_range() as u64;
        if !yes {
            self.first = if self.differed == 0 { self.inputs } else { self.first };
            self.differed += 1;
        }
    }
    fn fine(&self) -> bool {
        self.differed == 0 && self.inputs >= self.least && self.refused > 0 && self.met.iter().all(|m| m.1 > 0)
    }
    fn print(&self) {
        println!("{}: {} compared ({} refused by 14), {} differed", self.name, self.inputs, self.refused, self.differed);
        if !self.met.is_empty() {
            let met: Vec<String> = self.met.iter().map(|(thing, n)| format!("{thing} {n}")).collect();
            println!("  answered with: {}", met.join(", "));
        }
    }
}

// a set made for so many cells, and one that is resized so
fn sized(t: &mut Tally, s: Settings, n: u32, came: CellBitSet, o: &Oracle) {
    let (made, resized) = unsafe { (savoiky_cell_bitset_new(s, n), savoiky_cell_bitset_ensure_sized(s, came, n)) };
    let code = if n > 512 { 1 } else { s.code(0) };
    if code != 0 {
        t.same(s, made.code == code && made.set.reserved == 0 && made.set.bytes == [0; 64]);
        t.same(s, resized.code == code && same_set(&resized.set, o));
        return;
    }
    let mut e = o.clone();
    e.ensure_sized(n);
    t.same(s, made.code == 0 && same_set(&made.set, &Oracle::new(n)));
    t.same(s, resized.code == 0 && same_set(&resized.set, &e));
}

// a cell put into a set, looked up there, and is the set empty?
fn one_cell(t: &mut Tally, s: Settings, c: u32, came: CellBitSet, o: &Oracle) {
    let mut with = o.clone();
    with.set_bit(c as usize);
    t.same(s, set_agrees(unsafe { savoiky_cell_bitset_set_bit(s, came, c) }, s, o, &with));
    let set = unsafe { savoiky_cell_bitset_set_bit(OWN, came, c) }.set;
    t.same(s, yes_agrees(unsafe { savoiky_cell_bitset_get_bit(s, set, c) }, s, with.get_bit(c as usize)));
    t.same(s, yes_agrees(unsafe { savoiky_cell_bitset_is_empty(s, set) }, s, with.is_empty()));
}

fn two_sets(t: &mut Tally, s: Settings, r: &mut Random) {
    let ((a, oa), (b, ob)) = (random_set(r), random_set(r));
    t.same(s, same_set(&a, &oa));
    let c = r.below(530);
    t.same(s, yes_agrees(unsafe { savoiky_cell_bitset_get_bit(s, a, c) }, s, oa.get_bit(c as usize)));
    t.same(s, yes_agrees(unsafe { savoiky_cell_bitset_intersects(s, a, b) }, s, oa.intersects(&ob)));
    t.same(s, yes_agrees(unsafe { savoiky_cell_bitset_is_empty(s, a) }, s, oa.is_empty()));
    let mut u = oa.clone();
    u.union_with(&ob);
    t.same(s, set_agrees(unsafe { savoiky_cell_bitset_union_with(s, a, b) }, s, &oa, &u));
    sized(t, s, r.below(560), a, &oa);
}

fn cells(r: &mut Random) -> Tally {
    let mut t = Tally::new("cell set");
    // every count, and every cell up to past the largest set
    for n in 0..=600u32 {
        let empty = Oracle::new(n.min(512));
        let made = unsafe { savoiky_cell_bitset_new(OWN, n.min(512)) }.set;
        sized(&mut t, r.any_settings(), n, made, &empty);
        for c in (0..600).chain([1 << 16, u32::MAX - 1, u32::MAX]).filter(|_| n <= 512) {
            one_cell(&mut t, r.any_settings(), c, made, &empty);
        }
    }
    for (s, _) in range_ends() {
        (0..20).for_each(|_| two_sets(&mut t, s, r));
        (0..20).for_each(|k| one_cell(&mut t, s, 40 * k, random_set(&mut Random(k as u64)).0, &random_set(&mut Random(k as u64)).1));
    }
    for _ in 0..RANDOM {
        two_sets(&mut t, r.any_settings(), r);
    }
    t
}

fn walks(r: &mut Random) -> Tally {
    let mut t = Tally::new("walk duration");
    let mut one = |s: Settings, d: u32, m: u32, w: u32| t.same(s, unsafe { savoiky_walk_duration(s, d, m, w) } == walk_outcome(s, d, m, w));
    for d in (0..300).chain(near_limit()) {
        for m in 0..10 {
            for w in 0..3 {
                one(r.any_settings(), d, m, w);
            }
        }
    }
    for (s, _) in range_ends() {
        [(0, 0, 0), (LIMIT, 4, 1), (LIMIT + 1, 7, 0), (5, 8, 2)].into_iter().for_each(|(d, m, w)| one(s, d, m, w));
    }
    for _ in 0..RANDOM {
        one(r.any_settings(), r.time(), r.below(9), r.below(3));
    }
    t
}

fn rounds(r: &mut Random) -> Tally {
    let mut t = Tally::new("round count");
    let mut one = |s: Settings, w: u32, x: u32| t.same(s, unsafe { savoiky_max_rounds(s, w, x) } == rounds_outcome(s, w, x));
    for w in (0..40).chain([u32::MAX - 2, u32::MAX - 1, u32::MAX]) {
        for x in (0..40).chain([u32::MAX - 2, u32::MAX - 1, u32::MAX]) {
            one(r.any_settings(), w, x);
        }
    }
    for (s, _) in range_ends() {
        [(0, 0), (9, 3), (u32::MAX, u32::MAX)].into_iter().for_each(|(w, x)| one(s, w, x));
    }
    for _ in 0..RANDOM {
        one(r.any_settings(), r.any(), r.any());
    }
    t
}

fn one_flags(t: &mut Tally, s: Settings, flags: u32) {
    t.same(s, unsafe { savoiky_skipped(s, flags) } == skipped_outcome(s, flags));
}

// small times and delays under these flags, each with settings of its own
fn small_delays(t: &mut Tally, r: &mut Random, flags: u32) {
    let small = [0u32, 1, 2, 3, u32::MAX, u32::MAX - 1, u32::MAX - 2];
    for time in 0..4 {
        for trip in small {
            for own in small {
                let s = r.any_settings();
                t.same(s, departure_agrees(s, time, trip, flags, own));
                for shift in small {
                    t.same(s, arrival_agrees(s, time, shift, trip, flags, own));
                }
            }
        }
    }
}

fn delays(r: &mut Random) -> Tally {
    let mut t = Tally::new("delays");
    for flags in 0..10 {
        one_flags(&mut t, r.any_settings(), flags);
        small_delays(&mut t, r, flags);
    }
    for _ in 0..RANDOM {
        let (s, flags) = (r.any_settings(), r.below(9));
        one_flags(&mut t, s, flags);
        t.same(s, departure_agrees(s, r.time(), r.signed(), flags, r.signed()));
        t.same(s, arrival_agrees(s, r.time(), r.signed(), r.signed(), flags, r.signed()));
        let d = random_delays(r);
        t.same(d.settings, d.margin_agrees());
        t.same(d.settings, d.row_agrees(r));
    }
    let ends = range_ends().into_iter().flat_map(|(s, _)| [0, 1, 4, 4097].map(|n| (s, n)));
    for (s, n) in [0, 1, 4095, 4096, 4097].into_iter().map(|n| (OWN, n)).chain(ends) {
        let d = Delays { settings: s, ..Delays::filled(n) };
        t.same(s, d.margin_agrees());
        for flags in 0..10 {
            one_flags(&mut t, s, flags);
            t.same(s, departure_agrees(s, r.time(), r.signed(), flags, r.signed()));
            t.same(s, arrival_agrees(s, r.time(), r.signed(), r.signed(), flags, r.signed()));
            (0..20).for_each(|_| t.same(s, d.row_agrees(r)));
        }
    }
    t
}

fn clock(r: &mut Random) -> Tally {
    let mut t = Tally::new("clock reading");
    let mut one = |set: Settings, h: u32, m: u32, s: u32| t.same(set, unsafe { savoiky_service_second(set, h, m, s) } == clock_outcome(set, h, m, s));
    for h in 0..50 {
        for m in 0..62 {
            for s in 0..62 {
                one(r.any_settings(), h, m, s);
            }
        }
    }
    for (s, _) in range_ends() {
        [(0, 0, 0), (47, 59, 59), (48, 60, 60)].into_iter().for_each(|(h, m, second)| one(s, h, m, second));
    }
    for _ in 0..RANDOM {
        one(r.any_settings(), r.any(), r.any(), r.any());
    }
    t
}

// a label of this kind with this number in one of its fields that name a stop, to be stored at this row of the last stop
fn label_naming(kind: u32, field: usize, number: u32, stops: u32, row: u32) -> LabelCase {
    let mut fields = [0; 7];
    fields[field] = number;
    let n = 13 * stops as usize;
    LabelCase { settings: OWN, stops, stop: stops - 1, row, kind, fields, distance: 2.5, words: vec![3; 8 * n], distances: vec![5; n] }
}

// each field of each label that names a stop: below the count, at it and past it; question 4 before 5
fn label_stops(t: &mut Tally) {
    for (kind, stops) in (1..4).flat_map(|kind| [1, 2, 3, 4096].map(|stops| (kind, stops))) {
        for &field in stop_fields(kind) {
            for (number, code) in [(0, 0), (stops - 1, 0), (stops, 4), (stops + 1, 4), (u32::MAX, 4)] {
                let (c, late) = (label_naming(kind, field, number, stops, 12), label_naming(kind, field, number, stops, 13));
                t.same(OWN, c.door() == code && c.stores());
                t.same(OWN, late.door() == if code == 0 { 5 } else { 4 } && late.stores());
            }
        }
    }
}

// each kind of label, well and with an unknown stop, at the ends of the settings' ranges
fn label_settings(t: &mut Tally) {
    for (kind, (settings, code)) in (1..4).flat_map(|kind| range_ends().into_iter().map(move |e| (kind, e))) {
        let field = stop_fields(kind)[0];
        for (number, later) in [(0, 0), (3, 4)] {
            let c = LabelCase { settings, ..label_naming(kind, field, number, 3, 12) };
            t.same(settings, c.door() == if code == 0 { later } else { code } && c.stores() && c.loads());
        }
    }
}

fn labels(r: &mut Random) -> Tally {
    let mut t = Tally::new("label");
    label_stops(&mut t);
    label_settings(&mut t);
    for _ in 0..RANDOM {
        let s = r.any_settings();
        t.same(s, label_agrees(s, r));
    }
    t
}

#[cfg(not(mock))]
fn main() {
    let mut r = Random(0x5EED);
    // apart, so that all else stays as it was drawn
    let met = meetings(&mut Random(0x5E75));
    let tallies = [cells(&mut r), met, walks(&mut r), rounds(&mut r), frequency(&mut r), delays(&mut r), clock(&mut r), labels(&mut r)];
    tallies.iter().for_each(|t| t.print());
    let ends_wrong = range_ends().iter().any(|(s, code)| s.code(0) != *code);
    std::process::exit(!(tally_fine() && !ends_wrong && tallies.iter().all(|t| t.fine())) as i32);
}

#[cfg(mock)]
fn main() {
    let tallies = [frequency(&mut Random(0x5EED)), meetings(&mut Random(0x5E75))];
    for (t, what) in tallies.iter().zip(["boardings", "pairs of cell sets"]) {
        if t.differed > 0 && std::env::var("FIRST").is_ok() {
            println!("first difference after {} {what}", t.first);
        }
        t.print();
    }
    std::process::exit(!(tally_fine() && tallies.iter().all(|t| t.fine())) as i32);
}
