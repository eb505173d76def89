// hostile [COUNT [SEED [JOBS]]]: COUNT calls of every exported call by hostile callers: random words in every number, struct and slice, lengths that are
// right or wrong; settings at the ends of their ranges and one past each in turn, then random ones, some out of range. Each must answer as the
// independent doors here say, or as the Rust where all is well, and leave every word so. Every slice is an allocation of its own, exactly as
// long as it says, so that a memory checker sees an access past its end. For every ten of them a search that is answered more often
// (drawn.rs) is put to `run_tbr` and `query` besides; for each of them, two cell sets of any length that share a cell at most (set_pairs.rs) are put
// to `intersects`. All are for random screens, some above 63 (tally.rs). It prints for each call how many were made, how many were refused, how
// many of them by 14, and how many differed, tallies too; status 1 where any did, or where a call never refused by 14 or by 15 or never answered.
#![allow(dead_code, unused)]
include!(concat!(env!("BESIDE"), "/query_parts.rs"));
include!(concat!(env!("BESIDE"), "/timetables.rs"));
include!(concat!(env!("BESIDE"), "/ours.rs"));
include!(concat!(env!("BESIDE"), "/set_pairs.rs"));
include!(concat!(env!("BESIDE"), "/damage.rs"));
include!(concat!(env!("BESIDE"), "/drawn.rs"));
include!(concat!(env!("BESIDE"), "/jobs.rs"));

const COUNT: u64 = 20_000;

// any word: of all bits, near a limit, or small
fn wild(r: &mut Random) -> u32 {
    match r.below(4) {
        0 => r.next() as u32,
        1 => r.any(),
        2 => r.below(LIMIT + 2),
        _ => r.below(9),
    }
}

// as many words as is right, or other than that
fn wild_length(r: &mut Random, right: u64) -> usize {
    match r.below(10) {
        0 => right.min(300) as usize + 1,
        1 => right.min(300).saturating_sub(1) as usize,
        2 => r.below(200) as usize,
        _ if right > 5000 => r.below(200) as usize,
        _ => right as usize,
    }
}

// small words where few are to be refused, else any
fn wild_words(r: &mut Random, right: u64, tame: bool) -> Vec<u32> {
    let n = wild_length(r, right);
    (0..n).map(|_| if tame && !r.yes(3) { r.below(4) } else { wild(r) }).collect()
}

fn wild_count(r: &mut Random, few: u32) -> u32 {
    if r.yes(10) { wild(r) } else { r.below(few) }
}

fn wild_set(r: &mut Random) -> CellBitSet {
    let mut bytes = [0; 64];
    bytes.iter_mut().for_each(|b| *b = if r.yes(20) { r.next() as u8 } else { 0 });
    CellBitSet { bytes, reserved: if r.yes(50) { r.below(80) } else { wild(r) } }
}

// a cell set read as its bytes that are reserved and are there
fn kept(s: &CellBitSet) -> Vec<u8> {
    s.bytes[..s.reserved.min(64) as usize].to_vec()
}

fn set_is(s: &CellBitSet, mut bytes: Vec<u8>, reserved: u32) -> bool {
    bytes.resize(64, 0);
    s.bytes[..] == bytes[..] && s.reserved == reserved
}

// the calls of a cell set: each right?
fn cell_calls(r: &mut Random, h: Settings) -> [(bool, u32); 7] {
    let (s, o, cell, n) = (wild_set(r), wild_set(r), if r.yes(50) { r.below(600) } else { wild(r) }, if r.yes(50) { r.below(600) } else { wild(r) });
    let (a, b) = (kept(&s), kept(&o));
    let reserved = |n: u32| 8 * ((n + 63) / 64);
    let at = (cell / 8) as usize;
    let (made, sized, put, joined) = unsafe {
        let (made, sized) = (savoiky_cell_bitset_new(h, n), savoiky_cell_bitset_ensure_sized(h, s, n));
        (made, sized, savoiky_cell_bitset_set_bit(h, s, cell), savoiky_cell_bitset_union_with(h, s, o))
    };
    let (held, meets, empty) =
        unsafe { (savoiky_cell_bitset_get_bit(h, s, cell), savoiky_cell_bitset_intersects(h, s, o), savoiky_cell_bitset_is_empty(h, s)) };
    let (code, only) = (if n > 512 { 1 } else { h.code(0) }, h.code(0));
    let new_right = made.code == code && set_is(&made.set, vec![], if code == 0 { reserved(n) } else { 0 });
    let same = |x: &CellBitSet| x.bytes == s.bytes && x.reserved == s.reserved;
    let sized_right = sized.code == code && if code != 0 { same(&sized.set) } else { set_is(&sized.set, a.clone(), reserved(n).max(a.len() as u32)) };
    let mut changed = s;
    changed.bytes.iter_mut().enumerate().filter(|(i, _)| *i == at && at < a.len()).for_each(|(_, b)| *b |= 1 << (cell % 8));
    let set_right = put.code == only && if only != 0 { same(&put.set) } else { put.set.bytes == changed.bytes && put.set.reserved == s.reserved };
    let mut both = vec![0; a.len().max(b.len())];
    both.iter_mut().enumerate().for_each(|(i, x)| *x = a.get(i).unwrap_or(&0) | b.get(i).unwrap_or(&0));
    let reserves = both.len() as u32;
    let joined_right = joined.code == only && if only != 0 { same(&joined.set) } else { set_is(&joined.set, both, reserves) };
    let yes = |got: Answer, want: bool| (yes_agrees(got, h, want), only);
    [
        (new_right, code), (sized_right, code), (set_right, only), yes(held, a.get(at).is_some_and(|b| b >> (cell % 8) & 1 == 1)),
        yes(meets, a.iter().zip(&b).any(|(x, y)| x & y != 0)), (joined_right, only), yes(empty, a.iter().all(|b| *b == 0)),
    ]
}

// two sets of any length that share a cell at most, at or beside the end of the shorter one
fn close_call(r: &mut Random, h: Settings) -> (bool, u32) {
    let reserved = [0, 1].map(|_| if r.yes(80) { r.below(73) } else { wild(r) });
    let [a, b] = close_pair(r, reserved);
    (yes_agrees(unsafe { savoiky_cell_bitset_intersects(h, a, b) }, h, share_a_cell(&a, &b)), h.code(0))
}

// the calls that take numbers only
fn number_calls(r: &mut Random, h: Settings) -> [(bool, u32); 7] {
    let mut w = [0; 6];
    w.iter_mut().for_each(|x| *x = wild(r));
    let flags = w[3];
    let mut n = QuerySizes::default();
    n.numbers().iter_mut().for_each(|x| *x = wild_count(r, 64));
    let all = unsafe {
        [
            (savoiky_walk_duration(h, w[0], w[1], w[2]), walk_outcome(h, w[0], w[1], w[2])),
            (savoiky_max_rounds(h, w[0], w[1]), rounds_outcome(h, w[0], w[1])),
            (savoiky_effective_departure(h, w[0], w[1], flags, w[4]), oracle_departure(h, w[0], w[1], flags, w[4])),
            (savoiky_effective_arrival(h, w[0], w[1], w[2], flags, w[4]), oracle_arrival(h, w[0], w[1], w[2], flags, w[4])),
            (savoiky_skipped(h, flags), skipped_outcome(h, flags)),
            (savoiky_service_second(h, w[0], w[1], w[2]), clock_outcome(h, w[0], w[1], w[2])),
            (savoiky_work_size(h, n), work_outcome(h, &n)),
        ]
    };
    all.map(|(got, want)| (got == want, want.code))
}

// frequency boarding, the margin and the look-up of a stop time's delays
fn table_calls(r: &mut Random, h: Settings) -> [(bool, u32); 3] {
    let (count, tame) = (wild_count(r, 6), r.yes(70));
    let w = wild_words(r, 3 * count as u64, tame);
    let (base, dep, after) = (r.time(), r.time(), r.time());
    let want = freq_outcome(h, count, &w, base, dep, after);
    let got = unsafe { savoiky_freq_board(h, count, w.as_ptr(), w.len(), base, dep, after) };
    let (trips, row_count, stop_row_count) = (wild_count(r, 9), wild_count(r, 5), wild_count(r, 5));
    let (rows, stop_rows) = (wild_words(r, 2 * row_count as u64, tame), wild_words(r, 5 * stop_row_count as u64, tame));
    let mut d = Delays { settings: h, trips, row_count, stop_row_count, rows, stop_rows };
    if r.yes(60) {
        d.rows.chunks_exact_mut(2).enumerate().for_each(|(i, c)| c[0] = i as u32);
        d.stop_rows.chunks_exact_mut(5).enumerate().for_each(|(i, c)| (c[0], c[1]) = (0, i as u32));
    }
    let code = d.door();
    [(got == want, want.code), (d.margin_agrees(), code), (d.row_agrees(r), code)]
}

// a label stored, a function for each kind, and what was there before read back
fn label_calls(r: &mut Random, h: Settings) -> [(bool, u32); 4] {
    let mut out = [(true, 0); 4];
    for kind in 1..4 {
        let (stops, tame) = (wild_count(r, 4), r.yes(50));
        let words = wild_words(r, 104 * stops as u64, tame);
        let n = wild_length(r, 13 * stops as u64);
        let mut fields = [0; 7];
        fields.iter_mut().for_each(|x| *x = wild(r));
        // the round is a u16 in the Rust
        fields[if kind == 2 { 5 } else { 4 }] = if kind == 1 { 0 } else { r.below(13) };
        if r.yes(60) {
            stop_fields(kind).iter().for_each(|k| fields[*k] = r.stop_number(stops));
        }
        let c = LabelCase {
            settings: h, stops, stop: wild_count(r, 4), row: wild_count(r, 15), kind, fields, distance: r.distance(), words,
            distances: (0..n).map(|_| r.next()).collect(),
        };
        out[kind as usize - 1] = (c.stores(), c.door());
        out[3] = (out[3].0 && c.loads(), c.load_code());
    }
    out
}

fn building_calls(r: &mut Random, h: Settings) -> [(bool, u32); 4] {
    let mut x = Timetable { settings: h, ..random_timetable(r) };
    let (percent, few) = ([0, 1, 5, 30, 100][r.below(5) as usize], 1 + r.below(8));
    for v in [&mut x.tables, &mut x.runs, &mut x.rows, &mut x.line_runs, &mut x.entries, &mut x.lines_of] {
        scatter(r, v, percent, few);
        if r.yes(4) {
            let n = wild_length(r, v.len() as u64);
            v.resize(n, few);
        }
    }
    for v in [&mut x.marks, &mut x.line_of, &mut x.made_runs, &mut x.made_entries, &mut x.positions, &mut x.fifo, &mut x.transfer_runs, &mut x.area] {
        if r.yes(2) {
            let n = wild_length(r, v.len() as u64);
            v.resize(n, few);
        }
    }
    for n in x.counts.iter_mut().chain([&mut x.departures, &mut x.lines, &mut x.entry_count, &mut x.line_count]) {
        if r.yes(2) {
            *n = wild(r);
        }
    }
    [sorting_agrees(&x), lines_agree(&x), layout_agrees(&x), transfers_agree(&x)]
}

fn search_calls(x: &Lent, a: &Areas) -> [(bool, u32); 2] {
    // copies are as long as they say
    let x = x.clone();
    [Call::RunTbr, Call::Query].map(|call| {
        let want = outcome(call, &x, a);
        let mut got = a.clone();
        let reply = ask_ours(call, &x, &mut got);
        (reply == want.reply && got == want.areas, want.reply.code)
    })
}

fn lively_search(r: &mut Random, i: u64) -> (Lent, Areas) {
    let (c, ran) = drawn(r, (i % 16) as u32, (i / 16 % 5) as u32);
    let x = lend(r, &c, true);
    let half = half_for(r, flags_on(&c), &ran.2);
    let a = areas(r, &x.sizes, half);
    (x, a)
}

const NAMES: [&str; 27] = [
    "cell_bitset_new", "cell_bitset_ensure_sized", "cell_bitset_set_bit", "cell_bitset_get_bit", "cell_bitset_intersects", "cell_bitset_union_with",
    "cell_bitset_is_empty", "walk_duration", "max_rounds", "effective_departure", "effective_arrival", "skipped", "service_second", "work_size", "freq_board",
    "margin", "delay_at", "label_store_access", "label_store_transit", "label_store_walk", "label_load", "sort_stop_departures", "compute_line_groups",
    "line_layout", "compute_trip_transfers", "run_tbr", "query",
];
// of each call: made, refused, refused by 14, differed
type Counts = [[u64; 4]; 27];

fn count_calls(t: &mut [[u64; 4]], calls: Vec<(bool, u32)>) {
    for (n, (right, code)) in t.iter_mut().zip(calls) {
        *n = [n[0] + 1, n[1] + (code != 0) as u64, n[2] + (code == 14) as u64, n[3] + !right as u64];
    }
}

// so many rounds with each of the settings at the ends of the ranges, before the random ones
const EACH_END: usize = 20;

fn job(seed: u64, count: u64) -> Counts {
    let (mut r, mut t) = (Random(seed), [[0; 4]; 27]);
    // pairs of sets draw from numbers of their own
    let mut own = Random(!seed);
    let ends = range_ends();
    for i in 0..count {
        let h = ends.get(i as usize / EACH_END).map_or_else(|| r.any_settings(), |e| e.0);
        let (mut x, a) = hostile(&mut r);
        x.settings = h;
        let mut all = cell_calls(&mut r, h).to_vec();
        all.extend(number_calls(&mut r, h));
        all.extend(table_calls(&mut r, h));
        all.extend(label_calls(&mut r, h));
        all.extend(building_calls(&mut r, h));
        all.extend(search_calls(&x, &a));
        count_calls(&mut t, all);
        count_calls(&mut t[4..5], vec![close_call(&mut own, h)]);
        if i % 10 == 0 {
            let (x, a) = lively_search(&mut r, i / 10);
            count_calls(&mut t[25..], search_calls(&x, &a).to_vec());
        }
    }
    t
}

fn main() {
    let mut t: Counts = [[0; 4]; 27];
    for other in in_jobs(COUNT, 0x1057, job) {
        t.iter_mut().flatten().zip(other.iter().flatten()).for_each(|(a, b)| *a += b);
    }
    let mut fine = true;
    for (name, n) in NAMES.iter().zip(t) {
        println!("{name}: {} calls, {} refused ({} by 14), {} differed", n[0], n[1], n[2], n[3]);
        fine = fine && n[3] == 0 && n[2] > 0 && n[1] < n[0];
    }
    println!("{} calls in all, {} differed", t.iter().map(|n| n[0]).sum::<u64>(), t.iter().map(|n| n[3]).sum::<u64>());
    std::process::exit(!(tally_fine() && fine) as i32);
}
