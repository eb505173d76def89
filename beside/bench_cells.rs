// Cell sets in cache, timed beside the Rust changing a set in place: nanoseconds a call (least of 201 passes), at 64 and at 512 cells.
// `copy` is the call that only hands a tally's address, screen, settings and sets in and an answer out, by value through C; `by value` is the Rust's
// work on a set handed in and out so, `to value` the ratio of ours to that. `intersects` is timed on sets that share no cell, so that every word is
// read, and on sets that share a cell of the first word (`first word`); under it the Rust's work by value with the questions and the tally of the call
// (`asked and counted`).
#![allow(dead_code, unused)]
include!(concat!(env!("ORACLE"), "/oracle.rs"));
include!(concat!(env!("BESIDE"), "/ffi.rs"));
include!(concat!(env!("BESIDE"), "/tally.rs"));
include!(concat!(env!("BESIDE"), "/random.rs"));
include!(concat!(env!("BESIDE"), "/settings.rs"));
use gtfs::cell_bitset::CellBitSet as Oracle;
use std::hint::black_box;
use std::time::Instant;

const SETS: usize = 64;
const ROUNDS: usize = 40;
const PASSES: usize = 201;

// The least time of a call over all passes, in nanoseconds.
fn least(mut f: impl FnMut(usize)) -> f64 {
    let mut best = f64::MAX;
    for _ in 0..PASSES {
        let t = Instant::now();
        for _ in 0..ROUNDS {
            for i in 0..SETS {
                f(i);
            }
        }
        best = best.min(t.elapsed().as_secs_f64());
    }
    best * 1e9 / (SETS * ROUNDS) as f64
}

#[inline(never)]
fn rust_set(s: &mut Oracle, c: usize) {
    s.set_bit(c)
}
#[inline(never)]
fn rust_get(s: &Oracle, c: usize) -> bool {
    s.get_bit(c)
}
#[inline(never)]
fn rust_meets(a: &Oracle, b: &Oracle) -> bool {
    a.intersects(b)
}
#[inline(never)]
fn rust_union(a: &mut Oracle, b: &Oracle) {
    a.union_with(b)
}
#[inline(never)]
fn rust_empty(a: &Oracle) -> bool {
    a.is_empty()
}

// Sets handed in, and out.
#[inline(never)]
extern "C" fn in_one(t: *mut sys::Tally, screen: u32, h: Settings, a: CellBitSet, c: u32) -> Answer {
    Answer { code: h.line_scan, value: (a.reserved == c) as u32 }
}
#[inline(never)]
extern "C" fn in_two(t: *mut sys::Tally, screen: u32, h: Settings, a: CellBitSet, b: CellBitSet) -> Answer {
    Answer { code: h.line_scan, value: (a.reserved == b.reserved) as u32 }
}
#[inline(never)]
extern "C" fn through(t: *mut sys::Tally, screen: u32, h: Settings, a: CellBitSet, c: u32) -> CellSetAnswer {
    CellSetAnswer { code: h.line_scan, set: a }
}
#[inline(never)]
extern "C" fn through_two(t: *mut sys::Tally, screen: u32, h: Settings, a: CellBitSet, b: CellBitSet) -> CellSetAnswer {
    CellSetAnswer { code: h.line_scan, set: CellBitSet { bytes: a.bytes, reserved: b.reserved } }
}

// The Rust's work by value: words of 8 bytes.
fn word(s: &CellBitSet, w: usize) -> u64 {
    u64::from_le_bytes(s.bytes[8 * w..8 * w + 8].try_into().unwrap())
}
fn words(s: &CellBitSet) -> usize {
    s.reserved.min(64) as usize / 8
}
#[inline(never)]
extern "C" fn value_set(mut a: CellBitSet, c: u32) -> CellBitSet {
    let w = c as usize / 64;
    if w < words(&a) {
        let x = word(&a, w) | 1 << (c % 64);
        a.bytes[8 * w..8 * w + 8].copy_from_slice(&x.to_le_bytes());
    }
    a
}
#[inline(never)]
extern "C" fn value_get(a: CellBitSet, c: u32) -> bool {
    let w = c as usize / 64;
    w < words(&a) && word(&a, w) & 1 << (c % 64) != 0
}
#[inline(never)]
extern "C" fn value_meets(a: CellBitSet, b: CellBitSet) -> bool {
    (0..words(&a).min(words(&b))).any(|w| word(&a, w) & word(&b, w) != 0)
}
// The same behind questions 15 and 14, and counted: all that the exported call does, in Rust.
#[inline(never)]
extern "C" fn asked_meets(t: *mut sys::Tally, screen: u32, h: Settings, a: CellBitSet, b: CellBitSet) -> Answer {
    if screen > 63 {
        return Answer { code: 15, value: 0 };
    }
    let ok = h.transfer_time <= 3600 && (1..=4096).contains(&h.line_scan) && h.candidate_slack <= 21_600 && h.margin_cap <= 1_048_575;
    let t = unsafe { &mut *t };
    let counts = if ok { &mut t.answered } else { &mut t.refused };
    counts[screen as usize] = counts[screen as usize].saturating_add(1);
    if !ok {
        return Answer { code: 14, value: 0 };
    }
    let met = (0..words(&a).min(words(&b))).any(|w| word(&a, w) & word(&b, w) != 0);
    Answer { code: 0, value: met as u32 }
}
#[inline(never)]
extern "C" fn value_union(mut a: CellBitSet, b: CellBitSet) -> CellBitSet {
    for w in 0..words(&b) {
        let x = word(&a, w) | word(&b, w);
        a.bytes[8 * w..8 * w + 8].copy_from_slice(&x.to_le_bytes());
    }
    a.reserved = a.reserved.max(b.reserved);
    a
}
#[inline(never)]
extern "C" fn value_empty(a: CellBitSet) -> bool {
    (0..words(&a)).all(|w| word(&a, w) == 0)
}

fn row(name: &str, cells: u32, ours: f64, rust: f64, copy: f64, value: f64) {
    let times = format!("ours {ours:5.1}   Rust {rust:5.1}   ratio {:4.1}   copy {copy:5.1}   by value {value:5.1}", ours / rust);
    println!("{name:<22} {cells:>4} cells: {times}   to value {:5.2}", ours / value);
}

fn meeting(name: &str, cells: u32, (a, oa): (&[CellBitSet], &[Oracle]), (b, ob): (&[CellBitSet], &[Oracle])) {
    let tally = std::ptr::addr_of_mut!(TIMED_TALLY);
    let ours = least(|i| { black_box(unsafe { savoiky_cell_bitset_intersects(OWN, black_box(a[i]), black_box(b[i])) }); });
    let rust = least(|i| { black_box(rust_meets(black_box(&oa[i]), black_box(&ob[i]))); });
    let copy = least(|i| { black_box(in_two(tally, TIMED, OWN, black_box(a[i]), black_box(b[i]))); });
    let value = least(|i| { black_box(value_meets(black_box(a[i]), black_box(b[i]))); });
    row(name, cells, ours, rust, copy, value);
    let asked = least(|i| { black_box(asked_meets(tally, TIMED, OWN, black_box(a[i]), black_box(b[i]))); });
    println!("{:>22} {cells:>4} cells: by value, asked and counted {asked:5.1}   ratio {:5.2}", "", ours / asked);
}

fn main() {
    let tally = std::ptr::addr_of_mut!(TIMED_TALLY);
    for cells in [64u32, 512] {
        let fresh = |c: u32| {
            let (mut s, mut o) = (unsafe { savoiky_cell_bitset_new(OWN, cells) }.set, Oracle::new(cells));
            s = unsafe { savoiky_cell_bitset_set_bit(OWN, s, c) }.set;
            o.set_bit(c as usize);
            (s, o)
        };
        // even cells against odd ones: no two sets meet
        let (mut a, mut oa): (Vec<_>, Vec<_>) = (0..SETS as u32).map(|i| fresh(2 * i % cells)).unzip();
        let (b, ob): (Vec<_>, Vec<_>) = (0..SETS as u32).map(|i| fresh((2 * i + 1) % cells)).unzip();
        let (e, oe): (Vec<_>, Vec<_>) = (0..SETS).map(|_| (unsafe { savoiky_cell_bitset_new(OWN, cells) }.set, Oracle::new(cells))).unzip();
        let c: Vec<u32> = (0..SETS as u32).map(|i| i * 37 % cells / 2 * 2).collect();
        let get = (
            least(|i| { black_box(unsafe { savoiky_cell_bitset_get_bit(OWN, black_box(a[i]), c[i]) }); }),
            least(|i| { black_box(rust_get(black_box(&oa[i]), c[i] as usize)); }),
            least(|i| { black_box(in_one(tally, TIMED, OWN, black_box(a[i]), c[i])); }),
            least(|i| { black_box(value_get(black_box(a[i]), c[i])); }),
        );
        row("get_bit", cells, get.0, get.1, get.2, get.3);
        let set = (
            least(|i| a[i] = unsafe { savoiky_cell_bitset_set_bit(OWN, a[i], c[i]) }.set),
            least(|i| rust_set(&mut oa[i], c[i] as usize)),
            least(|i| a[i] = through(tally, TIMED, OWN, a[i], c[i]).set),
            least(|i| a[i] = value_set(a[i], c[i])),
        );
        row("set_bit", cells, set.0, set.1, set.2, set.3);
        meeting("intersects", cells, (&a, &oa), (&b, &ob));
        // one cell, the same in both
        let (f, of): (Vec<_>, Vec<_>) = (0..SETS as u32).map(|i| fresh(i % 64)).unzip();
        meeting("intersects, first word", cells, (&f, &of), (&f, &of));
        let union = (
            least(|i| a[i] = unsafe { savoiky_cell_bitset_union_with(OWN, a[i], b[i]) }.set),
            least(|i| rust_union(&mut oa[i], &ob[i])),
            least(|i| a[i] = through_two(tally, TIMED, OWN, a[i], b[i]).set),
            least(|i| a[i] = value_union(a[i], b[i])),
        );
        row("union_with", cells, union.0, union.1, union.2, union.3);
        let empty = (
            least(|i| { black_box(unsafe { savoiky_cell_bitset_is_empty(OWN, black_box(e[i])) }); }),
            least(|i| { black_box(rust_empty(black_box(&oe[i]))); }),
            least(|i| { black_box(in_one(tally, TIMED, OWN, black_box(e[i]), 3)); }),
            least(|i| { black_box(value_empty(black_box(e[i]))); }),
        );
        row("is_empty", cells, empty.0, empty.1, empty.2, empty.3);
    }
}
