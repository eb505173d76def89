// `intersects` on cell sets of any length (set_pairs.rs): every pair of lengths of 0 to 72 bytes and three huge ones, with a cell shared beside the
// shorter set's end, ones past the reserved bytes, and random bytes; every cell shared alone, for sets of 1 to 8 words each. Compared with the
// reading there and, where the Rust has both sets, with the Rust.

// what answered pairs must have met
const MEETINGS: [&str; 10] = [
    "sets that meet", "sets that do not", "a length that is no multiple of 8", "a length above 64", "the Rust asked too",
    "the one shared cell in the last byte of the shorter set", "in the last byte of its last whole word", "in its tail", "in the high half of a word",
    "bytes shared past the shorter set's end alone",
];

fn meetings_met(a: &CellBitSet, b: &CellBitSet, rust: bool) -> [bool; 10] {
    let end = shorter_end(a.reserved, b.reserved) as u32;
    let shared: Vec<u32> = (0..512).filter(|c| in_set(a, *c) && in_set(b, *c)).collect();
    let byte = if let [cell] = shared[..] { Some(cell / 8) } else { None };
    let beyond = shared.is_empty() && (0..64).any(|i| a.bytes[i] & b.bytes[i] != 0);
    let one = |test: &dyn Fn(u32) -> bool| byte.is_some_and(test);
    [
        !shared.is_empty(), shared.is_empty(), a.reserved % 8 != 0 || b.reserved % 8 != 0, a.reserved > 64 || b.reserved > 64, rust,
        one(&|i| i + 1 == end), one(&|i| end > 7 && i + 1 == end / 8 * 8), one(&|i| i >= end / 8 * 8), one(&|i| i % 8 > 3), beyond,
    ]
}

struct Meetings {
    t: Tally,
    met: [u64; 10],
}

impl Meetings {
    fn one(&mut self, s: Settings, [a, b]: [CellBitSet; 2]) {
        let want = share_a_cell(&a, &b);
        let rust = rust_set_of(&a).zip(rust_set_of(&b)).map(|(a, b)| a.intersects(&b));
        let right = yes_agrees(unsafe { savoiky_cell_bitset_intersects(s, a, b) }, s, want);
        self.t.same(s, right && rust.unwrap_or(want) == want);
        if s.in_range() {
            self.met.iter_mut().zip(meetings_met(&a, &b, rust.is_some())).for_each(|(n, yes)| *n += yes as u64);
        }
    }

    fn lengths(&mut self, r: &mut Random, reserved: [u32; 2]) {
        let end = shorter_end(reserved[0], reserved[1]);
        for ones in [[false, false], [false, true], [true, false], [true, true]] {
            let pair = bare_pair(reserved, ones);
            self.one(r.any_settings(), pair);
            for byte in [end.wrapping_sub(1), end, end + 1] {
                let mut pair = pair;
                put_shared(&mut pair, byte, r.below(8));
                self.one(r.any_settings(), pair);
            }
        }
        for every in [1, 8, 40] {
            let mut pair = bare_pair(reserved, [r.yes(50), r.yes(50)]);
            pair.iter_mut().for_each(|s| put_random(r, s, every));
            self.one(r.any_settings(), pair);
        }
        (0..4).for_each(|_| self.one(r.any_settings(), close_pair(r, reserved)));
    }

    // one cell, the same in both, whatever it is
    fn cells(&mut self, r: &mut Random, reserved: [u32; 2]) {
        for cell in 0..512 {
            let mut pair = bare_pair(reserved, [false, false]);
            put_shared(&mut pair, cell / 8, cell as u32 % 8);
            self.one(r.any_settings(), pair);
        }
    }
}

fn meetings(r: &mut Random) -> Tally {
    let mut m = Meetings { t: Tally { least: 150_000, ..Tally::new("cell sets of any length that meet") }, met: [0; 10] };
    let lengths: Vec<u32> = (0..=72).chain([1 << 31, u32::MAX - 63, u32::MAX]).collect();
    for (a, b) in lengths.iter().flat_map(|a| lengths.iter().map(move |b| (*a, *b))) {
        m.lengths(r, [a, b]);
    }
    for (a, b) in (1..=8).flat_map(|a| (1..=8).map(move |b| (8 * a, 8 * b))) {
        m.cells(r, [a, b]);
    }
    m.t.met = MEETINGS.into_iter().zip(m.met).collect();
    m.t
}
