// Pairs of cell sets that a caller made up: any number as reserved, any bytes past the reserved ones. Whether two of them meet is read here apart
// from the Rust and from ours, cell by cell: a cell is in a set if its byte is one of the reserved and of the 64, and its bit is set.
fn in_set(s: &CellBitSet, cell: u32) -> bool {
    cell / 8 < s.reserved.min(64) && s.bytes[cell as usize / 8] >> (cell % 8) & 1 == 1
}

fn share_a_cell(a: &CellBitSet, b: &CellBitSet) -> bool {
    (0..512).any(|cell| in_set(a, cell) && in_set(b, cell))
}

// the Rust's own set, where there is one of so many bytes
fn rust_set_of(s: &CellBitSet) -> Option<Oracle> {
    let words = s.bytes[..s.reserved.min(64) as usize].chunks_exact(8);
    (s.reserved % 8 == 0 && s.reserved <= 64).then(|| Oracle::from_words(words.map(|w| u64::from_le_bytes(w.try_into().unwrap())).collect()))
}

// how many bytes both reserve
fn shorter_end(a: u32, b: u32) -> usize {
    a.min(b).min(64) as usize
}

// two sets without a cell, so many bytes reserved; in those that `ones` says the bytes past the reserved ones are full of ones
fn bare_pair(reserved: [u32; 2], ones: [bool; 2]) -> [CellBitSet; 2] {
    [0, 1].map(|k| {
        let mut bytes = [0; 64];
        bytes[reserved[k].min(64) as usize..].fill(if ones[k] { 255 } else { 0 });
        CellBitSet { bytes, reserved: reserved[k] }
    })
}

// one cell of this byte is put to both
fn put_shared(pair: &mut [CellBitSet; 2], byte: usize, bit: u32) {
    if byte < 64 {
        pair.iter_mut().for_each(|s| s.bytes[byte] |= 1 << bit);
    }
}

// random bytes, in every `every`-th place
fn put_random(r: &mut Random, s: &mut CellBitSet, every: u32) {
    s.bytes.iter_mut().for_each(|b| *b = if r.below(every) == 0 { r.next() as u8 } else { *b });
}

// the two sets share no cell but one at most, at or beside the end of the shorter one; beyond the reserved bytes at times ones
fn close_pair(r: &mut Random, reserved: [u32; 2]) -> [CellBitSet; 2] {
    let mut pair = bare_pair(reserved, [r.yes(50), r.yes(50)]);
    let taken = r.next().to_le_bytes();
    // the first has some bits, the second none of them
    (0..shorter_end(reserved[0], reserved[1])).for_each(|i| (pair[0].bytes[i], pair[1].bytes[i]) = (taken[i % 8], !taken[i % 8]));
    if r.yes(50) {
        put_shared(&mut pair, (shorter_end(reserved[0], reserved[1]) + r.below(3) as usize).saturating_sub(1), r.below(8));
    }
    pair
}
