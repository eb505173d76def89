// A stand-in for `intersects` of cell sets (`--cfg mock`, in leaves): it gives what is expected. MUTANT=43 to 54 makes it wrong in one way each, as a
// reading by words of 8 bytes may be.

// the bytes of both that count, and bytes of zeros after them
fn counted_bytes(a: &CellBitSet, b: &CellBitSet, end: usize) -> [[u8; 64]; 2] {
    [a, b].map(|s| {
        let mut bytes = s.bytes;
        bytes[end..].fill(0);
        bytes
    })
}

fn any_word(a: [u8; 64], b: [u8; 64], test: impl Fn(u64, u64) -> bool) -> bool {
    let word = |x: &[u8]| u64::from_le_bytes(x.try_into().unwrap());
    a.chunks(8).zip(b.chunks(8)).any(|(x, y)| test(word(x), word(y)))
}

fn meets(a: &CellBitSet, b: &CellBitSet) -> bool {
    let end = shorter_end(a.reserved, b.reserved);
    let longer = a.reserved.max(b.reserved).min(64) as usize;
    let end = match mutant() {
        // the last word is left out
        43 => end.saturating_sub(8),
        // the longer set's length counts
        44 => longer,
        // the first set's, the second's
        45 => a.reserved.min(64) as usize,
        46 => b.reserved.min(64) as usize,
        // the bytes after the last whole word are left out
        47 => end / 8 * 8,
        // they count as a whole word
        48 => (end + 7) / 8 * 8,
        // a length above 64 is taken modulo 64
        49 => [a, b].map(|s| if s.reserved > 64 { s.reserved % 64 } else { s.reserved }).into_iter().min().unwrap() as usize,
        _ => end,
    };
    let [x, y] = counted_bytes(a, b, end);
    any_word(x, y, |v, w| match mutant() {
        // or in place of and
        50 => v | w != 0,
        // the last four bytes of a word are lost, the first four
        51 => (v & w) as u32 != 0,
        52 => (v & w) >> 32 != 0,
        // a word whose highest bit is set is below zero
        53 => (v & w) as i64 > 0,
        // words are equal or not
        54 => v == w && v != 0,
        _ => v & w != 0,
    })
}

// what mock_boarding.rs hands on
pub unsafe extern "C" fn stand_in_intersects(tally: *mut sys::Tally, screen: u32, settings: Settings, set: CellBitSet, other: CellBitSet) -> Answer {
    let a = numbers_outcome(settings, true, || meets(&set, &other) as u32);
    if let Some(code) = barred(&mut *tally, screen, a.code) {
        return refused(code);
    }
    tallied(&mut *tally, screen, a.code, false);
    a
}
