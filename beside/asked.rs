// What the reference gives: total and stop; candidates; the filled labels by their record's number, as words and distance.
pub struct Given {
    pub best: Option<(u32, u32)>,
    pub candidates: Vec<(u32, u32, u16)>,
    pub labels: Vec<(usize, [u32; 8], f64)>,
}

// `run_tbr` on a new scratch, its labels kept.
pub fn ask(e: &StaticEpoch, q: &ItineraryQuery, start: u32, origins: &[AccessStop], egress: &HashMap<u32, AccessStop>, off: bool) -> Given {
    let mut s = TbrScratch::new(e, q, chrono::NaiveDate);
    s.flash_disabled = off;
    let (best, candidates) = match run_tbr(e, q, start, origins, egress, &mut s) {
        Some((b, c)) => (Some(b), c),
        None => (None, vec![]),
    };
    let mut labels = vec![];
    for (row, ls) in s.labels.iter().enumerate() {
        for (stop, l) in ls.iter().enumerate().filter(|l| l.1.is_some()) {
            let (words, distance) = words_of(l);
            labels.push((13 * stop + row, words, distance));
        }
    }
    Given { best, candidates, labels }
}

// The same for timing: the best target and how many candidates.
#[inline(never)]
pub fn search(
    e: &StaticEpoch, q: &ItineraryQuery, start: u32, origins: &[AccessStop], egress: &HashMap<u32, AccessStop>, off: bool,
) -> (Option<(u32, u32)>, usize) {
    let mut s = TbrScratch::new(e, q, chrono::NaiveDate);
    s.flash_disabled = off;
    match run_tbr(e, q, start, origins, egress, &mut s) {
        Some((b, c)) => (Some(b), c.len()),
        None => (None, 0),
    }
}
