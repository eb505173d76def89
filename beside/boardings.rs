// Frequency boarding beside the Rust and document 02, T-02 (cases.rs): every small window, all pairs of smaller ones, the most windows, random
// ones; all nine words of every answer compared.

// what answered boardings must have met; need, quotient and remainder are T-02's
const WAITS: [&str; 8] = [
    "need above zero and no remainder", "need above zero and a remainder", "need zero", "need below zero", "an offset below zero",
    "a window that is not the first", "two windows of the earliest departure", "none",
];

fn waits_met(w: &[u32], base: u32, dep: u32, after: u32) -> [bool; 8] {
    let runs = window_runs(w, base, dep, after);
    let Some(b) = boarded(&runs) else {
        return [false, false, false, false, false, false, false, true];
    };
    let [above, exact] = [b.need > 0, b.need % b.headway == 0];
    let equal = runs.iter().filter(|x| x.departure == b.departure).count();
    [above && exact, above && !exact, b.need == 0, b.need < 0, dep < base, b.window > 0, equal > 1, false]
}

struct Boardings {
    t: Tally,
    met: [u64; 8],
    // FIRST=1: no further than a first difference (beside/mutants)
    first: bool,
}

impl Boardings {
    fn one(&mut self, s: Settings, w: &[u32], base: u32, dep: u32, after: u32) {
        self.counted(s, w.len() as u32 / 3, w, base, dep, after);
    }
    fn counted(&mut self, s: Settings, count: u32, w: &[u32], base: u32, dep: u32, after: u32) {
        if self.first && self.t.differed > 0 {
            return;
        }
        let want = freq_outcome(s, count, w, base, dep, after);
        self.t.same(s, unsafe { savoiky_freq_board(s, count, w.as_ptr(), w.len(), base, dep, after) } == want);
        if want.code == 0 {
            self.met.iter_mut().zip(waits_met(w, base, dep, after)).for_each(|(n, yes)| *n += yes as u64);
        }
    }

    fn small(&mut self, r: &mut Random) {
        for (start, end, headway) in small_windows(5, 8, 5) {
            for (base, dep) in (0..4).flat_map(|base| (0..6).map(move |dep| (base, dep))) {
                (0..9).for_each(|after| self.one(r.any_settings(), &[start, end, headway], base, dep, after));
            }
        }
    }

    fn pairs(&mut self, r: &mut Random) {
        for (a, b) in small_windows(3, 6, 3).flat_map(|a| small_windows(3, 6, 3).map(move |b| (a, b))) {
            for (base, dep) in [(0, 0), (0, 2), (1, 0)] {
                (0..7).for_each(|after| self.one(r.any_settings(), &[a.0, a.1, a.2, b.0, b.1, b.2], base, dep, after));
            }
        }
    }

    // the most windows and one more, with every end of the settings
    fn most(&mut self) {
        let most: Vec<u32> = (0..65536 * 3 + 3).map(|i| [600, 1200, 300][i as usize % 3]).collect();
        let ends = range_ends().into_iter().map(|(s, _)| s);
        for (s, n) in [0, 1, 65535, 65536, 65537].into_iter().map(|n| (OWN, n)).chain(ends.flat_map(|s| [0, 1, 65537].map(|n| (s, n)))) {
            let w = &most[..n as usize * 3];
            self.one(s, w, 600, 660, 961);
            self.one(s, w, 600, 660, 661);
            self.counted(s, n, &most[..1], 600, 660, 661);
            self.one(s, w, 600, LIMIT + 1, 661);
        }
    }
}

fn small_windows(starts: u32, ends: u32, headways: u32) -> impl Iterator<Item = (u32, u32, u32)> {
    (0..starts * ends * headways).map(move |k| (k / headways / ends, k / headways % ends, k % headways))
}

fn frequency(r: &mut Random) -> Tally {
    let mut b = Boardings { t: Tally::new("frequency boarding"), met: [0; 8], first: std::env::var("FIRST").is_ok() };
    b.small(r);
    // apart, so that all else stays as it was drawn
    b.pairs(&mut Random(0x2A12));
    b.most();
    for _ in 0..RANDOM {
        let (count, w, base, dep, after) = random_boarding(r);
        b.counted(r.any_settings(), count, &w, base, dep, after);
    }
    b.t.met = WAITS.into_iter().zip(b.met).collect();
    b.t
}
