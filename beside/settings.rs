// The settings of the house: what the Rust reads in place of its four numbers (beside/cut), question 14 read independently, and settings drawn.

thread_local! {
    static HOUSE: std::cell::Cell<Option<Settings>> = const { std::cell::Cell::new(None) };
}

// what the Rust reads; that none were put is a fault of the comparison
pub fn house() -> Settings {
    HOUSE.with(|h| h.get()).expect("the Rust is asked under no settings")
}

// the Rust asked under these settings
pub fn under<T>(settings: Settings, f: impl FnOnce() -> T) -> T {
    let before = HOUSE.with(|h| h.replace(Some(settings)));
    let x = f();
    HOUSE.with(|h| h.set(before));
    x
}

// the Rust's own numbers; of each the least, the most, and what is small: up to here it decides much in the tables drawn here
pub const OWN: Settings = Settings { transfer_time: 120, line_scan: 64, candidate_slack: 3600, margin_cap: 21_600 };
const RANGES: [(u32, u32, u32); 4] = [(0, 3600, 300), (1, 4096, 3), (0, 21_600, 400), (0, LIMIT, 400)];

impl Default for Settings {
    fn default() -> Settings {
        OWN
    }
}

impl Settings {
    pub fn of(n: [u32; 4]) -> Settings {
        Settings { transfer_time: n[0], line_scan: n[1], candidate_slack: n[2], margin_cap: n[3] }
    }
    pub fn numbers(&self) -> [u32; 4] {
        [self.transfer_time, self.line_scan, self.candidate_slack, self.margin_cap]
    }
    // these with one number another
    pub fn with(&self, k: usize, number: u32) -> Settings {
        let mut n = self.numbers();
        n[k] = number;
        Settings::of(n)
    }
    // question 14
    pub fn in_range(&self) -> bool {
        self.transfer_time <= 3600 && self.line_scan >= 1 && self.line_scan <= 4096 && self.candidate_slack <= 21_600 && self.margin_cap <= LIMIT
    }
    // the code of a call that asks nothing else, or what it asks later
    pub fn code(&self, later: u32) -> u32 {
        if self.in_range() { later } else { 14 }
    }
}

// of each range both ends, and one past each: with the code
pub fn range_ends() -> Vec<(Settings, u32)> {
    let ends = |(k, (least, most, _)): (usize, (u32, u32, u32))| {
        let past = [most + 1, u32::MAX, least.wrapping_sub(1)];
        [least, most].into_iter().map(move |n| (OWN.with(k, n), 0)).chain(past.into_iter().map(move |n| (OWN.with(k, n), 14)))
    };
    let least = Settings::of(RANGES.map(|x| x.0));
    let most = Settings::of(RANGES.map(|x| x.1));
    RANGES.into_iter().enumerate().flat_map(ends).chain([(OWN, 0), (least, 0), (most, 0)]).collect()
}

impl Random {
    // one of the four numbers, in its range: the Rust's, next to that, an end, any, or a small one
    fn setting(&mut self, k: usize) -> u32 {
        let (least, most, few) = RANGES[k];
        let own = OWN.numbers()[k];
        match self.below(12) {
            0 | 1 => own,
            2 => own + 1 - self.below(3),
            3 => least,
            4 => most,
            5 | 6 => least + self.below(most - least + 1),
            _ => least + self.below(few),
        }
    }
    // settings in their ranges, at times the Rust's own
    pub fn settings(&mut self) -> Settings {
        if self.below(6) == 0 { OWN } else { Settings::of([0, 1, 2, 3].map(|k| self.setting(k))) }
    }
    // with one number out of its range
    pub fn settings_outside(&mut self) -> Settings {
        let k = self.below(4) as usize;
        let past = [RANGES[k].1 + 1, RANGES[k].0.wrapping_sub(1), (self.next() as u32).max(RANGES[k].1 + 1)];
        let number = past[self.below(3) as usize];
        self.settings().with(k, number)
    }
    // one in twenty out of range
    pub fn any_settings(&mut self) -> Settings {
        if self.below(20) == 0 { self.settings_outside() } else { self.settings() }
    }
}
