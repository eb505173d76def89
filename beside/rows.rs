// A timetable in the form that the calls take: stop times (6 words each), trips (8), windows (3), walk edges (5), each stop's cell; the same as
// the Rust has it; and the questions at the door that concern it, read independently from document 01.
pub struct Rows<'a> {
    // stops, trips, stop times, windows, walk edges
    pub counts: [u32; 5],
    pub tables: &'a [u32],
}

impl Rows<'_> {
    pub fn at(&self, section: usize, row: usize, field: usize) -> u32 {
        let c = self.counts.map(|n| n as usize);
        let base = [0, 6 * c[2], 6 * c[2] + 8 * c[1], 6 * c[2] + 8 * c[1] + 3 * c[3]];
        self.tables[base[section] + row * [6, 8, 3, 5][section] + field]
    }

    // the timetable as the Rust has it
    pub fn epoch(&self) -> StaticEpoch {
        let mut e = StaticEpoch::default();
        e.stops = (0..self.counts[0]).collect();
        for i in 0..self.counts[2] as usize {
            let f = |k| self.at(0, i, k);
            e.stop_times.push(PackedStopTime {
                stop_idx: f(0), arrival_s: f(1), departure_s: f(2), stop_sequence: f(3), pickup_type: f(4) as u8, drop_off_type: f(5) as u8,
                stop_headsign_idx: 0, timepoint: 0, shape_dist_traveled: None,
            });
        }
        for i in 0..self.counts[1] as usize {
            let f = |k| self.at(1, i, k);
            let windows = (f(4)..f(4) + f(5))
                .map(|w| FrequencyWindow { start_s: self.at(2, w as usize, 0), end_s: self.at(2, w as usize, 1), headway_s: self.at(2, w as usize, 2) })
                .collect();
            e.trips.push(GlobalTrip { stop_time_start: f(0), stop_time_len: f(1), frequency_windows: windows, ..Default::default() });
        }
        e
    }

    // Questions 1 to 6 of the timetable alone, each: is it answered yes? (3 to 6 may be asked only where 1 and 2 are yes.)
    pub fn small(&self) -> bool {
        let c = self.counts;
        c[0] <= 4096 && c[1] <= 4096 && c[2] <= 65536 && c[3] <= 65536 && c[4] <= 65536
    }
    pub fn sized(&self) -> bool {
        let c = self.counts.map(|n| n as u64);
        self.tables.len() as u64 == 6 * c[2] + 8 * c[1] + 3 * c[3] + 5 * c[4] + c[0]
    }
    pub fn runs_lie(&self) -> bool {
        (0..self.counts[1] as usize).all(|i| {
            let f = |k| self.at(1, i, k) as u64;
            f(1) > 0 && f(0) + f(1) <= self.counts[2] as u64 && f(4) + f(5) <= self.counts[3] as u64
        })
    }
    pub fn numbered(&self) -> bool {
        let stops = self.counts[0];
        (0..self.counts[2] as usize).all(|i| self.at(0, i, 0) < stops)
            && (0..self.counts[4] as usize).all(|i| self.at(3, i, 0) < stops && self.at(3, i, 1) < stops)
    }
    pub fn ranged(&self) -> bool {
        (0..self.counts[2] as usize).all(|i| self.at(0, i, 1) <= LIMIT && self.at(0, i, 2) <= LIMIT && self.at(0, i, 4) <= 3 && self.at(0, i, 5) <= 3)
            && (0..self.counts[1] as usize).all(|i| self.at(1, i, 2) <= 6 && self.at(1, i, 3) <= 2 && self.at(1, i, 6) <= 1 && self.at(1, i, 7) <= 1)
            && (0..self.counts[3] as usize).all(|i| (0..3).all(|k| self.at(2, i, k) <= LIMIT))
            && (0..self.counts[4] as usize).all(|i| self.at(3, i, 2) <= LIMIT && self.at(3, i, 3) <= 7)
    }
    pub fn ordered(&self) -> bool {
        (1..self.counts[4] as usize).all(|i| self.at(3, i - 1, 0) <= self.at(3, i, 0))
    }

    // each stop's cell
    pub fn cells(&self) -> &[u32] {
        &self.tables[self.tables.len() - self.counts[0] as usize..]
    }

    // how many stop times the trips have together
    pub fn events(&self) -> u64 {
        (0..self.counts[1] as usize).map(|i| self.at(1, i, 1) as u64).sum()
    }

    // question 4 of departures: each row's trip and offset exist, and each row of a stop's run is at the stop
    pub fn listed_right(&self, runs: &[u32], rows: &[u32]) -> bool {
        rows.chunks(2).all(|c| c[0] < self.counts[1] && c[1] < self.at(1, c[0] as usize, 1))
            && (0..self.counts[0] as usize).all(|s| {
                let (a, n) = (runs[2 * s] as usize, runs[2 * s + 1] as usize);
                (a..a + n).all(|k| {
                    let (t, o) = (rows[2 * k] as usize, rows[2 * k + 1]);
                    self.at(0, (self.at(1, t, 0) + o) as usize, 0) == s as u32
                })
            })
    }
}
