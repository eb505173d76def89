// Inputs put to the exported calls and to the oracle: do they agree?
// Is ours, byte for byte, the oracle's set?
pub fn same_set(s: &CellBitSet, o: &Oracle) -> bool {
    let mut bytes = [0u8; 64];
    for (i, w) in o.words().iter().enumerate() {
        bytes[i * 8..i * 8 + 8].copy_from_slice(&w.to_le_bytes());
    }
    s.bytes == bytes && s.reserved as usize == o.words().len() * 8
}

pub fn random_set(r: &mut Random) -> (CellBitSet, Oracle) {
    let n = r.below(513);
    let mut o = Oracle::new(n);
    let mut s = unsafe { savoiky_cell_bitset_new(OWN, n) }.set;
    for _ in 0..r.below(5) {
        let c = r.below(530);
        o.set_bit(c as usize);
        s = unsafe { savoiky_cell_bitset_set_bit(OWN, s, c) }.set;
    }
    (s, o)
}

pub fn departure_agrees(s: Settings, time: u32, trip: u32, flags: u32, own: u32) -> bool {
    unsafe { savoiky_effective_departure(s, time, trip, flags, own) == oracle_departure(s, time, trip, flags, own) }
}

pub fn arrival_agrees(s: Settings, time: u32, shift: u32, trip: u32, flags: u32, own: u32) -> bool {
    unsafe { savoiky_effective_arrival(s, time, shift, trip, flags, own) == oracle_arrival(s, time, shift, trip, flags, own) }
}

// Is this the set, with this code? Refused by 14, a set that was handed in is handed back.
pub fn set_agrees(got: CellSetAnswer, s: Settings, came: &Oracle, want: &Oracle) -> bool {
    got.code == s.code(0) && same_set(&got.set, if s.in_range() { want } else { came })
}

pub fn yes_agrees(got: Answer, s: Settings, want: bool) -> bool {
    got == numbers_outcome(s, true, || want as u32)
}

impl Delays {
    pub fn margin(&self) -> Answer {
        unsafe {
            savoiky_margin(
                self.settings, self.trips, self.row_count, self.stop_row_count, self.rows.as_ptr(), self.rows.len(), self.stop_rows.as_ptr(), self.stop_rows.len(),
            )
        }
    }

    pub fn margin_agrees(&self) -> bool {
        let want = match self.door() {
            0 => given(self.oracle_margin()),
            n => refused(n),
        };
        self.margin() == want
    }

    // the answers for one stop time: what the tables say, and with it the times that the Rust works out
    pub fn row_agrees(&self, r: &mut Random) -> bool {
        let trip = r.below(self.trips.saturating_add(2));
        let sequence = if r.below(4) > 0 && self.stop_rows.len() > 4 { self.stop_rows[5 * r.below(self.stop_rows.len() as u32 / 5) as usize + 1] } else { r.below(9) };
        let got = unsafe {
            savoiky_delay_at(
                self.settings, self.trips, self.row_count, self.stop_row_count, self.rows.as_ptr(), self.rows.len(), self.stop_rows.as_ptr(),
                self.stop_rows.len(), trip, sequence,
            )
        };
        let code = match self.door() {
            0 if trip >= self.trips => 4,
            n if n > 4 && n != 14 && trip >= self.trips => 4,
            n => n,
        };
        if code != 0 {
            return got == DelayAt { code, known: 0, trip_delay: 0, flags: 0, departure_delay: 0, arrival_delay: 0 };
        }
        let all = self.adjusts();
        let adj = self.rows.chunks(2).position(|c| c[0] == trip).map(|i| &all[i]);
        let time = r.below(LIMIT + 1);
        let shift = r.below(2 * LIMIT + 1) as i32 - LIMIT as i32;
        let st = stop_time(time, sequence);
        let skipped = adj.map(|a| a.is_skipped(sequence)).unwrap_or(false);
        let s = self.settings;
        unsafe {
            got.code == 0
                && got.known == adj.is_some() as u32
                && savoiky_skipped(s, got.flags) == given(skipped as u32)
                && savoiky_effective_departure(s, time, got.trip_delay, got.flags, got.departure_delay) == given(routing::effective_dep(adj, &st))
                && savoiky_effective_arrival(s, time, shift as u32, got.trip_delay, got.flags, got.arrival_delay)
                    == given(routing::effective_arr(adj, &st, shift))
        }
    }
}

// A label read, as words.
fn row_words(r: &LabelRow) -> [u32; 8] {
    [r.kind, r.word1, r.word2, r.word3, r.word4, r.word5, r.word6, r.word7]
}

// Which fields of a label of this kind name a stop.
pub fn stop_fields(kind: u32) -> &'static [usize] {
    match kind {
        1 => &[0],
        2 => &[2],
        _ => &[1, 2],
    }
}

// A label to be stored in tables of any content, and the place.
pub struct LabelCase {
    pub settings: Settings,
    pub stops: u32,
    pub stop: u32,
    pub row: u32,
    pub kind: u32,
    pub fields: [u32; 7],
    pub distance: f64,
    pub words: Vec<u32>,
    // bits
    pub distances: Vec<u64>,
}

impl LabelCase {
    // the number of the first no of a call that names the place and these fields' stops
    fn code(&self, fields: &[usize]) -> u32 {
        if self.stops > 4096 {
            1
        } else if !self.settings.in_range() {
            14
        } else if self.words.len() as u64 != self.stops as u64 * 104 || self.distances.len() as u64 != self.stops as u64 * 13 {
            2
        } else if self.stop >= self.stops || fields.iter().any(|k| self.fields[*k] >= self.stops) {
            4
        } else if self.row > 12 {
            5
        } else {
            0
        }
    }

    // of storing
    pub fn door(&self) -> u32 {
        self.code(stop_fields(self.kind))
    }

    fn at(&self) -> usize {
        (13 * self.stop + self.row) as usize
    }

    // does storing leave what the Rust's label is, and nothing else changed, and does reading give it back?
    pub fn stores(&self) -> bool {
        let (mut words, mut distances) = (self.words.clone(), self.distances.clone());
        let (label, bits) = routing::tbr::label_words(self.kind, self.fields, self.distance);
        let (s, f, d) = (self.settings, self.fields, self.distance);
        let (wp, wl, dp, dl) = (words.as_mut_ptr(), words.len(), distances.as_mut_ptr() as *mut f64, distances.len());
        let got = unsafe {
            match self.kind {
                1 => savoiky_label_store_access(s, self.stops, self.stop, self.row, f[0], f[1], f[2], d, wp, wl, dp, dl),
                2 => savoiky_label_store_transit(s, self.stops, self.stop, self.row, f[0], f[1], f[2], f[3], f[4], f[5], f[6], wp, wl, dp, dl),
                _ => savoiky_label_store_walk(s, self.stops, self.stop, self.row, f[0], f[1], f[2], f[3], d, f[4], wp, wl, dp, dl),
            }
        };
        if self.door() != 0 {
            return got == self.door() && words == self.words && distances == self.distances && self.loads();
        }
        let (mut want_words, mut want_distances) = (self.words.clone(), self.distances.clone());
        want_words[8 * self.at()..8 * self.at() + 8].copy_from_slice(&label);
        want_distances[self.at()] = bits;
        let back = unsafe { savoiky_label_load(s, self.stops, self.stop, self.row, wp, wl, dp as *const f64, dl) };
        got == 0 && words == want_words && distances == want_distances && back.code == 0 && row_words(&back.row) == label && back.row.distance.to_bits() == bits
    }

    // the code of reading what is there, which asks nothing of the label: 5 also for a kind above 3
    pub fn load_code(&self) -> u32 {
        match self.code(&[]) {
            0 if self.words[8 * self.at()] > 3 => 5,
            n => n,
        }
    }

    // does reading give the row that is there, its unused words and distance 0?
    pub fn loads(&self) -> bool {
        let (wp, dp) = (self.words.as_ptr(), self.distances.as_ptr() as *const f64);
        let back = unsafe { savoiky_label_load(self.settings, self.stops, self.stop, self.row, wp, self.words.len(), dp, self.distances.len()) };
        let (mut words, mut bits) = ([0; 8], 0);
        if self.load_code() == 0 {
            let there = &self.words[8 * self.at()..8 * self.at() + 8];
            let used = [0, 4, 8, 6][there[0] as usize];
            words[..used].copy_from_slice(&there[..used]);
            bits = if there[0] % 2 == 1 { self.distances[self.at()] } else { 0 };
        }
        back.code == self.load_code() && row_words(&back.row) == words && back.row.distance.to_bits() == bits
    }
}

// Stores one label of random kind into tables of random content and reads it back; compares every word of both tables.
pub fn label_agrees(settings: Settings, r: &mut Random) -> bool {
    let stops = 1 + r.below(3);
    let n = 13 * stops as usize;
    let words = (0..8 * n).map(|i| (i as u32).wrapping_mul(2_654_435_761)).collect();
    let distances = (0..n).map(|_| r.distance().to_bits()).collect();
    let mut fields = [0u32; 7];
    fields.iter_mut().for_each(|x| *x = r.any());
    let kind = 1 + r.below(3);
    // the round is a u16 in the Rust
    fields[if kind == 2 { 5 } else { 4 }] = if kind == 1 { 0 } else { r.below(13) };
    stop_fields(kind).iter().for_each(|k| fields[*k] = r.stop_number(stops));
    let mut c = LabelCase { settings, stops, stop: r.below(stops), row: r.below(13), kind, fields, distance: r.distance(), words, distances };
    match r.below(20) {
        0 => c.stops = r.any(),
        1 => c.stop = r.any(),
        2 => c.row = r.any(),
        3 => drop(c.words.pop()),
        4 => c.distances.push(1),
        _ => {}
    }
    c.stores()
}
