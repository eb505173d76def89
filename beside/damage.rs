// Searches at the limits, damaged ones and hostile ones. What a call must answer to them the door says.

// so many of each, in rows as simple as may be: trip 0 has two stop times if there are two, any other one; trip 2 has all windows; line 0 has
// all entries, stop 0 all departures, the second stop time of trip 0 all transfers
fn counted(sizes: QuerySizes) -> Lent {
    let n = sizes;
    Lent {
        settings: OWN,
        sizes,
        tables: counted_tables(n),
        built: counted_built(n),
        transfers: (0..n.transfers).flat_map(|i| [below(i, n.trips), 0, 0, i % 2]).collect(),
        patterns: (0..64 * n.patterns).map(|i| if i % 64 == 0 { 1 << (i / 64 % 8) } else { 0 }).collect(),
        distances: (0..n.edges as u64 + n.origins as u64).map(|i| i << 40).collect(),
        query: counted_query(n),
    }
}

fn below(i: u32, count: u32) -> u32 {
    i % count.max(1)
}

fn counted_tables(n: QuerySizes) -> Vec<u32> {
    let mut out: Vec<u32> = (0..n.times).flat_map(|i| [below(i, n.stops), 100 + i % 900, 100 + i % 900, i, 0, 0]).collect();
    for i in 0..n.trips {
        let (first, count) = if i == 0 { (0, n.times.min(2)) } else { (below(i, n.times), 1) };
        out.extend([first, count, i % 7, 0, 0, if i == 2 { n.windows } else { 0 }, 1, 0]);
    }
    out.extend((0..n.windows).flat_map(|i| [i, 2 * i, 7]));
    let mut edges: Vec<[u32; 5]> = (0..n.edges).map(|i| [below(i / 64, n.stops), below(i, n.stops), 1 + i % 90, i % 8, i % 3]).collect();
    edges.sort_by_key(|e| e[0]);
    out.extend(edges.concat());
    out.extend((0..n.stops).map(|s| s % 7));
    out
}

fn counted_built(n: QuerySizes) -> Vec<u32> {
    let all_to = |row: u32, at: u32, count: u32| [0, if row == at { count } else { 0 }];
    let mut out: Vec<u32> = (0..n.trips).map(|i| below(i, n.lines)).collect();
    out.extend((0..n.lines).flat_map(|l| all_to(l, 0, n.entries)));
    out.extend((0..n.entries).map(|i| below(i, n.trips)));
    out.extend((0..n.stops).flat_map(|s| all_to(s, 0, n.departures)));
    out.extend((0..n.departures).flat_map(|_| [0, 0]));
    out.extend((0..n.stops).map(|_| 0));
    let events = if n.trips == 0 { 0 } else { n.times.min(2) + n.trips - 1 };
    out.extend((0..events).flat_map(|e| all_to(e, 1, n.transfers)));
    out
}

fn counted_query(n: QuerySizes) -> Vec<u32> {
    let mut out = vec![0, 0, 20, 0, 0, 0, 0];
    out.extend((0..n.origins).flat_map(|i| [below(i, n.stops), i]));
    out.extend((0..n.egress).flat_map(|i| [i, 1]));
    out.extend((0..n.delays).flat_map(|i| [if i < n.trips { i } else { UNKNOWN }, i % 50]));
    out.extend((0..n.stop_rows).flat_map(|i| [(i as u64 * n.delays as u64 / n.stop_rows as u64) as u32, i, i % 8, i % 9, i % 11]));
    out
}

const LIMITS: QuerySizes = QuerySizes {
    stops: 4096, trips: 4096, times: 65536, windows: 65536, edges: 65536, cells: 512, patterns: 4096, lines: 4096, entries: 4096, departures: 65536,
    transfers: 65536, delays: 4096, stop_rows: 4096, origins: 64, egress: 64,
};
const FEW: QuerySizes = QuerySizes {
    stops: 70, trips: 5, times: 9, windows: 2, edges: 4, cells: 7, patterns: 2, lines: 2, entries: 6, departures: 3, transfers: 4, delays: 3,
    stop_rows: 4, origins: 2, egress: 2,
};

// none, one and the most of all; 0, 1, the limit and one more of each, with the number of the first no where it is plain
fn search_limits() -> Vec<(Lent, Option<u32>)> {
    let (mut ones, mut most) = (FEW, LIMITS);
    ones.numbers().fill(1);
    let mut out: Vec<(Lent, Option<u32>)> = [QuerySizes::default(), ones, most].into_iter().map(|n| (counted(n), Some(0))).collect();
    for k in 0..15 {
        let limit = most.numbers()[k];
        for (n, code) in [(0, None), (1, None), (limit, Some(0)), (limit + 1, Some(1))] {
            let mut sizes = FEW;
            sizes.numbers()[k] = n;
            out.push((counted(sizes), code));
        }
    }
    out.extend(settings_ends());
    out
}

// each end of the settings' ranges and one past each; besides too many stops, and a timetable that is too long
fn settings_ends() -> Vec<(Lent, Option<u32>)> {
    let with = |settings: Settings, code: u32| {
        let (good, mut many) = (Lent { settings, ..counted(FEW) }, Lent { settings, ..counted(FEW) });
        let mut long = good.clone();
        many.sizes.stops = 4097;
        long.tables.push(0);
        [(good, Some(code)), (many, Some(1)), (long, Some(if code == 0 { 2 } else { code }))]
    };
    range_ends().into_iter().flat_map(|(s, code)| with(s, code)).collect()
}

impl Lent {
    fn words(&mut self, which: u32) -> &mut Vec<u32> {
        match which {
            0 | 1 => &mut self.tables,
            2 | 3 => &mut self.built,
            4 => &mut self.transfers,
            _ => &mut self.query,
        }
    }

    // one word becomes another, or trades places with one some way on
    fn poke(&mut self, r: &mut Random) {
        let v = self.words(r.below(7));
        if v.is_empty() {
            return;
        }
        let i = r.below(v.len() as u32) as usize;
        match r.below(5) {
            0 => v[i] = v[i].wrapping_add(1),
            1 => v[i] = v[i].wrapping_sub(1),
            2 => {
                let j = (i + [1, 2, 4, 5, 6, 8][r.below(6) as usize]) % v.len();
                v.swap(i, j);
            }
            _ => v[i] = r.any(),
        }
    }

    // one trip has a stop time more, another one less: all lengths stay right
    fn uneven(&mut self, r: &mut Random) {
        let (n, at) = (self.sizes.trips, 6 * self.sizes.times as usize + 1);
        for (i, by) in [(r.below(n.max(1)), 1), (r.below(n.max(1)), u32::MAX)] {
            if let Some(count) = self.tables.get_mut(at + 8 * i as usize) {
                *count = count.wrapping_add(by);
            }
        }
    }

    fn other_length(&mut self, r: &mut Random) {
        match r.below(4) {
            0 => self.patterns.push(1),
            1 => drop(self.patterns.pop()),
            2 => self.distances.push(1),
            _ => drop(self.distances.pop()),
        }
    }

    fn damage(&mut self, r: &mut Random) {
        match r.below(17) {
            0 => self.sizes.numbers()[r.below(15) as usize] = r.any(),
            1 => {
                let n = &mut self.sizes.numbers()[r.below(15) as usize];
                *n = if r.yes(50) { n.wrapping_add(1) } else { n.wrapping_sub(1) };
            }
            2 => self.words(r.below(7)).push(r.any()),
            3 => drop(self.words(r.below(7)).pop()),
            4 => self.other_length(r),
            5 if !self.patterns.is_empty() => {
                let i = r.below(self.patterns.len() as u32) as usize;
                self.patterns[i] = r.next() as u8;
            }
            6 => self.uneven(r),
            7 => self.settings = r.settings_outside(),
            _ => self.poke(r),
        }
    }
}

// one area, the halves of the queue among them, is a word longer or shorter
fn damage_area(r: &mut Random, a: &mut Areas) {
    let longer = r.yes(50);
    let k = r.below(6);
    if k == 5 {
        let n = a.label_distances.len();
        a.label_distances.resize(if longer { n + 1 } else { n.saturating_sub(1) }, 5);
        return;
    }
    let v = [&mut a.labels, &mut a.work, &mut a.queue_a, &mut a.queue_b, &mut a.candidates].into_iter().nth(k as usize).unwrap();
    let n = v.len();
    v.resize(if longer { n + 1 } else { n.saturating_sub(1) }, 5);
}

// any words in so many of a hundred places, small ones most often
fn scatter(r: &mut Random, v: &mut [u32], percent: u32, few: u32) {
    for w in v.iter_mut() {
        if r.yes(percent) {
            *w = if r.yes(2) { r.any() } else { r.below(few) };
        }
    }
}

// any sizes, any words; the lengths right at first, the trips' counts most often
fn hostile(r: &mut Random) -> (Lent, Areas) {
    let mut sizes = QuerySizes::default();
    sizes.numbers().iter_mut().for_each(|n| *n = r.below(6));
    let mut x = Lent { settings: r.any_settings(), ..counted(sizes) };
    let (percent, few) = ([1, 5, 30, 100][r.below(4) as usize], 1 + r.below(8));
    let counts: Vec<(usize, u32)> = (0..sizes.trips as usize).map(|t| 6 * sizes.times as usize + 8 * t + 1).map(|i| (i, x.tables[i])).collect();
    for k in [0, 2, 4, 6] {
        scatter(r, x.words(k), percent, few);
    }
    if r.yes(90) {
        counts.iter().for_each(|(i, n)| x.tables[*i] = *n);
    }
    x.patterns.iter_mut().for_each(|b| *b = r.next() as u8);
    let half = r.below(20) as usize;
    let mut a = areas(r, &sizes, half);
    if r.yes(15) {
        for k in [0, 2, 4, 6] {
            let n = r.below(90) as usize;
            x.words(k).resize(n, few);
        }
        damage_area(r, &mut a);
    }
    if r.yes(8) {
        x.sizes.numbers()[r.below(15) as usize] = r.any();
    }
    (x, a)
}
