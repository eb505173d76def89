// What the answered searches have met: how often each thing of document 01's domain was there. A run that never met one of them shows too little.

const THINGS: [&str; 47] = [
    "arc flags put off by the switch", "arc flags in use that skip some row", "arc flags on that skip nothing", "segments queued", "a queue half that is just full",
    "a frequency trip ridden", "a mark at a stop without windows", "windows at a stop without mark", "a negative shift", "a window of headway 0 or that ends before it begins",
    "a delay row", "a skipped stop", "an unknown trip", "unknown trips repeated", "a delay past the margin's cap", "a delay near the limit",
    "hand-made lines", "a line of 64 entries or more", "a departure listed twice", "hand-made transfers", "a transfer to no trip", "a departure at a last stop",
    "an origin repeated", "shared stop times", "a trip of one stop time", "wheelchair query with stairs or escalator", "a trip no wheelchair can take", "modes asked that bar a trip",
    "pickup or drop-off 2 or 3", "barred pickup or drop-off", "an excluded trip", "an inactive trip", "two egress stops of one total", "a time at the limit", "a duration at the limit",
    "a distance that is a NaN in a label", "rows in no run, or runs that share rows or fall", "answered after damage or with hostile words",
    "settings other than the Rust's own numbers", "transfers all of one time that is not 120", "of a sample, line_scan decides what is left",
    "of a sample, candidate_slack decides", "of a sample, margin_cap decides",
    "flags that skip some row, over 64 cells", "flags that skip some row, a pattern of the target's cell alone",
    "flags that skip some row, a pattern of one other cell", "flags that skip some row, a pattern of cells past the target's words",
];

// of so many answered searches one is asked of the Rust again, with one of the three numbers of a query put back to the Rust's own
const SAMPLE: u64 = 8;

// groups of counts: name, the least value, how many values, the last one meaning it or more
const GROUPS: [(&str, u32, usize); 6] = [
    ("rounds", 4, 9), ("wanted rounds", 0, 14), ("transfers", 0, 12), ("row of a label", 0, 13), ("row of the best total", 0, 13),
    ("word of a target's cell where flags skip some row", 0, 8),
];

struct Met {
    answered: u64,
    things: [u64; 47],
    groups: [[u64; 14]; 6],
    // of each of CELL_COUNTS (cell_searches.rs), where flags skip some row
    cells: [u64; CELL_COUNTS.len()],
}

impl Default for Met {
    fn default() -> Met {
        Met { answered: 0, things: [0; 47], groups: [[0; 14]; 6], cells: [0; CELL_COUNTS.len()] }
    }
}

fn any_label(ran: &Ran, test: impl Fn(&[u32; 8], f64) -> bool) -> bool {
    ran.0.labels.iter().any(|l| test(&l.1, l.2))
}

// of flags and the segment queue
fn flags_met(c: &Case, a: &Areas, ran: &Ran, flagged: bool, idle: bool) -> [bool; 5] {
    let most = ran.2.iter().max().copied().unwrap_or(0);
    [c.off && !c.e.flag_patterns.is_empty(), flagged && !idle, idle, most > 0, flagged && most > 0 && most == a.queue_a.len() / 4]
}

// of frequency trips
fn windows_met(c: &Case, ran: &Ran) -> [bool; 5] {
    let windows = |t: u32| !c.e.trips[t as usize].frequency_windows.is_empty();
    let marked = |mark: bool| {
        c.e.stop_departures.iter().zip(&c.e.stop_has_freq).any(|(d, m)| !d.is_empty() && *m == mark && d.iter().any(|x| windows(x.0)) != mark)
    };
    let ridden = any_label(ran, |w, _| w[0] == 2 && windows(w[2]));
    let negative = any_label(ran, |w, _| w[0] == 2 && (w[7] as i32) < 0);
    let odd = c.e.trips.iter().flat_map(|t| &t.frequency_windows).any(|w| w.headway_s == 0 || w.end_s < w.start_s);
    [ridden, marked(true), marked(false), negative, odd]
}

// of delays
fn delays_met(c: &Case) -> [bool; 6] {
    let unknown = c.delays.iter().filter(|d| d.0 == UNKNOWN).count();
    let sizes = || c.delays.iter().map(|d| d.1.unsigned_abs()).chain(c.stop_rows.iter().flat_map(|s| [s[3], s[4]]).map(|d| (d as i32).unsigned_abs()));
    let skipped = c.stop_rows.iter().any(|s| s[2] & 4 != 0);
    [!c.delays.is_empty(), skipped, unknown > 0, unknown > 1, sizes().any(|d| d > c.settings.margin_cap), sizes().any(|d| d > LIMIT - 1000)]
}

// of tables that no building call writes
fn hand_made_met(c: &Case) -> [bool; 6] {
    let e = &c.e;
    let mut times = vec![0; e.trips.len()];
    e.line_trips.iter().flatten().for_each(|t| times[*t as usize] += 1);
    let strange = e.line_trips.iter().enumerate().any(|(l, ts)| ts.iter().any(|t| e.line_of_trip[*t as usize] != l as u32));
    let twice = e.stop_departures.iter().any(|d| (1..d.len()).any(|i| d[..i].contains(&d[i])));
    let moves = || e.trip_transfers.iter().flatten().flatten();
    // built ones all have one time
    let time = moves().next().map(|x| x.min_transfer_s);
    let last = e.stop_departures.iter().flatten().any(|d| d.1 + 1 == e.trips[d.0 as usize].stop_time_len);
    let (long, other) = (e.line_trips.iter().any(|l| l.len() > 63), moves().any(|x| Some(x.min_transfer_s) != time));
    [strange || times.iter().any(|n| *n != 1), long, twice, other, moves().any(|x| x.target_trip as usize >= e.trips.len()), last]
}

// of trips and what a query permits
fn trips_met(c: &Case, excluded: bool) -> [bool; 10] {
    let e = &c.e;
    let mut runs: Vec<(u32, u32)> = e.trips.iter().map(|t| (t.stop_time_start, t.stop_time_len)).collect();
    runs.sort();
    let mode = |t: &GlobalTrip| MODES.iter().position(|m| *m == t.mode).unwrap();
    let code = |test: fn(u8) -> bool| e.stop_times.iter().any(|s| test(s.pickup_type) || test(s.drop_off_type));
    [
        (1..c.origins.len()).any(|i| c.origins[..i].iter().any(|o| o.stop_idx == c.origins[i].stop_idx)),
        runs.windows(2).any(|p| p[0].0 + p[0].1 > p[1].0),
        runs.iter().any(|p| p.1 == 1),
        c.q.wheelchair && e.walk_edges.iter().any(|w| matches!(w.pathway_mode, Some(2) | Some(4))),
        c.q.wheelchair && e.trips.iter().any(|t| t.wheelchair == 2),
        c.modes != 0 && e.trips.iter().any(|t| c.modes >> mode(t) & 1 == 0),
        code(|k| k > 1), code(|k| k == 1), excluded, e.active.contains(&false),
    ]
}

// of numbers at their ends
fn ends_met(c: &Case, x: &Lent, ran: &Ran, damaged: bool) -> [bool; 6] {
    let e = &c.e;
    let total = |s: &u32| reached(&ran.0.labels, *s).map(|v| v + c.egress[s].duration_s);
    let best = ran.0.best.map(|b| b.0);
    let durations = e.walk_edges.iter().map(|w| w.duration_s).chain(c.origins.iter().map(|o| o.duration_s)).chain(c.egress.values().map(|a| a.duration_s));
    [
        best.is_some() && c.egress.keys().filter(|s| total(s) == best).count() > 1,
        c.start == LIMIT || e.stop_times.iter().any(|t| t.arrival_s == LIMIT || t.departure_s == LIMIT),
        durations.into_iter().any(|d| d == LIMIT),
        any_label(ran, |_, d| d.is_nan()),
        x.odd_runs(),
        damaged,
    ]
}

// of the settings: the last three where it is one of the sample
fn settings_met(c: &Case, ran: &Ran, sample: bool) -> [bool; 5] {
    let times = || c.e.trip_transfers.iter().flatten().flatten().map(|x| x.min_transfer_s);
    let one_time = times().next().is_some_and(|t| t != 120 && times().all(|u| u == t));
    let decides = |k: usize| {
        let own = OWN.numbers()[k];
        let other = || Case { settings: c.settings.with(k, own), ..c.clone() };
        sample && c.settings.numbers()[k] != own && !same_ran(ran, &run(&other(), c.off))
    };
    [c.settings != OWN, one_time, decides(1), decides(2), decides(3)]
}

impl Lent {
    fn odd_runs(&self) -> bool {
        let s = self.sections();
        let odd = |runs: &[u32], rows: usize| {
            let falls = runs.chunks(2).zip(runs.chunks(2).skip(1)).any(|(a, b)| a[0] + a[1] > b[0]);
            falls || runs.chunks(2).map(|c| c[1] as usize).sum::<usize>() != rows
        };
        odd(s.line_runs, s.entries.len()) || odd(s.stop_runs, s.departures.len() / 2) || odd(s.transfer_runs, self.transfer_rows())
    }
}

impl Met {
    fn group(&mut self, g: usize, value: u32) {
        let (_, least, n) = GROUPS[g];
        self.groups[g][(value.saturating_sub(least) as usize).min(n - 1)] += 1;
    }

    // an answered search: the case, as it was lent, the reference's answer, what the call must leave, whether the flags are on and skip nothing,
    // whether it was damaged
    fn add(&mut self, c: &Case, x: &Lent, a: &Areas, ran: &Ran, want: &Outcome, idle: bool, damaged: bool) {
        if want.reply.code != 0 {
            return;
        }
        self.answered += 1;
        let (sample, skipping) = (self.answered % SAMPLE == 0, want.flagged && !idle);
        let all = [
            &flags_met(c, a, ran, want.flagged, idle)[..], &windows_met(c, ran), &delays_met(c), &hand_made_met(c),
            &trips_met(c, !c.q.excluded_trip_ids.is_empty()), &ends_met(c, x, ran, damaged),
            &settings_met(c, ran, sample), &cells_met(c, skipping),
        ];
        self.things.iter_mut().zip(all.concat()).for_each(|(n, yes)| *n += yes as u64);
        self.group(0, routing::tbr::rounds(&c.q) as u32);
        self.group(1, c.q.raptor_max_rounds);
        self.group(2, c.q.max_transfers);
        let mut rows = [false; 13];
        ran.0.labels.iter().for_each(|l| rows[l.0 % 13] = true);
        (0..13).filter(|r| rows[*r]).for_each(|r| self.group(3, r as u32));
        ran.0.candidates.last().into_iter().for_each(|k| self.group(4, k.2 as u32));
        if skipping {
            target_cells(c).words().iter().enumerate().filter(|w| *w.1 != 0).for_each(|w| self.group(5, w.0 as u32));
            CELL_COUNTS.iter().zip(&mut self.cells).for_each(|(cells, n)| *n += (*cells == c.e.num_cells) as u64);
        }
    }

    fn join(&mut self, other: &Met) {
        self.answered += other.answered;
        self.things.iter_mut().zip(other.things).for_each(|(a, b)| *a += b);
        self.groups.iter_mut().flatten().zip(other.groups.iter().flatten()).for_each(|(a, b)| *a += b);
        self.cells.iter_mut().zip(other.cells).for_each(|(a, b)| *a += b);
    }

    fn missing(&self) -> Vec<String> {
        let things = THINGS.iter().zip(self.things).filter(|(_, n)| *n == 0).map(|(name, _)| name.to_string());
        let groups = GROUPS.iter().zip(self.groups).flat_map(|((name, least, n), g)| {
            (0..*n).filter(move |k| g[*k] == 0).map(move |k| format!("{name} {}", least + k as u32))
        });
        let cells = CELL_COUNTS.iter().zip(self.cells).filter(|(_, n)| *n == 0).map(|(k, _)| format!("{k} cells where flags skip some row"));
        things.chain(groups).chain(cells).collect()
    }

    fn print(&self) {
        println!("met in answered searches:");
        THINGS.iter().zip(self.things).for_each(|(name, n)| println!("  {name}: {n}"));
        for ((name, least, n), g) in GROUPS.iter().zip(self.groups) {
            println!("  {name}, {least} to {}: {:?}", *least as usize + n - 1, &g[..*n]);
        }
        println!("  cells where flags skip some row, {CELL_COUNTS:?}: {:?}", self.cells);
        self.missing().iter().for_each(|name| println!("  never met: {name}"));
    }
}
