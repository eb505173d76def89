// Cases in the words of the definitions.
fn list<T>(v: impl IntoIterator<Item = T>, f: impl Fn(T) -> String) -> String {
    let mut s = String::from("(");
    for x in v {
        s += &f(x);
        s += " ∷ ";
    }
    s + "[])"
}
fn number(x: &u32) -> String {
    x.to_string()
}
fn yes(b: bool) -> &'static str {
    if b { "true" } else { "false" }
}
fn float(d: f64) -> String {
    format!("(fin false {} (pos 0))", d as u32)
}
fn triples(v: &[(u32, u32, u32)]) -> String {
    list(v, |x| format!("({}, {}, {})", x.0, x.1, x.2))
}
fn departures(v: &[Vec<(u32, u32)>]) -> String {
    list(v, |d| list(d, |x| format!("leaves {} {}", x.0, x.1)))
}
fn cell_set(p: &Cells) -> String {
    let reserved = 8 * ((p.0 + 63) / 64);
    let mut bytes = [0u32; 64];
    p.1.iter().filter(|c| **c / 8 < reserved).for_each(|c| bytes[(*c / 8) as usize] |= 1 << (c % 8));
    format!("record {{ bytes = {}; reserved = {} }}", list(&bytes, number), reserved)
}
fn transfers(v: &[Vec<Vec<TripTransferEntry>>]) -> String {
    list(v, |t| list(t, |o| list(o, |x| format!("record {{ target = {}; offset = {}; time = {}; pattern = {} }}", x.target_trip, x.target_board_off, x.min_transfer_s, x.flag_pattern))))
}
fn settings(s: &Settings) -> String {
    let n = s.numbers();
    format!("record {{ transfer_time = {}; line_scan = {}; candidate_slack = {}; margin_cap = {} }}", n[0], n[1], n[2], n[3])
}

fn print_tables(n: u64, c: &Case) {
    let e = &c.e;
    let mut w = 0;
    let mut windows = vec![];
    let mut rows = vec![];
    for (t, trip) in e.trips.iter().enumerate() {
        let mode = MODES.iter().position(|m| *m == trip.mode).unwrap();
        let (active, excluded) = (e.active[t] as u32, c.q.excluded_trip_ids.contains(&trip.id) as u32);
        rows.push(format!("record {{ first = {}; count = {}; mode = {mode}; wheelchair = {}; window = {w}; windows = {}; active = {active}; excluded = {excluded} }}", trip.stop_time_start, trip.stop_time_len, trip.wheelchair, trip.frequency_windows.len()));
        w += trip.frequency_windows.len();
        windows.extend(trip.frequency_windows.iter().map(|x| format!("window {} {} {}", x.start_s, x.end_s, x.headway_s)));
    }
    println!("abbrev X{n} : Timetable\nX{n} = record {{ stops = {}; trips = {}; edges = {};", e.stops.len(), e.trips.len(), e.walk_edges.len());
    println!("  trip = λ t. get_or {} t (runs 0 0 0 0);", list(rows, |x| x));
    println!("  time = λ i. get_or {} i (calls 0 0 0 0);", list(&e.stop_times, |x| format!("record {{ stop = {}; arrival = {}; departure = {}; sequence = {}; pickup = {}; drop_off = {} }}", x.stop_idx, x.arrival_s, x.departure_s, x.stop_sequence, x.pickup_type, x.drop_off_type)));
    println!("  window = λ i. get_or {} i (window 0 0 0);", list(windows, |x| x));
    println!("  edge = λ k. get_or {} k (foot_edge 0 0 0 0);", list(e.walk_edges.iter().enumerate(), |(i, x)| format!("record {{ from = {}; to = {}; duration = {}; pathway = {}; pattern = {} }}", x.from_stop_idx, x.to_stop_idx, x.duration_s, x.pathway_mode.unwrap_or(0), e.arc_flag_pattern[i])));
    println!("  cell = λ s. get_or {} s 0 }}\n", list(&e.stop_partition, number));
    println!("abbrev T{n} : Tables\nT{n} = record {{ timetable = X{n}; distance = λ k. get_or {} k no_distance; lines = {}; line_of = λ t. get_or {} t 0;", list(&e.walk_edges, |x| float(x.distance_m)), e.line_trips.len(), list(&e.line_of_trip, number));
    println!("  line = λ l. let ts : List ℕ = get_or {} l [] in record {{ count = length ts; trip = λ p. get_or ts p 0 }};", list(&e.line_trips, |l| list(l, number)));
    println!("  departures = λ s. get_or {} s []; mark = λ s. get_or {} s 0;", departures(&e.stop_departures), list(&e.stop_has_freq, |b| (*b as u32).to_string()));
    println!("  transfers = λ t o. get_or (get_or {} t []) o [];", transfers(&e.trip_transfers));
    println!("  cells = {}; patterns = {}; pattern = λ p. get_or {} p (empty_set 0) }}\n", e.num_cells, c.patterns.len(), list(&c.patterns, cell_set));
    println!("abbrev Q{n} : Query\nQ{n} = record {{ start = {};", c.start);
    println!("  origins = {};", list(&c.origins, |o| format!("record {{ stop = {}; duration = {}; distance = {} }}", o.stop_idx, o.duration_s, float(o.distance_m))));
    println!("  egress = {}; modes = {}; wheelchair = {}; change = {}; wanted_rounds = {}; transfers = {};", list(&c.egress, |(k, v)| format!("({k}, {})", v.duration_s)), c.modes, yes(c.q.wheelchair), c.q.default_transfer_s, c.q.raptor_max_rounds, c.q.max_transfers);
    println!("  delays = record {{ delays = {}; delay = λ i. get_or {} i (record {{ trip = 0; delay = 0 }});", c.delays.len(), list(&c.delays, |d| format!("record {{ trip = {}; delay = {} }}", d.0, d.1 as u32)));
    println!("    stop_rows = {}; stop_row = λ j. get_or {} j (record {{ row = 0; sequence = 0; flags = 0; departure_delay = 0; arrival_delay = 0 }}) }};", c.stop_rows.len(), list(&c.stop_rows, |r| format!("record {{ row = {}; sequence = {}; flags = {}; departure_delay = {}; arrival_delay = {} }}", r[0], r[1], r[2], r[3], r[4])));
    println!("  flags_off = {}; settings = {} }}\n", yes(c.off), settings(&c.settings));
}

fn print_answer(n: u64, what: &str, tag: &str, c: &Case, g: &Given, scans: &[(u32, u32, u32)], queue: &[usize]) {
    let mut labels = vec!["Empty".to_string(); 13 * c.e.stops.len()];
    for (k, w, d) in &g.labels {
        labels[*k] = match w[0] {
            1 => format!("Access {} {} {} {}", w[1], w[2], w[3], float(*d)),
            2 => format!("Transit {} {} {} {} {} {} {}", w[1], w[2], w[3], w[4], w[5], w[6], w[7]),
            _ => format!("Walk {} {} {} {} {} {}", w[1], w[2], w[3], w[4], float(*d), w[5]),
        };
    }
    let (total, stop) = g.best.unwrap_or((u32::MAX, u32::MAX));
    let candidates: Vec<(u32, u32, u32)> = g.candidates.iter().map(|x| (x.0, x.1, x.2 as u32)).collect();
    println!("{tag}{n} : {what} T{n} Q{n} ≡ record {{ total = {total}; stop = {stop}; candidates = {}; labels = {}; scans = {}; queued = {} }}", triples(&candidates), list(labels, |x| x), triples(scans), list(queue, |x| x.to_string()));
    println!("unfolding UNFOLDED\n{tag}{n} = refl\n");
}

// the tables as the building definitions make them of the departures listed
fn print_building(n: u64, c: &Case) {
    let (ns, nt, nl) = (c.e.stops.len(), c.e.trips.len(), c.e.line_trips.len());
    let mut plain = c.e.trip_transfers.clone();
    plain.iter_mut().flatten().flatten().for_each(|x| x.flag_pattern = 0);
    println!("abbrev B{n} : Tables\nB{n} = built X{n} (λ s. get_or {} s []) {} []\n", departures(&c.listed), c.settings.transfer_time);
    println!("b{n} : ◌≡◌ {{A = List (List DepartureRow) × List ℕ × ℕ × List ℕ × List (List ℕ) × List (List (List Transfer))}}");
    println!("  (map B{n}.departures (upto {ns}), map B{n}.mark (upto {ns}), B{n}.lines, map B{n}.line_of (upto {nt}), map (λ l. map (B{n}.line l).trip (upto (B{n}.line l).count)) (upto {nl}), map (λ t. map (B{n}.transfers t) (upto (X{n}.trip t).count)) (upto {nt}))");
    println!("  ({}, {}, {nl}, {}, {}, {})", departures(&c.e.stop_departures), list(&c.e.stop_has_freq, |b| (*b as u32).to_string()), list(&c.e.line_of_trip, number), list(&c.e.line_trips, |l| list(l, number)), transfers(&plain));
    println!("unfolding UNFOLDED\nb{n} = refl\n");
}
