// Stored chains, for crates/replay: a timetable put to the building calls, and a plain day's query on what they wrote. All have one shape: 3 stops, 5
// trips of 3 stop times in two lines, 15 stop times, a window that no trip has, 3 walk edges, 10 listed departures; 3 origins, 2 egress stops. A
// line, of kind 13, after the screen and the settings, which all four calls have:
//   the timetable as the building calls are lent it (151), the stops' runs (6), the caller's list (20); what the calls for lines, departures and
//   transfers must answer (3 codes); the timetable (151) and the query (17) as `query` is lent them, distances of edges and origins (6).
//   Then, where all three answer 0, what `query` must answer, as in a line of kind 12; where one does not, the words of each trip's line, line
//   runs (4), entries, stops' runs, departures, marks and transfer runs after the calls (73). What is lent to be written holds 7 in every word.
// The transfers are made of the caller's list as it came. The answers are the Rust's, on tables that the Rust built; that each is what demand 3 asks,
// and its total the earliest of all journeys, is tried here.

// of nine chains in a row, the rides of the best total; 7 is no way, 6 a refusal at building for the order of walk edges, 14 one for a setting
const RIDES: [u32; 9] = [1, 2, 1, 2, 1, 0, 7, 6, 14];

fn rides(o: &Outcome) -> u32 {
    if o.reply.total == u32::MAX { 7 } else { o.areas.candidates[3 * o.reply.candidates as usize - 1] }
}

// 3 walk edges in order, or, where a refusal is wanted, not
fn three_edges(r: &mut Random, falling: bool) -> Vec<[u32; 5]> {
    let mut edges: Vec<[u32; 5]> = (0..3).map(|_| [r.below(3), r.below(3), 10 * r.below(9), [0, 0, 2, 3][r.below(4) as usize], 0]).collect();
    edges.sort_by_key(|e| e[0]);
    if falling {
        (edges[0][0], edges[2][0]) = (1 + r.below(2), 0);
    }
    edges
}

// trips of two shapes, each of them ridden, and the caller's list: of each trip the first two departures, in any order
fn fixed_trips(r: &mut Random) -> StaticEpoch {
    let mut e = StaticEpoch { stops: vec![0, 1, 2], stop_partition: vec![0, 1, 2], ..StaticEpoch::default() };
    let shapes = [0, 1].map(|_| [r.below(3), r.below(3), r.below(3)]);
    let mut listed = vec![vec![]; 3];
    for t in 0..5 {
        let mut time = 50 + 30 * r.below(12);
        for (o, s) in shapes[if t < 2 { t } else { r.below(2) as usize }].iter().enumerate() {
            let codes = (if r.yes(8) { r.below(4) as u8 } else { 0 }, if r.yes(8) { r.below(4) as u8 } else { 0 });
            e.stop_times.push(at_stop(*s, time, time + 10 * r.below(3), o as u32, codes));
            time += 30 + 20 * r.below(7);
        }
        enter(r, &mut e, &mut vec![vec![]; 3], false, &SMALL, (3 * t as u32, 3));
        (0..2).for_each(|o| listed[e.stop_times[3 * t + o].stop_idx as usize].push((t as u32, o as u32)));
    }
    shuffle(r, &mut listed);
    rising_times(&mut e);
    e.stop_departures = listed;
    e
}

// such a day, its lists in `listed` as the caller has them and in the epoch as the Rust sorts them
fn fixed_day(r: &mut Random) -> Case {
    let mut e = fixed_trips(r);
    e.walk_adj = vec![vec![]; 3];
    for (i, [from_stop_idx, to_stop_idx, duration_s, mode, _]) in three_edges(r, false).into_iter().enumerate() {
        let pathway_mode = if mode == 0 { None } else { Some(mode as u8) };
        e.walk_adj[from_stop_idx as usize].push(i);
        e.walk_edges.push(WalkEdge { from_stop_idx, to_stop_idx, duration_s, distance_m: r.below(100) as f64, pathway_mode });
    }
    e.arc_flag_pattern = vec![0; 3];
    let (listed, settings) = (e.stop_departures.clone(), r.settings());
    build_all(&mut e, settings);
    let mut c = Case { settings, listed, ..unasked(e) };
    (c.q, c.modes) = wishes(r, &c.e, &SMALL);
    let at = r.below(3);
    c.origins = (0..3).map(|_| access(if r.yes(60) { at } else { r.below(3) }, 10 * r.below(9), r.below(100) as f64)).collect();
    let unreached = r.below(3);
    c.egress = (0..3).filter(|s| *s != unreached).map(|s| (s, access(s, 10 * r.below(30), 0.0))).collect();
    c.start = 30 * r.below(10);
    c
}

// a window that no trip has stands after the trips
fn with_window(tables: &mut Vec<u32>) {
    tables.splice(130..130, [100, 500, 50]);
}

// the timetable as the building calls are lent it: other bytes, walk edges and cells
fn building_tables(r: &mut Random, c: &Case, falling: bool) -> Vec<u32> {
    let mut tables = table_words(c);
    with_window(&mut tables);
    tables[90..130].chunks_mut(8).for_each(|trip| (trip[6], trip[7]) = (r.below(2), r.below(2)));
    tables[133..148].copy_from_slice(&three_edges(r, falling).concat());
    tables[148..].iter_mut().for_each(|cell| *cell = r.below(9));
    tables
}

// what the building calls are lent, one after the other, and what they must leave of it
fn building_outcome(r: &mut Random, c: &Case, falling: bool) -> (Timetable, Timetable, [u32; 3]) {
    let (runs, rows) = runs_of(r, &c.listed, &[]);
    let x = Timetable {
        settings: c.settings, counts: [3, 5, 15, 1, 3], tables: building_tables(r, c, falling), departures: 10, runs,
        rows: rows.iter().flat_map(|d| [d.0, d.1]).collect(),
        marks: vec![7; 3], line_of: vec![7; 5], made_runs: vec![7; 10], made_entries: vec![7; 5], work: vec![7; 10], other: vec![7; 10],
        line_work: vec![7; 5], line_other: vec![7; 5], area: vec![7; 96], transfer_runs: vec![7; 30], ..Timetable::default()
    };
    let (lines, mut y) = lines_outcome(&x);
    (y.line_count, y.lines_of) = (lines.value, y.line_of.clone());
    let (moved, made) = transfers_outcome(&y);
    let (sorted, last) = sorting_outcome(&made);
    (x, last, [lines.code, sorted, moved.code])
}

// a line for this screen: its settings, its words, the codes of its calls
fn chain_words(r: &mut Random, wanted: u32, screen: u32) -> Option<(Settings, Vec<u32>, Vec<u32>)> {
    let mut c = fixed_day(r);
    if wanted == 14 {
        c.settings = r.settings_outside();
    }
    let (x, left, codes) = building_outcome(r, &c, wanted == 6);
    let mut asked = lend(r, &c, false);
    with_window(&mut asked.tables);
    asked.sizes.windows = 1;
    let mut a = areas(r, &asked.sizes, 8);
    sevens(&mut a);
    let o = outcome(Call::Query, &asked, &a);
    if !(asked.sizes.lines == 2 && walks_complete(&c) && schedule_rises(&c.e) && (wanted == 6 || wanted == 14 || rides(&o) == wanted)) {
        return None;
    }
    // what the calls must write is what the query is asked on
    let right = || left.area[..asked.transfers.len()] == asked.transfers && by_brute_force(&c, &o);
    assert!(codes != [0; 3] || built_words(&left) == asked.built && right());
    let (codes, left) = for_screen(screen, ([15; 3], &x), (codes, &left));
    let mut w = [&x.tables[..], &x.runs, &x.rows, &codes, &asked.tables, &asked.query].concat();
    w.extend(asked.distances.iter().map(|d| whole(*d)));
    if codes != [0; 3] {
        w.extend(built_words(left));
        return Some((c.settings, w, codes.to_vec()));
    }
    w.extend(outcome_words(&o));
    Some((c.settings, w, [&codes[..], &[o.reply.code]].concat()))
}

// each trip's line, line runs, entries, stops' runs, departures, marks and transfer runs
fn built_words(t: &Timetable) -> Vec<u32> {
    [&t.line_of[..], &t.made_runs[..4], &t.made_entries, &t.runs, &t.rows, &t.marks, &t.transfer_runs].concat()
}

// is this what demand 3 asks of the timetable and the caller's list, and the total the earliest of all journeys?
fn by_brute_force(c: &Case, o: &Outcome) -> bool {
    let scans = run(c, switch(Call::Query, c)).1;
    let mut c = c.clone();
    c.e.stop_departures = c.listed.clone();
    journeys(&c).into_iter().min() == Some(o.reply.total) && demand_3(&c, &scans, &o.reply, &o.areas.candidates)
}

fn stored_chains(r: &mut Random, rows: u32, s: &mut Screens) {
    for i in 0..rows {
        let screen = s.any();
        let (settings, words, codes) = std::iter::repeat_with(|| chain_words(r, RIDES[i as usize % 9], screen)).flatten().next().unwrap();
        line(s, 13, screen, settings, &words, &codes);
    }
}
