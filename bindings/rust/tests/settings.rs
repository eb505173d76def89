//! The settings of the house: refusal 14 from every call, its place among the questions, and rows under other settings.
mod common;
use common::{arrives, query_k, timetable_k, S};
use savoiky::{
    earliest_freq_board, max_rounds, service_second, walk_duration, Answer, CellBitSet, DelayAt, Delays, FrequencyWindow, Label,
    Labels, Origin, PathwayMode, Query, Refusal, Run, Settings, Stop, StopTime, Tables, Tally, Timetable, TripDelay,
    TripTransfer, Workspace,
};

fn code<T>(answer: Result<T, Refusal>) -> u32 {
    answer.map_or_else(|refusal| refusal.number(), |_| 0)
}

/// One setting one past its range, or far past it.
fn outside() -> [Settings; 9] {
    [
        Settings { transfer_time: 3_601, ..S },
        Settings { transfer_time: u32::MAX, ..S },
        Settings { line_scan: 0, ..S },
        Settings { line_scan: 4_097, ..S },
        Settings { line_scan: u32::MAX, ..S },
        Settings { candidate_slack: 21_601, ..S },
        Settings { candidate_slack: u32::MAX, ..S },
        Settings { margin_cap: 1_048_576, ..S },
        Settings { margin_cap: u32::MAX, ..S },
    ]
}

/// Every setting at an end of its range.
fn ends() -> [Settings; 2] {
    [
        Settings { transfer_time: 0, line_scan: 1, candidate_slack: 0, margin_cap: 0 },
        Settings { transfer_time: 3_600, line_scan: 4_096, candidate_slack: 21_600, margin_cap: 1_048_575 },
    ]
}

fn stored() -> [Label; 4] {
    [
        Label::Empty,
        Label::Access { stop_idx: 0, arrival_s: 2, walk_duration: 3, walk_distance: 4.5 },
        Label::Transit { arrival_s: 1, trip_idx: 2, board_stop: 0, board_off: 4, alight_off: 5, prev_round: 6, time_shift_s: 7 },
        Label::Walk { arrival_s: 1, from_stop: 0, to_stop: 0, duration_s: 4, distance_m: 5.5, prev_round: 6 },
    ]
}

fn leaf_codes(s: Settings) -> Vec<u32> {
    let t = &mut Tally::new();
    let set = CellBitSet::new(t, 0, S, 8).unwrap().set_bit(t, 0, S, 3).unwrap();
    let (delays, at) = (Delays::default(), DelayAt::default());
    let mut codes = vec![
        code(CellBitSet::new(t, 0, s, 8)),
        code(set.ensure_sized(t, 0, s, 65)),
        code(set.set_bit(t, 0, s, 4)),
        code(set.get_bit(t, 0, s, 3)),
        code(set.intersects(t, 0, s, &set)),
        code(set.union_with(t, 0, s, &set)),
        code(set.is_empty(t, 0, s)),
        code(walk_duration(t, 0, s, 30, PathwayMode::Stairs, true)),
        code(max_rounds(t, 0, s, 0, 3)),
        code(service_second(t, 0, s, 25, 10, 0)),
        code(earliest_freq_board(t, 0, s, &[FrequencyWindow { start_s: 600, end_s: 1200, headway_s: 300 }], 600, 660, 661)),
        code(delays.margin(t, 0, s, 3)),
        code(delays.delay_at(t, 0, s, 3, 2, 1)),
        code(at.effective_departure(t, 0, s, 200)),
        code(at.effective_arrival(t, 0, s, 200, 50)),
        code(at.is_skipped(t, 0, s)),
        code(Labels::new(t, 0, s, 1)),
        code(Labels::new(t, 0, S, 1).unwrap().load(t, 0, s, 0, 0)),
    ];
    codes.extend(stored().map(|label| code(Labels::new(t, 0, S, 1).unwrap().store(t, 0, s, 0, 0, label))));
    codes
}

fn timetable_codes(s: Settings) -> Vec<u32> {
    let t = &mut Tally::new();
    let k = timetable_k();
    let (lines, tables) = (k.compute_line_groups(t, 0, S).unwrap(), k.build(t, 0, S).unwrap());
    vec![
        code(k.compute_line_groups(t, 0, s)),
        code(k.sort_stop_departures(t, 0, s)),
        code(k.line_layout(t, 0, s, &lines)),
        code(k.compute_trip_transfers(t, 0, s, &lines, 16)),
        code(k.build(t, 0, s)),
        code(tables.query(t, 0, s, &query_k(90, 120), &mut Workspace::new())),
        code(tables.run_tbr(t, 0, s, &query_k(90, 120), &mut Workspace::new())),
    ]
}

#[test]
fn defaults() {
    assert_eq!(S, Settings { transfer_time: 120, line_scan: 64, candidate_slack: 3_600, margin_cap: 21_600 });
    assert_eq!(Settings::default(), S);
}

#[test]
fn question_14() {
    let t = &mut Tally::new();
    for s in outside() {
        assert!(leaf_codes(s).into_iter().chain(timetable_codes(s)).all(|code| code == 14), "{s:?}");
        let refusal = timetable_k().build(t, 0, s).unwrap_err();
        assert_eq!(refusal.question(), "Is every setting in its range?");
        assert_eq!(refusal.to_string(), "refused by question 14: Is every setting in its range?");
    }
    for s in ends() {
        assert!(leaf_codes(s).into_iter().chain(timetable_codes(s)).all(|code| code == 0), "{s:?}");
    }
}

#[test]
fn after_1() {
    let t = &mut Tally::new();
    let mut many = timetable_k();
    many.stops.resize(4_097, Stop::default());
    let delays = Delays { rows: vec![TripDelay::default(); 4_097], stop_rows: vec![] };
    let tables = timetable_k().build(t, 0, S).unwrap();
    let crowd = Query { origins: vec![Origin::default(); 65], ..query_k(90, 120) };
    for s in outside() {
        assert_eq!(code(CellBitSet::new(t, 0, s, 513)), 1);
        assert_eq!(code(CellBitSet::new(t, 0, S, 8).unwrap().ensure_sized(t, 0, s, 513)), 1);
        assert_eq!(code(Labels::new(t, 0, s, 4_097)), 1);
        assert_eq!(code(earliest_freq_board(t, 0, s, &[FrequencyWindow::default(); 65_537], 0, 0, 0)), 1);
        assert_eq!((code(delays.margin(t, 0, s, 3)), code(delays.delay_at(t, 0, s, 3, 0, 0))), (1, 1));
        assert_eq!(
            (code(many.compute_line_groups(t, 0, s)), code(many.sort_stop_departures(t, 0, s)), code(many.build(t, 0, s))),
            (1, 1, 1)
        );
        assert_eq!(code(tables.query(t, 0, s, &crowd, &mut Workspace::new())), 1);
        assert_eq!(code(tables.run_tbr(t, 0, s, &crowd, &mut Workspace::new())), 1);
    }
}

#[test]
fn before_2_and_the_others() {
    let t = &mut Tally::new();
    let k = timetable_k();
    let lines = k.compute_line_groups(t, 0, S).unwrap();
    let mut short = k.clone();
    short.departures.runs.pop();
    let mut built = k.build(t, 0, S).unwrap().built().clone();
    built.marks.pop();
    let (torn, flagged) = (Tables::new(&k, built), flagged(&k).build(t, 0, S).unwrap());
    for (s, answers) in outside().map(|s| (s, [14; 7])).into_iter().chain([(S, [2, 2, 3, 4, 5, 7, 8])]) {
        let mut unbound = k.clone();
        unbound.trips[1].stop_times.count = 0;
        let codes = [
            code(short.sort_stop_departures(t, 0, s)),
            code(torn.query(t, 0, s, &query_k(90, 120), &mut Workspace::new())),
            code(unbound.compute_line_groups(t, 0, s)),
            code(Labels::new(t, 0, S, 1).unwrap().load(t, 0, s, 1, 0)),
            code(service_second(t, 0, s, 48, 0, 0)),
            code(k.compute_trip_transfers(t, 0, s, &lines, 0)),
            code(flagged.run_tbr(t, 0, s, &query_k(90, 120), &mut Workspace::with_segments(0))),
        ];
        assert_eq!(codes, answers, "{s:?}");
    }
}

#[test]
fn as_it_came() {
    let t = &mut Tally::new();
    let [_, access, ..] = stored();
    let mut labels = Labels::new(t, 0, S, 1).unwrap();
    labels.store(t, 0, S, 0, 0, access).unwrap();
    let before = labels.clone();
    for s in outside() {
        assert!(stored().into_iter().all(|label| code(labels.store(t, 0, s, 0, 0, label)) == 14));
        assert_eq!(labels, before);
    }
    // the labels of a refused query are empty
    let tables = timetable_k().build(t, 0, S).unwrap();
    let mut w = Workspace::new();
    tables.query(t, 0, S, &query_k(90, 120), &mut w).unwrap();
    assert_ne!(w.labels().load(t, 0, S, 2, 2), Ok(Label::Empty));
    tables.query(t, 0, outside()[0], &query_k(90, 120), &mut w).unwrap_err();
    assert!((0..3).all(|stop| (0..13).all(|row| w.labels().load(t, 0, S, stop, row) == Ok(Label::Empty))));
}

/// With one cell and one pattern that holds it: arc flags that skip nothing.
fn flagged(timetable: &Timetable) -> Timetable {
    let t = &mut Tally::new();
    let all = CellBitSet::new(t, 0, S, 1).unwrap().set_bit(t, 0, S, 0).unwrap();
    Timetable { cells: 1, patterns: vec![all], ..timetable.clone() }
}

/// Timetable K's transfers built with this transfer time, all of them to trip 2 at its offset 0; the counts of each stop time.
fn transfers(transfer_time: u32) -> Vec<u32> {
    let t = &mut Tally::new();
    let tables = timetable_k().build(t, 0, Settings { transfer_time, ..S }).unwrap();
    let made = &tables.built().transfers;
    let row = TripTransfer { target_trip: 2, target_board_off: 0, min_transfer_s: transfer_time, flag_pattern: 0 };
    assert!(made.rows.iter().all(|r| *r == row));
    made.runs.iter().map(|r: &Run| r.count).collect()
}

#[test]
fn transfer_time() {
    // trip 0 reaches stop 1 at 200 and trip 1 at 260; trip 2 leaves at 320
    assert_eq!(transfers(0), [0, 1, 0, 0, 1, 0, 0, 0]);
    assert_eq!(transfers(120), [0, 1, 0, 0, 0, 0, 0, 0]);
    assert_eq!(transfers(121), [0; 8]);
    assert_eq!(transfers(3_600), [0; 8]);
}

#[test]
fn tables_of_another_transfer_time() {
    let t = &mut Tally::new();
    let slow = Settings { transfer_time: 121, ..S };
    let (by_t0, both) = (arrives(&[(405, 2, 1)]), arrives(&[(405, 2, 1), (385, 2, 2)]));
    let (tables, others) = (flagged(&timetable_k()).build(t, 0, S).unwrap(), flagged(&timetable_k()).build(t, 0, slow).unwrap());
    let mut w = Workspace::new();
    let q = query_k(90, 120);
    let off = Query { flags_off: true, ..q.clone() };
    for s in [S, slow] {
        // by transfers, so by those that were built
        assert_eq!(tables.run_tbr(t, 0, s, &q, &mut w), Ok(both.clone()));
        assert_eq!(others.run_tbr(t, 0, s, &q, &mut w), Ok(by_t0.clone()));
        // with flags put off, here by the switch and by what a board asks, it is the same
        for asked in [&tables, &others] {
            assert_eq!(asked.run_tbr(t, 0, s, &off, &mut w), Ok(both.clone()));
            assert_eq!(asked.query(t, 0, s, &q, &mut w), Ok(both.clone()));
        }
    }
}

#[test]
fn line_scan() {
    let t = &mut Tally::new();
    // trip 3 follows trip 2, which does not run; the change time is too long for a departure at stop 1
    let mut k = timetable_k();
    k.add_trip(&[StopTime::new(1, 330, 330), StopTime::new(2, 390, 390)]);
    k.trips[2].active = false;
    k.list_departures();
    let tables = flagged(&k).build(t, 0, S).unwrap();
    let mut asked =
        |line_scan| tables.run_tbr(t, 0, Settings { line_scan, ..S }, &query_k(90, 300), &mut Workspace::new()).unwrap();
    assert_eq!(asked(1), arrives(&[(405, 2, 1)]));
    assert_eq!(asked(2), arrives(&[(405, 2, 1), (395, 2, 2)]));
    assert_eq!(asked(4_096), asked(2));
}

#[test]
fn candidate_slack() {
    let t = &mut Tally::new();
    let tables = timetable_k().build(t, 0, S).unwrap();
    let mut asked = |candidate_slack| -> Answer {
        let s = Settings { candidate_slack, ..S };
        let answer = tables.query(t, 0, s, &query_k(90, 120), &mut Workspace::new()).unwrap();
        assert_eq!(tables.run_tbr(t, 0, s, &query_k(90, 120), &mut Workspace::new()), Ok(answer.clone()));
        answer
    };
    let (best, both) = (arrives(&[(385, 2, 2)]), arrives(&[(405, 2, 1), (385, 2, 2)]));
    assert_eq!([asked(0), asked(19), asked(20), asked(21_600)], [best.clone(), best, both.clone(), both]);
}

#[test]
fn margin_cap() {
    let t = &mut Tally::new();
    let rows = [(0, 5), (2, -30_000)].map(|(trip, delay_s)| TripDelay { trip: Some(trip), delay_s }).to_vec();
    let delays = Delays { rows: rows.clone(), stop_rows: vec![] };
    let mut margin = |margin_cap| delays.margin(t, 0, Settings { margin_cap, ..S }, 3).unwrap();
    assert_eq!([margin(0), margin(100), margin(21_600), margin(30_001)], [0, 100, 21_600, 30_000]);
    // at stop 0 from 101 on: trip 0, scheduled at 100, leaves at 105, and is seen where the margin is at least a second
    let tables = timetable_k().build(t, 0, S).unwrap();
    let late = Query { delays: Delays { rows: rows[..1].to_vec(), stop_rows: vec![] }, ..query_k(91, 120) };
    let mut asked = |margin_cap| tables.query(t, 0, Settings { margin_cap, ..S }, &late, &mut Workspace::new()).unwrap();
    assert_eq!(asked(0), arrives(&[(465, 2, 1)]));
    assert_eq!([asked(1), asked(5), asked(1_048_575)], [(); 3].map(|()| arrives(&[(410, 2, 1)])));
}
