//! Refusals 1 to 8 through the crate, with their texts (14: settings.rs, 15: tally.rs); bad input of other kinds, which must not
//! panic.
mod common;
use common::{query_k, timetable_k, S};
use savoiky::{
    earliest_freq_board, service_second, walk_duration, Built, CellBitSet, DelayAt, Delays, Departures, Egress, FrequencyWindow,
    Label, Labels, Origin, PathwayMode, Query, Refusal, Run, Stop, StopDelay, StopTime, Tables, Tally, Timetable, TripDelay,
    WalkEdge, Workspace,
};

/// The number and the text.
fn refused<T: std::fmt::Debug>(answer: Result<T, Refusal>) -> (u32, String) {
    let refusal = answer.unwrap_err();
    assert_eq!(refusal.to_string(), format!("refused by question {}: {}", refusal.number(), refusal.question()));
    let error: Box<dyn std::error::Error> = Box::new(refusal);
    (refusal.number(), error.to_string())
}

fn number<T: std::fmt::Debug>(answer: Result<T, Refusal>) -> u32 {
    refused(answer).0
}

/// A query that is put to Timetable K after a change, by both calls.
fn of_k(change: impl Fn(&mut Query)) -> u32 {
    let t = &mut Tally::new();
    let tables = timetable_k().build(t, 0, S).unwrap();
    let mut q = query_k(90, 120);
    change(&mut q);
    let code = number(tables.query(t, 0, S, &q, &mut Workspace::new()));
    assert_eq!(number(tables.run_tbr(t, 0, S, &q, &mut Workspace::new())), code);
    code
}

/// Timetable K with what was built of it changed by hand, asked.
fn by_hand(change: impl Fn(&mut Built)) -> u32 {
    let t = &mut Tally::new();
    let k = timetable_k();
    let mut built = k.build(t, 0, S).unwrap().built().clone();
    change(&mut built);
    number(Tables::new(&k, built).query(t, 0, S, &query_k(90, 120), &mut Workspace::new()))
}

#[test]
fn question_1() {
    let t = &mut Tally::new();
    let mut many = timetable_k();
    many.stops.resize(4097, Stop::default());
    let text = "refused by question 1: Are all counts within the limits?";
    assert_eq!(refused(many.build(t, 0, S)), (1, text.to_string()));
    assert_eq!(of_k(|q| q.origins = vec![Origin::default(); 65]), 1);
    assert_eq!(of_k(|q| q.egress = (0..65).map(|stop_idx| Egress { stop_idx, duration_s: 0 }).collect()), 1);
    assert_eq!(number(CellBitSet::new(t, 0, S, 513)), 1);
    assert_eq!(number(CellBitSet::new(t, 0, S, 8).unwrap().ensure_sized(t, 0, S, 513)), 1);
    assert_eq!(number(Labels::new(t, 0, S, 4097)), 1);
    assert_eq!(number(Labels::new(t, 0, S, usize::MAX)), 1);
    assert_eq!(number(earliest_freq_board(t, 0, S, &[FrequencyWindow::default(); 65_537], 0, 0, 0)), 1);
    let delays = Delays { rows: vec![TripDelay::default(); 4097], stop_rows: vec![] };
    assert_eq!(number(delays.margin(t, 0, S, 3)), 1);
}

#[test]
fn question_1_by_cells() {
    let t = &mut Tally::new();
    let mut k = timetable_k();
    k.cells = 513;
    let tables = k.build(t, 0, S).unwrap();
    assert_eq!(number(tables.query(t, 0, S, &query_k(90, 120), &mut Workspace::new())), 1);
}

#[test]
fn question_2() {
    let t = &mut Tally::new();
    let k = timetable_k();
    let mut short = k.clone();
    short.departures.runs.pop();
    let text = "refused by question 2: Is every lent slice exactly as long as its counts say?";
    assert_eq!(refused(short.build(t, 0, S)), (2, text.to_string()));
    assert_eq!(by_hand(|b| b.marks.truncate(2)), 2);
    assert_eq!(by_hand(|b| b.transfers.runs.clear()), 2);
    // two wrong lengths that make a right sum
    assert_eq!(by_hand(|b| (b.marks.pop(), b.lines.of_trip.push(0)).1), 2);
    let nothing = Tables::new(&Timetable::default(), Built { marks: vec![false], ..Built::default() });
    assert_eq!(number(nothing.query(t, 0, S, &Query::default(), &mut Workspace::new())), 2);
}

#[test]
fn question_3() {
    let t = &mut Tally::new();
    let mut k = timetable_k();
    let text = "refused by question 3: Has every trip a stop time, and do all runs lie in their tables?";
    k.trips[1].stop_times.count = 0;
    assert_eq!(refused(k.build(t, 0, S)), (3, text.to_string()));
    k.trips[1].stop_times = Run { first: u32::MAX, count: u32::MAX };
    assert_eq!(number(k.build(t, 0, S)), 3);
    let lines = timetable_k().compute_line_groups(t, 0, S).unwrap();
    assert_eq!(number(k.compute_trip_transfers(t, 0, S, &lines, 16)), 3);
    k.list_departures();
    assert_eq!(by_hand(|b| b.transfers.runs[0] = Run { first: 1, count: 1 }), 3);
    assert_eq!(by_hand(|b| b.lines.runs[0].count = 4), 3);
}

#[test]
fn question_4() {
    let t = &mut Tally::new();
    let mut k = timetable_k();
    k.stop_times[0].stop_idx = 3;
    let text = "refused by question 4: Is every stop, trip, line and delay-row number below its count, and each departure's offset below its \
        trip's count, with that stop time at its stop?";
    assert_eq!(refused(k.build(t, 0, S)), (4, text.to_string()));
    k.list_departures();
    assert_eq!(number(k.build(t, 0, S)), 4);
    assert_eq!(of_k(|q| q.origins[0].stop_idx = 3), 4);
    assert_eq!(of_k(|q| q.delays.rows.push(TripDelay { trip: Some(3), delay_s: 0 })), 4);
    assert_eq!(of_k(|q| q.delays.stop_rows.push(StopDelay::default())), 4);
    assert_eq!(by_hand(|b| b.departures.rows[0].trip = 2), 4);
    assert_eq!(by_hand(|b| b.lines.of_trip[2] = 2), 4);
    assert_eq!(number(Delays::default().delay_at(t, 0, S, 3, 3, 0)), 4);
    assert_eq!(number(Labels::new(t, 0, S, 1).unwrap().store(t, 0, S, 1, 0, Label::Empty)), 4);
}

/// A label for the row of stop 0 whose stop numbers are these: the codes by row 12, of two stops, and by row 13.
fn label_codes(label: impl Fn(u32, u32) -> Label, from: u32, to: u32) -> [u32; 2] {
    let t = &mut Tally::new();
    let mut labels = Labels::new(t, 0, S, 2).unwrap();
    let codes = [12, 13].map(|row| labels.store(t, 0, S, 0, row, label(from, to)).map_or_else(|r| r.number(), |()| 0));
    assert_eq!(labels.load(t, 0, S, 0, 12), Ok(if codes[0] == 0 { label(from, to) } else { Label::Empty }));
    codes
}

#[test]
fn question_4_of_labels() {
    let access = |stop_idx, _| Label::Access { stop_idx, arrival_s: 1, walk_duration: 1, walk_distance: 1.0 };
    let ride = |board_stop, trip_idx| Label::Transit {
        arrival_s: 1,
        trip_idx,
        board_stop,
        board_off: 9,
        alight_off: 9,
        prev_round: 9,
        time_shift_s: -9,
    };
    let walk = |from_stop, to_stop| Label::Walk {
        arrival_s: u32::MAX,
        from_stop,
        to_stop,
        duration_s: u32::MAX,
        distance_m: 1.0,
        prev_round: 9,
    };
    for stop in [0, 1, 2, 3, u32::MAX] {
        let expected = if stop < 2 { [0, 5] } else { [4, 4] };
        assert_eq!(label_codes(access, stop, 9), expected);
        assert_eq!(label_codes(ride, stop, 9), expected);
        assert_eq!(label_codes(walk, stop, 1), expected);
        assert_eq!(label_codes(walk, 1, stop), expected);
    }
}

#[test]
fn question_5() {
    let t = &mut Tally::new();
    let mut k = timetable_k();
    k.stop_times[7].arrival_s = 1_048_576;
    let text = "refused by question 5: Is every time and code in its range?";
    assert_eq!(refused(k.build(t, 0, S)), (5, text.to_string()));
    assert_eq!(of_k(|q| q.start_s = 1_048_576), 5);
    assert_eq!(of_k(|q| q.delays.rows.push(TripDelay { trip: None, delay_s: i32::MIN })), 5);
    assert_eq!(number(service_second(t, 0, S, 0, 60, 0)), 5);
    assert_eq!(number(walk_duration(t, 0, S, 1_048_576, PathwayMode::Absent, false)), 5);
    assert_eq!(number(earliest_freq_board(t, 0, S, &[], 0, 0, 1_048_576)), 5);
    assert_eq!(number(DelayAt { trip_delay_s: -1_048_576, ..DelayAt::default() }.effective_departure(t, 0, S, 0)), 5);
    assert_eq!(number(Labels::new(t, 0, S, 1).unwrap().load(t, 0, S, 0, 13)), 5);
}

#[test]
fn question_6() {
    let t = &mut Tally::new();
    let text =
        "refused by question 6: Are walk edges, delay rows, stop rows, egress stops and, for a query, departures in order?";
    let tables = timetable_k().build(t, 0, S).unwrap();
    let mut q = query_k(90, 120);
    q.egress = vec![Egress { stop_idx: 2, duration_s: 5 }; 2];
    assert_eq!(refused(tables.query(t, 0, S, &q, &mut Workspace::new())), (6, text.to_string()));
    let unknown_first = [TripDelay { trip: None, delay_s: 0 }, TripDelay { trip: Some(0), delay_s: 0 }];
    assert_eq!(of_k(|q| q.delays.rows = unknown_first.to_vec()), 6);
    assert_eq!(by_hand(|b| b.departures.rows.swap(0, 1)), 6);
    let mut k = timetable_k();
    k.walk_edges = [1, 0].map(|from_stop_idx| WalkEdge { from_stop_idx, ..WalkEdge::default() }).to_vec();
    let built = timetable_k().build(t, 0, S).unwrap().built().clone();
    let lines = built.lines.clone();
    assert_eq!(number(Tables::new(&k, built).query(t, 0, S, &query_k(90, 120), &mut Workspace::new())), 6);
    // the building calls ask it of the walk edges too, the transfers call before 7; none asks it of the departures
    assert_eq!(number(k.build(t, 0, S)), 6);
    assert_eq!(number(k.compute_line_groups(t, 0, S)), 6);
    assert_eq!(number(k.sort_stop_departures(t, 0, S)), 6);
    assert_eq!(number(k.line_layout(t, 0, S, &lines)), 6);
    assert_eq!(number(k.compute_trip_transfers(t, 0, S, &lines, 0)), 6);
    let mut unsorted = timetable_k();
    unsorted.departures.rows.swap(0, 1);
    assert_eq!(unsorted.build(t, 0, S).unwrap().built(), timetable_k().build(t, 0, S).unwrap().built());
}

#[test]
fn question_7() {
    let t = &mut Tally::new();
    let k = timetable_k();
    let lines = k.compute_line_groups(t, 0, S).unwrap();
    let text = "refused by question 7: Building transfers: are there at most 65,536, and does the area hold all of them?";
    assert_eq!(refused(k.compute_trip_transfers(t, 0, S, &lines, 0)), (7, text.to_string()));
    // 260 lines that meet at a stop: 260 times 259 transfers
    let mut hub = Timetable { stops: vec![Stop::default(); 261], ..Timetable::default() };
    for other in 1..=260 {
        hub.add_trip(&[StopTime::new(0, 0, 1000), StopTime::new(other, 1100, 1100)]);
    }
    hub.list_departures();
    assert_eq!(number(hub.build(t, 0, S)), 7);
}

#[test]
fn question_8() {
    let t = &mut Tally::new();
    let mut k = timetable_k();
    (k.cells, k.patterns) = (1, vec![CellBitSet::new(t, 0, S, 1).unwrap().set_bit(t, 0, S, 0).unwrap()]);
    let tables = k.build(t, 0, S).unwrap();
    let mut w = Workspace::with_segments(0);
    tables.query(t, 0, S, &query_k(90, 120), &mut w).unwrap();
    let text = "refused by question 8: Query: does a half of the segment queue hold every round's segments?";
    assert_eq!(refused(tables.run_tbr(t, 0, S, &query_k(90, 120), &mut w)), (8, text.to_string()));
    // the labels of a refused query are empty
    assert!((0..3).all(|stop| (0..13).all(|row| w.labels().load(t, 0, S, stop, row) == Ok(Label::Empty))));
    tables.run_tbr(t, 0, S, &query_k(90, 120), &mut Workspace::with_segments(1)).unwrap();
}

#[test]
fn too_many_events_to_lend() {
    let t = &mut Tally::new();
    // 65,537 trips that each claim 65,536 stop times: no memory is asked for
    let times = vec![StopTime::default(); 65_536];
    let mut many = Timetable { stops: vec![Stop::default()], stop_times: times, ..Timetable::default() };
    many.trips = vec![savoiky::Trip::new(Run { first: 0, count: 65_536 }); 65_537];
    many.departures = Departures::of_stops(&[vec![]]);
    assert_eq!(number(many.compute_trip_transfers(t, 0, S, &savoiky::Lines::default(), 0)), 1);
    assert_eq!(number(many.build(t, 0, S)), 1);
    let asked = Tables::new(&many, Built::default()).query(t, 0, S, &Query::default(), &mut Workspace::new());
    assert_eq!(number(asked), 1);
}

#[test]
fn nothing_at_all_is_admitted() {
    let t = &mut Tally::new();
    let tables = Timetable::default().build(t, 0, S).unwrap();
    assert_eq!(tables.query(t, 0, S, &Query::default(), &mut Workspace::new()), Ok(savoiky::Answer::NoWay));
}
