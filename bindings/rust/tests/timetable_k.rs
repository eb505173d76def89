//! The rows marked P of Timetable K in document 01, through the crate.
mod common;
use common::{arrives, query_k, timetable_k, S};
use savoiky::{
    earliest_freq_board, max_rounds, walk_duration, Answer, DelayAt, Departure, FreqBoard, FrequencyWindow, Label, PathwayMode,
    Run, StopTime, Tally, TripTransfer, Workspace,
};

#[test]
fn q1_to_q4() {
    let t = &mut Tally::new();
    let tables = timetable_k().build(t, 0, S).unwrap();
    let mut w = Workspace::new();
    let rows = [
        (90, 120, arrives(&[(405, 2, 1), (385, 2, 2)])),
        (90, 121, arrives(&[(405, 2, 1)])),
        (91, 120, arrives(&[(465, 2, 1)])),
        (150, 120, arrives(&[(465, 2, 1)])),
        (151, 120, Answer::NoWay),
    ];
    for (start, change, answer) in rows {
        assert_eq!(tables.query(t, 0, S, &query_k(start, change), &mut w).unwrap(), answer);
        assert_eq!(tables.run_tbr(t, 0, S, &query_k(start, change), &mut w).unwrap(), answer);
    }
}

#[test]
fn labels_of_q1() {
    let t = &mut Tally::new();
    let tables = timetable_k().build(t, 0, S).unwrap();
    let mut w = Workspace::new();
    tables.query(t, 0, S, &query_k(90, 120), &mut w).unwrap();
    let ride = |arrival_s, trip_idx, board_stop, board_off, alight_off, prev_round| Label::Transit {
        arrival_s,
        trip_idx,
        board_stop,
        board_off,
        alight_off,
        prev_round,
        time_shift_s: 0,
    };
    let labels = w.labels();
    let access = Label::Access { stop_idx: 0, arrival_s: 100, walk_duration: 10, walk_distance: 12.5 };
    assert_eq!(labels.load(t, 0, S, 0, 0), Ok(access));
    assert_eq!(labels.load(t, 0, S, 1, 1), Ok(ride(200, 0, 0, 0, 1, 0)));
    assert_eq!(labels.load(t, 0, S, 2, 1), Ok(ride(400, 0, 0, 0, 2, 0)));
    assert_eq!(labels.load(t, 0, S, 2, 2), Ok(ride(380, 2, 1, 0, 1, 1)));
    assert_eq!(labels.load(t, 0, S, 2, 12), Ok(Label::Empty));
    assert_eq!((access.arrival_s(), Label::Empty.arrival_s()), (Some(100), None));
}

#[test]
fn lines_and_fifo() {
    let t = &mut Tally::new();
    let mut k = timetable_k();
    let lines = k.compute_line_groups(t, 0, S).unwrap();
    assert_eq!(lines.of_trip, [0, 0, 1]);
    assert_eq!(lines.runs, [Run { first: 0, count: 2 }, Run { first: 2, count: 1 }]);
    assert_eq!(lines.entries, [0, 1, 2]);
    let layout = k.line_layout(t, 0, S, &lines).unwrap();
    assert_eq!(layout.fifo, [true, true]);
    assert_eq!(layout.positions, [Some(0), Some(1), Some(0)]);
    k.stop_times[5] = StopTime::new(2, 399, 399);
    assert_eq!(k.line_layout(t, 0, S, &lines).unwrap().fifo, [false, true]);
}

#[test]
fn departures_sorted() {
    let t = &mut Tally::new();
    let mut k = timetable_k();
    k.departures.rows.reverse();
    k.departures.runs = vec![Run { first: 3, count: 2 }, Run { first: 0, count: 3 }, Run { first: 5, count: 0 }];
    let (sorted, marks) = k.sort_stop_departures(t, 0, S).unwrap();
    let at = |stop: usize| sorted.runs[stop].of(&sorted.rows).unwrap().iter().map(|d| (d.trip, d.offset)).collect::<Vec<_>>();
    assert_eq!((at(0), at(1), at(2)), (vec![(0, 0), (1, 0)], vec![(0, 1), (1, 1), (2, 0)], vec![]));
    assert_eq!(marks, [false; 3]);
    assert_eq!(sorted.rows.len(), 5);
    assert!(sorted.rows.contains(&Departure { trip: 2, offset: 0 }));
}

#[test]
fn transfers() {
    let t = &mut Tally::new();
    let mut k = timetable_k();
    let lines = k.compute_line_groups(t, 0, S).unwrap();
    let made = k.compute_trip_transfers(t, 0, S, &lines, 16).unwrap();
    assert_eq!(made.rows, [TripTransfer { target_trip: 2, target_board_off: 0, min_transfer_s: 120, flag_pattern: 0 }]);
    let counts: Vec<u32> = made.runs.iter().map(|r| r.count).collect();
    assert_eq!(counts, [0, 1, 0, 0, 0, 0, 0, 0]);
    k.stop_times[6] = StopTime::new(1, 319, 319);
    assert_eq!(k.compute_trip_transfers(t, 0, S, &lines, 16).unwrap().rows, []);
}

#[test]
fn rounds() {
    let t = &mut Tally::new();
    for (wanted, transfers, rounds) in [(0, 0, 4), (0, 3, 5), (20, 0, 12), (0, u32::MAX, 12)] {
        assert_eq!(max_rounds(t, 0, S, wanted, transfers), Ok(rounds));
    }
}

#[test]
fn frequency_boarding() {
    let t = &mut Tally::new();
    let windows = [FrequencyWindow { start_s: 600, end_s: 1200, headway_s: 300 }];
    let mut board = |after| earliest_freq_board(t, 0, S, &windows, 600, 660, after).unwrap();
    let first =
        FreqBoard { departure_s: 660, time_shift_s: 0, window: 0, run: 0, quotient: 0, remainder: 0, wait_s: 0, headway_s: 300 };
    assert_eq!(board(660), Some(first));
    assert_eq!(board(661), Some(FreqBoard { departure_s: 960, time_shift_s: 300, run: 1, remainder: 1, wait_s: 299, ..first }));
    assert_eq!(board(961), None);
}

#[test]
fn arrival_under_delay() {
    let t = &mut Tally::new();
    let delay = DelayAt { trip_delay_s: 10, departure_delay_s: Some(40), ..DelayAt::default() };
    assert_eq!(delay.effective_arrival(t, 0, S, 200, 50), Ok(210));
    assert_eq!(delay.effective_departure(t, 0, S, 200), Ok(240));
    assert_eq!(delay.is_skipped(t, 0, S), Ok(false));
}

#[test]
fn stairs() {
    let t = &mut Tally::new();
    assert_eq!(walk_duration(t, 0, S, 30, PathwayMode::Stairs, true), Ok(3000));
    assert_eq!(walk_duration(t, 0, S, 30, PathwayMode::MovingSidewalk, true), Ok(30));
    assert_eq!(walk_duration(t, 0, S, 30, PathwayMode::Stairs, false), Ok(30));
}
