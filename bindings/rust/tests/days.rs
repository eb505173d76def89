//! What tables and queries can say: tables made by hand, modes, permissions, walks, wheelchairs, frequency trips, delays, arc flags.
mod common;
use common::{arrives, asked, query_k, timetable_k, S};
use savoiky::{
    Answer, Built, CellBitSet, Delays, Departures, FrequencyWindow, Label, PathwayMode, Permission, RouteMode, Run, Stop,
    StopDelay, StopTime, Tables, Tally, Timetable, Transfers, TripDelay, WalkEdge, Wheelchair, Workspace,
};

/// Timetable K after a change, asked at 90 with change time 120.
fn k_with(change: impl Fn(&mut Timetable)) -> Answer {
    let mut k = timetable_k();
    change(&mut k);
    asked(&k.build(&mut Tally::new(), 0, S).unwrap(), &query_k(90, 120))
}

fn late(rows: &[(Option<u32>, i32)], stop_rows: Vec<StopDelay>) -> Delays {
    Delays { rows: rows.iter().map(|&(trip, delay_s)| TripDelay { trip, delay_s }).collect(), stop_rows }
}

#[test]
fn tables_by_hand() {
    let t = &mut Tally::new();
    let k = timetable_k();
    let built = k.build(t, 0, S).unwrap().built().clone();
    assert_eq!(Tables::new(&k, built.clone()), k.build(t, 0, S).unwrap());
    // no transfers: without arc flags a query does not need them; no departures: there is no way
    let bare = Transfers { runs: vec![Run::default(); 8], rows: vec![] };
    let tables = Tables::new(&k, Built { transfers: bare, ..built.clone() });
    assert_eq!(asked(&tables, &query_k(90, 120)), arrives(&[(405, 2, 1), (385, 2, 2)]));
    let tables = Tables::new(&k, Built { departures: Departures::of_stops(&[vec![], vec![], vec![]]), ..built });
    assert_eq!(asked(&tables, &query_k(90, 120)), Answer::NoWay);
}

#[test]
fn trips_passed_over() {
    let t = &mut Tally::new();
    let by_t0 = arrives(&[(405, 2, 1)]);
    assert_eq!(k_with(|k| k.trips[2].excluded = true), by_t0);
    assert_eq!(k_with(|k| k.trips[2].active = false), by_t0);
    assert_eq!(k_with(|k| k.stop_times[1].drop_off_type = Permission::No), by_t0);
    assert_eq!(k_with(|k| k.stop_times[6].pickup_type = Permission::No), by_t0);
    assert_ne!(k_with(|k| k.stop_times[6].pickup_type = Permission::Phone), by_t0);
    let mut k = timetable_k();
    k.trips[2].mode = RouteMode::Bus;
    k.trips[2].wheelchair = Wheelchair::Impossible;
    let tables = k.build(t, 0, S).unwrap();
    let mut q = query_k(90, 120);
    q.modes = vec![RouteMode::Tram, RouteMode::Ferry];
    assert_eq!(asked(&tables, &q), by_t0);
    q.modes.push(RouteMode::Bus);
    assert_eq!(asked(&tables, &q), arrives(&[(405, 2, 1), (385, 2, 2)]));
    q.wheelchair = true;
    assert_eq!(asked(&tables, &q), by_t0);
}

#[test]
fn trips_put_off_and_on() {
    let t = &mut Tally::new();
    let mut tables = timetable_k().build(t, 0, S).unwrap();
    let (by_t0, both) = (arrives(&[(405, 2, 1)]), arrives(&[(405, 2, 1), (385, 2, 2)]));
    assert!(tables.set_excluded(2, true));
    assert_eq!(asked(&tables, &query_k(90, 120)), by_t0);
    assert!(tables.set_excluded(2, false) && tables.set_active(2, true));
    assert_eq!(asked(&tables, &query_k(90, 120)), both);
    assert!(tables.set_active(2, false));
    assert_eq!(asked(&tables, &query_k(90, 120)), by_t0);
    assert!(!tables.set_active(3, true) && !tables.set_excluded(u32::MAX, true));
}

#[test]
fn walks() {
    let t = &mut Tally::new();
    let mut k = timetable_k();
    let walk = WalkEdge { from_stop_idx: 1, to_stop_idx: 2, duration_s: 30, distance_m: -0.0, ..WalkEdge::default() };
    k.walk_edges = vec![WalkEdge { pathway_mode: PathwayMode::Stairs, ..walk }];
    let tables = k.build(t, 0, S).unwrap();
    let mut w = Workspace::new();
    assert_eq!(tables.query(t, 0, S, &query_k(90, 120), &mut w), Ok(arrives(&[(235, 2, 1)])));
    let label = w.labels().load(t, 0, S, 2, 1).unwrap();
    assert_eq!(label, Label::Walk { arrival_s: 230, from_stop: 1, to_stop: 2, duration_s: 30, distance_m: -0.0, prev_round: 1 });
    assert!(matches!(label, Label::Walk { distance_m, .. } if distance_m.to_bits() == (-0.0f64).to_bits()));
    let mut q = query_k(90, 120);
    q.wheelchair = true;
    assert_eq!(tables.query(t, 0, S, &q, &mut w), Ok(arrives(&[(405, 2, 1), (385, 2, 2)])));
}

#[test]
fn frequency_trips() {
    let t = &mut Tally::new();
    let mut every_five = Timetable { stops: vec![Stop::default(); 3], ..Timetable::default() };
    every_five.windows = vec![FrequencyWindow { start_s: 600, end_s: 1200, headway_s: 300 }];
    every_five.add_trip(&[StopTime::new(0, 100, 100), StopTime::new(2, 160, 160)]).windows = Run { first: 0, count: 1 };
    every_five.list_departures();
    let tables = every_five.build(t, 0, S).unwrap();
    assert_eq!(tables.built().marks, [true, false, false]);
    let mut w = Workspace::new();
    assert_eq!(tables.query(t, 0, S, &query_k(600, 120), &mut w), Ok(arrives(&[(965, 2, 1)])));
    assert!(matches!(w.labels().load(t, 0, S, 2, 1), Ok(Label::Transit { time_shift_s: 800, arrival_s: 960, .. })));
    assert_eq!(tables.query(t, 0, S, &query_k(891, 120), &mut w), Ok(Answer::NoWay));
}

#[test]
fn delays() {
    let t = &mut Tally::new();
    let mut k = timetable_k();
    (0..8).for_each(|i| k.stop_times[i].stop_sequence = 10 * i as u32);
    let tables = k.build(t, 0, S).unwrap();
    let with = |delays: Delays| asked(&tables, &savoiky::Query { delays, ..query_k(90, 120) });
    // T0 at 200 instead of 100: T1 is first there
    assert_eq!(with(late(&[(Some(0), 100)], vec![])), arrives(&[(465, 2, 1)]));
    // unknown trips only widen the margin
    assert_eq!(with(late(&[(None, 50), (None, -7)], vec![])), arrives(&[(405, 2, 1), (385, 2, 2)]));
    // T0 passes through stop 1, or reaches it a second late
    let at_stop_1 = StopDelay { stop_sequence: 10, ..StopDelay::default() };
    let skipped = StopDelay { skipped: true, ..at_stop_1 };
    assert_eq!(with(late(&[(Some(0), 0)], vec![skipped])), arrives(&[(405, 2, 1)]));
    let later = StopDelay { arrival_delay_s: Some(1), ..at_stop_1 };
    assert_eq!(with(late(&[(Some(0), 0)], vec![later])), arrives(&[(405, 2, 1)]));
    // T2 a minute early at its last stop
    let early = StopDelay { stop_sequence: 70, arrival_delay_s: Some(-60), ..StopDelay::default() };
    assert_eq!(with(late(&[(Some(2), 0)], vec![early])), arrives(&[(405, 2, 1), (325, 2, 2)]));
}

#[test]
fn delay_tables() {
    let t = &mut Tally::new();
    let stop = StopDelay { delay_row: 1, stop_sequence: 5, departure_delay_s: Some(-20), arrival_delay_s: None, skipped: true };
    let delays = late(&[(Some(0), 100), (Some(2), -7), (None, -30_000)], vec![stop]);
    assert_eq!(delays.margin(t, 0, S, 3), Ok(21_600));
    let at = delays.delay_at(t, 0, S, 3, 2, 5).unwrap().unwrap();
    assert_eq!((at.trip_delay_s, at.departure_delay_s, at.arrival_delay_s, at.skipped), (-7, Some(-20), None, true));
    assert_eq!(
        (at.effective_departure(t, 0, S, 10), at.effective_departure(t, 0, S, 30), at.is_skipped(t, 0, S)),
        (Ok(0), Ok(10), Ok(true))
    );
    assert_eq!(delays.delay_at(t, 0, S, 3, 2, 6).unwrap().unwrap().departure_delay_s, None);
    assert_eq!(delays.delay_at(t, 0, S, 3, 1, 5), Ok(None));
}

/// Timetable K with one cell and one pattern that holds it: arc flags that skip nothing.
fn flagged() -> Timetable {
    let t = &mut Tally::new();
    let mut k = timetable_k();
    (k.cells, k.patterns) = (1, vec![CellBitSet::new(t, 0, S, 1).unwrap().set_bit(t, 0, S, 0).unwrap()]);
    k
}

#[test]
fn arc_flags() {
    let t = &mut Tally::new();
    let tables = flagged().build(t, 0, S).unwrap();
    let mut w = Workspace::new();
    let mut q = query_k(90, 121);
    // the Rust rides on by a transfer of 120 s; what a board asks keeps the change time
    assert_eq!(tables.run_tbr(t, 0, S, &q, &mut w), Ok(arrives(&[(405, 2, 1), (385, 2, 2)])));
    assert_eq!(tables.query(t, 0, S, &q, &mut w), Ok(arrives(&[(405, 2, 1)])));
    q.flags_off = true;
    assert_eq!(tables.run_tbr(t, 0, S, &q, &mut w), Ok(arrives(&[(405, 2, 1)])));
    // a pattern without the egress stop's cell: its transfers are skipped
    let mut skipping = flagged();
    skipping.patterns[0] = CellBitSet::new(t, 0, S, 1).unwrap().set_bit(t, 0, S, 1).unwrap();
    let tables = skipping.build(t, 0, S).unwrap();
    assert_eq!(tables.query(t, 0, S, &query_k(90, 120), &mut w), Ok(arrives(&[(405, 2, 1)])));
}

#[test]
fn one_workspace_for_all() {
    let t = &mut Tally::new();
    let mut w = Workspace::new();
    let k = timetable_k().build(t, 0, S).unwrap();
    let mut large = timetable_k();
    large.stops.resize(500, Stop::default());
    large.list_departures();
    let large = large.build(t, 0, S).unwrap();
    for tables in [&k, &large, &flagged().build(t, 0, S).unwrap(), &k] {
        assert_eq!(tables.run_tbr(t, 0, S, &query_k(90, 120), &mut w), Ok(arrives(&[(405, 2, 1), (385, 2, 2)])));
        assert_eq!(w.labels().stops(), tables.built().marks.len());
    }
    assert_eq!(k.query(t, 0, S, &query_k(1_048_576, 0), &mut w).unwrap_err().number(), 5);
    assert_eq!(w.labels().load(t, 0, S, 2, 1), Ok(Label::Empty));
}
