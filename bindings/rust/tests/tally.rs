//! The box's tally: what each call counts, and for which screen; refusal 15 from every call, before all others; counts that stay.
mod common;
use common::{arrives, query_k, timetable_k, S};
use savoiky::{
    earliest_freq_board, max_rounds, service_second, walk_duration, Answer, CellBitSet, DelayAt, Delays, FrequencyWindow, Label,
    Labels, Lines, Origin, PathwayMode, Query, Refusal, Run, Settings, Stop, StopTime, Tables, Tally, Timetable, TripDelay,
    Workspace,
};

/// Settings that every call refuses by 14.
const BAD: Settings = Settings { line_scan: 0, ..S };

/// No screens.
const NONE: [u32; 3] = [64, 65, u32::MAX];

fn code<T>(answer: Result<T, Refusal>) -> u32 {
    answer.map_or_else(|refusal| refusal.number(), |_| 0)
}

/// A tally with another count in each place.
fn begun() -> Tally {
    Tally::from_words(std::array::from_fn(|place| 7 * place as u32 + 1))
}

/// `begun` with so many answered and refused calls of a screen more.
fn begun_and(screen: u32, answered: u32, refused: u32) -> Tally {
    let mut words = begun().words();
    words[screen as usize] += answered;
    words[64 + screen as usize] += refused;
    Tally::from_words(words)
}

/// What calls are made on: Timetable K, and a workspace that was used.
#[derive(Clone, PartialEq, Debug)]
struct Lent {
    set: CellBitSet,
    labels: Labels,
    k: Timetable,
    lines: Lines,
    tables: Tables,
    workspace: Workspace,
}

fn access(arrival_s: u32) -> Label {
    Label::Access { stop_idx: 0, arrival_s, walk_duration: 3, walk_distance: 4.5 }
}

fn lent() -> Lent {
    let (t, k, mut workspace) = (&mut Tally::new(), timetable_k(), Workspace::new());
    let (lines, tables) = (k.compute_line_groups(t, 0, S).unwrap(), k.build(t, 0, S).unwrap());
    tables.query(t, 0, S, &query_k(90, 120), &mut workspace).unwrap();
    let mut labels = Labels::new(t, 0, S, 1).unwrap();
    labels.store(t, 0, S, 0, 0, access(9)).unwrap();
    Lent { set: CellBitSet::new(t, 0, S, 8).unwrap().set_bit(t, 0, S, 3).unwrap(), labels, k, lines, tables, workspace }
}

/// A call on what is lent, for a screen under settings: its code.
type Call = fn(&mut Lent, &mut Tally, u32, Settings) -> u32;

fn cell_calls() -> [Call; 7] {
    [
        |_, t, n, s| code(CellBitSet::new(t, n, s, 8)),
        |l, t, n, s| code(l.set.ensure_sized(t, n, s, 65)),
        |l, t, n, s| code(l.set.set_bit(t, n, s, 4)),
        |l, t, n, s| code(l.set.get_bit(t, n, s, 3)),
        |l, t, n, s| code(l.set.intersects(t, n, s, &l.set)),
        |l, t, n, s| code(l.set.union_with(t, n, s, &l.set)),
        |l, t, n, s| code(l.set.is_empty(t, n, s)),
    ]
}

fn leaf_calls() -> [Call; 9] {
    [
        |_, t, n, s| code(walk_duration(t, n, s, 30, PathwayMode::Stairs, true)),
        |_, t, n, s| code(max_rounds(t, n, s, 0, 3)),
        |_, t, n, s| code(service_second(t, n, s, 25, 10, 0)),
        |_, t, n, s| code(earliest_freq_board(t, n, s, &[FrequencyWindow { start_s: 6, end_s: 12, headway_s: 3 }], 6, 6, 7)),
        |_, t, n, s| code(Delays::default().margin(t, n, s, 3)),
        |_, t, n, s| code(Delays::default().delay_at(t, n, s, 3, 2, 1)),
        |_, t, n, s| code(DelayAt::default().effective_departure(t, n, s, 200)),
        |_, t, n, s| code(DelayAt::default().effective_arrival(t, n, s, 200, 50)),
        |_, t, n, s| code(DelayAt::default().is_skipped(t, n, s)),
    ]
}

fn label_calls() -> [Call; 6] {
    [
        |_, t, n, s| code(Labels::new(t, n, s, 2)),
        |l, t, n, s| code(l.labels.load(t, n, s, 0, 0)),
        |l, t, n, s| code(l.labels.store(t, n, s, 0, 0, Label::Empty)),
        |l, t, n, s| code(l.labels.store(t, n, s, 0, 0, access(1))),
        |l, t, n, s| {
            let (trip_idx, board_stop, board_off, alight_off) = (2, 0, 4, 5);
            let ride =
                Label::Transit { arrival_s: 1, trip_idx, board_stop, board_off, alight_off, prev_round: 6, time_shift_s: 7 };
            code(l.labels.store(t, n, s, 0, 0, ride))
        },
        |l, t, n, s| {
            let walk = Label::Walk { arrival_s: 1, from_stop: 0, to_stop: 0, duration_s: 4, distance_m: 5.5, prev_round: 6 };
            code(l.labels.store(t, n, s, 0, 0, walk))
        },
    ]
}

fn timetable_calls() -> [Call; 6] {
    [
        |l, t, n, s| code(l.k.compute_line_groups(t, n, s)),
        |l, t, n, s| code(l.k.sort_stop_departures(t, n, s)),
        |l, t, n, s| code(l.k.line_layout(t, n, s, &l.lines)),
        |l, t, n, s| code(l.k.compute_trip_transfers(t, n, s, &l.lines, 16)),
        |l, t, n, s| code(l.tables.query(t, n, s, &query_k(91, 120), &mut l.workspace)),
        |l, t, n, s| code(l.tables.run_tbr(t, n, s, &query_k(91, 120), &mut l.workspace)),
    ]
}

/// Every public call that makes one exported call.
fn single_calls() -> Vec<Call> {
    let mut calls = cell_calls().to_vec();
    calls.extend(leaf_calls());
    calls.extend(label_calls());
    calls.extend(timetable_calls());
    calls
}

/// The one that makes three.
const BUILD: Call = |l, t, n, s| code(l.k.build(t, n, s));

#[test]
fn an_answer_is_answered() {
    let lent = lent();
    for screen in [0, 1, 31, 62, 63] {
        let calls = single_calls().into_iter().map(|call| (call, 1)).chain([(BUILD, 3)]);
        for (at, (call, count)) in calls.enumerate() {
            let mut tally = begun();
            assert_eq!(call(&mut lent.clone(), &mut tally, screen, S), 0, "call {at}");
            assert_eq!(tally, begun_and(screen, count, 0), "call {at}");
        }
    }
}

#[test]
fn a_refusal_is_refused() {
    let lent = lent();
    for screen in [0, 1, 31, 62, 63] {
        for (at, call) in single_calls().into_iter().chain([BUILD]).enumerate() {
            let mut tally = begun();
            assert_eq!(call(&mut lent.clone(), &mut tally, screen, BAD), 14, "call {at}");
            assert_eq!(tally, begun_and(screen, 0, 1), "call {at}");
        }
    }
}

#[test]
fn no_way_is_answered() {
    let (mut tally, tables, w) = (begun(), lent().tables, &mut Workspace::new());
    assert_eq!(tables.query(&mut tally, 9, S, &query_k(151, 120), w), Ok(Answer::NoWay));
    assert_eq!(tables.run_tbr(&mut tally, 9, S, &query_k(151, 120), w), Ok(Answer::NoWay));
    // nor is there a run to board, nor a delay
    assert_eq!(earliest_freq_board(&mut tally, 9, S, &[], 0, 0, 0), Ok(None));
    assert_eq!(Delays::default().delay_at(&mut tally, 9, S, 3, 2, 1), Ok(None));
    assert_eq!(tally, begun_and(9, 4, 0));
}

fn many_stops() -> Timetable {
    let mut many = timetable_k();
    many.stops.resize(4_097, Stop::default());
    many
}

fn crowd() -> Query {
    Query { origins: vec![Origin::default(); 65], ..query_k(90, 120) }
}

fn many_delays() -> Delays {
    Delays { rows: vec![TripDelay::default(); 4_097], stop_rows: vec![] }
}

/// Calls that are refused by 1, under any settings.
fn refused_by_1() -> Vec<Call> {
    vec![
        |_, t, n, s| code(CellBitSet::new(t, n, s, 513)),
        |l, t, n, s| code(l.set.ensure_sized(t, n, s, 513)),
        |_, t, n, s| code(earliest_freq_board(t, n, s, &[FrequencyWindow::default(); 65_537], 0, 0, 0)),
        |_, t, n, s| code(many_delays().margin(t, n, s, 3)),
        |_, t, n, s| code(many_delays().delay_at(t, n, s, 3, 0, 0)),
        |_, t, n, s| code(Labels::new(t, n, s, 4_097)),
        |_, t, n, s| code(Labels::new(t, n, s, usize::MAX)),
        |_, t, n, s| code(many_stops().compute_line_groups(t, n, s)),
        |_, t, n, s| code(many_stops().sort_stop_departures(t, n, s)),
        |l, t, n, s| code(many_stops().line_layout(t, n, s, &l.lines)),
        |l, t, n, s| code(many_stops().compute_trip_transfers(t, n, s, &l.lines, 16)),
        |_, t, n, s| code(many_stops().build(t, n, s)),
        |l, t, n, s| code(l.tables.query(t, n, s, &crowd(), &mut l.workspace)),
        |l, t, n, s| code(l.tables.run_tbr(t, n, s, &crowd(), &mut l.workspace)),
    ]
}

/// 260 lines that meet at a stop: too many transfers.
fn hub() -> Timetable {
    let mut hub = Timetable { stops: vec![Stop::default(); 261], ..Timetable::default() };
    for other in 1..=260 {
        hub.add_trip(&[StopTime::new(0, 0, 1000), StopTime::new(other, 1100, 1100)]);
    }
    hub.list_departures();
    hub
}

/// Calls that are refused by another question: which, and how many calls were answered before.
fn refused_by_others() -> Vec<(u32, u32, Call)> {
    vec![
        (2, 1, |l, t, n, s| {
            let mut short = l.k.clone();
            short.departures.runs.pop();
            code(short.build(t, n, s)) // the lines were made, the departures not sorted
        }),
        (7, 2, |_, t, n, s| code(hub().build(t, n, s))), // both were
        (3, 0, |l, t, n, s| {
            let mut torn = l.k.clone();
            torn.trips[1].stop_times = Run { first: u32::MAX, count: u32::MAX };
            code(torn.compute_trip_transfers(t, n, s, &l.lines, 16))
        }),
        (4, 0, |l, t, n, s| code(l.labels.store(t, n, s, 1, 0, Label::Empty))),
        (4, 0, |l, t, n, s| code(l.labels.store(t, n, s, 1, 0, access(1)))),
        (5, 0, |_, t, n, s| code(service_second(t, n, s, 48, 0, 0))),
        (5, 0, |l, t, n, s| code(l.tables.query(t, n, s, &query_k(1_048_576, 0), &mut l.workspace))),
        (6, 0, |l, t, n, s| {
            let mut twice = query_k(90, 120);
            twice.egress.push(twice.egress[0]);
            code(l.tables.query(t, n, s, &twice, &mut l.workspace))
        }),
        (7, 0, |l, t, n, s| code(l.k.compute_trip_transfers(t, n, s, &l.lines, 0))),
        (8, 0, |l, t, n, s| {
            let all = vec![CellBitSet::new(&mut Tally::new(), 0, S, 8).unwrap().set_bit(&mut Tally::new(), 0, S, 0).unwrap()];
            let flagged = Timetable { cells: 1, patterns: all, ..l.k.clone() };
            let tables = Tables::new(&flagged, l.tables.built().clone());
            code(tables.run_tbr(t, n, s, &query_k(90, 120), &mut Workspace::with_segments(0)))
        }),
    ]
}

#[test]
fn every_question_refuses() {
    let lent = lent();
    for (at, call) in refused_by_1().into_iter().enumerate() {
        for settings in [S, BAD] {
            let mut tally = begun();
            assert_eq!(call(&mut lent.clone(), &mut tally, 63, settings), 1, "call {at}");
            assert_eq!(tally, begun_and(63, 0, 1), "call {at}");
        }
    }
    for (at, (question, answered, call)) in refused_by_others().into_iter().enumerate() {
        let mut tally = begun();
        assert_eq!(call(&mut lent.clone(), &mut tally, 63, S), question, "call {at}");
        assert_eq!(tally, begun_and(63, answered, 1), "call {at}");
    }
}

#[test]
fn question_15_is_before_all_others() {
    let before = lent();
    let mut calls = single_calls();
    calls.push(BUILD);
    calls.extend(refused_by_1());
    calls.extend(refused_by_others().into_iter().map(|(_, _, call)| call));
    let (mut lent, mut tally) = (before.clone(), begun());
    for (at, call) in calls.into_iter().enumerate() {
        for (screen, settings) in NONE.into_iter().flat_map(|screen| [(screen, S), (screen, BAD)]) {
            assert_eq!(call(&mut lent, &mut tally, screen, settings), 15, "call {at}");
            assert_eq!((&lent, &tally), (&before, &begun()), "call {at}");
        }
    }
    let refusal = max_rounds(&mut tally, 64, BAD, 0, 0).unwrap_err();
    assert_eq!(refusal.question(), "Is the screen one of 0 to 63?");
    assert_eq!(refusal.to_string(), "refused by question 15: Is the screen one of 0 to 63?");
}

#[test]
fn a_workspace_without_a_screen() {
    // one that was never used stays without areas, one that was used keeps its labels
    let (tables, mut w, mut tally) = (lent().tables, Workspace::new(), Tally::new());
    for screen in NONE {
        assert_eq!(code(tables.query(&mut tally, screen, S, &query_k(90, 120), &mut w)), 15);
        assert_eq!(w, Workspace::new());
    }
    let both = arrives(&[(405, 2, 1), (385, 2, 2)]);
    assert_eq!(tables.query(&mut tally, 0, S, &query_k(90, 120), &mut w), Ok(both));
    assert_eq!(code(tables.query(&mut tally, 64, S, &query_k(91, 120), &mut w)), 15);
    assert!(matches!(w.labels().load(&mut tally, 0, S, 2, 2), Ok(Label::Transit { arrival_s: 380, .. })));
    assert_eq!((tally.answered(0), tally.total()), (2, 2));
}

#[test]
fn a_full_count_stays() {
    for screen in [0, 9, 63] {
        let mut words = begun().words();
        (words[screen as usize], words[64 + screen as usize]) = (u32::MAX - 1, u32::MAX);
        let mut tally = Tally::from_words(words);
        words[screen as usize] = u32::MAX;
        for _ in 0..3 {
            max_rounds(&mut tally, screen, S, 0, 0).unwrap();
            max_rounds(&mut tally, screen, BAD, 0, 0).unwrap_err();
            assert_eq!(tally.words(), words);
        }
        // what is answered does not depend on it: three calls that build, then a query
        let tables = timetable_k().build(&mut tally, screen, S).unwrap();
        let answer = tables.query(&mut tally, screen, S, &query_k(90, 120), &mut Workspace::new());
        assert_eq!(answer, Ok(arrives(&[(405, 2, 1), (385, 2, 2)])));
        assert_eq!(tally.words(), words);
        // the other count of the screen goes on
        words[64 + screen as usize] = 5;
        let mut tally = Tally::from_words(words);
        max_rounds(&mut tally, screen, BAD, 0, 0).unwrap_err();
        assert_eq!((tally.answered(screen), tally.refused(screen)), (u32::MAX, 6));
    }
}

#[test]
fn screens_are_counted_apart() {
    // screen s makes s + 1 calls that are answered and 2 s that are refused, in turns with the others
    let mut tally = Tally::default();
    for turn in 0..126 {
        for screen in 0..64 {
            if turn <= screen {
                max_rounds(&mut tally, screen, S, 0, 0).unwrap();
            }
            if turn < 2 * screen {
                max_rounds(&mut tally, screen, BAD, 0, 0).unwrap_err();
            }
        }
    }
    for screen in 0..64 {
        assert_eq!((tally.answered(screen), tally.refused(screen)), (screen + 1, 2 * screen));
    }
    assert_eq!(tally.total(), (0..64).map(|screen| 3 * screen + 1).sum());
}

#[test]
fn words_and_counts() {
    let words: [u32; 128] = std::array::from_fn(|place| 1000 - place as u32);
    let tally = Tally::from_words(words);
    assert_eq!(tally.words(), words);
    for screen in 0..64 {
        assert_eq!(tally.answered(screen), words[screen as usize]);
        assert_eq!(tally.refused(screen), words[64 + screen as usize]);
    }
    assert!(NONE.into_iter().all(|screen| tally.answered(screen) == 0 && tally.refused(screen) == 0));
    assert_eq!(tally.total(), words.iter().map(|n| u64::from(*n)).sum());
    assert_eq!(Tally::from_words([u32::MAX; 128]).total(), 128 * 4_294_967_295);
    assert_eq!((Tally::new().words(), Tally::new().total()), ([0; 128], 0));
    assert_eq!((Tally::default(), Tally::from_words([0; 128])), (Tally::new(), Tally::new()));
    assert_ne!(tally, Tally::new());
}

#[test]
fn size() {
    assert_eq!((std::mem::size_of::<Tally>(), std::mem::align_of::<Tally>()), (512, 4));
}
