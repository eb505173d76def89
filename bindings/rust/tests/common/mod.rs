//! Timetable K of document 01, and its query.
use savoiky::{Answer, Candidate, Egress, Origin, Query, Settings, Stop, StopTime, Tables, Tally, Timetable, Workspace};

/// The settings of document 01, where a test says nothing else.
pub const S: Settings = Settings::DEFAULT;

pub fn timetable_k() -> Timetable {
    let mut k = Timetable { stops: vec![Stop::default(); 3], ..Timetable::default() };
    k.add_trip(&[StopTime::new(0, 100, 100), StopTime::new(1, 200, 210), StopTime::new(2, 400, 400)]);
    k.add_trip(&[StopTime::new(0, 160, 160), StopTime::new(1, 260, 270), StopTime::new(2, 460, 460)]);
    k.add_trip(&[StopTime::new(1, 320, 320), StopTime::new(2, 380, 380)]);
    k.list_departures();
    k
}

pub fn query_k(start_s: u32, change_s: u32) -> Query {
    Query {
        start_s,
        change_s,
        origins: vec![Origin { stop_idx: 0, duration_s: 10, distance_m: 12.5 }],
        egress: vec![Egress { stop_idx: 2, duration_s: 5 }],
        ..Query::default()
    }
}

/// What `query` answers, in a workspace of its own.
#[allow(dead_code)]
pub fn asked(tables: &Tables, query: &Query) -> Answer {
    tables.query(&mut Tally::new(), 0, S, query, &mut Workspace::new()).unwrap()
}

/// An answer with these candidates (total, stop, row), the last one the best.
#[allow(dead_code)]
pub fn arrives(candidates: &[(u32, u32, u32)]) -> Answer {
    let (total, stop, _) = *candidates.last().unwrap();
    let candidates = candidates.iter().map(|&(total, stop, row)| Candidate { total, stop, row }).collect();
    Answer::Arrives { total, stop, candidates }
}
