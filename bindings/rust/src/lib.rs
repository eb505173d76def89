//! Savoiky: a proved trip-based transit router for hotel lobby boards.
//!
//! A timetable is built once and asked as often as wanted. What the calls do not admit comes back as a [`Refusal`], the number of
//! a question; nothing here panics for bad input, and the calls behind it are proved to answer every input. Every call receives the
//! box's [`Tally`] and the number of the screen that it is for, 0 to 63, and counts there; and the [`Settings`] of the house,
//! [`Settings::DEFAULT`] where nothing else is wanted. Every call refuses a screen above 63 by 15, before all else: what is said
//! of a call's refusals leaves 15 out.
//!
//! ```
//! use savoiky::{Answer, Egress, Origin, Query, Settings, Stop, StopTime, Tally, Timetable, Workspace};
//!
//! # fn main() -> Result<(), savoiky::Refusal> {
//! // Timetable K: three stops, three trips
//! let mut k = Timetable { stops: vec![Stop::default(); 3], ..Timetable::default() };
//! k.add_trip(&[StopTime::new(0, 100, 100), StopTime::new(1, 200, 210), StopTime::new(2, 400, 400)]);
//! k.add_trip(&[StopTime::new(0, 160, 160), StopTime::new(1, 260, 270), StopTime::new(2, 460, 460)]);
//! k.add_trip(&[StopTime::new(1, 320, 320), StopTime::new(2, 380, 380)]);
//! k.list_departures();
//! let settings = Settings::DEFAULT;
//! let tally = &mut Tally::new(); // one for the box
//! let screen = 7;
//! let tables = k.build(tally, screen, settings)?;
//!
//! let query = Query {
//!     start_s: 90,
//!     change_s: 120,
//!     origins: vec![Origin { stop_idx: 0, duration_s: 10, distance_m: 12.5 }],
//!     egress: vec![Egress { stop_idx: 2, duration_s: 5 }],
//!     ..Query::default()
//! };
//! let mut workspace = Workspace::new(); // keep it: a board allocates once
//! match tables.query(tally, screen, settings, &query, &mut workspace)? {
//!     Answer::NoWay => println!("no way"),
//!     Answer::Arrives { total, stop, candidates } => {
//!         println!("arrives at {total} from stop {stop}");
//!         assert_eq!((total, stop), (385, 2));
//!         for c in candidates {
//!             let label = workspace.labels().load(tally, screen, settings, c.stop, c.row)?;
//!             println!("{} in row {}: {label:?}", c.total, c.row);
//!         }
//!     }
//! }
//! // three calls that built, the query, and two that read a label
//! assert_eq!((tally.answered(screen), tally.refused(screen)), (6, 0));
//! # Ok(())
//! # }
//! ```
//!
//! [`Tables::query`] is what a board asks; [`Tables::run_tbr`] answers as the Rust does that this is a port of. Tables need not be
//! built here: [`Tables::new`] takes lines, departures and transfers made by hand.
//!
//! [`earliest_freq_board`] finds the next run of a trip that has windows, and how long a guest waits for it:
//! [`FreqBoard::sentence`] gives "every 10 minutes, 4 to wait".
#![deny(unsafe_code)]
#![warn(missing_docs)]

mod building;
#[allow(unsafe_code)]
mod calls;
mod cells;
mod delays;
mod label;
mod leaves;
mod query;
mod refusal;
mod settings;
#[rustfmt::skip]
mod sys;
mod tables;
mod tally;

pub use building::{Built, Layout, Lines, Tables, Transfers, TripTransfer};
pub use cells::CellBitSet;
pub use delays::{DelayAt, Delays, StopDelay, TripDelay};
pub use label::{Label, Labels, ROWS};
pub use leaves::{earliest_freq_board, max_rounds, service_second, walk_duration, FreqBoard};
pub use query::{Answer, Candidate, Egress, Origin, Query, Workspace};
pub use refusal::Refusal;
pub use settings::Settings;
pub use tables::{
    Departure, Departures, FrequencyWindow, PathwayMode, Permission, RouteMode, Run, Stop, StopTime, Timetable, Trip, WalkEdge,
    Wheelchair,
};
pub use tally::Tally;
