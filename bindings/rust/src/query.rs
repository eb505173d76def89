//! A guest's question, and its answer.
use crate::building::Tables;
use crate::calls::{self, Areas, Call, Read};
use crate::delays::Delays;
use crate::label::{Labels, ROWS};
use crate::refusal::{checked, value, Refusal, NO_SCREEN};
use crate::settings::Settings;
use crate::sys::{QuerySizes, Reply};
use crate::tables::{count, RouteMode};
use crate::tally::Tally;

/// The words of the candidates: 13 rows of three.
const CANDIDATE_WORDS: usize = 3 * ROWS as usize;

/// A stop where a journey may begin.
#[derive(Clone, Copy, PartialEq, Debug, Default)]
pub struct Origin {
    /// The stop.
    pub stop_idx: u32,
    /// Seconds of the access walk.
    pub duration_s: u32,
    /// Any number, carried into the labels.
    pub distance_m: f64,
}

/// A stop where a journey may end. Egress stops strictly rise.
#[derive(Clone, Copy, PartialEq, Eq, Debug, Default)]
pub struct Egress {
    /// The stop.
    pub stop_idx: u32,
    /// Seconds of the egress walk.
    pub duration_s: u32,
}

/// A guest's question.
///
/// ```
/// use savoiky::{Egress, Origin, Query, Settings, Tally};
/// let query = Query {
///     start_s: savoiky::service_second(&mut Tally::new(), 0, Settings::DEFAULT, 8, 30, 0)?,
///     change_s: 120,
///     origins: vec![Origin { stop_idx: 0, duration_s: 60, distance_m: 75.0 }],
///     egress: vec![Egress { stop_idx: 2, duration_s: 30 }],
///     ..Query::default()
/// };
/// assert!(query.modes.is_empty()); // all of them
/// # Ok::<(), savoiky::Refusal>(())
/// ```
#[derive(Clone, PartialEq, Debug, Default)]
pub struct Query {
    /// The service second of setting out.
    pub start_s: u32,
    /// The change time: seconds before every boarding after the first round.
    pub change_s: u32,
    /// How many rounds are wanted, any number; see [`max_rounds`](crate::max_rounds).
    pub wanted_rounds: u32,
    /// How many transfers are wanted, any number.
    pub transfers: u32,
    /// The modes wanted; none: all.
    pub modes: Vec<RouteMode>,
    /// For a wheelchair?
    pub wheelchair: bool,
    /// Puts arc flags off.
    pub flags_off: bool,
    /// Where a journey may begin.
    pub origins: Vec<Origin>,
    /// Where it may end, strictly rising by stop.
    pub egress: Vec<Egress>,
    /// The delays known now.
    pub delays: Delays,
}

impl Query {
    fn sizes(&self, tables: &Tables) -> QuerySizes {
        QuerySizes {
            delays: count(self.delays.rows.len()),
            stop_rows: count(self.delays.stop_rows.len()),
            origins: count(self.origins.len()),
            egress: count(self.egress.len()),
            ..tables.sizes
        }
    }

    /// The query's numbers, as the calls read them.
    fn put_words(&self, out: &mut Vec<u32>) {
        let modes = self.modes.iter().fold(0, |bits, m| bits | 1 << *m as u32);
        out.clear();
        out.extend([self.start_s, self.change_s, self.wanted_rounds, self.transfers, modes]);
        out.extend([u32::from(self.wheelchair), u32::from(self.flags_off)]);
        out.extend(self.origins.iter().flat_map(|o| [o.stop_idx, o.duration_s]));
        out.extend(self.egress.iter().flat_map(|e| [e.stop_idx, e.duration_s]));
        out.extend(self.delays.row_words());
        out.extend(self.delays.stop_row_words());
    }
}

/// A way to arrive: the best of its row.
#[derive(Clone, Copy, PartialEq, Eq, Debug, Default)]
pub struct Candidate {
    /// Service second of the arrival, egress walk included.
    pub total: u32,
    /// The egress stop.
    pub stop: u32,
    /// The row of the stop's label.
    pub row: u32,
}

/// What a query answers. The labels behind it are in the workspace.
#[derive(Clone, PartialEq, Eq, Debug)]
pub enum Answer {
    /// There is no way.
    NoWay,
    /// There is one.
    Arrives {
        /// Service second of the best arrival, egress walk included.
        total: u32,
        /// The egress stop of the best.
        stop: u32,
        /// By rising row and falling total; the last one's total is the best, the others' are later by at most the settings'
        /// `candidate_slack`.
        candidates: Vec<Candidate>,
    },
}

impl Answer {
    fn of(reply: Reply, rows: &[u32]) -> Answer {
        if reply.total == u32::MAX {
            return Answer::NoWay;
        }
        let row = |w: &[u32]| Candidate { total: w[0], stop: w[1], row: w[2] };
        let candidates = rows.chunks_exact(3).take(reply.candidates as usize).map(row).collect();
        Answer::Arrives { total: reply.total, stop: reply.stop, candidates }
    }
}

/// The memory that queries are lent to write, kept from one to the next; and the labels of the last one.
///
/// ```
/// use savoiky::{Answer, Query, Settings, Tally, Timetable, Workspace};
/// let (tally, settings) = (&mut Tally::new(), Settings::DEFAULT);
/// let tables = Timetable::default().build(tally, 0, settings)?;
/// let mut workspace = Workspace::new();
/// for start_s in [100, 200] {
///     let query = Query { start_s, ..Query::default() };
///     assert_eq!(tables.query(tally, 0, settings, &query, &mut workspace)?, Answer::NoWay);
/// }
/// assert_eq!(workspace.labels().stops(), 0);
/// assert_eq!(tally.answered(0), 5); // three calls that built, two queries
/// # Ok::<(), savoiky::Refusal>(())
/// ```
#[derive(Clone, PartialEq, Debug, Default)]
pub struct Workspace {
    labels: Labels,
    work: Vec<u32>,
    queue_a: Vec<u32>,
    queue_b: Vec<u32>,
    candidates: Vec<u32>,
    query: Vec<u32>,
    distances: Vec<f64>,
    segments: Option<usize>,
}

impl Workspace {
    /// With a segment queue that is long enough for every query without frequency trips: where arc flags may be in use, as
    /// many rows in each half as the trips have stop times together.
    pub fn new() -> Workspace {
        Workspace::default()
    }

    /// With so many rows in each half of the segment queue, 16 bytes each. Frequency trips with arc flags may need more than
    /// there are by default: refusal 8.
    pub fn with_segments(segments: usize) -> Workspace {
        Workspace { segments: Some(segments), ..Workspace::default() }
    }

    /// The labels of the last query; all empty where it was refused. (A query that is refused by 15 leaves them as they are.)
    pub fn labels(&self) -> &Labels {
        &self.labels
    }

    /// Makes every area as long as this query's counts say. The call that says how long is none of the board's: it is counted in
    /// a tally that is thrown away. Refused by 15 alone, and then nothing is touched.
    fn fit(&mut self, screen: u32, settings: Settings, sizes: QuerySizes, segments: usize) -> Result<(), Refusal> {
        match value(calls::work_size(&mut Tally::new(), screen, settings, sizes)) {
            Ok(size) => {
                self.labels.resize(sizes.stops as usize);
                self.work.resize(size as usize, 0);
                self.queue_a.resize(4 * segments, 0);
                self.queue_b.resize(4 * segments, 0);
                self.candidates.resize(CANDIDATE_WORDS, 0);
                Ok(())
            }
            Err(refusal) if refusal.number() == NO_SCREEN => Err(refusal),
            // question 1 or 14 is answered no, whatever is lent: the query says which
            Err(_) => Ok(()),
        }
    }

    fn areas(&mut self) -> Areas<'_> {
        Areas {
            labels: &mut self.labels.words,
            label_distances: &mut self.labels.distances,
            work: &mut self.work,
            queue_a: &mut self.queue_a,
            queue_b: &mut self.queue_b,
            candidates: &mut self.candidates,
        }
    }
}

impl Tables {
    /// Answers a guest's question. On a plain day no journey beats it; on a steady day, which has delays (docs/PROMISE.md), none does by
    /// effective times. Both need tables that were built with the settings' `transfer_time` (see [`Settings`]). Refused by 1 to 6,
    /// 8 and 14.
    ///
    /// One call for the screen. How long the workspace must be is asked by a call that is counted in a tally of the crate's own,
    /// which is thrown away. Refused by 15, the workspace is as it came.
    pub fn query(
        &self,
        tally: &mut Tally,
        screen: u32,
        settings: Settings,
        query: &Query,
        workspace: &mut Workspace,
    ) -> Result<Answer, Refusal> {
        self.ask(tally, screen, settings, Call::Query, query, workspace)
    }

    /// Answers as the Rust does: also where arc flags are on and skip nothing. Refused by 1 to 6, 8 and 14. One call for the
    /// screen, as [`query`](Tables::query) is.
    pub fn run_tbr(
        &self,
        tally: &mut Tally,
        screen: u32,
        settings: Settings,
        query: &Query,
        workspace: &mut Workspace,
    ) -> Result<Answer, Refusal> {
        self.ask(tally, screen, settings, Call::RunTbr, query, workspace)
    }

    fn ask(
        &self,
        tally: &mut Tally,
        screen: u32,
        settings: Settings,
        call: Call,
        q: &Query,
        w: &mut Workspace,
    ) -> Result<Answer, Refusal> {
        let sizes = q.sizes(self);
        w.fit(screen, settings, sizes, w.segments.unwrap_or(self.segments(q)))?;
        let (mut query, mut distances) = (std::mem::take(&mut w.query), std::mem::take(&mut w.distances));
        q.put_words(&mut query);
        distances.clear();
        distances.extend(&self.distances);
        distances.extend(q.origins.iter().map(|o| o.distance_m));
        let read = Read {
            sizes,
            tables: &self.words,
            built: &self.built_words,
            transfers: &self.transfers,
            patterns: &self.patterns,
            distances: &distances,
            query: &query,
        };
        let reply = calls::ask(tally, screen, settings, call, &read, w.areas());
        (w.query, w.distances) = (query, distances);
        checked(reply.code).inspect_err(|_| w.labels.clear())?;
        Ok(Answer::of(reply, &w.candidates))
    }

    /// As many rows of the segment queue as a query without frequency trips can need: none without arc flags in use.
    fn segments(&self, q: &Query) -> usize {
        if q.flags_off || self.patterns.is_empty() {
            return 0;
        }
        self.built().transfers.runs.len()
    }
}

#[cfg(test)]
mod tests {
    use super::*;
    use crate::sys::Answer;

    /// The size of the workspace is asked inside a query, whose own refusal is what shows.
    #[test]
    fn size_of_the_workspace() {
        let bad = Settings { candidate_slack: 21_601, ..Settings::DEFAULT };
        let (few, many) =
            (QuerySizes { stops: 3, ..QuerySizes::default() }, QuerySizes { stops: 4_097, ..QuerySizes::default() });
        let t = &mut Tally::new();
        assert_eq!(calls::work_size(t, 63, Settings::DEFAULT, few), Answer { code: 0, value: 143 });
        assert_eq!(calls::work_size(t, 63, bad, few), Answer { code: 14, value: 0 });
        assert_eq!(calls::work_size(t, 63, bad, many), Answer { code: 1, value: 0 });
        assert_eq!(calls::work_size(t, 64, bad, many), Answer { code: 15, value: 0 });
        assert_eq!((t.answered(63), t.refused(63), t.total()), (1, 2, 3));
    }
}
