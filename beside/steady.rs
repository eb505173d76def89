// Steady days: delays and skipped stops on which demand 3 still holds; and days on which one condition of theirs is broken, where it need not.
// A steady day is calm, and of the rides that tables and query permit no effective times fall, no departure is further from its schedule than the
// cap, and no arrival depends on where one boarded. The transfers and what is listed may be any. The cap is the case's own setting.

fn cap(c: &Case) -> i32 {
    c.settings.margin_cap as i32
}

// what breaks one condition alone on some days, and which: times do not fall, within the cap, one arrival
const BREAKS: [(&str, usize); 4] = [("a departure given", 2), ("an arrival given", 0), ("a delay past the cap", 1), ("a departure before 0", 2)];

// what steady days must have met
const STEADY: [&str; 18] = [
    "no transfers", "hand-made transfers", "an unevenly listed line", "a departure at a last stop", "a line with and without delay rows",
    "an unknown trip past the cap", "the best total by a delayed trip", "a late trip", "an early trip", "a delay row of 0", "a delay of the cap",
    "a delay of the cap, early", "a skipped stop", "a trip that leaves at 0", "a departure given", "an arrival given",
    "the best total by a trip with times given", "scheduled times that fall",
];

// TABLES

// any departures: those drawn, at times many left out, one listed twice
fn list_unevenly(r: &mut Random, c: &mut Case) {
    let out = [0, 10, 30][r.below(3) as usize];
    c.e.stop_departures = c.listed.clone();
    for d in c.e.stop_departures.iter_mut() {
        d.retain(|_| !r.yes(out));
        if r.yes(5) && !d.is_empty() {
            d.push(d[r.below(d.len() as u32) as usize]);
        }
    }
}

// at times all times later, so that trips may run early by as much as the cap, the first of them to leave at 0
fn leave_later(r: &mut Random, c: &mut Case, day: Day) {
    if c.later > 0 || day == Day::Broken(3) || !r.yes(if day == Day::Broken(2) { 50 } else { 30 }) {
        return;
    }
    let first = c.e.stop_times.iter().map(|s| s.departure_s).min().unwrap();
    let last = c.e.stop_times.iter().map(|s| s.arrival_s.max(s.departure_s)).max().unwrap();
    let most = c.settings.margin_cap;
    c.later = (if r.yes(50) { most - first.min(most) } else { most + 400 }).min(LIMIT - last);
    c.e.stop_times.iter_mut().for_each(|s| (s.arrival_s, s.departure_s) = (s.arrival_s + c.later, s.departure_s + c.later));
}

// at times none, at times some that no building call wrote
fn any_transfers(r: &mut Random, e: &mut StaticEpoch) {
    match r.below(3) {
        0 => e.trip_transfers.iter_mut().flatten().for_each(|l| l.clear()),
        1 => transfers_by_hand(r, e),
        _ => {}
    }
}

// DELAYS

// this query's delays on such a day: none on a plain one
fn delay(r: &mut Random, c: &mut Case, day: Day) {
    if day == Day::Plain {
        return;
    }
    let broken = if let Day::Broken(k) = day { Some(k) } else { None };
    // a delay past the cap must be one that may be lent; what breaks another condition must find room below the cap
    c.settings.margin_cap = match broken {
        None => c.settings.margin_cap,
        Some(2) => c.settings.margin_cap.min(200_000),
        _ => c.settings.margin_cap.clamp(4000, 200_000),
    };
    (c.delays, c.stop_rows) = (vec![], vec![]);
    delay_steadily(r, c, broken);
    match broken {
        Some(k) => break_one(r, c, k),
        None => give_steadily(r, c),
    }
    unknown(r, c);
    strangers(r, c);
    read_rows(c);
    if r.yes(if broken.is_some() { 80 } else { 35 }) {
        sharpen(r, c);
    } else if r.yes(50) {
        c.egress.values_mut().for_each(|a| a.duration_s = r.below(30));
    }
}

// a ride: size of the trip's delay, trip, offset
type Ride = (u32, u32, u32);

// the rides of delayed trips that may be boarded at this stop, at this time or later, and left
fn delayed_rides(c: &Case, x: u32, from: u32) -> Vec<Ride> {
    let at_stop = c.e.stop_departures[x as usize].iter().filter_map(|(t, o)| delay_row(c, *t).map(|k| (c.delays[k].1.unsigned_abs(), *t, *o)));
    at_stop.filter(|(_, t, o)| boards(c, x, *t, *o, from, 0) && !alights(c, *t, *o).is_empty()).collect()
}

// one of some rides, most often of the longest delay, and where and when it may be left, most often first
fn picked(r: &mut Random, c: &Case, rides: &[Ride]) -> Option<(u32, u32, (u32, u32))> {
    let any = *rides.get(r.below(rides.len().max(1) as u32) as usize)?;
    let (_, t, o) = if r.yes(70) { *rides.iter().max_by_key(|x| x.0)? } else { any };
    let ends = alights(c, t, o);
    let end = ends[r.below(ends.len() as u32) as usize];
    Some((t, o, if r.yes(50) { *ends.iter().min_by_key(|e| e.1)? } else { end }))
}

// a query on the edge: a delayed trip leaves just when its stop is reached; at times another just when the change time after it has passed; and
// the egress walk from the first stop arrives a second later than the ride does
fn sharpen(r: &mut Random, c: &mut Case) -> Option<()> {
    let all: Vec<Ride> = c.origins.iter().flat_map(|a| delayed_rides(c, a.stop_idx, a.duration_s)).collect();
    let (t, o, (mut y, mut v)) = picked(r, c, &all)?;
    let (x, leaves) = (stop_time_of(&c.e, t, o).stop_idx, departs(c, t, o));
    let access_s = c.origins.iter().filter(|a| a.stop_idx == x).map(|a| a.duration_s).min()?;
    c.start = (leaves - access_s).min(LIMIT);
    if r.yes(40) {
        if let Some((u, p, end)) = picked(r, c, &delayed_rides(c, y, v)) {
            c.q.default_transfer_s = (departs(c, u, p) - v).min(LIMIT);
            (y, v) = end;
        }
    }
    if r.yes(50) {
        c.egress.clear();
    }
    c.egress.insert(x, access(x, (v + 1).saturating_sub(leaves).min(LIMIT), 0.0));
    c.egress.insert(y, access(y, 0, 0.0));
    Some(())
}

// where delays lie: about 0, or up to the cap, or down to it; the query is as much later or earlier
fn far_off(r: &mut Random, c: &mut Case, broken: Option<usize>) -> i32 {
    let at_cap = broken == Some(2);
    let early = r.yes(if c.later == 0 { 2 } else if at_cap { 100 } else { 40 });
    let late = at_cap || r.yes(20);
    let by = c.settings.margin_cap.saturating_sub(30 * r.below(11));
    if early {
        c.start = c.start.saturating_sub(by);
        -cap(c)
    } else if late {
        c.start = (c.start + by).min(LIMIT);
        cap(c)
    } else {
        0
    }
}

// as scheduled, and the earliest of the trip where its times rise
fn first_departure(c: &Case, t: u32) -> i32 {
    stop_time_of(&c.e, t, 0).departure_s as i32
}

// delay rows of both signs, within the cap and not before 0; stop rows that skip or say nothing
fn delay_steadily(r: &mut Random, c: &mut Case, broken: Option<usize>) {
    let far = far_off(r, c, broken);
    let percent = if broken.is_some() { 100 } else { [30, 60, 90][r.below(3) as usize] };
    let (step, wide) = ([30, 30, 10, 1][r.below(4) as usize], if r.yes(10) { 10 } else { 1 });
    for t in 0..c.e.trips.len() as u32 {
        if !r.yes(percent) {
            continue;
        }
        let near = (wide * step * r.below(300 / step + 1)) as i32;
        let wanted = if r.yes(8) { 0 } else if far == 0 || r.yes(10) { near - 150 * wide as i32 } else { far - far.signum() * near };
        let row = c.delays.len() as u32;
        c.delays.push((t, wanted.clamp(-cap(c), cap(c)).max(-first_departure(c, t))));
        for sequence in 0..6 {
            if r.yes(10) {
                c.stop_rows.push([row, sequence, if r.yes(80) { 4 } else { 0 }, r.signed_inside(), r.signed_inside()]);
            }
        }
    }
}

// times given at single stops of some trips, which are taken back where a condition would not hold or a delay would be too large
fn give_steadily(r: &mut Random, c: &mut Case) {
    let percent = [0, 15, 50][r.below(3) as usize];
    for row in 0..c.delays.len() {
        if !r.yes(percent) {
            continue;
        }
        let kept = c.stop_rows.clone();
        give_from(r, c, row);
        let lent = c.stop_rows.iter().all(|s| !large(s[3]) && !large(s[4]));
        if !lent || conditions_of(c, c.delays[row].0) != [true; 3] {
            c.stop_rows = kept;
        }
    }
}

// times at each stop from one on, near the trip's delay and not before the stop before it; at times one time alone, and none where a stop is skipped
fn give_from(r: &mut Random, c: &mut Case, row: usize) {
    let (t, delay) = c.delays[row];
    let len = c.e.trips[t as usize].stop_time_len;
    let from = r.below(len);
    let alone = r.yes(25);
    let mut last = if from > 0 { departs(c, t, from - 1) as i64 } else { 0 };
    for o in from..if alone { from + 1 } else { len } {
        if !served(c, t, o) && r.yes(60) {
            continue;
        }
        let s = stop_time_of(&c.e, t, o);
        let (sequence, arrival, departure) = (s.stop_sequence, s.arrival_s as i64, s.departure_s as i64);
        let near = delay as i64 - 40 + 10 * r.below(12) as i64;
        let arrives = (arrival + near).max(last);
        let departs = (departure + near + 10 * r.below(3) as i64).max(arrives);
        last = departs;
        let flags = if alone || o + 1 == len && r.yes(50) { 2 } else if o == 0 && r.yes(50) { 1 } else { 3 };
        put_stop_row(c, [row as u32, sequence, flags, (departs - departure) as u32, (arrives - arrival) as u32]);
    }
}

// in place of the row there, which may skip the stop
fn put_stop_row(c: &mut Case, mut s: [u32; 5]) {
    match c.stop_rows.binary_search_by_key(&(s[0], s[1]), |o| (o[0], o[1])) {
        Ok(k) => {
            s[2] |= c.stop_rows[k][2] & 4;
            c.stop_rows[k] = s;
        }
        Err(k) => c.stop_rows.insert(k, s),
    }
}

// unknown trips may have anything
fn strangers(r: &mut Random, c: &mut Case) {
    for row in 0..c.delays.len() {
        if c.delays[row].0 == UNKNOWN && r.yes(30) {
            c.stop_rows.push([row as u32, 2 + r.below(4), r.below(8), r.signed_inside(), r.signed_inside()]);
        }
    }
    c.stop_rows.sort();
}

// what the Rust reads, out of the rows
fn read_rows(c: &mut Case) {
    let mut all: Vec<RtTripAdjust> = c.delays.iter().map(|d| RtTripAdjust { trip_delay_s: d.1, ..Default::default() }).collect();
    c.stop_rows.iter().for_each(|s| add_stop(&mut all[s[0] as usize], s[1], s[2], s[3], s[4]));
    let name = |(i, d): (usize, &(u32, i32))| if d.0 == UNKNOWN { format!("unknown{i}") } else { format!("t{}", d.0) };
    c.q.rt_adjust = c.delays.iter().enumerate().map(name).zip(all).collect();
}

// BROKEN DAYS

// one condition broken, by most trips
fn break_one(r: &mut Random, c: &mut Case, k: usize) {
    match k {
        0 | 1 => give(r, c, k as u32 + 1),
        2 => past_cap(r, c),
        _ => before_0(r, c),
    }
}

// departures given later than the trip's delay has them, though before the next arrival (flag 1), or arrivals such that a later stop is reached
// sooner (flag 2): later ones in the middle of a trip, earlier ones at the end of a short one
fn give(r: &mut Random, c: &mut Case, flag: u32) {
    for (row, (t, delay)) in c.delays.clone().into_iter().enumerate() {
        let len = c.e.trips[t as usize].stop_time_len;
        let o = if flag == 1 { r.below(len) } else if len < 3 { len - 1 } else { 1 + r.below(len - 2) };
        let room = if o + 1 < len { arrives(c, t, o + 1).saturating_sub(departs(c, t, o)) } else { 0 };
        let by = match flag {
            1 => 1 + r.below(room.max(1)) as i32,
            _ if o + 1 < len => 30 + r.below(3000) as i32,
            _ => -(r.below(400) as i32),
        };
        let own = (delay + by) as u32;
        c.stop_rows.retain(|s| (s[0], s[1]) != (row as u32, stop_time_of(&c.e, t, o).stop_sequence));
        put_stop_row(c, [row as u32, stop_time_of(&c.e, t, o).stop_sequence, flag, own, own]);
    }
}

// all delays just past the cap, at times by one second, save where a trip would leave before 0
fn past_cap(r: &mut Random, c: &mut Case) {
    let most = if r.yes(30) { 1 } else { 400 };
    let cap = cap(c);
    let early = c.delays.iter().any(|d| d.1 < -cap / 2);
    for k in 0..c.delays.len() {
        let size = cap + 1 + r.below(most) as i32;
        if !early {
            c.delays[k].1 = size;
        } else if first_departure(c, c.delays[k].0) >= size {
            c.delays[k].1 = -size;
        }
    }
    if c.delays.iter().all(|d| d.1.abs() <= cap) {
        c.delays[0].1 = cap + 1;
    }
}

// trips that leave before 0, at times by one second, and a query from 0 on
fn before_0(r: &mut Random, c: &mut Case) {
    let most = if r.yes(30) { 1 } else { 400 };
    for k in 0..c.delays.len() {
        let first = first_departure(c, c.delays[k].0);
        c.delays[k].1 = (-first - 1 - r.below(most) as i32).max(-cap(c));
    }
    let least = c.origins.iter().map(|o| o.duration_s).min().unwrap_or(0);
    c.origins.iter_mut().for_each(|o| o.duration_s -= least);
    c.start = 0;
}

// IS IT SUCH A DAY?

// the calm part of the tables: as built, no windows, walks complete
fn calm(c: &Case) -> bool {
    let mut e = c.e.clone();
    build_departures(&mut e);
    build_lines(&mut e);
    let built = |e: &StaticEpoch| (e.stop_departures.clone(), e.stop_has_freq.clone(), e.line_trips.clone(), e.line_of_trip.clone());
    built(&e) == built(&c.e) && e.trips.iter().all(|t| t.frequency_windows.is_empty()) && walks_complete(c)
}

// the transfers have the time of this case's own settings
fn built_for(c: &Case) -> bool {
    c.e.trip_transfers.iter().flatten().flatten().all(|x| x.min_transfer_s == c.settings.transfer_time)
}

// no scheduled times fall
fn schedule_rises(e: &StaticEpoch) -> bool {
    e.trips.iter().all(|t| {
        let of_trip = &e.stop_times[t.stop_time_start as usize..(t.stop_time_start + t.stop_time_len) as usize];
        let times: Vec<u32> = of_trip.iter().flat_map(|s| [s.arrival_s, s.departure_s]).collect();
        times.windows(2).all(|p| p[0] <= p[1])
    })
}

// two edges, and an origin and an edge, have an edge and an origin no longer, save from a stop back to it
fn walks_complete(c: &Case) -> bool {
    let row = |w: &WalkEdge| (w.from_stop_idx, w.to_stop_idx, w.effective_duration_s(c.q.wheelchair));
    let edges: Vec<(u32, u32, u32)> = c.e.walk_edges.iter().map(row).collect();
    let walk = |a: u32, b: u32, most: u32| edges.iter().any(|e| (e.0, e.1) == (a, b) && e.2 <= most);
    let after = |x: u32| edges.iter().filter(move |e| e.0 == x);
    edges.iter().all(|e| after(e.1).all(|f| f.1 == e.0 || walk(e.0, f.1, e.2 + f.2)))
        && c.origins.iter().all(|o| after(o.stop_idx).all(|f| c.origins.iter().any(|p| p.stop_idx == f.1 && p.duration_s <= o.duration_s + f.2)))
}

// where a trip may be boarded, and where one who boarded it at offset o may leave it
fn boarded_at(c: &Case, t: u32) -> Vec<u32> {
    let listed = |o: u32, x: u32| c.e.stop_departures[x as usize].contains(&(t, o));
    let may = |o: &u32| stop_time_of(&c.e, t, *o).pickup_type != 1 && served(c, t, *o) && listed(*o, stop_time_of(&c.e, t, *o).stop_idx);
    if permitted(c, t) { (0..c.e.trips[t as usize].stop_time_len).filter(may).collect() } else { vec![] }
}

fn left_at(c: &Case, t: u32, o: u32) -> Vec<u32> {
    let may = |p: &u32| stop_time_of(&c.e, t, *p).drop_off_type != 1 && served(c, t, *p);
    (o + 1..c.e.trips[t as usize].stop_time_len).filter(may).collect()
}

// no effective times fall: from departure to arrival, from arrival to arrival, from departure to departure
fn rises(c: &Case, t: u32, boarded: &[u32]) -> bool {
    let ride = |o: u32| {
        let times: Vec<u32> = std::iter::once(departs(c, t, o)).chain(left_at(c, t, o).into_iter().map(|p| arrives(c, t, p))).collect();
        times.windows(2).all(|w| w[0] <= w[1])
    };
    boarded.iter().all(|o| ride(*o)) && boarded.windows(2).all(|w| departs(c, t, w[0]) <= departs(c, t, w[1]))
}

// no departure is further from its schedule than the cap
fn within_cap(c: &Case, t: u32, boarded: &[u32]) -> bool {
    boarded.iter().all(|o| departs(c, t, *o).abs_diff(stop_time_of(&c.e, t, *o).departure_s) <= c.settings.margin_cap)
}

// wherever it is boarded, the trip arrives at its effective times: where no time is given, the arrival is moved as far as the departure boarded was
fn one_arrival(c: &Case, t: u32, boarded: &[u32]) -> bool {
    let shift = |o: u32| departs(c, t, o) as i64 - stop_time_of(&c.e, t, o).departure_s as i64;
    let given = |p: u32| stop_row(c, t, p).is_some_and(|s| s[2] & 3 != 0);
    let same = |o: u32, p: u32| given(p) || (stop_time_of(&c.e, t, p).arrival_s as i64 + shift(o)).max(0) == arrives(c, t, p) as i64;
    boarded.iter().all(|o| left_at(c, t, *o).into_iter().all(|p| same(*o, p)))
}

// the conditions of a steady day, of one trip and of all
fn conditions_of(c: &Case, t: u32) -> [bool; 3] {
    let boarded = boarded_at(c, t);
    [rises(c, t, &boarded), within_cap(c, t, &boarded), one_arrival(c, t, &boarded)]
}

fn conditions(c: &Case) -> [bool; 3] {
    let all = (0..c.e.trips.len() as u32).map(|t| conditions_of(c, t));
    all.fold([true; 3], |a, b| [a[0] && b[0], a[1] && b[1], a[2] && b[2]])
}

// delays of whole trips: no scheduled times fall; of trips in the table no time is given, no delay is past the cap, no departure is put before 0
fn trip_delays(c: &Case) -> bool {
    let known: Vec<&(u32, i32)> = c.delays.iter().filter(|d| (d.0 as usize) < c.e.trips.len()).collect();
    let given = c.stop_rows.iter().any(|s| s[2] & 3 != 0 && (c.delays[s[0] as usize].0 as usize) < c.e.trips.len());
    let put = |t: u32, o: u32, delay: i32| stop_time_of(&c.e, t, o).departure_s as i64 + delay as i64;
    let after_0 = |d: &&(u32, i32)| (0..c.e.trips[d.0 as usize].stop_time_len).all(|o| put(d.0, o, d.1) >= 0);
    schedule_rises(&c.e) && !given && known.iter().all(|d| d.1.unsigned_abs() <= c.settings.margin_cap) && known.iter().all(after_0)
}

// flags not in use; and no delay row, all conditions, or all but the one broken; delays of whole trips break none
fn is_of(c: &Case, day: Day) -> bool {
    let kept = conditions(c);
    if flags_on(c) && !skip_nothing(c) || trip_delays(c) && kept != [true; 3] {
        return false;
    }
    match day {
        Day::Plain => c.delays.is_empty() && schedule_rises(&c.e),
        Day::Steady => kept == [true; 3],
        Day::Broken(k) => kept.iter().enumerate().all(|(i, kept)| *kept == (i != BREAKS[k].1)),
    }
}

// WHAT IT HAS

// is a departure listed, and one of another trip of its line at the same offset not, though its pickup is not 1?
fn uneven(c: &Case) -> bool {
    let listed: HashSet<(u32, u32)> = c.e.stop_departures.iter().flatten().copied().collect();
    let left_out = |u: u32, o: u32| stop_time_of(&c.e, u, o).pickup_type != 1 && !listed.contains(&(u, o));
    listed.iter().any(|(t, o)| c.e.line_trips[c.e.line_of_trip[*t as usize] as usize].iter().any(|u| left_out(*u, *o)))
}

// does a label of this kind at the best stop, of such a trip or from such a stop, arrive as the best total has it?
fn best_by(c: &Case, reply: &Reply, labels: &[u32], kind: u32, from: impl Fn(u32) -> bool) -> bool {
    let of_stop = || labels.chunks(8).skip(13 * reply.stop as usize).take(13);
    c.egress.get(&reply.stop).is_some_and(|a| of_stop().any(|w| w[0] == kind && w[1] + a.duration_s == reply.total && from(w[2])))
}

// of STEADY, which it has
fn steady_met(c: &Case, reply: &Reply, labels: &[u32]) -> [bool; 18] {
    let transfers = || c.e.trip_transfers.iter().flatten().flatten();
    // built ones all have one time
    let time = transfers().next().map(|x| x.min_transfer_s);
    let last = c.e.stop_departures.iter().flatten().any(|d| d.1 + 1 == c.e.trips[d.0 as usize].stop_time_len);
    let has_row = |t: &u32| delay_row(c, *t).is_some();
    let mixed = c.e.line_trips.iter().any(|l| l.iter().any(has_row) && !l.iter().all(has_row));
    let stranger = c.delays.iter().any(|d| d.0 == UNKNOWN && d.1.abs() > cap(c));
    let some = |test: &dyn Fn(i32) -> bool| c.delays.iter().any(|d| d.0 != UNKNOWN && test(d.1));
    let event = |test: fn(&Case, u32, u32) -> bool| {
        c.delays.iter().filter(|d| d.0 != UNKNOWN).any(|d| (0..c.e.trips[d.0 as usize].stop_time_len).any(|o| test(c, d.0, o)))
    };
    let given = |t: u32, flags: u32| (0..c.e.trips[t as usize].stop_time_len).any(|o| stop_row(c, t, o).is_some_and(|s| s[2] & flags != 0));
    let delayed = best_by(c, reply, labels, 2, |t| delay_row(c, t).map_or(0, |k| c.delays[k].1) != 0);
    [
        transfers().next().is_none(), transfers().any(|x| Some(x.min_transfer_s) != time), uneven(c), last, mixed, stranger, delayed,
        some(&|d| d > 0), some(&|d| d < 0), some(&|d| d == 0), some(&|d| d > 0 && d == cap(c)), some(&|d| d < 0 && d == -cap(c)),
        event(|c, t, o| !served(c, t, o)),
        event(|c, t, o| departs(c, t, o) == 0), event(|c, t, o| stop_row(c, t, o).is_some_and(|s| s[2] & 1 != 0)),
        event(|c, t, o| stop_row(c, t, o).is_some_and(|s| s[2] & 2 != 0)), best_by(c, reply, labels, 2, |t| given(t, 3)),
        !schedule_rises(&c.e),
    ]
}
