// queries [COUNT [SEED [JOBS]]]: `run_tbr` and `query` beside the Rust: COUNT random searches of all kinds, small and large, a third of them damaged,
// under random settings; queue halves with just enough room and too little; 0, 1, limit and limit + 1 of every count, each end of the settings'
// ranges and one past each; for every ten of them a search of hostile words, one with cells over the whole range (cell_searches.rs), four plain days
// and two steady ones, there against all journeys and ways, and five plain days and one steady on tables that our building calls wrote (chains.rs);
// for every hundred, four days with one condition of a steady day broken, where the same test must find answers that are not what demand 3 asks.
// JOBS threads share them, each with a seed of its own. Every word of every area is compared, after a refusal too; one instance is one call with
// all that it could have written. It prints how many were compared, by the code expected, what was met in the answered ones (met.rs), on steady
// days (steady.rs) and in chains, and how many differed, tallies too (tally.rs); status 1 where any did, where a code or a thing was never met, or
// where a broken condition was never found.
#![allow(dead_code, unused)]
include!(concat!(env!("BESIDE"), "/query_parts.rs"));
include!(concat!(env!("BESIDE"), "/timetables.rs"));
include!(concat!(env!("BESIDE"), "/damage.rs"));
include!(concat!(env!("BESIDE"), "/drawn.rs"));
include!(concat!(env!("BESIDE"), "/cell_searches.rs"));
include!(concat!(env!("BESIDE"), "/met.rs"));
include!(concat!(env!("BESIDE"), "/journeys.rs"));
include!(concat!(env!("BESIDE"), "/steady.rs"));
include!(concat!(env!("BESIDE"), "/chains.rs"));
include!(concat!(env!("BESIDE"), "/jobs.rs"));

const COUNT: u64 = 400_000;

// What was compared: how many searches, how many differed, how often each code was expected; of those answered, how many have no way, and how many
// searched with the flags on.
#[derive(Default)]
struct Tally {
    compared: u64,
    differed: u64,
    codes: [u64; 15],
    no_way: u64,
    flagged: u64,
}

impl Tally {
    fn add(&mut self, want: &Outcome, same: bool) {
        self.compared += 1;
        self.differed += !same as u64;
        self.codes[want.reply.code as usize] += 1;
        if want.reply.code == 0 {
            self.no_way += (want.reply.total == u32::MAX) as u64;
            self.flagged += want.flagged as u64;
        }
    }
    fn join(&mut self, t: &Tally) {
        self.compared += t.compared;
        self.differed += t.differed;
        self.codes.iter_mut().zip(t.codes).for_each(|(a, b)| *a += b);
        self.no_way += t.no_way;
        self.flagged += t.flagged;
    }
    fn met_all(&self) -> bool {
        let c = &self.codes;
        c[..7].iter().all(|n| *n > 0) && c[8] > 0 && c[14] > 0 && self.no_way > 0 && self.no_way < c[0] && self.flagged > 0 && self.flagged < c[0]
    }
    fn print(&self, name: &str) {
        let c = &self.codes;
        println!("{name}: {} compared, {} differed", self.compared, self.differed);
        let answered = format!("answered {} ({} no way, {} with flags in use)", c[0], self.no_way, self.flagged);
        println!("  {answered}; refused by 1 to 6: {:?}, by 8: {}, by 14: {}", &c[1..7], c[8], c[14]);
    }
}

#[derive(Default)]
struct Tallies {
    calls: [Tally; 2],
    sizes: u64,
    sizes_differed: u64,
    // calls with hostile words, and with cells over the whole range, among those above
    hostile: u64,
    celled: u64,
    plain: Tally,
    steady: Tally,
    // of what days, plain ones and chains among them, must have met of the settings (HOUSES), how often
    houses: [u64; HOUSES.len()],
    days: u64,
    // of what steady days must have met (STEADY), how often
    steady_met: [u64; STEADY.len()],
    // steady days with one condition broken (BREAKS): those that differed were found
    broken: [Tally; BREAKS.len()],
    // plain and steady days on tables that our building calls wrote; of what the plain ones must have met (CHAINS), how often
    chains: [Tally; 2],
    chains_met: [u64; CHAINS.len()],
    met: Met,
    // cases that are not what their maker says
    wrong: u64,
}

impl Tallies {
    fn join(&mut self, t: &Tallies) {
        (0..2).for_each(|k| self.calls[k].join(&t.calls[k]));
        self.plain.join(&t.plain);
        self.steady.join(&t.steady);
        self.houses.iter_mut().zip(t.houses).for_each(|(a, b)| *a += b);
        self.days += t.days;
        self.steady_met.iter_mut().zip(t.steady_met).for_each(|(a, b)| *a += b);
        self.broken.iter_mut().zip(&t.broken).for_each(|(a, b)| a.join(b));
        self.chains.iter_mut().zip(&t.chains).for_each(|(a, b)| a.join(b));
        self.chains_met.iter_mut().zip(t.chains_met).for_each(|(a, b)| *a += b);
        self.met.join(&t.met);
        self.sizes += t.sizes;
        self.sizes_differed += t.sizes_differed;
        self.hostile += t.hostile;
        self.celled += t.celled;
        self.wrong += t.wrong;
    }
    fn differed(&self) -> bool {
        let days = [&self.plain, &self.steady, &self.chains[0], &self.chains[1]];
        self.calls.iter().any(|c| c.differed > 0) || days.iter().any(|d| d.differed > 0) || self.sizes_differed > 0 || tally_differed() > 0
    }
    fn fine(&self) -> bool {
        let calls = self.calls.iter().all(|c| c.met_all());
        !self.differed() && self.wrong == 0 && calls && self.plain.no_way > 0 && self.met.missing().is_empty() && self.days_fine()
    }
    // have steady days and chains met all they must, and was each broken condition found?
    fn days_fine(&self) -> bool {
        let s = &self.steady;
        if self.houses.contains(&0) {
            return false;
        }
        let met = s.no_way > 0 && s.flagged > 0 && s.flagged < s.compared && self.steady_met.iter().all(|n| *n > 0);
        met && self.broken.iter().all(|b| b.differed > 0) && self.chains.iter().all(|c| c.no_way > 0) && self.chains_met.iter().all(|n| *n > 0)
    }
    fn print(&self) {
        self.calls[0].print("run_tbr");
        self.calls[1].print("query");
        let of_them = format!("{} of them with hostile words, {} with cells over the whole range", self.hostile, self.celled);
        println!("instances of the two calls together: {} ({of_them})", self.calls[0].compared + self.calls[1].compared);
        println!("workspace sizes: {} compared, {} differed", self.sizes, self.sizes_differed);
        self.print_days();
        self.met.print();
        if self.wrong > 0 {
            println!("{} cases are not what they should be", self.wrong);
        }
    }
    fn houses_of(&mut self, c: &Case, reply: &Reply) {
        self.days += 1;
        let met = houses_met(c, reply, self.days % SAMPLE == 0);
        self.houses.iter_mut().zip(met).for_each(|(n, yes)| *n += yes as u64);
    }
    // the comparison with all journeys and ways
    fn print_days(&self) {
        let all = ["plain days", "steady days", "plain days of tables built by our calls", "steady days of tables built by our calls"];
        for (name, d) in all.iter().zip([&self.plain, &self.steady, &self.chains[0], &self.chains[1]]) {
            let counts = format!("{} compared ({} no way, {} with flags on), {} differed", d.compared, d.no_way, d.flagged, d.differed);
            println!("query against all journeys and ways, {name}: {counts}");
        }
        for (name, things, met) in [(all[1], &STEADY[..], &self.steady_met[..]), (all[2], &CHAINS, &self.chains_met)] {
            let met: Vec<String> = things.iter().zip(met).map(|(thing, n)| format!("{thing} {n}")).collect();
            println!("  {name} with: {}", met.join(", "));
        }
        let houses: Vec<String> = HOUSES.iter().zip(self.houses).map(|(name, n)| format!("{name} {n}")).collect();
        println!("  all of them with: {}", houses.join(", "));
        let broken: Vec<String> = BREAKS.iter().zip(&self.broken).map(|((name, _), b)| format!("{name} {} of {}", b.differed, b.compared)).collect();
        println!("  found to differ where one condition is broken: {}", broken.join(", "));
    }
}

// The search that a case was lent as, put to both calls; where it was not damaged, the case and the reference's answer to it: what is lent says the case,
// if the reference answers alike to what is read back.
fn compare(t: &mut Tallies, x: &Lent, a: &Areas, given: Option<&Ran>) {
    let wants = match x.door(a) {
        0 => {
            let c = x.read();
            let ran = run(&c, c.off);
            t.wrong += given.is_some_and(|g| !same_ran(g, &ran)) as u64;
            let one = left(&c, c.off, &ran, a);
            let off = switch(Call::Query, &c);
            let two = if off == c.off { None } else { Some(left(&c, off, &run(&c, off), a)) };
            t.met.add(&c, x, a, &ran, &one, two.is_some(), given.is_none());
            (one, two)
        }
        code => {
            t.wrong += given.is_some() as u64;
            (refusal(code, a), None)
        }
    };
    for (k, call) in [Call::RunTbr, Call::Query].into_iter().enumerate() {
        let want = if k == 1 { wants.1.as_ref().unwrap_or(&wants.0) } else { &wants.0 };
        let mut got = a.clone();
        let reply = ask_ours(call, x, &mut got);
        t.calls[k].add(want, reply == want.reply && got == want.areas);
    }
    t.sizes += 1;
    t.sizes_differed += (unsafe { savoiky_work_size(x.settings, x.sizes) } != work_outcome(x.settings, &x.sizes)) as u64;
}

// so many searches on tables drawn once
const QUERIES: u64 = 4;

fn random_searches(r: &mut Random, t: &mut Tallies, kind: u32, which: u32) {
    let (mut c, mut ran) = drawn(r, kind, which);
    for k in 0..QUERIES {
        if k > 0 && which == 2 {
            (c, ran) = drawn(r, kind, which);
        } else if k > 0 {
            ran = drawn_again(r, &mut c);
        }
        random_search(r, t, &c, &ran);
    }
}

fn random_search(r: &mut Random, t: &mut Tallies, c: &Case, ran: &Ran) {
    let loose = r.yes(50);
    let mut x = lend(r, c, loose);
    let half = half_for(r, flags_on(c), &ran.2);
    let mut a = areas(r, &x.sizes, half);
    let damaged = r.below(3) == 0;
    // a search does not read the transfer time
    if r.yes(30) {
        x.settings.transfer_time = r.settings().transfer_time;
    }
    if damaged {
        (0..1 + r.below(2)).for_each(|_| x.damage(r));
        if r.yes(8) {
            damage_area(r, &mut a);
        }
    }
    // a copy is exactly as long as it says
    compare(t, &x.clone(), &a, if damaged { None } else { Some(ran) });
}

// so many queries on the tables of one day: another start, egress, change time, rounds, modes, excluded trips, delays, settings; the walks stay
// complete, and the transfer time stays the one that the tables were built with
const ASKED: u32 = 4;

fn ask_again(r: &mut Random, c: &mut Case) {
    let (origins, wheelchair) = (c.origins.clone(), c.q.wheelchair);
    ask_anew(r, c);
    (c.origins, c.q.wheelchair) = (origins, wheelchair);
}

fn day_searches(r: &mut Random, t: &mut Tallies, day: Day) {
    let mut c = day_of(r, day);
    for k in 0..ASKED {
        if k > 0 || day != Day::Plain {
            ask_again(r, &mut c);
        }
        delay(r, &mut c, day);
        // at times nothing was there to break, or rides are permitted whose times fall
        let made = day == Day::Plain || day == Day::Steady && schedule_rises(&c.e);
        if !made && !is_of(&c, day) {
            continue;
        }
        t.wrong += !(is_of(&c, day) && (k > 0 || calm(&c)) && (day != Day::Plain || built_for(&c))) as u64;
        day_search(r, t, &c, day);
    }
}

// what days must have met of their settings; of a sample alone, journeys later than the best total by more than one slack and not by the other
const HOUSES: [&str; 6] = [
    "settings other than the Rust's own", "transfers of another time than 120", "a journey past the slack and within 3,600 s",
    "a journey within the slack and past 3,600 s", "a delay past the cap and within 21,600 s", "a delay within the cap and past 21,600 s",
];

fn houses_met(c: &Case, reply: &Reply, sample: bool) -> [bool; 6] {
    let (slack, cap) = (c.settings.candidate_slack, c.settings.margin_cap);
    let late = if sample && slack != 3600 && reply.total != u32::MAX { journeys(c) } else { vec![] };
    let late = |past: u32, within: u32| late.iter().any(|v| v.saturating_sub(reply.total) > past && v.saturating_sub(reply.total) <= within);
    let delay = |past: u32, within: u32| c.delays.iter().any(|d| d.1.unsigned_abs() > past && d.1.unsigned_abs() <= within);
    let own_time = |x: &TripTransferEntry| x.min_transfer_s == c.settings.transfer_time && x.min_transfer_s != 120;
    let timed = c.e.trip_transfers.iter().flatten().flatten().any(own_time);
    [c.settings != OWN, timed, late(slack, 3600), late(3600, slack), delay(cap, 21_600), delay(21_600, cap)]
}

// is `query`'s answer what demand 3 asks? A refusal is none, and finds nothing on a broken day.
fn day_search(r: &mut Random, t: &mut Tallies, c: &Case, day: Day) {
    let x = lend(r, c, false);
    let mut a = areas(r, &x.sizes, 4096);
    let reply = ask_ours(Call::Query, &x, &mut a);
    let scans = run(c, switch(Call::Query, c)).1;
    let differs = if reply.code == 0 { !demand_3(c, &scans, &reply, &a.candidates) } else { !matches!(day, Day::Broken(_)) };
    t.wrong += (reply.code != 0) as u64;
    t.houses_of(c, &reply);
    let days = match day {
        Day::Plain => &mut t.plain,
        Day::Steady => &mut t.steady,
        Day::Broken(k) => &mut t.broken[k],
    };
    days.compared += 1;
    days.no_way += (reply.total == u32::MAX) as u64;
    days.flagged += flags_on(c) as u64;
    days.differed += differs as u64;
    if day == Day::Steady {
        let met = steady_met(c, &reply, &a.labels);
        t.steady_met.iter_mut().zip(met).for_each(|(n, yes)| *n += yes as u64);
    }
}

fn at_limits(r: &mut Random, t: &mut Tallies) {
    for (x, code) in search_limits() {
        // the areas of a refused search may have any length
        let n = if x.question_1() { x.sizes } else { FEW };
        let a = areas(r, &n, 4 * 65536);
        t.wrong += code.is_some_and(|k| x.door(&a) != k) as u64;
        compare(t, &x, &a, None);
    }
}

fn job(seed: u64, count: u64) -> Tallies {
    let (mut r, mut t) = (Random(seed), Tallies::default());
    // chains draw from numbers of their own, and so do searches with cells over the whole range
    let (mut own, mut celled) = (Random(!seed), Random(!seed.rotate_left(32)));
    // FIRST=1: no further than a first difference (beside/mutants)
    let first = std::env::var("FIRST").is_ok();
    at_limits(&mut r, &mut t);
    for i in 0..count / QUERIES {
        random_searches(&mut r, &mut t, (i % 16) as u32, (i / 16 % 5) as u32);
        if i % 5 < 2 {
            let (x, a) = hostile(&mut r);
            compare(&mut t, &x, &a, None);
            t.hostile += 2;
            day_searches(&mut r, &mut t, Day::Plain);
        }
        if i % 5 == 2 {
            day_searches(&mut r, &mut t, Day::Steady);
        }
        if i % 25 == 3 {
            day_searches(&mut r, &mut t, Day::Broken((i / 25 % 4) as usize));
        }
        if i % 2 == 0 {
            chain_searches(&mut own, &mut t, Day::Plain);
        }
        if i % 10 == 5 {
            chain_searches(&mut own, &mut t, Day::Steady);
        }
        if i % 10 == 7 {
            cell_searches(&mut celled, &mut t, i / 10);
        }
        if first && t.differed() {
            let chains = t.chains[0].compared + t.chains[1].compared;
            println!("first difference after {} searches, {} plain and {} steady days, {chains} chains", t.sizes, t.plain.compared, t.steady.compared);
            break;
        }
    }
    t
}

fn main() {
    let mut t = Tallies::default();
    in_jobs(COUNT, 0x9E7A, job).iter().for_each(|other| t.join(other));
    t.print();
    std::process::exit(!(tally_fine() && t.fine()) as i32);
}
