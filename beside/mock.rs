// Stand-ins for the calls (`--cfg mock`), to try the comparison itself and the metering (tally.rs), which goes over them: they give what it expects.
// MUTANT=1.. makes them wrong in one way each.
include!(concat!(env!("BESIDE"), "/mock_tally.rs"));

// one thing wrong, where it can show
fn wrong(call: Call, x: &Lent, a: &Areas, o: &mut Outcome) {
    let ok = o.reply.code == 0;
    match mutant() {
        // a label row that keeps what was in it
        1 if ok && a.labels.len() > 103 => o.areas.labels[97] = a.labels[97],
        // a queue half that is just full, taken as too short
        2 if ok && o.flagged && run(&x.read(), switch(call, &x.read())).2.iter().any(|n| *n > 0 && *n == a.queue_a.len() / 4) => {
            *o = Outcome { reply: reply(8, 0, 0, 0), areas: a.clone(), flagged: true };
            clear(&mut o.areas);
        }
        // a candidate's row
        3 if o.reply.candidates > 1 => o.areas.candidates[5] += 1,
        // `query` with the flags on, though they skip nothing
        4 if ok && call == Call::Query => *o = searched(Call::RunTbr, &x.read(), a),
        // equal totals go to the highest stop
        5 if ok && o.reply.total != u32::MAX => {
            let c = x.read();
            let labels = run(&c, switch(call, &c)).0.labels;
            let total = |s: &u32| reached(&labels, *s).map(|v| v + c.egress[s].duration_s);
            o.reply.stop = *c.egress.keys().rev().find(|s| total(s) == Some(o.reply.total)).unwrap();
        }
        // a NaN that loses its payload
        6 => o.areas.label_distances.iter_mut().filter(|d| f64::from_bits(**d).is_nan() && ok).for_each(|d| *d = f64::NAN.to_bits()),
        // a refusal by 6 that has cleared the workspace
        7 if o.reply.code == 6 => o.areas.work.fill(0),
        // question 5 before question 4
        8 if o.reply.code == 4 && !x.question_5(&x.sections()) => o.reply.code = 5,
        // egress stops or departures out of order, let in
        9 if o.reply.code == 6 && x.sections().delays.ordered() && x.rows().ordered() => o.reply.code = 0,
        // the workspace's last word
        10 if ok => *o.areas.work.last_mut().unwrap() = 1,
        // candidates cleared after 8
        11 if o.reply.code == 8 => o.areas.candidates.fill(0),
        // a best total that is one second late, where there are three candidates
        12 if ok && call == Call::Query && o.reply.total != u32::MAX && o.reply.candidates > 2 => o.reply.total += 1,
        _ => wrong_house(call, x, a, o),
    }
}

// the same of the settings
fn wrong_house(call: Call, x: &Lent, a: &Areas, o: &mut Outcome) {
    let ignored = |k: usize| outcome(call, &Lent { settings: x.settings.with(k, OWN.numbers()[k]), ..x.clone() }, a);
    match mutant() {
        // question 14 before question 1
        17 if o.reply.code == 1 && !x.settings.in_range() => o.reply.code = 14,
        // after question 2
        18 if o.reply.code == 14 && !x.question_2(a) => o.reply.code = 2,
        // not asked of the transfer time, which a query does not read
        19 if o.reply.code == 14 => *o = ignored(0),
        // one of the three numbers that a query reads, ignored
        20..=22 if o.reply.code == 0 => *o = ignored(mutant() as usize - 19),
        _ => {}
    }
}

macro_rules! stand_in {
    ($name:ident, $call:expr) => {
        pub unsafe extern "C" fn $name(
            tally: *mut sys::Tally, screen: u32, settings: Settings, sizes: QuerySizes, t: *const u32, tn: usize, b: *const u32, bn: usize, x: *const u32,
            xn: usize, p: *const u8, pn: usize, d: *const f64, dn: usize, q: *const u32, qn: usize, l: *mut u32, ln: usize, ld: *mut f64, ldn: usize,
            w: *mut u32, wn: usize, qa: *mut u32, qan: usize, qb: *mut u32, qbn: usize, c: *mut u32, cn: usize,
        ) -> Reply {
            let lent = Lent {
                settings, sizes, tables: words(t, tn), built: words(b, bn), transfers: words(x, xn), patterns: words(p, pn),
                distances: words(d as *const u64, dn), query: words(q, qn),
            };
            let a = Areas {
                labels: words(l, ln), label_distances: words(ld as *const u64, ldn), work: words(w, wn), queue_a: words(qa, qan), queue_b: words(qb, qbn),
                candidates: words(c, cn),
            };
            let mut o = outcome($call, &lent, &a);
            wrong($call, &lent, &a, &mut o);
            if let Some(code) = barred(&mut *tally, screen, o.reply.code) {
                // 15 that has written to the workspace
                if mutant() == 29 && wn > 0 {
                    *w = !*w;
                }
                // the total of no way beside 15
                return reply(code, if mutant() == 33 { u32::MAX } else { 0 }, 0, 0);
            }
            for (to, from) in [(l, &o.areas.labels), (w, &o.areas.work), (qa, &o.areas.queue_a), (qb, &o.areas.queue_b), (c, &o.areas.candidates)] {
                std::ptr::copy_nonoverlapping(from.as_ptr(), to, from.len());
            }
            std::ptr::copy_nonoverlapping(o.areas.label_distances.as_ptr(), ld as *mut u64, ldn);
            tallied(&mut *tally, screen, o.reply.code, o.reply.total == u32::MAX);
            o.reply
        }
    };
}

// what tally.rs calls: the stand-ins, which come before the library's by the same names (those are not linked)
mod exported {
    pub use super::sys::*;
    use super::{barred, mutant, outcome, refused, reply, sys, tallied, work_outcome, words, wrong, Areas, Call, Lent};

    stand_in!(savoiky_run_tbr, Call::RunTbr);
    stand_in!(savoiky_query, Call::Query);

    pub unsafe extern "C" fn savoiky_work_size(tally: *mut sys::Tally, screen: u32, settings: Settings, n: QuerySizes) -> Answer {
        let a = work_outcome(settings, &n);
        if let Some(code) = barred(&mut *tally, screen, a.code) {
            return refused(code);
        }
        tallied(&mut *tally, screen, a.code, false);
        a
    }
}
