// Searches drawn at random: a case that is seldom dull, with the reference's answer to it, and room in the queue that suits it.

// at times all times as late as may be
fn put_late(r: &mut Random, c: &mut Case) {
    if !r.yes(8) {
        return;
    }
    let windows = c.e.trips.iter().flat_map(|t| &t.frequency_windows).map(|w| w.start_s.max(w.end_s)).max().unwrap_or(0);
    let late = LIMIT - c.e.stop_times.iter().map(|t| t.arrival_s.max(t.departure_s)).max().unwrap_or(0).max(windows);
    c.later = late;
    c.start = (c.start + late).min(LIMIT);
    c.e.stop_times.iter_mut().for_each(|t| (t.arrival_s, t.departure_s) = (t.arrival_s + late, t.departure_s + late));
    c.e.trips.iter_mut().flat_map(|t| &mut t.frequency_windows).for_each(|w| (w.start_s, w.end_s) = (w.start_s + late, w.end_s + late));
}

// distances of any bits
fn spread(r: &mut Random, c: &mut Case) {
    c.e.walk_edges.iter_mut().for_each(|w| w.distance_m = r.distance());
    c.origins.iter_mut().for_each(|o| o.distance_m = r.distance());
}

// egress walks such that all egress stops have the same total, where the search stays as it was
fn level(c: &mut Case, labels: &[(usize, [u32; 8], f64)]) {
    let total = c.egress.keys().filter_map(|s| reached(labels, *s)).max().unwrap_or(0) + 5;
    for (s, a) in c.egress.iter_mut() {
        a.duration_s = (total - reached(labels, *s).unwrap_or(total)).min(LIMIT);
    }
}

// tables of this kind, small, large, a ladder or close, with a query
fn drawn_tables(r: &mut Random, kind: u32, which: u32) -> Case {
    let mut c = match which {
        0 => case(r, kind, &LARGE),
        1 => ladder(r, kind),
        2 => close(r, kind | 6),
        _ => case(r, kind, &SMALL),
    };
    put_late(r, &mut c);
    c
}

// a case, most often one that is not dull, and the reference's answer to it: every fourth try has new tables
fn drawn(r: &mut Random, kind: u32, which: u32) -> (Case, Ran) {
    let tries = if which == 2 || r.yes(12) { 1 } else { 40 };
    let mut c = drawn_tables(r, kind, which);
    let mut ran = answered_to(r, &mut c);
    for i in 1..tries {
        if !dull(&c, kind, &ran.1, &ran.2) {
            break;
        }
        if i % 4 == 0 {
            c = drawn_tables(r, kind, which);
        } else {
            ask_anew(r, &mut c);
        }
        ran = answered_to(r, &mut c);
    }
    (c, ran)
}

// another query on the same tables; a dull one is drawn once more
fn drawn_again(r: &mut Random, c: &mut Case) -> Ran {
    ask_anew(r, c);
    let ran = answered_to(r, c);
    if !dull(c, c.kind, &ran.1, &ran.2) {
        return ran;
    }
    ask_anew(r, c);
    answered_to(r, c)
}

// the reference's answer, after distances and at times egress walks were put otherwise
fn answered_to(r: &mut Random, c: &mut Case) -> Ran {
    spread(r, c);
    let ran = run(c, c.off);
    if !r.yes(12) {
        return ran;
    }
    level(c, &ran.0.labels);
    run(c, c.off)
}

// words in each queue half: enough, just enough or, where segments are queued, too few
fn half_for(r: &mut Random, flags: bool, queue: &[usize]) -> usize {
    if !flags {
        return r.below(9) as usize;
    }
    let most = queue.iter().max().copied().unwrap_or(0);
    match r.below(6) {
        0 if most > 0 => 4 * most - 1 - r.below(4) as usize,
        1 => 4 * most + r.below(4) as usize,
        2 => r.below(4 * most as u32 + 1) as usize,
        _ => 4 * most + r.below(60) as usize,
    }
}
