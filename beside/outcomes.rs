// What `run_tbr` and `query` must answer, and what every area must hold then: the door's number, or the Rust's answer.
#[derive(Clone, PartialEq)]
pub struct Outcome {
    pub reply: Reply,
    pub areas: Areas,
    // were the flags on in the search?
    pub flagged: bool,
}

fn reply(code: u32, total: u32, stop: u32, candidates: u32) -> Reply {
    Reply { code, total, stop, candidates }
}

fn clear(a: &mut Areas) {
    for v in [&mut a.labels, &mut a.work, &mut a.queue_a, &mut a.queue_b] {
        v.fill(0);
    }
    a.label_distances.fill(0);
}

// the switch as the call has it: `query` puts flags off that skip nothing
fn switch(call: Call, c: &Case) -> bool {
    c.off || call == Call::Query && skip_nothing(c)
}

fn answered(g: &Given, mut a: Areas) -> (Reply, Areas) {
    clear(&mut a);
    for (k, words, distance) in &g.labels {
        a.labels[8 * k..8 * k + 8].copy_from_slice(words);
        a.label_distances[*k] = distance.to_bits();
    }
    a.candidates.fill(0);
    for (row, c) in a.candidates.chunks_mut(3).zip(&g.candidates) {
        row.copy_from_slice(&[c.0, c.1, c.2 as u32]);
    }
    let (total, stop) = g.best.unwrap_or((u32::MAX, u32::MAX));
    (reply(0, total, stop, g.candidates.len() as u32), a)
}

// the earliest arrival at a stop that labels tell
fn reached(labels: &[(usize, [u32; 8], f64)], stop: u32) -> Option<u32> {
    labels.iter().filter(|l| l.0 as u32 / 13 == stop).map(|l| if l.1[0] == 1 { l.1[2] } else { l.1[1] }).min()
}

// of a search that the door admits, out of what the reference gave with the switch so
fn left(c: &Case, off: bool, (g, _, queue): &Ran, a: &Areas) -> Outcome {
    let mut areas = a.clone();
    let flagged = flags_on(c) && !off;
    if queue.iter().any(|n| *n > a.queue_a.len() / 4) {
        clear(&mut areas);
        return Outcome { reply: reply(8, 0, 0, 0), areas, flagged };
    }
    let (reply, areas) = answered(g, areas);
    Outcome { reply, areas, flagged }
}

// the same answer, scans and queue lengths, the distances bit for bit?
fn same_ran((a, scans, queue): &Ran, (b, other_scans, other_queue): &Ran) -> bool {
    let bits = |g: &Given| -> Vec<(usize, [u32; 8], u64)> { g.labels.iter().map(|l| (l.0, l.1, l.2.to_bits())).collect() };
    a.best == b.best && a.candidates == b.candidates && scans == other_scans && queue == other_queue && bits(a) == bits(b)
}

fn refusal(code: u32, a: &Areas) -> Outcome {
    Outcome { reply: reply(code, 0, 0, 0), areas: a.clone(), flagged: false }
}

fn searched(call: Call, c: &Case, a: &Areas) -> Outcome {
    let off = switch(call, c);
    left(c, off, &run(c, off), a)
}

fn outcome(call: Call, x: &Lent, a: &Areas) -> Outcome {
    match x.door(a) {
        0 => searched(call, &x.read(), a),
        code => refusal(code, a),
    }
}

fn work_outcome(settings: Settings, n: &QuerySizes) -> Answer {
    let x = Lent { settings, sizes: *n, tables: vec![], built: vec![], transfers: vec![], patterns: vec![], distances: vec![], query: vec![] };
    match if x.question_1() { settings.code(0) } else { 1 } {
        0 => given(work_size(n) as u32),
        code => refused(code),
    }
}
