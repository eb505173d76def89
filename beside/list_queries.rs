// Stored answers of `run_tbr` and `query`, for crates/replay. A line, of kind 12, after the screen and the settings:
//   the 15 counts; the lengths of the 12 slices lent (timetable, built, transfers, patterns, distances, query; labels, their distances,
//   workspace, the two queue halves, candidates); the words of timetable, built, transfers, query, then the patterns (a byte a word) and
//   the distances (whole numbers). Then for `run_tbr`, and again for `query`: code, total, stop, number of candidates, their words (3 each),
//   number of labels, each: its record, eight words, distance. What is lent to be written holds 7 in every word.
// Searches are drawn as the comparison draws them; kept are those that are small enough for the program's arrays.

// the most words of a line, and of labels, their distances, workspace, queue half, candidates; of patterns and distances
const ROOM: [usize; 8] = [640, 840, 105, 384, 128, 40, 256, 64];

// of 18 searches in a row: 9 with a way, one with none (7), one refused by 8, by 14 and by each of 1 to 6
const WANTED: [u32; 18] = [0, 0, 1, 0, 2, 0, 3, 0, 4, 0, 5, 0, 6, 0, 7, 0, 8, 14];

fn met(o: &Outcome) -> u32 {
    if o.reply.code == 0 && o.reply.total == u32::MAX { 7 } else { o.reply.code }
}

fn fits(x: &Lent, a: &Areas) -> bool {
    let n = [a.labels.len(), a.label_distances.len(), a.work.len(), a.queue_a.len().max(a.queue_b.len()), a.candidates.len(), x.patterns.len(), x.distances.len()];
    n.iter().zip(&ROOM[1..]).all(|(n, most)| n <= most)
}

// the areas all of sevens, as long as they are
fn sevens(a: &mut Areas) {
    for v in [&mut a.labels, &mut a.work, &mut a.queue_a, &mut a.queue_b, &mut a.candidates] {
        v.fill(7);
    }
    a.label_distances.fill(7f64.to_bits());
}

fn whole(bits: u64) -> u32 {
    f64::from_bits(bits) as u32
}

fn outcome_words(o: &Outcome) -> Vec<u32> {
    let r = o.reply;
    let mut w = vec![r.code, r.total, r.stop, r.candidates];
    w.extend(&o.areas.candidates[..3 * r.candidates as usize]);
    let labels: Vec<(usize, &[u32])> = o.areas.labels.chunks(8).enumerate().filter(|(_, l)| r.code == 0 && l[0] != 0).collect();
    w.push(labels.len() as u32);
    for (k, l) in labels {
        w.push(k as u32);
        w.extend(l);
        w.push(whole(o.areas.label_distances[k]));
    }
    w
}

fn search_words(x: &Lent, a: &Areas) -> Vec<u32> {
    let mut sizes = x.sizes;
    let mut w = sizes.numbers().to_vec();
    w.extend([x.tables.len(), x.built.len(), x.transfers.len(), x.patterns.len(), x.distances.len(), x.query.len()].map(|n| n as u32));
    let lent = [a.labels.len(), a.label_distances.len(), a.work.len(), a.queue_a.len(), a.queue_b.len(), a.candidates.len()];
    w.extend(lent.map(|n| n as u32));
    for part in [&x.tables, &x.built, &x.transfers, &x.query] {
        w.extend(part);
    }
    w.extend(x.patterns.iter().map(|b| *b as u32));
    w.extend(x.distances.iter().map(|d| whole(*d)));
    w
}

// a search drawn at random, with distances that are whole numbers; damaged where a refusal is wanted
fn drawn_small(r: &mut Random, kind: u32, wanted: u32) -> (Lent, Areas) {
    let which = [1, 2, 3, 3, 3][r.below(5) as usize];
    let (mut c, ran) = drawn(r, kind, which);
    c.e.walk_edges.iter_mut().for_each(|w| w.distance_m = r.below(10_000) as f64);
    c.origins.iter_mut().for_each(|o| o.distance_m = r.below(10_000) as f64);
    let loose = r.yes(30);
    let mut x = lend(r, &c, loose);
    let half = half_for(r, flags_on(&c), &ran.2);
    let mut a = areas(r, &x.sizes, half);
    if wanted == 14 {
        x.settings = r.settings_outside();
    }
    if (1..7).contains(&wanted) {
        (0..1 + r.below(2)).for_each(|_| x.damage(r));
        if r.yes(20) {
            damage_area(r, &mut a);
        }
    }
    sevens(&mut a);
    (x, a)
}

fn stored_query(r: &mut Random, kind: u32, wanted: u32, s: &mut Screens) {
    loop {
        let (x, a) = drawn_small(r, if wanted == 8 { kind | 4 } else { kind }, wanted);
        if !fits(&x, &a) {
            continue;
        }
        let (one, two) = (outcome(Call::RunTbr, &x, &a), outcome(Call::Query, &x, &a));
        let lent = search_words(&x, &a);
        let answers = [outcome_words(&one), outcome_words(&two)].concat();
        if lent.len() + answers.len() < ROOM[0] && met(&one) == wanted {
            let screen = s.any();
            let no = outcome_words(&refusal(15, &a));
            let w = [lent, for_screen(screen, [&no[..], &no].concat(), answers)].concat();
            return line(s, 12, screen, x.settings, &w, &[one.reply.code, two.reply.code]);
        }
    }
}

fn stored_queries(r: &mut Random, rows: u32, s: &mut Screens) {
    for i in 0..rows {
        stored_query(r, i % 16, WANTED[i as usize % 18], s);
    }
}
