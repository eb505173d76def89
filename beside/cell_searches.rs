// Searches with cells over the whole range: counts of cells at the ends of words and beside them, stops' cells in every word, patterns of one
// cell, of all but the target's, of any, cells past the count among them. They draw from numbers of their own, so that all else stays as it was.
const CELL_COUNTS: [u32; 9] = [1, 63, 64, 65, 128, 449, 500, 511, 512];

// a cell below the count, at times at an end of a word or of half a word; now and then one at or past the count
fn any_cell(r: &mut Random, cells: u32) -> u32 {
    match r.below(20) {
        0 => cells + r.below(3) * r.below(64),
        1..=4 => (64 * r.below(8) + [0, 31, 32, 63][r.below(4) as usize]).min(cells - 1),
        _ => r.below(cells),
    }
}

// the cells of a pattern; the target's are these
fn any_pattern(r: &mut Random, target: &[u32], cells: u32) -> Vec<u32> {
    let one = if target.is_empty() { any_cell(r, cells) } else { target[r.below(target.len() as u32) as usize] };
    match r.below(7) {
        0 | 1 => vec![one],
        // the number differs in one bit: the next cell, another byte, the other half of the word, another word
        2 => vec![one ^ 1 << r.below(9)],
        3 => vec![any_cell(r, cells)],
        4 => (0..512).filter(|c| !target.contains(c)).collect(),
        // past the target's words alone
        5 => ((cells + 63) / 64 * 64..512).collect(),
        _ => (0..512).filter(|_| r.yes(50)).collect(),
    }
}

// other cells and patterns on these tables
fn put_cells(r: &mut Random, c: &mut Case, cells: u32) {
    let e = &mut c.e;
    e.num_cells = cells;
    e.stop_partition.iter_mut().for_each(|s| *s = any_cell(r, cells));
    let target: Vec<u32> = c.egress.keys().map(|s| e.stop_partition[*s as usize]).collect();
    (e.flag_patterns, c.patterns) = (vec![], vec![]);
    for _ in 0..1 + r.below(6) {
        let (made, held) = (if r.yes(30) { cells } else { 512 }, any_pattern(r, &target, cells));
        let mut p = Oracle::new(made);
        held.iter().for_each(|&k| p.set_bit(k as usize));
        e.flag_patterns.push(p);
        c.patterns.push((made, held));
    }
    let count = e.flag_patterns.len() as u32;
    let rows = e.trip_transfers.iter_mut().flatten().flatten().map(|x| &mut x.flag_pattern);
    e.arc_flag_pattern.iter_mut().chain(rows).for_each(|p| {
        let past = if r.yes(5) { 2 } else { 0 };
        *p = r.below(count + past);
    });
}

// so many searches on tables drawn once, each with cells and patterns of its own
fn cell_searches(r: &mut Random, t: &mut Tallies, i: u64) {
    let mut c = drawn(r, (i % 16) as u32 | 4, (i / 16 % 5) as u32).0;
    for k in 0..QUERIES {
        if k > 0 {
            ask_anew(r, &mut c);
        }
        c.off = r.yes(5);
        put_cells(r, &mut c, CELL_COUNTS[((i + k) % 9) as usize]);
        let ran = answered_to(r, &mut c);
        random_search(r, t, &c, &ran);
        t.celled += 2;
    }
}

// WHAT ANSWERED SEARCHES HAVE MET, where flags skip some row (met.rs)

fn cells_met(c: &Case, skipping: bool) -> [bool; 4] {
    if !skipping {
        return [false; 4];
    }
    let target = target_cells(c);
    let mut used = vec![false; c.e.flag_patterns.len()];
    let rows = c.e.trip_transfers.iter().flatten().flatten().map(|x| x.flag_pattern);
    rows.chain(c.e.arc_flag_pattern.iter().copied()).for_each(|p| used.get_mut(p as usize).into_iter().for_each(|u| *u = true));
    let any = |test: &dyn Fn(&Oracle) -> bool| c.e.flag_patterns.iter().zip(&used).any(|(p, used)| *used && test(p));
    let single = |p: &Oracle| p.words().iter().map(|w| w.count_ones()).sum::<u32>() == 1;
    let beyond = |p: &Oracle| !p.is_empty() && p.words().iter().take(target.words().len()).all(|w| *w == 0);
    [c.e.num_cells > 64, any(&|p| single(p) && p.intersects(&target)), any(&|p| single(p) && !p.intersects(&target)), any(&beyond)]
}
