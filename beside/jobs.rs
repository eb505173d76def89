// A program's words, COUNT, SEED and JOBS (2 where not said), and so many threads, each with a seed of its own, that share the count; each has a tally
// of its own too (tally.rs).
fn in_jobs<T: Send + 'static>(count: u64, seed: u64, job: fn(u64, u64) -> T) -> Vec<T> {
    let words: Vec<u64> = std::env::args().skip(1).map(|n| n.parse().unwrap()).collect();
    let word = |k: usize, default: u64| words.get(k).copied().unwrap_or(default);
    let (count, seed, jobs) = (word(0, count), word(1, seed), word(2, 2).max(1));
    let metered = move |seed: u64| {
        meter_from(seed);
        let x = job(seed, count / jobs);
        hand_in();
        x
    };
    // building transfers takes a MiB of stack
    let start = |k: u64| std::thread::Builder::new().stack_size(16 << 20).spawn(move || metered(seed + (k << 32))).unwrap();
    let started: Vec<_> = (0..jobs).map(start).collect();
    started.into_iter().map(|j| j.join().unwrap()).collect()
}
