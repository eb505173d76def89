// A stand-in for frequency boarding (`--cfg mock`, in leaves): it gives what is expected. MUTANT=34 to 42 makes it wrong in one way each.
include!(concat!(env!("BESIDE"), "/mock_tally.rs"));

// one thing wrong, where it can show
fn wrong_boarding(w: &[u32], base: u32, dep: u32, after: u32, a: &mut FreqAnswer) {
    let runs = window_runs(w, base, dep, after);
    let Some(b) = boarded(&runs) else {
        // a number beside none
        a.window = if mutant() == 41 { u32::MAX } else { 0 };
        return;
    };
    let of = |x: &WindowRun| x.waiting(after);
    match mutant() {
        // the wait is the remainder
        34 if b.need > 0 => a.wait = a.remainder,
        // n without rounding up
        35 if b.need > 0 => a.run = a.quotient,
        // the last of the windows with the earliest departure
        36 => [a.window, a.run, a.quotient, a.remainder, a.wait] = of(runs.iter().rfind(|x| x.departure == b.departure).unwrap()),
        // quotient and remainder of the last window that has a run in time
        37 => [_, _, a.quotient, a.remainder, _] = of(runs.last().unwrap()),
        // no wait where need is not above zero
        38 if b.need <= 0 => a.wait = 0,
        // a whole headway to wait where nothing remains
        39 if b.need > 0 && a.remainder == 0 => a.wait = b.headway as u32,
        // need without the offset
        40 if b.need > 0 => [_, _, a.quotient, a.remainder, _] = of(&WindowRun { need: b.need + dep as i64 - base as i64, ..b }),
        // quotient and remainder where need is below zero too
        42 if b.need < 0 => [a.quotient, a.remainder] = [b.need.div_euclid(b.headway), b.need.rem_euclid(b.headway)].map(|n| n as u32),
        _ => {}
    }
}

// what tally.rs calls, that of cell sets (mock_cells.rs) too; it comes before the library's by the same name, which is not linked
mod exported {
    pub use super::stand_in_intersects as savoiky_cell_bitset_intersects;
    pub use super::sys::*;
    use super::{barred, freq_outcome, no_board, sys, tallied, words, wrong_boarding};

    pub unsafe extern "C" fn savoiky_freq_board(
        tally: *mut sys::Tally, screen: u32, settings: Settings, count: u32, windows: *const u32, windows_len: usize, base: u32, dep: u32, after: u32,
    ) -> FreqAnswer {
        let w = words(windows, windows_len);
        let mut a = freq_outcome(settings, count, &w, base, dep, after);
        if a.code == 0 {
            wrong_boarding(&w, base, dep, after, &mut a);
        }
        if let Some(code) = barred(&mut *tally, screen, a.code) {
            return no_board(code);
        }
        tallied(&mut *tally, screen, a.code, false);
        a
    }
}
