// What all stand-ins take (`--cfg mock`): which way they are wrong in, the words that are lent, question 15 and the tally.
fn mutant() -> u32 {
    static N: std::sync::OnceLock<u32> = std::sync::OnceLock::new();
    *N.get_or_init(|| std::env::var("MUTANT").map(|m| m.parse().unwrap()).unwrap_or(0))
}

unsafe fn words<T: Clone>(p: *const T, n: usize) -> Vec<T> {
    std::slice::from_raw_parts(p, n).to_vec()
}

// The code of a call for a screen above 63, else none; `code` is what the call gives for another.
fn barred(t: &mut sys::Tally, screen: u32, code: u32) -> Option<u32> {
    let last = match mutant() {
        // screen 64 is let in, and counted nowhere
        31 => 64,
        // screen 63 is refused
        32 => 62,
        _ => 63,
    };
    if screen <= last {
        return None;
    }
    match mutant() {
        // it is counted
        23 => t.refused[screen as usize % 64] = t.refused[screen as usize % 64].saturating_add(1),
        // question 1 before question 15
        28 if code == 1 => return Some(1),
        // question 14 before it
        30 if code == 14 => return Some(14),
        _ => {}
    }
    Some(15)
}

// one more call for this screen in the tally
fn tallied(t: &mut sys::Tally, screen: u32, code: u32, no_way: bool) {
    let screen = match mutant() {
        // the next screen's count
        27 => (screen as usize + 1) % 64,
        31 if screen > 63 => return,
        _ => screen as usize,
    };
    let answered = match mutant() {
        // a refusal is answered
        24 => true,
        // no way is refused
        25 => code == 0 && !no_way,
        _ => code == 0,
    };
    let n = if answered { &mut t.answered[screen] } else { &mut t.refused[screen] };
    // 0 after the greatest count
    *n = if mutant() == 26 { n.wrapping_add(1) } else { n.saturating_add(1) };
}
