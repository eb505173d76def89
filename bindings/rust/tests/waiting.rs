//! Frequency boarding with its waiting (document 02, T-02), and what a guest reads of it.
use savoiky::{earliest_freq_board, FreqBoard, FrequencyWindow, Settings, Tally};

const S: Settings = Settings::DEFAULT;

fn window(start_s: u32, end_s: u32, headway_s: u32) -> FrequencyWindow {
    FrequencyWindow { start_s, end_s, headway_s }
}

fn board(windows: &[FrequencyWindow], base_s: u32, departure_s: u32, after_s: u32) -> Option<FreqBoard> {
    earliest_freq_board(&mut Tally::new(), 0, S, windows, base_s, departure_s, after_s).unwrap()
}

/// Departure, shift, window, run, quotient, remainder, wait and headway of a run that is found.
fn numbers(windows: &[FrequencyWindow], base_s: u32, departure_s: u32, after_s: u32) -> (u32, i32, [u32; 6]) {
    let b = board(windows, base_s, departure_s, after_s).unwrap();
    (b.departure_s, b.time_shift_s, [b.window, b.run, b.quotient, b.remainder, b.wait_s, b.headway_s])
}

#[test]
fn one_window() {
    let windows = [window(600, 1200, 300)];
    let rows = [
        (400, (660, 0, [0, 0, 0, 0, 260, 300])),
        (659, (660, 0, [0, 0, 0, 0, 1, 300])),
        (660, (660, 0, [0, 0, 0, 0, 0, 300])),
        (661, (960, 300, [0, 1, 0, 1, 299, 300])),
        (959, (960, 300, [0, 1, 0, 299, 1, 300])),
        (960, (960, 300, [0, 1, 1, 0, 0, 300])),
    ];
    for (after, row) in rows {
        assert_eq!(numbers(&windows, 600, 660, after), row, "after {after}");
    }
    assert_eq!(board(&windows, 600, 660, 961), None);
    assert_eq!(numbers(&[window(600, 7200, 600)], 600, 660, 2000), (2460, 1800, [0, 3, 2, 140, 460, 600]));
}

#[test]
fn first_window_of_equals() {
    let (coarse, fine) = (window(600, 1200, 300), window(900, 2000, 100));
    assert_eq!(numbers(&[coarse, fine], 600, 660, 661), (960, 300, [0, 1, 0, 1, 299, 300]));
    assert_eq!(numbers(&[fine, coarse], 600, 660, 661), (960, 300, [0, 0, 0, 0, 299, 100]));
    assert_eq!(numbers(&[coarse, coarse], 600, 660, 960), (960, 300, [0, 1, 1, 0, 0, 300]));
    // an earlier departure of a later window
    assert_eq!(numbers(&[fine, coarse], 600, 660, 660), (660, 0, [1, 0, 0, 0, 0, 300]));
    // windows without a run keep their numbers
    assert_eq!(numbers(&[window(600, 600, 50), window(600, 1200, 0), coarse], 600, 660, 661), (960, 300, [2, 1, 0, 1, 299, 300]));
}

#[test]
fn earlier_here_than_at_the_first_stop() {
    let windows = [window(600, 1200, 300)];
    assert_eq!(numbers(&windows, 600, 540, 540), (540, 0, [0, 0, 0, 0, 0, 300]));
    assert_eq!(numbers(&windows, 600, 540, 541), (840, 300, [0, 1, 0, 1, 299, 300]));
}

#[test]
fn earlier_than_the_stop_times() {
    assert_eq!(numbers(&[window(300, 400, 60)], 600, 660, 400), (420, -240, [0, 1, 0, 40, 20, 60]));
}

#[test]
fn sentences() {
    let read = |windows: &[FrequencyWindow], after| board(windows, 600, 660, after).unwrap().sentence();
    let every_ten = [window(600, 7200, 600)];
    assert_eq!(read(&every_ten, 1020), "every 10 minutes, 4 to wait");
    assert_eq!(read(&every_ten, 1021), "every 10 minutes, 4 to wait");
    assert_eq!(read(&every_ten, 1019), "every 10 minutes, 5 to wait");
    assert_eq!(read(&every_ten, 1259), "every 10 minutes, 1 to wait");
    assert_eq!(read(&every_ten, 1260), "every 10 minutes, 0 to wait");
    assert_eq!(read(&every_ten, 661), "every 10 minutes, 10 to wait");
    assert_eq!(read(&[window(36_000, 40_000, 3600)], 60), "every 60 minutes, 600 to wait");
    assert_eq!(read(&[window(600, 7200, 60)], 661), "every minute, 1 to wait");
    assert_eq!(read(&[window(600, 7200, 60)], 660), "every minute, 0 to wait");
    assert_eq!(read(&[window(600, 7200, 120)], 661), "every 2 minutes, 2 to wait");
    assert_eq!(read(&[window(600, 7200, 90)], 661), "every 90 seconds, 2 minutes to wait");
    assert_eq!(read(&[window(600, 7200, 90)], 690), "every 90 seconds, 1 minute to wait");
    assert_eq!(read(&[window(600, 7200, 90)], 750), "every 90 seconds, 0 to wait");
    assert_eq!(read(&[window(600, 7200, 59)], 661), "every 59 seconds, 1 minute to wait");
    assert_eq!(read(&[window(600, 7200, 1)], 600), "every 1 second, 1 minute to wait");
    // each headway is its own window's
    assert_eq!(read(&[window(600, 7200, 600), window(7200, 12_600, 1800)], 7261), "every 30 minutes, 30 to wait");
}

#[test]
fn greatest_waits() {
    // of a call
    let last = board(&[window(1_048_574, 1_048_575, 1_048_575)], 0, 1_048_575, 0).unwrap();
    assert_eq!((last.departure_s, last.wait_s, last.wait_minutes()), (2_097_149, 2_097_149, 34_953));
    assert_eq!(last.sentence(), "every 1048575 seconds, 34953 minutes to wait");
    // of the type; the greatest number of whole minutes
    let whole = u32::MAX - 15;
    let greatest = FreqBoard { wait_s: u32::MAX, headway_s: u32::MAX, ..last };
    assert_eq!(greatest.wait_minutes(), 71_582_789);
    assert_eq!(greatest.sentence(), "every 4294967295 seconds, 71582789 minutes to wait");
    assert_eq!(FreqBoard { headway_s: whole, ..greatest }.sentence(), "every 71582788 minutes, 71582789 to wait");
    for (wait_s, minutes) in [(0, 0), (1, 1), (59, 1), (60, 1), (61, 2), (whole, 71_582_788), (whole + 1, 71_582_789)] {
        assert_eq!(FreqBoard { wait_s, ..last }.wait_minutes(), minutes);
    }
}
