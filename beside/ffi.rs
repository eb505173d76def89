// The exported calls, as bindings/generate declares them. What a program defines by the same name comes before them (tally.rs does so).
mod sys {
    include!(concat!(env!("BESIDE"), "/../bindings/rust/src/sys.rs"));
}
use sys::*;
