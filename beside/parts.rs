// What every program here takes: the Rust, the exported calls, metered, random numbers and cases.
include!(concat!(env!("ORACLE"), "/oracle.rs"));
include!(concat!(env!("BESIDE"), "/ffi.rs"));
include!(concat!(env!("BESIDE"), "/tally.rs"));
include!(concat!(env!("BESIDE"), "/random.rs"));
include!(concat!(env!("BESIDE"), "/settings.rs"));
include!(concat!(env!("BESIDE"), "/cases.rs"));
