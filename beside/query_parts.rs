// What the programs that ask queries take besides: searches, what is lent, what a call must leave; for MOCK=1 the stand-ins.
include!(concat!(env!("BESIDE"), "/parts.rs"));
include!(concat!(env!("BESIDE"), "/rows.rs"));
include!(concat!(env!("BESIDE"), "/searches.rs"));
include!(concat!(env!("BESIDE"), "/lent.rs"));
include!(concat!(env!("BESIDE"), "/outcomes.rs"));
#[cfg(mock)]
include!(concat!(env!("BESIDE"), "/mock.rs"));
