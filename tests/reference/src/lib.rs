//! Reference implementation of ICEPOLE and of the burst file sealed with it,
//! written from the documents alone: the scope paper (document 01) and the
//! ICEPOLE paper (003), of which README says more. Where the two differ, the
//! scope paper decides. The proved code is tested against it.
//!
//! `burst` has the files of both editions, the second from request N1, sizes a
//! burst up before it is recorded, request N4, and counts those that a card holds,
//! request N2.
//! `generators` makes the tables of constants anew, from FIPS 202 and request N8.
//! `round_log` judges the logs of the hardware core, request N9. `rounds_back`
//! undoes its rounds, request N10.
//! `page` reads docs/FORMAT.md, for the tests that hold that page true.

pub mod burst;
pub mod generators;
pub mod page;
pub mod permutation;
pub mod random;
pub mod round_log;
pub mod rounds_back;
pub mod sealing;
pub mod strips;
pub mod vectors;
