//! The built tool, run in a temporary folder.

mod card;
mod dashes;
mod explain;
mod folder;
mod interrupted;
mod left;
mod names;
mod outputs;
mod refusals;
mod rights;
mod round_trip;
mod secrets;
mod size;
mod usage;
