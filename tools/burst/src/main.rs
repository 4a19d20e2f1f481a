//! `burst`: sizes up, records, lists, checks, fetches and explains burst files,
//! and counts how many a card holds, over the proved static libraries.

#![deny(unsafe_code)]

mod arguments;
mod card;
mod explain;
mod files;
mod help;
mod layout;
mod library;
mod messages;
mod outputs;
mod progress;
mod read;
mod record;
mod rights;
mod secrets;
mod show;
mod size;
#[allow(unsafe_code)]
mod system;
mod units;

use arguments::Command;
use messages::Failure;
use std::process::ExitCode;

fn run() -> Result<(), Failure> {
    let words = std::env::args_os().skip(1).collect();
    match arguments::parse(words)? {
        Command::Print(text) => files::print(&text),
        Command::Record(wanted) => record::record(&wanted),
        Command::List { file } => read::list(&file),
        Command::Check { key, file } => read::check(&key, &file),
        Command::Fetch(wanted) => read::fetch(&wanted),
        Command::Explain { file } => explain::explain(&file),
        Command::Size { lengths, measure } => size::size(&lengths, measure),
        Command::Card {
            bytes,
            shots,
            picture,
        } => card::card(bytes, shots, picture),
    }
}

fn main() -> ExitCode {
    system::prepare();
    match run() {
        Ok(()) => ExitCode::SUCCESS,
        Err(failure) => {
            messages::tell(&failure);
            ExitCode::from(failure.status())
        }
    }
}
