//! The contract of include/patterns.h in plain Rust, directly on the store's bytes.

mod access;
mod command;
mod filing;
mod header;
mod listing;
mod number;
mod repository;
mod rows;
mod search;
mod setup;
mod shell;
mod sound;
mod text;
mod tree;

pub use crate::library::{Answer, NO_VALUE};
use number::{Number, NO_FORM, SHORT_ANSWER, UNKNOWN_CALLER, UNSOUND};
use rows::Store;
pub use rows::{CONTENT_LIMIT, TREE};
pub use search::search;

pub const STORE: usize = 65536;
pub const ANSWER: usize = 4096;

/// The length of the answer's text, or none; or why the call is refused.
type Outcome = Result<Option<usize>, Number>;

fn answer(outcome: Outcome) -> Answer {
    match outcome {
        Ok(length) => Answer { number: 0, value: length.map_or(NO_VALUE, |n| n as u64) },
        Err(number) => Answer { number, value: NO_VALUE },
    }
}

/// Makes the store that a setup text says.
#[inline(never)]
pub fn setup(store: &mut [u8], text: &[u8]) -> Answer {
    let Ok(store) = store.try_into() else {
        return answer(Err(UNSOUND));
    };
    match setup::setup(store, text) {
        Ok(()) => answer(Ok(None)),
        Err(line) => Answer { number: number::WRONG_SETUP, value: line },
    }
}

/// Carries out one command line, without its byte 10.
#[inline(never)]
pub fn run(store: &mut [u8], line: &[u8], into: &mut [u8]) -> Answer {
    answer(run_line(store, line, into))
}

fn run_line(store: &mut [u8], line: &[u8], into: &mut [u8]) -> Outcome {
    if into.len() < ANSWER {
        return Err(SHORT_ANSWER);
    }
    let bytes: &mut [u8; STORE] = store.try_into().map_err(|_| UNSOUND)?;
    let mut store = Store::of(bytes);
    if !sound::is_sound(store.header, store.rows) {
        return Err(UNSOUND);
    }
    let (uid, mut command) = command::parse(line).ok_or(NO_FORM)?;
    if !header::is_caller(store.header, uid) {
        return Err(UNKNOWN_CALLER);
    }
    command.join(store.header, uid)?;
    shell::run(&mut store, uid, &command, into)
}

/// Line n of the listing, from 0.
#[inline(never)]
pub fn listing(store: &[u8], n: usize, into: &mut [u8]) -> Answer {
    answer(list_line(store, n, into))
}

fn list_line(store: &[u8], n: usize, into: &mut [u8]) -> Outcome {
    if into.len() < ANSWER {
        return Err(SHORT_ANSWER);
    }
    let bytes: &[u8; STORE] = store.try_into().map_err(|_| UNSOUND)?;
    let (header, rows) = rows::parts(bytes);
    if !sound::is_sound(header, rows) {
        return Err(UNSOUND);
    }
    listing::line(&rows[..rows::count(header)], n, into)
}
