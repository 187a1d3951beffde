//! The pattern repository in plain Rust beside the proved library: whether they agree, and what each call takes.
//!
//!     bench agree [--seed S] [--lines N]     random setups and lines through both
//!     bench bench                            nanoseconds a call
//!     bench searches                         nanoseconds of the search for a child
//!     bench commits                          nanoseconds of a directory's commit, by the number of its files
//!     bench program < input                  the program by plain Rust, for tests/vectors

mod agree;
mod bench;
mod cases;
mod commits;
mod fixed;
#[path = "../../library.rs"]
mod library;
mod plain;
mod program;
mod random;
#[path = "../../search.rs"]
mod search;
mod searches;

use std::process::ExitCode;

fn main() -> ExitCode {
    let arguments: Vec<String> = std::env::args().skip(1).collect();
    match arguments.first().map(String::as_str) {
        Some("agree") => {
            let seed = option(&arguments, "--seed").unwrap_or(1);
            let lines = option(&arguments, "--lines").unwrap_or(20_000);
            if agree::agree(seed, lines) {
                ExitCode::SUCCESS
            } else {
                ExitCode::FAILURE
            }
        }
        Some("bench") => {
            bench::bench();
            ExitCode::SUCCESS
        }
        Some("searches") => {
            searches::searches();
            ExitCode::SUCCESS
        }
        Some("commits") => {
            commits::commits();
            ExitCode::SUCCESS
        }
        Some("program") => {
            program::program();
            ExitCode::SUCCESS
        }
        _ => {
            eprintln!("usage: bench agree [--seed S] [--lines N] | bench bench | bench searches | bench commits | bench program");
            ExitCode::FAILURE
        }
    }
}

/// The number after an option.
fn option(arguments: &[String], name: &str) -> Option<u64> {
    let at = arguments.iter().position(|a| a == name)?;
    arguments.get(at + 1)?.parse().ok()
}
