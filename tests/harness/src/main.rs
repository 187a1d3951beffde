//! Compares the library with a model written from documents 01 and 02 alone.

mod damage;
mod damage_cd;
mod damage_content;
mod directory_commits;
mod edges;
mod edges_cd;
mod edges_commits;
mod edges_content;
mod edges_onto;
mod edges_turns;
mod generate;
mod layout;
#[path = "../../library.rs"]
mod library;
mod model;
mod mutate;
mod onto;
mod random;
mod rng;
#[path = "../../search.rs"]
mod search;
mod setups;
mod singles;
mod states;
mod steps;
mod steps_hand;
mod steps_kinds;
mod steps_model;
mod steps_trees;
mod stories;
mod stories_commits;
mod table;
mod tally;
mod trial;
mod twin;
mod vectors;

use std::path::Path;
use std::process::ExitCode;

/// The seed of a run that names none, so that a red run can be repeated.
const SEED: u64 = 1;

const USAGE: &str = "harness random [--seed S] [--lines N] | damage [--seed S] | steps [--seed S] | edges | vectors DIR";

fn main() -> ExitCode {
    let arguments: Vec<String> = std::env::args().skip(1).collect();
    match run(&arguments) {
        Ok(tally) => tally.finish(),
        Err(problem) => {
            eprintln!("{problem}");
            ExitCode::FAILURE
        }
    }
}

/// Carries out a subcommand.
fn run(arguments: &[String]) -> Result<tally::Tally, String> {
    let (subcommand, options) = arguments.split_first().ok_or(USAGE)?;
    match (subcommand.as_str(), options) {
        ("random", options) => {
            let lines = option(options, "--lines")?.unwrap_or(120_000);
            Ok(random::random(seed(options)?, lines))
        }
        ("damage", options) => Ok(damage::damage(seed(options)?)),
        ("steps", options) => Ok(steps::steps(seed(options)?)),
        ("edges", []) => Ok(edges::edges(1)),
        ("vectors", [directory]) => vectors::vectors(Path::new(directory)).map_err(|problem| problem.to_string()),
        _ => Err(USAGE.to_string()),
    }
}

/// The seed that was asked for or the fixed one, printed first.
fn seed(options: &[String]) -> Result<u64, String> {
    let seed = option(options, "--seed")?.unwrap_or(SEED);
    println!("seed {seed} (another: tests/model --seed S)");
    Ok(seed)
}

/// The number after an option.
fn option(options: &[String], name: &str) -> Result<Option<u64>, String> {
    let Some(at) = options.iter().position(|option| option == name) else { return Ok(None) };
    let number = options.get(at + 1).ok_or(USAGE)?;
    number.parse().map(Some).map_err(|_| format!("{name} takes a number"))
}
