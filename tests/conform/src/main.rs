//! Holds any program that reads a setup and commands to the vectors, and to the model on random inputs.

#[path = "../../harness/src/generate.rs"]
mod generate;
mod inputs;
#[path = "../../harness/src/model/mod.rs"]
mod model;
#[path = "../../harness/src/mutate.rs"]
mod mutate;
#[path = "../../harness/src/rng.rs"]
mod rng;
#[path = "../../harness/src/setups.rs"]
mod setups;
mod shorten;
mod show;
mod subject;

use inputs::Case;
use std::path::Path;
use std::process::ExitCode;
use std::time::Duration;
use subject::Subject;

const USAGE: &str = "\
usage: tests/conformance PROGRAM [ARGUMENT...] [--seed S] [--inputs N] [--seconds T]

PROGRAM reads a setup and command lines from standard input and prints answers and the listing on standard output, as document 01
says with the first five requests of document 02. It is run once for each file of tests/vectors and for each of N random inputs,
which the seed determines. The first output that is not the one due is shown, with its input made shorter.

    --seed S       the seed of the random inputs (1 if not given)
    --inputs N     how many random inputs (1000)
    --seconds T    the time that one run may take (10)

Judged are the bytes on standard output, and that the program ended in time and by no signal. Document 01 names no exit status, so
any is right. The status of this test: 0 no difference, 1 a difference, 2 nothing could be tried.";

/// What was asked for.
struct Options {
    words: Vec<String>,
    seed: u64,
    inputs: u64,
    seconds: u64,
}

/// The options stand behind the program's own arguments, each with a number.
fn options(mut words: Vec<String>) -> Option<Options> {
    let (mut seed, mut inputs, mut seconds) = (1, 1000, 10);
    while let [.., name, number] = &words[..] {
        let place = match name.as_str() {
            "--seed" => &mut seed,
            "--inputs" => &mut inputs,
            "--seconds" => &mut seconds,
            _ => break,
        };
        *place = number.parse().ok()?;
        words.truncate(words.len() - 2);
    }
    let program = words.first()?;
    (!program.starts_with("--")).then_some(Options { words, seed, inputs, seconds })
}

/// Runs the program on all inputs; how many were as due, and how many were not: none, or the first.
fn conform(options: &Options, subject: &Subject, root: &Path) -> Result<(u64, u64), String> {
    println!("seed {} (another: --seed S), {} random inputs (--inputs N)", options.seed, options.inputs);
    let mut passed = 0;
    for case in inputs::cases(&root.join("tests/vectors"), options.seed, options.inputs)? {
        let Case { name, input, due } = case?;
        if subject.run(&input, &due)?.is_as_due(&due) {
            passed += 1;
            continue;
        }
        println!("differs: {name}");
        let shorter = shorten::shorten(subject, &input);
        show::show(subject, &shorter, &root.join("target/conformance"))?;
        return Ok((passed, 1));
    }
    Ok((passed, 0))
}

fn main() -> ExitCode {
    let mut words: Vec<String> = std::env::args().skip(1).collect();
    let root = if words.is_empty() { String::new() } else { words.remove(0) };
    let Some(options) = options(words) else {
        eprintln!("{USAGE}");
        return ExitCode::from(2);
    };
    let subject = Subject::new(&options.words, Duration::from_secs(options.seconds));
    match conform(&options, &subject, Path::new(&root)) {
        Ok((passed, failed)) => {
            println!("{passed} passed, {failed} failed");
            ExitCode::from(failed as u8)
        }
        Err(problem) => {
            eprintln!("{problem}");
            ExitCode::from(2)
        }
    }
}
