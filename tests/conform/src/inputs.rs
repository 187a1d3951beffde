//! The inputs: the vectors with their outputs, then random ones with what the model prints.

use crate::generate::{Lines, Theme};
use crate::model::program::program;
use crate::model::run::LEAST_ANSWER;
use crate::model::setup::read_setup;
use crate::model::state::{text, Path as Names, State, MOST_NAMES, MOST_NODES};
use crate::mutate;
use crate::rng::Rng;
use crate::setups::{generous_setup, good_setup, odd_setup};
use std::path::{Path, PathBuf};

/// An input, what it is called, and what the program must print for it.
pub struct Case {
    pub name: String,
    pub input: Vec<u8>,
    pub due: Vec<u8>,
}

/// The vectors of a folder, the shortest first so that what is shown is short, then so many random inputs.
pub fn cases(vectors: &Path, seed: u64, inputs: u64) -> Result<impl Iterator<Item = Result<Case, String>>, String> {
    let mut vectors = vector_files(vectors).map_err(|problem| format!("{}: {problem}", vectors.display()))?;
    vectors.sort();
    let mut rng = Rng::new(seed);
    let random = move |n| {
        let input = random_input(&mut rng);
        Ok(Case { name: format!("random input {n} of seed {seed}"), due: program(&input), input })
    };
    Ok(vectors.into_iter().map(|(_, path)| vector(path)).chain((1..=inputs).map(random)))
}

/// The inputs of a folder, each with its length.
fn vector_files(folder: &Path) -> std::io::Result<Vec<(u64, PathBuf)>> {
    let mut files = Vec::new();
    for file in std::fs::read_dir(folder)? {
        let file = file?;
        if file.path().extension().is_some_and(|extension| extension == "in") {
            files.push((file.metadata()?.len(), file.path()));
        }
    }
    if files.is_empty() {
        return Err(std::io::Error::other("no vectors"));
    }
    Ok(files)
}

fn vector(path: PathBuf) -> Result<Case, String> {
    let bytes = |path: &Path| std::fs::read(path).map_err(|problem| format!("{}: {problem}", path.display()));
    let name = format!("vector {}", path.file_stem().unwrap_or_default().display());
    Ok(Case { name, input: bytes(&path)?, due: bytes(&path.with_extension("out"))? })
}

/// A setup and lines that look at the model's state, so that most of them meet something.
fn random_input(rng: &mut Rng) -> Vec<u8> {
    if rng.percent(10) {
        return odd_setup(rng);
    }
    let theme = Theme::any(rng);
    let generous = matches!(theme, Theme::DirectoryCommits) || rng.percent(40);
    let mut input = if generous { generous_setup(rng) } else { good_setup(rng) };
    let Ok(mut state) = read_setup(&input) else { return input };
    if rng.percent(20) {
        fill(rng, &mut state, &mut input);
    }
    for _ in 0..rng.within(100, 700) {
        let mut line = Lines::new(rng, &state, theme).line();
        if rng.percent(8) {
            line = mutate::mutate(rng, &line);
        }
        take(&mut state, &mut input, &line);
    }
    if rng.percent(30) {
        input.pop();
    }
    input
}

/// Root makes directories until nearly as many nodes exist as may, so that 10 comes up.
fn fill(rng: &mut Rng, state: &mut State, input: &mut Vec<u8>) {
    let wanted = rng.within(MOST_NODES - 12, MOST_NODES);
    while state.nodes.len() < wanted {
        let directories: Vec<&Names> = state.nodes.keys().filter(|path| path.len() < MOST_NAMES).collect();
        let above = text(rng.pick::<&Names>(&directories)).escape_ascii().to_string();
        let line = format!("0,mkdir,{}/n{},0777", above.trim_end_matches('/'), rng.below(999));
        take(state, input, line.as_bytes());
    }
}

/// Puts a line behind the input and carries it out; one with byte 10 in it is several.
fn take(state: &mut State, input: &mut Vec<u8>, line: &[u8]) {
    for part in line.split(|byte| *byte == 10) {
        let _ = state.run(part, LEAST_ANSWER);
    }
    input.extend(line);
    input.push(10);
}
