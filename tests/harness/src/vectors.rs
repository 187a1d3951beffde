//! The model on its own: each input of a directory gives the output that lies beside it.

use crate::model::program::program;
use crate::tally::{show, Tally};
use std::path::Path;

pub fn vectors(directory: &Path) -> std::io::Result<Tally> {
    let mut tally = Tally::default();
    let mut inputs = Vec::new();
    for file in std::fs::read_dir(directory)? {
        let path = file?.path();
        if path.extension().is_some_and(|extension| extension == "in") {
            inputs.push(path);
        }
    }
    inputs.sort();
    if inputs.is_empty() {
        tally.check(Some(format!("no inputs in {}", directory.display())));
    }
    for input in inputs {
        let output = program(&std::fs::read(&input)?);
        let wanted = std::fs::read(input.with_extension("out"))?;
        tally.check(difference(&output, &wanted).map(|what| format!("{}: {what}", input.display())));
    }
    Ok(tally)
}

/// The first line in which two outputs differ.
fn difference(output: &[u8], wanted: &[u8]) -> Option<String> {
    if output == wanted {
        return None;
    }
    let mut lines = output.split(|byte| *byte == 10);
    let mut wanted_lines = wanted.split(|byte| *byte == 10);
    for n in 1.. {
        let (line, wanted) = (lines.next(), wanted_lines.next());
        if line != wanted {
            return Some(format!("line {n} is {} and not {}", show(line.unwrap_or(b"")), show(wanted.unwrap_or(b""))));
        }
    }
    None
}
