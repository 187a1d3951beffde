//! A difference, shown: the input, and the first line of the output that is not the one due.

use crate::model::program::program;
use crate::subject::Subject;
use std::path::Path;

/// How many lines of an input are shown; the file beside has all.
const MOST_SHOWN: usize = 40;

/// Shows an input with the first line that differs, and leaves input and both outputs in a folder.
pub fn show(subject: &Subject, input: &[u8], folder: &Path) -> Result<(), String> {
    let due = program(input);
    let run = subject.run(input, &due)?;
    show_input(input);
    if let Some(fault) = run.fault() {
        println!("{fault}");
    }
    if let Some(difference) = first_difference(&due, &run.output) {
        println!("{difference}");
    }
    if run.is_as_due(&due) {
        println!("this time the program printed what is due: it does not always do the same");
    }
    keep(folder, input, &due, &run.output).map_err(|problem| format!("{}: {problem}", folder.display()))?;
    println!("kept in {}: input, due, given", folder.display());
    Ok(())
}

/// The input's last lines.
fn show_input(input: &[u8]) {
    let lines: Vec<&[u8]> = input.split_inclusive(|byte| *byte == 10).collect();
    let before = lines.len().saturating_sub(MOST_SHOWN);
    match (lines.len(), before) {
        (0, _) => println!("input: nothing"),
        (_, 0) => println!("input:"),
        _ => println!("input, behind {before} lines:"),
    }
    for each in &lines[before..] {
        println!("    {}", line(Some(each)));
    }
}

/// The first line in which two outputs differ.
fn first_difference(due: &[u8], given: &[u8]) -> Option<String> {
    if due == given {
        return None;
    }
    let (mut due, mut given) = (due.split_inclusive(|byte| *byte == 10), given.split_inclusive(|byte| *byte == 10));
    let differs = (1..).map(|n| (n, due.next(), given.next())).find(|(_, due, given)| due != given);
    differs.map(|(n, due, given)| format!("line {n} of the output\n    due:   {}\n    given: {}", line(due), line(given)))
}

/// A line as it is shown; that its byte 10 is missing is said, since that may be the difference.
fn line(bytes: Option<&[u8]>) -> String {
    match bytes {
        None => "(no such line)".to_string(),
        Some(bytes) => match bytes.strip_suffix(b"\n") {
            Some(line) => line.escape_ascii().to_string(),
            None => format!("{} (without byte 10)", bytes.escape_ascii()),
        },
    }
}

fn keep(folder: &Path, input: &[u8], due: &[u8], given: &[u8]) -> std::io::Result<()> {
    std::fs::create_dir_all(folder)?;
    std::fs::write(folder.join("input"), input)?;
    std::fs::write(folder.join("due"), due)?;
    std::fs::write(folder.join("given"), given)
}
