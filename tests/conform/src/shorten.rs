//! An input on which program and model differ, made shorter.

use crate::model::program::program;
use crate::subject::Subject;
use std::time::Instant;

/// Leaves out lines while the two still differ: halves, quarters, and so on to single lines.
pub fn shorten(subject: &Subject, input: &[u8]) -> Vec<u8> {
    let until = Instant::now() + subject.time_to_shorten();
    let mut lines: Vec<&[u8]> = input.split_inclusive(|byte| *byte == 10).collect();
    let mut step = lines.len();
    while step > 0 {
        let mut at = 0;
        while at < lines.len() && Instant::now() < until {
            let less = [&lines[..at], &lines[(at + step).min(lines.len())..]].concat();
            if differ(subject, &less.concat()) {
                lines = less;
            } else {
                at += step;
            }
        }
        step /= 2;
    }
    lines.concat()
}

/// Whether the program does not print what is due, or ends otherwise than it should.
fn differ(subject: &Subject, input: &[u8]) -> bool {
    let due = program(input);
    subject.run(input, &due).is_ok_and(|run| !run.is_as_due(&due))
}
