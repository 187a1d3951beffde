//! The pairs of call and number that documents 01 and 02 allow, written by hand from their words, with counts of what came
//! up.

use crate::directory_commits;
use crate::model::line::WORDS;
use crate::model::state::State;
use crate::onto;
use crate::tally::Tally;
use std::collections::BTreeMap;

/// For each command 0 for done and the numbers it can be refused with; then the lines without a command's word, and
/// the numbers that come before any command.
const ALLOWED: [(&str, &[u32]); 22] = [
    ("create", &[0, 1, 2, 3, 4, 5, 6, 10, 19]),
    ("mkdir", &[0, 1, 2, 3, 4, 5, 6, 10, 19]),
    ("read", &[0, 1, 2, 3, 4, 5, 19]),
    ("write", &[0, 1, 2, 3, 4, 5, 7, 19]),
    ("rm", &[0, 1, 2, 3, 4, 5, 7, 9, 19]),
    ("rmdir", &[0, 1, 2, 3, 4, 5, 7, 8, 9, 19]),
    ("mv", &[0, 1, 2, 3, 4, 5, 6, 7, 9, 11, 19]),
    ("chmod", &[0, 1, 2, 3, 4, 5, 7, 9, 19]),
    ("chgrp", &[0, 1, 2, 3, 4, 5, 9, 19]),
    ("chown", &[0, 1, 2, 3, 4, 5, 9, 19]),
    ("cd", &[0, 1, 2, 3, 4, 5, 7, 19]),
    ("login", &[0, 1, 2, 13]),
    ("logout", &[0, 1, 2]),
    ("add", &[0, 1, 2, 3, 4, 5, 6, 9, 10, 12, 19]),
    ("co", &[0, 1, 2, 3, 4, 5, 6, 10, 12, 19]),
    ("commit", &[0, 1, 2, 3, 4, 5, 7, 12, 14, 15, 16, 19]),
    ("up", &[0, 1, 2, 3, 4, 5, 7, 12, 15, 19]),
    ("del", &[0, 1, 2, 3, 4, 5, 8, 12]),
    (NO_WORD, &[1]),
    ("run", &[18, 20]),
    ("setup", &[0, 17, 18]),
    ("listing", &[0, 3, 18, 20]),
];

/// Lines whose second field is no command's word.
const NO_WORD: &str = "(no word)";

#[derive(Default)]
pub struct Table {
    counts: BTreeMap<(&'static str, u32), u64>,
}

impl Table {
    /// Notes what a call gave.
    pub fn note(&mut self, call: &'static str, number: u32) {
        *self.counts.entry((call, number)).or_default() += 1;
    }

    /// Notes what a line gave, under its command, and under the kinds of moves and of directories' commits that it is in the
    /// state before it.
    pub fn note_line(&mut self, before: &State, line: &[u8], number: u32) {
        if matches!(number, 18 | 20) {
            return self.note("run", number);
        }
        self.note(word(line), number);
        for kind in onto::kinds(before, line) {
            self.note(kind, number);
        }
        for (kind, number) in directory_commits::notes(before, line, number) {
            self.note(kind, number);
        }
    }

    /// Prints the table, and checks that the allowed pairs came up and no others.
    pub fn check(&self, tally: &mut Tally) {
        for (call, numbers) in allowed() {
            let counts: Vec<String> = numbers.iter().map(|number| format!("{number}: {}", self.count(call, *number))).collect();
            println!("{call:9} {}", counts.join("  "));
            for number in numbers {
                let missing = self.count(call, *number) == 0;
                tally.check(missing.then(|| format!("the pair {call}, {number} did not come up")));
            }
        }
        for (call, number) in self.counts.keys() {
            let allowed = allowed().any(|(other, numbers)| other == *call && numbers.contains(number));
            tally.check((!allowed).then(|| format!("the pair {call}, {number} came up and is not allowed")));
        }
    }

    fn count(&self, call: &'static str, number: u32) -> u64 {
        self.counts.get(&(call, number)).copied().unwrap_or(0)
    }
}

/// The rows of calls, then those of moves onto what is there and of directories' commits.
fn allowed() -> impl Iterator<Item = (&'static str, &'static [u32])> {
    ALLOWED.into_iter().chain(onto::ALLOWED).chain(directory_commits::ALLOWED)
}

/// The command's word that a line's second field says.
fn word(line: &[u8]) -> &'static str {
    let field = line.split(|byte| *byte == b',').nth(1).unwrap_or(b"");
    WORDS.into_iter().find(|word| word.as_bytes() == field).unwrap_or(NO_WORD)
}
