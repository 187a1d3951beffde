//! Moves onto what is there, by what stands at both paths before the line runs, so that each kind is known to come up.

use crate::model::line::{read_line, Command};
use crate::model::shell::reserved;
use crate::model::state::State;
use crate::model::working::joined;

/// The kinds, each with the numbers that such a move of a known caller can give; reserved paths are not among them.
pub const ALLOWED: [(&str, &[u32]); 6] = [
    (ONTO_FILE, &[0, 5]),
    (ONTO_TAG, &[0, 5]),
    (TAG_ONTO, &[0, 5]),
    (ONTO_SELF, &[0, 5]),
    (ONTO_DIRECTORY, &[5, 6]),
    (DIRECTORY_ONTO, &[5, 7]),
];

/// A file onto another one, which has no tag, or has one; and a tagged file onto another one.
const ONTO_FILE: &str = "onto file";
const ONTO_TAG: &str = "onto tag";
const TAG_ONTO: &str = "tag onto";
/// A file onto itself.
const ONTO_SELF: &str = "onto self";
/// Anything onto a directory, and a directory onto a file.
const ONTO_DIRECTORY: &str = "onto dir";
const DIRECTORY_ONTO: &str = "dir onto";

/// The kinds that a line is of: none where it is no move onto what is there.
pub fn kinds(state: &State, line: &[u8]) -> Vec<&'static str> {
    kinds_of_move(state, line).unwrap_or_default()
}

fn kinds_of_move(state: &State, line: &[u8]) -> Option<Vec<&'static str>> {
    let (uid, Command::Mv(a, b)) = read_line(line)? else { return None };
    if uid != 0 && !state.people.contains_key(&uid) {
        return None;
    }
    let directory = &state.working_directories[usize::from(uid)];
    let (a, b) = (joined(directory, a).ok()?, joined(directory, b).ok()?);
    let (from, onto) = (state.nodes.get(&a)?, state.nodes.get(&b)?);
    let kinds = match (from.is_directory(), onto.is_directory()) {
        _ if reserved(&a) || reserved(&b) => vec![],
        (_, true) => vec![ONTO_DIRECTORY],
        (true, false) => vec![DIRECTORY_ONTO],
        (false, false) if a == b => vec![ONTO_SELF],
        (false, false) => {
            let by_tag = if onto.tag.is_some() { ONTO_TAG } else { ONTO_FILE };
            [by_tag].into_iter().chain(from.tag.is_some().then_some(TAG_ONTO)).collect()
        }
    };
    Some(kinds)
}
