//! Commits of directories, by the directory and by what becomes of the files below it, so that each kind is known to come up.

use crate::model::access::{R, X};
use crate::model::line::{read_line, Command, Given};
use crate::model::run::LEAST_ANSWER;
use crate::model::state::{text, Path, State};
use crate::model::working::joined;

/// The kinds, each with the numbers that such a commit of a known caller can give where the caller's walk leads to the
/// directory. The last row has the numbers of the single commits that are passed over.
pub const ALLOWED: [(&str, &[u32]); 22] = [
    (ANY, &[0, 5, 12]),
    (SHORT, &[0, 5, 12]),
    (TAGGED, &[0, 5, 12]),
    (ROOT, &[0, 12]),
    (REP, &[0, 5, 12]),
    (NOT_R, &[5, 12]),
    (NOT_X, &[5, 12]),
    (EMPTY, &[0]),
    (NONE, &[0]),
    (ONE, &[0]),
    (SEVERAL, &[0]),
    (TEN, &[0]),
    (DEEPER, &[0]),
    (NOT_OWN, &[0]),
    (OVER_FIRST, &[0]),
    (OVER_LAST, &[0]),
    (GOES_PAST, &[0]),
    (NOT_MET, &[0]),
    (STALE_NOW, &[0]),
    (GOOD_NOW, &[0]),
    (TEXT_NOW, &[0]),
    (OVER, &[3, 4, 5, 7, 14, 15, 16]),
];

/// Any directory; one whose path is short; one with a tag; any for root; `/rep`.
const ANY: &str = "dir";
const SHORT: &str = "dir short";
const TAGGED: &str = "dir tag";
const ROOT: &str = "dir root";
const REP: &str = "dir /rep";
/// The person lacks r alone, or x alone.
const NOT_R: &str = "dir not r";
const NOT_X: &str = "dir not x";
/// No file is met; some are met and none is committed; one is committed, or more, or ten and more.
const EMPTY: &str = "no files";
const NONE: &str = "none";
const ONE: &str = "one";
const SEVERAL: &str = "several";
const TEN: &str = "ten";
/// A committed file lies further down than in the directory itself; one is not the caller's own.
const DEEPER: &str = "deeper";
const NOT_OWN: &str = "not own";
/// A file is passed over and a later one is committed; and the other way round.
const OVER_FIRST: &str = "over, on";
const OVER_LAST: &str = "on, over";
/// A directory below cannot be read, and a later file is committed; and a file below such a directory is not met, though its
/// single commit would be done, since x is enough for its walk.
const GOES_PAST: &str = "goes past";
const NOT_MET: &str = "not met";
/// A file's single commit would be done before the command and is refused at its turn; and the other way round.
const STALE_NOW: &str = "stale now";
const GOOD_NOW: &str = "good now";
/// A content is committed that an earlier commit of the same command has brought.
const TEXT_NOW: &str = "text now";
/// A file is passed over.
const OVER: &str = "over";

/// A line that commits a directory.
pub struct DirectoryCommit {
    uid: u8,
    w: Path,
    short: bool,
}

/// A file that is met: the numbers that its single commit gives in the state before the command and at its turn, and whether its
/// content is another one then.
struct Turn {
    file: Path,
    before: u32,
    now: u32,
    other_text: bool,
}

impl DirectoryCommit {
    /// The directory that a line commits, where a known caller's walk leads to one.
    pub fn of(state: &State, line: &[u8]) -> Option<DirectoryCommit> {
        let (uid, Command::Commit(given)) = read_line(line)? else { return None };
        if uid != 0 && !state.people.contains_key(&uid) {
            return None;
        }
        let short = matches!(given, Given::Short(_));
        let w = joined(&state.working_directories[usize::from(uid)], given).ok()?;
        state.walk(uid, &w).ok()?;
        state.node(&w).is_directory().then_some(DirectoryCommit { uid, w, short })
    }

    /// The lines of the single commits of the files that are met, in path order.
    pub fn singles(&self, state: &State) -> Vec<Vec<u8>> {
        self.files(state, true).iter().map(|file| self.single(file)).collect()
    }

    /// The files below in path order: those that are met, or those that are not.
    fn files(&self, state: &State, met: bool) -> Vec<Path> {
        let mut files = state.subtree(&self.w);
        files.retain(|path| !state.node(path).is_directory() && self.meets(state, path) == met);
        files.sort_by_key(|path| text(path));
        files
    }

    /// Whether the person can read each directory on the way down to a path, this one too.
    fn meets(&self, state: &State, path: &Path) -> bool {
        (self.w.len()..path.len()).all(|length| state.readable(self.uid, &path[..length]))
    }

    /// The line of a file's single commit.
    fn single(&self, file: &Path) -> Vec<u8> {
        [format!("{},commit,", self.uid).as_bytes(), &text(file)].concat()
    }

    /// What a file's single commit gives in a state, 0 or the number of the refusal, and the state after it.
    fn number(&self, mut state: State, file: &Path) -> (u32, State) {
        let number = state.run(&self.single(file), LEAST_ANSWER).err().unwrap_or(0);
        (number, state)
    }

    /// The files that are met, each in the state that those before it left.
    fn turns(&self, state: &State) -> Vec<Turn> {
        let mut turned = state.clone();
        let mut turns = Vec::new();
        for file in self.files(state, true) {
            let other_text = turned.node(&file).content != state.node(&file).content;
            let (before, _) = self.number(state.clone(), &file);
            let (now, after) = self.number(turned, &file);
            turned = after;
            turns.push(Turn { file, before, now, other_text });
        }
        turns
    }

    /// The kinds by the directory itself.
    fn kinds_of_directory(&self, state: &State) -> Vec<&'static str> {
        let node = state.node(&self.w);
        let (r, x) = (state.may(self.uid, node, R), state.may(self.uid, node, X));
        let kinds = [
            (ANY, true),
            (SHORT, self.short),
            (TAGGED, node.tag.is_some()),
            (ROOT, self.uid == 0),
            (REP, text(&self.w) == b"/rep"),
            (NOT_R, !r && x),
            (NOT_X, r && !x),
        ];
        those_that_hold(&kinds)
    }

    /// The kinds by the files that are met.
    fn kinds_of_turns(&self, state: &State, turns: &[Turn]) -> Vec<&'static str> {
        let done: Vec<&Turn> = turns.iter().filter(|turn| turn.now == 0).collect();
        let first = turns.iter().position(|turn| turn.now == 0).unwrap_or(turns.len());
        let last = turns.iter().rposition(|turn| turn.now == 0).unwrap_or(0);
        let over = |turns: &[Turn]| turns.iter().any(|turn| turn.now != 0);
        let kinds = [
            (EMPTY, turns.is_empty()),
            (NONE, !turns.is_empty() && done.is_empty()),
            (ONE, done.len() == 1),
            (SEVERAL, done.len() > 1),
            (TEN, done.len() >= 10),
            (DEEPER, done.iter().any(|turn| turn.file.len() > self.w.len() + 1)),
            (NOT_OWN, done.iter().any(|turn| state.node(&turn.file).owner != self.uid)),
            (OVER_FIRST, over(&turns[..last])),
            (OVER_LAST, over(&turns[first..])),
            (STALE_NOW, turns.iter().any(|turn| turn.before == 0 && turn.now != 0)),
            (GOOD_NOW, done.iter().any(|turn| turn.before != 0)),
            (TEXT_NOW, done.iter().any(|turn| turn.other_text)),
        ];
        those_that_hold(&kinds)
    }

    /// The kinds by the directories below that cannot be read.
    fn kinds_of_unreadable(&self, state: &State, turns: &[Turn]) -> Vec<&'static str> {
        let stops = |path: &Path| state.node(path).is_directory() && !state.readable(self.uid, path) && self.meets(state, path);
        let first_stop = state.subtree(&self.w).into_iter().filter(stops).map(|path| text(&path)).min();
        let last_done = turns.iter().filter(|turn| turn.now == 0).map(|turn| text(&turn.file)).max();
        let would_be_done = |file: &Path| self.number(state.clone(), file).0 == 0;
        let kinds = [
            (GOES_PAST, first_stop.is_some() && first_stop < last_done),
            (NOT_MET, self.files(state, false).iter().any(would_be_done)),
        ];
        those_that_hold(&kinds)
    }
}

fn those_that_hold(kinds: &[(&'static str, bool)]) -> Vec<&'static str> {
    kinds.iter().filter(|(_, holds)| *holds).map(|(kind, _)| *kind).collect()
}

/// The kinds that a line with this number is of in the state before it, each with the number to be noted; none where the line
/// commits no directory.
pub fn notes(state: &State, line: &[u8], number: u32) -> Vec<(&'static str, u32)> {
    let Some(commit) = DirectoryCommit::of(state, line) else { return Vec::new() };
    let mut kinds = commit.kinds_of_directory(state);
    let mut over = Vec::new();
    if state.sessions[usize::from(commit.uid)].is_some() && state.readable(commit.uid, &commit.w) {
        let turns = commit.turns(state);
        kinds.extend(commit.kinds_of_turns(state, &turns));
        kinds.extend(commit.kinds_of_unreadable(state, &turns));
        over.extend(turns.iter().filter(|turn| turn.now != 0).map(|turn| (OVER, turn.now)));
    }
    kinds.into_iter().map(|kind| (kind, number)).chain(over).collect()
}
