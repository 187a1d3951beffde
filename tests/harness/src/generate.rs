//! Random command lines that look at the state, so that most of them meet something.

use crate::model::line::WORDS;
use crate::model::state::{text, Node, Path, State, MOST_CONTENT};
use crate::rng::Rng;
use crate::setups::PASSWORDS;

/// Few names, so that paths meet; one of them has eight bytes.
pub const NAMES: [&str; 8] = ["a", "b", "c", "d", "a_", "a0", "rep", "eightby8"];

/// What a list of lines is mostly about.
#[derive(Clone, Copy, Debug)]
pub enum Theme {
    Mixed,
    Filling,
    Deep,
    Repository,
    DirectoryCommits,
    Root,
}

impl Theme {
    pub fn any(rng: &mut Rng) -> Theme {
        match rng.below(9) {
            0 | 1 => Theme::Mixed,
            2 => Theme::Filling,
            3 => Theme::Deep,
            4 | 5 => Theme::Repository,
            6 | 7 => Theme::DirectoryCommits,
            _ => Theme::Root,
        }
    }

    /// The words that come up more often than the others.
    fn favourites(self) -> &'static [&'static str] {
        match self {
            Theme::Mixed => &WORDS,
            Theme::Filling => &["create", "create", "mkdir", "mkdir", "mkdir", "co", "add", "mv"],
            Theme::Deep => &["mkdir", "mkdir", "mv", "mv", "co", "create", "cd"],
            Theme::Repository => {
                &["add", "co", "commit", "commit", "up", "del", "write", "write", "login", "mkdir", "create", "cd", "mv", "mv"]
            }
            Theme::DirectoryCommits => {
                &["commit", "commit", "commit", "co", "co", "add", "add", "create", "mkdir", "write", "up", "del", "chmod", "mv"]
            }
            Theme::Root => &["mv", "mv", "chmod", "chmod", "chown", "chgrp", "add", "co", "commit", "up", "rm", "rmdir", "cd"],
        }
    }
}

/// Makes lines for a state.
pub struct Lines<'a> {
    rng: &'a mut Rng,
    state: &'a State,
    theme: Theme,
    caller: u8,
}

impl<'a> Lines<'a> {
    pub fn new(rng: &'a mut Rng, state: &'a State, theme: Theme) -> Lines<'a> {
        Lines { rng, state, theme, caller: 0 }
    }

    /// A line that has a listed form, or nearly always.
    pub fn line(&mut self) -> Vec<u8> {
        self.caller = self.any_caller();
        let caller = self.caller;
        let word = self.word();
        let arguments = self.arguments(word);
        let mut line = format!("{caller},{word}").into_bytes();
        for argument in arguments {
            line.push(b',');
            line.extend(argument);
        }
        line
    }

    /// A command's word; who has no session mostly logs in before a repository command.
    fn word(&mut self) -> &'static str {
        let favourites = if self.rng.percent(75) { self.theme.favourites() } else { &WORDS };
        let word = *self.rng.pick(favourites);
        let session = self.state.sessions.get(usize::from(self.caller)).copied().flatten();
        let wants_session = ["add", "co", "commit", "up", "del"].contains(&word) && session.is_none();
        let instead = (wants_session || word == "logout") && self.rng.percent(75);
        if instead {
            "login"
        } else {
            word
        }
    }

    /// Mostly a person of the setup, often root, seldom anyone from 0 to 30.
    fn any_caller(&mut self) -> u8 {
        let root = if matches!(self.theme, Theme::Root) { 60 } else { 20 };
        if self.rng.percent(3) {
            return self.rng.below(31) as u8;
        }
        if self.rng.percent(root) || self.state.people.is_empty() {
            return 0;
        }
        let people: Vec<u8> = self.state.people.keys().copied().collect();
        *self.rng.pick(&people)
    }

    fn arguments(&mut self, word: &str) -> Vec<Vec<u8>> {
        match word {
            "create" => vec![self.new_path(), self.mode(false)],
            "mkdir" => vec![self.new_path(), self.mode(true)],
            "write" => vec![self.file(), self.content()],
            "mv" => self.moved(),
            "chmod" => {
                let set_gid = self.rng.percent(30);
                vec![self.path(), self.mode(set_gid)]
            }
            "chgrp" => vec![self.path(), self.number(25)],
            "chown" => vec![self.path(), self.number(24)],
            "cd" => vec![self.directory()],
            "login" => self.grant(),
            "logout" => Vec::new(),
            "add" => self.added(),
            "co" => vec![self.entry(), self.new_path()],
            "commit" => vec![self.committed()],
            "up" => vec![self.working()],
            "del" => vec![self.entry()],
            _ => vec![self.path()],
        }
    }

    /// What is moved and where to: often to a new path, as often onto what is there, mostly a file onto a file.
    fn moved(&mut self) -> Vec<Vec<u8>> {
        match self.rng.below(20) {
            0..=9 => vec![self.path(), self.new_path()],
            10..=12 => vec![self.file(), self.file()],
            13..=15 => vec![self.filed(), self.filed()],
            16 => vec![self.file(), self.directory()],
            17 => vec![self.directory(), self.file()],
            18 => vec![self.path(), self.path()],
            _ => self.onto_itself(),
        }
    }

    /// What is added, where and under which role; where directories are to be committed, mostly an own file under the session's
    /// role.
    fn added(&mut self) -> Vec<Vec<u8>> {
        let (state, caller) = (self.state, self.caller);
        let session = state.sessions.get(usize::from(caller)).copied().flatten();
        match (self.theme, session) {
            (Theme::DirectoryCommits, Some(role)) if self.rng.percent(80) => {
                let own = self.present_path(|path| state.node(path).owner == caller && !state.node(path).is_directory());
                vec![self.given(own), self.new_entry(), role.to_string().into_bytes()]
            }
            _ => vec![self.path(), self.new_entry(), self.number(8)],
        }
    }

    /// Mostly a working file; for root, who alone can move one, often an entry.
    fn filed(&mut self) -> Vec<u8> {
        if self.caller == 0 && self.rng.percent(60) {
            self.entry()
        } else {
            self.working()
        }
    }

    /// One path twice, each time short or whole; mostly a file's.
    fn onto_itself(&mut self) -> Vec<Vec<u8>> {
        let (state, any) = (self.state, self.rng.percent(20));
        let path = self.present_path(|path| any || !state.node(path).is_directory());
        vec![self.given(path.clone()), self.given(path)]
    }

    /// A path that is mostly there; at times one where somebody stands, so that working directories go.
    fn path(&mut self) -> Vec<u8> {
        let path = match self.rng.below(20) {
            0 => return self.new_path(),
            1 => self.random_path(),
            2 => self.rng.pick(&self.state.working_directories).clone(),
            _ => self.present_path(|_| true),
        };
        self.given(path)
    }

    /// Mostly a directory.
    fn directory(&mut self) -> Vec<u8> {
        if self.rng.percent(15) {
            return self.path();
        }
        let state = self.state;
        let path = self.present_path(|path| state.node(path).is_directory());
        self.given(path)
    }

    /// A path as a line may give it: often short where it lies below the caller's working directory, seldom any short one.
    fn given(&mut self, path: Path) -> Vec<u8> {
        let below = self.standing().and_then(|directory| path.strip_prefix(directory.as_slice()));
        match below {
            Some(names) if !names.is_empty() && self.rng.percent(60) => names.join(&b'/'),
            _ if self.rng.percent(4) => self.short_path(),
            _ => text(&path),
        }
    }

    /// Any short path, often one that is too deep when joined, at times one of seven names.
    fn short_path(&mut self) -> Vec<u8> {
        let length = if self.rng.percent(50) { self.rng.within(4, 7) } else { self.rng.within(1, 3) };
        let names: Path = (0..length).map(|_| self.name()).collect();
        names.join(&b'/')
    }

    /// The caller's working directory, where the caller is an account that has one.
    fn standing(&self) -> Option<&'a Path> {
        self.state.working_directories.get(usize::from(self.caller))
    }

    /// A path that mostly is not there but could be.
    fn new_path(&mut self) -> Vec<u8> {
        let mut path = match self.rng.below(20) {
            0 => self.random_path(),
            1 => self.present_path(|_| true),
            _ => {
                let state = self.state;
                let mut path = self.present_path(|path| state.node(path).is_directory());
                path.push(self.name());
                path
            }
        };
        if self.rng.percent(3) {
            let length = self.rng.within(6, 7);
            while path.len() < length {
                path.push(self.name());
            }
        }
        self.given(path)
    }

    /// A path below `/rep` that is mostly there.
    fn entry(&mut self) -> Vec<u8> {
        let path = self.present_path(|path| path.len() >= 2 && path[0] == b"rep");
        if path.len() < 2 || self.rng.percent(8) {
            return self.new_entry();
        }
        self.entry_text(&path)
    }

    /// A path below `/rep` that mostly is not there but could be.
    fn new_entry(&mut self) -> Vec<u8> {
        let state = self.state;
        let below = |path: &Path| path.first().is_some_and(|name| name == b"rep") && state.node(path).is_directory();
        let mut path = self.present_path(below);
        if self.rng.percent(95) {
            path.push(self.name());
        }
        self.entry_text(&path)
    }

    /// An entry path as text; seldom short, which no entry path may be.
    fn entry_text(&mut self, path: &Path) -> Vec<u8> {
        if self.rng.percent(1) {
            return path.join(&b'/');
        }
        text(path)
    }

    /// Mostly a file.
    fn file(&mut self) -> Vec<u8> {
        if self.rng.percent(10) {
            return self.path();
        }
        let state = self.state;
        let path = self.present_path(|path| !state.node(path).is_directory());
        self.given(path)
    }

    /// A working file, mostly one with a tag.
    fn working(&mut self) -> Vec<u8> {
        if self.rng.percent(15) {
            return self.file();
        }
        let state = self.state;
        let tagged_file = |path: &Path| state.node(path).tag.is_some() && !state.node(path).is_directory();
        let path = self.present_path(tagged_file);
        self.given(path)
    }

    /// Mostly a working file; often a directory, and then mostly one with a tagged file somewhere below it.
    fn committed(&mut self) -> Vec<u8> {
        if self.rng.percent(55) {
            return self.working();
        }
        let tagged = self.state.nodes.iter().filter(|(_, node)| node.tag.is_some() && !node.is_directory());
        let files: Vec<&Path> = tagged.map(|(path, _)| path).collect();
        if files.is_empty() || self.rng.percent(20) {
            return self.directory();
        }
        let path = self.present_path(|path| files.iter().any(|file| file.len() > path.len() && file.starts_with(path)));
        self.given(path)
    }

    /// Any path of the tree for which something holds, often the caller's own or one below the caller's working directory;
    /// `/rep` where there is none.
    fn present_path(&mut self, holds: impl Fn(&Path) -> bool) -> Path {
        let mut nodes: Vec<(&Path, &Node)> = self.state.nodes.iter().filter(|(path, _)| holds(path)).collect();
        if self.rng.percent(60) {
            let caller = self.caller;
            keep_some(&mut nodes, |_, node| node.owner == caller);
        }
        if let Some(directory) = self.standing().filter(|_| self.rng.percent(30)) {
            keep_some(&mut nodes, |path, _| path.starts_with(directory));
        }
        if nodes.is_empty() {
            return vec![b"rep".to_vec()];
        }
        // The deep theme takes the deeper of two.
        let ((one, _), (other, _)) = (*self.rng.pick(&nodes), *self.rng.pick(&nodes));
        let deeper = matches!(self.theme, Theme::Deep) && other.len() > one.len();
        if deeper {
            other.clone()
        } else {
            one.clone()
        }
    }

    /// A path of pool names, at times one too many.
    fn random_path(&mut self) -> Path {
        let length = if self.rng.percent(20) { self.rng.within(5, 7) } else { self.rng.below(5) };
        (0..length).map(|_| self.name()).collect()
    }

    fn name(&mut self) -> Vec<u8> {
        let filling = matches!(self.theme, Theme::Filling);
        if self.rng.percent(if filling { 90 } else { 5 }) {
            return format!("n{}", self.rng.below(400)).into_bytes();
        }
        self.rng.pick(&NAMES).as_bytes().to_vec()
    }

    /// Mostly modes that let the owner work.
    fn mode(&mut self, set_gid: bool) -> Vec<u8> {
        let bits = match self.rng.below(6) {
            0 => self.rng.below(512),
            1 => *self.rng.pick(&[0, 0o40, 0o400, 0o200, 0o100, 0o70, 0o7]),
            2 => 0o777,
            _ => 0o700 | self.rng.below(64),
        };
        let first = if set_gid && self.rng.percent(30) { '2' } else { '0' };
        format!("{first}{bits:03o}").into_bytes()
    }

    /// A content, seldom one byte too long.
    fn content(&mut self) -> Vec<u8> {
        let mut content = any_content(self.rng);
        if self.rng.percent(2) {
            content.resize(MOST_CONTENT + 1, b'x');
        }
        content
    }

    /// A number, mostly below a bound.
    fn number(&mut self, bound: usize) -> Vec<u8> {
        let bound = if self.rng.percent(2) { bound + 2 } else { bound };
        let small = self.rng.percent(50);
        self.rng.below(if small { bound.min(5) } else { bound }).to_string().into_bytes()
    }

    /// A role and password, mostly of a grant that the caller has.
    fn grant(&mut self) -> Vec<Vec<u8>> {
        let caller = self.caller;
        let mut own: Vec<_> = self.state.grants.iter().filter(|grant| grant.uid == caller).collect();
        // Role 0 alone may write in `/rep`, so that with it more gets done.
        if matches!(self.theme, Theme::DirectoryCommits) && own.iter().any(|grant| grant.role == 0) && self.rng.percent(60) {
            own.retain(|grant| grant.role == 0);
        }
        if own.is_empty() || self.rng.percent(20) {
            return vec![self.number(8), self.rng.pick(&PASSWORDS).as_bytes().to_vec()];
        }
        let grant = *self.rng.pick(&own);
        vec![grant.role.to_string().into_bytes(), grant.password.clone()]
    }
}

/// A content: short, at either side of document 01's 64 bytes, or as long as may be.
pub fn any_content(rng: &mut Rng) -> Vec<u8> {
    let length = *rng.pick(&[0, 1, 2, 5, 63, 64, 65, MOST_CONTENT - 1, MOST_CONTENT]);
    let byte = |rng: &mut Rng| match rng.within(32, 126) as u8 {
        b',' => b'.',
        byte => byte,
    };
    (0..length).map(|_| byte(rng)).collect()
}

/// Keeps the nodes for which something holds, if there are any.
fn keep_some(nodes: &mut Vec<(&Path, &Node)>, holds: impl Fn(&Path, &Node) -> bool) {
    if nodes.iter().any(|(path, node)| holds(path, node)) {
        nodes.retain(|(path, node)| holds(path, node));
    }
}
