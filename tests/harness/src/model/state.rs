//! What a store holds: people, pairs, grants, sessions, working directories, and the nodes by path.

use std::collections::{BTreeMap, BTreeSet};

/// The most nodes that exist at once.
pub const MOST_NODES: usize = 256;
/// The most names in a path.
pub const MOST_NAMES: usize = 6;
/// The most bytes of a content.
pub const MOST_CONTENT: usize = 80;
/// The last revision.
pub const LAST_REVISION: u16 = 9999;
/// The group that holds all service accounts.
pub const ALL_SERVICE: u8 = 24;
/// The set-gid bit of a mode.
pub const SET_GID: u16 = 0o2000;

/// The names of a path; none for `/`.
pub type Path = Vec<Vec<u8>>;

#[derive(Clone, Copy, PartialEq, Eq, Debug)]
pub enum Kind {
    Directory,
    File,
}

/// An entry path with a revision.
#[derive(Clone, PartialEq, Eq, Debug)]
pub struct Tag {
    pub path: Path,
    pub revision: u16,
}

#[derive(Clone, PartialEq, Eq, Debug)]
pub struct Node {
    pub kind: Kind,
    pub owner: u8,
    pub group: u8,
    pub mode: u16,
    pub revision: u16,
    pub tag: Option<Tag>,
    pub content: Vec<u8>,
}

impl Node {
    /// A node with no revision, tag or content yet.
    pub fn new(kind: Kind, owner: u8, group: u8, mode: u16) -> Node {
        Node { kind, owner, group, mode, revision: 0, tag: None, content: Vec::new() }
    }

    pub fn is_directory(&self) -> bool {
        self.kind == Kind::Directory
    }
}

#[derive(Clone, PartialEq, Eq, Debug)]
pub struct Person {
    pub primary: u8,
    pub further: BTreeSet<u8>,
}

#[derive(Clone, PartialEq, Eq, Debug)]
pub struct Grant {
    pub uid: u8,
    pub role: u8,
    pub password: Vec<u8>,
}

#[derive(Clone, PartialEq, Eq, Debug)]
pub struct State {
    pub people: BTreeMap<u8, Person>,
    /// Role pairs, senior and junior, as their lines stood.
    pub pairs: Vec<(u8, u8)>,
    /// Login grants as their lines stood.
    pub grants: Vec<Grant>,
    pub sessions: [Option<u8>; 16],
    /// Where each account stands; the path is kept by its names, whatever becomes of the directory.
    pub working_directories: [Path; 16],
    pub nodes: BTreeMap<Path, Node>,
}

impl State {
    /// The fresh store of a setup: `/`, `/rep`, and `/u` with the uid for each person, who stands there; the other accounts
    /// stand at `/`.
    pub fn fresh(people: BTreeMap<u8, Person>, pairs: Vec<(u8, u8)>, grants: Vec<Grant>) -> State {
        let mut nodes = BTreeMap::new();
        nodes.insert(Vec::new(), Node::new(Kind::Directory, 0, 0, 0o755));
        nodes.insert(vec![b"rep".to_vec()], Node::new(Kind::Directory, 16, ALL_SERVICE, 0o750));
        let mut working_directories: [Path; 16] = Default::default();
        for (uid, person) in &people {
            let home = vec![format!("u{uid}").into_bytes()];
            nodes.insert(home.clone(), Node::new(Kind::Directory, *uid, person.primary, 0o755));
            working_directories[usize::from(*uid)] = home;
        }
        State { people, pairs, grants, sessions: [None; 16], working_directories, nodes }
    }

    /// The node of a path that is known to be there.
    pub fn node(&self, path: &[Vec<u8>]) -> &Node {
        &self.nodes[path]
    }

    /// The same, to change it.
    pub fn node_mut(&mut self, path: &[Vec<u8>]) -> &mut Node {
        self.nodes.get_mut(path).expect("a node that was walked to")
    }

    pub fn present(&self, path: &[Vec<u8>]) -> bool {
        self.nodes.contains_key(path)
    }

    /// The paths of a node's children, in byte order of their names.
    pub fn children(&self, path: &[Vec<u8>]) -> Vec<Path> {
        self.nodes
            .range(path.to_vec()..)
            .map(|(other, _)| other)
            .take_while(|other| other.starts_with(path))
            .filter(|other| other.len() == path.len() + 1)
            .cloned()
            .collect()
    }

    /// A node's own path and those of everything below it.
    pub fn subtree(&self, path: &[Vec<u8>]) -> Vec<Path> {
        self.nodes.range(path.to_vec()..).map(|(other, _)| other).take_while(|other| other.starts_with(path)).cloned().collect()
    }

    /// Role s dominates r if s = r or a chain of pairs leads from s down to r.
    pub fn dominates(&self, s: u8, r: u8) -> bool {
        let mut reached = [false; 8];
        reached[usize::from(s)] = true;
        // A chain has at most eight roles, so eight rounds reach everything.
        for _ in 0..8 {
            for (senior, junior) in &self.pairs {
                reached[usize::from(*junior)] |= reached[usize::from(*senior)];
            }
        }
        reached[usize::from(r)]
    }
}

/// The path of all names but the last.
pub fn parent(path: &[Vec<u8>]) -> &[Vec<u8>] {
    &path[..path.len() - 1]
}

/// A path as text.
pub fn text(path: &[Vec<u8>]) -> Vec<u8> {
    if path.is_empty() {
        return b"/".to_vec();
    }
    let mut bytes = Vec::new();
    for name in path {
        bytes.push(b'/');
        bytes.extend_from_slice(name);
    }
    bytes
}
