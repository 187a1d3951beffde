//! Random sound states that no short list of lines reaches: any modes, owners, tags, revisions and contents.

use crate::generate::{any_content, NAMES};
use crate::model::state::{Kind, Node, Path, State, Tag, LAST_REVISION, MOST_NAMES, MOST_NODES, SET_GID};
use crate::rng::Rng;

/// Changes a fresh state's tree, sessions, attributes and working directories at random; the result is sound.
pub fn scramble(rng: &mut Rng, state: &mut State) {
    let uids: Vec<u8> = state.people.keys().copied().chain([0]).collect();
    for uid in uids {
        if rng.percent(70) {
            let granted: Vec<u8> = state.grants.iter().filter(|grant| grant.uid == uid).map(|grant| grant.role).collect();
            let role = if granted.is_empty() { rng.below(8) as u8 } else { *rng.pick(&granted) };
            state.sessions[usize::from(uid)] = Some(role);
        }
    }
    let wanted = match rng.below(4) {
        0 => rng.within(MOST_NODES - 5, MOST_NODES),
        _ => state.nodes.len() + rng.below(80),
    };
    grow(rng, state, wanted);
    for path in state.nodes.keys().cloned().collect::<Vec<_>>() {
        if rng.percent(if path.len() < 2 { 10 } else { 100 }) {
            attributes(rng, state, &path);
        }
    }
    for account in 0..state.working_directories.len() {
        if rng.percent(60) {
            state.working_directories[account] = any_directory(rng, state);
        }
    }
}

/// A working directory for any account: mostly a path that is there, a file too, at times one that is not.
fn any_directory(rng: &mut Rng, state: &State) -> Path {
    let paths: Vec<&Path> = state.nodes.keys().collect();
    let directories: Vec<&Path> = paths.iter().copied().filter(|path| state.node(path).is_directory()).collect();
    match rng.below(10) {
        0 => vec![b"eightby8".to_vec(); rng.within(1, MOST_NAMES)],
        1 => (0..rng.within(1, MOST_NAMES)).map(|_| rng.pick(&NAMES).as_bytes().to_vec()).collect(),
        2 => (*rng.pick(&paths)).clone(),
        _ => (*rng.pick(&directories)).clone(),
    }
}

/// The same with all 256 nodes.
pub fn fill(rng: &mut Rng, state: &mut State) {
    scramble(rng, state);
    grow(rng, state, MOST_NODES);
}

/// Adds nodes below random directories until there are so many.
fn grow(rng: &mut Rng, state: &mut State, wanted: usize) {
    while state.nodes.len() < wanted.min(MOST_NODES) {
        let directories: Vec<&Path> =
            state.nodes.keys().filter(|path| path.len() < MOST_NAMES && state.node(path).is_directory()).collect();
        let mut path = (*rng.pick(&directories)).clone();
        let name = if rng.percent(60) { rng.pick(&NAMES).to_string() } else { format!("n{}", rng.below(1000)) };
        path.push(name.into_bytes());
        let kind = if rng.percent(50) { Kind::Directory } else { Kind::File };
        state.nodes.entry(path).or_insert(Node::new(kind, 0, 0, 0o700));
    }
}

/// Gives a node random attributes; below `/rep` mostly such as entries have.
pub fn attributes(rng: &mut Rng, state: &mut State, path: &Path) {
    let entry = path[..].first().is_some_and(|name| name == b"rep");
    let people: Vec<u8> = state.people.keys().copied().chain([0]).collect();
    let tag = rng.percent(60).then(|| any_tag(rng, state));
    let node = state.node_mut(path);
    let role = if rng.percent(60) { 0 } else { rng.below(8) as u8 };
    node.owner = if entry { 16 + role } else { *rng.pick(&people) };
    node.group = if entry { 16 + role } else { rng.below(25) as u8 };
    if rng.percent(20) {
        (node.owner, node.group) = (rng.below(24) as u8, rng.below(25) as u8);
    }
    let any = rng.below(512) as u16;
    node.mode = *rng.pick(&[0o777, 0o777, 0o770, 0o770, 0o750, 0o440, 0o700, 0o755, any]);
    if node.is_directory() && rng.percent(70) {
        node.mode |= 0o711;
    }
    if node.is_directory() && rng.percent(25) {
        node.mode |= SET_GID;
    }
    node.revision = any_revision(rng);
    node.tag = tag;
    if !node.is_directory() && rng.percent(70) {
        node.content = any_content(rng);
    }
}

/// Mostly revisions at the ends of the range.
fn any_revision(rng: &mut Rng) -> u16 {
    let any = rng.below(10_000) as u16;
    *rng.pick(&[0, 1, 2, LAST_REVISION - 1, LAST_REVISION, LAST_REVISION, any])
}

/// A tag, mostly of a path that is there and often with its revision.
fn any_tag(rng: &mut Rng, state: &State) -> Tag {
    let entries: Vec<(&Path, &Node)> = state.nodes.iter().filter(|(path, _)| path.len() >= 2 && path[0] == b"rep").collect();
    if entries.is_empty() || rng.percent(10) {
        let names = rng.within(1, 5);
        let path = [b"rep".to_vec()].into_iter().chain((0..names).map(|_| rng.pick(&NAMES).as_bytes().to_vec())).collect();
        return Tag { path, revision: any_revision(rng) };
    }
    let (path, node) = *rng.pick(&entries);
    let revision = if rng.percent(70) { node.revision } else { any_revision(rng) };
    Tag { path: path.clone(), revision }
}
