//! Random trees of many shapes to search in: sound, and with any attributes beside the names.

use crate::damage::fresh;
use crate::model::state::{Kind, Node, Path, State, MOST_NAMES, MOST_NODES};
use crate::rng::Rng;
use crate::setups::good_setup;
use crate::states::{attributes, scramble};
use crate::steps_kinds::{MOST_BYTES, WIDE};

/// The bytes that a tree's names are made of: few, so that names begin alike, or the ends of the ranges.
const ALPHABETS: [&[u8]; 5] = [b"ab", b"a_", b"09_az", b"abc", b"0123456789_abcdefghijklmnopqrstuvwxyz"];

/// Names of which each begins like others.
const ALIKE: [&str; 12] = ["a", "aa", "aaaaaaa", "aaaaaaaa", "aaaaaaab", "aaaaaab", "aaaaab", "aaaab", "aaab", "aab", "ab", "b"];

/// All trees of a run.
pub fn trees(rng: &mut Rng) -> Vec<State> {
    let mut trees = vec![bare(), alike(bare(), &[])];
    for depth in 0..MOST_NAMES {
        trees.extend([1, 2, 12, 40].map(|children| fan(rng, depth, children)));
    }
    trees.extend([0, 2, 5].map(|depth| fan(rng, depth, WIDE)));
    trees.push(fan(rng, 0, MOST_NODES - 1));
    trees.extend([2, 4, 10].map(|teeth| comb(rng, teeth)));
    for rows in [2, 3, 5, 10, 20, 40, 80, 120, 200, MOST_NODES] {
        trees.extend([0, 1].map(|_| bushy(rng, rows)));
    }
    for tree in &mut trees {
        for path in tree.nodes.keys().cloned().collect::<Vec<_>>() {
            attributes(rng, tree, &path);
        }
    }
    for _ in 0..4 {
        let mut state = fresh(&good_setup(rng));
        scramble(rng, &mut state);
        trees.push(state);
    }
    trees
}

/// `/` and nothing else.
fn bare() -> State {
    let mut state = fresh(b"end\n");
    state.nodes.retain(|path, _| path.is_empty());
    state
}

/// The names that begin alike, below a place.
fn alike(mut state: State, place: &[Vec<u8>]) -> State {
    for name in ALIKE {
        let path = [place, &[name.as_bytes().to_vec()]].concat();
        state.nodes.insert(path, Node::new(Kind::File, 0, 0, 0o600));
    }
    state
}

/// Directories one in the other down to a depth, and so many children in the last.
fn fan(rng: &mut Rng, depth: usize, children: usize) -> State {
    let mut state = bare();
    let alphabet = *rng.pick(&ALPHABETS);
    let place = chain(rng, &mut state, depth, alphabet);
    let rows = state.nodes.len() + children;
    while state.nodes.len() < rows {
        add(rng, &mut state, &place, alphabet);
    }
    state
}

/// Siblings, some with directories below them, one in the other, and the names that begin alike at the end.
fn comb(rng: &mut Rng, teeth: usize) -> State {
    let mut state = bare();
    let alphabet = *rng.pick(&ALPHABETS);
    for _ in 0..teeth {
        let end = chain(rng, &mut state, MOST_NAMES - 1, alphabet);
        state = alike(state, &end);
        add(rng, &mut state, &Path::new(), alphabet);
    }
    state
}

/// Nodes below random directories, mostly the deeper of two.
fn bushy(rng: &mut Rng, rows: usize) -> State {
    let mut state = bare();
    let alphabet = *rng.pick(&ALPHABETS);
    while state.nodes.len() < rows {
        let open = |path: &&Path| path.len() < MOST_NAMES && state.node(path).is_directory();
        let directories: Vec<&Path> = state.nodes.keys().filter(open).collect();
        let (one, other) = (*rng.pick(&directories), *rng.pick(&directories));
        let deeper = if rng.percent(70) && other.len() > one.len() { other } else { one };
        let place = deeper.clone();
        add(rng, &mut state, &place, alphabet);
    }
    state
}

/// Adds directories one in the other, from `/` on, and tells the last.
fn chain(rng: &mut Rng, state: &mut State, length: usize, alphabet: &[u8]) -> Path {
    let mut path = Path::new();
    for _ in 0..length {
        path.push(name(rng, alphabet));
        state.nodes.insert(path.clone(), Node::new(Kind::Directory, 0, 0, 0o700));
    }
    path
}

/// Adds a child of a random name, unless there is one of that name.
fn add(rng: &mut Rng, state: &mut State, place: &Path, alphabet: &[u8]) {
    let path = [place.as_slice(), &[name(rng, alphabet)]].concat();
    let kind = if rng.percent(60) { Kind::Directory } else { Kind::File };
    state.nodes.entry(path).or_insert(Node::new(kind, 0, 0, 0o700));
}

/// A name that begins with some of the alphabet's first byte.
fn name(rng: &mut Rng, alphabet: &[u8]) -> Vec<u8> {
    let length = *rng.pick(&[1, 2, 3, 4, 5, 6, 7, MOST_BYTES, MOST_BYTES, MOST_BYTES]);
    let first = rng.below(length + 1);
    (0..length).map(|at| if at < first { alphabet[0] } else { *rng.pick(alphabet) }).collect()
}
