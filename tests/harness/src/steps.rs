//! The search for a child: what the library finds in a tree's bytes, and in how many steps, is what the model says.

use crate::layout::{encode, put_two, two, ROWS};
use crate::model::state::{text, Path, State, MOST_NODES};
use crate::rng::Rng;
use crate::search::search;
use crate::steps_kinds::{Kinds, MOST_BYTES};
use crate::steps_trees::trees;
use crate::tally::{show, Tally};
use crate::twin::{unlike, Twin};
use crate::{steps_hand, steps_model};
use std::collections::BTreeSet;

/// Names sought at every place; most of them no child can have.
const EVERYWHERE: [&[u8]; 16] = [
    b"", b"\0", b"a\0", b"\0a", b"a\0a", b"a", b"z", b"_", b"/", b"aaaaaaaa", b"aaaaaaaaa", b"zzzzzzzzz",
    b"aaaaaaaaaaaaaaaaaaaa", b"\x80", b"\xff", b"a\xffa",
];
/// How many names of any rows are sought at a place, and how many of random bytes.
const ELSEWHERE: usize = 12;
const RANDOM: usize = 6;

pub fn steps(seed: u64) -> Tally {
    let mut tally = Tally::default();
    steps_hand::by_hand(&mut tally);
    let mut rng = Rng::new(seed);
    let mut kinds = Kinds::default();
    for (number, state) in trees(&mut rng).into_iter().enumerate() {
        let what = format!("seed {seed}, tree {number}");
        let twin = Twin { store: encode(&state), model: state };
        tally.check(twin.state_problem().map(|problem| format!("{what}: {problem}")));
        every_row(&mut rng, &mut tally, &mut kinds, &twin, &what);
        no_answers(&mut tally, &twin.store[ROWS..], &what);
    }
    kinds.check(&mut tally);
    tally
}

/// Searches at every row of a tree; the bytes stay as they were.
fn every_row(rng: &mut Rng, tally: &mut Tally, kinds: &mut Kinds, twin: &Twin, what: &str) {
    let (state, tree) = (&twin.model, &twin.store[ROWS..]);
    let before = tree.to_vec();
    for (at, place) in state.nodes.keys().enumerate() {
        let names = steps_model::names(state, place);
        for sought in sought(rng, state, &names) {
            kinds.note(state, place, &names, &sought);
            let (given, wanted) = (search(tree, at, &sought), Some(steps_model::search(state, place, &sought)));
            let problem = || format!("the library gives {given:?}, the model {wanted:?}");
            tally.check((given != wanted).then(|| format!("{what}, {}: {}", case(at, place, &names, &sought), problem())));
        }
    }
    tally.check(unlike(tree, &before, "tree").map(|problem| format!("{what}: {problem}")));
}

/// A search in words: row and path of the place, all names of its children, and the name sought.
fn case(at: usize, place: &Path, names: &[Vec<u8>], sought: &[u8]) -> String {
    let names: Vec<String> = names.iter().map(|name| show(name)).collect();
    format!("row {at}, {} with children [{}], sought {}", show(&text(place)), names.join(" "), show(sought))
}

/// The names to seek at a place: those of its children and such as are near them, some of any rows, and odd ones.
fn sought(rng: &mut Rng, state: &State, names: &[Vec<u8>]) -> BTreeSet<Vec<u8>> {
    let mut sought: BTreeSet<Vec<u8>> = EVERYWHERE.map(<[u8]>::to_vec).into();
    sought.extend(names.iter().flat_map(|name| near(name)));
    let paths: Vec<&Path> = state.nodes.keys().collect();
    sought.extend((0..ELSEWHERE).filter_map(|_| rng.pick(&paths).last().cloned()));
    for _ in 0..RANDOM {
        let mut bytes = vec![0; rng.below(12)];
        rng.fill(&mut bytes);
        sought.insert(bytes);
    }
    sought
}

/// A child's name, and with bytes more, one byte less, and another last byte.
fn near(name: &[u8]) -> Vec<Vec<u8>> {
    let (last, front) = name.split_last().expect("a child has a name");
    let with = |part: &[u8], more: &[u8]| [part, more].concat();
    // In a row zeros fill the name up to 8 bytes, and a tag's path, which begins with `/rep/`, comes next.
    let zeros = |length: usize| with(name, &[0].repeat(length.saturating_sub(name.len())));
    vec![
        name.to_vec(),
        front.to_vec(),
        with(front, &[last + 1]),
        with(front, &[last - 1]),
        with(front, &[last + 128]),
        with(name, b"a"),
        with(name, b"\0"),
        with(name, b"\xff"),
        with(name, b"/rep/"),
        zeros(MOST_BYTES),
        zeros(MOST_BYTES + 1),
        // The length's low byte is that of the name.
        with(name, &[b'a'; 256]),
    ]
}

/// Bytes that are no tree, and rows that it does not have, get no answer; its first and last rows do.
fn no_answers(tally: &mut Tally, tree: &[u8], what: &str) {
    let rows = two(tree, 0);
    let longer = [tree, &[0]].concat();
    let with_rows = |number: u16| {
        let mut bytes = tree.to_vec();
        put_two(&mut bytes, 0, number);
        bytes
    };
    let mut check = |bytes: &[u8], at: usize, answered: bool| {
        let given = search(bytes, at, b"a");
        let problem = || format!("{what}: of {} bytes, {} rows, row {at} gives {given:?}", bytes.len(), two(bytes, 0));
        tally.check((given.is_some() != answered).then(problem));
    };
    for at in [0, rows - 1] {
        check(tree, at, true);
        check(&tree[..tree.len() - 1], at, false);
        check(&longer, at, false);
        for number in [0, MOST_NODES as u16 + 1, 512, 65_535] {
            check(&with_rows(number), at, false);
        }
    }
    // Far rows, too; the low bytes of some are those of row 0.
    for at in [rows, rows + 1, MOST_NODES, MOST_NODES + 1, 65_536, 1 << 32, 1 << 63, usize::MAX] {
        check(tree, at, false);
    }
    check(&with_rows(MOST_NODES as u16 + 1), MOST_NODES, false);
}
