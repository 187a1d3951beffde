//! The kinds of searches, so that each is known to come up.

use crate::model::state::{Path, State, MOST_NAMES, MOST_NODES};
use crate::steps_model::{alike, tried};
use crate::tally::Tally;
use std::collections::BTreeMap;
use std::slice;
use Kind::*;

/// The most bytes of a name.
pub const MOST_BYTES: usize = 8;
/// The children of a place that is called wide.
pub const WIDE: usize = 250;

#[derive(Clone, Copy, PartialEq, Eq, PartialOrd, Ord, Debug)]
pub enum Kind {
    FoundFirst,
    FoundBehindOthers,
    MissingWithNoChildren,
    MissingBeforeFirst,
    MissingBetween,
    MissingBehindLast,
    /// A child's name is less than the one sought by this byte, from 1, and the search goes on.
    LessAtByte(usize),
    /// It is greater by this byte, and the search ends.
    GreaterAtByte(usize),
    /// A child's name is a beginning of the one sought.
    ChildBegins,
    /// The name sought, not empty, is a beginning of a child's.
    SoughtBegins,
    /// Both names have 8 bytes and are alike to the end.
    EightAlike,
    /// Rows below a child were passed over.
    RowsPassed,
    /// Names that no child can have, sought where there are children.
    SoughtEmpty,
    SoughtTooLong,
    SoughtWithZero,
    SoughtAbove127,
    PlaceAtDepth(usize),
    PlaceIsFile,
    PlaceIsWide,
    /// The last of all the rows that there may be.
    PlaceInLastRow,
}

/// How often each kind came up.
#[derive(Default)]
pub struct Kinds(BTreeMap<Kind, u64>);

impl Kinds {
    /// Notes a search among children of these names.
    pub fn note(&mut self, state: &State, place: &Path, names: &[Vec<u8>], sought: &[u8]) {
        let of_sought = if names.is_empty() { vec![] } else { by_sought(sought) };
        let of_children = tried(names, sought).iter().filter_map(|name| by_bytes(name, sought));
        let kinds = [by_place_among(names, sought)].into_iter().chain(of_sought).chain(of_children);
        for kind in kinds.chain(by_place(state, place, names)).chain(passed(state, place, names, sought)) {
            *self.0.entry(kind).or_default() += 1;
        }
    }

    /// Prints the counts, and checks that every kind came up.
    pub fn check(&self, tally: &mut Tally) {
        for kind in wanted() {
            let count = self.0.get(&kind).copied().unwrap_or(0);
            println!("{:22} {count}", format!("{kind:?}"));
            tally.check((count == 0).then(|| format!("no search was {kind:?}")));
        }
    }
}

/// Every kind that must come up.
fn wanted() -> Vec<Kind> {
    let single = [
        FoundFirst, FoundBehindOthers, MissingWithNoChildren, MissingBeforeFirst, MissingBetween, MissingBehindLast, ChildBegins,
        SoughtBegins, EightAlike, RowsPassed, SoughtEmpty, SoughtTooLong, SoughtWithZero, SoughtAbove127, PlaceIsFile,
        PlaceIsWide, PlaceInLastRow,
    ];
    let bytes = (1..=MOST_BYTES).flat_map(|byte| [LessAtByte(byte), GreaterAtByte(byte)]);
    single.into_iter().chain(bytes).chain((0..=MOST_NAMES).map(PlaceAtDepth)).collect()
}

/// Where the name stands, or would stand, among the children.
fn by_place_among(names: &[Vec<u8>], sought: &[u8]) -> Kind {
    let less = names.iter().filter(|name| name.as_slice() < sought).count();
    let found = names.iter().any(|name| name == sought);
    match (found, less) {
        (true, 0) => FoundFirst,
        (true, _) => FoundBehindOthers,
        (false, _) if names.is_empty() => MissingWithNoChildren,
        (false, 0) => MissingBeforeFirst,
        (false, less) if less < names.len() => MissingBetween,
        (false, _) => MissingBehindLast,
    }
}

/// How a child's name and the one sought compare; nothing where both are the same with fewer than 8 bytes, or the empty one is
/// sought.
fn by_bytes(name: &[u8], sought: &[u8]) -> Option<Kind> {
    let same = alike(name, sought);
    match (name.get(same), sought.get(same)) {
        (Some(byte), Some(other)) if byte < other => Some(LessAtByte(same + 1)),
        (Some(_), Some(_)) => Some(GreaterAtByte(same + 1)),
        (None, Some(_)) => Some(ChildBegins),
        (Some(_), None) => (!sought.is_empty()).then_some(SoughtBegins),
        (None, None) => (same == MOST_BYTES).then_some(EightAlike),
    }
}

/// What is odd in the name sought.
fn by_sought(sought: &[u8]) -> Vec<Kind> {
    let odd = [
        (sought.is_empty(), SoughtEmpty),
        (sought.len() > MOST_BYTES, SoughtTooLong),
        (sought.contains(&0), SoughtWithZero),
        (sought.iter().any(|byte| *byte > 127), SoughtAbove127),
    ];
    odd.into_iter().filter(|(holds, _)| *holds).map(|(_, kind)| kind).collect()
}

/// What the place itself is.
fn by_place(state: &State, place: &Path, names: &[Vec<u8>]) -> Vec<Kind> {
    let file = (!state.node(place).is_directory()).then_some(PlaceIsFile);
    let wide = (names.len() >= WIDE).then_some(PlaceIsWide);
    let last = state.nodes.keys().nth(MOST_NODES - 1) == Some(place);
    [PlaceAtDepth(place.len())].into_iter().chain(file).chain(wide).chain(last.then_some(PlaceInLastRow)).collect()
}

/// Whether a child whose name is less than the one sought has rows below it.
fn passed(state: &State, place: &Path, names: &[Vec<u8>], sought: &[u8]) -> Option<Kind> {
    let has_rows = |name: &Vec<u8>| !state.children(&[place.as_slice(), slice::from_ref(name)].concat()).is_empty();
    names.iter().take_while(|name| name.as_slice() < sought).any(has_rows).then_some(RowsPassed)
}
