//! Searches whose answers are worked out by hand from request 4's sentence: "for each the bytes alike from the front, and one
//! more, where the names differ or both end". Model and library are each held against them.

use crate::damage::fresh;
use crate::layout::{encode, ROWS};
use crate::model::line::path;
use crate::model::state::{Kind, Node, Path, State};
use crate::search::{search, Search};
use crate::steps_model;
use crate::tally::{show, Tally};

/// The paths of a tree but `/`, in order; the row of the place; the name sought; the answer.
type Case = (&'static [&'static str], usize, &'static [u8], Search);

const fn found(row: usize, steps: u64) -> Search {
    Search { child: Ok(row), steps }
}

const fn missing(row: usize, steps: u64) -> Search {
    Search { child: Err(row), steps }
}

/// Names that are beginnings of one another.
const BEGINNINGS: &[&str] = &["/a", "/aa", "/aaa"];
/// Names of 8 bytes that differ in the last.
const EIGHTS: &[&str] = &["/aaaaaaaa", "/aaaaaaab"];
/// Rows 1 to 5, of which two lie below `/a`.
const BELOW: &[&str] = &["/a", "/a/b", "/a/b/c", "/b", "/d"];

#[rustfmt::skip]
const CASES: [Case; 32] = [
    // No child is tried.
    (&[], 0, b"a", missing(1, 0)),
    (&[], 0, b"", missing(1, 0)),
    // `a` and `a`: 1 alike, 1 where both end.
    (&["/a"], 0, b"a", found(1, 2)),
    // `b` and `a`: none alike, 1 where they differ.
    (&["/b"], 0, b"a", missing(1, 1)),
    // `a` and `b`: none alike, 1 where they differ; no child is left.
    (&["/a"], 0, b"b", missing(2, 1)),
    // `a` 0 + 1, `b` 1 + 1; `c` is not tried.
    (&["/a", "/b", "/c"], 0, b"b", found(2, 3)),
    // `a` 0 + 1, `c` 0 + 1; `d` is not tried.
    (&["/a", "/c", "/d"], 0, b"b", missing(2, 2)),
    // `ba` 0 + 1, `bb` and `bc` are not tried.
    (&["/ba", "/bb", "/bc"], 0, b"a", missing(1, 1)),
    // `ba` 1 + 1, `bb` 2 + 1; `bc` is not tried.
    (&["/ba", "/bb", "/bc"], 0, b"bb", found(2, 5)),
    // `ba` 1 + 1, `bb` 1 + 1, `bc` 1 + 1.
    (&["/ba", "/bb", "/bc"], 0, b"bd", missing(4, 6)),
    // `a` 1 + 1; `aa` and `aaa` are not tried.
    (BEGINNINGS, 0, b"a", found(1, 2)),
    // `a` 1 + 1, where it ends and the one sought goes on; `aa` 2 + 1.
    (BEGINNINGS, 0, b"aa", found(2, 5)),
    // `a` 1 + 1, `aa` 2 + 1, `aaa` 3 + 1.
    (BEGINNINGS, 0, b"aaaa", missing(4, 9)),
    // `a` 1 + 1, `aa` 1 + 1, `aaa` 1 + 1.
    (BEGINNINGS, 0, b"ab", missing(4, 6)),
    // `a` 0 + 1, where the one sought ends.
    (BEGINNINGS, 0, b"", missing(1, 1)),
    // `a` 1 + 1; `aa` 1 alike, 1 where `a` and byte 0 differ.
    (BEGINNINGS, 0, b"a\0", missing(2, 4)),
    // `a` 0 + 1.
    (BEGINNINGS, 0, b"\0", missing(1, 1)),
    // Three times 0 + 1: bytes above 127 are the greater ones.
    (BEGINNINGS, 0, b"\xff", missing(4, 3)),
    // `ab` 1 alike, 1 where the one sought ends.
    (&["/ab"], 0, b"a", missing(1, 2)),
    // `a` 1 + 1: the zeros are bytes of the name sought and none of the child's.
    (&["/a"], 0, b"a\0\0\0\0\0\0\0", missing(2, 2)),
    // 8 alike, 1 where both end.
    (EIGHTS, 0, b"aaaaaaaa", found(1, 9)),
    // 7 alike, 1 where they differ; then 8 alike, 1 where both end.
    (EIGHTS, 0, b"aaaaaaab", found(2, 17)),
    // 8 alike, 1 where the child's ends; then 7 alike, 1 where they differ.
    (EIGHTS, 0, b"aaaaaaaaa", missing(2, 17)),
    // 7 alike, 1 where they differ; then 8 alike, 1 where the child's ends.
    (EIGHTS, 0, b"aaaaaaabaaaaaaaaaaaa", missing(3, 17)),
    // 7 alike, 1 where the one sought ends.
    (EIGHTS, 0, b"aaaaaaa", missing(1, 8)),
    // `a` 0 + 1; what is below it is not tried; `b` 1 + 1.
    (BELOW, 0, b"b", found(4, 3)),
    // `a` 0 + 1, `b` 0 + 1, `d` 0 + 1; the `c` below is no child.
    (BELOW, 0, b"c", missing(5, 3)),
    // Below `/a`: `b` 1 + 1.
    (BELOW, 1, b"b", found(2, 2)),
    // Below `/a`: `b` 0 + 1; behind it, and all below it, stands `/b` in row 4.
    (BELOW, 1, b"c", missing(4, 1)),
    // Below `/a/b/c`, and below the files `/b` and `/d`, no child is tried.
    (BELOW, 3, b"c", missing(4, 0)),
    (BELOW, 4, b"b", missing(5, 0)),
    (BELOW, 5, b"d", missing(6, 0)),
];

pub fn by_hand(tally: &mut Tally) {
    for (paths, at, sought, wanted) in CASES {
        let (state, place) = tree(paths, at);
        let tree = &encode(&state)[ROWS..];
        let model = steps_model::search(&state, &place, sought);
        for (who, given) in [("the model", Some(model)), ("the library", search(tree, at, sought))] {
            let problem =
                || format!("by hand, {paths:?}, row {at}, sought {}: {who} gives {given:?} and not {wanted:?}", show(sought));
            tally.check((given != Some(wanted)).then(problem));
        }
    }
}

/// The tree of the paths, in which what has nothing below it is a file, and the path of a row.
fn tree(texts: &[&str], at: usize) -> (State, Path) {
    let mut state = fresh(b"end\n");
    let paths: Vec<Path> = ["/"].iter().chain(texts).map(|text| path(text.as_bytes()).expect("a path")).collect();
    let holds =
        |place: &Path| place.is_empty() || paths.iter().any(|other| other.len() > place.len() && other.starts_with(place));
    let kind = |place: &Path| if holds(place) { Kind::Directory } else { Kind::File };
    state.nodes = paths.iter().map(|place| (place.clone(), Node::new(kind(place), 0, 0, 0o700))).collect();
    (state, paths[at].clone())
}
