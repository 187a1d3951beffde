//! The search for a child by document 02's request 4, on the model's state. It stands beside `model`, which the package
//! `conform` has too: no line and no answer shows a search.

use crate::model::state::{Path, State};
use crate::search::Search;

/// How many bytes two names have alike from the front.
pub fn alike(a: &[u8], b: &[u8]) -> usize {
    a.iter().zip(b).take_while(|(x, y)| x == y).count()
}

/// The names of a place's children, in byte order.
pub fn names(state: &State, place: &Path) -> Vec<Vec<u8>> {
    state.children(place).into_iter().filter_map(|mut child| child.pop()).collect()
}

/// The children tried: all whose names are less than the one sought, and the first that is not less.
pub fn tried<'a>(names: &'a [Vec<u8>], sought: &[u8]) -> &'a [Vec<u8>] {
    let less = names.iter().take_while(|name| name.as_slice() < sought).count();
    &names[..names.len().min(less + 1)]
}

/// A node's row is the number of paths before its own; a missing child's row is that of the path it would have.
pub fn search(state: &State, place: &Path, sought: &[u8]) -> Search {
    // For each the bytes alike from the front, and one more, where the names differ or both end.
    let steps = tried(&names(state, place), sought).iter().map(|name| alike(name, sought) as u64 + 1).sum();
    let path: Path = place.iter().cloned().chain([sought.to_vec()]).collect();
    let row = state.nodes.keys().filter(|other| **other < path).count();
    let child = if state.present(&path) { Ok(row) } else { Err(row) };
    Search { child, steps }
}
