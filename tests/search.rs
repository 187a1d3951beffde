//! The search for a child in a tree's bytes, which a library of its own (`search_export`) exports for the tests alone.

/// A child's row, or the row where it would stand, and the steps of the search.
#[derive(Clone, Copy, PartialEq, Eq, Debug)]
pub struct Search {
    pub child: Result<usize, usize>,
    pub steps: u64,
}

extern "C" {
    fn tree_search(
        tree: *const u8,
        tree_len: usize,
        at: usize,
        name: *const u8,
        name_len: usize,
        place: *mut u64,
        steps: *mut u64,
    ) -> u32;
}

/// What the lent numbers hold before a call: one that tells nothing leaves them.
const UNTOUCHED: u64 = u64::MAX;

/// The child of that name of the place in row `at`; none where the bytes are not as many as a tree's, say more rows than there is
/// room for, or have no such row.
pub fn search(tree: &[u8], at: usize, name: &[u8]) -> Option<Search> {
    let (mut place, mut steps) = (UNTOUCHED, UNTOUCHED);
    // The slices are the caller's own and only read; the lengths are theirs.
    let number = unsafe { tree_search(tree.as_ptr(), tree.len(), at, name.as_ptr(), name.len(), &mut place, &mut steps) };
    match number {
        0 => Some(Search { child: Ok(place as usize), steps }),
        1 => Some(Search { child: Err(place as usize), steps }),
        2 if (place, steps) == (UNTOUCHED, UNTOUCHED) => None,
        _ => panic!("tree_search gives {number}, {place}, {steps}"),
    }
}
