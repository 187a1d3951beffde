//! The search for a child as the library makes it, names measured and compared in one pass, to be measured beside it. The walks
//! of this plain Rust compare a name as one number, but with the feature `same_search`.

use super::rows::{Fields, Row, MOST_NODES};
use crate::search::Search;

const BYTES: usize = 2 + MOST_NODES * size_of::<Row>();

/// The child of that name of the place in row `at`; none where the bytes are not as many as a tree's, say more rows than there is
/// room for, or have no such row.
#[inline(never)]
pub fn search(tree: &[u8], at: usize, name: &[u8]) -> Option<Search> {
    let tree: &[u8; BYTES] = tree.try_into().ok()?;
    let (count, rows) = tree.split_first_chunk()?;
    let nodes = rows.as_chunks().0.get(..u16::from_le_bytes(*count).into())?;
    (at < nodes.len()).then(|| search_rows(nodes, at, name))
}

pub fn search_rows(nodes: &[Row], parent: usize, name: &[u8]) -> Search {
    let depth = nodes[parent].depth() + 1;
    let mut steps = 0;
    'children: for (at, row) in nodes.iter().enumerate().skip(parent + 1) {
        if row.depth() < depth {
            return Search { child: Err(at), steps };
        }
        if row.depth() > depth {
            continue;
        }
        let field = row.name_bytes();
        for (k, &b) in name.iter().enumerate() {
            let a = field.get(k).copied().unwrap_or(0);
            if a == b && a != 0 {
                continue;
            }
            steps += k as u64 + 1;
            if b < a {
                return Search { child: Err(at), steps };
            }
            continue 'children;
        }
        steps += name.len() as u64 + 1;
        let ends = field.get(name.len()).is_none_or(|&a| a == 0);
        let child = if ends { Ok(at) } else { Err(at) };
        return Search { child, steps };
    }
    Search { child: Err(nodes.len()), steps }
}
