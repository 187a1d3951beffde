//! The tree in the rows: walks, the place of a child, and putting in, taking out and moving rows.

use super::access::{Who, W, X};
use super::number::{Number, ACCESS, MISSING, NOT_DIRECTORY};
use super::rows::{Fields, Row, Store};
#[cfg(feature = "same_search")]
use super::search::search_rows;

/// Where a walk leads: the parent's row and the node's.
pub struct Found {
    pub parent: usize,
    pub at: usize,
}

/// Where a parent walk leads: the parent's row, and the row of the last name or where it would stand.
pub struct Spot {
    pub parent: usize,
    pub place: Result<usize, usize>,
}

impl Store<'_> {
    /// A directory's child of that name, or the row where it would stand.
    #[cfg(not(feature = "same_search"))]
    fn child(&self, parent: usize, name: u64) -> Result<usize, usize> {
        let nodes = self.nodes();
        let depth = nodes[parent].depth() + 1;
        for (at, row) in nodes.iter().enumerate().skip(parent + 1) {
            if row.depth() < depth || row.depth() == depth && row.name() > name {
                return Err(at);
            }
            if row.depth() == depth && row.name() == name {
                return Ok(at);
            }
        }
        Err(nodes.len())
    }

    /// The same by the search that the library makes.
    #[cfg(feature = "same_search")]
    fn child(&self, parent: usize, name: u64) -> Result<usize, usize> {
        let length = 8 - name.trailing_zeros() as usize / 8;
        search_rows(self.nodes(), parent, &name.to_be_bytes()[..length]).child
    }

    /// Walks all names but the last, which is only looked up after its x test. Not for `/`.
    pub fn parent_walk(&self, who: &Who, names: &[u64]) -> Result<Spot, Number> {
        let (last, before) = names.split_last().ok_or(MISSING)?;
        let mut parent = 0;
        for name in before {
            self.need(who, parent, X)?;
            parent = self.child(parent, *name).map_err(|_| MISSING)?;
            if !self.rows[parent].is_directory() {
                return Err(NOT_DIRECTORY);
            }
        }
        self.need(who, parent, X)?;
        Ok(Spot { parent, place: self.child(parent, *last) })
    }

    pub fn walk(&self, who: &Who, names: &[u64]) -> Result<Found, Number> {
        if names.is_empty() {
            return Ok(Found { parent: 0, at: 0 });
        }
        let Spot { parent, place } = self.parent_walk(who, names)?;
        Ok(Found { parent, at: place.map_err(|_| MISSING)? })
    }

    /// Refused unless these bits are granted.
    pub fn need(&self, who: &Who, at: usize, bits: u16) -> Result<(), Number> {
        if who.may(&self.rows[at], bits) {
            Ok(())
        } else {
            Err(ACCESS)
        }
    }

    /// Refused unless the node is readable.
    pub fn need_take(&self, who: &Who, at: usize) -> Result<(), Number> {
        if who.may_take(&self.rows[at]) {
            Ok(())
        } else {
            Err(ACCESS)
        }
    }

    /// Refused unless the parent may be written.
    pub fn need_parent(&self, who: &Who, found: &Found) -> Result<(), Number> {
        self.need(who, found.parent, W)
    }

    /// The row after a node and all below it.
    pub fn end(&self, at: usize) -> usize {
        let nodes = self.nodes();
        let depth = nodes[at].depth();
        let below = nodes[at + 1..].iter().take_while(|row| row.depth() > depth).count();
        at + 1 + below
    }

    pub fn is_empty(&self, at: usize) -> bool {
        self.nodes().get(at + 1).is_none_or(|next| next.depth() <= self.rows[at].depth())
    }

    /// Makes room for rows at a place; what stood there is left to be written over.
    pub fn open(&mut self, at: usize, rows: usize) {
        let count = self.count();
        self.rows.copy_within(at..count, at + rows);
        self.set_count(count + rows);
    }

    pub fn insert(&mut self, at: usize, row: Row) {
        self.open(at, 1);
        self.rows[at] = row;
    }

    pub fn remove(&mut self, at: usize) {
        let count = self.count();
        self.rows.copy_within(at + 1..count, at);
        self.rows[count - 1].fill(0);
        self.set_count(count - 1);
    }

    /// Moves a node's rows to stand before the row `to`, which is not inside; answers where they stand then.
    pub fn shift(&mut self, from: usize, end: usize, to: usize) -> usize {
        let rows = end - from;
        if to <= from {
            self.rows[to..end].rotate_right(rows);
            to
        } else {
            self.rows[from..to].rotate_left(rows);
            to - rows
        }
    }
}
