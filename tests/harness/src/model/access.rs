//! The access test and the walks.

use super::state::{parent, Node, Path, State, ALL_SERVICE};

pub const R: u16 = 4;
pub const W: u16 = 2;
pub const X: u16 = 1;

/// A step that is done, or the number it is refused with.
pub type Step<T> = Result<T, u32>;

/// Refuses with a number where something holds.
pub fn refuse_if(wrong: bool, number: u32) -> Step<()> {
    if wrong {
        Err(number)
    } else {
        Ok(())
    }
}

impl State {
    /// Root's primary group is 0; a person's is the setup's.
    pub fn primary_group(&self, uid: u8) -> u8 {
        self.people.get(&uid).map_or(0, |person| person.primary)
    }

    /// Whether an account is in a group: root, a person or a service account.
    pub fn member(&self, uid: u8, gid: u8) -> bool {
        if uid >= 16 {
            return gid == ALL_SERVICE || ((16..24).contains(&gid) && self.dominates(uid - 16, gid - 16));
        }
        if uid == 0 {
            return gid == 0;
        }
        self.people.get(&uid).is_some_and(|person| person.primary == gid || person.further.contains(&gid))
    }

    /// The owner by owner bits alone; else a member by group bits alone; else the other bits.
    pub fn may(&self, uid: u8, node: &Node, bit: u16) -> bool {
        let bits = if uid == node.owner {
            node.mode >> 6
        } else if self.member(uid, node.group) {
            node.mode >> 3
        } else {
            node.mode
        };
        uid == 0 || bits & bit != 0
    }

    /// The test of a path's node, refused with 5.
    pub fn need(&self, uid: u8, path: &[Vec<u8>], bit: u16) -> Step<()> {
        refuse_if(!self.may(uid, self.node(path), bit), 5)
    }

    /// A file is readable with r, a directory with r and x.
    pub fn readable(&self, uid: u8, path: &[Vec<u8>]) -> bool {
        let node = self.node(path);
        self.may(uid, node, R) && (!node.is_directory() || self.may(uid, node, X))
    }

    /// For each name x on the directory (5), the name there (3) and, if not the last, a directory (4).
    pub fn walk(&self, uid: u8, path: &Path) -> Step<()> {
        if path.is_empty() {
            return Ok(());
        }
        self.parent_walk(uid, path)?;
        refuse_if(!self.present(path), 3)
    }

    /// A walk that omits looking up the last name but keeps its x test; not for `/`.
    pub fn parent_walk(&self, uid: u8, path: &Path) -> Step<()> {
        let mut here = Vec::new();
        for name in parent(path) {
            self.need(uid, &here, X)?;
            here.push(name.clone());
            refuse_if(!self.present(&here), 3)?;
            refuse_if(!self.node(&here).is_directory(), 4)?;
        }
        self.need(uid, &here, X)
    }
}
