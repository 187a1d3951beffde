//! The access test: owner bits, else group bits, else other bits; root passes.

use super::header;
use super::rows::{Fields, Header, Row};

pub const R: u16 = 4;
pub const W: u16 = 2;
pub const X: u16 = 1;

/// Who is tested: an account with its groups, a bit each.
pub struct Who {
    pub uid: u8,
    groups: u32,
}

impl Who {
    pub fn person(header: &Header, uid: u8) -> Self {
        Who { uid, groups: header::groups(header, uid) }
    }

    /// The service account of a role: in group 24 and the groups of all roles it dominates.
    pub fn account(header: &Header, role: u8) -> Self {
        let groups = 1 << 24 | u32::from(header::dominated(header, role)) << 16;
        Who { uid: 16 + role, groups }
    }

    pub fn is_root(&self) -> bool {
        self.uid == 0
    }

    pub fn is_owner_or_root(&self, row: &Row) -> bool {
        self.is_root() || self.uid == row.owner()
    }

    pub fn is_in(&self, gid: u8) -> bool {
        self.groups >> gid & 1 == 1
    }

    /// Whether all of these bits are granted.
    pub fn may(&self, row: &Row, bits: u16) -> bool {
        let shift = if self.is_root() {
            return true;
        } else if self.uid == row.owner() {
            6
        } else if self.is_in(row.group()) {
            3
        } else {
            0
        };
        row.mode() >> shift & bits == bits
    }

    /// A file is readable with r, a directory with r and x.
    pub fn may_take(&self, row: &Row) -> bool {
        self.may(row, if row.is_directory() { R | X } else { R })
    }
}
