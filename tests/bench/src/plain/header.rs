//! The header: accounts with their groups, sessions, role pairs, grants and working directories.

use super::rows::{unpadded, Header};
use super::text::Path;

pub const SESSIONS: usize = 48;
pub const PAIRS: usize = 64;
pub const MOST_PAIRS: usize = 28;
pub const GRANTS: usize = 121;
pub const MOST_GRANTS: usize = 32;
pub const DIRECTORIES: usize = 442;
pub const DIRECTORY: usize = 54;
pub const SPARE: usize = 1306;
pub const SPARE_END: usize = 7422;

/// A person's primary group, or 0 where there is no such person.
pub fn primary(header: &Header, uid: u8) -> u8 {
    header[3 * usize::from(uid)]
}

/// A person's further groups, a bit each.
pub fn further(header: &Header, uid: u8) -> u16 {
    let at = 3 * usize::from(uid);
    u16::from_le_bytes([header[at + 1], header[at + 2]])
}

/// All of a person's groups, a bit each.
pub fn groups(header: &Header, uid: u8) -> u32 {
    1 << primary(header, uid) | u32::from(further(header, uid))
}

pub fn is_caller(header: &Header, uid: u8) -> bool {
    uid == 0 || uid < 16 && primary(header, uid) != 0
}

/// The role of the caller's session.
pub fn session(header: &Header, uid: u8) -> Option<u8> {
    header[SESSIONS + usize::from(uid)].checked_sub(1)
}

pub fn set_session(header: &mut Header, uid: u8, role: Option<u8>) {
    header[SESSIONS + usize::from(uid)] = role.map_or(0, |r| r + 1);
}

/// The role pairs: senior, junior.
pub fn pairs(header: &Header) -> &[[u8; 2]] {
    let pairs = header[PAIRS + 1..GRANTS].as_chunks().0;
    &pairs[..header[PAIRS].into()]
}

/// The grants: uid, role, password.
pub fn grants(header: &Header) -> &[[u8; 10]] {
    let grants = header[GRANTS + 1..DIRECTORIES].as_chunks().0;
    &grants[..header[GRANTS].into()]
}

pub fn has_grant(header: &Header, uid: u8, role: u8, password: u64) -> bool {
    let [a, b, c, d, e, f, g, h] = password.to_be_bytes();
    grants(header).contains(&[uid, role, a, b, c, d, e, f, g, h])
}

/// The accounts' working directories: a path's text each, then zeros.
pub fn directories(header: &Header) -> &[[u8; DIRECTORY]] {
    header[DIRECTORIES..SPARE].as_chunks().0
}

/// The working directory of an account, in a sound store.
pub fn directory(header: &Header, uid: u8) -> Path<'_> {
    Path::parse(unpadded(&directories(header)[usize::from(uid)])).expect("a sound store's are paths")
}

pub fn set_directory(header: &mut Header, uid: u8, path: &Path) {
    let field = &mut header[DIRECTORIES + DIRECTORY * usize::from(uid)..][..DIRECTORY];
    field.fill(0);
    path.write(field);
}

/// The roles that a role dominates, a bit each: itself, and down every chain of pairs.
pub fn dominated(header: &Header, role: u8) -> u8 {
    let mut roles = 1 << role;
    loop {
        let before = roles;
        for [senior, junior] in pairs(header) {
            roles |= (roles >> senior & 1) << junior;
        }
        if roles == before {
            return roles;
        }
    }
}
