//! The setup text: the state it makes, or its first wrong line from 1.

use super::line::{is_name, number};
use super::state::{Grant, Person, State};
use std::collections::{BTreeMap, BTreeSet};

/// The most bytes of a setup line.
const MOST_LINE: usize = 200;
/// The most lines of role pairs and of login grants.
pub const MOST_PAIRS: usize = 28;
pub const MOST_GRANTS: usize = 32;

/// What the lines so far have said.
#[derive(Default)]
struct Reader {
    people: BTreeMap<u8, Person>,
    pairs: Vec<(u8, u8)>,
    grants: Vec<Grant>,
    /// The place in the order of kinds that the last line had.
    stage: usize,
    ended: bool,
}

/// Reads a whole setup text.
pub fn read_setup(text: &[u8]) -> Result<State, u64> {
    let mut reader = Reader::default();
    let mut rest = text;
    let mut line_number = 1;
    while !reader.ended {
        // No byte 10 is left: a last line without it is wrong, and so is the missing `end`.
        let end = rest.iter().position(|byte| *byte == 10).ok_or(line_number)?;
        reader.take(&rest[..end]).ok_or(line_number)?;
        rest = &rest[end + 1..];
        line_number += 1;
    }
    if !rest.is_empty() {
        return Err(line_number);
    }
    Ok(State::fresh(reader.people, reader.pairs, reader.grants))
}

impl Reader {
    /// Takes one line; nothing where it is wrong.
    fn take(&mut self, line: &[u8]) -> Option<()> {
        if line.len() > MOST_LINE {
            return None;
        }
        let fields: Vec<&[u8]> = line.split(|byte| *byte == b',').collect();
        let stage = [&b"p"[..], b"g", b"r", b"l", b"end"].iter().position(|kind| *kind == fields[0])?;
        if stage < self.stage {
            return None;
        }
        self.stage = stage;
        match fields[..] {
            [b"p", uid, gid] => self.person(uid, gid),
            [b"g", uid, gid] => self.further(uid, gid),
            [b"r", senior, junior] => self.pair(senior, junior),
            [b"l", uid, role, password] => self.grant(uid, role, password),
            [b"end"] => {
                self.ended = true;
                Some(())
            }
            _ => None,
        }
    }

    /// `p,uid,gid`: a uid comes once.
    fn person(&mut self, uid: &[u8], gid: &[u8]) -> Option<()> {
        let uid = number(uid, 15).filter(|uid| *uid >= 1)?;
        let primary = number(gid, 15).filter(|gid| *gid >= 1)?;
        let before = self.people.insert(uid, Person { primary, further: BTreeSet::new() });
        before.is_none().then_some(())
    }

    /// `g,uid,gid`: a further group of a person already named.
    fn further(&mut self, uid: &[u8], gid: &[u8]) -> Option<()> {
        let uid = number(uid, 15)?;
        let gid = number(gid, 15).filter(|gid| *gid >= 1)?;
        self.people.get_mut(&uid)?.further.insert(gid);
        Some(())
    }

    /// `r,senior,junior`: senior < junior; at most 28 lines.
    fn pair(&mut self, senior: &[u8], junior: &[u8]) -> Option<()> {
        let (senior, junior) = (number(senior, 7)?, number(junior, 7)?);
        if senior >= junior || self.pairs.len() == MOST_PAIRS {
            return None;
        }
        self.pairs.push((senior, junior));
        Some(())
    }

    /// `l,uid,role,password`: uid named or 0; at most 32 lines.
    fn grant(&mut self, uid: &[u8], role: &[u8], password: &[u8]) -> Option<()> {
        let (uid, role) = (number(uid, 15)?, number(role, 7)?);
        let known = uid == 0 || self.people.contains_key(&uid);
        if !known || !is_name(password) || self.grants.len() == MOST_GRANTS {
            return None;
        }
        self.grants.push(Grant { uid, role, password: password.to_vec() });
        Some(())
    }
}
