//! The repository's commands. The person's part comes first, the session's service account then does the rest.

use super::access::Who;
use super::command::Command;
use super::filing::{commit, up};
use super::header::{dominated, has_grant, primary, session, set_session};
use super::number::*;
use super::rows::{new_row, unpadded, Fields, Row, Store, MOST_NAMES, MOST_NODES};
use super::shell::{new_group, new_place};
use super::text::{Path, Writer};
use super::Outcome;

const LONGEST_PATH: usize = 54;

pub fn run(store: &mut Store, who: &Who, command: &Command, into: &mut [u8]) -> Outcome {
    match command {
        Command::Login(role, password) => return login(store, who, *role, *password).map(|()| None),
        Command::Logout => {
            set_session(store.header, who.uid, None);
            return Ok(None);
        }
        _ => {}
    }
    let role = session(store.header, who.uid).ok_or(NO_SESSION)?;
    let account = Who::account(store.header, role);
    match command {
        Command::Add(w, e, to) => add(store, who, &account, w, e, *to),
        Command::Co(e, d) => co(store, who, &account, e, d),
        Command::Commit(w) => return commit(store, who, &account, w, into),
        Command::Up(w) => up(store, who, &account, w),
        Command::Del(e) => del(store, &account, e),
        _ => Err(NO_FORM),
    }?;
    Ok(None)
}

fn login(store: &mut Store, who: &Who, role: u8, password: u64) -> Result<(), Number> {
    if !has_grant(store.header, who.uid, role, password) {
        return Err(NO_GRANT);
    }
    set_session(store.header, who.uid, Some(role));
    Ok(())
}

fn add(store: &mut Store, who: &Who, account: &Who, w: &Path, e: &Path, role: u8) -> Result<(), Number> {
    let at = store.walk(who, w.names())?.at;
    let row = &store.rows[at];
    if !who.is_owner_or_root(row) {
        return Err(RESERVED);
    }
    store.need_take(who, at)?;
    if dominated(store.header, account.uid - 16) >> role & 1 == 0 {
        return Err(RESERVED);
    }
    let new = new_place(store, account, e)?;
    if store.count() == MOST_NODES {
        return Err(FULL);
    }
    let (kind, mode) = if row.is_directory() { (b'd', 0o770) } else { (b'f', 0o440) };
    let names = e.names();
    let mut entry = new_row(names.len(), kind, 16 + role, 16 + role, mode, names[names.len() - 1]);
    entry.set_content(unpadded(row.content()));
    entry.set_revision(1);
    store.insert(new.at, entry);
    store.rows[if at < new.at { at } else { at + 1 }].set_tag(e.text, 1);
    Ok(())
}

/// Says of rows in preorder whether they are copied: readable, with all above them.
struct Reach<'a> {
    account: &'a Who,
    barred: usize,
}

impl<'a> Reach<'a> {
    fn new(account: &'a Who) -> Self {
        Reach { account, barred: usize::MAX }
    }

    fn takes(&mut self, row: &Row) -> bool {
        if row.depth() > self.barred {
            return false;
        }
        let takes = self.account.may_take(row);
        self.barred = if takes { usize::MAX } else { row.depth() };
        takes
    }
}

fn co(store: &mut Store, who: &Who, account: &Who, e: &Path, d: &Path) -> Result<(), Number> {
    let new = new_place(store, who, d)?;
    let from = store.walk(account, e.names())?.at;
    store.need_take(account, from)?;
    let end = store.end(from);
    let (old, deep) = (e.names().len(), d.names().len());
    let (mut copies, mut deepest) = (0, 0);
    let mut reach = Reach::new(account);
    for row in store.rows[from..end].iter().filter(|row| reach.takes(row)) {
        copies += 1;
        deepest = deepest.max(row.depth());
    }
    if deepest - old + deep > MOST_NAMES {
        return Err(TOO_DEEP);
    }
    if store.count() + copies > MOST_NODES {
        return Err(FULL);
    }
    let group = new_group(store, who, new.parent);
    store.open(new.at, copies);
    copy(store, who, account, e, (from..end, new.at, copies), deep);
    let first = &mut store.rows[new.at];
    first.set_group(group);
    first.set_name(d.names()[deep - 1]);
    Ok(())
}

/// Fills the opened rows with copies of the rows as they stood before.
fn copy(
    store: &mut Store,
    who: &Who,
    account: &Who,
    e: &Path,
    (rows, to, copies): (std::ops::Range<usize>, usize, usize),
    deep: usize,
) {
    let old = e.names().len();
    let group = primary(store.header, who.uid);
    let mut path = EntryPath::new(e.text, old);
    let mut reach = Reach::new(account);
    let mut into = to;
    for row in rows {
        let mut copy = store.rows[if row < to { row } else { row + copies }];
        if !reach.takes(&copy) {
            continue;
        }
        if copy.depth() > old {
            path.enter(copy.depth(), copy.name());
        }
        copy.set_tag(path.text(), copy.revision());
        copy.set_depth(copy.depth() - old + deep);
        copy.set_owner(who.uid);
        copy.set_group(group);
        copy.set_mode(if copy.is_directory() { 0o700 } else { 0o600 });
        copy.set_revision(0);
        store.rows[into] = copy;
        into += 1;
    }
}

/// The path of the row that is copied, with where it ends at each depth.
struct EntryPath {
    bytes: [u8; LONGEST_PATH],
    ends: [usize; MOST_NAMES + 1],
    depth: usize,
}

impl EntryPath {
    fn new(text: &[u8], depth: usize) -> Self {
        let mut path = EntryPath { bytes: [0; LONGEST_PATH], ends: [0; MOST_NAMES + 1], depth };
        path.bytes[..text.len()].copy_from_slice(text);
        path.ends[depth] = text.len();
        path
    }

    fn enter(&mut self, depth: usize, name: u64) {
        let mut writer = Writer::new(&mut self.bytes);
        writer.length = self.ends[depth - 1];
        writer.put(b"/");
        writer.put_name(name);
        self.ends[depth] = writer.length;
        self.depth = depth;
    }

    fn text(&self) -> &[u8] {
        &self.bytes[..self.ends[self.depth]]
    }
}

fn del(store: &mut Store, account: &Who, e: &Path) -> Result<(), Number> {
    let found = store.walk(account, e.names())?;
    store.need_take(account, found.at)?;
    store.need_parent(account, &found)?;
    if !store.is_empty(found.at) {
        return Err(NOT_EMPTY);
    }
    store.remove(found.at);
    Ok(())
}
