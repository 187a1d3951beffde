//! The shell's commands and `cd`, each with its checks as listed.

use super::access::{Who, R, W, X};
use super::command::Command;
use super::header;
use super::number::*;
use super::rows::{new_row, unpadded, Fields, Store, MOST_NAMES, MOST_NODES, SET_GID};
use super::text::{Path, Writer};
use super::tree::Found;
use super::{repository, Outcome};

/// Carries out a command of a known caller.
pub fn run(store: &mut Store, uid: u8, command: &Command, into: &mut [u8]) -> Outcome {
    let who = Who::person(store.header, uid);
    match command {
        Command::Create(path, mode) => make(store, &who, path, b'f', *mode),
        Command::Mkdir(path, mode) => make(store, &who, path, b'd', *mode),
        Command::Read(path) => return read(store, &who, path, into).map(Some),
        Command::Write(path, content) => write(store, &who, path, content),
        Command::Rm(path) => remove(store, &who, path, false),
        Command::Rmdir(path) => remove(store, &who, path, true),
        Command::Mv(a, b) => mv(store, &who, a, b),
        Command::Chmod(path, mode) => chmod(store, &who, path, *mode),
        Command::Chgrp(path, gid) => chgrp(store, &who, path, *gid),
        Command::Chown(path, uid) => chown(store, &who, path, *uid),
        Command::Cd(path) => cd(store, &who, path),
        _ => return repository::run(store, &who, command, into),
    }?;
    Ok(None)
}

/// The group of a person's new node: the parent's if that has set-gid, else the primary group.
pub fn new_group(store: &Store, who: &Who, parent: usize) -> u8 {
    let parent = &store.rows[parent];
    if parent.mode() & SET_GID != 0 {
        parent.group()
    } else {
        header::primary(store.header, who.uid)
    }
}

/// The person's checks before a new node at a path: its parent and its row.
pub fn new_place(store: &Store, who: &Who, path: &Path) -> Result<Found, Number> {
    if path.names().is_empty() {
        return Err(EXISTS);
    }
    let spot = store.parent_walk(who, path.names())?;
    let Err(at) = spot.place else {
        return Err(EXISTS);
    };
    store.need(who, spot.parent, W)?;
    Ok(Found { parent: spot.parent, at })
}

fn make(store: &mut Store, who: &Who, path: &Path, kind: u8, mode: u16) -> Result<(), Number> {
    let new = new_place(store, who, path)?;
    if store.count() == MOST_NODES {
        return Err(FULL);
    }
    let names = path.names();
    let group = new_group(store, who, new.parent);
    store.insert(new.at, new_row(names.len(), kind, who.uid, group, mode, names[names.len() - 1]));
    Ok(())
}

fn read(store: &Store, who: &Who, path: &Path, into: &mut [u8]) -> Result<usize, Number> {
    let at = store.walk(who, path.names())?.at;
    store.need(who, at, R)?;
    let row = &store.rows[at];
    let mut answer = Writer::new(into);
    if row.is_directory() {
        let below = &store.nodes()[at + 1..];
        let depth = row.depth();
        for child in below.iter().take_while(|r| r.depth() > depth).filter(|r| r.depth() == depth + 1) {
            if answer.length > 0 {
                answer.put(b",");
            }
            answer.put_name(child.name());
        }
    } else {
        answer.put(unpadded(row.content()));
    }
    Ok(answer.length)
}

fn write(store: &mut Store, who: &Who, path: &Path, content: &[u8]) -> Result<(), Number> {
    let at = store.walk(who, path.names())?.at;
    if store.rows[at].is_directory() {
        return Err(WRONG_KIND);
    }
    store.need(who, at, W)?;
    store.rows[at].set_content(content);
    Ok(())
}

fn remove(store: &mut Store, who: &Who, path: &Path, directory: bool) -> Result<(), Number> {
    if path.is_reserved() {
        return Err(RESERVED);
    }
    let found = store.walk(who, path.names())?;
    if store.rows[found.at].is_directory() != directory {
        return Err(WRONG_KIND);
    }
    store.need_parent(who, &found)?;
    if !store.is_empty(found.at) {
        return Err(NOT_EMPTY);
    }
    store.remove(found.at);
    Ok(())
}

fn mv(store: &mut Store, who: &Who, a: &Path, b: &Path) -> Result<(), Number> {
    if a.is_reserved() || b.is_reserved() {
        return Err(RESERVED);
    }
    let found = store.walk(who, a.names())?;
    let spot = store.parent_walk(who, b.names())?;
    let to = match spot.place {
        Ok(target) => return replace(store, who, &found, spot.parent, target),
        Err(to) => to,
    };
    store.need_parent(who, &found)?;
    store.need(who, spot.parent, W)?;
    let (from, end) = (found.at, store.end(found.at));
    if (from..end).contains(&spot.parent) {
        return Err(INTO_ITSELF);
    }
    let (old, new) = (a.names().len(), b.names().len());
    let deepest = store.rows[from..end].iter().map(|row| row.depth()).max().unwrap_or(old);
    if deepest - old + new > MOST_NAMES {
        return Err(TOO_DEEP);
    }
    let at = store.shift(from, end, to);
    for row in &mut store.rows[at..at + (end - from)] {
        row.set_depth(row.depth() - old + new);
    }
    store.rows[at].set_name(b.names()[new - 1]);
    Ok(())
}

/// Moves a file onto the one at a row, which keeps only its place and name; onto itself nothing changes.
fn replace(store: &mut Store, who: &Who, found: &Found, parent: usize, target: usize) -> Result<(), Number> {
    if store.rows[target].is_directory() {
        return Err(EXISTS);
    }
    if store.rows[found.at].is_directory() {
        return Err(WRONG_KIND);
    }
    store.need_parent(who, found)?;
    store.need(who, parent, W)?;
    if found.at == target {
        return Ok(());
    }
    let (depth, name) = (store.rows[target].depth(), store.rows[target].name());
    store.rows[target] = store.rows[found.at];
    store.rows[target].set_depth(depth);
    store.rows[target].set_name(name);
    store.remove(found.at);
    Ok(())
}

fn chmod(store: &mut Store, who: &Who, path: &Path, mode: u16) -> Result<(), Number> {
    let at = store.walk(who, path.names())?.at;
    let row = &mut store.rows[at];
    if mode & SET_GID != 0 && !row.is_directory() {
        return Err(WRONG_KIND);
    }
    if !who.is_owner_or_root(row) {
        return Err(RESERVED);
    }
    row.set_mode(mode);
    Ok(())
}

fn chgrp(store: &mut Store, who: &Who, path: &Path, gid: u8) -> Result<(), Number> {
    let at = store.walk(who, path.names())?.at;
    let row = &mut store.rows[at];
    let may_give = who.is_root() || who.uid == row.owner() && who.is_in(gid);
    if !may_give {
        return Err(RESERVED);
    }
    row.set_group(gid);
    Ok(())
}

fn chown(store: &mut Store, who: &Who, path: &Path, uid: u8) -> Result<(), Number> {
    let at = store.walk(who, path.names())?.at;
    if !who.is_root() {
        return Err(RESERVED);
    }
    store.rows[at].set_owner(uid);
    Ok(())
}

fn cd(store: &mut Store, who: &Who, path: &Path) -> Result<(), Number> {
    let at = store.walk(who, path.names())?.at;
    if !store.rows[at].is_directory() {
        return Err(WRONG_KIND);
    }
    store.need(who, at, X)?;
    header::set_directory(store.header, who.uid, path);
    Ok(())
}
