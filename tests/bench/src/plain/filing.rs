//! `commit` and `up`: a working file and the entry that its tag names.

use super::access::{Who, R, W};
use super::number::*;
use super::rows::{unpadded, Fields, Store, LAST_REVISION};
use super::text::{Path, Writer};
use super::tree::Found;
use super::Outcome;

/// Commits a file, or the files below a directory that is readable; the text is then how many.
pub fn commit(store: &mut Store, who: &Who, account: &Who, w: &Path, into: &mut [u8]) -> Outcome {
    let at = store.walk(who, w.names())?.at;
    if !store.rows[at].is_directory() {
        return commit_file(store, who, account, at).map(|()| None);
    }
    store.need_take(who, at)?;
    let committed = commit_below(store, who, account, at);
    let mut answer = Writer::new(into);
    answer.put_number(committed);
    Ok(Some(answer.length))
}

/// Commits each file below a directory that a single commit would accept at its turn, and tells how many. What is not readable is
/// passed over with all below it.
fn commit_below(store: &mut Store, who: &Who, account: &Who, directory: usize) -> u16 {
    let end = store.end(directory);
    let mut committed = 0;
    let mut at = directory + 1;
    while at < end {
        let row = &store.rows[at];
        if !row.is_directory() {
            committed += u16::from(commit_file(store, who, account, at).is_ok());
            at += 1;
        } else if who.may_take(row) {
            at += 1;
        } else {
            at = store.end(at);
        }
    }
    committed
}

fn commit_file(store: &mut Store, who: &Who, account: &Who, at: usize) -> Result<(), Number> {
    let entry = entry_of(store, who, account, at, R)?;
    store.need_parent(account, &entry)?;
    let revision = store.rows[entry.at].revision();
    if store.rows[at].tag_revision() != revision {
        return Err(STALE);
    }
    if revision == LAST_REVISION {
        return Err(REVISIONS_SPENT);
    }
    let content = *store.rows[at].content();
    store.rows[entry.at].set_content(&content);
    store.rows[entry.at].set_revision(revision + 1);
    store.rows[at].set_tag_revision(revision + 1);
    Ok(())
}

pub fn up(store: &mut Store, who: &Who, account: &Who, w: &Path) -> Result<(), Number> {
    let at = store.walk(who, w.names())?.at;
    if store.rows[at].is_directory() {
        return Err(WRONG_KIND);
    }
    let entry = entry_of(store, who, account, at, W)?;
    let content = *store.rows[entry.at].content();
    let revision = store.rows[entry.at].revision();
    store.rows[at].set_content(&content);
    store.rows[at].set_tag_revision(revision);
    Ok(())
}

/// The file that the tag of a working file names, after the checks that `commit` and `up` share: r or w on the one, r on the other.
fn entry_of(store: &Store, who: &Who, account: &Who, at: usize, bits: u16) -> Result<Found, Number> {
    store.need(who, at, bits)?;
    let tag = Path::parse_entry(unpadded(store.rows[at].tag_path())).ok_or(UNTAGGED)?;
    let entry = store.walk(account, tag.names())?;
    if store.rows[entry.at].is_directory() {
        return Err(WRONG_KIND);
    }
    store.need(account, entry.at, R)?;
    Ok(entry)
}
