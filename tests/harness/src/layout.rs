//! The store's bytes by docs/FORMAT.md: decoding, which says whether they are sound, and encoding.

use crate::model::line::{is_content, is_entry_path, is_name, path};
use crate::model::setup::{MOST_GRANTS, MOST_PAIRS};
use crate::model::state::{
    text, Grant, Kind, Node, Path, Person, State, Tag, ALL_SERVICE, LAST_REVISION, MOST_NAMES, MOST_NODES, SET_GID,
};
use std::collections::BTreeMap;

pub const STORE: usize = 65_536;
pub const ACCOUNTS: usize = 0;
pub const SESSIONS: usize = 48;
pub const PAIRS: usize = 64;
pub const GRANTS: usize = 121;
pub const GRANT: usize = 10;
pub const DIRECTORIES: usize = 442;
pub const DIRECTORY: usize = 54;
pub const SPARE: usize = 1_306;
pub const ROWS: usize = 7_422;
pub const TABLE: usize = 7_424;
pub const ROW: usize = 227;

// Places in a row.
pub const KIND: usize = 1;
pub const OWNER: usize = 2;
pub const GROUP: usize = 3;
pub const MODE: usize = 4;
pub const REVISION: usize = 6;
pub const NAME: usize = 8;
pub const TAG_PATH: usize = 16;
pub const TAG_REVISION: usize = 65;
pub const CONTENT: usize = 67;
pub const ROW_SPARE: usize = 147;

/// The state of a sound store, or in a few words what is unsound.
pub fn decode(store: &[u8]) -> Result<State, &'static str> {
    need(store.len() == STORE, "length")?;
    need(zero(&store[SPARE..ROWS]), "kept bytes of the header")?;
    let count = two(store, ROWS);
    need((1..=MOST_NODES).contains(&count), "number of rows")?;
    need(zero(&store[TABLE + count * ROW..]), "rows past the number")?;
    let people = decode_people(&store[ACCOUNTS..SESSIONS])?;
    let sessions = decode_sessions(&store[SESSIONS..PAIRS])?;
    let pairs = decode_pairs(&store[PAIRS..GRANTS])?;
    let grants = decode_grants(&store[GRANTS..DIRECTORIES], &people)?;
    let working_directories = decode_directories(&store[DIRECTORIES..SPARE])?;
    let nodes = decode_rows(&store[TABLE..TABLE + count * ROW])?;
    Ok(State { people, pairs, grants, sessions, working_directories, nodes })
}

fn need(good: bool, what: &'static str) -> Result<(), &'static str> {
    if good {
        Ok(())
    } else {
        Err(what)
    }
}

fn zero(bytes: &[u8]) -> bool {
    // No early end: a fold over all bytes is much the faster here.
    bytes.iter().fold(0, |sum, byte| sum | byte) == 0
}

/// A number of two bytes, the low byte first.
pub fn two(bytes: &[u8], at: usize) -> usize {
    usize::from(bytes[at]) + 256 * usize::from(bytes[at + 1])
}

/// A text filled up with zeros; it holds no byte 0 itself.
fn filled(bytes: &[u8]) -> Result<&[u8], &'static str> {
    let length = bytes.iter().position(|byte| *byte == 0).unwrap_or(bytes.len());
    need(zero(&bytes[length..]), "text after its end")?;
    Ok(&bytes[..length])
}

/// Persons are 1 to 15, their groups too; who is no person has no groups at all.
fn decode_people(bytes: &[u8]) -> Result<BTreeMap<u8, Person>, &'static str> {
    let mut people = BTreeMap::new();
    for (uid, account) in (0u8..).zip(bytes.chunks(3)) {
        let primary = account[0];
        let further: std::collections::BTreeSet<u8> = (0..16).filter(|bit| two(account, 1) >> bit & 1 == 1).collect();
        if primary == 0 {
            need(further.is_empty(), "groups of no person")?;
            continue;
        }
        need(uid != 0 && primary <= 15, "primary group")?;
        need(!further.contains(&0), "further group 0")?;
        people.insert(uid, Person { primary, further });
    }
    Ok(people)
}

fn decode_sessions(bytes: &[u8]) -> Result<[Option<u8>; 16], &'static str> {
    let mut sessions = [None; 16];
    for (session, byte) in sessions.iter_mut().zip(bytes) {
        need(*byte <= 8, "session")?;
        *session = byte.checked_sub(1);
    }
    Ok(sessions)
}

fn decode_pairs(bytes: &[u8]) -> Result<Vec<(u8, u8)>, &'static str> {
    let count = usize::from(bytes[0]);
    need(count <= MOST_PAIRS, "number of pairs")?;
    let (used, unused) = bytes[1..].split_at(2 * count);
    need(zero(unused), "pairs past the number")?;
    let pairs: Vec<(u8, u8)> = used.chunks(2).map(|pair| (pair[0], pair[1])).collect();
    need(pairs.iter().all(|(senior, junior)| senior < junior && *junior <= 7), "pair")?;
    Ok(pairs)
}

fn decode_grants(bytes: &[u8], people: &BTreeMap<u8, Person>) -> Result<Vec<Grant>, &'static str> {
    let count = usize::from(bytes[0]);
    need(count <= MOST_GRANTS, "number of grants")?;
    let (used, unused) = bytes[1..].split_at(GRANT * count);
    need(zero(unused), "grants past the number")?;
    let mut grants = Vec::new();
    for grant in used.chunks(GRANT) {
        let (uid, role, password) = (grant[0], grant[1], filled(&grant[2..])?);
        need(uid == 0 || people.contains_key(&uid), "grant's uid")?;
        need(role <= 7 && is_name(password), "grant")?;
        grants.push(Grant { uid, role, password: password.to_vec() });
    }
    Ok(grants)
}

/// A path's form is all that is asked of a working directory, whoever has it.
fn decode_directories(bytes: &[u8]) -> Result<[Path; 16], &'static str> {
    let mut directories: [Path; 16] = Default::default();
    for (directory, field) in directories.iter_mut().zip(bytes.chunks(DIRECTORY)) {
        *directory = path(filled(field)?).ok_or("working directory")?;
    }
    Ok(directories)
}

/// Rows in preorder, siblings in byte order, which also makes siblings differ.
fn decode_rows(bytes: &[u8]) -> Result<BTreeMap<Path, Node>, &'static str> {
    let mut nodes: Vec<(Path, Node)> = Vec::with_capacity(MOST_NODES);
    let mut here: Path = Vec::new();
    // The kinds on the way to the row before, from `/` on.
    let mut kinds: Vec<Kind> = Vec::new();
    for (at, row) in bytes.chunks(ROW).enumerate() {
        let depth = usize::from(row[0]);
        let name = filled(&row[NAME..TAG_PATH])?;
        if at == 0 {
            need(depth == 0 && name.is_empty(), "first row")?;
        } else {
            need((1..=MOST_NAMES).contains(&depth) && depth <= here.len() + 1, "depth")?;
            need(is_name(name), "name")?;
            let earlier = here.get(depth - 1).map(Vec::as_slice);
            need(earlier.is_none_or(|earlier| earlier < name), "order of siblings")?;
            need(kinds[depth - 1] == Kind::Directory, "child of a file")?;
            here.truncate(depth - 1);
            here.push(name.to_vec());
            kinds.truncate(depth);
        }
        let node = decode_node(row)?;
        // The text's words on soundness do not say it, but a walk starts at `/` and asks for x "on the directory".
        need(at > 0 || node.is_directory(), "kind of /")?;
        kinds.push(node.kind);
        nodes.push((here.clone(), node));
    }
    Ok(nodes.into_iter().collect())
}

/// A row's values other than its place in the tree.
fn decode_node(row: &[u8]) -> Result<Node, &'static str> {
    let kind = match row[KIND] {
        b'd' => Kind::Directory,
        b'f' => Kind::File,
        _ => return Err("kind"),
    };
    need(row[OWNER] <= 23 && row[GROUP] <= ALL_SERVICE, "owner or group")?;
    let mode = two(row, MODE) as u16;
    need(mode & !(SET_GID | 0o777) == 0, "mode")?;
    need(kind == Kind::Directory || mode & SET_GID == 0, "set-gid file")?;
    let revision = two(row, REVISION) as u16;
    need(revision <= LAST_REVISION, "revision")?;
    let content = filled(&row[CONTENT..ROW_SPARE])?;
    need(is_content(content), "content")?;
    need(kind == Kind::File || content.is_empty(), "content of a directory")?;
    need(zero(&row[ROW_SPARE..]), "kept bytes of a row")?;
    let tag = decode_tag(&row[TAG_PATH..CONTENT])?;
    Ok(Node { kind, owner: row[OWNER], group: row[GROUP], mode, revision, tag, content: content.to_vec() })
}

fn decode_tag(bytes: &[u8]) -> Result<Option<Tag>, &'static str> {
    let tag_text = filled(&bytes[..TAG_REVISION - TAG_PATH])?;
    let revision = two(bytes, TAG_REVISION - TAG_PATH) as u16;
    if tag_text.is_empty() {
        need(revision == 0, "revision of no tag")?;
        return Ok(None);
    }
    let tag_path = path(tag_text).filter(|names| is_entry_path(names)).ok_or("tag path")?;
    need(revision <= LAST_REVISION, "tag revision")?;
    Ok(Some(Tag { path: tag_path, revision }))
}

/// The bytes of a state that is in range.
pub fn encode(state: &State) -> Vec<u8> {
    let mut store = vec![0; STORE];
    for (uid, person) in &state.people {
        let at = ACCOUNTS + 3 * usize::from(*uid);
        store[at] = person.primary;
        put_two(&mut store, at + 1, person.further.iter().map(|gid| 1 << gid).sum());
    }
    for (at, session) in state.sessions.iter().enumerate() {
        store[SESSIONS + at] = session.map_or(0, |role| role + 1);
    }
    store[PAIRS] = state.pairs.len() as u8;
    for (at, (senior, junior)) in state.pairs.iter().enumerate() {
        put(&mut store, PAIRS + 1 + 2 * at, &[*senior, *junior]);
    }
    store[GRANTS] = state.grants.len() as u8;
    for (at, grant) in state.grants.iter().enumerate() {
        put(&mut store, GRANTS + 1 + GRANT * at, &[grant.uid, grant.role]);
        put(&mut store, GRANTS + 3 + GRANT * at, &grant.password);
    }
    for (at, directory) in state.working_directories.iter().enumerate() {
        put(&mut store, DIRECTORIES + DIRECTORY * at, &text(directory));
    }
    put_two(&mut store, ROWS, state.nodes.len() as u16);
    for (at, (path, node)) in state.nodes.iter().enumerate() {
        let from = TABLE + at * ROW;
        encode_row(&mut store[from..from + ROW], path, node);
    }
    store
}

fn encode_row(row: &mut [u8], path: &Path, node: &Node) {
    let kind = if node.is_directory() { b'd' } else { b'f' };
    put(row, 0, &[path.len() as u8, kind, node.owner, node.group]);
    put_two(row, MODE, node.mode);
    put_two(row, REVISION, node.revision);
    put(row, NAME, path.last().map_or(b"", Vec::as_slice));
    if let Some(tag) = &node.tag {
        put(row, TAG_PATH, &text(&tag.path));
        put_two(row, TAG_REVISION, tag.revision);
    }
    put(row, CONTENT, &node.content);
}

fn put(bytes: &mut [u8], at: usize, part: &[u8]) {
    bytes[at..at + part.len()].copy_from_slice(part);
}

/// Puts a number of two bytes, the low byte first.
pub fn put_two(bytes: &mut [u8], at: usize, number: u16) {
    put(bytes, at, &number.to_le_bytes());
}
