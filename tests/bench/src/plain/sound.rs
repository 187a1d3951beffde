//! Whether a store is sound: exactly the bytes of some tree, sessions and setup with every value in range.

use super::header::{directories, grants, is_caller, pairs, primary};
use super::header::{DIRECTORIES, DIRECTORY, GRANTS, MOST_GRANTS, MOST_PAIRS, PAIRS, SESSIONS, SPARE, SPARE_END};
use super::rows::{count, unpadded, Fields, Header, Row, CONTENT_LIMIT, LAST_REVISION, MOST_NAMES, MOST_NODES, SET_GID};
use super::text::{is_content_byte, is_name, Path};

pub fn is_sound(header: &Header, rows: &[Row]) -> bool {
    is_header(header) && is_tree(count(header), rows)
}

/// Whether all bytes are zero; 64 at a time, which compiles to wide loads.
fn is_zero(bytes: &[u8]) -> bool {
    let (chunks, rest) = bytes.as_chunks::<64>();
    chunks.iter().all(|chunk| chunk.iter().fold(0, |a, b| a | b) == 0) && rest.iter().fold(0, |a, b| a | b) == 0
}

fn is_header(header: &Header) -> bool {
    let counts = usize::from(header[PAIRS]) <= MOST_PAIRS && usize::from(header[GRANTS]) <= MOST_GRANTS;
    if !counts {
        return false;
    }
    let persons = header[..SESSIONS].as_chunks().0;
    let sessions = &header[SESSIONS..PAIRS];
    let unused_pairs = &header[PAIRS + 1 + 2 * pairs(header).len()..GRANTS];
    let unused_grants = &header[GRANTS + 1 + 10 * grants(header).len()..DIRECTORIES];
    primary(header, 0) == 0
        && persons.iter().all(is_person)
        && sessions.iter().all(|&session| session <= 8)
        && pairs(header).iter().all(|[senior, junior]| senior < junior && *junior < 8)
        && grants(header).iter().all(|grant| is_grant(header, grant))
        && is_zero(unused_pairs)
        && is_zero(unused_grants)
        && directories(header).iter().all(is_directory)
        && is_zero(&header[SPARE..SPARE_END])
}

/// No person, or one with a primary group of 1 to 15 and further ones of 1 to 15.
fn is_person(&[primary, low, high]: &[u8; 3]) -> bool {
    if primary == 0 {
        low == 0 && high == 0
    } else {
        primary < 16 && low & 1 == 0
    }
}

fn is_grant(header: &Header, &[uid, role, a, b, c, d, e, f, g, h]: &[u8; 10]) -> bool {
    is_caller(header, uid) && role < 8 && is_name(u64::from_be_bytes([a, b, c, d, e, f, g, h]))
}

/// A path, then zeros.
fn is_directory(field: &[u8; DIRECTORY]) -> bool {
    let path = unpadded(field);
    Path::parse(path).is_some() && is_zero(&field[path.len()..])
}

fn is_tree(count: usize, rows: &[Row]) -> bool {
    if count == 0 || count > MOST_NODES {
        return false;
    }
    let (nodes, unused) = rows.split_at(count);
    let root = &nodes[0];
    if root.depth() != 0 || root.name() != 0 || !root.is_directory() || !is_node(root) {
        return false;
    }
    let mut names = [0; MOST_NAMES + 1];
    let mut before = root;
    for row in &nodes[1..] {
        let depth = row.depth();
        let deepest = if before.is_directory() { before.depth() + 1 } else { before.depth() };
        if depth == 0 || depth > deepest.min(MOST_NAMES) {
            return false;
        }
        let is_first = depth > before.depth();
        if !is_first && names[depth] >= row.name() || !is_name(row.name()) || !is_node(row) {
            return false;
        }
        names[depth] = row.name();
        before = row;
    }
    is_zero(unused.as_flattened())
}

/// Whether all of a row but depth and name is in range.
fn is_node(row: &Row) -> bool {
    let kind = match row[1] {
        b'd' => row.mode() & !(SET_GID | 0o777) == 0 && is_zero(row.content()),
        b'f' => row.mode() & !0o777 == 0 && is_content(row.content()),
        _ => false,
    };
    kind && row.owner() < 24 && row.group() < 25 && row.revision() <= LAST_REVISION && is_tag(row) && is_zero(row.spare())
}

/// Text, then zeros. Without early ends, so that it compiles to wide operations; for the same reason gaps are sought in two parts,
/// of multiples of 16 bytes, that have one in common.
fn is_content(field: &[u8; CONTENT_LIMIT]) -> bool {
    if field[0] == 0 {
        return is_zero(field);
    }
    let wrong = |b: u8| b != 0 && !is_content_byte(b);
    let bytes = field.iter().fold(false, |bad, &b| bad | wrong(b));
    let gap = |from: usize, to: usize| {
        field[from..to].iter().zip(&field[from + 1..]).fold(false, |bad, (&a, &b)| bad | (a == 0 && b != 0))
    };
    !bytes && !gap(0, CONTENT_LIMIT - 16) && !gap(CONTENT_LIMIT - 17, CONTENT_LIMIT - 1)
}

/// No tag, or an entry path and a revision.
fn is_tag(row: &Row) -> bool {
    let field = row.tag_path();
    if field[0] == 0 {
        return is_zero(field) && row.tag_revision() == 0;
    }
    let path = unpadded(field);
    row.tag_revision() <= LAST_REVISION && Path::parse_entry(path).is_some() && is_zero(&field[path.len()..])
}
