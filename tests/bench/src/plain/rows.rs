//! The store's bytes as a header and 256 rows, and the fields of a row.

use super::STORE;

pub const MOST_NODES: usize = 256;
pub const MOST_NAMES: usize = 6;
pub const CONTENT_LIMIT: usize = 80;
pub const LAST_REVISION: u16 = 9999;
pub const SET_GID: u16 = 0o2000;

/// Where the tree begins, with the number of rows.
pub const TREE: usize = 7422;
const ROWS: usize = TREE + 2;

pub type Header = [u8; ROWS];
pub type Row = [u8; 227];

/// A store: the header, which ends with the number of rows, and the rows.
pub struct Store<'a> {
    pub header: &'a mut Header,
    pub rows: &'a mut [Row],
}

impl<'a> Store<'a> {
    pub fn of(bytes: &'a mut [u8; STORE]) -> Self {
        let (header, rows) = bytes.split_first_chunk_mut().expect("a store is longer than its header");
        Store { header, rows: rows.as_chunks_mut().0 }
    }

    pub fn count(&self) -> usize {
        count(self.header)
    }

    pub fn set_count(&mut self, count: usize) {
        self.header[TREE..].copy_from_slice(&(count as u16).to_le_bytes());
    }

    /// The rows that are nodes.
    pub fn nodes(&self) -> &[Row] {
        &self.rows[..self.count()]
    }
}

/// Header and rows of a store that is only read.
pub fn parts(bytes: &[u8; STORE]) -> (&Header, &[Row]) {
    let (header, rows) = bytes.split_first_chunk().expect("a store is longer than its header");
    (header, rows.as_chunks().0)
}

/// The number of rows that are nodes.
pub fn count(header: &Header) -> usize {
    u16::from_le_bytes([header[TREE], header[TREE + 1]]).into()
}

/// A row's fields. A name is a number whose bytes are the name's, so that order of numbers is byte order.
pub trait Fields {
    fn depth(&self) -> usize;
    fn is_directory(&self) -> bool;
    fn owner(&self) -> u8;
    fn group(&self) -> u8;
    fn mode(&self) -> u16;
    fn revision(&self) -> u16;
    fn name(&self) -> u64;
    fn name_bytes(&self) -> &[u8; 8];
    fn tag_path(&self) -> &[u8; 49];
    fn tag_revision(&self) -> u16;
    fn content(&self) -> &[u8; CONTENT_LIMIT];
    fn spare(&self) -> &[u8; CONTENT_LIMIT];
    fn set_depth(&mut self, depth: usize);
    fn set_owner(&mut self, uid: u8);
    fn set_group(&mut self, gid: u8);
    fn set_mode(&mut self, mode: u16);
    fn set_revision(&mut self, revision: u16);
    fn set_name(&mut self, name: u64);
    fn set_tag(&mut self, path: &[u8], revision: u16);
    fn set_tag_revision(&mut self, revision: u16);
    fn set_content(&mut self, text: &[u8]);
}

fn part<const N: usize>(row: &Row, from: usize) -> &[u8; N] {
    row[from..].first_chunk().expect("a field lies in its row")
}

fn put<const N: usize>(row: &mut Row, from: usize, bytes: [u8; N]) {
    row[from..from + N].copy_from_slice(&bytes);
}

fn put_text(field: &mut [u8], text: &[u8]) {
    let (head, rest) = field.split_at_mut(text.len());
    head.copy_from_slice(text);
    rest.fill(0);
}

impl Fields for Row {
    fn depth(&self) -> usize {
        self[0].into()
    }
    fn is_directory(&self) -> bool {
        self[1] == b'd'
    }
    fn owner(&self) -> u8 {
        self[2]
    }
    fn group(&self) -> u8 {
        self[3]
    }
    fn mode(&self) -> u16 {
        u16::from_le_bytes(*part(self, 4))
    }
    fn revision(&self) -> u16 {
        u16::from_le_bytes(*part(self, 6))
    }
    fn name(&self) -> u64 {
        u64::from_be_bytes(*self.name_bytes())
    }
    fn name_bytes(&self) -> &[u8; 8] {
        part(self, 8)
    }
    fn tag_path(&self) -> &[u8; 49] {
        part(self, 16)
    }
    fn tag_revision(&self) -> u16 {
        u16::from_le_bytes(*part(self, 65))
    }
    fn content(&self) -> &[u8; CONTENT_LIMIT] {
        part(self, 67)
    }
    fn spare(&self) -> &[u8; CONTENT_LIMIT] {
        part(self, 147)
    }
    fn set_depth(&mut self, depth: usize) {
        self[0] = depth as u8;
    }
    fn set_owner(&mut self, uid: u8) {
        self[2] = uid;
    }
    fn set_group(&mut self, gid: u8) {
        self[3] = gid;
    }
    fn set_mode(&mut self, mode: u16) {
        put(self, 4, mode.to_le_bytes());
    }
    fn set_revision(&mut self, revision: u16) {
        put(self, 6, revision.to_le_bytes());
    }
    fn set_name(&mut self, name: u64) {
        put(self, 8, name.to_be_bytes());
    }
    fn set_tag(&mut self, path: &[u8], revision: u16) {
        put_text(&mut self[16..65], path);
        self.set_tag_revision(revision);
    }
    fn set_tag_revision(&mut self, revision: u16) {
        put(self, 65, revision.to_le_bytes());
    }
    fn set_content(&mut self, text: &[u8]) {
        put_text(&mut self[67..147], text);
    }
}

/// A new node's row: no revision, tag or content.
pub fn new_row(depth: usize, kind: u8, owner: u8, group: u8, mode: u16, name: u64) -> Row {
    let mut row = [0; 227];
    row[0] = depth as u8;
    row[1] = kind;
    row[2] = owner;
    row[3] = group;
    row.set_mode(mode);
    row.set_name(name);
    row
}

/// The text of a field that is filled up with zeros.
pub fn unpadded(field: &[u8]) -> &[u8] {
    let end = field.iter().position(|&b| b == 0).unwrap_or(field.len());
    &field[..end]
}
