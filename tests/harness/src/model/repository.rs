//! The repository commands: the person's part, then the account's, in the order of documents 01 and 02.

use super::access::{refuse_if, Step, R, W};
use super::state::{parent, Kind, Node, Path, State, Tag, LAST_REVISION, MOST_NAMES};

impl State {
    pub fn login(&mut self, uid: u8, role: u8, password: &[u8]) -> Step<()> {
        let granted = self.grants.iter().any(|grant| grant.uid == uid && grant.role == role && grant.password == password);
        refuse_if(!granted, 13)?;
        self.sessions[usize::from(uid)] = Some(role);
        Ok(())
    }

    pub fn logout(&mut self, uid: u8) {
        self.sessions[usize::from(uid)] = None;
    }

    /// The session's role, or 12.
    fn session(&self, uid: u8) -> Step<u8> {
        self.sessions[usize::from(uid)].ok_or(12)
    }

    pub fn add(&mut self, uid: u8, w: &Path, e: &Path, role: u8) -> Step<()> {
        let session = self.session(uid)?;
        let account = 16 + session;
        self.walk(uid, w)?;
        refuse_if(uid != 0 && uid != self.node(w).owner, 9)?;
        refuse_if(!self.readable(uid, w), 5)?;
        refuse_if(!self.dominates(session, role), 9)?;
        self.parent_walk(account, e)?;
        refuse_if(self.present(e), 6)?;
        self.need(account, parent(e), W)?;
        self.need_room(1)?;
        let working = self.node_mut(w);
        let mode = if working.is_directory() { 0o770 } else { 0o440 };
        let mut entry = Node::new(working.kind, 16 + role, 16 + role, mode);
        entry.revision = 1;
        entry.content = working.content.clone();
        working.tag = Some(Tag { path: e.clone(), revision: 1 });
        self.nodes.insert(e.clone(), entry);
        Ok(())
    }

    pub fn co(&mut self, uid: u8, e: &Path, d: &Path) -> Step<()> {
        let account = 16 + self.session(uid)?;
        self.may_make(uid, d)?;
        self.walk(account, e)?;
        refuse_if(!self.readable(account, e), 5)?;
        // Everything to copy is gathered first: the tree as it stood before the command.
        let mut sources = Vec::new();
        self.readable_below(account, e, &mut sources);
        let copies: Vec<Path> = sources.iter().map(|source| [d.as_slice(), &source[e.len()..]].concat()).collect();
        refuse_if(copies.iter().any(|copy| copy.len() > MOST_NAMES), 19)?;
        self.need_room(copies.len())?;
        let nodes: Vec<Node> = sources.iter().map(|source| self.copy_of(uid, source)).collect();
        for (path, mut node) in copies.into_iter().zip(nodes) {
            node.group = self.new_group(uid, &path);
            self.nodes.insert(path, node);
        }
        Ok(())
    }

    /// A readable node's path and those below it; an unreadable node is skipped with all below.
    fn readable_below(&self, account: u8, path: &Path, found: &mut Vec<Path>) {
        if !self.readable(account, path) {
            return;
        }
        found.push(path.clone());
        for child in self.children(path) {
            self.readable_below(account, &child, found);
        }
    }

    /// The person's copy of an entry, 0600 or 0700 and tagged; its group depends on where it goes.
    fn copy_of(&self, uid: u8, source: &Path) -> Node {
        let entry = self.node(source);
        let mode = if entry.is_directory() { 0o700 } else { 0o600 };
        let mut copy = Node::new(entry.kind, uid, 0, mode);
        copy.content = entry.content.clone();
        copy.tag = Some(Tag { path: source.clone(), revision: entry.revision });
        copy
    }

    /// What a file's `commit` and `up` ask of the person: the tag of the working file.
    fn working_tag(&self, uid: u8, w: &Path, bit: u16) -> Step<Tag> {
        self.walk(uid, w)?;
        refuse_if(self.node(w).is_directory(), 7)?;
        self.need(uid, w, bit)?;
        self.node(w).tag.clone().ok_or(15)
    }

    /// What a file's `commit` and `up` ask of the account first: the tag's path leads to a file with r.
    fn tagged_entry(&self, account: u8, tag: &Tag) -> Step<()> {
        self.walk(account, &tag.path)?;
        refuse_if(self.node(&tag.path).kind == Kind::Directory, 7)?;
        self.need(account, &tag.path, R)
    }

    /// A file's `commit` has no text; a directory's has the number of files committed.
    pub fn commit(&mut self, uid: u8, w: &Path) -> Step<Option<Vec<u8>>> {
        self.session(uid)?;
        self.walk(uid, w)?;
        if self.node(w).is_directory() {
            return self.commit_directory(uid, w).map(Some);
        }
        self.commit_file(uid, w).map(|()| None)
    }

    /// A single `commit`; refused, it changes nothing.
    fn commit_file(&mut self, uid: u8, w: &Path) -> Step<()> {
        let account = 16 + self.session(uid)?;
        let tag = self.working_tag(uid, w, R)?;
        self.tagged_entry(account, &tag)?;
        self.need(account, parent(&tag.path), W)?;
        let revision = self.node(&tag.path).revision;
        refuse_if(tag.revision != revision, 14)?;
        refuse_if(revision == LAST_REVISION, 16)?;
        let content = self.node(w).content.clone();
        let entry = self.node_mut(&tag.path);
        entry.content = content;
        entry.revision = revision + 1;
        self.node_mut(w).tag = Some(Tag { path: tag.path, revision: revision + 1 });
        Ok(())
    }

    /// Each file below, in path order, that a single `commit` accepts in the state that those before it left; the rest are
    /// passed over. A tag on the directory itself is not looked at.
    fn commit_directory(&mut self, uid: u8, w: &Path) -> Step<Vec<u8>> {
        refuse_if(!self.readable(uid, w), 5)?;
        let mut files = Vec::new();
        self.files_below(uid, w, &mut files);
        let mut committed = 0;
        for file in files {
            if self.commit_file(uid, &file).is_ok() {
                committed += 1;
            }
        }
        Ok(committed.to_string().into_bytes())
    }

    /// The files below a directory in path order, through directories that the person can read; whether a file can be read is
    /// asked by its own `commit`.
    fn files_below(&self, uid: u8, directory: &Path, files: &mut Vec<Path>) {
        for child in self.children(directory) {
            if !self.node(&child).is_directory() {
                files.push(child);
            } else if self.readable(uid, &child) {
                self.files_below(uid, &child, files);
            }
        }
    }

    pub fn up(&mut self, uid: u8, w: &Path) -> Step<()> {
        let account = 16 + self.session(uid)?;
        let tag = self.working_tag(uid, w, W)?;
        self.tagged_entry(account, &tag)?;
        let entry = self.node(&tag.path);
        let (content, revision) = (entry.content.clone(), entry.revision);
        let working = self.node_mut(w);
        working.content = content;
        working.tag = Some(Tag { path: tag.path, revision });
        Ok(())
    }

    pub fn del(&mut self, uid: u8, e: &Path) -> Step<()> {
        let account = 16 + self.session(uid)?;
        self.walk(account, e)?;
        refuse_if(!self.readable(account, e), 5)?;
        self.need(account, parent(e), W)?;
        refuse_if(!self.children(e).is_empty(), 8)?;
        self.nodes.remove(e);
        Ok(())
    }
}
