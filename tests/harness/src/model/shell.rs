//! The shell commands, their checks in the order of documents 01 and 02.

use super::access::{refuse_if, Step, R, W};
use super::state::{parent, Kind, Node, Path, State, MOST_NAMES, MOST_NODES, SET_GID};

/// `/` and `/rep`, which may not be removed or moved.
pub fn reserved(path: &Path) -> bool {
    path.is_empty() || (path.len() == 1 && path[0] == b"rep")
}

impl State {
    /// The group of a new node: its parent's if that has set-gid, else the person's primary group.
    pub fn new_group(&self, uid: u8, path: &[Vec<u8>]) -> u8 {
        let above = self.node(parent(path));
        if above.mode & SET_GID != 0 {
            above.group
        } else {
            self.primary_group(uid)
        }
    }

    /// The person's checks for a new path: `/` 6; parent walk; present 6; w on parent 5.
    pub fn may_make(&self, uid: u8, path: &Path) -> Step<()> {
        refuse_if(path.is_empty(), 6)?;
        self.parent_walk(uid, path)?;
        refuse_if(self.present(path), 6)?;
        self.need(uid, parent(path), W)
    }

    /// Refuses with 10 where so many more nodes would pass 256.
    pub fn need_room(&self, more: usize) -> Step<()> {
        refuse_if(self.nodes.len() + more > MOST_NODES, 10)
    }

    /// `create` and `mkdir`.
    pub fn make(&mut self, uid: u8, path: &Path, kind: Kind, mode: u16) -> Step<()> {
        self.may_make(uid, path)?;
        self.need_room(1)?;
        let group = self.new_group(uid, path);
        self.nodes.insert(path.clone(), Node::new(kind, uid, group, mode));
        Ok(())
    }

    /// Content, or a directory's names in byte order parted by commas.
    pub fn read(&self, uid: u8, path: &Path) -> Step<Vec<u8>> {
        self.walk(uid, path)?;
        self.need(uid, path, R)?;
        let node = self.node(path);
        if !node.is_directory() {
            return Ok(node.content.clone());
        }
        let names: Vec<Vec<u8>> = self.children(path).into_iter().filter_map(|mut child| child.pop()).collect();
        Ok(names.join(&b','))
    }

    pub fn write(&mut self, uid: u8, path: &Path, content: &[u8]) -> Step<()> {
        self.walk(uid, path)?;
        refuse_if(self.node(path).is_directory(), 7)?;
        self.need(uid, path, W)?;
        self.node_mut(path).content = content.to_vec();
        Ok(())
    }

    /// `rm` of a file, `rmdir` of a directory.
    pub fn remove(&mut self, uid: u8, path: &Path, kind: Kind) -> Step<()> {
        refuse_if(reserved(path), 9)?;
        self.walk(uid, path)?;
        refuse_if(self.node(path).kind != kind, 7)?;
        self.need(uid, parent(path), W)?;
        refuse_if(!self.children(path).is_empty(), 8)?;
        self.nodes.remove(path);
        Ok(())
    }

    /// What `mv` asks of a node that stands at b: a directory 6; else, where a is a directory, 7.
    fn may_give_way(&self, a: &Path, b: &Path) -> Step<()> {
        if !self.present(b) {
            return Ok(());
        }
        refuse_if(self.node(b).is_directory(), 6)?;
        refuse_if(self.node(a).is_directory(), 7)
    }

    /// A file that stands at b is replaced, its tag too; a file onto itself, all checks passed, is left as it is.
    pub fn mv(&mut self, uid: u8, a: &Path, b: &Path) -> Step<()> {
        refuse_if(reserved(a) || reserved(b), 9)?;
        self.walk(uid, a)?;
        self.parent_walk(uid, b)?;
        self.may_give_way(a, b)?;
        self.need(uid, parent(a), W)?;
        self.need(uid, parent(b), W)?;
        if a == b {
            return Ok(());
        }
        refuse_if(b.starts_with(a), 11)?;
        let moved = self.subtree(a);
        refuse_if(moved.iter().any(|old| old.len() - a.len() + b.len() > MOST_NAMES), 19)?;
        for old in moved {
            let node = self.nodes.remove(&old).expect("a node of the subtree");
            let new = [b.as_slice(), &old[a.len()..]].concat();
            self.nodes.insert(new, node);
        }
        Ok(())
    }

    pub fn chmod(&mut self, uid: u8, path: &Path, mode: u16) -> Step<()> {
        self.walk(uid, path)?;
        let node = self.node(path);
        refuse_if(mode & SET_GID != 0 && !node.is_directory(), 7)?;
        refuse_if(uid != 0 && uid != node.owner, 9)?;
        self.node_mut(path).mode = mode;
        Ok(())
    }

    /// Root may give any group, an owner any of the own groups.
    pub fn chgrp(&mut self, uid: u8, path: &Path, gid: u8) -> Step<()> {
        self.walk(uid, path)?;
        let own = uid == self.node(path).owner && self.member(uid, gid);
        refuse_if(uid != 0 && !own, 9)?;
        self.node_mut(path).group = gid;
        Ok(())
    }

    pub fn chown(&mut self, uid: u8, path: &Path, owner: u8) -> Step<()> {
        self.walk(uid, path)?;
        refuse_if(uid != 0, 9)?;
        self.node_mut(path).owner = owner;
        Ok(())
    }
}
