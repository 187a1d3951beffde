//! Working directories: `cd`, and the paths that short ones mean.

use super::access::{refuse_if, Step, X};
use super::line::Given;
use super::state::{Path, State, MOST_NAMES};

/// The working directory is put in front of a short path; over 6 names are refused with 19.
pub fn joined(directory: &Path, given: Given) -> Step<Path> {
    let path = match given {
        Given::Whole(names) => names,
        Given::Short(names) => [directory.clone(), names].concat(),
    };
    refuse_if(path.len() > MOST_NAMES, 19)?;
    Ok(path)
}

impl State {
    /// The path is kept as it was walked, and is not looked at again before a later walk.
    pub fn cd(&mut self, uid: u8, path: &Path) -> Step<()> {
        self.walk(uid, path)?;
        refuse_if(!self.node(path).is_directory(), 7)?;
        self.need(uid, path, X)?;
        self.working_directories[usize::from(uid)] = path.clone();
        Ok(())
    }
}
