//! One command line, whole: 20, then 1, then 2, then 19 of joining, then the command's own checks (18 is the store's).

use super::access::{refuse_if, Step};
use super::line::{read_line, Command, Given};
use super::state::{Kind, State};
use super::working::joined;

/// The least length of an answer buffer.
pub const LEAST_ANSWER: usize = 4096;

impl State {
    /// The text of `read` and of a directory's `commit`, nothing for the other commands, or the refusal's number.
    pub fn run(&mut self, line: &[u8], answer_len: usize) -> Step<Option<Vec<u8>>> {
        refuse_if(answer_len < LEAST_ANSWER, 20)?;
        let (uid, command) = read_line(line).ok_or(1u32)?;
        refuse_if(uid != 0 && !self.people.contains_key(&uid), 2)?;
        let directory = self.working_directories[usize::from(uid)].clone();
        let at = |given: Given| joined(&directory, given);
        match command {
            Command::Read(path) => return self.read(uid, &at(path)?).map(Some),
            Command::Create(path, mode) => self.make(uid, &at(path)?, Kind::File, mode)?,
            Command::Mkdir(path, mode) => self.make(uid, &at(path)?, Kind::Directory, mode)?,
            Command::Write(path, content) => self.write(uid, &at(path)?, &content)?,
            Command::Rm(path) => self.remove(uid, &at(path)?, Kind::File)?,
            Command::Rmdir(path) => self.remove(uid, &at(path)?, Kind::Directory)?,
            Command::Mv(a, b) => self.mv(uid, &at(a)?, &at(b)?)?,
            Command::Chmod(path, mode) => self.chmod(uid, &at(path)?, mode)?,
            Command::Chgrp(path, gid) => self.chgrp(uid, &at(path)?, gid)?,
            Command::Chown(path, owner) => self.chown(uid, &at(path)?, owner)?,
            Command::Cd(path) => self.cd(uid, &at(path)?)?,
            Command::Login(role, password) => self.login(uid, role, &password)?,
            Command::Logout => self.logout(uid),
            Command::Add(w, e, role) => self.add(uid, &at(w)?, &e, role)?,
            Command::Co(e, d) => self.co(uid, &e, &at(d)?)?,
            Command::Commit(w) => return self.commit(uid, &at(w)?),
            Command::Up(w) => self.up(uid, &at(w)?)?,
            Command::Del(e) => self.del(uid, &e)?,
        }
        Ok(None)
    }
}
