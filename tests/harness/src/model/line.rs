//! The form of a command line: number 1 is everything that this reader does not take.

use super::state::{Path, MOST_CONTENT, MOST_NAMES};

/// The words of the commands: the shell's, then the repository's.
pub const WORDS: [&str; 18] = [
    "create", "mkdir", "read", "write", "rm", "rmdir", "mv", "chmod", "chgrp", "chown", "cd", "login", "logout", "add", "co",
    "commit", "up", "del",
];

/// A path as a line gives it: whole, or short and then meant from the caller's working directory.
#[derive(Clone, PartialEq, Eq, Debug)]
pub enum Given {
    Whole(Path),
    Short(Path),
}

/// A command with its arguments; an entry path is never short.
#[derive(Clone, PartialEq, Eq, Debug)]
pub enum Command {
    Create(Given, u16),
    Mkdir(Given, u16),
    Read(Given),
    Write(Given, Vec<u8>),
    Rm(Given),
    Rmdir(Given),
    Mv(Given, Given),
    Chmod(Given, u16),
    Chgrp(Given, u8),
    Chown(Given, u8),
    Cd(Given),
    Login(u8, Vec<u8>),
    Logout,
    Add(Given, Path, u8),
    Co(Path, Given),
    Commit(Given),
    Up(Given),
    Del(Path),
}

/// A decimal number from 0 to `most`, without leading zeros.
pub fn number(field: &[u8], most: u8) -> Option<u8> {
    let leading_zero = field.len() > 1 && field[0] == b'0';
    if field.is_empty() || field.len() > 2 || leading_zero || !field.iter().all(u8::is_ascii_digit) {
        return None;
    }
    let value = field.iter().fold(0, |sum, digit| sum * 10 + (digit - b'0'));
    (value <= most).then_some(value)
}

/// A name or password: 1 to 8 bytes of a-z, 0-9, `_`.
pub fn is_name(field: &[u8]) -> bool {
    let good = |byte: &u8| byte.is_ascii_lowercase() || byte.is_ascii_digit() || *byte == b'_';
    (1..=8).contains(&field.len()) && field.iter().all(good)
}

/// Content: 0 to `MOST_CONTENT` bytes of 32 to 126 without comma.
pub fn is_content(field: &[u8]) -> bool {
    field.len() <= MOST_CONTENT && field.iter().all(|byte| (32..=126).contains(byte) && *byte != b',')
}

/// 1 to 6 names parted by `/`.
fn names(field: &[u8]) -> Option<Path> {
    let names: Path = field.split(|byte| *byte == b'/').map(<[u8]>::to_vec).collect();
    let good = names.len() <= MOST_NAMES && names.iter().all(|name| is_name(name));
    good.then_some(names)
}

/// A path: `/`, or 1 to 6 names each after a `/`.
pub fn path(field: &[u8]) -> Option<Path> {
    if field == b"/" {
        return Some(Vec::new());
    }
    names(field.strip_prefix(b"/")?)
}

/// A path, or a short one: 1 to 6 names that begin without `/`.
fn given(field: &[u8]) -> Option<Given> {
    if field.starts_with(b"/") {
        path(field).map(Given::Whole)
    } else {
        names(field).map(Given::Short)
    }
}

/// An entry path: at least two names, the first `rep`.
pub fn entry_path(field: &[u8]) -> Option<Path> {
    path(field).filter(|names| is_entry_path(names))
}

pub fn is_entry_path(names: &[Vec<u8>]) -> bool {
    names.len() >= 2 && names[0] == b"rep"
}

/// A mode: four octal digits, the first 0 or 2.
pub fn mode(field: &[u8]) -> Option<u16> {
    let good = field.len() == 4 && matches!(field[0], b'0' | b'2') && field.iter().all(|byte| (b'0'..=b'7').contains(byte));
    good.then(|| field.iter().fold(0, |sum, digit| sum * 8 + u16::from(digit - b'0')))
}

/// The caller and the command of a line that has a listed form.
pub fn read_line(line: &[u8]) -> Option<(u8, Command)> {
    let fields: Vec<&[u8]> = line.split(|byte| *byte == b',').collect();
    let (caller, rest) = fields.split_first()?;
    let (word, arguments) = rest.split_first()?;
    let caller = number(caller, 23)?;
    Some((caller, command(word, arguments)?))
}

/// The command that a word and its arguments say.
fn command(word: &[u8], arguments: &[&[u8]]) -> Option<Command> {
    let command = match (word, arguments) {
        (b"create", [a, m]) => Command::Create(given(a)?, mode(m).filter(|_| m[0] == b'0')?),
        (b"mkdir", [a, m]) => Command::Mkdir(given(a)?, mode(m)?),
        (b"read", [a]) => Command::Read(given(a)?),
        (b"write", [a, content]) => Command::Write(given(a)?, is_content(content).then(|| content.to_vec())?),
        (b"rm", [a]) => Command::Rm(given(a)?),
        (b"rmdir", [a]) => Command::Rmdir(given(a)?),
        (b"mv", [a, b]) => Command::Mv(given(a)?, given(b)?),
        (b"chmod", [a, m]) => Command::Chmod(given(a)?, mode(m)?),
        (b"chgrp", [a, gid]) => Command::Chgrp(given(a)?, number(gid, 24)?),
        (b"chown", [a, uid]) => Command::Chown(given(a)?, number(uid, 23)?),
        (b"cd", [a]) => Command::Cd(given(a)?),
        (b"login", [role, password]) => Command::Login(number(role, 7)?, is_name(password).then(|| password.to_vec())?),
        (b"logout", []) => Command::Logout,
        (b"add", [w, e, role]) => Command::Add(given(w)?, entry_path(e)?, number(role, 7)?),
        (b"co", [e, d]) => Command::Co(entry_path(e)?, given(d)?),
        (b"commit", [w]) => Command::Commit(given(w)?),
        (b"up", [w]) => Command::Up(given(w)?),
        (b"del", [e]) => Command::Del(entry_path(e)?),
        _ => return None,
    };
    Some(command)
}
