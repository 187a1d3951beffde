//! Command lines: the 18 forms.

use super::header::directory;
use super::number::{Number, TOO_DEEP};
use super::rows::Header;
use super::text::{content, mode, name, number, Path};

pub enum Command<'a> {
    Create(Path<'a>, u16),
    Mkdir(Path<'a>, u16),
    Read(Path<'a>),
    Write(Path<'a>, &'a [u8]),
    Rm(Path<'a>),
    Rmdir(Path<'a>),
    Mv(Path<'a>, Path<'a>),
    Chmod(Path<'a>, u16),
    Chgrp(Path<'a>, u8),
    Chown(Path<'a>, u8),
    Login(u8, u64),
    Logout,
    Cd(Path<'a>),
    Add(Path<'a>, Path<'a>, u8),
    Co(Path<'a>, Path<'a>),
    Commit(Path<'a>),
    Up(Path<'a>),
    Del(Path<'a>),
}

impl<'a> Command<'a> {
    /// Puts the working directory in front of the short paths; too deep where one of them would be.
    pub fn join(&mut self, header: &Header, uid: u8) -> Result<(), Number> {
        use Command::*;
        match self {
            Create(p, _) | Mkdir(p, _) | Read(p) | Write(p, _) | Rm(p) | Rmdir(p) | Chmod(p, _) | Chgrp(p, _) | Chown(p, _) => {
                joined(header, uid, [p])
            }
            Cd(p) | Add(p, _, _) | Co(_, p) | Commit(p) | Up(p) => joined(header, uid, [p]),
            Mv(a, b) => joined(header, uid, [a, b]),
            Login(..) | Logout | Del(_) => Ok(()),
        }
    }
}

fn joined<const N: usize>(header: &Header, uid: u8, paths: [&mut Path; N]) -> Result<(), Number> {
    if paths.iter().any(|path| path.is_short()) {
        let directory = directory(header, uid);
        for path in paths {
            path.join(&directory).ok_or(TOO_DEEP)?;
        }
    }
    Ok(())
}

/// The caller and the command of a line, if it has a listed form.
pub fn parse(line: &[u8]) -> Option<(u8, Command<'_>)> {
    let mut fields = line.split(|&b| b == b',');
    let uid = number(fields.next()?, 23)?;
    let word = fields.next()?;
    let command = arguments(word, || fields.next())?;
    fields.next().is_none().then_some((uid, command))
}

fn arguments<'a>(word: &[u8], mut next: impl FnMut() -> Option<&'a [u8]>) -> Option<Command<'a>> {
    use Command::*;
    Some(match word {
        b"create" => Create(Path::parse_typed(next()?)?, mode(next()?).filter(|m| *m <= 0o777)?),
        b"mkdir" => Mkdir(Path::parse_typed(next()?)?, mode(next()?)?),
        b"read" => Read(Path::parse_typed(next()?)?),
        b"write" => Write(Path::parse_typed(next()?)?, content(next()?)?),
        b"rm" => Rm(Path::parse_typed(next()?)?),
        b"rmdir" => Rmdir(Path::parse_typed(next()?)?),
        b"mv" => Mv(Path::parse_typed(next()?)?, Path::parse_typed(next()?)?),
        b"chmod" => Chmod(Path::parse_typed(next()?)?, mode(next()?)?),
        b"chgrp" => Chgrp(Path::parse_typed(next()?)?, number(next()?, 24)?),
        b"chown" => Chown(Path::parse_typed(next()?)?, number(next()?, 23)?),
        b"login" => Login(number(next()?, 7)?, name(next()?)?),
        b"logout" => Logout,
        b"cd" => Cd(Path::parse_typed(next()?)?),
        b"add" => Add(Path::parse_typed(next()?)?, Path::parse_entry(next()?)?, number(next()?, 7)?),
        b"co" => Co(Path::parse_entry(next()?)?, Path::parse_typed(next()?)?),
        b"commit" => Commit(Path::parse_typed(next()?)?),
        b"up" => Up(Path::parse_typed(next()?)?),
        b"del" => Del(Path::parse_entry(next()?)?),
        _ => return None,
    })
}
