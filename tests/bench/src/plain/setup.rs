//! Setup texts, and the fresh store they say.

use super::header::{DIRECTORIES, DIRECTORY, GRANTS, MOST_GRANTS, MOST_PAIRS, PAIRS};
use super::rows::{new_row, Row, Store};
use super::text::{name, number, Writer};
use super::STORE;

/// Makes the fresh store of a setup; or the first wrong line, from 1, and the store is left.
pub fn setup(bytes: &mut [u8; STORE], text: &[u8]) -> Result<(), u64> {
    let draft = parse(text)?;
    bytes.fill(0);
    let mut store = Store::of(bytes);
    store.header[..DIRECTORIES].copy_from_slice(&draft.bytes);
    for uid in 0..16 {
        let mut directory = Writer::new(&mut store.header[DIRECTORIES + DIRECTORY * usize::from(uid)..]);
        directory.put(b"/");
        if draft.bytes[3 * usize::from(uid)] != 0 {
            directory.put_name(home(uid));
        }
    }
    let mut count = 0;
    let mut put = |row: Row| {
        store.rows[count] = row;
        count += 1;
    };
    put(new_row(0, b'd', 0, 0, 0o755, 0));
    put(new_row(1, b'd', 16, 24, 0o750, key(b"rep\0\0\0\0\0")));
    for uid in [1, 10, 11, 12, 13, 14, 15, 2, 3, 4, 5, 6, 7, 8, 9] {
        let primary = draft.bytes[3 * usize::from(uid)];
        if primary != 0 {
            put(new_row(1, b'd', uid, primary, 0o755, home(uid)));
        }
    }
    store.set_count(count);
    Ok(())
}

fn key(name: &[u8; 8]) -> u64 {
    u64::from_be_bytes(*name)
}

/// The name `u` and the uid.
fn home(uid: u8) -> u64 {
    let digit = |n| b'0' + n;
    if uid < 10 {
        key(&[b'u', digit(uid), 0, 0, 0, 0, 0, 0])
    } else {
        key(&[b'u', b'1', digit(uid - 10), 0, 0, 0, 0, 0])
    }
}

/// The header's used bytes while lines are read, and the kind of the last line: 0 to 3 for p, g, r, l.
struct Draft {
    bytes: [u8; DIRECTORIES],
    stage: u8,
}

fn parse(text: &[u8]) -> Result<Draft, u64> {
    let mut draft = Draft { bytes: [0; DIRECTORIES], stage: 0 };
    let mut rest = text;
    for line in 1.. {
        let end = rest.iter().position(|&b| b == b'\n').ok_or(line)?;
        let (here, after) = (&rest[..end], &rest[end + 1..]);
        if here == b"end" {
            return if after.is_empty() { Ok(draft) } else { Err(line + 1) };
        }
        draft.line(here).ok_or(line)?;
        rest = after;
    }
    unreachable!("a text has an end")
}

impl Draft {
    /// Takes one line, if it is right.
    fn line(&mut self, line: &[u8]) -> Option<()> {
        let mut fields = line.split(|&b| b == b',');
        let kind = fields.next()?;
        let (one, two) = (fields.next()?, fields.next()?);
        let password = if kind == b"l" { name(fields.next()?)? } else { 0 };
        if fields.next().is_some() {
            return None;
        }
        match kind {
            b"p" => self.stage(0)?.person(number(one, 15)?, number(two, 15)?),
            b"g" => self.stage(1)?.group(number(one, 15)?, number(two, 15)?),
            b"r" => self.stage(2)?.pair(number(one, 7)?, number(two, 7)?),
            b"l" => self.stage(3)?.grant(number(one, 15)?, number(two, 7)?, password),
            _ => None,
        }
    }

    fn stage(&mut self, stage: u8) -> Option<&mut Self> {
        if stage < self.stage {
            return None;
        }
        self.stage = stage;
        Some(self)
    }

    fn primary(&mut self, uid: u8) -> &mut u8 {
        &mut self.bytes[3 * usize::from(uid)]
    }

    fn person(&mut self, uid: u8, gid: u8) -> Option<()> {
        if uid == 0 || gid == 0 || *self.primary(uid) != 0 {
            return None;
        }
        *self.primary(uid) = gid;
        Some(())
    }

    fn group(&mut self, uid: u8, gid: u8) -> Option<()> {
        if gid == 0 || *self.primary(uid) == 0 {
            return None;
        }
        self.bytes[3 * usize::from(uid) + 1 + usize::from(gid / 8)] |= 1 << (gid % 8);
        Some(())
    }

    fn pair(&mut self, senior: u8, junior: u8) -> Option<()> {
        let pairs = usize::from(self.bytes[PAIRS]);
        if senior >= junior || pairs == MOST_PAIRS {
            return None;
        }
        self.bytes[PAIRS + 1 + 2 * pairs..][..2].copy_from_slice(&[senior, junior]);
        self.bytes[PAIRS] += 1;
        Some(())
    }

    fn grant(&mut self, uid: u8, role: u8, password: u64) -> Option<()> {
        let grants = usize::from(self.bytes[GRANTS]);
        if uid != 0 && *self.primary(uid) == 0 || grants == MOST_GRANTS {
            return None;
        }
        let at = GRANTS + 1 + 10 * grants;
        self.bytes[at] = uid;
        self.bytes[at + 1] = role;
        self.bytes[at + 2..at + 10].copy_from_slice(&password.to_be_bytes());
        self.bytes[GRANTS] += 1;
        Some(())
    }
}
