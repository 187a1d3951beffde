//! Damaged working directories: a store is sound only where each field has a path's form and zeros behind it.

use crate::damage::{fresh, judge, other_byte};
use crate::edges::example_state;
use crate::layout::{decode, encode, DIRECTORIES, DIRECTORY, SPARE};
use crate::model::run::LEAST_ANSWER;
use crate::rng::Rng;
use crate::twin::{Bench, Twin};

/// How often each byte of the fields is changed.
const ROUNDS: usize = 4;

/// What a field is called, the bytes at its front, and whether a store with it is sound.
type Field = (&'static str, &'static [u8], bool);

/// A byte that is not zero at a field's very end.
const AT_THE_END: [u8; DIRECTORY] = {
    let mut bytes = [0; DIRECTORY];
    (bytes[0], bytes[DIRECTORY - 1]) = (b'/', b'a');
    bytes
};

const FIELDS: [Field; 26] = [
    ("the root", b"/", true),
    ("a good other path", b"/u2/w", true),
    ("a file's path", b"/u1/a", true),
    ("a path that is not there", b"/none/a_/0", true),
    ("a path below a file", b"/u1/a/b", true),
    ("six names", b"/a/b/c/d/e/f", true),
    ("six names of eight bytes", b"/abcdefgh/abcdefgh/abcdefgh/abcdefgh/abcdefgh/abcdefgh", true),
    ("an empty field", b"", false),
    ("no / in front", b"u1", false),
    ("no / in front of six names", b"a/b/c/d/e/f", false),
    ("seven names", b"/a/b/c/d/e/f/g", false),
    ("a name of nine bytes", b"/abcdefghi", false),
    ("a last name of nine bytes", b"/u1/abcdefghi", false),
    ("54 bytes of one name", &[b'a'; DIRECTORY], false),
    ("54 times /", &[b'/'; DIRECTORY], false),
    ("//", b"//", false),
    ("// in front", b"//u1", false),
    ("// in the middle", b"/u1//a", false),
    ("a trailing /", b"/u1/", false),
    ("a byte behind the zero", b"/u1\0a", false),
    ("a byte behind the root's zero", b"/\0a", false),
    ("a byte at the end", &AT_THE_END, false),
    ("a zero in front", b"\0/u1", false),
    ("a capital letter", b"/U1", false),
    ("a dot", b"/u1/.", false),
    ("a comma", b"/u1,a", false),
];

/// The persons of the second store, where account 15 is one.
const SETUP: &[u8] = b"p,1,1\np,2,2\np,15,15\nend\n";

/// Every byte of the fields, then the named ones for root, a person, and an account that is a person's or not.
pub fn directories(bench: &mut Bench, stores: &[Vec<u8>]) {
    for _ in 0..ROUNDS {
        every_byte(bench, stores);
    }
    for store in [encode(&example_state()), encode(&fresh(SETUP))] {
        for account in [0, 1, 15] {
            for field in &FIELDS {
                named(bench, store.clone(), account, field);
            }
        }
    }
}

fn every_byte(bench: &mut Bench, stores: &[Vec<u8>]) {
    for at in DIRECTORIES..SPARE {
        let mut store = bench.rng.pick(stores).clone();
        store[at] = other_byte(&mut bench.rng, store[at]);
        judge(bench, store, "one byte of a working directory");
    }
}

/// A store with one field; whether it is sound is held against the layout too.
fn named(bench: &mut Bench, mut store: Vec<u8>, account: usize, (what, front, sound): &Field) {
    put_field(&mut store, account, front);
    let what = format!("working directory of {account}: {what}");
    let verdict = decode(&store);
    bench.tally.check((verdict.is_ok() != *sound).then(|| format!("{what}: the layout says sound: {}", verdict.is_ok())));
    if let Ok(model) = verdict {
        short_lines(bench, Twin { store: store.clone(), model }, account);
    }
    judge(bench, store, &what);
}

/// Lines of an account that use its working directory.
fn short_lines(bench: &mut Bench, mut twin: Twin, account: usize) {
    for command in ["read,a", "mkdir,q,0700", "cd,q", "create,q,0600", "cd,/", "read,u1"] {
        twin.run_with(bench, format!("{account},{command}").as_bytes(), LEAST_ANSWER);
    }
}

/// Puts any of the fields for an account.
pub fn damage_field(rng: &mut Rng, store: &mut [u8], account: usize) -> &'static str {
    let (_, front, _) = rng.pick(&FIELDS);
    put_field(store, account, front);
    "working directory"
}

fn put_field(store: &mut [u8], account: usize, front: &[u8]) {
    let from = field(account);
    store[from..from + DIRECTORY].fill(0);
    store[from..from + front.len()].copy_from_slice(front);
}

/// Where an account's field begins.
pub fn field(account: usize) -> usize {
    DIRECTORIES + DIRECTORY * account
}
