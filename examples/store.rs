//! A store that is kept in a file, by the library's three calls: a model for programs that save stores.
//!
//!     store FILE setup SETUP      makes the store that the setup text in the file SETUP says, whatever FILE held
//!     store FILE run LINE...      carries out command lines, and tells each answer in words
//!     store FILE list             prints all nodes
//!     store FILE check            says whether FILE holds a sound store
//!
//!     rustc --edition 2021 -L native=crates/exports/out -l static=exports examples/store.rs
//!
//! A power cut leaves the old store or the new one, whole (`save` says how), and an answer is told once the store that has it is
//! saved. The exit status is 0 if all was done, 1 if something was refused or failed, 2 if the arguments are none of the above.
//! examples/store.c is the same program in C.

use std::ffi::{OsStr, OsString};
use std::fs::{self, File, OpenOptions};
use std::io::{self, ErrorKind, Read, Write};
use std::os::unix::ffi::OsStrExt;
use std::os::unix::fs::OpenOptionsExt;
use std::process::ExitCode;

// As include/patterns.h has them.
extern "C" {
    fn patterns_setup(store: *mut u8, store_len: usize, text: *const u8, text_len: usize, value: *mut u64) -> u32;
    #[rustfmt::skip]
    fn patterns_run(
        store: *mut u8,
        store_len: usize,
        line: *const u8,
        line_len: usize,
        answer: *mut u8,
        answer_len: usize,
        value: *mut u64,
    ) -> u32;
    #[rustfmt::skip]
    fn patterns_listing(store: *const u8, store_len: usize, n: usize, answer: *mut u8, answer_len: usize, value: *mut u64)
        -> u32;
}

const STORE: usize = 65536;
const ANSWER: usize = 4096;
const NO_VALUE: u64 = u64::MAX;
const DONE: u32 = 0;

const USAGE: &str = "store FILE setup SETUP | store FILE run LINE... | store FILE list | store FILE check";

/// What each number of a call says.
const WORDS: [&str; 21] = [
    "done", "no listed form", "unknown caller", "name missing", "file in mid-path", "no access", "already there", "wrong kind",
    "not empty", "reserved", "256 nodes at most", "into itself", "no session", "no such grant", "stale", "no tag",
    "revisions spent", "setup line wrong", "store not sound", "too deep", "answer buffer too short",
];

/// What went wrong, as standard error has it behind `store: `.
struct Problem(Vec<u8>);

/// Something wrong with a file.
fn wrong(file: &OsStr, what: &str) -> Problem {
    Problem([file.as_bytes(), b": ", what.as_bytes()].concat())
}

/// The system's reason as `strerror` words it.
fn reason(problem: io::Error) -> String {
    let text = problem.to_string();
    text.split(" (os error").next().unwrap_or_default().to_string()
}

/// A store with the answer buffer for its calls, and the calls. Every pointer below goes with its own buffer's length.
struct Store {
    bytes: Vec<u8>,
    answer: Vec<u8>,
}

impl Store {
    /// Makes a store by a setup text, or says its first wrong line.
    fn set_up(text: &[u8]) -> Result<Store, u64> {
        let mut store = Store { bytes: vec![0; STORE], answer: vec![0; ANSWER] };
        let mut line = 0;
        let to = store.bytes.as_mut_ptr();
        let number = unsafe { patterns_setup(to, STORE, text.as_ptr(), text.len(), &mut line) };
        if number == DONE {
            Ok(store)
        } else {
            Err(line)
        }
    }

    /// Carries out a line: the text of its answer, where it has one, or the number that it is refused with.
    fn run(&mut self, line: &[u8]) -> Result<Option<&[u8]>, u32> {
        let (bytes, answer, mut value) = (self.bytes.as_mut_ptr(), self.answer.as_mut_ptr(), 0);
        let number = unsafe { patterns_run(bytes, STORE, line.as_ptr(), line.len(), answer, ANSWER, &mut value) };
        match (number, value) {
            (DONE, NO_VALUE) => Ok(None),
            (DONE, length) => Ok(Some(&self.answer[..length as usize])),
            (number, _) => Err(number),
        }
    }

    /// Line n of the listing, from 0, or the number that says why there is none.
    fn listing(&mut self, n: usize) -> Result<&[u8], u32> {
        let (bytes, answer, mut value) = (self.bytes.as_ptr(), self.answer.as_mut_ptr(), 0);
        let number = unsafe { patterns_listing(bytes, STORE, n, answer, ANSWER, &mut value) };
        if number == DONE {
            Ok(&self.answer[..value as usize])
        } else {
            Err(number)
        }
    }
}

/// Opens the directory that FILE is in and locks it until it is dropped: of two that save at once, one would undo what the other
/// did. Who only reads needs no lock, since an opened store stays whole.
fn lock_directory(file: &OsStr) -> Result<File, Problem> {
    let name = match file.as_bytes().iter().rposition(|byte| *byte == b'/') {
        None => OsStr::new("."),
        Some(0) => OsStr::new("/"),
        Some(slash) => OsStr::from_bytes(&file.as_bytes()[..slash]),
    };
    let locked = File::open(name).and_then(|directory| directory.lock().map(|()| directory));
    locked.map_err(|problem| wrong(name, &reason(problem)))
}

/// Makes a file of these bytes that only its owner may read, for passwords stand in it; the disk has it in the end. What an
/// earlier save left under that name goes first, so that neither its mode nor a link is taken over.
fn write_new(new_file: &OsStr, bytes: &[u8]) -> io::Result<()> {
    match fs::remove_file(new_file) {
        Err(problem) if problem.kind() != ErrorKind::NotFound => return Err(problem),
        _ => (),
    }
    let mut file = OpenOptions::new().write(true).create_new(true).mode(0o600).open(new_file)?;
    // All of them: `write_all` goes on after a write that took only some, or was interrupted.
    file.write_all(bytes)?;
    file.sync_all()
}

/// Puts the store in FILE's place. FILE itself is never written: a new file beside it takes its name, in one step, once the disk
/// has all of its bytes. So whenever the power fails, FILE is the old store or the new one. The last step makes the name last.
fn save(file: &OsStr, directory: &File, store: &Store) -> Result<(), Problem> {
    let mut new_file = file.to_os_string();
    new_file.push(".new");
    let renamed = write_new(&new_file, &store.bytes).and_then(|()| fs::rename(&new_file, file));
    if let Err(problem) = renamed {
        let _ = fs::remove_file(&new_file);
        return Err(wrong(file, &format!("not saved: {}", reason(problem))));
    }
    let lasting = directory.sync_all();
    lasting.map_err(|problem| wrong(file, &format!("saved, but a power cut may bring the old store back: {}", reason(problem))))
}

/// Reads FILE: exactly as many bytes as a store has, and sound.
fn load(file: &OsStr) -> Result<Store, Problem> {
    let mut store = Store { bytes: Vec::new(), answer: vec![0; ANSWER] };
    let most = STORE as u64 + 1;
    let read = File::open(file).and_then(|from| from.take(most).read_to_end(&mut store.bytes));
    read.map_err(|problem| wrong(file, &reason(problem)))?;
    if store.bytes.len() != STORE {
        return Err(wrong(file, "not 65536 bytes long"));
    }
    // Every call judges the whole store first, so line 0 of the listing tells whether it is sound.
    match store.listing(0) {
        Ok(_) => Ok(store),
        Err(_) => Err(wrong(file, "not a sound store")),
    }
}

/// Makes the store by a setup text; one that is wrong saves nothing.
fn set_up(file: &OsStr, setup: &OsStr) -> Result<bool, Problem> {
    let directory = lock_directory(file)?;
    let text = fs::read(setup).map_err(|problem| wrong(setup, &reason(problem)))?;
    let store = Store::set_up(&text).map_err(|line| wrong(setup, &format!("line {line}: {}", WORDS[17])))?;
    save(file, &directory, &store)?;
    Ok(true)
}

/// An answer in words: `done`, `done: text`, or `refused: ` with the cause and its number.
fn tell(answer: Result<Option<&[u8]>, u32>) -> Vec<u8> {
    match answer {
        Ok(None) => b"done\n".to_vec(),
        Ok(Some(text)) => [b"done: ", text, b"\n"].concat(),
        Err(number) => format!("refused: {} ({number})\n", WORDS[number as usize]).into_bytes(),
    }
}

/// Loads, carries out lines and saves. The answers wait in memory until the store is saved: what is told is so after a power cut,
/// too. True if all lines were done.
fn run(file: &OsStr, lines: &[OsString]) -> Result<bool, Problem> {
    let directory = lock_directory(file)?;
    let mut store = load(file)?;
    let (mut answers, mut changed, mut all_done) = (Vec::new(), false, true);
    for line in lines {
        let answer = store.run(line.as_bytes());
        // Done and without a text is every command that can change the store.
        changed |= answer == Ok(None);
        all_done &= answer.is_ok();
        answers.extend(tell(answer));
    }
    if changed {
        save(file, &directory, &store)?;
    }
    print(&answers)?;
    Ok(all_done)
}

/// Prints line n of the listing, from 0, until there is none.
fn list(file: &OsStr) -> Result<bool, Problem> {
    let mut store = load(file)?;
    let mut lines = Vec::new();
    for n in 0.. {
        let Ok(line) = store.listing(n) else { break };
        lines.extend([line, b"\n"].concat());
    }
    print(&lines)?;
    Ok(true)
}

fn check(file: &OsStr) -> Result<bool, Problem> {
    load(file)?;
    print(b"sound\n")?;
    Ok(true)
}

fn print(text: &[u8]) -> Result<(), Problem> {
    let mut to = io::stdout();
    let printed = to.write_all(text).and_then(|()| to.flush());
    printed.map_err(|problem| wrong(OsStr::new("standard output"), &reason(problem)))
}

fn main() -> ExitCode {
    let arguments: Vec<OsString> = std::env::args_os().skip(1).collect();
    let words: Vec<&[u8]> = arguments.iter().map(|argument| argument.as_bytes()).collect();
    let good = match words[..] {
        [_, b"setup", _] => set_up(&arguments[0], &arguments[2]),
        [_, b"run", _, ..] => run(&arguments[0], &arguments[2..]),
        [_, b"list"] => list(&arguments[0]),
        [_, b"check"] => check(&arguments[0]),
        _ => {
            eprintln!("{USAGE}");
            return ExitCode::from(2);
        }
    };
    match good {
        Ok(true) => ExitCode::SUCCESS,
        Ok(false) => ExitCode::FAILURE,
        Err(Problem(what)) => {
            // Where standard error cannot be written either, the status alone tells.
            let _ = io::stderr().write_all(&[b"store: ", &what[..], b"\n"].concat());
            ExitCode::FAILURE
        }
    }
}
