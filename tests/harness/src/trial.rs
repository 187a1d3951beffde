//! One named test: lines and calls whose answers are written by hand, held against model and library each.

use crate::layout::{decode, STORE};
use crate::library::{self, Answer, NO_VALUE};
use crate::model::line::path;
use crate::model::run::LEAST_ANSWER;
use crate::model::setup::read_setup;
use crate::model::state::{text, State};
use crate::singles::Singles;
use crate::tally::show;
use crate::twin::{unlike, Bench, Twin};

pub struct Trial<'a> {
    bench: &'a mut Bench,
    name: &'static str,
    twin: Twin,
    failed_before: u64,
}

impl<'a> Trial<'a> {
    pub fn new(bench: &'a mut Bench, name: &'static str, setup: &str) -> Trial<'a> {
        let failed_before = bench.tally.failed;
        let twin = Twin::set_up(bench, setup.as_bytes()).expect("a good setup");
        Trial { bench, name, twin, failed_before }
    }

    /// Begins again with another setup.
    pub fn restart(&mut self, setup: &str) {
        self.twin = Twin::set_up(self.bench, setup.as_bytes()).expect("a good setup");
    }

    pub fn failed(&self) -> bool {
        self.bench.tally.failed > self.failed_before
    }

    pub fn store(&self) -> Vec<u8> {
        self.twin.store.clone()
    }

    /// A store that is unsound in one byte.
    pub fn broken_store(&self) -> Vec<u8> {
        let mut store = self.store();
        store[STORE - 1] = 1;
        store
    }

    fn check(&mut self, problem: Option<String>) {
        let name = self.name;
        self.bench.tally.check(problem.map(|what| format!("{name}: {what}")));
    }

    /// Holds what model or library gave against what is expected.
    fn expect(&mut self, who: &str, what: &str, given: String, wanted: &str) {
        self.check((given != wanted).then(|| format!("{what}: {who} gives {given} and not {wanted}")));
    }

    /// Runs a line; `wanted` is what the program prints for it: `ok`, `ok,text` or `no,number`. A directory's commit is also held
    /// to its single commits.
    pub fn say(&mut self, line: &str, wanted: &str) {
        let singles = Singles::of(&self.twin, line.as_bytes());
        let given = match self.twin.model.run(line.as_bytes(), LEAST_ANSWER) {
            Ok(None) => "ok".to_string(),
            Ok(Some(text)) => format!("ok,{}", text.escape_ascii()),
            Err(number) => format!("no,{number}"),
        };
        let mut buffer = self.bench.answer_buffer(LEAST_ANSWER);
        let answer = library::run(&mut self.twin.store, line.as_bytes(), &mut buffer);
        let what = show(line.as_bytes());
        self.expect("the model", &what, given, wanted);
        self.expect("the library", &what, printed(answer, &buffer), wanted);
        let problem = self.twin.state_problem();
        self.check(problem.map(|problem| format!("{what}: {problem}")));
        if let (Some(singles), Some(text)) = (singles, wanted.strip_prefix("ok")) {
            singles.check(self.bench, line.as_bytes(), &self.twin, text.strip_prefix(',').map(str::as_bytes));
        }
    }

    /// Where an account stands, by the model and by the library's store.
    pub fn stands(&mut self, account: usize, wanted: &str) {
        let shown = |state: &State| text(&state.working_directories[account]).escape_ascii().to_string();
        let given = shown(&self.twin.model);
        let library_gives = decode(&self.twin.store).map_or("an unsound store".to_string(), |state| shown(&state));
        let what = format!("working directory of {account}");
        self.expect("the model", &what, given, wanted);
        self.expect("the library", &what, library_gives, wanted);
    }

    /// Puts a working directory into both states, also one that no line leads to.
    pub fn place(&mut self, account: usize, directory: &str) {
        let directory = path(directory.as_bytes()).expect("a path");
        self.twin.patch(self.bench, |state| state.working_directories[account] = directory);
    }

    /// Brings an entry and the tag of a working file to a revision in both states.
    pub fn revise(&mut self, entry: &str, working: &str, revision: u16) {
        let [entry, working] = [entry, working].map(|text| path(text.as_bytes()).expect("a path"));
        self.twin.patch(self.bench, |state| {
            state.node_mut(&entry).revision = revision;
            state.node_mut(&working).tag.as_mut().expect("a tag").revision = revision;
        });
    }

    /// The listing's line of a path, wherever it stands.
    pub fn shows(&mut self, wanted: &str) {
        let path = wanted.split_inclusive(',').next().unwrap_or("").as_bytes();
        let n = self.twin.model.listing().iter().position(|line| line.starts_with(path));
        self.listing_line(n.unwrap_or(usize::MAX), wanted);
    }

    /// The whole listing.
    pub fn listing(&mut self, wanted: &[&str]) {
        for (n, line) in wanted.iter().enumerate() {
            self.listing_line(n, line);
        }
        let length = self.twin.model.listing().len();
        self.expect("the model", "lines", length.to_string(), &wanted.len().to_string());
        let store = self.store();
        self.raw_listing(&store, wanted.len(), LEAST_ANSWER, 3);
    }

    pub fn listing_line(&mut self, n: usize, wanted: &str) {
        let given = self.twin.model.listing().get(n).map_or("nothing".to_string(), |line| line.escape_ascii().to_string());
        let mut buffer = self.bench.answer_buffer(LEAST_ANSWER);
        let answer = library::listing(&self.twin.store, n, &mut buffer);
        let what = format!("listing line {n}");
        self.expect("the model", &what, given, wanted);
        self.expect("the library", &what, printed(answer, &buffer), &format!("ok,{wanted}"));
    }

    /// A setup text and its first wrong line, or nothing where it is good.
    pub fn setup(&mut self, text: &str, wrong_line: Option<u64>) {
        let wanted = wrong_line.map_or("ok".to_string(), |line| format!("no,17,{line}"));
        let given = read_setup(text.as_bytes()).err().map_or("ok".to_string(), |line| format!("no,17,{line}"));
        let mut store = vec![7; STORE];
        let answer = library::setup(&mut store, text.as_bytes());
        let what = format!("setup {}", show(text.as_bytes()));
        self.expect("the model", &what, given, &wanted);
        let library_gives = match answer {
            Answer { number: 0, value: NO_VALUE } => "ok".to_string(),
            Answer { number, value } => format!("no,{number},{value}"),
        };
        self.expect("the library", &what, library_gives, &wanted);
    }

    /// The library alone: a line on any bytes and any answer buffer gives a number; refusals change nothing.
    pub fn raw_run(&mut self, store: &[u8], line: &str, answer_len: usize, wanted: u32) {
        let mut after = store.to_vec();
        let mut buffer = self.bench.answer_buffer(answer_len);
        let before = buffer.clone();
        let answer = library::run(&mut after, line.as_bytes(), &mut buffer);
        let what = format!("{} on {} bytes with an answer buffer of {answer_len}", show(line.as_bytes()), store.len());
        self.expect("the library", &what, answer.number.to_string(), &wanted.to_string());
        if wanted != 0 {
            self.unchanged(answer, (&after, store), (&buffer, &before));
        }
    }

    /// The same for a line of the listing.
    pub fn raw_listing(&mut self, store: &[u8], n: usize, answer_len: usize, wanted: u32) {
        let mut buffer = self.bench.answer_buffer(answer_len);
        let before = buffer.clone();
        let answer = library::listing(store, n, &mut buffer);
        let what = format!("listing line {n} of {} bytes with an answer buffer of {answer_len}", store.len());
        self.expect("the library", &what, answer.number.to_string(), &wanted.to_string());
        if wanted != 0 {
            self.unchanged(answer, (&[], &[]), (&buffer, &before));
        }
    }

    /// The same for a setup into a buffer of a length.
    pub fn raw_setup(&mut self, store_len: usize, text: &str, wanted: u32) {
        let mut store = self.bench.answer_buffer(store_len);
        let before = store.clone();
        let answer = library::setup(&mut store, text.as_bytes());
        let what = format!("setup into {store_len} bytes");
        self.expect("the library", &what, answer.number.to_string(), &wanted.to_string());
        if wanted == 18 {
            self.unchanged(answer, (&store, &before), (&[], &[]));
        }
    }

    /// A refusal has no value and leaves both buffers.
    fn unchanged(&mut self, answer: Answer, store: (&[u8], &[u8]), buffer: (&[u8], &[u8])) {
        let value = (answer.value != NO_VALUE).then(|| format!("a refusal has the value {}", answer.value));
        let problem = value.or_else(|| unlike(store.0, store.1, "store"));
        self.check(problem.or_else(|| unlike(buffer.0, buffer.1, "answer buffer")));
    }
}

/// What the program prints for an answer of the library.
fn printed(answer: Answer, buffer: &[u8]) -> String {
    match answer {
        Answer { number: 0, value: NO_VALUE } => "ok".to_string(),
        Answer { number: 0, value } => match buffer.get(..value as usize) {
            Some(text) => format!("ok,{}", text.escape_ascii()),
            None => format!("ok with the length {value}"),
        },
        Answer { number, value: NO_VALUE } => format!("no,{number}"),
        Answer { number, value } => format!("no,{number} with the value {value}"),
    }
}
