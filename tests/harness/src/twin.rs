//! A library's store and the model's state side by side: every call goes to both and is compared whole.

use crate::layout::{decode, encode, STORE};
use crate::library::{self, Answer, NO_VALUE};
use crate::model::run::LEAST_ANSWER;
use crate::model::setup::read_setup;
use crate::model::state::{text, State};
use crate::rng::Rng;
use crate::singles::Singles;
use crate::table::Table;
use crate::tally::{show, Tally};

/// What all comparisons share.
pub struct Bench {
    pub rng: Rng,
    pub tally: Tally,
    pub table: Table,
}

impl Bench {
    pub fn new(seed: u64) -> Bench {
        Bench { rng: Rng::new(seed), tally: Tally::default(), table: Table::default() }
    }

    /// An answer buffer of random bytes.
    pub fn answer_buffer(&mut self, length: usize) -> Vec<u8> {
        let mut answer = vec![0; length];
        self.rng.fill(&mut answer);
        answer
    }

    /// Mostly the least length, at times more, seldom too short.
    pub fn answer_length(&mut self) -> usize {
        match self.rng.below(200) {
            0 => self.rng.below(LEAST_ANSWER),
            1..=20 => LEAST_ANSWER + self.rng.below(3000),
            _ => LEAST_ANSWER,
        }
    }
}

#[derive(Clone)]
pub struct Twin {
    pub store: Vec<u8>,
    pub model: State,
}

impl Twin {
    /// Sets up both; nothing where the text is wrong. The store is full of random bytes before.
    pub fn set_up(bench: &mut Bench, text: &[u8]) -> Option<Twin> {
        let mut store = vec![0; STORE];
        bench.rng.fill(&mut store);
        let before = store.clone();
        let answer = library::setup(&mut store, text);
        bench.table.note("setup", answer.number);
        let (problem, twin) = match read_setup(text) {
            Err(line) => {
                let wanted = Answer { number: 17, value: line };
                (differ(answer, wanted).or(unlike(&store, &before, "store")), None)
            }
            Ok(model) => {
                let wanted = Answer { number: 0, value: NO_VALUE };
                let twin = Twin { store, model };
                (differ(answer, wanted).or_else(|| twin.state_problem()), Some(twin))
            }
        };
        bench.tally.check(problem.map(|what| format!("setup {}: {what}", show(text))));
        twin
    }

    /// Runs one line on both with a random answer buffer of usual length.
    pub fn run(&mut self, bench: &mut Bench, line: &[u8]) -> u32 {
        let length = bench.answer_length();
        self.run_with(bench, line, length)
    }

    /// Runs one line on both and compares number, value, text and every byte of both buffers; a directory's commit with its
    /// single commits, too.
    pub fn run_with(&mut self, bench: &mut Bench, line: &[u8], answer_len: usize) -> u32 {
        let mut buffer = bench.answer_buffer(answer_len);
        let mut wanted_buffer = buffer.clone();
        let before = self.store.clone();
        let singles = Singles::of(self, line);
        let answer = library::run(&mut self.store, line, &mut buffer);
        bench.table.note_line(&self.model, line, answer.number);
        let wanted = self.model.run(line, answer_len);
        let wanted_answer = match &wanted {
            Ok(None) => Answer { number: 0, value: NO_VALUE },
            Ok(Some(text)) => {
                wanted_buffer[..text.len()].copy_from_slice(text);
                Answer { number: 0, value: text.len() as u64 }
            }
            Err(number) => Answer { number: *number, value: NO_VALUE },
        };
        let problem = differ(answer, wanted_answer).or_else(|| unlike(&buffer, &wanted_buffer, "answer buffer"));
        let problem = problem.or_else(|| match wanted {
            Ok(_) => self.state_problem(),
            Err(_) => unlike(&self.store, &before, "store"),
        });
        let failed = problem.is_some();
        bench.tally.check(problem.map(|what| format!("line {} (answer buffer {answer_len}): {what}", show(line))));
        if failed {
            self.recover(&before);
        } else if let (Some(singles), Ok(text)) = (singles, wanted) {
            singles.check(bench, line, self, text.as_deref());
        }
        answer.number
    }

    /// After a problem both go on from one state, so that the next lines are judged for themselves.
    fn recover(&mut self, before: &[u8]) {
        for bytes in [self.store.clone(), before.to_vec()] {
            if let Ok(state) = decode(&bytes) {
                self.model = state;
                self.store = bytes;
                return;
            }
        }
        self.store = encode(&self.model);
    }

    /// Puts a changed model's state into the store, by the layout.
    pub fn patch(&mut self, bench: &mut Bench, change: impl FnOnce(&mut State)) {
        change(&mut self.model);
        self.store = encode(&self.model);
        bench.tally.check(self.state_problem().map(|what| format!("patched state: {what}")));
    }

    /// How the decoded store differs from the model's state, or the bytes from its one encoding.
    pub fn state_problem(&self) -> Option<String> {
        match decode(&self.store) {
            Err(what) => Some(format!("the store is unsound: {what}")),
            Ok(state) if state != self.model => Some(state_difference(&state, &self.model)),
            Ok(_) => unlike(&self.store, &encode(&self.model), "store's encoding"),
        }
    }

    /// Compares every line of the listing, and the numbers past its end.
    pub fn check_listing(&self, bench: &mut Bench) {
        let before = self.store.clone();
        let lines = self.model.listing();
        for n in 0..lines.len() {
            self.check_listing_line(bench, n, lines.get(n));
        }
        let far = lines.len() + bench.rng.below(300);
        for n in [lines.len(), far, usize::MAX] {
            self.check_listing_line(bench, n, None);
        }
        bench.tally.check(unlike(&self.store, &before, "store after the listing"));
    }

    /// One line of the listing, or 3 where there is none; 20 where the answer buffer is short.
    pub fn check_listing_line(&self, bench: &mut Bench, n: usize, line: Option<&Vec<u8>>) {
        let length = bench.answer_length();
        let mut buffer = bench.answer_buffer(length);
        let mut wanted_buffer = buffer.clone();
        let wanted = match line {
            _ if length < LEAST_ANSWER => Answer { number: 20, value: NO_VALUE },
            None => Answer { number: 3, value: NO_VALUE },
            Some(text) => {
                wanted_buffer[..text.len()].copy_from_slice(text);
                Answer { number: 0, value: text.len() as u64 }
            }
        };
        let answer = library::listing(&self.store, n, &mut buffer);
        bench.table.note("listing", answer.number);
        let problem = differ(answer, wanted).or_else(|| unlike(&buffer, &wanted_buffer, "answer buffer"));
        bench.tally.check(problem.map(|what| format!("listing line {n}: {what}")));
    }
}

/// How two answers differ.
pub fn differ(answer: Answer, wanted: Answer) -> Option<String> {
    (answer != wanted).then(|| format!("the library gives {answer:?}, the model {wanted:?}"))
}

/// Where two buffers first differ.
pub fn unlike(bytes: &[u8], wanted: &[u8], what: &str) -> Option<String> {
    if bytes == wanted {
        return None;
    }
    let at = bytes.iter().zip(wanted).position(|(a, b)| a != b).unwrap_or(0);
    Some(format!("{what} differs at byte {at}: {} and not {}", bytes[at], wanted[at]))
}

/// The first part in which two states differ.
fn state_difference(store: &State, model: &State) -> String {
    if store.sessions != model.sessions {
        return format!("sessions {:?} and not {:?}", store.sessions, model.sessions);
    }
    if store.working_directories != model.working_directories {
        let texts = |state: &State| state.working_directories.each_ref().map(|path| show(&text(path))).join(" ");
        return format!("working directories {} and not {}", texts(store), texts(model));
    }
    if (&store.people, &store.pairs, &store.grants) != (&model.people, &model.pairs, &model.grants) {
        return format!("people {:?} and not {:?}, or pairs or grants", store.people, model.people);
    }
    let (store, model) = (store.listing(), model.listing());
    let at = (0..).find(|n| store.get(*n) != model.get(*n)).unwrap_or(0);
    let line = |lines: &[Vec<u8>]| lines.get(at).map_or("nothing".to_string(), |line| show(line));
    format!("the tree has {} and not {}", line(&store), line(&model))
}
