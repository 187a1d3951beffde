//! Document 02 on a directory's commit: "It must equal running those single commits one after another". Each one that is done is
//! held to that: the single commits run as lines of their own on a copy of library and model, and both must end alike.

use crate::directory_commits::DirectoryCommit;
use crate::library::{self, Answer, NO_VALUE};
use crate::model::run::LEAST_ANSWER;
use crate::tally::show;
use crate::twin::{differ, unlike, Bench, Twin};

/// Of so many directories' commits one has its listing compared; the bytes of the stores are compared each time.
const LISTED: usize = 20;

/// Library and model as they were before a directory's commit, and the single commits of the files that it meets.
pub struct Singles {
    twin: Twin,
    lines: Vec<Vec<u8>>,
}

impl Singles {
    /// What a line must equal, if it commits a directory.
    pub fn of(twin: &Twin, line: &[u8]) -> Option<Singles> {
        let lines = DirectoryCommit::of(&twin.model, line)?.singles(&twin.model);
        Some(Singles { twin: twin.clone(), lines })
    }

    /// Holds a directory's commit, which was done and gave this text, to its single commits.
    pub fn check(mut self, bench: &mut Bench, line: &[u8], after: &Twin, text: Option<&[u8]>) {
        let mut done = 0;
        let mut problem = None;
        for single in &self.lines {
            let mut buffer = bench.answer_buffer(LEAST_ANSWER);
            let before = buffer.clone();
            let answer = library::run(&mut self.twin.store, single, &mut buffer);
            let number = self.twin.model.run(single, LEAST_ANSWER).err().unwrap_or(0);
            let wrong = differ(answer, Answer { number, value: NO_VALUE }).or_else(|| unlike(&buffer, &before, "answer buffer"));
            problem = problem.or(wrong.map(|what| format!("{}: {what}", show(single))));
            done += usize::from(number == 0);
        }
        let problem = problem.or_else(|| self.otherwise(after, text, done));
        bench.tally.check(problem.map(|what| format!("line {} against single commits: {what}", show(line))));
        if bench.rng.below(LISTED) == 0 {
            self.twin.check_listing(bench);
        }
    }

    /// How the directory's commit left something else, or gave another number.
    fn otherwise(&self, after: &Twin, text: Option<&[u8]>, done: usize) -> Option<String> {
        if text != Some(done.to_string().as_bytes()) {
            return Some(format!("the text is {} where {done} were done", text.map_or("missing".to_string(), show)));
        }
        if after.model != self.twin.model {
            return Some("the model's states differ".to_string());
        }
        unlike(&after.store, &self.twin.store, "store")
    }
}
