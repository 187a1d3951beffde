//! The program under test, run on an input within a time.

use std::io::{Read, Write};
use std::process::{Child, Command, ExitStatus, Stdio};
use std::sync::mpsc::{self, Receiver};
use std::time::{Duration, Instant};

/// How much more than what is due is read before the program counts as one that prints too much.
const MORE: usize = 4096;
/// How long what was printed is waited for once the program is ended.
const AFTER_END: Duration = Duration::from_secs(1);

pub struct Subject {
    words: Vec<String>,
    time: Duration,
}

/// How a run ended.
pub enum End {
    Exit(ExitStatus),
    /// It ran on, and was killed.
    TooLong,
    /// It printed on, and was killed.
    TooMuch,
}

/// What a run printed, and how it ended.
pub struct Run {
    pub output: Vec<u8>,
    pub end: End,
}

impl Run {
    /// No signal, in time, and the bytes that are due; document 01 names no exit status.
    pub fn is_as_due(&self, due: &[u8]) -> bool {
        self.fault().is_none() && self.output == due
    }

    /// What is wrong with the way it ended.
    pub fn fault(&self) -> Option<String> {
        match self.end {
            End::Exit(status) if status.code().is_some() => None,
            End::Exit(status) => Some(format!("the program was ended by a {status}")),
            End::TooLong => Some("the program did not end in time".to_string()),
            End::TooMuch => Some("the program printed far more than is due".to_string()),
        }
    }
}

impl Subject {
    pub fn new(words: &[String], time: Duration) -> Subject {
        Subject { words: words.to_vec(), time }
    }

    /// Runs it on an input; what it says on standard error is left out.
    pub fn run(&self, input: &[u8], due: &[u8]) -> Result<Run, String> {
        let mut command = Command::new(&self.words[0]);
        command.args(&self.words[1..]).stdin(Stdio::piped()).stdout(Stdio::piped()).stderr(Stdio::null());
        let mut child = command.spawn().map_err(|problem| format!("{}: {problem}", self.words[0]))?;
        let until = Instant::now() + self.time;
        let most = due.len() + MORE;
        give(&mut child, input.to_vec());
        let printed = take(&mut child, most as u64);
        let output = printed.recv_timeout(self.time);
        let too_much = output.as_ref().is_ok_and(|output| output.len() == most);
        let status = if output.is_ok() && !too_much { wait(&mut child, until) } else { None };
        if let (Ok(output), Some(status)) = (&output, status) {
            return Ok(Run { output: output.clone(), end: End::Exit(status) });
        }
        let _ = child.kill();
        let _ = child.wait();
        let output = output.or_else(|_| printed.recv_timeout(AFTER_END)).unwrap_or_default();
        Ok(Run { output, end: if too_much { End::TooMuch } else { End::TooLong } })
    }

    /// The time after which an input is short enough: each try of a program that hangs takes long.
    pub fn time_to_shorten(&self) -> Duration {
        3 * self.time
    }
}

/// Writes the input while the program runs. One that ends early does not read it all; that is no fault of its own.
fn give(child: &mut Child, input: Vec<u8>) {
    let mut pipe = child.stdin.take().expect("a pipe");
    std::thread::spawn(move || pipe.write_all(&input));
}

/// Reads what the program prints, up to so many bytes.
fn take(child: &mut Child, most: u64) -> Receiver<Vec<u8>> {
    let pipe = child.stdout.take().expect("a pipe");
    let (sender, receiver) = mpsc::channel();
    std::thread::spawn(move || {
        let mut output = Vec::new();
        let _ = pipe.take(most).read_to_end(&mut output);
        sender.send(output)
    });
    receiver
}

/// How it ended, if it does so in time.
fn wait(child: &mut Child, until: Instant) -> Option<ExitStatus> {
    loop {
        let status = child.try_wait().ok()?;
        if status.is_some() || Instant::now() > until {
            return status;
        }
        std::thread::sleep(Duration::from_micros(200));
    }
}
