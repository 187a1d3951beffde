//! The program by the plain calls: setup and commands from standard input, answers and the listing to standard output.

use crate::plain::{self, Answer, ANSWER, NO_VALUE, STORE};
use std::io::{Read, Write};

pub fn program() {
    let mut input = Vec::new();
    std::io::stdin().read_to_end(&mut input).expect("standard input is read");
    let mut out = Vec::new();
    answers(&input, &mut out);
    std::io::stdout().write_all(&out).expect("standard output is written");
}

/// Where the setup ends: after the first line `end`, or with the input.
fn setup_end(input: &[u8]) -> usize {
    let mut at = 0;
    for line in input.split_inclusive(|&b| b == b'\n') {
        at += line.len();
        if line == b"end\n" {
            break;
        }
    }
    at
}

fn answers(input: &[u8], out: &mut Vec<u8>) {
    let (text, commands) = input.split_at(setup_end(input));
    let mut store = vec![0; STORE];
    let mut into = vec![0; ANSWER];
    let set = plain::setup(&mut store, text);
    if set.number != 0 {
        out.extend(format!("no,{},{}\n", set.number, set.value).bytes());
        return;
    }
    for line in commands.split_inclusive(|&b| b == b'\n') {
        let line = line.strip_suffix(b"\n").unwrap_or(line);
        match plain::run(&mut store, line, &mut into) {
            Answer { number: 0, value: NO_VALUE } => out.extend(b"ok\n"),
            Answer { number: 0, value } => {
                out.extend(b"ok,");
                out.extend(&into[..value as usize]);
                out.push(b'\n');
            }
            Answer { number, .. } => out.extend(format!("no,{number}\n").bytes()),
        }
    }
    for n in 0.. {
        let line = plain::listing(&store, n, &mut into);
        if line.number != 0 {
            return;
        }
        out.extend(&into[..line.value as usize]);
        out.push(b'\n');
    }
}
