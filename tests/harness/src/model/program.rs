//! The program: setup and commands in, answers and the listing out.

use super::run::LEAST_ANSWER;
use super::setup::read_setup;

/// What the program prints for an input.
pub fn program(input: &[u8]) -> Vec<u8> {
    let (setup, commands) = input.split_at(setup_length(input));
    let mut state = match read_setup(setup) {
        Ok(state) => state,
        Err(line) => return format!("no,17,{line}\n").into_bytes(),
    };
    let mut output = Vec::new();
    for line in command_lines(commands) {
        match state.run(line, LEAST_ANSWER) {
            Ok(None) => output.extend(b"ok"),
            Ok(Some(text)) => {
                output.extend(b"ok,");
                output.extend(text);
            }
            Err(number) => output.extend(format!("no,{number}").bytes()),
        }
        output.push(10);
    }
    for line in state.listing() {
        output.extend(line);
        output.push(10);
    }
    output
}

/// The setup is the input through its first line `end`, or all of it where there is none.
fn setup_length(input: &[u8]) -> usize {
    let mut length = 0;
    for line in input.split_inclusive(|byte| *byte == 10) {
        length += line.len();
        if line == b"end\n" || line == b"end" {
            break;
        }
    }
    length
}

/// A command line ends at byte 10 or the input's end; nothing after a last byte 10 is no line.
fn command_lines(commands: &[u8]) -> impl Iterator<Item = &[u8]> {
    commands.split_inclusive(|byte| *byte == 10).map(|line| line.strip_suffix(b"\n").unwrap_or(line))
}
