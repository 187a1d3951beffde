//! Counts of checks passed and failed, and the last line that every subcommand prints.

use std::process::ExitCode;

/// Problems after this many are counted, not printed.
const MOST_SHOWN: u64 = 40;

#[derive(Default)]
pub struct Tally {
    pub passed: u64,
    pub failed: u64,
}

impl Tally {
    /// Counts one check; a problem is printed.
    pub fn check(&mut self, problem: Option<String>) {
        match problem {
            None => self.passed += 1,
            Some(what) => {
                self.failed += 1;
                if self.failed <= MOST_SHOWN {
                    println!("FAILED {what}");
                }
            }
        }
    }

    /// Prints the counts; the status is 0 only if nothing failed.
    pub fn finish(&self) -> ExitCode {
        println!("{} passed, {} failed", self.passed, self.failed);
        if self.failed == 0 {
            ExitCode::SUCCESS
        } else {
            ExitCode::FAILURE
        }
    }
}

/// Bytes as readable text; long ones are cut.
pub fn show(bytes: &[u8]) -> String {
    let cut = &bytes[..bytes.len().min(300)];
    let more = if cut.len() < bytes.len() { "..." } else { "" };
    format!("\"{}\"{more}", cut.escape_ascii())
}
