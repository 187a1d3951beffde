//! The named cases of contents.

use crate::edges::Test;
use crate::model::state::MOST_CONTENT;
use crate::trial::Trial;

pub const TESTS: [Test; 2] = [("content 80 / 81", contents), ("contents of 79, 80 and 81 bytes, filed", filed)];

fn contents(trial: &mut Trial) {
    let (good, long) = ("x".repeat(MOST_CONTENT), "x".repeat(MOST_CONTENT + 1));
    trial.say("1,create,/u1/a,0600", "ok");
    trial.say(&format!("1,write,/u1/a,{good}"), "ok");
    trial.say(&format!("1,write,/u1/a,{long}"), "no,1");
    trial.say("1,read,/u1/a", &format!("ok,{good}"));
    trial.listing_line(3, &format!("/u1/a,f,1,1,0600,0,-,0,{good}"));
    // At the limit, too, each byte is judged.
    let front = "x".repeat(MOST_CONTENT - 1);
    for bad in ["\x1f", "\x7f", ","] {
        trial.say(&format!("1,write,/u1/a,{front}{bad}"), "no,1");
        trial.say(&format!("1,write,/u1/a,{bad}{front}"), "no,1");
    }
    trial.say("1,read,/u1/a", &format!("ok,{good}"));
    trial.say("1,write,/u1/a, ~", "ok");
    trial.say("1,read,/u1/a", "ok, ~");
    trial.say("1,write,/u1/a,\x7f", "no,1");
    trial.say("1,write,/u1/a,\x1f", "no,1");
    trial.say("1,write,/u1/a,", "ok");
    trial.say("1,read,/u1/a", "ok,");
    trial.say("1,write,/u1/a", "no,1");
}

/// Filed by `add` and `commit` and brought back by `co` and `up`; what is too long never gets into the file.
fn filed(trial: &mut Trial) {
    trial.say("1,login,0,oak", "ok");
    trial.say("2,login,1,elm", "ok");
    let long = own_bytes(MOST_CONTENT + 1);
    for length in [MOST_CONTENT - 1, MOST_CONTENT] {
        let first = own_bytes(length);
        let second: String = first.chars().rev().collect();
        trial.say("1,create,/u1/a,0600", "ok");
        trial.say(&format!("1,write,/u1/a,{first}"), "ok");
        trial.say("1,add,/u1/a,/rep/a,1", "ok");
        trial.listing_line(2, &format!("/rep/a,f,17,17,0440,1,-,0,{first}"));
        trial.say("2,co,/rep/a,/u2/a", "ok");
        trial.say("2,read,/u2/a", &format!("ok,{first}"));
        trial.say(&format!("1,write,/u1/a,{second}"), "ok");
        trial.say("1,commit,/u1/a", "ok");
        trial.listing_line(2, &format!("/rep/a,f,17,17,0440,2,-,0,{second}"));
        trial.say(&format!("1,write,/u1/a,{long}"), "no,1");
        trial.say("1,commit,/u1/a", "ok");
        trial.say("2,up,/u2/a", "ok");
        trial.say("2,read,/u2/a", &format!("ok,{second}"));
        trial.listing_line(6, &format!("/u2/a,f,2,2,0600,0,/rep/a,3,{second}"));
        // Nothing of a long content stays behind a shorter one.
        trial.say("1,write,/u1/a,x", "ok");
        trial.say("1,commit,/u1/a", "ok");
        trial.say("2,up,/u2/a", "ok");
        trial.say("2,read,/u2/a", "ok,x");
        for line in ["1,del,/rep/a", "1,rm,/u1/a", "2,rm,/u2/a"] {
            trial.say(line, "ok");
        }
    }
}

/// A content in which every place has its own byte; left out are the comma and those that a shown answer would escape.
fn own_bytes(length: usize) -> String {
    let bytes: String = (' '..='~').filter(|byte| !",\\\"'".contains(*byte)).take(length).collect();
    assert_eq!(bytes.len(), length, "more places than bytes");
    bytes
}
