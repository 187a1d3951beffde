//! Stories of directories' commits, which surely bring up every kind of `directory_commits`. Where the order of names counts, they are
//! written out; the templates are those of `stories`.

use crate::model::run::LEAST_ANSWER;
use crate::stories::{play, Cast};
use crate::twin::Bench;

/// Who may, and in which order it is asked: without a session, without r, without x, with and without a tag on the directory.
const WHO: &[&str] = &[
    "A,mkdir,#0,0755", "A,commit,#0", "A,commit,/uA", "A,commit,/rep", "A,commit,#3", "A,chmod,#0,0355", "A,commit,#0",
    "A,chmod,#0,0655", "A,commit,#0", "A,login,0,W", "A,commit,#0", "A,chmod,#0,0355", "A,commit,#0", "A,chmod,#0,0055",
    "A,commit,#0", "A,chmod,#0,0755", "A,commit,#0", "A,commit,/uA", "A,commit,/rep", "A,commit,/rep/#0", "A,commit,/",
    "A,commit,/uB", "A,create,#1,0600", "A,commit,#1/#2", "A,commit,#3", "A,commit,#0/#3", "A,up,#0", "A,add,#0,/rep/#0,J",
    "A,commit,#0", "A,commit,/uA/#0", "A,chmod,#0,0300", "A,commit,#0", "A,logout", "A,commit,#0", "A,chmod,#0,0700",
    "B,commit,/uA", "B,login,J,W", "B,commit,/uA", "B,commit,/uA/#0", "0,commit,/rep", "0,commit,uA", "0,login,0,W",
    "0,commit,/rep", "0,commit,uA", "0,commit,/", "0,chmod,/,0744", "A,login,0,W", "A,commit,/", "A,commit,#0", "0,commit,/",
];

/// What each file finds at its turn: a second copy, a tag that an earlier one makes good, and directories that are not read.
const TURNS: &[&str] = &[
    "A,login,0,W", "A,mkdir,#0,0700", "A,create,#0/a,0600", "A,create,#0/b,0600", "A,create,#0/c,0600", "A,create,#0/d,0600",
    "A,add,#0/a,/rep/#1,J", "A,add,#0/b,/rep/#2,0", "A,add,#0/d,/rep/#3,0", "A,commit,#0", "A,write,#0/b,#5", "A,commit,/uA",
    // Two copies of one entry: the first in path order is committed.
    "A,co,/rep/#1,#0/a0", "A,write,#0/a,#5", "A,write,#0/a0,#6", "A,commit,#0", "A,up,#0/a0", "A,mv,#0/a,#0/z", "A,commit,#0",
    // Below a name comes before a longer name.
    "A,mkdir,#6,0700", "A,mkdir,#6/a,0700", "A,create,#6/a0,0600", "A,add,#6/a0,/rep/#6,0", "A,co,/rep/#6,#6/a/z",
    "A,write,#6/a/z,#5", "A,commit,#6", "A,commit,/uA",
    // An entry that is filed again: the tag with 1 comes first and the one with 2 is good after it; then the other way round.
    "A,mkdir,#7,0700", "A,create,#7/y,0600", "A,add,#7/y,/rep/#7,0", "A,commit,#7/y", "A,del,/rep/#7", "A,create,#7/x,0600",
    "A,add,#7/x,/rep/#7,0", "A,write,#7/x,#5", "A,write,#7/y,#6", "A,commit,#7", "A,commit,#7", "A,del,/rep/#7",
    "A,create,#7/z,0600", "A,add,#7/z,/rep/#7,0", "A,commit,#7", "A,commit,#7",
    // Directories below with r and x, with x alone and with r alone.
    "A,mkdir,#0/b0,0700", "A,create,#0/b0/f,0600", "A,add,#0/b0/f,/rep/#4,0", "A,commit,#0", "A,chmod,#0/b0,0300", "A,commit,#0",
    "A,commit,#0/b0/f", "A,commit,#0/b0", "A,chmod,#0/b0,0400", "A,commit,#0", "A,chmod,#0/b0,0500", "A,commit,#0",
    "0,login,0,W", "0,commit,/uA/#0", "A,commit,/uA",
];

/// What is passed over, for each number that a single commit can be refused with but 16.
const OVER: &[&str] = &[
    "A,login,0,W", "A,mkdir,#0,0755", "A,create,#0/a,0644", "A,create,#0/b,0644", "A,create,#0/c,0644", "A,create,#0/d,0644",
    "A,add,#0/a,/rep/#1,0", "A,add,#0/b,/rep/#2,0", "A,add,#0/d,/rep/#3,J", "A,commit,#0", "A,chmod,#0/b,0200", "A,commit,#0",
    "A,del,/rep/#2", "A,chmod,#0/b,0600", "A,commit,#0", "A,add,#0,/rep/#2,0", "A,commit,#0", "A,up,#0", "A,commit,#0/b",
    "A,up,#0/b", "A,create,#0/e,0600", "A,add,#0/e,/rep/#2/e,0", "A,commit,#0", "A,del,/rep/#2/e", "A,del,/rep/#2",
    "A,create,#0/f,0600", "A,add,#0/f,/rep/#2,0", "A,commit,#0", "A,commit,#0/e", "B,login,J,W", "B,commit,/uA/#0",
    "B,commit,/uA",
    // The entries' directory lets role J write, then the entries are for role 0 alone.
    "A,add,#0,/rep/#4,J", "A,create,#0/g,0644", "A,create,#0/h,0644", "A,add,#0/g,/rep/#4/g,J", "A,add,#0/h,/rep/#4/h,0",
    "B,commit,/uA/#0", "A,commit,#0", "B,co,/rep/#4,/uB/#4", "B,commit,/uB", "A,commit,#0", "B,mkdir,/uB/#5,0700",
    "B,commit,/uB/#5",
];

/// Root in the repository: a content that goes on from file to file, and a file that is its own entry.
const ROOT: &[&str] = &[
    "0,login,0,W", "0,create,/a,0600", "0,add,/a,/rep/b,0", "0,add,/rep/b,/rep/c,0", "0,write,/a,#5", "0,commit,/",
    "0,read,/rep/c", "0,commit,/rep", "0,add,/rep/c,/rep/a,0", "0,write,/a,#6", "0,commit,/", "0,commit,/", "0,read,/rep/a",
    "0,create,/d,0644", "0,add,/d,/rep/d,J", "0,mv,/d,/rep/d", "0,commit,/rep", "0,up,/rep/d", "0,commit,/rep", "0,commit,/rep",
    "0,chmod,/rep,0755", "A,login,0,W", "A,commit,/rep", "A,commit,/", "0,chown,/rep/b,A", "A,commit,/rep", "0,chmod,/,0700",
    "0,commit,/", "0,commit,/rep",
];

/// Plays every story once.
pub fn tell(bench: &mut Bench) {
    for story in [WHO, TURNS, OVER, ROOT] {
        let cast = Cast::new(&mut bench.rng);
        play(bench, &cast, story);
    }
    many(bench);
}

/// So many files that their number has two digits, then one less than that.
fn many(bench: &mut Bench) {
    let cast = Cast::new(&mut bench.rng);
    let mut twin = play(bench, &cast, &["A,login,0,W", "A,mkdir,#0,0700", "A,mkdir,#0/m,0700"]);
    for n in 0..10 {
        let file = if bench.rng.percent(50) { format!("#0/{n}f") } else { format!("#0/m/{n}f") };
        twin.run_with(bench, &cast.line(&format!("A,create,{file},0600")), LEAST_ANSWER);
        twin.run_with(bench, &cast.line(&format!("A,add,{file},/rep/{n}f,J")), LEAST_ANSWER);
    }
    for template in ["A,commit,#0", "A,commit,/uA", "A,del,/rep/3f", "A,commit,#0", "0,login,0,W", "0,commit,/"] {
        twin.run_with(bench, &cast.line(template), LEAST_ANSWER);
    }
    twin.check_listing(bench);
}
