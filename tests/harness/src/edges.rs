//! The cases that documents 01 and 02 name, both sides of each edge. What is expected is written by hand, and the model and
//! the library are each held against it. Those of contents stand in `edges_content`, those of working directories in
//! `edges_cd`, those of moves onto what is there in `edges_onto`, those of directories' commits in `edges_commits` and
//! `edges_turns`.

use crate::layout::STORE;
use crate::model::setup::read_setup;
use crate::model::state::State;
use crate::tally::Tally;
use crate::trial::Trial;
use crate::twin::Bench;
use crate::{edges_cd, edges_commits, edges_content, edges_onto, edges_turns};

pub const EXAMPLE_SETUP: &str = "p,1,1\np,2,2\nr,0,1\nl,1,0,oak\nl,2,1,elm\nend\n";

/// The worked example: eleven lines and their answers.
const EXAMPLE: [(&str, &str); 11] = [
    ("1,login,0,oak", "ok"),
    ("1,mkdir,/u1/d,0700", "ok"),
    ("1,add,/u1/d,/rep/cut,1", "ok"),
    ("1,create,/u1/a,0600", "ok"),
    ("1,add,/u1/a,/rep/cut/a,1", "ok"),
    ("2,mv,/rep/cut/a,/u2/a", "no,5"),
    ("2,login,1,elm", "ok"),
    ("2,co,/rep/cut,/u2/w", "ok"),
    ("2,write,/u2/w/a,51 32", "ok"),
    ("2,commit,/u2/w/a", "ok"),
    ("1,commit,/u1/a", "no,14"),
];

#[rustfmt::skip]
const EXAMPLE_LISTING: [&str; 10] = [
    "/,d,0,0,0755,0,-,0,",
    "/rep,d,16,24,0750,0,-,0,",
    "/rep/cut,d,17,17,0770,1,-,0,",
    "/rep/cut/a,f,17,17,0440,2,-,0,51 32",
    "/u1,d,1,1,0755,0,-,0,",
    "/u1/a,f,1,1,0600,0,/rep/cut/a,1,",
    "/u1/d,d,1,1,0700,0,/rep/cut,1,",
    "/u2,d,2,2,0755,0,-,0,",
    "/u2/w,d,2,2,0700,0,/rep/cut,1,",
    "/u2/w/a,f,2,2,0600,0,/rep/cut/a,2,51 32",
];

/// The state after the worked example, by the model.
pub fn example_state() -> State {
    let mut state = read_setup(EXAMPLE_SETUP.as_bytes()).expect("the example's setup");
    for (line, _) in EXAMPLE {
        let _ = state.run(line.as_bytes(), 4096);
    }
    state
}

/// A test and its name.
pub type Test = (&'static str, fn(&mut Trial));

pub fn edges(seed: u64) -> Tally {
    let mut bench = Bench::new(seed);
    let tests: [Test; 17] = [
        ("worked example", example),
        ("name 8 / 9 bytes", names),
        ("path 6 / 7 names", paths),
        ("node 256 / 257", nodes),
        ("revision 9999 / next", revisions),
        ("wrong turn: falling through to group bits", owner_bits),
        ("wrong turn: looking up below /rep before testing x", lookup_before_x),
        ("wrong turn: commit by the person's account, or by the directory only", commit_by),
        ("wrong turn: dominance without chains", chains),
        ("forms", forms),
        ("order 20, 18, 1, 2", order_of_run),
        ("listing 20, 18, 3", order_of_listing),
        ("answer buffers of 0, 4,095, 4,096 and more", answer_buffers),
        ("setup 18, then 17", order_of_setup),
        ("store buffers of wrong length", store_lengths),
        ("setup r,0,7 / r,3,3", role_pairs),
        ("setup lines", setup_lines),
    ];
    let others = edges_content::TESTS.into_iter().chain(edges_cd::TESTS).chain(edges_onto::TESTS);
    let commits = edges_commits::TESTS.into_iter().chain(edges_turns::TESTS);
    for (name, test) in tests.into_iter().chain(others).chain(commits) {
        let mut trial = Trial::new(&mut bench, name, EXAMPLE_SETUP);
        test(&mut trial);
        println!("{name}: {}", if trial.failed() { "failed" } else { "passed" });
    }
    bench.tally
}

/// Lines in turn, each with what the program prints for it.
pub fn say_all(trial: &mut Trial, lines: &[(&str, &str)]) {
    for (line, wanted) in lines {
        trial.say(line, wanted);
    }
}

fn example(trial: &mut Trial) {
    say_all(trial, &EXAMPLE);
    trial.listing(&EXAMPLE_LISTING);
}

fn names(trial: &mut Trial) {
    trial.say("1,create,/u1/abcdefgh,0600", "ok");
    trial.say("1,create,/u1/abcdefghi,0600", "no,1");
    trial.say("1,mkdir,/u1/azy09_12,0700", "ok");
    trial.say("1,mkdir,/u1/azy09_123,0700", "no,1");
    trial.say("1,read,/u1", "ok,abcdefgh,azy09_12");
    trial.say("1,login,0,abcdefgh", "no,13");
    trial.say("1,login,0,abcdefghi", "no,1");
    trial.setup("l,0,0,abcdefgh\nend\n", None);
    trial.setup("l,0,0,abcdefghi\nend\n", Some(1));
}

fn paths(trial: &mut Trial) {
    for path in ["/u1/b", "/u1/b/c", "/u1/b/c/d", "/u1/b/c/d/e", "/u1/b/c/d/e/f"] {
        trial.say(&format!("1,mkdir,{path},0700"), "ok");
    }
    trial.say("1,mkdir,/u1/b/c/d/e/f/g,0700", "no,1");
    trial.say("1,read,/u1/b/c/d/e/f", "ok,");
    trial.say("1,read,/u1/b/c/d/e/f/g", "no,1");
    // Moves: the deepest moved path counts.
    trial.say("1,mkdir,/u1/x,0700", "ok");
    trial.say("1,mkdir,/u1/x/y,0700", "ok");
    trial.say("1,mv,/u1/x,/u1/b/c/d/e/x", "no,19");
    trial.say("1,mv,/u1/x,/u1/b/c/d/x", "ok");
    trial.say("1,read,/u1/b/c/d/x", "ok,y");
    // Copies too.
    trial.say("1,login,0,oak", "ok");
    trial.say("1,add,/u1,/rep/p,0", "ok");
    trial.say("1,add,/u1,/rep/p/q,0", "ok");
    trial.say("1,co,/rep/p,/u1/b/c/d/e/p", "no,19");
    trial.say("1,co,/rep/p,/u1/b/c/d/p", "ok");
    trial.say("1,co,/rep/p/q,/u1/b/c/d/e/q", "ok");
    // An unreadable child is not copied, so it is not too deep either.
    trial.say("0,chmod,/rep/p/q,0000", "ok");
    trial.say("1,co,/rep/p,/u1/b/c/d/e/p", "ok");
    trial.say("1,read,/u1/b/c/d/e/p", "ok,");
}

fn nodes(trial: &mut Trial) {
    trial.say("1,login,0,oak", "ok");
    trial.say("1,add,/u1,/rep/p,0", "ok");
    trial.say("1,add,/u1,/rep/p/q,0", "ok");
    // Six nodes so far; 249 more make 255.
    for n in 0..249 {
        let kind = if n % 2 == 0 { "create" } else { "mkdir" };
        trial.say(&format!("1,{kind},/u1/n{n},0700"), "ok");
    }
    trial.say("1,co,/rep/p,/u1/w", "no,10");
    trial.say("1,co,/rep/p/q,/u1/w", "ok");
    for line in ["1,create,/u1/z,0600", "1,mkdir,/u1/z,0700", "1,add,/u1/n0,/rep/z,0", "1,co,/rep/p/q,/u1/z"] {
        trial.say(line, "no,10");
    }
    trial.say("2,create,/u1/z,0600", "no,5");
    trial.say("1,create,/u1/n0,0600", "no,6");
    trial.say("1,rm,/u1/n0", "ok");
    trial.say("1,mkdir,/u1/z,0700", "ok");
    trial.say("1,create,/u1/n0,0600", "no,10");
    trial.say("1,del,/rep/p/q", "ok");
    trial.say("1,add,/u1/z,/rep/z,0", "ok");
    trial.say("1,mv,/u1/z,/u1/n0", "ok");
}

/// By real commits, from revision 1 on.
fn revisions(trial: &mut Trial) {
    trial.say("1,login,0,oak", "ok");
    trial.say("1,create,/u1/a,0600", "ok");
    trial.say("1,add,/u1/a,/rep/a,0", "ok");
    for _ in 2..=9998 {
        trial.say("1,commit,/u1/a", "ok");
    }
    trial.listing_line(2, "/rep/a,f,16,16,0440,9998,-,0,");
    trial.say("1,commit,/u1/a", "ok");
    trial.listing_line(2, "/rep/a,f,16,16,0440,9999,-,0,");
    trial.say("1,commit,/u1/a", "no,16");
    trial.say("1,up,/u1/a", "ok");
    trial.say("1,co,/rep/a,/u1/b", "ok");
    trial.say("1,commit,/u1/b", "no,16");
    trial.say("1,del,/rep/a", "ok");
    trial.say("1,commit,/u1/b", "no,3");
    trial.say("1,add,/u1/a,/rep/a,0", "ok");
    trial.listing_line(2, "/rep/a,f,16,16,0440,1,-,0,");
    trial.say("1,commit,/u1/b", "no,14");
    trial.say("1,commit,/u1/a", "ok");
}

fn owner_bits(trial: &mut Trial) {
    trial.say("1,create,/u1/a,0040", "ok");
    trial.say("1,read,/u1/a", "no,5");
    trial.say("1,mkdir,/u1/d,0077", "ok");
    trial.say("1,read,/u1/d", "no,5");
    trial.say("1,create,/u1/d/x,0600", "no,5");
    trial.say("2,create,/u1/d/x,0600", "ok");
    // A member of the group is judged by group bits alone, too.
    trial.say("0,create,/b,0604", "ok");
    trial.say("0,chgrp,/b,1", "ok");
    trial.say("1,read,/b", "no,5");
    trial.say("2,read,/b", "ok,");
}

fn lookup_before_x(trial: &mut Trial) {
    trial.say("1,login,0,oak", "ok");
    trial.say("2,login,1,elm", "ok");
    trial.say("1,mkdir,/u1/d,0700", "ok");
    trial.say("1,add,/u1/d,/rep/cut,0", "ok");
    trial.say("1,add,/u1/d,/rep/cut/in,0", "ok");
    for path in ["/rep/cut/in", "/rep/cut/none"] {
        trial.say(&format!("2,co,{path},/u2/w"), "no,5");
        trial.say(&format!("2,del,{path}"), "no,5");
        trial.say(&format!("2,add,/u2,{path},1"), "no,5");
    }
    for path in ["/rep/cut", "/rep/none"] {
        trial.say(&format!("2,read,{path}"), "no,5");
        trial.say(&format!("2,rm,{path}"), "no,5");
    }
    trial.say("2,co,/rep/none,/u2/w", "no,3");
}

fn commit_by(trial: &mut Trial) {
    say_all(trial, &EXAMPLE[..10]);
    // Person 2 has no access below /rep, yet the account commits.
    trial.say("2,read,/rep/cut/a", "no,5");
    trial.say("2,commit,/u2/w/a", "ok");
    // The directory is writable, but the entry is another role's.
    trial.say("1,del,/rep/cut/a", "ok");
    trial.say("1,add,/u1/a,/rep/cut/a,0", "ok");
    trial.say("2,commit,/u2/w/a", "no,5");
    trial.say("2,up,/u2/w/a", "no,5");
    // The entry is readable, but its directory is not writable.
    trial.say("1,add,/u1/a,/rep/b,1", "ok");
    trial.say("2,co,/rep/b,/u2/b", "ok");
    trial.say("2,commit,/u2/b", "no,5");
    trial.say("2,up,/u2/b", "ok");
    trial.say("1,commit,/u1/a", "ok");
}

fn chains(trial: &mut Trial) {
    trial.restart("p,1,1\np,2,2\nr,0,3\nr,3,7\nr,2,7\nl,1,0,oak\nl,2,7,elm\nl,2,2,elm\nend\n");
    trial.say("1,login,0,oak", "ok");
    trial.say("1,mkdir,/u1/d,0700", "ok");
    trial.say("1,add,/u1/d,/rep/a,7", "ok");
    trial.say("1,add,/u1/d,/rep/a/b,3", "ok");
    trial.say("1,add,/u1/d,/rep/c,2", "no,9");
    trial.say("1,co,/rep/a,/u1/w", "ok");
    trial.say("1,read,/u1/w", "ok,b");
    // Role 7 lies below 3 and not above it.
    trial.say("2,login,7,elm", "ok");
    trial.say("2,co,/rep/a/b,/u2/b", "no,5");
    trial.say("2,co,/rep/a,/u2/w", "ok");
    trial.say("2,read,/u2/w", "ok,");
    trial.say("2,add,/u2,/rep/a/d,3", "no,9");
    trial.say("2,login,2,elm", "ok");
    trial.say("2,add,/u2,/rep/a/d,7", "ok");
}

fn forms(trial: &mut Trial) {
    for line in [
        "1,logout,", "1,read,/,", "1,write,/u1/a", "01,read,/", "24,read,/", "1,create,/u1/a,2600", "1,read,/u1/", "1,read,//u1",
        "1,read,u1/", "1,read,", "1,read,/A", "1,chmod,/,1755", "1,chmod,/,755", "1,chmod,/,0758", "1,chgrp,/,25",
        "1,chgrp,/,00", "1,chown,/,24", "1,login,8,oak", "1,login,0,", "1,login,0,Oak", "1,add,/u1,/rep,0", "1,add,/u1,/u1/a,0",
        "1,add,/u1,/rep/a,8", "1,co,/rep,/u1/a", "1,co,/repo/a,/u1/a", "1,del,/rep", "1,del,/", "1,Read,/", "1,read ,/",
        " 1,read,/", "1,read,/\n", "1,read,/\r", "", ",", "1", "1,", "1,cd", "1,log", "1,merge,/u1/a", "16,del,/rep", "22,read",
    ] {
        trial.say(line, "no,1");
    }
    for line in ["16,read,/", "23,logout", "3,read,/", "15,del,/rep/a", "3,login,0,oak"] {
        trial.say(line, "no,2");
    }
    trial.say("1,logout", "ok");
    trial.say("1,chmod,/rep,2750", "no,9");
    trial.say("1,create,/u1/a,0600", "ok");
    trial.say("2,chmod,/u1/a,2600", "no,7");
    trial.say("1,mkdir,/u1/d,2755", "ok");
    trial.say("0,chgrp,/u1/d,24", "ok");
    trial.say("1,create,/u1/d/f,0600", "ok");
    trial.say("1,mkdir,/u1/d/e,0700", "ok");
    trial.listing_line(4, "/u1/d,d,1,24,2755,0,-,0,");
    trial.listing_line(5, "/u1/d/e,d,1,24,0700,0,-,0,");
    trial.listing_line(6, "/u1/d/f,f,1,24,0600,0,-,0,");
}

fn order_of_run(trial: &mut Trial) {
    let broken = trial.broken_store();
    let short = 4095;
    // The line has no form, a stranger's caller, or is good; all give the first of 20, 18, 1, 2.
    for line in ["3,read", "3,read,/", "1,read,/"] {
        trial.raw_run(&broken, line, short, 20);
        trial.raw_run(&broken, line, 4096, 18);
    }
    let sound = trial.store();
    trial.raw_run(&sound, "3,read", short, 20);
    trial.raw_run(&sound, "3,read", 4096, 1);
    trial.raw_run(&sound, "3,read,/none", 4096, 2);
    trial.raw_run(&sound, "3,commit,/none", 4096, 2);
    trial.raw_run(&sound, "1,commit,/none", 4096, 12);
    trial.raw_run(&sound, "1,read,/none", 4096, 3);
}

fn order_of_listing(trial: &mut Trial) {
    let (broken, sound) = (trial.broken_store(), trial.store());
    for n in [0, 3, 4, 1_000_000] {
        trial.raw_listing(&broken, n, 4095, 20);
        trial.raw_listing(&broken, n, 4096, 18);
        trial.raw_listing(&sound, n, 4095, 20);
    }
    trial.raw_listing(&sound, 3, 4096, 0);
    trial.raw_listing(&sound, 4, 4096, 3);
    trial.raw_listing(&sound, usize::MAX, 4096, 3);
}

fn answer_buffers(trial: &mut Trial) {
    let sound = trial.store();
    for length in [0, 1, 4095] {
        trial.raw_run(&sound, "1,read,/", length, 20);
        trial.raw_run(&sound, "1,mkdir,/u1/a,0700", length, 20);
        trial.raw_listing(&sound, 0, length, 20);
    }
    for length in [4096, 4097, 70_000] {
        trial.raw_run(&sound, "1,read,/", length, 0);
        trial.raw_run(&sound, "1,mkdir,/u1/a,0700", length, 0);
        trial.raw_listing(&sound, 0, length, 0);
    }
}

fn order_of_setup(trial: &mut Trial) {
    for length in [0, 1, STORE - 1, STORE + 1] {
        trial.raw_setup(length, "r,3,3\nend\n", 18);
        trial.raw_setup(length, EXAMPLE_SETUP, 18);
    }
    trial.raw_setup(STORE, "r,3,3\nend\n", 17);
    trial.raw_setup(STORE, EXAMPLE_SETUP, 0);
}

fn store_lengths(trial: &mut Trial) {
    for length in [0, 1, 4096, STORE - 1, STORE + 1, 2 * STORE] {
        let mut store = trial.store();
        store.resize(length, 0);
        trial.raw_run(&store, "1,read,/", 4096, 18);
        trial.raw_listing(&store, 0, 4096, 18);
    }
}

fn role_pairs(trial: &mut Trial) {
    trial.setup("r,0,7\nend\n", None);
    trial.setup("r,3,3\nend\n", Some(1));
    trial.setup("r,7,0\nend\n", Some(1));
    trial.setup("r,0,8\nend\n", Some(1));
    trial.setup(&("r,0,7\n".repeat(28) + "end\n"), None);
    trial.setup(&("r,0,7\n".repeat(29) + "end\n"), Some(29));
}

fn setup_lines(trial: &mut Trial) {
    trial.setup("", Some(1));
    trial.setup("end", Some(1));
    trial.setup("end\n", None);
    trial.setup("end\nend\n", Some(2));
    trial.setup("end\n\n", Some(2));
    trial.setup("p,1,1\n", Some(2));
    trial.setup("p,1,1\np,2,2", Some(2));
    trial.setup("p,1,1\n\nend\n", Some(2));
    trial.setup("p,1,1\np,1,2\nend\n", Some(2));
    trial.setup("p,0,1\nend\n", Some(1));
    trial.setup("p,15,15\nend\n", None);
    trial.setup("p,16,1\nend\n", Some(1));
    trial.setup("p,1,16\nend\n", Some(1));
    trial.setup("p,1,1\ng,1,1\ng,1,15\ng,1,15\nend\n", None);
    trial.setup("p,1,1\ng,1,16\nend\n", Some(2));
    trial.setup("p,1,1\ng,0,1\nend\n", Some(2));
    trial.setup("g,1,1\np,1,1\nend\n", Some(1));
    trial.setup("p,1,1\nr,0,1\ng,1,1\nend\n", Some(3));
    trial.setup("l,0,0,oak\nr,0,1\nend\n", Some(2));
    trial.setup("l,1,0,oak\nend\n", Some(1));
    trial.setup("l,0,0,oak\nend\n", None);
    trial.setup(&("l,0,0,oak\n".repeat(32) + "end\n"), None);
    trial.setup(&("l,0,0,oak\n".repeat(33) + "end\n"), Some(33));
    trial.setup("p,01,1\nend\n", Some(1));
    trial.setup("p,1,1\r\nend\n", Some(1));
}
