//! Short stories with random details that surely bring up every pair of call and number. Those of directories' commits stand
//! in `stories_commits`.

use crate::layout::STORE;
use crate::library::{self, Answer, NO_VALUE};
use crate::model::line::path;
use crate::model::run::LEAST_ANSWER;
use crate::model::state::{LAST_REVISION, MOST_NODES};
use crate::rng::Rng;
use crate::stories_commits;
use crate::twin::{differ, unlike, Bench, Twin};

/// Who plays: persons `a` (role 0) and `b` (role `j`), a stranger who is no person, and names that differ.
pub struct Cast {
    a: usize,
    b: usize,
    stranger: usize,
    ga: usize,
    gb: usize,
    j: usize,
    names: Vec<String>,
    word: String,
}

impl Cast {
    pub fn new(rng: &mut Rng) -> Cast {
        let mut uids: Vec<usize> = (1..=15).collect();
        rng.shuffle(&mut uids);
        let mut gids: Vec<usize> = (1..=15).collect();
        rng.shuffle(&mut gids);
        let names = (0..12).map(|n| random_name(rng, n)).collect();
        Cast {
            a: uids[0],
            b: uids[1],
            stranger: if rng.percent(50) { uids[2] } else { rng.within(16, 23) },
            ga: gids[0],
            gb: gids[1],
            j: rng.within(1, 7),
            names,
            word: random_name(rng, 0),
        }
    }

    fn setup(&self) -> String {
        let Cast { a, b, ga, gb, j, word, .. } = self;
        format!("p,{a},{ga}\np,{b},{gb}\nr,0,{j}\nl,{a},0,{word}\nl,{b},{j},{word}\nl,0,0,{word}\nend\n")
    }

    /// Puts the players into a template: `A` and `B` uids, `X` the stranger, `J` the role, `G` and `H` their groups,
    /// `W` the password, `#0` to `#9` names, `D` a short path of six names, too deep for a person at home.
    pub fn line(&self, template: &str) -> Vec<u8> {
        let mut line = template.replace('D', "#0/#1/#2/#3/#4/#5");
        for n in 0..10 {
            line = line.replace(&format!("#{n}"), &self.names[n]);
        }
        line = line.replace('A', &self.a.to_string()).replace('B', &self.b.to_string());
        line = line.replace('X', &self.stranger.to_string()).replace('J', &self.j.to_string());
        line = line.replace('G', &self.ga.to_string()).replace('H', &self.gb.to_string());
        line.replace('W', &self.word).into_bytes()
    }
}

/// A name of 1 to 8 bytes that ends with a letter of its own.
fn random_name(rng: &mut Rng, n: usize) -> String {
    let mut name: String = (0..rng.below(8)).map(|_| char::from(*rng.pick(b"abcxyz0189_"))).collect();
    name.push(char::from(b'a' + n as u8));
    name
}

const FORMS: &[&str] = &[
    "create,/#0,0600", "mkdir,/#0,0700", "read,/", "write,/#0,#1", "rm,/#0", "rmdir,/#0", "mv,/#0,/#1", "chmod,/,0755",
    "chgrp,/,0", "chown,/,0", "cd,/", "login,0,W", "logout", "add,/#0,/rep/#0,0", "co,/rep/#0,/#1", "commit,/#0", "up,/#0",
    "del,/rep/#0",
];

const SHELL: &[&str] = &[
    "A,mkdir,/uA/#0,0700", "A,create,/uA/#1,0600", "A,create,/uA/#0,0600", "A,create,/,0600", "A,create,/uA/#2/#3,0600",
    "A,create,/uA/#1/#3,0600", "B,create,/uA/#3,0600", "A,mkdir,/uA/#0,0700", "A,mkdir,/,0700", "A,mkdir,/uA/#2/#3,0700",
    "A,mkdir,/uA/#1/#3,0700", "B,mkdir,/uA/#3,0700", "A,read,/uA/#1", "A,read,/uA", "A,read,/uA/#2", "A,read,/uA/#1/#3",
    "B,read,/uA/#1", "A,write,/uA/#1,#5 #6", "A,write,/uA/#2,", "A,write,/uA/#1/#3,", "B,write,/uA/#1,", "A,write,/uA,",
    "A,rm,/uA/#2", "A,rm,/uA/#1/#3", "B,rm,/uA/#1", "A,rm,/uA/#0", "A,rm,/", "A,rm,/rep", "A,rmdir,/uA/#2", "A,rmdir,/uA/#1/#3",
    "B,rmdir,/uA/#0", "A,rmdir,/uA/#1", "A,create,/uA/#0/#4,0600", "A,rmdir,/uA/#0", "B,rmdir,/uA/#0", "A,rmdir,/",
    "A,rmdir,/rep", "A,mv,/uA/#2,/uA/#3", "A,mv,/uA/#1/#2,/uA/#3", "B,mv,/uA/#1,/uB/#1", "A,mv,/uA/#1,/uA/#0", "A,mv,/,/uA/#2",
    "A,mv,/uA/#0,/rep", "A,mv,/uA/#0,/uA/#0/#5", "A,mv,/uA/#0,/uA/#0", "A,mkdir,/uA/#6,0700", "A,mkdir,/uA/#6/#7,0700",
    "A,mkdir,/uA/#6/#7/#8,0700", "A,mkdir,/uA/#6/#7/#8/#9,0700", "A,mv,/uA/#0,/uA/#6/#7/#8/#9/#0", "A,mv,/uA/#0,/uA/#6/#7/#8/#0",
    "A,mv,/uA/#6/#7/#8/#0,/uA/#0", "A,chmod,/uA/#1,0644", "A,chmod,/uA/#2,0644", "A,chmod,/uA/#1/#2,0644",
    "B,chmod,/uA/#0/#4,0644", "A,chmod,/uA/#1,2644", "B,chmod,/uA/#1,2644", "B,chmod,/uA/#1,0644", "A,chmod,/uA/#0,2700",
    "A,create,/uA/#0/#5,0600", "A,chgrp,/uA/#1,G", "A,chgrp,/uA/#2,G", "A,chgrp,/uA/#1/#2,G", "B,chgrp,/uA/#0/#4,H",
    "B,chgrp,/uA/#1,H", "A,chgrp,/uA/#1,H", "0,chown,/uA/#1,B", "0,chown,/uA/#2,B", "0,chown,/uA/#1/#2,B", "B,chown,/uA/#0/#4,B",
    "A,chown,/uA/#1,A", "A,rm,/uA/#1", "A,rm,/uA/#0/#4", "A,rm,/uA/#0/#5", "A,rmdir,/uA/#0",
];

const REPOSITORY: &[&str] = &[
    "A,add,/uA,/rep/#0,0", "A,co,/rep/#0,/uA/#1", "A,commit,/uA", "A,up,/uA", "A,del,/rep/#0", "A,login,J,W", "A,login,0,W_",
    "A,login,0,W", "B,logout", "B,login,J,W", "A,mkdir,/uA/#0,0700", "A,create,/uA/#1,0600", "A,create,/uA/#2,0000",
    "A,create,/uA/#3,0600", "B,create,/uB/#0,0600", "A,add,/uA/#1,/rep/#1,J", "A,add,/uA/#0,/rep/#0,0", "A,write,/uA/#1,#4",
    "A,add,/uA/#1,/rep/#0/#1,0", "A,add,/uA/#4,/rep/#4,0", "A,add,/uA/#1/#4,/rep/#4,0", "A,add,/uA/#2,/rep/#4,0",
    "A,add,/uA/#1,/rep/#1,J", "B,add,/uB/#0,/rep/#4,0", "A,co,/rep/#0,/uA/#5", "A,co,/rep/#4,/uA/#6", "A,co,/rep/#1/#4,/uA/#6",
    "B,co,/rep/#0,/uB/#5", "A,co,/rep/#0,/uA/#5", "A,mkdir,/uA/#6,0700", "A,mkdir,/uA/#6/#7,0700", "A,mkdir,/uA/#6/#7/#8,0700",
    "A,mkdir,/uA/#6/#7/#8/#9,0700", "A,co,/rep/#0,/uA/#6/#7/#8/#9/#0", "A,commit,/uA/#1", "A,commit,/uA/#4",
    "A,commit,/uA/#1/#4", "A,commit,/uA/#2", "A,commit,/uA/#0", "A,commit,/uA/#3", "A,commit,/uA/#5/#1", "A,up,/uA/#5/#1",
    "A,commit,/uA/#5/#1", "A,up,/uA/#4", "A,up,/uA/#1/#4", "A,up,/uA/#2", "A,up,/uA/#0", "A,up,/uA/#3", "A,del,/rep/#4",
    "A,del,/rep/#1/#4", "B,del,/rep/#0/#1", "A,del,/rep/#0", "A,del,/rep/#0/#1", "A,commit,/uA/#1", "A,add,/uA/#1,/rep/#0/#1,0",
    "B,co,/rep/#1,/uB/#5", "B,commit,/uB/#5", "B,del,/rep/#1",
];

const ROOT: &[&str] = &[
    "0,login,0,W", "A,login,0,W", "0,create,/#0,0600", "0,mkdir,/#1,2777", "0,chgrp,/#1,H", "0,add,/,/rep/#1,0",
    "0,add,/#0,/rep/#0,J",
    // What root brings below `/rep` has revision 0; out of it, an entry keeps its own.
    "0,mv,/#0,/rep/#1/#0", "A,co,/rep/#1,/#1/#2", "0,chown,/rep/#1/#0,16", "A,co,/rep/#1,/#1/#3", "A,write,/#1/#3/#0,#5",
    "A,commit,/#1/#3/#0", // The working file and the entry are one node.
    "0,write,/rep/#1/#0,#6", "0,mv,/rep/#0,/#4", "0,mv,/rep/#1/#0,/rep/#0", "0,commit,/rep/#0", "0,up,/rep/#0",
    "0,add,/rep/#0,/rep/#5,0", "0,mv,/rep/#5,/rep/#6", "0,commit,/rep/#0", "0,mv,/rep/#6,/rep/#5", "0,commit,/rep/#0",
    // Copies below what is copied, and a directory into itself.
    "0,mkdir,/rep/#1/#7,0777", "0,create,/rep/#1/#7/#0,0444", "0,co,/rep/#1,/rep/#1/#7/#8", "0,co,/rep/#1,/rep/#1/#9",
    "0,mv,/rep/#1,/rep/#1/#7/#2", // The account's walks start at `/`, and `/rep` itself can be changed.
    "0,chmod,/,0700", "A,login,0,W", "A,co,/rep/#1,/#1/#8", "0,co,/rep/#1,/#1/#8", "0,chmod,/,0755", "0,chmod,/rep,0777",
    "B,login,J,W", "B,create,/uB/#0,0600", "B,add,/uB/#0,/rep/#8,J", "0,chown,/rep,B", "0,chgrp,/rep,H", "0,chmod,/rep,0070",
    "B,del,/rep/#8", "A,del,/rep/#8",
];

/// `cd` itself, then each command with a joined path that is too deep, for `mv` at either place.
const TOO_DEEP: &[&str] = &[
    "A,mkdir,#0,0700", "A,create,#1,0600", "A,mkdir,#2,0600", "A,cd,#3", "A,cd,#1", "A,cd,#1/#3", "A,cd,#2", "A,cd,D",
    "A,cd,D/#6", "B,cd,/uA/#0", "A,cd,/rep", "B,cd,/uA", "B,read,#1", "B,create,#3,0600", "B,cd,/", "A,create,D,0600",
    "A,mkdir,D,0700", "A,read,D", "A,write,D,", "A,rm,D", "A,rmdir,D", "A,mv,D,#9", "A,mv,#1,D", "A,mv,D,D", "A,mv,/,D",
    "A,mv,D,/rep", "A,chmod,D,0600", "A,chgrp,D,G", "A,chown,D,A", "A,add,D,/rep/#0,0", "A,co,/rep/#0,D", "A,commit,D", "A,up,D",
    "X,read,D", "0,read,D", "0,commit,D", "A,add,#1,/rep/#1,0", "A,login,0,W", "A,commit,D", "A,co,/rep/#1,D",
    "A,add,D,/rep/#1,J", "A,up,D", "A,add,#1,rep/#1,0", "A,co,rep/#1,#9", "A,del,rep/#1",
];

/// Work below the working directory.
const BELOW: &[&str] = &[
    "A,login,0,W", "A,mkdir,#0,0700", "A,create,#1,0600", "A,add,#1,/rep/#1,0", "A,cd,#0", "A,co,/rep/#1,#6", "A,write,#6,#7",
    "A,commit,#6", "A,up,#6", "A,chmod,#6,0640", "A,chgrp,#6,G", "0,chown,uA/#0/#6,A", "A,mv,#6,#7", "A,mv,/uA/#1,#6",
    "A,mv,#6,/uA/#1", "A,read,/uA/#0", "A,mkdir,#6,0700", "A,mv,#6,#6/#8", "A,mv,#6,#7", "A,rmdir,#6", "A,logout", "A,commit,#7",
    "A,rm,#7",
];

/// The working directory goes, gives way to a file, comes back, is moved away, and lets nobody in.
const GONE: &[&str] = &[
    "A,mkdir,#0,0700", "A,cd,#0", "A,rmdir,/uA/#0", "A,create,#4,0600", "A,cd,#4", "A,create,/uA/#0,0600", "A,read,#4",
    "A,cd,#4", "A,rm,/uA/#0", "A,mkdir,/uA/#0,0700", "A,create,#4,0600", "A,mv,/uA/#0,/uA/#8", "A,read,#4", "A,cd,/uA/#8",
    "A,read,#4", "A,chmod,/uA/#8,0600", "A,read,#4", "0,cd,uA/#8", "0,read,#4",
];

/// Reserved names are those of the joined path.
const RESERVED: &[&str] = &[
    "A,cd,/", "A,rm,rep", "A,rmdir,rep", "A,mv,rep,#9", "A,mv,uA,rep", "A,cd,rep", "A,create,rep,0600", "0,mkdir,rep,0700",
    "0,rmdir,rep", "A,cd,uA", "A,mkdir,rep,0700", "A,mv,rep,#9", "A,mv,#9,rep", "A,rmdir,rep", "0,cd,/rep", "0,create,#9,0444",
    "0,cd,#9", "0,rm,#9", "0,rmdir,/rep",
];

/// Files saved over files and onto themselves, the kinds that may not be, who may not, and root in the repository.
const ONTO: &[&str] = &[
    "A,login,0,W", "A,create,#1,0600", "A,create,#2,0640", "A,write,#1,#5", "A,add,#2,/rep/#2,0", "A,mv,#1,#2", "A,commit,#2",
    "A,co,/rep/#2,#1", "A,write,#1,#6", "A,mv,#1,#2", "A,commit,#2", "A,mv,#2,#2", "A,mv,/uA/#2,#2", "A,commit,#2",
    "A,mkdir,#0,0700", "A,create,#0/#3,0600", "A,mkdir,#0/#4,0700", "A,mv,#0,#2", "A,mv,#2,#0", "A,mv,#0,#0", "A,mv,#0,#0/#3",
    "A,mv,#0,#0/#4", "A,mv,#0/#3,#0", "A,mv,#0/#4,#0/#3", "A,mv,#2,#2/#3", "A,create,#1,0600", "B,mv,/uA/#1,/uA/#2",
    "B,mv,/uA/#2,/uA/#1", "B,mv,/uA/#2,/uA/#2", "B,mv,/uA/#0,/uA/#2", "B,mv,/uA/#2,/uA/#0", "B,mv,/uA/#1,/uA/#0/#3",
    "B,mv,/uA/#1,/uA/#0/#4", "B,mv,/uA/#0,/uA/#0/#3", "A,chmod,#0,0500", "A,mv,#1,#0/#3", "A,mv,#0/#3,#1", "A,mv,#0/#3,#0/#3",
    "A,mv,#0/#4,#1", "A,chmod,#0,2770", "0,chgrp,uA/#0,H", "A,mv,#2,#0/#3", "A,commit,#0/#3", "A,mv,#0/#3,#1",
    // What root brings onto an entry is the entry, and the other way round.
    "B,create,/uB/#5,0644", "0,mv,/uB/#5,/rep/#2", "A,commit,#1", "A,up,#1", "A,commit,#1", "0,mv,/rep/#2,/uA/#1", "A,commit,#1",
    "0,mv,/uA/#1,/rep", "A,mv,#1,/rep/#2",
];

/// Runs every story once.
pub fn tell(bench: &mut Bench) {
    for story in [SHELL, REPOSITORY, ROOT, TOO_DEEP, BELOW, GONE, RESERVED, ONTO] {
        let cast = Cast::new(&mut bench.rng);
        play(bench, &cast, story);
    }
    stories_commits::tell(bench);
    let wrong = Cast::new(&mut bench.rng).setup().replace("\nr,0,", "\nr,8,");
    Twin::set_up(bench, wrong.as_bytes());
    forms(bench);
    spent(bench);
    full(bench);
    unsound(bench);
}

/// Plays the lines of a story from a fresh store.
pub fn play(bench: &mut Bench, cast: &Cast, story: &[&str]) -> Twin {
    let mut twin = Twin::set_up(bench, cast.setup().as_bytes()).expect("a story's setup is good");
    for template in story {
        twin.run_with(bench, &cast.line(template), LEAST_ANSWER);
    }
    twin.check_listing(bench);
    twin
}

/// Each command with a stranger (2) and with one field too many (1), and lines without a command's word.
fn forms(bench: &mut Bench) {
    let cast = Cast::new(&mut bench.rng);
    let mut twin = play(bench, &cast, &["A,walk,/", "A", "", "A,", ",read,/"]);
    for form in FORMS {
        for template in [format!("X,{form}"), format!("A,{form},#3"), format!("X,{form},"), format!("A ,{form}")] {
            twin.run_with(bench, &cast.line(&template), LEAST_ANSWER);
        }
    }
}

/// A revision brought to 9998 or 9999 by patching it into both states, then commits.
fn spent(bench: &mut Bench) {
    let cast = Cast::new(&mut bench.rng);
    let mut twin = play(bench, &cast, &["A,login,0,W", "A,create,/uA/#0,0600", "A,add,/uA/#0,/rep/#0,0"]);
    let working = path(&cast.line("/uA/#0")).expect("a path");
    let entry = path(&cast.line("/rep/#0")).expect("a path");
    twin.patch(bench, |state| {
        state.node_mut(&entry).revision = LAST_REVISION - 1;
        state.node_mut(&working).tag.as_mut().expect("a tag").revision = LAST_REVISION - 1;
    });
    let commits = [
        "A,commit,/uA/#0", "A,commit,/uA/#0", "A,commit,/uA", "A,up,/uA/#0", "A,co,/rep/#0,/uA/#1", "A,commit,/uA/#1",
        "A,commit,/uA",
    ];
    for template in commits {
        twin.run_with(bench, &cast.line(template), LEAST_ANSWER);
    }
}

/// The store filled to 256 nodes, and what would pass it.
fn full(bench: &mut Bench) {
    let cast = Cast::new(&mut bench.rng);
    let begin = ["A,login,0,W", "A,mkdir,/uA/#0,0700", "A,add,/uA/#0,/rep/#0,0", "A,create,/uA/#7,0600", "A,create,/uA/#8,0600"];
    let mut twin = play(bench, &cast, &begin);
    // Bounded, so that a library that refuses too early does not keep this from ending.
    for n in 0..MOST_NODES {
        if twin.model.nodes.len() == MOST_NODES {
            break;
        }
        let (caller, kind) = *bench.rng.pick(&[("A", "mkdir"), ("0", "mkdir"), ("A", "create"), ("0", "create")]);
        twin.run_with(bench, &cast.line(&format!("{caller},{kind},/uA/{n}_n,0700")), LEAST_ANSWER);
    }
    let over = [
        "A,create,/uA/#1,0600", "A,mkdir,/uA/#1,0700", "A,add,/uA/#0,/rep/#1,0", "A,co,/rep/#0,/uA/#1", "A,rmdir,/uA/#0",
        "A,co,/rep/#0,/uA/#1", "A,create,/uA/#2,0600", "A,mv,/uA/#1,/uA/#2", "A,del,/rep/#0", "A,add,/uA/#2,/rep/#0,J",
        // A file onto itself makes no room, onto another one it does.
        "A,mv,/uA/#8,/uA/#8", "A,mkdir,/uA/#6,0700", "A,mv,/uA/#8,/uA/#7", "A,create,/uA/#8,0600", "A,create,/uA/#9,0600",
    ];
    for template in over {
        twin.run_with(bench, &cast.line(template), LEAST_ANSWER);
    }
    twin.check_listing(bench);
}

/// Buffers of wrong length, a damaged store and short answer buffers, for all three calls.
fn unsound(bench: &mut Bench) {
    let cast = Cast::new(&mut bench.rng);
    let mut twin = play(bench, &cast, &[]);
    for length in [0, bench.rng.below(LEAST_ANSWER), LEAST_ANSWER - 1] {
        twin.run_with(bench, &cast.line("A,mkdir,/uA/#0,0700"), length);
        let mut buffer = bench.answer_buffer(length);
        let before = buffer.clone();
        let answer = library::listing(&twin.store, 0, &mut buffer);
        bench.table.note("listing", answer.number);
        let problem = differ(answer, Answer { number: 20, value: NO_VALUE }).or(unlike(&buffer, &before, "answer buffer"));
        bench.tally.check(problem.map(|what| format!("listing with a short answer buffer: {what}")));
    }
    let mut damaged = twin.store.clone();
    damaged[STORE - 1 - bench.rng.below(50)] = 1;
    let short = twin.store[..STORE - 1].to_vec();
    let long = [&twin.store[..], &[0]].concat();
    for (mut store, set_up_too) in [(damaged, false), (short, true), (long, true), (Vec::new(), true)] {
        refused_18(bench, &mut store, &cast, set_up_too);
    }
}

/// All calls refuse a store with 18 and leave both buffers.
fn refused_18(bench: &mut Bench, store: &mut [u8], cast: &Cast, set_up_too: bool) {
    let before = store.to_vec();
    let mut buffer = bench.answer_buffer(LEAST_ANSWER);
    let buffer_before = buffer.clone();
    let run = library::run(store, &cast.line("A,read,/"), &mut buffer);
    bench.table.note("run", run.number);
    let listing = library::listing(store, 0, &mut buffer);
    bench.table.note("listing", listing.number);
    let mut answers = vec![run, listing];
    if set_up_too {
        let setup = library::setup(store, cast.setup().as_bytes());
        bench.table.note("setup", setup.number);
        answers.push(setup);
    }
    for answer in answers {
        let problem = differ(answer, Answer { number: 18, value: NO_VALUE });
        bench.tally.check(problem.map(|what| format!("unsound store of {} bytes: {what}", before.len())));
    }
    bench.tally.check(unlike(store, &before, "unsound store").or(unlike(&buffer, &buffer_before, "answer buffer")));
}
