//! The named cases of commits of directories: which directories, which files are met, and the number. What each file finds at its
//! turn stands in `edges_turns`. Each that is done is also held to its single commits, by `Trial::say`.

use crate::edges::{say_all, Test};
use crate::trial::Trial;

pub const TESTS: [Test; 10] = [
    ("commit of a directory", whole_directory),
    ("commit of a directory: order 20, 18, 1, 2, 19, 12, walk, 5", order),
    ("commit of a directory: r and x", access),
    ("commit of a directory: directories below that cannot be read", unreadable),
    ("commit of a directory: 0", nothing),
    ("commit of a directory: 9 / 10, 99 / 100, 126 files", digits),
    ("commit of a directory: tags on directories", tags),
    ("commit of a directory: /, /rep and homes", places),
    ("commit of a directory: short paths and 6 names", short),
    ("commit of a directory: another person's files", others),
];

/// Person 1, in role 0, makes a file whose content is its path and adds it under a role.
pub fn filed(trial: &mut Trial, path: &str, entry: &str, role: u8) {
    trial.say(&format!("1,create,{path},0600"), "ok");
    trial.say(&format!("1,write,{path},{path}"), "ok");
    trial.say(&format!("1,add,{path},{entry},{role}"), "ok");
}

fn whole_directory(trial: &mut Trial) {
    say_all(trial, &[("1,login,0,oak", "ok"), ("1,mkdir,/u1/d,0700", "ok")]);
    filed(trial, "/u1/d/a", "/rep/a", 1);
    filed(trial, "/u1/d/b", "/rep/b", 0);
    say_all(trial, &[("1,create,/u1/d/c,0640", "ok"), ("1,write,/u1/d/a,pine", "ok"), ("1,write,/u1/d/b,51 32", "ok")]);
    trial.say("1,commit,/u1/d", "ok,2");
    trial.listing(&[
        "/,d,0,0,0755,0,-,0,", "/rep,d,16,24,0750,0,-,0,", "/rep/a,f,17,17,0440,2,-,0,pine", "/rep/b,f,16,16,0440,2,-,0,51 32",
        "/u1,d,1,1,0755,0,-,0,", "/u1/d,d,1,1,0700,0,-,0,", "/u1/d/a,f,1,1,0600,0,/rep/a,2,pine",
        "/u1/d/b,f,1,1,0600,0,/rep/b,2,51 32", "/u1/d/c,f,1,1,0640,0,-,0,", "/u2,d,2,2,0755,0,-,0,",
    ]);
    // What is not altered is committed too, and the tags serve for what comes next.
    say_all(
        trial,
        &[("1,commit,/u1/d", "ok,2"), ("1,commit,/u1/d/a", "ok"), ("1,commit,/u1/d", "ok,2"), ("1,commit,/u1", "ok,2")],
    );
    trial.shows("/rep/a,f,17,17,0440,6,-,0,pine");
    trial.shows("/rep/b,f,16,16,0440,5,-,0,51 32");
    trial.shows("/u1/d/a,f,1,1,0600,0,/rep/a,6,pine");
    trial.shows("/u1/d/b,f,1,1,0600,0,/rep/b,5,51 32");
    // Of a file there is no text.
    say_all(trial, &[("1,commit,/u1/d/b", "ok"), ("1,commit,/u1/d/c", "no,15"), ("1,up,/u1/d", "no,7"), ("1,up,/u1/d/a", "ok")]);
}

fn order(trial: &mut Trial) {
    say_all(trial, &[("1,create,f,0600", "ok"), ("1,mkdir,n,0000", "ok"), ("1,mkdir,d,0700", "ok")]);
    let (broken, sound) = (trial.broken_store(), trial.store());
    for path in ["/u1", "/u1/n", "/", "/rep"] {
        trial.raw_run(&broken, &format!("3,commit,{path}"), 4095, 20);
        trial.raw_run(&broken, &format!("3,commit,{path}"), 4096, 18);
        trial.raw_run(&sound, &format!("3,commit,{path},"), 4096, 1);
        trial.raw_run(&sound, &format!("3,commit,{path}"), 4096, 2);
        trial.raw_run(&sound, &format!("1,commit,{path}"), 4095, 20);
    }
    // 19 of joining, then 12, then the walk, and what the directory itself is asked for comes last.
    let paths = ["/u1/none", "/u1/f/x", "/u1/n/x", "/rep/x", "/u1/n", "/rep", "/u1/d", "/u1", "/"];
    trial.say("1,commit,a/b/c/d/e/f", "no,19");
    for path in paths {
        trial.say(&format!("1,commit,{path}"), "no,12");
    }
    say_all(trial, &[("1,login,0,oak", "ok"), ("1,commit,a/b/c/d/e/f", "no,19")]);
    for (path, wanted) in paths.into_iter().zip(["no,3", "no,4", "no,5", "no,5", "no,5", "no,5", "ok,0", "ok,0", "ok,0"]) {
        trial.say(&format!("1,commit,{path}"), wanted);
    }
    // `up` keeps 7, before w.
    for (path, wanted) in paths.into_iter().zip(["no,3", "no,4", "no,5", "no,5", "no,7", "no,7", "no,7", "no,7", "no,7"]) {
        trial.say(&format!("1,up,{path}"), wanted);
    }
    say_all(trial, &[("1,logout", "ok"), ("1,commit,/u1/d", "no,12"), ("1,up,/u1/d", "no,12")]);
}

/// A setup in which root can log in as well.
pub const WITH_ROOT: &str = "p,1,1\np,2,2\nr,0,1\nl,1,0,oak\nl,2,1,elm\nl,0,0,ash\nend\n";

fn access(trial: &mut Trial) {
    trial.restart(WITH_ROOT);
    say_all(trial, &[("1,login,0,oak", "ok"), ("2,login,1,elm", "ok"), ("1,mkdir,/u1/d,0700", "ok")]);
    trial.say("1,add,/u1/d,/rep/cut,1", "ok");
    filed(trial, "/u1/d/f", "/rep/cut/f", 1);
    trial.say("1,chmod,/u1/d/f,0644", "ok");
    // The owner by the owner's bits alone: r and x, and w is not asked.
    for (mode, wanted) in [("0700", "ok,1"), ("0500", "ok,1"), ("0600", "no,5"), ("0400", "no,5"), ("0300", "no,5")] {
        say_all(trial, &[(&format!("1,chmod,/u1/d,{mode}"), "ok"), ("1,commit,/u1/d", wanted)]);
    }
    for mode in ["0100", "0200", "0000", "0077"] {
        say_all(trial, &[(&format!("1,chmod,/u1/d,{mode}"), "ok"), ("1,commit,/u1/d", "no,5")]);
    }
    // From above the file is not met then, though nothing is refused.
    say_all(trial, &[("1,commit,/u1", "ok,0"), ("1,chmod,/u1/d,0500", "ok"), ("1,commit,/u1", "ok,1")]);
    // Person 2 by the other bits, then as a member of the group by the group's alone.
    for (mode, wanted) in [("0705", "ok,1"), ("0770", "no,5"), ("0704", "no,5"), ("0701", "no,5"), ("0075", "ok,1")] {
        say_all(trial, &[(&format!("1,chmod,/u1/d,{mode}"), "ok"), ("2,commit,/u1/d", wanted)]);
    }
    trial.say("0,chgrp,/u1/d,2", "ok");
    for (mode, wanted) in [("0750", "ok,1"), ("0705", "no,5"), ("0740", "no,5"), ("0710", "no,5"), ("2050", "ok,1")] {
        say_all(trial, &[(&format!("1,chmod,/u1/d,{mode}"), "ok"), ("2,commit,/u1/d", wanted)]);
    }
    // Root needs neither.
    say_all(trial, &[("1,chmod,/u1/d,0000", "ok"), ("0,commit,/u1/d", "no,12"), ("0,login,0,ash", "ok")]);
    say_all(trial, &[("1,chmod,/u1/d/f,0000", "no,5"), ("0,chmod,/u1/d/f,0000", "ok"), ("0,commit,/u1/d", "ok,1")]);
    trial.shows("/u1/d/f,f,1,1,0000,0,/rep/cut/f,9,/u1/d/f");
}

fn unreadable(trial: &mut Trial) {
    say_all(trial, &[("1,login,0,oak", "ok"), ("1,mkdir,/u1/d,0700", "ok"), ("1,mkdir,/u1/d/m,0700", "ok")]);
    trial.say("1,mkdir,/u1/d/m/in,0700", "ok");
    for (path, entry) in [("/u1/d/a", "/rep/a"), ("/u1/d/m/f", "/rep/f"), ("/u1/d/m/in/g", "/rep/g"), ("/u1/d/z", "/rep/z")] {
        filed(trial, path, entry, 0);
    }
    // What comes behind the directory is met, what is below it is not.
    for (mode, wanted) in
        [("0700", "ok,4"), ("0500", "ok,4"), ("0300", "ok,2"), ("0400", "ok,2"), ("0600", "ok,2"), ("0000", "ok,2")]
    {
        say_all(trial, &[(&format!("1,chmod,/u1/d/m,{mode}"), "ok"), ("1,commit,/u1/d", wanted)]);
    }
    // With x their single commits are done all the same, and the directory further down can be named.
    say_all(trial, &[("1,chmod,/u1/d/m,0300", "ok"), ("1,commit,/u1/d/m/f", "ok"), ("1,commit,/u1/d/m", "no,5")]);
    say_all(trial, &[("1,commit,/u1/d/m/in", "ok,1"), ("1,commit,/u1/d/m/in/g", "ok"), ("1,commit,/u1/d", "ok,2")]);
    trial.shows("/rep/a,f,16,16,0440,8,-,0,/u1/d/a");
    trial.shows("/rep/f,f,16,16,0440,4,-,0,/u1/d/m/f");
    trial.shows("/rep/g,f,16,16,0440,5,-,0,/u1/d/m/in/g");
    trial.shows("/rep/z,f,16,16,0440,8,-,0,/u1/d/z");
    // One that can be read and has one that cannot.
    say_all(trial, &[("1,chmod,/u1/d/m,0500", "ok"), ("1,chmod,/u1/d/m/in,0300", "ok"), ("1,commit,/u1/d", "ok,3")]);
    say_all(trial, &[("1,commit,/u1", "ok,3"), ("1,commit,/u1/d/m", "ok,1"), ("1,commit,/u1/d/m/in", "no,5")]);
    // Another's: by the other bits, and it is r and x again.
    say_all(trial, &[("0,chown,/u1/d/m,2", "ok"), ("0,chgrp,/u1/d/m,2", "ok"), ("1,commit,/u1/d", "ok,2")]);
    for (mode, wanted) in [("0005", "ok,3"), ("0774", "ok,2"), ("0771", "ok,2"), ("0775", "ok,3")] {
        say_all(trial, &[(&format!("0,chmod,/u1/d/m,{mode}"), "ok"), ("1,commit,/u1/d", wanted)]);
    }
}

fn nothing(trial: &mut Trial) {
    say_all(trial, &[("1,login,0,oak", "ok"), ("1,commit,/u1", "ok,0"), ("1,commit,/u2", "ok,0"), ("1,commit,/", "ok,0")]);
    say_all(trial, &[("1,mkdir,/u1/d,0700", "ok"), ("1,commit,/u1/d", "ok,0"), ("1,mkdir,/u1/d/e,0700", "ok")]);
    say_all(trial, &[("1,mkdir,/u1/d/e/f,0000", "ok"), ("1,commit,/u1/d", "ok,0"), ("1,commit,/u1/d/e", "ok,0")]);
    say_all(trial, &[("1,commit,/u1/d/e/f", "no,5"), ("1,create,/u1/d/g,0600", "ok"), ("1,commit,/u1/d", "ok,0")]);
    filed(trial, "/u1/d/h", "/rep/h", 0);
    say_all(trial, &[("1,del,/rep/h", "ok"), ("1,commit,/u1/d", "ok,0"), ("1,commit,/u1/d/h", "no,3")]);
    trial.listing(&[
        "/,d,0,0,0755,0,-,0,", "/rep,d,16,24,0750,0,-,0,", "/u1,d,1,1,0755,0,-,0,", "/u1/d,d,1,1,0700,0,-,0,",
        "/u1/d/e,d,1,1,0700,0,-,0,", "/u1/d/e/f,d,1,1,0000,0,-,0,", "/u1/d/g,f,1,1,0600,0,-,0,",
        "/u1/d/h,f,1,1,0600,0,/rep/h,1,/u1/d/h", "/u2,d,2,2,0755,0,-,0,",
    ]);
}

/// Up to all 256 nodes: four stand, and each file with its entry makes two.
fn digits(trial: &mut Trial) {
    trial.say("1,login,0,oak", "ok");
    for n in 1..=126 {
        trial.say(&format!("1,create,/u1/n{n},0600"), "ok");
        trial.say(&format!("1,add,/u1/n{n},/rep/n{n},1"), "ok");
        if [1, 9, 10, 11, 99, 100, 101, 125, 126].contains(&n) {
            trial.say("1,commit,/u1", &format!("ok,{n}"));
        }
    }
    say_all(trial, &[("1,create,/u1/x,0600", "no,10"), ("1,commit,/", "ok,126"), ("1,commit,/u1/n9", "ok")]);
    trial.shows("/rep/n1,f,17,17,0440,11,-,0,");
    trial.shows("/rep/n9,f,17,17,0440,11,-,0,");
    trial.shows("/rep/n126,f,17,17,0440,3,-,0,");
    say_all(trial, &[("1,del,/rep/n126", "ok"), ("1,commit,/u1", "ok,125"), ("1,chmod,/u1/n1,0000", "ok")]);
    say_all(trial, &[("1,commit,/u1", "ok,124"), ("1,commit,/u2", "ok,0")]);
}

fn tags(trial: &mut Trial) {
    say_all(trial, &[("1,login,0,oak", "ok"), ("1,mkdir,/u1/d,0700", "ok"), ("1,add,/u1/d,/rep/d,0", "ok")]);
    filed(trial, "/u1/d/f", "/rep/d/f", 0);
    // A good tag, a missing entry's, one of another revision, and one that leads to a file: the directory's own has no part.
    say_all(trial, &[("1,commit,/u1/d", "ok,1"), ("1,up,/u1/d", "no,7"), ("1,del,/rep/d/f", "ok"), ("1,del,/rep/d", "ok")]);
    filed(trial, "/u1/d/g", "/rep/g", 0);
    say_all(trial, &[("1,commit,/u1/d", "ok,1"), ("1,up,/u1/d", "no,7")]);
    filed(trial, "/u1/h", "/rep/d", 0);
    say_all(trial, &[("1,commit,/u1/d", "ok,1"), ("1,up,/u1/d", "no,7"), ("1,commit,/u1/d/f", "no,4")]);
    trial.shows("/rep/d,f,16,16,0440,1,-,0,/u1/h");
    trial.shows("/rep/g,f,16,16,0440,3,-,0,/u1/d/g");
    trial.shows("/u1/d,d,1,1,0700,0,/rep/d,1,");
    say_all(trial, &[("1,commit,/u1/h", "ok"), ("1,commit,/u1/d", "ok,1"), ("1,up,/u1/d", "no,7")]);
    trial.shows("/u1/d,d,1,1,0700,0,/rep/d,1,");
    // Nor have those of directories below, of which none is committed.
    say_all(trial, &[("1,mkdir,/u1/d/e,0700", "ok"), ("1,add,/u1/d/e,/rep/e,0", "ok"), ("1,mkdir,/u1/d/i,0700", "ok")]);
    say_all(trial, &[("1,commit,/u1/d/e", "ok,0"), ("1,commit,/u1/d", "ok,1"), ("1,commit,/u1", "ok,2")]);
    trial.shows("/rep/e,d,16,16,0770,1,-,0,");
    trial.shows("/u1/d/e,d,1,1,0700,0,/rep/e,1,");
}

fn places(trial: &mut Trial) {
    say_all(trial, &[("1,login,0,oak", "ok"), ("2,login,1,elm", "ok"), ("1,commit,/", "ok,0"), ("1,commit,/rep", "no,5")]);
    filed(trial, "/u1/f", "/rep/f", 0);
    filed(trial, "/u1/g", "/rep/g", 0);
    say_all(trial, &[("2,co,/rep/g,/u2/g", "no,5"), ("1,commit,/", "ok,2"), ("1,commit,/u1", "ok,2"), ("2,commit,/", "ok,0")]);
    // What lies below `/rep` is not met by who cannot read it.
    say_all(trial, &[("0,add,/u1/f,/rep/h,0", "no,12"), ("1,commit,/rep", "no,5"), ("1,commit,/rep/f", "no,5")]);
    // Where root lets people read it, its files are met, and have no tags.
    say_all(trial, &[("0,chmod,/rep,0755", "ok"), ("1,commit,/rep", "ok,0"), ("1,commit,/rep/f", "no,5")]);
    say_all(
        trial,
        &[("0,chmod,/rep/f,0444", "ok"), ("1,commit,/rep/f", "no,15"), ("1,commit,/rep", "ok,0"), ("1,commit,/", "ok,2")],
    );
    // A walk of `/` asks nothing; that it can be read is asked.
    for mode in ["0711", "0744"] {
        say_all(trial, &[(&format!("0,chmod,/,{mode}"), "ok"), ("1,commit,/", "no,5")]);
    }
    say_all(trial, &[("1,commit,/u1", "no,5"), ("0,chmod,/,0711", "ok"), ("1,commit,/u1", "ok,2"), ("0,chmod,/,0755", "ok")]);
    // A home that cannot be read is 5 by name, and passed from above.
    say_all(trial, &[("1,chmod,/u1,0300", "ok"), ("1,commit,/u1", "no,5"), ("1,commit,/", "ok,0"), ("1,commit,/u1/f", "ok")]);
    say_all(trial, &[("1,chmod,/u1,0700", "ok"), ("1,commit,/", "ok,2"), ("2,commit,/", "ok,0"), ("2,commit,/u1", "no,5")]);
    trial.shows("/rep/f,f,16,16,0444,7,-,0,/u1/f");
    trial.shows("/rep/g,f,16,16,0440,6,-,0,/u1/g");
}

fn short(trial: &mut Trial) {
    trial.say("1,login,0,oak", "ok");
    for path in ["a", "a/b", "a/b/c", "a/b/c/d"] {
        trial.say(&format!("1,mkdir,{path},0700"), "ok");
    }
    filed(trial, "/u1/a/b/c/d/f", "/rep/f", 0);
    filed(trial, "/u1/a/b/g", "/rep/g", 0);
    say_all(trial, &[("1,commit,a", "ok,2"), ("1,commit,a/b", "ok,2"), ("1,commit,a/b/c", "ok,1"), ("1,commit,a/b/c/d", "ok,1")]);
    say_all(trial, &[("1,commit,a/b/c/d/f", "ok"), ("1,commit,a/b/c/d/e", "no,3"), ("1,commit,a/b/c/d/f/f", "no,19")]);
    say_all(trial, &[("1,cd,a/b", "ok"), ("1,commit,c", "ok,1"), ("1,commit,b", "no,3"), ("1,commit,g/x", "no,4")]);
    say_all(trial, &[("1,commit,/u1/a", "ok,2"), ("1,commit,c/d/f/f", "no,19"), ("1,cd,c/d", "ok"), ("1,commit,f", "ok")]);
    // Root stands at `/`; a kept path that has gone is met by the walk, and the same at another place serves.
    say_all(trial, &[("0,commit,u1", "no,12"), ("1,mv,/u1/a,/u1/z", "ok"), ("1,commit,f", "no,3"), ("1,commit,/u1", "ok,2")]);
    say_all(trial, &[("1,cd,/", "ok"), ("1,commit,u1/z", "ok,2"), ("1,commit,rep", "no,5"), ("1,commit,u2", "ok,0")]);
    trial.shows("/rep/f,f,16,16,0440,11,-,0,/u1/a/b/c/d/f");
    trial.shows("/rep/g,f,16,16,0440,6,-,0,/u1/a/b/g");
}

fn others(trial: &mut Trial) {
    say_all(
        trial,
        &[("1,login,0,oak", "ok"), ("2,login,1,elm", "ok"), ("1,mkdir,/u1/d,0755", "ok"), ("1,add,/u1/d,/rep/d,1", "ok")],
    );
    for name in ["a", "b", "c"] {
        filed(trial, &format!("/u1/d/{name}"), &format!("/rep/d/{name}"), 1);
    }
    // r on each file is asked of who commits; w is not, and yet the file's tag is renewed.
    say_all(trial, &[("2,commit,/u1/d", "ok,0"), ("1,chmod,/u1/d/a,0604", "ok"), ("1,chmod,/u1/d/c,0044", "ok")]);
    say_all(trial, &[("2,commit,/u1/d", "ok,2"), ("1,commit,/u1/d", "ok,2"), ("2,write,/u1/d/a,", "no,5")]);
    trial.shows("/u1/d/a,f,1,1,0604,0,/rep/d/a,3,/u1/d/a");
    trial.shows("/u1/d/b,f,1,1,0600,0,/rep/d/b,2,/u1/d/b");
    trial.shows("/u1/d/c,f,1,1,0044,0,/rep/d/c,2,/u1/d/c");
    // Both have copies: who comes first makes the other's stale.
    say_all(
        trial,
        &[("2,co,/rep/d,/u2/d", "ok"), ("2,commit,/u2/d", "ok,3"), ("1,commit,/u1/d", "ok,0"), ("2,commit,/u1", "ok,0")],
    );
    say_all(trial, &[("1,up,/u1/d/b", "ok"), ("1,commit,/u1/d", "ok,1"), ("2,commit,/u2", "ok,2"), ("1,logout", "ok")]);
    say_all(trial, &[("1,commit,/u1/d", "no,12"), ("2,commit,/u1/d", "ok,0"), ("2,commit,/", "ok,2")]);
}
