//! The named cases of moves onto what is there.

use crate::edges::{say_all, Test};
use crate::trial::Trial;

pub const TESTS: [Test; 14] = [
    ("mv onto a file", replaces),
    ("mv onto: kinds 6 / 7", kinds),
    ("mv onto: order 20, 18, 1, 2, 9, 3, 4, 5 of the walks, 6, 7", order_of_walks),
    ("mv onto: order 6, 7, 5, 11, 19", order_of_kinds),
    ("mv onto: w on each directory", directories),
    ("mv onto: nothing is asked of the files", files),
    ("mv of a file onto itself", itself),
    ("mv onto: the replaced file's tag goes", tag_goes),
    ("mv onto: the moved file's tag comes along", tag_comes),
    ("mv onto: node 256 / 257", nodes),
    ("mv onto with short paths", short),
    ("mv onto at 6 names", deep),
    ("mv onto: root, into /rep and out", root),
    ("mv onto: names before, after and between", places),
];

fn replaces(trial: &mut Trial) {
    say_all(trial, &[("1,create,/u1/a,0640", "ok"), ("1,write,/u1/a,new", "ok"), ("1,create,/u1/b,0604", "ok")]);
    say_all(trial, &[("1,write,/u1/b,old", "ok"), ("1,mv,/u1/a,/u1/b", "ok"), ("1,read,/u1/b", "ok,new")]);
    say_all(trial, &[("1,read,/u1/a", "no,3"), ("1,read,/u1", "ok,b"), ("1,mv,/u1/a,/u1/b", "no,3")]);
    trial.listing_line(3, "/u1/b,f,1,1,0640,0,-,0,new");
    // Owner, group and mode are those of the moved file; a directory with set-gid gives it no group.
    say_all(trial, &[("1,mkdir,/u1/d,2777", "ok"), ("0,chgrp,/u1/d,24", "ok"), ("2,create,/u1/d/f,0604", "ok")]);
    say_all(trial, &[("1,write,/u1/d/f,", "no,5"), ("1,mv,/u1/b,/u1/d/f", "ok"), ("2,create,/u2/c,0000", "ok")]);
    trial.listing_line(4, "/u1/d/f,f,1,1,0640,0,-,0,new");
    say_all(trial, &[("0,chgrp,/u2/c,9", "ok"), ("0,mv,/u2/c,/u1/d/f", "ok"), ("1,read,/u1/d/f", "no,5")]);
    trial.listing(&[
        "/,d,0,0,0755,0,-,0,", "/rep,d,16,24,0750,0,-,0,", "/u1,d,1,1,0755,0,-,0,", "/u1/d,d,1,24,2777,0,-,0,",
        "/u1/d/f,f,2,9,0000,0,-,0,", "/u2,d,2,2,0755,0,-,0,",
    ]);
    // What is made where a moved file stood is new.
    say_all(trial, &[("2,create,/u2/c,0600", "ok"), ("2,read,/u2/c", "ok,"), ("2,mv,/u1/d/f,/u2/c", "ok")]);
    trial.listing_line(5, "/u2/c,f,2,9,0000,0,-,0,");
}

/// A directory `d` with a directory `e` and a file `f` in it, an empty directory `h`, and files `f` and `g`.
fn tree(trial: &mut Trial) {
    say_all(trial, &[("1,mkdir,/u1/d,0755", "ok"), ("1,mkdir,/u1/d/e,0755", "ok"), ("1,create,/u1/d/f,0600", "ok")]);
    say_all(trial, &[("1,mkdir,/u1/h,0755", "ok"), ("1,create,/u1/f,0600", "ok"), ("1,create,/u1/g,0600", "ok")]);
}

fn kinds(trial: &mut Trial) {
    tree(trial);
    for caller in [0, 1] {
        let mut say = |line: &str, wanted| trial.say(&format!("{caller},{line}"), wanted);
        // Onto a directory, empty or not, whatever comes.
        for onto in ["/u1/d", "/u1/d/e", "/u1/h"] {
            for moved in ["/u1/f", "/u1/d/f", "/u1/d", "/u1/d/e", "/u1/h", "/u1"] {
                say(&format!("mv,{moved},{onto}"), "no,6");
            }
        }
        // Onto a directory above, up to where paths are reserved.
        for moved in ["/u1/d/f", "/u1/d/e", "/u1/d", "/u1/f", "/u1"] {
            say(&format!("mv,{moved},/u1"), "no,6");
            say(&format!("mv,{moved},/"), "no,9");
            say(&format!("mv,{moved},/u2"), "no,6");
        }
        // A directory onto a file, also one below it.
        for moved in ["/u1/d", "/u1/d/e", "/u1/h", "/u1"] {
            for onto in ["/u1/f", "/u1/d/f", "/u1/g"] {
                say(&format!("mv,{moved},{onto}"), "no,7");
            }
        }
        say("mv,/u1/d,/u1/d/x", "no,11");
        say("read,/u1", "ok,d,f,g,h");
        say("read,/u1/d", "ok,e,f");
    }
    // Neither a file below a file nor one in the place of a directory.
    say_all(trial, &[("1,mv,/u1/f,/u1/f/f", "no,4"), ("1,mv,/u1/f,/u1/g/f", "no,4"), ("1,mv,/u1/f,/u1/g", "ok")]);
    say_all(trial, &[("1,mv,/u1/g,/u1/d/f", "ok"), ("1,mv,/u1/d/f,/u1/h", "no,6"), ("1,rmdir,/u1/h", "ok")]);
    say_all(trial, &[("1,mv,/u1/d/f,/u1/h", "ok"), ("1,mv,/u1/d/e,/u1/h", "no,7"), ("1,read,/u1", "ok,d,h")]);
}

fn order_of_walks(trial: &mut Trial) {
    tree(trial);
    let (broken, sound) = (trial.broken_store(), trial.store());
    for line in ["3,mv,/u1/f,/u1/g", "3,mv,/u1/f,/u1/d", "3,mv,/u1/d,/u1/f", "3,mv,/u1/f,/u1/f"] {
        trial.raw_run(&broken, line, 4095, 20);
        trial.raw_run(&broken, line, 4096, 18);
        trial.raw_run(&sound, &format!("{line}/"), 4096, 1);
        trial.raw_run(&sound, line, 4096, 2);
    }
    say_all(trial, &[("1,mkdir,/u1/p,0755", "ok"), ("1,create,/u1/p/f,0600", "ok"), ("1,mkdir,/u1/p/d,0700", "ok")]);
    say_all(trial, &[("1,chmod,/u1/p,0644", "ok"), ("1,chmod,/u1,0555", "ok")]);
    // Reserved comes first, for callers who may nothing, too.
    for (a, b) in [("/none", "/rep"), ("/rep", "/none/x"), ("/u1/f", "/"), ("/", "/u1/f"), ("/u1/d", "/rep"), ("/rep", "/u1/g")] {
        trial.say(&format!("2,mv,{a},{b}"), "no,9");
    }
    // What stands at b shows only behind the walk of a and x on the way to b.
    for caller in [1, 2] {
        let mut say = |line: &str, wanted| trial.say(&format!("{caller},{line}"), wanted);
        for onto in ["/u1/g", "/u1/d", "/u1/p/f", "/u1/p/d"] {
            say(&format!("mv,/u1/none,{onto}"), "no,3");
            say(&format!("mv,/u1/f/x,{onto}"), "no,4");
            say(&format!("mv,/u1/p/f,{onto}"), "no,5");
            say(&format!("mv,/u1/p/none,{onto}"), "no,5");
        }
        for moved in ["/u1/f", "/u1/d"] {
            say(&format!("mv,{moved},/u1/none/x"), "no,3");
            say(&format!("mv,{moved},/u1/g/x"), "no,4");
            for onto in ["/u1/p/f", "/u1/p/d", "/u1/p/none"] {
                say(&format!("mv,{moved},{onto}"), "no,5");
            }
        }
    }
}

fn order_of_kinds(trial: &mut Trial) {
    tree(trial);
    // Person 2 lacks w on both directories: 6 and 7 come first, 11 and 19 later.
    say_all(trial, &[("2,mv,/u1/f,/u1/d", "no,6"), ("2,mv,/u1/d,/u1/h", "no,6"), ("2,mv,/u1/d,/u1/d", "no,6")]);
    say_all(trial, &[("2,mv,/u1/d,/u1/d/e", "no,6"), ("2,mv,/u1/d/f,/u1/d", "no,6"), ("2,mv,/u1/d/e,/u1", "no,6")]);
    say_all(trial, &[("2,mv,/u1/d,/u1/f", "no,7"), ("2,mv,/u1/d,/u1/d/f", "no,7"), ("2,mv,/u1/d,/u1/d/x", "no,5")]);
    say_all(trial, &[("2,mv,/u1/f,/u1/g", "no,5"), ("2,mv,/u1/f,/u1/f", "no,5"), ("2,mv,/u1/f,/u1/x", "no,5")]);
    // Too deep as well: a directory of two more names, and files and directories where it would go.
    say_all(trial, &[("1,mkdir,/u1/d/e/i,0755", "ok"), ("1,mkdir,/u1/h/i,0755", "ok"), ("1,mkdir,/u1/h/i/j,0755", "ok")]);
    say_all(trial, &[("1,mkdir,/u1/h/i/j/k,0755", "ok"), ("1,create,/u1/h/i/j/k/f,0600", "ok")]);
    trial.say("1,mkdir,/u1/h/i/j/k/d,0700", "ok");
    for caller in [0, 1, 2] {
        trial.say(&format!("{caller},mv,/u1/d,/u1/h/i/j/k/f"), "no,7");
        trial.say(&format!("{caller},mv,/u1/d,/u1/h/i/j/k/d"), "no,6");
        trial.say(&format!("{caller},mv,/u1/h,/u1/h/i/j/k/f"), "no,7");
        trial.say(&format!("{caller},mv,/u1/h,/u1/h/i/j/k/d"), "no,6");
    }
    say_all(trial, &[("2,mv,/u1/d,/u1/h/i/j/k/x", "no,5"), ("1,mv,/u1/d,/u1/h/i/j/k/x", "no,19")]);
    say_all(trial, &[("2,mv,/u1/h,/u1/h/i/j/k/x", "no,5"), ("1,mv,/u1/h,/u1/h/i/j/k/x", "no,11")]);
}

fn directories(trial: &mut Trial) {
    say_all(trial, &[("1,mkdir,/u1/p,0700", "ok"), ("1,create,/u1/p/f,0600", "ok"), ("1,create,/u1/p/g,0600", "ok")]);
    say_all(trial, &[("1,mkdir,/u1/q,0700", "ok"), ("1,create,/u1/q/f,0600", "ok"), ("1,create,/u1/q/g,0600", "ok")]);
    // Without w on `p`, and without x: all that touches it is 5, from either side and within.
    for mode in ["0577", "0477", "0177", "0677", "0077"] {
        trial.say(&format!("1,chmod,/u1/p,{mode}"), "ok");
        for (a, b) in [("p/f", "q/f"), ("q/f", "p/f"), ("p/f", "p/g"), ("p/f", "p/f")] {
            trial.say(&format!("1,mv,/u1/{a},/u1/{b}"), "no,5");
        }
    }
    say_all(trial, &[("1,mv,/u1/q/f,/u1/q/g", "ok"), ("1,read,/u1/q", "ok,g"), ("2,mv,/u1/p/f,/u1/p/g", "ok")]);
    // w and x are enough; r is not asked.
    say_all(trial, &[("1,chmod,/u1/p,0300", "ok"), ("1,chmod,/u1/q,0300", "ok"), ("1,mv,/u1/p/g,/u1/q/g", "ok")]);
    say_all(trial, &[("1,create,/u1/p/f,0600", "ok"), ("1,mv,/u1/q/g,/u1/p/f", "ok"), ("1,mv,/u1/p/f,/u1/p/f", "ok")]);
    say_all(trial, &[("1,read,/u1/p", "no,5"), ("2,mv,/u1/p/f,/u1/p/f", "no,5"), ("0,read,/u1/p", "ok,f")]);
    // The group's bits count for its members.
    say_all(trial, &[("0,create,/u1/q/f,0600", "ok"), ("0,chgrp,/u1/p,2", "ok"), ("0,chgrp,/u1/q,2", "ok")]);
    say_all(trial, &[("1,chmod,/u1/p,0737", "ok"), ("1,chmod,/u1/q,0717", "ok"), ("2,mv,/u1/p/f,/u1/q/f", "no,5")]);
    say_all(trial, &[("2,mv,/u1/q/f,/u1/p/f", "no,5"), ("1,chmod,/u1/q,0730", "ok"), ("2,mv,/u1/q/f,/u1/p/f", "ok")]);
    trial.listing_line(4, "/u1/p/f,f,0,0,0600,0,-,0,");
}

fn files(trial: &mut Trial) {
    say_all(trial, &[("1,mkdir,/u1/d,0777", "ok"), ("1,create,/u1/d/a,0000", "ok"), ("0,create,/u1/d/b,0000", "ok")]);
    say_all(trial, &[("2,read,/u1/d/a", "no,5"), ("2,mv,/u1/d/a,/u1/d/b", "ok"), ("2,read,/u1/d", "ok,b")]);
    trial.listing_line(4, "/u1/d/b,f,1,1,0000,0,-,0,");
    say_all(trial, &[("2,mv,/u1/d/b,/u1/d/b", "ok"), ("2,create,/u1/d/c,0600", "ok"), ("1,mv,/u1/d/c,/u1/d/b", "ok")]);
    say_all(trial, &[("2,mv,/u1/d/b,/u2/b", "ok"), ("2,create,/u1/d/b,0600", "ok"), ("2,mv,/u2/b,/u1/d/b", "ok")]);
    trial.listing_line(4, "/u1/d/b,f,2,2,0600,0,-,0,");
}

fn itself(trial: &mut Trial) {
    say_all(trial, &[("1,login,0,oak", "ok"), ("1,create,/u1/f,0640", "ok"), ("1,write,/u1/f,text", "ok")]);
    say_all(trial, &[("1,add,/u1/f,/rep/f,1", "ok"), ("1,mv,/u1/f,/u1/f", "ok"), ("1,mv,f,/u1/f", "ok")]);
    let listing = [
        "/,d,0,0,0755,0,-,0,", "/rep,d,16,24,0750,0,-,0,", "/rep/f,f,17,17,0440,1,-,0,text", "/u1,d,1,1,0755,0,-,0,",
        "/u1/f,f,1,1,0640,0,/rep/f,1,text", "/u2,d,2,2,0755,0,-,0,",
    ];
    trial.listing(&listing);
    // Others lack w on its directory; root is not asked for it, of an entry neither.
    say_all(trial, &[("2,mv,/u1/f,/u1/f", "no,5"), ("0,mv,/u1/f,u1/f", "ok"), ("0,mv,/rep/f,/rep/f", "ok")]);
    say_all(trial, &[("1,mv,/rep/f,/rep/f", "no,5"), ("1,mv,/u1/none,/u1/none", "no,3"), ("0,mv,/rep,/rep", "no,9")]);
    trial.listing(&listing);
    // Without w it is refused, and without x; the tag serves all the same.
    say_all(trial, &[("1,chmod,/u1,0555", "ok"), ("1,mv,/u1/f,/u1/f", "no,5"), ("0,mv,/u1/f,/u1/f", "ok")]);
    say_all(trial, &[("1,chmod,/u1,0655", "ok"), ("1,mv,/u1/f,/u1/f", "no,5"), ("1,chmod,/u1,0755", "ok")]);
    say_all(trial, &[("1,commit,/u1/f", "ok"), ("1,mv,/u1/f,/u1/f", "ok"), ("1,commit,/u1/f", "ok")]);
    trial.listing_line(4, "/u1/f,f,1,1,0640,0,/rep/f,3,text");
}

fn tag_goes(trial: &mut Trial) {
    say_all(trial, &[("1,login,0,oak", "ok"), ("1,create,/u1/a,0600", "ok"), ("1,add,/u1/a,/rep/a,1", "ok")]);
    say_all(trial, &[("1,co,/rep/a,/u1/b", "ok"), ("1,create,/u1/c,0600", "ok"), ("1,write,/u1/c,new", "ok")]);
    say_all(trial, &[("1,mv,/u1/c,/u1/a", "ok"), ("1,commit,/u1/a", "no,15"), ("1,up,/u1/a", "no,15")]);
    trial.listing(&[
        "/,d,0,0,0755,0,-,0,", "/rep,d,16,24,0750,0,-,0,", "/rep/a,f,17,17,0440,1,-,0,", "/u1,d,1,1,0755,0,-,0,",
        "/u1/a,f,1,1,0600,0,-,0,new", "/u1/b,f,1,1,0600,0,/rep/a,1,", "/u2,d,2,2,0755,0,-,0,",
    ]);
    // The other working copy keeps its own tag, the entry its revision; nothing comes back with the old name.
    say_all(trial, &[("1,commit,/u1/b", "ok"), ("1,mv,/u1/a,/u1/c", "ok"), ("1,create,/u1/a,0600", "ok")]);
    say_all(trial, &[("1,commit,/u1/a", "no,15"), ("1,commit,/u1/c", "no,15"), ("1,commit,/u1/b", "ok")]);
    // A refused move leaves it, and so does one of a file that only lies beside.
    say_all(trial, &[("1,mkdir,/u1/d,0700", "ok"), ("1,mv,/u1/d,/u1/b", "no,7"), ("2,mv,/u1/c,/u1/b", "no,5")]);
    say_all(trial, &[("1,mv,/u1/c,/u1/a", "ok"), ("1,commit,/u1/b", "ok"), ("1,mv,/u1/a,/u1/b", "ok")]);
    say_all(trial, &[("1,commit,/u1/b", "no,15"), ("1,add,/u1/b,/rep/b,0", "ok"), ("1,commit,/u1/b", "ok")]);
    trial.listing_line(3, "/rep/b,f,16,16,0440,2,-,0,new");
}

fn tag_comes(trial: &mut Trial) {
    say_all(trial, &[("1,login,0,oak", "ok"), ("1,create,/u1/a,0600", "ok"), ("1,add,/u1/a,/rep/a,1", "ok")]);
    say_all(trial, &[("1,create,/u1/b,0600", "ok"), ("1,add,/u1/b,/rep/b,1", "ok"), ("1,commit,/u1/b", "ok")]);
    // Onto another entry's working copy, then onto an untagged file.
    say_all(trial, &[("1,write,/u1/a,one", "ok"), ("1,mv,/u1/a,/u1/b", "ok"), ("1,commit,/u1/b", "ok")]);
    trial.listing(&[
        "/,d,0,0,0755,0,-,0,", "/rep,d,16,24,0750,0,-,0,", "/rep/a,f,17,17,0440,2,-,0,one", "/rep/b,f,17,17,0440,2,-,0,",
        "/u1,d,1,1,0755,0,-,0,", "/u1/b,f,1,1,0600,0,/rep/a,2,one", "/u2,d,2,2,0755,0,-,0,",
    ]);
    say_all(trial, &[("1,create,/u1/c,0600", "ok"), ("1,mv,/u1/b,/u1/c", "ok"), ("1,commit,/u1/c", "ok")]);
    trial.listing_line(5, "/u1/c,f,1,1,0600,0,/rep/a,3,one");
    // An older copy onto a newer one of the same entry stays stale, until `up`.
    say_all(trial, &[("1,co,/rep/a,/u1/d", "ok"), ("1,commit,/u1/c", "ok"), ("1,mv,/u1/d,/u1/c", "ok")]);
    say_all(trial, &[("1,commit,/u1/c", "no,14"), ("1,up,/u1/c", "ok"), ("1,commit,/u1/c", "ok")]);
    trial.listing_line(5, "/u1/c,f,1,1,0600,0,/rep/a,5,one");
    // A directory's tag has no part in it.
    say_all(trial, &[("1,mkdir,/u1/d,0700", "ok"), ("1,add,/u1/d,/rep/d,1", "ok"), ("1,create,/u1/d/c,0600", "ok")]);
    say_all(trial, &[("1,mv,/u1/c,/u1/d/c", "ok"), ("1,commit,/u1/d/c", "ok"), ("1,mv,/u1/d/c,/u1/d", "no,6")]);
    trial.listing_line(6, "/u1/d,d,1,1,0700,0,/rep/d,1,");
    trial.listing_line(7, "/u1/d/c,f,1,1,0600,0,/rep/a,6,one");
}

fn nodes(trial: &mut Trial) {
    // Four nodes stand; 252 more make 256.
    trial.say("1,mkdir,/u1/d,0700", "ok");
    for n in 0..251 {
        trial.say(&format!("1,create,/u1/n{n},0600"), "ok");
    }
    // Refused moves and one onto itself make no room; each that replaces makes room for one.
    let no_room = ["mv,/u1/d,/u1/n0", "mv,/u1/n0,/u1/d", "mv,/u1/n0,/u1/none/x", "mv,/u1/none,/u1/n0"];
    for (line, wanted) in no_room.into_iter().zip(["no,7", "no,6", "no,3", "no,3"]) {
        trial.say(&format!("1,{line}"), wanted);
        trial.say("1,create,/u1/x,0600", "no,10");
    }
    say_all(trial, &[("1,mv,/u1/n0,/u1/n0", "ok"), ("1,create,/u1/x,0600", "no,10"), ("2,mv,/u1/n0,/u1/n1", "no,5")]);
    say_all(trial, &[("1,create,/u1/x,0600", "no,10"), ("1,mv,/u1/n0,/u1/n1", "ok"), ("1,create,/u1/x,0600", "ok")]);
    say_all(trial, &[("1,create,/u1/y,0600", "no,10"), ("2,create,/u2/y,0600", "no,10"), ("1,mv,/u1/x,/u1/d/x", "ok")]);
    say_all(trial, &[("1,create,/u1/y,0600", "no,10"), ("1,mv,/u1/d/x,/u1/n250", "ok"), ("1,mv,/u1/n250,/u1/n2", "ok")]);
    say_all(trial, &[("1,mkdir,/u1/d/y,0700", "ok"), ("2,create,/u2/y,0600", "ok"), ("1,create,/u1/z,0600", "no,10")]);
    say_all(trial, &[("1,mv,/u1/n1,/u1/n3", "ok"), ("1,rm,/u1/n3", "ok"), ("1,create,/u1/n0,0600", "ok")]);
    say_all(trial, &[("1,create,/u1/n1,0600", "ok"), ("1,create,/u1/n3,0600", "no,10")]);
}

fn short(trial: &mut Trial) {
    tree(trial);
    say_all(trial, &[("1,cd,d", "ok"), ("1,create,c,0600", "ok"), ("1,write,c,one", "ok"), ("1,mv,c,c", "ok")]);
    say_all(trial, &[("1,mv,c,/u1/d/c", "ok"), ("1,mv,/u1/d/c,c", "ok"), ("1,read,c", "ok,one"), ("1,mv,c,f", "ok")]);
    say_all(trial, &[("1,read,f", "ok,one"), ("1,read,c", "no,3"), ("1,mv,f,/u1/f", "ok"), ("1,read,/u1/d", "ok,e")]);
    // From here `f` is another file than `/u1/f`.
    say_all(trial, &[("1,create,f,0600", "ok"), ("1,mv,/u1/f,f", "ok"), ("1,read,f", "ok,one"), ("1,mv,f,e", "no,6")]);
    say_all(trial, &[("1,mv,e,f", "no,7"), ("1,mv,e,e", "no,6"), ("1,mv,/u1/d,f", "no,7"), ("1,mv,f,/u1/d", "no,6")]);
    // 19 of joining comes before all of them, at either place.
    say_all(trial, &[("1,mv,a/b/c/d/e,f", "no,19"), ("1,mv,f,a/b/c/d/e", "no,19"), ("1,mv,/rep,a/b/c/d/e", "no,19")]);
    say_all(trial, &[("1,mv,e,e/b/c/d/e", "no,19"), ("1,mv,f,f/b/c/d/e", "no,19"), ("1,mv,f,f/b/c/d", "no,4")]);
    // A kept path at which files come and go is kept, and met by the walk.
    say_all(trial, &[("1,cd,e", "ok"), ("1,rmdir,/u1/d/e", "ok"), ("1,create,/u1/d/e,0600", "ok"), ("1,read,x", "no,4")]);
    say_all(trial, &[("1,mv,/u1/d/f,/u1/d/e", "ok"), ("1,mv,x,x", "no,4"), ("1,mv,/u1/g,x", "no,4")]);
    trial.stands(1, "/u1/d/e");
    // Root stands at `/`, where a home is a short path.
    say_all(trial, &[("0,mv,u1/d/e,u1/g", "ok"), ("0,mv,u2,u1/g", "no,7"), ("0,mv,u1/g,rep", "no,9"), ("0,mv,u2,u2", "no,6")]);
    say_all(trial, &[("1,read,x", "no,3"), ("1,cd,/u1", "ok"), ("1,read,g", "ok,one"), ("1,mv,g,g", "ok")]);
}

fn deep(trial: &mut Trial) {
    for path in ["a", "a/b", "a/b/c", "a/b/c/d"] {
        trial.say(&format!("1,mkdir,/u1/{path},0700"), "ok");
    }
    say_all(trial, &[("1,create,/u1/a/b/c/d/f,0600", "ok"), ("1,create,/u1/f,0640", "ok"), ("1,write,/u1/f,top", "ok")]);
    // Six names is as deep as a file can stand; what stands there can be replaced, and can replace.
    say_all(trial, &[("1,mv,/u1/f,/u1/a/b/c/d/f", "ok"), ("1,read,/u1/a/b/c/d/f", "ok,top"), ("1,read,/u1", "ok,a")]);
    say_all(trial, &[("1,mv,/u1/a/b/c/d/f,/u1/a/b/c/d/f", "ok"), ("1,create,/u1/a/b/c/d/g,0600", "ok")]);
    say_all(trial, &[("1,mv,/u1/a/b/c/d/f,/u1/a/b/c/d/g", "ok"), ("1,read,/u1/a/b/c/d", "ok,g")]);
    say_all(trial, &[("1,create,/u1/z,0600", "ok"), ("1,mv,/u1/a/b/c/d/g,/u1/z", "ok"), ("1,read,/u1/a/b/c/d", "ok,")]);
    trial.listing_line(7, "/u1/z,f,1,1,0640,0,-,0,top");
    // Directories above, at and onto what stands there.
    say_all(trial, &[("1,mv,/u1/z,/u1/a/b/c/d/z", "ok"), ("1,mv,/u1/a,/u1/a/b/c/d/z", "no,7")]);
    say_all(trial, &[("1,mv,/u1/a/b/c/d,/u1/a/b/c/d/z", "no,7"), ("1,mkdir,/u1/a/b/c/d/y,0700", "ok")]);
    say_all(trial, &[("1,mv,/u1/a/b/c/d/y,/u1/a/b/c/d/z", "no,7"), ("1,mv,/u1/a/b/c/d/z,/u1/a/b/c/d/y", "no,6")]);
    say_all(trial, &[("1,mv,/u1/a/b/c/d/z,/u1/a/b/c/d", "no,6"), ("1,mv,/u1/a/b/c/d/z,/u1/a", "no,6")]);
    say_all(trial, &[("1,mv,/u1/a/b/c/d/z,/u1/a/b/c/d/z/z", "no,1"), ("1,mv,/u1/a,/u1/a/b/c/d/x", "no,11")]);
}

fn root(trial: &mut Trial) {
    say_all(trial, &[("1,login,0,oak", "ok"), ("1,create,/u1/a,0644", "ok"), ("1,add,/u1/a,/rep/x,1", "ok")]);
    say_all(trial, &[("1,commit,/u1/a", "ok"), ("1,create,/u1/b,0600", "ok"), ("1,write,/u1/b,old", "ok")]);
    // No person comes there, onto an entry or with one.
    say_all(trial, &[("1,mv,/u1/b,/rep/x", "no,5"), ("1,mv,/rep/x,/u1/b", "no,5"), ("1,mv,/u1,/rep/x", "no,5")]);
    // An entry that replaces a person's file is as it was in the repository.
    say_all(trial, &[("0,mv,/rep/x,/u1/b", "ok"), ("1,commit,/u1/a", "no,3"), ("1,read,/u1/b", "no,5")]);
    trial.listing_line(4, "/u1/b,f,17,17,0440,2,-,0,");
    // A working copy that replaces the entry: revision 0, and its own tag, which names the place where it stands.
    say_all(trial, &[("0,mv,/u1/b,/rep/x", "ok"), ("1,write,/u1/a,own", "ok"), ("0,mv,/u1/a,/rep/x", "ok")]);
    trial.listing_line(2, "/rep/x,f,1,1,0644,0,/rep/x,2,own");
    say_all(trial, &[("1,co,/rep/x,/u1/c", "ok"), ("1,commit,/u1/c", "ok"), ("1,co,/rep/x,/u1/d", "ok")]);
    trial.listing_line(2, "/rep/x,f,1,1,0644,1,/rep/x,2,own");
    trial.listing_line(4, "/u1/c,f,1,1,0600,0,/rep/x,1,own");
    // An entry onto an entry: the copies of either go by the path and its revision now.
    say_all(trial, &[("1,create,/u1/e,0600", "ok"), ("1,add,/u1/e,/rep/y,0", "ok"), ("1,co,/rep/y,/u1/f", "ok")]);
    say_all(trial, &[("1,commit,/u1/f", "ok"), ("0,mv,/rep/y,/rep/x", "ok"), ("1,commit,/u1/c", "no,14")]);
    say_all(trial, &[("1,commit,/u1/f", "no,3"), ("1,up,/u1/c", "ok"), ("1,commit,/u1/c", "ok"), ("0,read,/rep", "ok,x")]);
    trial.listing_line(2, "/rep/x,f,16,16,0440,3,-,0,");
    // Kinds and reserved names, for root as for others; then an entry onto its own working copy.
    say_all(trial, &[("1,mkdir,/u1/g,0700", "ok"), ("1,add,/u1/g,/rep/d,0", "ok"), ("0,mv,/rep/d,/rep/x", "no,7")]);
    say_all(trial, &[("0,mv,/rep/x,/rep/d", "no,6"), ("0,mv,/rep/x,/rep", "no,9"), ("0,mv,/rep/d,/u1/c", "no,7")]);
    say_all(trial, &[("0,mv,/rep/x,/u1/c", "ok"), ("0,commit,/u1/c", "no,12"), ("1,up,/u1/c", "no,5"), ("0,read,/rep", "ok,d")]);
    say_all(
        trial,
        &[("0,chown,/u1/c,1", "ok"), ("1,commit,/u1/c", "no,15"), ("1,chmod,/u1/c,0600", "ok"), ("1,up,/u1/c", "no,15")],
    );
}

/// Files at every place around two directories with something in them: rows below, above and between.
const PLACES: [&str; 8] = ["/a", "/u1/_", "/u1/d/a", "/u1/d/z", "/u1/e", "/u1/e0", "/u2/d/a", "/z"];

/// Each file onto each, itself too: the one moved has its own content there, and all others stand as they were.
fn places(trial: &mut Trial) {
    for from in PLACES {
        for onto in PLACES {
            trial.restart("p,1,1\np,2,2\nend\n");
            say_all(trial, &[("0,mkdir,/u1/d,0700", "ok"), ("0,mkdir,/u2/d,0700", "ok"), ("0,mkdir,/u1/d/m,0700", "ok")]);
            for path in PLACES {
                trial.say(&format!("0,create,{path},0600"), "ok");
                trial.say(&format!("0,write,{path},was {path}"), "ok");
            }
            trial.say(&format!("0,mv,{from},{onto}"), "ok");
            for path in PLACES {
                let wanted = match path {
                    _ if path == onto => format!("ok,was {from}"),
                    _ if path == from => "no,3".to_string(),
                    _ => format!("ok,was {path}"),
                };
                trial.say(&format!("0,read,{path}"), &wanted);
            }
        }
    }
}
