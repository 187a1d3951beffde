//! The named cases of working directories and short paths.

use crate::edges::{say_all, Test};
use crate::trial::Trial;

pub const TESTS: [Test; 11] = [
    ("fresh working directories", fresh),
    ("cd", cd),
    ("a working directory for each account", own),
    ("short paths: forms", short_forms),
    ("joined path 6 / 7 names", depths),
    ("order 20, 18, 1, 2, 19, 12, 9", order),
    ("reserved names of the joined path", reserved),
    ("entry paths are never short", entries),
    ("mv with short paths", moves),
    ("repository commands with short paths", repository),
    ("a working directory that has gone", gone),
];

/// Six names: too deep for a person at home, and not for root at `/`.
const SIX: &str = "a/b/c/d/e/f";
/// Five names, which a person at home may give.
const FIVE: &str = "a/b/c/d/e";

fn fresh(trial: &mut Trial) {
    for (account, wanted) in [(0, "/"), (1, "/u1"), (2, "/u2"), (3, "/"), (15, "/")] {
        trial.stands(account, wanted);
    }
    trial.restart("p,15,1\np,9,9\nend\n");
    for (account, wanted) in [(0, "/"), (1, "/"), (9, "/u9"), (10, "/"), (15, "/u15")] {
        trial.stands(account, wanted);
    }
    trial.restart("end\n");
    trial.say("0,mkdir,a,0700", "ok");
    trial.say("0,read,/", "ok,a,rep");
    trial.stands(0, "/");
}

fn cd(trial: &mut Trial) {
    say_all(trial, &[("1,mkdir,d,0700", "ok"), ("1,cd,d", "ok")]);
    trial.stands(1, "/u1/d");
    say_all(trial, &[("1,create,f,0600", "ok"), ("1,read,/u1/d", "ok,f"), ("1,read,f", "ok,")]);
    // The kind comes before access, and a refusal keeps the old path.
    say_all(trial, &[("1,cd,f", "no,7"), ("1,cd,f/g", "no,4"), ("1,cd,none", "no,3"), ("1,cd,/rep", "no,5")]);
    say_all(trial, &[("1,cd,/rep/none", "no,5"), ("2,cd,/u1/d", "no,5"), ("2,cd,/u1/d/f", "no,5")]);
    trial.stands(1, "/u1/d");
    trial.stands(2, "/u2");
    // x is enough, and nothing else is.
    say_all(trial, &[("1,mkdir,x,0100", "ok"), ("1,mkdir,r,0600", "ok"), ("1,mkdir,n,0077", "ok")]);
    say_all(trial, &[("1,cd,r", "no,5"), ("1,cd,n", "no,5"), ("1,cd,x", "ok")]);
    say_all(trial, &[("1,read,/u1/d/x", "no,5"), ("1,create,y,0600", "no,5")]);
    trial.stands(1, "/u1/d/x");
    // Root needs a directory, not x.
    say_all(trial, &[("0,cd,u1/d/n", "ok"), ("0,cd,/u1/d/f", "no,7"), ("0,cd,none", "no,3")]);
    trial.stands(0, "/u1/d/n");
    say_all(trial, &[("1,cd,/", "ok"), ("1,read,u1/d", "ok,f,n,r,x")]);
    trial.stands(1, "/");
    // A walk of `/` tests nothing, but `cd` wants x on it.
    say_all(trial, &[("0,chmod,/,0644", "ok"), ("1,cd,/", "no,5"), ("1,cd,u1", "no,5"), ("0,cd,/", "ok")]);
    trial.stands(0, "/");
    // Sessions leave the working directory alone.
    say_all(trial, &[("0,chmod,/,0755", "ok"), ("1,cd,u1/d", "ok"), ("1,login,0,oak", "ok"), ("1,logout", "ok")]);
    trial.stands(1, "/u1/d");
}

fn own(trial: &mut Trial) {
    say_all(trial, &[("1,cd,/u2", "ok"), ("1,create,a,0600", "no,5"), ("2,create,a,0600", "ok"), ("1,read,a", "no,5")]);
    say_all(trial, &[("2,cd,/u1", "ok"), ("2,read,a", "no,3"), ("0,read,u2", "ok,a"), ("2,read,/u2/a", "ok,")]);
    trial.stands(0, "/");
    trial.stands(1, "/u2");
    trial.stands(2, "/u1");
}

fn short_forms(trial: &mut Trial) {
    for line in [
        "1,read,a/", "1,read,a//b", "1,read,.", "1,read,..", "1,read,./a", "1,read,A", "1,read,abcdefghi", "1,read,a/abcdefghi",
        "1,read,a b", "1,read,a/b/c/d/e/f/g", "0,read,a/b/c/d/e/f/g", "1,cd", "1,cd,", "1,cd,/,", "1,cd,/u1/", "1,cd,u1/",
        "1,cd,//", "1,cd,/u1,a", "1,CD,/", "1,cd ,/", "1,cd,a/b/c/d/e/f/g", "24,cd,/", "01,cd,/", "1,mv,a", "1,mv,,a", "1,mv,a,",
        "1,mv,a/b/c/d/e/f/g,b", "1,mv,a,a/b/c/d/e/f/g", "1,commit,a/b/c/d/e/f/g",
    ] {
        trial.say(line, "no,1");
    }
    say_all(trial, &[("3,cd,/", "no,2"), ("16,cd,a", "no,2"), ("1,read,u1", "no,3"), ("1,read,rep", "no,3")]);
    // Root stands at `/`: six names are a path of six.
    trial.say(&format!("0,read,{SIX}"), "no,3");
    say_all(trial, &[("1,mkdir,abcdefgh,0700", "ok"), ("1,read,/u1", "ok,abcdefgh"), ("1,read,abcdefgh", "ok,")]);
}

fn depths(trial: &mut Trial) {
    for path in ["a", "a/b", "a/b/c", "a/b/c/d", FIVE] {
        trial.say(&format!("1,mkdir,{path},0700"), "ok");
    }
    trial.say(&format!("1,read,{FIVE}"), "ok,");
    trial.say(&format!("1,mkdir,{SIX},0700"), "no,19");
    trial.say(&format!("1,cd,{FIVE}"), "ok");
    trial.stands(1, "/u1/a/b/c/d/e");
    for command in [
        "create,x,0600", "mkdir,x,0700", "read,x", "write,x,", "rm,x", "rmdir,x", "mv,x,/u1/y", "mv,/u1/y,x", "mv,x,x",
        "chmod,x,0600", "chgrp,x,1", "chown,x,1", "cd,x", "add,x,/rep/x,0", "co,/rep/x,x", "commit,x", "up,x",
    ] {
        trial.say(&format!("1,{command}"), "no,19");
    }
    trial.stands(1, "/u1/a/b/c/d/e");
    // A whole path of seven names has no form, wherever one stands.
    say_all(trial, &[("1,mkdir,/u1/a/b/c/d/e/f,0700", "no,1"), ("1,read,/u1/a/b/c/d/e", "ok,")]);
    say_all(trial, &[("1,cd,/u1/a/b/c/d", "ok"), ("1,create,x,0600", "ok"), ("1,create,x/y,0600", "no,19")]);
    // The longest working directory has six names of eight bytes.
    for _ in 0..6 {
        say_all(trial, &[("0,mkdir,abcdefgh,0755", "ok"), ("0,cd,abcdefgh", "ok")]);
    }
    trial.stands(0, &"/abcdefgh".repeat(6));
    say_all(trial, &[("0,cd,abcdefgh", "no,19"), ("0,cd,/abcdefgh", "ok"), ("0,read,abcdefgh", "ok,abcdefgh")]);
    trial.stands(0, "/abcdefgh");
}

fn order(trial: &mut Trial) {
    // The form and the caller come before joining.
    trial.say(&format!("1,read,{SIX}/g"), "no,1");
    trial.say(&format!("3,read,{SIX}/g"), "no,1");
    trial.say(&format!("1,create,{SIX},2600"), "no,1");
    trial.say(&format!("1,write,{SIX},\x7f"), "no,1");
    trial.say(&format!("1,add,{SIX},/u1/x,0"), "no,1");
    trial.say(&format!("1,add,{SIX},/rep/x,8"), "no,1");
    trial.say(&format!("3,read,{SIX}"), "no,2");
    trial.say(&format!("3,commit,{SIX}"), "no,2");
    trial.say(&format!("16,cd,{SIX}"), "no,2");
    // Joining comes before the session.
    for command in ["commit,PATH", "up,PATH", "add,PATH,/rep/x,0", "co,/rep/x,PATH"] {
        trial.say(&format!("1,{}", command.replace("PATH", SIX)), "no,19");
        trial.say(&format!("1,{}", command.replace("PATH", FIVE)), "no,12");
    }
    // It comes before reserved paths, at either place, and before what only root or an owner may.
    for command in ["mv,/,PATH", "mv,/rep,PATH", "mv,PATH,/", "mv,PATH,/rep"] {
        trial.say(&format!("1,{}", command.replace("PATH", SIX)), "no,19");
        trial.say(&format!("1,{}", command.replace("PATH", FIVE)), "no,9");
    }
    trial.say(&format!("1,mv,{SIX},{SIX}"), "no,19");
    trial.say(&format!("1,chown,{SIX},1"), "no,19");
    trial.say("1,create,/,0600", "no,6");
    // A stranger's working directory is never put in front of anything.
    trial.place(3, "/a/b/c/d/e/f");
    say_all(trial, &[("3,read,a", "no,2"), ("3,cd,/", "no,2")]);
    trial.stands(3, "/a/b/c/d/e/f");
    let (broken, sound) = (trial.broken_store(), trial.store());
    for line in [format!("1,read,{SIX}"), format!("1,commit,{SIX}"), format!("1,mv,/,{SIX}")] {
        trial.raw_run(&broken, &line, 4095, 20);
        trial.raw_run(&broken, &line, 4096, 18);
        trial.raw_run(&sound, &line, 4095, 20);
        trial.raw_run(&sound, &line, 4096, 19);
    }
}

fn reserved(trial: &mut Trial) {
    say_all(trial, &[("1,cd,/", "ok"), ("1,rm,rep", "no,9"), ("1,rmdir,rep", "no,9"), ("1,mv,rep,a", "no,9")]);
    say_all(trial, &[("1,mv,u1,rep", "no,9"), ("1,create,rep,0600", "no,6"), ("0,rmdir,rep", "no,9"), ("0,mv,rep,a", "no,9")]);
    // At home the same name is any other.
    say_all(trial, &[("1,cd,u1", "ok"), ("1,mkdir,rep,0700", "ok"), ("1,mv,rep,a", "ok"), ("1,mv,a,rep", "ok")]);
    say_all(trial, &[("1,rm,rep", "no,7"), ("1,rmdir,rep", "ok"), ("1,rm,rep", "no,3")]);
    say_all(trial, &[("0,cd,rep", "ok"), ("0,mkdir,rep,0700", "ok"), ("0,rmdir,rep", "ok"), ("0,rmdir,/rep", "no,9")]);
    say_all(trial, &[("0,cd,/", "ok"), ("0,chmod,rep,0755", "ok"), ("1,cd,/rep", "ok")]);
}

fn entries(trial: &mut Trial) {
    trial.say("1,login,0,oak", "ok");
    for directory in ["/u1", "/"] {
        trial.say(&format!("1,cd,{directory}"), "ok");
        say_all(trial, &[("1,add,/u1,rep/x,0", "no,1"), ("1,co,rep/x,/u1/a", "no,1"), ("1,del,rep/x", "no,1")]);
    }
    trial.say("0,cd,rep", "ok");
    say_all(trial, &[("0,add,/u1,x,0", "no,1"), ("0,co,x,/a", "no,1"), ("0,del,x", "no,1")]);
    // A working path may lead below `/rep` all the same.
    say_all(trial, &[("0,create,x,0444", "ok"), ("0,read,/rep", "ok,x"), ("0,commit,x", "no,12")]);
}

fn moves(trial: &mut Trial) {
    say_all(trial, &[("1,mkdir,a,0700", "ok"), ("1,mkdir,b,0700", "ok"), ("1,create,a/f,0600", "ok")]);
    say_all(trial, &[("1,mv,a/f,b/g", "ok"), ("1,read,/u1/b", "ok,g"), ("1,mv,b/g,/u1/a/f", "ok")]);
    say_all(trial, &[("1,mv,/u1/a/f,h", "ok"), ("1,read,/u1", "ok,a,b,h"), ("1,mv,none,x", "no,3")]);
    say_all(trial, &[("1,mv,h,h", "ok"), ("1,mv,h,/u1/h", "ok"), ("1,mv,a,b", "no,6")]);
    say_all(trial, &[("1,mv,a,a/x", "no,11"), ("1,mv,a,/u1/a/x", "no,11"), ("1,mv,/u1/a,a/x", "no,11")]);
    // 19 of what is moved comes last, of joining first.
    for path in ["c", "c/c", "c/c/c", "c/c/c/c", "a/x"] {
        trial.say(&format!("1,mkdir,{path},0700"), "ok");
    }
    say_all(trial, &[("1,mv,a,c/c/c/c/a", "no,19"), ("1,mv,none,c/c/c/c/a", "no,3"), ("1,mv,none,c/c/c/c/a/a", "no,19")]);
    say_all(trial, &[("1,mv,a/x,c/c/c/c/a", "ok"), ("1,read,c/c/c/c", "ok,a")]);
}

fn repository(trial: &mut Trial) {
    say_all(trial, &[("1,create,f,0600", "ok"), ("1,write,f,one", "ok"), ("1,add,f,/rep/x,1", "no,12")]);
    say_all(trial, &[("1,login,0,oak", "ok"), ("1,add,f,/rep/x,1", "ok"), ("1,mkdir,w,0700", "ok"), ("1,cd,w", "ok")]);
    say_all(trial, &[("1,co,/rep/x,x", "ok"), ("1,write,x,two", "ok"), ("1,commit,x", "ok"), ("1,commit,/u1/f", "no,14")]);
    say_all(trial, &[("1,up,/u1/f", "ok"), ("1,read,/u1/f", "ok,two"), ("2,login,1,elm", "ok"), ("2,co,/rep/x,y", "ok")]);
    say_all(trial, &[("2,read,/u2/y", "ok,two"), ("2,up,y", "ok"), ("2,commit,y", "no,5")]);
    trial.listing(&[
        "/,d,0,0,0755,0,-,0,", "/rep,d,16,24,0750,0,-,0,", "/rep/x,f,17,17,0440,2,-,0,two", "/u1,d,1,1,0755,0,-,0,",
        "/u1/f,f,1,1,0600,0,/rep/x,2,two", "/u1/w,d,1,1,0700,0,-,0,", "/u1/w/x,f,1,1,0600,0,/rep/x,2,two",
        "/u2,d,2,2,0755,0,-,0,", "/u2/y,f,2,2,0600,0,/rep/x,2,two",
    ]);
}

fn gone(trial: &mut Trial) {
    say_all(trial, &[("1,mkdir,d,0700", "ok"), ("1,mkdir,d/e,0700", "ok"), ("1,cd,d/e", "ok"), ("1,rmdir,/u1/d/e", "ok")]);
    trial.stands(1, "/u1/d/e");
    say_all(trial, &[("1,create,f,0600", "no,3"), ("1,cd,f", "no,3"), ("1,read,a/b/c/d", "no,19"), ("1,commit,f", "no,12")]);
    // A file in its place stands in mid-path.
    say_all(trial, &[("1,create,/u1/d/e,0600", "ok"), ("1,read,f", "no,4"), ("1,cd,f", "no,4"), ("1,rm,/u1/d/e", "ok")]);
    // Another directory in its place serves.
    say_all(trial, &[("1,mkdir,/u1/d/e,0700", "ok"), ("1,create,f,0600", "ok"), ("1,chmod,/u1/d,0600", "ok")]);
    say_all(trial, &[("1,read,f", "no,5"), ("1,chmod,/u1/d,0700", "ok"), ("1,read,f", "ok,")]);
    // A move does not take the working directory along.
    trial.say("1,mv,/u1/d,/u1/c", "ok");
    trial.stands(1, "/u1/d/e");
    say_all(trial, &[("1,read,f", "no,3"), ("1,cd,/u1/c/e", "ok"), ("1,read,f", "ok,")]);
    say_all(trial, &[("0,mv,u2,u9", "ok"), ("2,create,a,0600", "no,3"), ("2,cd,/u9", "ok"), ("2,create,a,0600", "ok")]);
    trial.stands(2, "/u9");
    // Nor need it ever have been there.
    trial.place(1, "/none/at/all");
    say_all(trial, &[("1,read,a", "no,3"), ("1,read,/u1", "ok,c"), ("1,cd,a", "no,3")]);
    trial.place(1, "/u1/c/e/f");
    say_all(trial, &[("1,read,a", "no,4"), ("1,cd,/u1", "ok"), ("1,read,c/e/f", "ok,")]);
}
