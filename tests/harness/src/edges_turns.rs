//! The named cases of commits of directories in which it counts what a file finds at its turn, and what is passed over.

use crate::edges::{say_all, Test};
use crate::edges_commits::{filed, WITH_ROOT};
use crate::trial::Trial;

pub const TESTS: [Test; 7] = [
    ("commit of a directory: two copies of one entry", copies),
    ("commit of a directory: one entry revised again in its course", chain),
    ("commit of a directory: path order", path_order),
    ("commit of a directory: what is passed over", passed_over),
    ("commit of a directory: what the account may", account),
    ("commit of a directory: revision 9999 / next", spent),
    ("commit of a directory: root", root),
];

fn copies(trial: &mut Trial) {
    say_all(trial, &[("1,login,0,oak", "ok"), ("1,mkdir,/u1/d,0700", "ok")]);
    filed(trial, "/u1/d/b", "/rep/e", 0);
    say_all(trial, &[("1,co,/rep/e,/u1/d/a", "ok"), ("1,write,/u1/d/a,by a", "ok"), ("1,write,/u1/d/b,by b", "ok")]);
    // The first in path order is committed, and the second is stale then.
    trial.say("1,commit,/u1/d", "ok,1");
    trial.shows("/rep/e,f,16,16,0440,2,-,0,by a");
    trial.shows("/u1/d/a,f,1,1,0600,0,/rep/e,2,by a");
    trial.shows("/u1/d/b,f,1,1,0600,0,/rep/e,1,by b");
    say_all(trial, &[("1,commit,/u1/d/b", "no,14"), ("1,up,/u1/d/b", "ok"), ("1,write,/u1/d/b,by b", "ok")]);
    // With `b` in front it is the one.
    say_all(trial, &[("1,mv,/u1/d/a,/u1/d/c", "ok"), ("1,commit,/u1/d", "ok,1"), ("1,commit,/u1/d", "ok,1")]);
    trial.shows("/rep/e,f,16,16,0440,4,-,0,by b");
    trial.shows("/u1/d/c,f,1,1,0600,0,/rep/e,2,by a");
    // Files of other entries before, between and behind are committed.
    filed(trial, "/u1/d/a", "/rep/a", 0);
    filed(trial, "/u1/d/bb", "/rep/bb", 0);
    filed(trial, "/u1/d/d", "/rep/d", 0);
    say_all(
        trial,
        &[("1,up,/u1/d/c", "ok"), ("1,commit,/u1/d", "ok,4"), ("1,commit,/u1/d/c", "no,14"), ("1,commit,/u1/d", "ok,4")],
    );
    trial.shows("/rep/e,f,16,16,0440,6,-,0,by b");
    trial.shows("/rep/d,f,16,16,0440,3,-,0,/u1/d/d");
}

fn chain(trial: &mut Trial) {
    say_all(trial, &[("1,login,0,oak", "ok"), ("1,mkdir,/u1/d,0700", "ok")]);
    // The entry is removed and added again, so an older working copy has the later revision.
    filed(trial, "/u1/d/y", "/rep/e", 0);
    say_all(trial, &[("1,commit,/u1/d", "ok,1"), ("1,del,/rep/e", "ok"), ("1,commit,/u1/d", "ok,0")]);
    filed(trial, "/u1/d/x", "/rep/e", 1);
    // `x` has 1 and `y` has 2: the first makes the second good.
    say_all(trial, &[("1,commit,/u1/d/y", "no,14"), ("1,commit,/u1/d", "ok,2")]);
    trial.shows("/rep/e,f,17,17,0440,3,-,0,/u1/d/y");
    trial.shows("/u1/d/x,f,1,1,0600,0,/rep/e,2,/u1/d/x");
    trial.shows("/u1/d/y,f,1,1,0600,0,/rep/e,3,/u1/d/y");
    trial.say("1,commit,/u1/d", "ok,1");
    // `x` has 2 and `y` has 4; `z`, which is last, has 1: only one is good at its turn, until they meet.
    trial.say("1,del,/rep/e", "ok");
    filed(trial, "/u1/d/z", "/rep/e", 0);
    trial.say("1,commit,/u1/d", "ok,1");
    trial.shows("/rep/e,f,16,16,0440,2,-,0,/u1/d/z");
    trial.say("1,commit,/u1/d", "ok,1");
    trial.shows("/rep/e,f,16,16,0440,3,-,0,/u1/d/x");
    trial.say("1,commit,/u1/d", "ok,2");
    trial.shows("/rep/e,f,16,16,0440,5,-,0,/u1/d/y");
    // `w` has 1, `x` 4, `y` 5, `z` 2; moved so that the order is 1, 2, 4, 5.
    trial.say("1,del,/rep/e", "ok");
    filed(trial, "/u1/d/w", "/rep/e", 0);
    say_all(trial, &[("1,mv,/u1/d/z,/u1/d/wz", "ok"), ("1,commit,/u1/d", "ok,2")]);
    trial.shows("/rep/e,f,16,16,0440,3,-,0,/u1/d/z");
    trial.shows("/u1/d/wz,f,1,1,0600,0,/rep/e,3,/u1/d/z");
    say_all(trial, &[("1,commit,/u1/d", "ok,3"), ("1,commit,/u1/d", "ok,1"), ("1,commit,/u1/d/x", "no,14")]);
    trial.shows("/rep/e,f,16,16,0440,7,-,0,/u1/d/y");
}

/// Copies of one entry in path order: `/` comes before every byte of a name.
const IN_ORDER: [&str; 9] = ["0", "_", "a/0", "a/m/z", "a/z", "a0", "a_", "aa", "b"];

fn path_order(trial: &mut Trial) {
    say_all(trial, &[("1,login,0,oak", "ok"), ("1,mkdir,/u1/d,0700", "ok"), ("1,mkdir,/u1/d/a,0700", "ok")]);
    say_all(trial, &[("1,mkdir,/u1/d/a/m,0700", "ok"), ("1,create,/u1/e,0600", "ok"), ("1,add,/u1/e,/rep/e,0", "ok")]);
    for name in IN_ORDER.into_iter().rev() {
        trial.say(&format!("1,co,/rep/e,/u1/d/{name}"), "ok");
        trial.say(&format!("1,write,/u1/d/{name},by {name}"), "ok");
    }
    // The first is committed alone; once it has gone, and the others have the new tag, it is the next.
    for (revision, name) in (2..).zip(IN_ORDER) {
        trial.say("1,commit,/u1/d", "ok,1");
        trial.shows(&format!("/rep/e,f,16,16,0440,{revision},-,0,by {name}"));
        trial.say(&format!("1,rm,/u1/d/{name}"), "ok");
        trial.say("1,commit,/u1/d", "ok,0");
        for later in IN_ORDER.into_iter().skip(revision - 1) {
            trial.say(&format!("1,up,/u1/d/{later}"), "ok");
            trial.say(&format!("1,write,/u1/d/{later},by {later}"), "ok");
        }
    }
}

fn passed_over(trial: &mut Trial) {
    say_all(trial, &[("1,login,0,oak", "ok"), ("1,mkdir,/u1/d,0700", "ok"), ("1,mkdir,/u1/w,0700", "ok")]);
    filed(trial, "/u1/d/a", "/rep/a", 0);
    filed(trial, "/u1/d/b", "/rep/b", 0);
    filed(trial, "/u1/d/c", "/rep/c", 0);
    // Before each line `b` is made one that its single commit refuses; `a` and `c` beside it are committed each time.
    let mut over = |lines: &[(&str, &str)], wanted| {
        say_all(trial, lines);
        say_all(trial, &[("1,commit,/u1/d/b", wanted), ("1,commit,/u1/d", "ok,2")]);
    };
    over(&[("1,chmod,/u1/d/b,0277", "ok")], "no,5");
    over(&[("1,chmod,/u1/d/b,0600", "ok"), ("1,co,/rep/b,/u1/b", "ok"), ("1,commit,/u1/b", "ok")], "no,14");
    over(&[("1,del,/rep/b", "ok")], "no,3");
    over(&[("1,add,/u1/w,/rep/b,0", "ok")], "no,7");
    over(&[("0,mv,/u1/d/b,/u1/x", "ok"), ("1,create,/u1/d/b,0600", "ok")], "no,15");
    // The tag's path leads through a file.
    over(&[("1,add,/u1/d/b,/rep/b/b,0", "ok"), ("1,del,/rep/b/b", "ok")], "no,3");
    over(&[("1,del,/rep/b", "ok"), ("1,add,/u1/x,/rep/b,0", "ok")], "no,4");
    // A content is no matter, nor is w on the file.
    say_all(trial, &[("1,chmod,/u1/d/a,0400", "ok"), ("1,write,/u1/d/c,", "ok"), ("1,commit,/u1/d", "ok,2")]);
    trial.shows("/rep/a,f,16,16,0440,9,-,0,/u1/d/a");
    trial.shows("/rep/c,f,16,16,0440,9,-,0,");
    trial.shows("/u1/d/b,f,1,1,0600,0,/rep/b/b,1,");
    // The first is refused, then the last too, then the last alone.
    say_all(trial, &[("1,chmod,/u1/d/a,0000", "ok"), ("1,commit,/u1/d", "ok,1"), ("1,chmod,/u1/d/c,0000", "ok")]);
    say_all(trial, &[("1,commit,/u1/d", "ok,0"), ("1,chmod,/u1/d/a,0400", "ok"), ("1,commit,/u1/d", "ok,1")]);
}

fn account(trial: &mut Trial) {
    say_all(trial, &[("1,login,0,oak", "ok"), ("2,login,1,elm", "ok"), ("1,mkdir,/u1/d,0700", "ok")]);
    say_all(trial, &[("1,add,/u1/d,/rep/cut,1", "ok"), ("1,mkdir,/u1/w,0700", "ok")]);
    filed(trial, "/u1/w/a", "/rep/cut/a", 1);
    filed(trial, "/u1/w/b", "/rep/b", 1);
    filed(trial, "/u1/w/c", "/rep/cut/c", 1);
    say_all(trial, &[("2,co,/rep/cut,/u2/d", "ok"), ("2,co,/rep/b,/u2/d/b", "ok"), ("2,read,/u2/d", "ok,a,b,c")]);
    // Role 1 has no w in `/rep`; role 0 has, and may everything below too.
    say_all(trial, &[("2,commit,/u2/d", "ok,2"), ("2,commit,/u2/d/b", "no,5"), ("1,commit,/u1/w", "ok,1")]);
    trial.shows("/rep/b,f,17,17,0440,2,-,0,/u1/w/b");
    trial.shows("/rep/cut/a,f,17,17,0440,2,-,0,/u1/w/a");
    // An entry of role 0 in a directory where role 1 may write.
    say_all(trial, &[("1,del,/rep/cut/a", "ok"), ("1,add,/u1/w/a,/rep/cut/a,0", "ok"), ("1,commit,/u1/w/a", "ok")]);
    say_all(trial, &[("2,commit,/u2/d/a", "no,5"), ("2,commit,/u2/d", "ok,1"), ("1,commit,/u1/w", "ok,2")]);
    // The account's walk is its own: root takes x on the way.
    say_all(trial, &[("0,chmod,/rep/cut,0660", "ok"), ("2,commit,/u2/d", "ok,0"), ("1,commit,/u1/w", "ok,1")]);
    say_all(trial, &[("0,chmod,/rep/cut,0550", "ok"), ("2,commit,/u2/d", "ok,0"), ("0,chmod,/rep/cut,0370", "ok")]);
    say_all(trial, &[("2,commit,/u2/d", "ok,1"), ("2,logout", "ok"), ("2,commit,/u2/d", "no,12")]);
}

fn spent(trial: &mut Trial) {
    say_all(trial, &[("1,login,0,oak", "ok"), ("1,mkdir,/u1/d,0700", "ok")]);
    for name in ["a", "b", "c"] {
        filed(trial, &format!("/u1/d/{name}"), &format!("/rep/{name}"), 0);
    }
    trial.revise("/rep/a", "/u1/d/a", 9998);
    trial.revise("/rep/b", "/u1/d/b", 9999);
    say_all(trial, &[("1,commit,/u1/d/b", "no,16"), ("1,commit,/u1/d", "ok,2"), ("1,commit,/u1/d/a", "no,16")]);
    trial.shows("/rep/a,f,16,16,0440,9999,-,0,/u1/d/a");
    trial.shows("/u1/d/a,f,1,1,0600,0,/rep/a,9999,/u1/d/a");
    say_all(trial, &[("1,commit,/u1/d", "ok,1"), ("1,co,/rep/a,/u1/d/aa", "ok"), ("1,commit,/u1/d", "ok,1")]);
    // Two copies at 9998: the first takes the last revision.
    trial.revise("/rep/a", "/u1/d/aa", 9998);
    trial.revise("/rep/a", "/u1/d/a", 9998);
    say_all(trial, &[("1,commit,/u1/d", "ok,2"), ("1,commit,/u1/d/aa", "no,14"), ("1,commit,/u1/d/a", "no,16")]);
    say_all(trial, &[("1,chmod,/u1/d/c,0000", "ok"), ("1,commit,/u1/d", "ok,0")]);
}

fn root(trial: &mut Trial) {
    trial.restart(WITH_ROOT);
    say_all(trial, &[("0,commit,/", "no,12"), ("0,login,0,ash", "ok"), ("0,commit,/", "ok,0"), ("0,commit,/rep", "ok,0")]);
    // A content goes on from file to file: `/a` to `/rep/b`, whose tag is of `/rep/c`.
    say_all(trial, &[("0,create,/a,0000", "ok"), ("0,add,/a,/rep/b,0", "ok"), ("0,add,/rep/b,/rep/c,0", "ok")]);
    say_all(trial, &[("0,write,/a,oak", "ok"), ("0,commit,/", "ok,2"), ("0,read,/rep/c", "ok,oak")]);
    trial.shows("/rep/b,f,16,16,0440,2,/rep/c,2,oak");
    trial.shows("/rep/c,f,16,16,0440,2,-,0,oak");
    // Against path order it takes one command for each step: `/rep/c` to `/rep/a`, which comes first.
    say_all(trial, &[("0,add,/rep/c,/rep/a,0", "ok"), ("0,add,/rep/a,/rep/0,0", "ok"), ("0,write,/a,elm", "ok")]);
    say_all(
        trial,
        &[("0,commit,/", "ok,4"), ("0,read,/rep/a", "ok,elm"), ("0,read,/rep/0", "ok,oak"), ("0,commit,/rep", "ok,3")],
    );
    trial.shows("/rep/0,f,16,16,0440,3,-,0,elm");
    // A file that is its own entry: its commit finds the tag and leaves the content.
    say_all(trial, &[("0,create,/x,0640", "ok"), ("0,add,/x,/rep/x,0", "ok"), ("0,chown,/x,16", "ok"), ("0,mv,/x,/rep/x", "ok")]);
    say_all(trial, &[("0,commit,/rep/x", "no,14"), ("0,up,/rep/x", "ok"), ("0,commit,/rep", "ok,4"), ("0,commit,/rep", "ok,4")]);
    trial.shows("/rep/x,f,16,0,0640,2,/rep/x,2,");
    // The account is tested in full, also for root.
    say_all(
        trial,
        &[("0,chmod,/rep,0050", "ok"), ("0,commit,/rep", "ok,0"), ("0,chmod,/rep,0750", "ok"), ("0,commit,/rep", "ok,4")],
    );
    say_all(trial, &[("0,chmod,/,0700", "ok"), ("0,commit,/", "ok,0"), ("0,commit,/rep", "ok,0"), ("0,commit,/u1", "ok,0")]);
}
