//! What a directory's commit takes by the number of its files, beside plain Rust. Each file is tagged to an entry of its own and
//! accepted. All stores have the same 60 files and entries; they differ in which of the files lie in the directory.

use crate::bench::{measure, overhead, Times};
use crate::plain::{self, ANSWER, STORE};
use crate::{cases, library};

const SETUP: &[u8] = b"p,1,1\nl,1,0,oak\nend\n";
const LINE: &[u8] = b"1,commit,/u1/oak";
const FILES: usize = 60;
const COMMITTED: [usize; 5] = [0, 1, 15, 30, FILES];

/// What the names of all entries begin with. Plain Rust compares a name as one number, the library byte by byte.
const LETTERS: [&str; 2] = ["e", "plank_"];

/// A store in which so many of the files, evenly chosen, lie in the directory that is committed.
fn store(committed: usize, letters: &str) -> Vec<u8> {
    let mut store = vec![0; STORE];
    assert_eq!(plain::setup(&mut store, SETUP).number, 0);
    let mut line = |line: &str| cases::do_line(&mut store, line);
    line("1,login,0,oak");
    line("1,mkdir,/u1/elm,0755");
    line("1,mkdir,/u1/oak,0755");
    for n in 0..FILES {
        let is_committed = (n + 1) * committed / FILES > n * committed / FILES;
        let file = format!("/u1/{}/{n}", if is_committed { "oak" } else { "elm" });
        line(&format!("1,create,{file},0644"));
        line(&format!("1,write,{file},plank {n} of oak 51 by 32"));
        line(&format!("1,add,{file},/rep/{letters}{n:02},0"));
    }
    store
}

pub fn commits() {
    let overhead = overhead();
    println!("nanoseconds of a directory's commit, the clock's {overhead:.0} taken off; a file: beyond a commit of none");
    println!(
        "{:<8} {:>5} {:>10} {:>10} {:>7}   {:>15} {:>12} {:>7}",
        "entries", "files", "library ns", "Rust ns", "ratio", "library, a file", "Rust, a file", "ratio"
    );
    for letters in LETTERS {
        let mut none = None;
        for committed in COMMITTED {
            let store = store(committed, letters);
            check(&store, committed);
            let times = measure(
                &store,
                overhead,
                |work, into| library::run(work, LINE, into).number,
                |work, into| plain::run(work, LINE, into).number,
            );
            row(letters, committed, times, *none.get_or_insert(times));
        }
    }
}

/// Both commit so many.
fn check(store: &[u8], committed: usize) {
    let text = committed.to_string();
    for run in [library::run, plain::run] {
        let mut into = [0; ANSWER];
        let answer = run(&mut store.to_vec(), LINE, &mut into);
        assert_eq!((answer.number, &into[..answer.value as usize]), (0, text.as_bytes()));
    }
}

fn row(letters: &str, files: usize, times: Times, none: Times) {
    print!("{letters:<8} {files:>5} {:>10.0} {:>10.0} {:>7.2}", times.library, times.plain, times.library / times.plain);
    if files > 0 {
        let a_file = |time, none| (time - none) / files as f64;
        let (library, plain) = (a_file(times.library, none.library), a_file(times.plain, none.plain));
        print!("   {library:>15.1} {plain:>12.1} {:>7.2}", library / plain);
    }
    println!();
}
