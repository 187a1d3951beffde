//! What the search for a child takes beside the same pass in plain Rust; and what a `read` takes that makes many steps, beside plain
//! Rust that compares each name as one number.

use crate::bench::{least, overhead};
use crate::plain::{self, ANSWER, STORE, TREE};
use crate::search::{search, Search};
use crate::{cases, library};

const SETUP: &[u8] = b"p,1,1\nend\n";

/// A place with many children, or places below one another, and the names that are sought from `/` on.
struct Walk {
    name: &'static str,
    path: &'static str,
    lines: Vec<String>,
}

fn walks() -> [Walk; 2] {
    let mut deep = Vec::new();
    let mut at = "/u1".to_string();
    for name in ["elm", "larch", "oak", "pine"] {
        (0..8).for_each(|n| deep.push(format!("1,mkdir,{at}/{name}{n},0755")));
        at += &format!("/{name}5");
    }
    deep.push(format!("1,create,{at}/saw,0600"));
    let wide = (0..250).map(|n| format!("1,create,/u1/plank{n:03},0600")).collect();
    [
        Walk { name: "six names", path: "/u1/elm5/larch5/oak5/pine5/saw", lines: deep },
        Walk { name: "last of 250", path: "/u1/plank249", lines: wide },
    ]
}

impl Walk {
    fn store(&self) -> Vec<u8> {
        let mut store = vec![0; STORE];
        assert_eq!(plain::setup(&mut store, SETUP).number, 0);
        self.lines.iter().for_each(|line| cases::do_line(&mut store, line));
        store
    }

    /// The steps of the searches for the names from `/` on, each below the one before.
    fn steps(&self, tree: &[u8], by: impl Fn(&[u8], usize, &[u8]) -> Option<Search>) -> u64 {
        let mut row = 0;
        let mut sum = 0;
        for name in self.path.split('/').skip(1) {
            let Some(Search { child: Ok(at), steps }) = by(tree, row, name.as_bytes()) else {
                panic!("{} is missing", self.path);
            };
            row = at;
            sum += steps;
        }
        sum
    }
}

pub fn searches() {
    let overhead = overhead();
    println!("nanoseconds for all names of a path, the clock's {overhead:.0} taken off");
    println!("{:<12} {:<8} {:>6} {:>10} {:>10} {:>7}", "path", "by", "steps", "library ns", "Rust ns", "ratio");
    for walk in walks() {
        let mut store = walk.store();
        let steps = walk.steps(&store[TREE..], search);
        assert_eq!(steps, walk.steps(&store[TREE..], plain::search));
        let tree = &store[TREE..];
        let (ours, theirs) = least(|| walk.steps(tree, search), || walk.steps(tree, plain::search));
        row(walk.name, "search", steps, ours - overhead, theirs - overhead);
        let line = format!("1,read,{}", walk.path);
        let mut other = store.clone();
        let (mut into, mut other_into) = ([0; ANSWER], [0; ANSWER]);
        assert_eq!(library::run(&mut store, line.as_bytes(), &mut into).number, 0);
        let (ours, theirs) = least(
            || u64::from(library::run(&mut store, line.as_bytes(), &mut into).number),
            || u64::from(plain::run(&mut other, line.as_bytes(), &mut other_into).number),
        );
        row(walk.name, "read", steps, ours - overhead, theirs - overhead);
    }
}

fn row(name: &str, by: &str, steps: u64, library: f64, plain: f64) {
    println!("{name:<12} {by:<8} {steps:>6} {library:>10.0} {plain:>10.0} {:>7.2}", library / plain);
}
