//! What is measured: a call for each command, and stores of a given number of nodes on which it is done or refused.

use crate::plain::{self, ANSWER, STORE, TREE};

/// The call that is measured.
pub enum Call {
    Setup(Vec<u8>),
    Run(&'static str),
    FirstLine,
    LastLine,
}

/// A call, the lines that must stand before it, and the number it gives.
pub struct Case {
    pub name: &'static str,
    pub call: Call,
    needs: &'static [&'static str],
    number: u32,
}

const SETUP: &[u8] = b"p,1,1\nr,0,1\nl,1,0,oak\nend\n";
const FILE: &[&str] = &["1,create,/u1/m,0600", "1,write,/u1/m,oak plank 51 by 32"];
const LONG_WRITE: &str = "1,write,/u1/m,elm plank 40 by 20 sanded; larch 51 by 32; 22 22 22 35 35; 4 kerf; best side out";
const TWO_FILES: &[&str] = &["1,create,/u1/m,0600", "1,write,/u1/m,oak plank 51 by 32", "1,create,/u1/z,0600"];
const DIRECTORY: &[&str] = &["1,mkdir,/u1/m,0700"];
const ENTRY: &[&str] = &["1,create,/u1/m,0600", "1,write,/u1/m,oak plank 51 by 32", "1,add,/u1/m,/rep/m,1"];
const ENTRIES: &[&str] = &["1,mkdir,/u1/m,0700", "1,add,/u1/m,/rep/m,1"];

pub fn cases() -> Vec<Case> {
    let run = |name, line, needs, number| Case { name, call: Call::Run(line), needs, number };
    let setup = |name, text| Case { name, call: Call::Setup(text), needs: &[], number: 0 };
    vec![
        run("create", "1,create,/u1/m,0600", &[], 0),
        run("mkdir", "1,mkdir,/u1/m,0700", &[], 0),
        run("read, file", "1,read,/u1/m", FILE, 0),
        run("read, directory", "1,read,/u1", FILE, 0),
        run("write", "1,write,/u1/m,elm plank 40 by 20 sanded", FILE, 0),
        run("write, 80 bytes", LONG_WRITE, FILE, 0),
        run("rm", "1,rm,/u1/m", FILE, 0),
        run("rmdir", "1,rmdir,/u1/m", DIRECTORY, 0),
        run("mv, file", "1,mv,/u1/m,/u1/z", FILE, 0),
        run("mv, directory", "1,mv,/u1/m,/u1/z", DIRECTORY, 0),
        run("mv, onto a file", "1,mv,/u1/m,/u1/z", TWO_FILES, 0),
        run("chmod", "1,chmod,/u1/m,0640", FILE, 0),
        run("chgrp", "1,chgrp,/u1/m,1", FILE, 0),
        run("chown", "0,chown,/u1/m,2", FILE, 0),
        run("login", "1,login,0,oak", &[], 0),
        run("logout", "1,logout", &[], 0),
        run("cd", "1,cd,/u1/m", DIRECTORY, 0),
        run("read, short", "1,read,m", FILE, 0),
        run("mv, short", "1,mv,m,z", FILE, 0),
        run("commit, short", "1,commit,m", ENTRY, 0),
        run("add", "1,add,/u1/m,/rep/m,1", FILE, 0),
        run("co, file", "1,co,/rep/m,/u1/k", ENTRY, 0),
        run("co, directory", "1,co,/rep/m,/u1/k", ENTRIES, 0),
        run("commit", "1,commit,/u1/m", ENTRY, 0),
        run("commit, directory", "1,commit,/u1", ENTRY, 0),
        run("up", "1,up,/u1/m", ENTRY, 0),
        run("del", "1,del,/rep/m", ENTRY, 0),
        run("refused 1", "1,create,/u1/m", &[], 1),
        run("refused 5", "1,create,/rep/m,0600", &[], 5),
        run("refused 3", "1,read,/u1/m", &[], 3),
        setup("setup, small", SETUP.to_vec()),
        setup("setup, full", full_setup()),
        Case { name: "listing, first", call: Call::FirstLine, needs: FILE, number: 0 },
        Case { name: "listing, last", call: Call::LastLine, needs: FILE, number: 0 },
    ]
}

/// 15 persons with a further group each, 28 pairs and 32 grants.
fn full_setup() -> Vec<u8> {
    let mut text = String::new();
    (1..=15).for_each(|uid| text += &format!("p,{uid},{uid}\n"));
    (1..=15).for_each(|uid| text += &format!("g,{uid},{}\n", 16 - uid));
    (0..8).for_each(|s| (s + 1..8).for_each(|j| text += &format!("r,{s},{j}\n")));
    (0..32).for_each(|n| text += &format!("l,{},{},pw_{n:05}\n", n % 16, n / 4));
    (text + "end\n").into_bytes()
}

impl Case {
    /// The fullest store of at most so many nodes on which the call gives its number.
    pub fn store(&self, nodes: usize) -> Vec<u8> {
        let gives = |store: &Vec<u8>| self.call_plain(&mut store.clone(), &mut [0; ANSWER]) == self.number;
        (3..=nodes).rev().map(|n| self.filled(n)).find(gives).expect("some store is small enough")
    }

    pub fn call_plain(&self, store: &mut [u8], into: &mut [u8]) -> u32 {
        match &self.call {
            Call::Setup(text) => plain::setup(store, text),
            Call::Run(line) => plain::run(store, line.as_bytes(), into),
            Call::FirstLine => plain::listing(store, 0, into),
            Call::LastLine => plain::listing(store, nodes(store) - 1, into),
        }
        .number
    }

    /// What the call needs, filled up with directories, files and entries, half of them below what is moved or copied.
    fn filled(&self, most: usize) -> Vec<u8> {
        let mut store = vec![0; STORE];
        assert_eq!(plain::setup(&mut store, SETUP).number, 0);
        do_line(&mut store, "1,login,0,oak");
        self.needs.iter().for_each(|line| do_line(&mut store, line));
        let inner = if self.needs.first() == DIRECTORY.first() && self.name != "rmdir" { "/u1/m/d" } else { "/u1/d" };
        let rep = if self.needs.len() == ENTRIES.len() && self.needs[1] == ENTRIES[1] { "/rep/m" } else { "/rep" };
        for step in 0.. {
            if nodes(&store) >= most {
                break;
            }
            let (group, part) = (step / 8, step % 8);
            let directory = format!("{}{group}", if group % 2 == 0 { inner } else { "/u1/t" });
            let file = format!("{directory}/file{}", part - part % 2);
            if part == 0 {
                do_line(&mut store, &format!("1,mkdir,{directory},0755"));
            } else if part % 2 == 1 {
                let file = format!("{directory}/file{}", part + 1);
                do_line(&mut store, &format!("1,create,{file},0644"));
                do_line(&mut store, &format!("1,write,{file},plank {step} of oak 51 by 32"));
            } else {
                do_line(&mut store, &format!("1,add,{file},{rep}/e{step},1"));
            }
        }
        store
    }
}

/// The number of nodes in a store.
pub fn nodes(store: &[u8]) -> usize {
    u16::from_le_bytes([store[TREE], store[TREE + 1]]).into()
}

/// A line that must be done.
pub fn do_line(store: &mut [u8], line: &str) {
    let answer = plain::run(store, line.as_bytes(), &mut [0; ANSWER]);
    assert_eq!(answer.number, 0, "{line}");
}
