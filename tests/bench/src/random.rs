//! A moderate generator of setups and lines: few names and numbers, so that most lines meet something.

use crate::plain::{self, ANSWER, CONTENT_LIMIT};

const NAMES: [&str; 14] = ["rep", "u1", "u2", "u3", "a", "b", "c", "d", "e", "f", "aa", "0", "_", "long_one"];
const PASSWORDS: [&str; 3] = ["oak", "elm", "ash"];
const MODES: [&str; 14] =
    ["0755", "0755", "0777", "0777", "0700", "0770", "0600", "0644", "0444", "0040", "0711", "2775", "2750", "0000"];
/// The last ten do not come where a store is to grow.
const COMMANDS: [&str; 34] = [
    "create", "create", "create", "mkdir", "mkdir", "mkdir", "read", "write", "write", "mv", "mv", "login", "login", "add",
    "add", "add", "add", "co", "co", "co", "co", "commit", "commit", "up", "chmod", "chgrp", "chown", "rm", "rmdir", "del",
    "del", "logout", "cd", "cd",
];

/// Xorshift numbers.
pub struct Random {
    state: u64,
    pub growing: bool,
}

impl Random {
    pub fn new(seed: u64) -> Self {
        Random { state: seed.wrapping_mul(0x9e37_79b9_7f4a_7c15) | 1, growing: false }
    }

    pub fn below(&mut self, n: usize) -> usize {
        self.state ^= self.state << 13;
        self.state ^= self.state >> 7;
        self.state ^= self.state << 17;
        (self.state.wrapping_mul(0x2545_f491_4f6c_dd1d) >> 33) as usize % n
    }

    /// One time in n.
    pub fn once_in(&mut self, n: usize) -> bool {
        self.below(n) == 0
    }

    fn pick<'a>(&mut self, from: &[&'a str]) -> &'a str {
        from[self.below(from.len())]
    }

    /// A setup of up to 3 persons, now and then a wrong one.
    pub fn setup(&mut self) -> Vec<u8> {
        let mut lines = Vec::new();
        for uid in 1..=3 {
            if !self.once_in(12) {
                lines.push(format!("p,{uid},{}", 1 + self.below(3)));
            }
        }
        for _ in 0..self.below(3) {
            lines.push(format!("g,{},{}", 1 + self.below(3), 1 + self.below(4)));
        }
        for _ in 0..self.below(8) {
            let senior = self.below(4);
            lines.push(format!("r,{senior},{}", senior + 1 + self.below(3)));
        }
        for uid in 0..=3 {
            lines.push(format!("l,{uid},{},oak", self.below(2)));
        }
        for _ in 0..self.below(8) {
            lines.push(format!("l,{},{},{}", self.below(4), self.below(5), self.pick(&PASSWORDS)));
        }
        lines.push("end\n".to_string());
        if self.once_in(8) {
            let (a, b) = (self.below(lines.len()), self.below(lines.len()));
            lines.swap(a, b);
        }
        let mut text = lines.join("\n").into_bytes();
        self.spoil(&mut text, 8);
        text
    }

    /// Changes, puts in or takes out a byte, one time in n.
    fn spoil(&mut self, text: &mut Vec<u8>, n: usize) {
        if text.is_empty() || !self.once_in(n) {
            return;
        }
        let at = self.below(text.len());
        let byte = b",/0129az_\n\r A"[self.below(13)];
        match self.below(3) {
            0 => text[at] = byte,
            1 => text.insert(at, byte),
            _ => {
                text.remove(at);
            }
        }
    }

    /// The path of some node, if possible of a directory where one is asked for.
    fn existing(&mut self, store: &[u8], nodes: usize, directory: bool) -> String {
        let mut path = String::new();
        for _ in 0..6 {
            let mut into = [0; ANSWER];
            plain::listing(store, self.below(nodes.max(1)), &mut into);
            let end = into.iter().position(|&b| b == b',').unwrap_or(0);
            path = String::from_utf8_lossy(&into[..end]).trim_end_matches('/').to_string();
            if !directory || into[end + 1] == b'd' {
                break;
            }
        }
        path
    }

    /// The path of some node that has a tag, if one is soon found.
    fn tagged(&mut self, store: &[u8], nodes: usize) -> String {
        for _ in 0..20 {
            let mut into = [0; ANSWER];
            let line = plain::listing(store, self.below(nodes.max(1)), &mut into);
            let text = String::from_utf8_lossy(&into[..line.value as usize]).to_string();
            if let Some((path, _)) = text.split_once(',').filter(|(_, rest)| rest.contains(",/rep/")) {
                return path.to_string();
            }
        }
        self.path(store, nodes)
    }

    /// The path of some directory above a node that has a tag, if one is soon found.
    fn above_tagged(&mut self, store: &[u8], nodes: usize) -> String {
        let path = self.tagged(store, nodes);
        let ends: Vec<usize> = path.match_indices('/').map(|(at, _)| at).collect();
        match ends.len() {
            0 => path,
            names => path[..ends[self.below(names)].max(1)].to_string(),
        }
    }

    /// A path of the store's, or near one, or any.
    fn path(&mut self, store: &[u8], nodes: usize) -> String {
        let more = [0, 0, 1, 1, 1, 2][self.below(6)];
        let mut path = if self.once_in(8) { String::new() } else { self.existing(store, nodes, more > 0) };
        for _ in 0..more {
            path = path + "/" + self.pick(&NAMES);
        }
        if path.is_empty() {
            "/".to_string()
        } else if self.once_in(3) {
            self.shortened(&path)
        } else {
            path
        }
    }

    /// A path without its first names, or with more names than a path may have.
    fn shortened(&mut self, path: &str) -> String {
        let names: Vec<&str> = path.split('/').skip(1).collect();
        let kept = if self.once_in(12) { 0 } else { self.below(names.len()) };
        let more = if self.once_in(12) { "/a/b/c/d/e" } else { "" };
        names[kept..].join("/") + more
    }

    fn entry(&mut self, store: &[u8], nodes: usize) -> String {
        for _ in 0..20 {
            let path = self.path(store, nodes);
            if path.starts_with("/rep/") {
                return path;
            }
        }
        format!("/rep/{}", self.pick(&NAMES))
    }

    fn content(&mut self) -> String {
        let length = if self.once_in(10) { CONTENT_LIMIT - 4 + self.below(6) } else { self.below(30) };
        (0..length).map(|_| b" 09azAZ~/_-"[self.below(11)] as char).collect()
    }

    /// Mostly a person, where the store is to grow mostly root.
    fn caller(&mut self) -> usize {
        if self.growing {
            [0, 0, 0, 1, 2, 3][self.below(6)]
        } else {
            [0, 1, 1, 2, 2, 3][self.below(6)]
        }
    }

    /// A login that is often granted.
    pub fn login(&mut self) -> Vec<u8> {
        let (uid, password) = (self.below(4), if self.once_in(4) { self.pick(&PASSWORDS) } else { "oak" });
        let role = if self.once_in(4) { self.below(5) } else { self.below(2) };
        format!("{uid},login,{role},{password}").into_bytes()
    }

    /// A line about the files of a person's home: a few of them, made, filed, copied, written and committed together.
    fn filing(&mut self) -> Vec<u8> {
        let uid = 1 + self.below(3);
        let (home, name) = (format!("/u{uid}"), self.pick(&["a", "w/a", "w/b", "x"]));
        let entry = format!("/rep/{}{uid}", self.pick(&["a", "b", "c", "d"]));
        match self.below(11) {
            0 => format!("{uid},login,0,oak"),
            1 => format!("{uid},mkdir,{home}/w,{}", self.pick(&MODES)),
            2 | 3 => format!("{uid},create,{home}/{name},{}", self.pick(&MODES)),
            4 | 5 => format!("{uid},add,{home}/{name},{entry},{}", self.below(2)),
            6 => format!("{uid},co,{entry},{home}/{name}"),
            7 => format!("{uid},write,{home}/{name},{}", self.content()),
            8 => format!("{uid},chmod,{home}/w,{}", self.pick(&MODES)),
            9 => format!("{uid},commit,{home}/w"),
            _ => format!("{uid},commit,{home}"),
        }
        .into_bytes()
    }

    /// A line for a store of so many nodes.
    pub fn line(&mut self, store: &[u8], nodes: usize) -> Vec<u8> {
        if self.once_in(4) {
            return self.filing();
        }
        let uid = if self.once_in(20) { self.below(26) } else { self.caller() };
        let word = self.pick(if self.growing { &COMMANDS[..24] } else { &COMMANDS });
        let arguments = match word {
            "create" | "mkdir" | "chmod" => format!(",{},{}", self.path(store, nodes), self.pick(&MODES)),
            "read" | "rm" | "rmdir" | "cd" => format!(",{}", self.path(store, nodes)),
            "commit" if self.once_in(2) => format!(",{}", self.above_tagged(store, nodes)),
            "commit" | "up" => format!(",{}", self.tagged(store, nodes)),
            "write" => format!(",{},{}", self.path(store, nodes), self.content()),
            "mv" => format!(",{},{}", self.path(store, nodes), self.path(store, nodes)),
            "chgrp" | "chown" => format!(",{},{}", self.path(store, nodes), self.below(26)),
            "login" => return self.login(),
            "add" => format!(",{},{},{}", self.path(store, nodes), self.entry(store, nodes), self.below(6)),
            "co" => format!(",{},{}", self.entry(store, nodes), self.path(store, nodes)),
            "del" => format!(",{}", self.entry(store, nodes)),
            _ => String::new(),
        };
        let mut line = format!("{uid},{word}{arguments}").into_bytes();
        self.spoil(&mut line, 40);
        line
    }
}
