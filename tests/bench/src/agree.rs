//! Random setups and lines through the library and plain Rust: number, value and both whole buffers after each call; and searches
//! for a child.

use crate::cases::nodes;
use crate::fixed::{DIRECTORY_COMMITS, SELDOM};
use crate::library;
use crate::plain::{self, Answer, ANSWER, STORE, TREE};
use crate::random::Random;
use crate::search::{search, Search};

const SHOWN: usize = 20;

/// Where the rows begin, the bytes of one, and its name's field.
const ROWS: usize = TREE + 2;
const ROW: usize = 227;
const NAME: std::ops::Range<usize> = 8..16;

/// The calls and the numbers that each can give.
const GIVEN: [(&str, &[u32]); 3] = [
    ("setup", &[0, 17, 18]),
    ("run", &[0, 1, 2, 3, 4, 5, 6, 7, 8, 9, 10, 11, 12, 13, 14, 15, 16, 18, 19, 20]),
    ("listing", &[0, 3, 18, 20]),
];

/// A store and an answer buffer.
#[derive(Clone, PartialEq)]
struct Buffers {
    store: Vec<u8>,
    into: Vec<u8>,
}

enum Call<'a> {
    Setup(&'a [u8]),
    Run(&'a [u8]),
    Listing(usize),
}

/// Comparisons, how often each call gave each number, how often a child was found, missing, or sought where no row is, and how
/// often a directory's commit was of none, of one, of several, or refused for want of r or x.
struct Tally {
    passed: usize,
    failed: usize,
    numbers: [[usize; 21]; GIVEN.len()],
    searches: [usize; 3],
    commits: [usize; 4],
}

impl Call<'_> {
    /// Its place in `GIVEN`.
    fn place(&self) -> usize {
        match self {
            Call::Setup(_) => 0,
            Call::Run(_) => 1,
            Call::Listing(_) => 2,
        }
    }
}

impl Tally {
    /// Fails for each number that did not come up, for each that no call can give, and for each kind of search that did not.
    fn check_numbers(&mut self) {
        for ((call, given), counts) in GIVEN.iter().zip(self.numbers) {
            let shown: Vec<String> = given.iter().map(|n| format!("{n}: {}", counts[*n as usize])).collect();
            println!("{call:8} {}", shown.join("  "));
            for (number, count) in counts.iter().enumerate() {
                if (*count > 0) != given.contains(&(number as u32)) {
                    println!("{call}, {number}: {count} times");
                    self.failed += 1;
                }
            }
        }
        println!("searches found {}  missing {}  no row {}", self.searches[0], self.searches[1], self.searches[2]);
        self.failed += self.searches.iter().filter(|count| **count == 0).count();
    }

    /// Fails for each outcome of a directory's commit that did not come up in these lines, and counts anew.
    fn check_commits(&mut self, lines: &str) {
        let [none, one, several, refused] = std::mem::take(&mut self.commits);
        println!("directory commits, {lines} lines: of none {none}  of one {one}  of several {several}  refused {refused}");
        self.failed += [none, one, several, refused].iter().filter(|count| **count == 0).count();
    }
}

pub fn agree(seed: u64, lines: u64) -> bool {
    let mut random = Random::new(seed);
    let mut tally = Tally { passed: 0, failed: 0, numbers: [[0; 21]; GIVEN.len()], searches: [0; 3], commits: [0; 4] };
    let mut buffers = Buffers { store: vec![0x5a; STORE], into: vec![0xa5; ANSWER] };
    fixed(&mut buffers, &mut tally);
    tally.check_commits("fixed");
    let mut left = lines;
    while left > 0 {
        let text = random.setup();
        odd_setup(&mut random, &text, &mut tally);
        if both(&mut buffers, &Call::Setup(&text), &mut tally).number != 0 {
            continue;
        }
        random.growing = random.once_in(4);
        let run = left.min(100 + random.below(3000) as u64);
        for n in 0..run {
            match n {
                0..40 => {
                    both(&mut buffers, &Call::Run(&random.login()), &mut tally);
                }
                40..200 if random.growing => {
                    let line = format!("0,mkdir,/n{n},0777");
                    both(&mut buffers, &Call::Run(line.as_bytes()), &mut tally);
                }
                _ => step(&mut random, &mut buffers, &mut tally),
            }
            if random.once_in(1000) {
                age(&mut buffers.store);
            }
        }
        left -= run;
    }
    tally.check_commits("random");
    tally.check_numbers();
    println!("{} passed, {} failed", tally.passed, tally.failed);
    tally.failed == 0
}

/// The fixed lines; then commits where all revisions are the last (16, and of none), and more nodes than there is room for (10).
fn fixed(buffers: &mut Buffers, tally: &mut Tally) {
    both(buffers, &Call::Setup(b"p,1,1\nl,1,0,oak\n"), tally);
    both(buffers, &Call::Setup(b"p,1,1\nl,1,0,oak\nend\n"), tally);
    for line in SELDOM.iter().chain(&DIRECTORY_COMMITS) {
        both(buffers, &Call::Run(line.as_bytes()), tally);
    }
    age(&mut buffers.store);
    both(buffers, &Call::Run(b"1,commit,/u1/a"), tally);
    both(buffers, &Call::Run(b"1,commit,/u1"), tally);
    for n in 0..256 {
        both(buffers, &Call::Run(format!("0,mkdir,/n{n},0777").as_bytes()), tally);
    }
}

/// A setup into a buffer that is no store.
fn odd_setup(random: &mut Random, text: &[u8], tally: &mut Tally) {
    let length = [0, STORE - 1, STORE + 1][random.below(3)];
    let mut buffers = Buffers { store: vec![0x5a; length], into: vec![0xa5; ANSWER] };
    both(&mut buffers, &Call::Setup(text), tally);
}

/// One line; now and then on a spoilt store, with a short or long answer buffer, or a listing.
fn step(random: &mut Random, buffers: &mut Buffers, tally: &mut Tally) {
    let nodes = nodes(&buffers.store);
    let line = random.line(&buffers.store, nodes);
    if random.once_in(10) {
        let mut spoilt = buffers.clone();
        spoil(random, &mut spoilt.store, nodes);
        both(&mut spoilt, &Call::Run(&line), tally);
        search_both(random, &spoilt.store, nodes, tally);
    }
    if random.once_in(10) {
        search_both(random, &buffers.store, nodes, tally);
        both(buffers, &Call::Listing(random.below(nodes + 2)), tally);
    }
    if random.once_in(50) {
        list_oddly(random, buffers, nodes, tally);
    }
    let length = if random.once_in(20) { [0, ANSWER - 1, ANSWER + 1, 5000][random.below(4)] } else { ANSWER };
    buffers.into.resize(length, 0xa5);
    both(buffers, &Call::Run(&line), tally);
    buffers.into.resize(ANSWER, 0xa5);
}

/// A search by both: for a row's name where it stands, or for some of its field below any row or past the last.
fn search_both(random: &mut Random, store: &[u8], nodes: usize, tally: &mut Tally) {
    let (Some(tree), Some(rows)) = (store.get(TREE..), store.get(ROWS..ROWS + ROW * nodes)) else { return };
    let rows: Vec<&[u8]> = rows.chunks(ROW).collect();
    let named = random.below(nodes);
    let field = &rows[named][NAME];
    let (at, length) = if random.once_in(2) {
        let above = rows[..named].iter().rposition(|row| row[0] < rows[named][0]);
        (above.unwrap_or(0), field.iter().position(|b| *b == 0).unwrap_or(field.len()))
    } else {
        (random.below(nodes + 1), random.below(field.len() + 1))
    };
    let name = &field[..length];
    let (ours, theirs) = (search(tree, at, name), plain::search(tree, at, name));
    match theirs {
        Some(Search { child: Ok(_), .. }) => tally.searches[0] += 1,
        Some(Search { child: Err(_), .. }) => tally.searches[1] += 1,
        None => tally.searches[2] += 1,
    }
    if ours == theirs {
        tally.passed += 1;
    } else {
        tally.failed += 1;
        if tally.failed <= SHOWN {
            println!("search below {at} for {name:?}: library {ours:?}, plain {theirs:?}");
        }
    }
}

/// A listing with a short answer buffer, or of a spoilt store.
fn list_oddly(random: &mut Random, buffers: &Buffers, nodes: usize, tally: &mut Tally) {
    let mut odd = buffers.clone();
    if random.once_in(2) {
        odd.into.truncate(random.below(ANSWER));
    } else {
        spoil(random, &mut odd.store, nodes);
    }
    both(&mut odd, &Call::Listing(random.below(nodes + 2)), tally);
}

/// Makes every revision that is not 0 the last one.
fn age(store: &mut [u8]) {
    let nodes = nodes(store);
    for row in store[ROWS..].chunks_mut(ROW).take(nodes) {
        for at in [6, 65] {
            if row[at..at + 2] != [0, 0] {
                row[at..at + 2].copy_from_slice(&9999u16.to_le_bytes());
            }
        }
    }
}

/// Changes one or two bytes, mostly among the used ones, or the length.
fn spoil(random: &mut Random, store: &mut Vec<u8>, nodes: usize) {
    if random.once_in(30) {
        store.resize([0, STORE - 1, STORE + 1][random.below(3)], 0);
        return;
    }
    for _ in 0..1 + random.below(2) {
        let row = ROWS + ROW * random.below(nodes);
        let at = match random.below(8) {
            0 => random.below(STORE),
            1 => random.below(450),
            2 => TREE + random.below(2),
            3 => ROWS + ROW * nodes.saturating_sub(1) + random.below(2 * ROW),
            4 | 5 => row + random.below(20),
            _ => row + random.below(160),
        }
        .min(STORE - 1);
        let byte = match random.below(4) {
            0 => store[at].wrapping_add(1),
            1 => random.below(256) as u8,
            _ => {
                [0, 1, 2, 4, 6, 7, 8, 9, 15, 16, 23, 24, 25, 28, 29, 32, 33, 39, 44, 47, 97, 100, 102, 126, 127][random.below(25)]
            }
        };
        store[at] = byte;
    }
}

/// The call by both, each on its own copy; the library's goes on.
fn both(buffers: &mut Buffers, call: &Call, tally: &mut Tally) -> Answer {
    let mut other = buffers.clone();
    let (ours, theirs) = match call {
        Call::Setup(text) => (library::setup(&mut buffers.store, text), plain::setup(&mut other.store, text)),
        Call::Run(line) => {
            (library::run(&mut buffers.store, line, &mut buffers.into), plain::run(&mut other.store, line, &mut other.into))
        }
        Call::Listing(n) => {
            (library::listing(&buffers.store, *n, &mut buffers.into), plain::listing(&other.store, *n, &mut other.into))
        }
    };
    tally.numbers[call.place()][theirs.number as usize] += 1;
    if let Some(outcome) = directory_commit(call, theirs, &other) {
        tally.commits[outcome] += 1;
    }
    if ours == theirs && *buffers == other {
        tally.passed += 1;
    } else {
        tally.failed += 1;
        if tally.failed <= SHOWN {
            show(call, ours, theirs, buffers, &other);
        }
    }
    ours
}

/// What became of a directory's commit, as its place in the tally.
fn directory_commit(call: &Call, answer: Answer, after: &Buffers) -> Option<usize> {
    let Call::Run(line) = call else { return None };
    if !leads_to_directory(line, &after.store) {
        return None;
    }
    match answer.number {
        0 => match after.into.get(..answer.value as usize)? {
            b"0" => Some(0),
            b"1" => Some(1),
            _ => Some(2),
        },
        5 => Some(3),
        _ => None,
    }
}

/// Whether a line is a commit whose caller's walk leads to a directory: `write` there is refused as of the wrong kind.
fn leads_to_directory(line: &[u8], store: &[u8]) -> bool {
    let Some((caller, path)) = std::str::from_utf8(line).ok().and_then(|line| line.split_once(",commit,")) else { return false };
    let write = format!("{caller},write,{path},");
    plain::run(&mut store.to_vec(), write.as_bytes(), &mut [0; ANSWER]).number == 7
}

fn show(call: &Call, ours: Answer, theirs: Answer, buffers: &Buffers, other: &Buffers) {
    match call {
        Call::Setup(text) => println!("setup {:?}", String::from_utf8_lossy(text)),
        Call::Run(line) => println!("run {:?}", String::from_utf8_lossy(line)),
        Call::Listing(n) => println!("listing {n}"),
    }
    println!("  library {ours:?}, plain {theirs:?}");
    let differs = |a: &[u8], b: &[u8]| a.iter().zip(b).position(|(x, y)| x != y);
    if let Some(at) = differs(&buffers.store, &other.store) {
        println!("  stores differ first at {at}: {} and {}", buffers.store[at], other.store[at]);
    }
    if let Some(at) = differs(&buffers.into, &other.into) {
        println!("  answers differ first at {at}: {} and {}", buffers.into[at], other.into[at]);
    }
}
