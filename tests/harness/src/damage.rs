//! Damaged stores: the library answers 18 exactly where the layout says unsound, and else as the model does.

use crate::generate::{Lines, Theme};
use crate::layout::*;
use crate::library::{self, Answer, NO_VALUE};
use crate::model::run::LEAST_ANSWER;
use crate::model::setup::read_setup;
use crate::model::state::{Grant, Kind, Node, Person, State, Tag, MOST_CONTENT};
use crate::rng::Rng;
use crate::setups::good_setup;
use crate::states::scramble;
use crate::tally::Tally;
use crate::twin::{differ, unlike, Bench, Twin};
use crate::{damage_cd, damage_content};

/// How many of the sound stores are full; they come last.
const FULL: usize = 3;
/// How many stores with damage done to rows and tables are tried.
const SHAPES: usize = 8_000;
/// How many stores with a value set at an end of its range.
const VALUES: usize = 12_000;

pub fn damage(seed: u64) -> Tally {
    let mut bench = Bench::new(seed);
    let stores = sound_stores(&mut bench);
    for store in &stores {
        judge(&mut bench, store.clone(), "nothing");
    }
    every_byte(&mut bench, &stores);
    for _ in 0..SHAPES {
        let mut store = bench.rng.pick(&stores).clone();
        damage_shape(&mut bench.rng, &mut store);
        judge(&mut bench, store, "damaged shape");
    }
    for _ in 0..VALUES {
        let mut store = bench.rng.pick(&stores).clone();
        let what = damage_value(&mut bench.rng, &mut store);
        judge(&mut bench, store, what);
    }
    lengths(&mut bench, &stores);
    odd_states(&mut bench);
    damage_cd::directories(&mut bench, &stores);
    damage_content::contents(&mut bench);
    bench.tally
}

/// Fresh ones, one with lines run on it, full ones, and random ones.
fn sound_stores(bench: &mut Bench) -> Vec<Vec<u8>> {
    let mut states = vec![fresh(b"end\n"), fresh(b"p,1,1\np,2,2\nr,0,1\nl,1,0,oak\nl,2,1,elm\nend\n")];
    states.push(crate::edges::example_state());
    for _ in 0..12 {
        let mut state = fresh(&good_setup(&mut bench.rng));
        scramble(&mut bench.rng, &mut state);
        states.push(state);
    }
    for _ in 0..FULL {
        let mut state = fresh(&good_setup(&mut bench.rng));
        crate::states::fill(&mut bench.rng, &mut state);
        states.push(state);
    }
    states.iter().map(encode).collect()
}

pub fn fresh(text: &[u8]) -> State {
    read_setup(text).expect("a good setup")
}

/// Each byte of the 65,536 changed: in a full store, where most rows are in use, or in another.
fn every_byte(bench: &mut Bench, stores: &[Vec<u8>]) {
    for at in 0..STORE {
        let from = if at % 2 == 0 { &stores[stores.len() - 1 - at / 2 % FULL] } else { &stores[at / 2 % stores.len()] };
        let mut store = from.clone();
        store[at] = other_byte(&mut bench.rng, store[at]);
        judge(bench, store, "one byte");
    }
}

/// Another value for a byte.
pub fn other_byte(rng: &mut Rng, byte: u8) -> u8 {
    let new = match rng.below(6) {
        0 => byte.wrapping_add(1),
        1 => byte.wrapping_sub(1),
        2 => byte ^ (1 << rng.below(8)),
        3 => 0,
        4 => *rng.pick(b"az09_/,df ~"),
        _ => rng.byte(),
    };
    if new == byte {
        !byte
    } else {
        new
    }
}

/// Rows and tables swapped, repeated, dropped or miscounted.
fn damage_shape(rng: &mut Rng, store: &mut [u8]) {
    let rows = two(store, ROWS);
    let (a, b) = (rng.below(rows), rng.below(rows));
    match rng.below(14) {
        0 => swap(store, row(a), row(b), ROW),
        1 => copy(store, row(a), row(b), ROW),
        2 => swap(store, row(a) + NAME, row(b) + NAME, 8),
        3 => copy(store, row(a) + NAME, row(b) + NAME, 8),
        4 => put_two(store, ROWS, *rng.pick(&[0, rows as u16 - 1, rows as u16 + 1, 256, 257, 65_535])),
        5 => drop_row(store, a),
        6 => store[row(a)] = rng.below(8) as u8,
        7 => swap(store, row(a), row(b), 1),
        8 => store[PAIRS] = store[PAIRS].wrapping_add(*rng.pick(&[1, 2, 255])),
        9 => store[GRANTS] = store[GRANTS].wrapping_add(*rng.pick(&[1, 2, 255])),
        10 => {
            let past = PAIRS + 1 + 2 * rng.below(28);
            store[past..past + 2].copy_from_slice(&[0, 1]);
        }
        11 => {
            let past = GRANTS + 1 + GRANT * rng.below(32);
            store[past..past + 3].copy_from_slice(&[0, 0, b'a']);
        }
        12 => copy(store, damage_cd::field(rng.below(16)), damage_cd::field(rng.below(16)), DIRECTORY),
        _ => swap(store, row(a) + KIND, row(b) + KIND, 1),
    }
}

fn row(n: usize) -> usize {
    TABLE + n * ROW
}

fn swap(store: &mut [u8], a: usize, b: usize, length: usize) {
    for n in 0..length {
        store.swap(a + n, b + n);
    }
}

fn copy(store: &mut [u8], from: usize, to: usize, length: usize) {
    store.copy_within(from..from + length, to);
}

/// Takes a row out, moves the later ones up and counts one less.
fn drop_row(store: &mut [u8], n: usize) {
    let rows = two(store, ROWS);
    store.copy_within(row(n + 1)..row(rows), row(n));
    store[row(rows - 1)..row(rows)].fill(0);
    put_two(store, ROWS, rows as u16 - 1);
}

/// One value at either side of an end of its range; what it was.
fn damage_value(rng: &mut Rng, store: &mut [u8]) -> &'static str {
    if rng.percent(30) {
        return damage_header(rng, store);
    }
    let at = row(rng.below(two(store, ROWS)));
    match rng.below(15) {
        0 => set(store, at + OWNER, *rng.pick(&[0, 15, 16, 23, 24, 255]), "owner"),
        1 => set(store, at + GROUP, *rng.pick(&[0, 15, 16, 24, 25, 255]), "group"),
        2 => set_two(store, at + MODE, *rng.pick(&[0, 0o777, 0o1000, 0o1777, 0o2000, 0o2777, 0o3000, 0o4000, 0o6755]), "mode"),
        3 => set_two(store, at + REVISION, *rng.pick(&[0, 1, 9_999, 10_000, 65_535]), "revision"),
        4 => set_two(store, at + TAG_REVISION, *rng.pick(&[0, 1, 9_999, 10_000, 65_535]), "tag revision"),
        5 => set(store, at + KIND, *rng.pick(b"dfDF\0"), "kind"),
        6 => set(store, at, rng.below(9) as u8, "depth"),
        7 => set_text(
            store,
            at + NAME,
            8,
            rng.pick::<&str>(&["", "a", "abcdefgh", "A", "a b", "a/b", "..", "zzzzzzzz", "rep"]),
            "name",
        ),
        8 | 9 => set_text(store, at + TAG_PATH, TAG_REVISION - TAG_PATH, tag_text(rng), "tag path"),
        10 => set_text(store, at + CONTENT, MOST_CONTENT, &"x".repeat(rng.below(MOST_CONTENT + 1)), "content's length"),
        11 => set_text(
            store,
            at + CONTENT,
            MOST_CONTENT,
            rng.pick::<&str>(&[" ", "~", "a,b", "\x1f", "\x7f", "a\0b", "/", "\n"]),
            "content",
        ),
        12 => set(store, at + ROW_SPARE - 1, *rng.pick(b"x ~,\x1f\x7f\x80\xff\0"), "last byte of a content's field"),
        13 => set(store, at + ROW_SPARE + rng.below(ROW - ROW_SPARE), 1, "kept bytes of a row"),
        _ => set(store, at + NAME + rng.below(8), *rng.pick(b"\0az_09{`:/^"), "byte of a name"),
    }
}

/// Tag paths that are entry paths, and such as nearly are.
fn tag_text(rng: &mut Rng) -> &'static str {
    const TEXTS: [&str; 18] = [
        "", "/", "/rep", "/rep/", "/rep/a", "/rep/a/", "/rep//a", "rep/a", "/rep/abcdefgh", "/rep/abcdefghi", "/u1/a",
        "/rep/a,b", "/rep/a/b/c/d/e", "/rep/a/b/c/d/e/f", "/rep/aaaaaaaa/bbbbbbbb/cccccccc/dddddddd/eeeeeeee", "/rep/A",
        "/repo/a", "/rep/a\0b",
    ];
    let text: &&str = rng.pick(&TEXTS);
    text
}

/// One value of the header.
fn damage_header(rng: &mut Rng, store: &mut [u8]) -> &'static str {
    let uid = rng.below(16);
    let pair = PAIRS + 1 + 2 * rng.below(store[PAIRS].max(1).into());
    let grant = GRANTS + 1 + GRANT * rng.below(store[GRANTS].max(1).into());
    match rng.below(12) {
        0 => set(store, ACCOUNTS + 3 * uid, *rng.pick(&[0, 1, 15, 16, 255]), "primary group"),
        1 => set_two(store, ACCOUNTS + 3 * uid + 1, *rng.pick(&[0, 1, 2, 3, 0x8000, 0xFFFE, 0xFFFF]), "further groups"),
        2 => set(store, SESSIONS + uid, *rng.pick(&[0, 1, 8, 9, 255]), "session"),
        3 => set(store, pair, *rng.pick(&[0, 6, 7, 8]), "senior"),
        4 => set(store, pair + 1, *rng.pick(&[0, 1, 7, 8]), "junior"),
        5 => set(store, grant, *rng.pick(&[0, 1, 2, 15, 16, 255]), "grant's uid"),
        6 => set(store, grant + 1, *rng.pick(&[0, 7, 8]), "grant's role"),
        7 => set_text(store, grant + 2, 8, rng.pick::<&str>(&["", "a", "abcdefgh", "A", "a,b", "a\0b"]), "password"),
        8 => set(store, PAIRS, *rng.pick(&[0, 28, 29, 255]), "number of pairs"),
        9 => set(store, GRANTS, *rng.pick(&[0, 32, 33, 255]), "number of grants"),
        10 => damage_cd::damage_field(rng, store, uid),
        _ => set(store, SPARE + rng.below(ROWS - SPARE), 1, "kept bytes of the header"),
    }
}

fn set(store: &mut [u8], at: usize, byte: u8, what: &'static str) -> &'static str {
    store[at] = byte;
    what
}

fn set_two(store: &mut [u8], at: usize, number: u16, what: &'static str) -> &'static str {
    put_two(store, at, number);
    what
}

fn set_text(store: &mut [u8], at: usize, length: usize, text: &str, what: &'static str) -> &'static str {
    store[at..at + length].fill(0);
    store[at..at + text.len()].copy_from_slice(text.as_bytes());
    what
}

/// A change to a state, and what to call it.
type Change = (&'static str, fn(&mut State));

/// Changes to the worked example that no list of lines reaches; the layout says of each whether it is sound.
const ODD_STATES: [Change; 15] = [
    ("only /", |state| state.nodes.retain(|path, _| path.is_empty())),
    ("only / and that a file", |state| {
        state.nodes.retain(|path, _| path.is_empty());
        state.node_mut(&[]).kind = Kind::File;
    }),
    ("/ a file with children", |state| state.node_mut(&[]).kind = Kind::File),
    ("no /rep", |state| state.nodes.retain(|path, _| path.first().is_none_or(|name| name != b"rep"))),
    ("/rep an empty file", |state| {
        state.nodes.retain(|path, _| path.len() < 2 || path[0] != b"rep");
        state.node_mut(&[b"rep".to_vec()]).kind = Kind::File;
    }),
    ("no homes", |state| state.nodes.retain(|path, _| path.first().is_none_or(|name| name == b"rep"))),
    ("a session of no person", |state| state.sessions[15] = Some(7)),
    ("a session that no grant has", |state| state.sessions[1] = Some(7)),
    ("a person without grants or home", |state| {
        state.people.insert(9, Person { primary: 9, further: [9, 1, 15].into() });
    }),
    ("set-gid, tag and revision on /", |state| {
        let node = state.node_mut(&[]);
        (node.mode, node.revision) = (0o2755, 9999);
        node.tag = Some(Tag { path: vec![b"rep".to_vec(), b"a".to_vec()], revision: 9999 });
    }),
    ("/ another's", |state| (state.node_mut(&[]).owner, state.node_mut(&[]).group) = (23, 24)),
    ("a path of 7 names", |state| {
        for depth in 1..=7 {
            state.nodes.insert(vec![b"z".to_vec(); depth], Node::new(Kind::Directory, 0, 0, 0o777));
        }
    }),
    ("content of a directory", |state| state.node_mut(&[b"rep".to_vec()]).content = b"x".to_vec()),
    ("a grant of no person", |state| state.grants.push(Grant { uid: 14, role: 0, password: b"a".to_vec() })),
    ("a pair the wrong way round", |state| state.pairs.push((3, 2))),
];

fn odd_states(bench: &mut Bench) {
    for (what, change) in ODD_STATES {
        let mut state = crate::edges::example_state();
        change(&mut state);
        judge(bench, encode(&state), what);
    }
}

/// Right and wrong lengths, with good and with random bytes.
fn lengths(bench: &mut Bench, stores: &[Vec<u8>]) {
    for length in [0, 1, ROWS, TABLE, 65_535, STORE, 65_537, 131_072] {
        for from in stores {
            let mut store = from.clone();
            store.resize(length, 0);
            judge(bench, store, "length");
        }
        let mut store = vec![0; length];
        judge(bench, store.clone(), "zeros");
        bench.rng.fill(&mut store);
        judge(bench, store, "random bytes");
    }
}

/// Runs a line and asks for a line of the listing; the layout says what must come.
pub fn judge(bench: &mut Bench, store: Vec<u8>, what: &str) {
    match decode(&store) {
        Ok(model) => judge_sound(bench, Twin { store, model }, what),
        Err(why) => judge_unsound(bench, store, &format!("{what}, unsound by its {why}")),
    }
}

/// A sound store: run and listing answer as the model does on the decoded state.
fn judge_sound(bench: &mut Bench, mut twin: Twin, what: &str) {
    let failed = bench.tally.failed;
    twin.run_with(bench, b"0,read,/", LEAST_ANSWER);
    let lines = twin.model.listing();
    let n = bench.rng.below(lines.len() + 1);
    twin.check_listing_line(bench, n, lines.get(n));
    let line = Lines::new(&mut bench.rng, &twin.model, Theme::Mixed).line();
    twin.run_with(bench, &line, LEAST_ANSWER);
    if bench.tally.failed > failed {
        println!("  in a store damaged in: {what}");
    }
}

/// An unsound store: 18 from both calls, and both buffers as they were.
fn judge_unsound(bench: &mut Bench, mut store: Vec<u8>, what: &str) {
    let before = store.clone();
    let mut buffer = bench.answer_buffer(LEAST_ANSWER);
    let buffer_before = buffer.clone();
    let wanted = Answer { number: 18, value: NO_VALUE };
    let run = library::run(&mut store, b"0,read,/", &mut buffer);
    let n = bench.rng.below(3);
    let listing = library::listing(&store, n, &mut buffer);
    let problem = differ(run, wanted).or_else(|| differ(listing, wanted));
    let problem =
        problem.or_else(|| unlike(&store, &before, "store")).or_else(|| unlike(&buffer, &buffer_before, "answer buffer"));
    bench.tally.check(problem.map(|problem| format!("store with {what}: {problem}")));
}
