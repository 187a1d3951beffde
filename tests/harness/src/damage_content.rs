//! Damaged contents: a file's content may fill its field to the end, a directory has none, and the bytes kept behind the
//! field are zero. Each case says itself whether a store with it is sound.

use crate::damage::{fresh, judge};
use crate::edges::example_state;
use crate::layout::{decode, encode, CONTENT, ROW, ROW_SPARE, TABLE};
use crate::model::run::LEAST_ANSWER;
use crate::model::state::{text, Kind, Node, State, MOST_CONTENT, MOST_NODES};
use crate::twin::{Bench, Twin};

// The longest content has no zero behind it in its field.
const _: () = assert!(CONTENT + MOST_CONTENT == ROW_SPARE);

/// The field and the bytes kept behind it.
const FIELD_AND_KEPT: usize = ROW - CONTENT;
/// The place of the field's last byte, and of the first kept one.
const LAST: usize = MOST_CONTENT - 1;
const KEPT: usize = MOST_CONTENT;

/// Bytes that no content has: beside both ends of the range, the comma, and beyond.
const FORBIDDEN: [u8; 5] = [31, 44, 127, 128, 255];
/// Bytes of contents: both ends of the range, beside the comma, and one more.
const GOOD: [u8; 5] = [32, 43, 45, 126, b'x'];

/// What the bytes are called, they themselves, and whether a file may have them.
struct Case {
    what: String,
    bytes: Vec<u8>,
    sound: bool,
}

/// So many good bytes, then zeros; and one byte put at a place.
fn case(front: usize, (place, byte): (usize, u8), sound: bool) -> Case {
    let mut bytes = vec![0; FIELD_AND_KEPT];
    bytes[..front].fill(b'a');
    bytes[place] = byte;
    Case { what: format!("{front} good bytes, at place {place} byte {byte}"), bytes, sound }
}

fn cases() -> Vec<Case> {
    let mut cases = Vec::new();
    // Every length that a content may have, and one more, which reaches into the kept bytes.
    for length in 0..=MOST_CONTENT {
        cases.push(case(length, (KEPT, 0), true));
    }
    cases.push(case(MOST_CONTENT + 1, (0, b'a'), false));
    // The field's last byte: behind good ones, behind one zero, and behind zeros alone.
    for byte in GOOD {
        cases.push(case(LAST, (LAST, byte), true));
    }
    for byte in FORBIDDEN {
        cases.push(case(LAST, (LAST, byte), false));
    }
    for byte in [GOOD, FORBIDDEN].concat() {
        cases.push(case(LAST - 1, (LAST, byte), false));
        cases.push(case(0, (LAST, byte), false));
    }
    // A zero in a full field ends the content only where nothing is behind it; a forbidden byte is wrong anywhere.
    for place in 0..MOST_CONTENT {
        cases.push(case(MOST_CONTENT, (place, 0), place == LAST));
        cases.extend(FORBIDDEN.map(|byte| case(MOST_CONTENT, (place, byte), false)));
    }
    // The first and the last kept byte, behind a full content and behind shorter ones.
    for front in [MOST_CONTENT, LAST, 0] {
        for place in [KEPT, FIELD_AND_KEPT - 1] {
            cases.extend([0, 1, b'x', 255].map(|byte| case(front, (place, byte), byte == 0)));
        }
    }
    cases
}

/// Lines that read, copy, file and replace contents of the worked example.
const EXAMPLE_LINES: [&str; 8] = [
    "1,read,/u1/a", "1,co,/rep/cut/a,/u1/b", "1,read,/u1/b", "2,commit,/u2/w/a", "1,up,/u1/a", "1,add,/u1/a,/rep/b,0",
    "1,write,/u1/a,", "1,read,/u1/a",
];
/// The same for the last file of the full state.
const FULL_LINES: [&str; 4] = ["0,read,/z255", "0,write,/z255,a", "0,read,/z255", "0,rm,/z255"];

/// Every case in files and a directory of the worked example, and in the last row of a full store, which its kept bytes end.
pub fn contents(bench: &mut Bench) {
    let (example, full) = (example_state(), full_state());
    for case in cases() {
        for path in ["/rep/cut/a", "/u1/a", "/u2/w/a", "/u1/d"] {
            named(bench, &example, path, &case, &EXAMPLE_LINES);
        }
        named(bench, &full, "/z255", &case, &FULL_LINES);
    }
}

/// 256 nodes, the last of them files with full contents.
fn full_state() -> State {
    let mut state = fresh(b"p,1,1\nend\n");
    for n in state.nodes.len()..MOST_NODES {
        let content = vec![b'~'; MOST_CONTENT];
        state.nodes.insert(vec![format!("z{n:03}").into_bytes()], Node { content, ..Node::new(Kind::File, 1, 1, 0o600) });
    }
    state
}

/// A store with a case in a node's row; whether it is sound is held against the layout too.
fn named(bench: &mut Bench, state: &State, path: &str, case: &Case, lines: &[&str]) {
    let row = state.nodes.keys().position(|at| text(at) == path.as_bytes()).expect("a node");
    let mut store = encode(state);
    let from = TABLE + row * ROW + CONTENT;
    store[from..from + FIELD_AND_KEPT].copy_from_slice(&case.bytes);
    let empty = case.bytes.iter().all(|byte| *byte == 0);
    let directory = state.nodes.values().nth(row).is_some_and(Node::is_directory);
    let sound = if directory { empty } else { case.sound };
    let what = format!("content of {path}: {}", case.what);
    let verdict = decode(&store);
    bench.tally.check((verdict.is_ok() != sound).then(|| format!("{what}: the layout says sound: {}", verdict.is_ok())));
    if let Ok(model) = verdict {
        let mut twin = Twin { store: store.clone(), model };
        twin.check_listing_line(bench, row, twin.model.listing().get(row));
        for line in lines {
            twin.run_with(bench, line.as_bytes(), LEAST_ANSWER);
        }
    }
    judge(bench, store, &what);
}
