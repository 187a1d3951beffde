//! Malformed lines: good ones with something done to them.

use crate::model::state::MOST_CONTENT;
use crate::rng::Rng;

/// A line that mostly has no listed form.
pub fn mutate(rng: &mut Rng, line: &[u8]) -> Vec<u8> {
    match rng.below(3) {
        0 => mutate_bytes(rng, line.to_vec()),
        1 => mutate_field(rng, line),
        _ => mutate_fields(rng, line),
    }
}

/// A byte dropped, put in or altered; or the whole line something else.
fn mutate_bytes(rng: &mut Rng, mut line: Vec<u8>) -> Vec<u8> {
    let at = rng.below(line.len());
    match rng.below(9) {
        0 => {
            line.remove(at);
        }
        1 => line.insert(at, rng.byte()),
        2 => line.insert(at, *rng.pick(b"\n\r\0 ,/0_")),
        3 => line[at] = rng.byte(),
        4 => line[at] ^= 1 << rng.below(8),
        5 => line.push(*rng.pick(b"\n\r\0 ,/")),
        6 => line.truncate(at),
        7 => line = Vec::new(),
        _ => {
            let length = *rng.pick(&[1, 7, 200, 5_000]);
            line = vec![0; length];
            rng.fill(&mut line);
        }
    }
    line
}

/// One field made wrong, mostly by little.
fn mutate_field(rng: &mut Rng, line: &[u8]) -> Vec<u8> {
    let mut fields: Vec<Vec<u8>> = line.split(|byte| *byte == b',').map(<[u8]>::to_vec).collect();
    let at = rng.below(fields.len());
    let field = &mut fields[at];
    match rng.below(13) {
        0 => field.clear(),
        1 => field.insert(0, b'0'),
        2 => field.insert(0, b'/'),
        3 => field.push(b'/'),
        4 => field.extend_from_slice(b"/a"),
        5 => field.extend_from_slice(b"123456789"),
        // Too long for anything; for a content often by one byte.
        6 => field.resize(MOST_CONTENT + *rng.pick(&[1, 1, 2, 200]), b'x'),
        7 => field.make_ascii_uppercase(),
        8 => field.push(*rng.pick(&[127, 128, 195, 255, 31, 9])),
        9 => field.insert(0, *rng.pick(b" +-")),
        10 => {
            *field = rng
                .pick(&["1777", "4755", "00755", "755", "0788", "24", "25", "256", "-1", "/rep", "/rep/", "//"])
                .as_bytes()
                .to_vec()
        }
        11 => {
            *field = rng
                .pick(&["a", "rep", "a/", "a//b", "./a", "..", "abcdefghi", "a/b/c/d/e/f", "a/b/c/d/e/f/g"])
                .as_bytes()
                .to_vec()
        }
        _ => field.extend_from_slice(b"/b/b/b/b/b/b"),
    }
    fields.join(&b',')
}

/// Fields dropped, repeated, swapped or added.
fn mutate_fields(rng: &mut Rng, line: &[u8]) -> Vec<u8> {
    let mut fields: Vec<Vec<u8>> = line.split(|byte| *byte == b',').map(<[u8]>::to_vec).collect();
    let (at, other) = (rng.below(fields.len()), rng.below(fields.len()));
    match rng.below(6) {
        0 => {
            fields.remove(at);
        }
        1 => fields.insert(other, fields[at].clone()),
        2 => fields.swap(at, other),
        3 => fields.push(Vec::new()),
        4 => fields[0] = rng.within(16, 300).to_string().into_bytes(),
        _ => fields.push(b"/rep/a".to_vec()),
    }
    fields.join(&b',')
}
