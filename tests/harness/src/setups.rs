//! Random setup texts, good and wrong.

use crate::rng::Rng;

/// Few passwords, so that grants and guesses meet.
pub const PASSWORDS: [&str; 5] = ["oak", "elm", "a", "_9_", "passwrd8"];

/// A good setup text: mostly few people, at times all fifteen or none, and all the lines there may be.
pub fn good_setup(rng: &mut Rng) -> Vec<u8> {
    let mut uids: Vec<usize> = (1..=15).collect();
    rng.shuffle(&mut uids);
    let people = match rng.below(20) {
        0 => 15,
        1 => 0,
        _ => rng.within(1, 5),
    };
    uids.truncate(people);
    let mut lines = Vec::new();
    for uid in &uids {
        lines.push(format!("p,{uid},{}", any_group(rng)));
    }
    if !uids.is_empty() {
        for _ in 0..rng.below(10) {
            lines.push(format!("g,{},{}", rng.pick(&uids), any_group(rng)));
        }
    }
    let pairs = if rng.percent(5) { 28 } else { rng.below(9) };
    for _ in 0..pairs {
        let senior = rng.below(7);
        lines.push(format!("r,{senior},{}", rng.within(senior + 1, 7)));
    }
    uids.push(0);
    let grants = if rng.percent(5) { 32 } else { rng.within(0, 16) };
    for _ in 0..grants {
        let role = if rng.percent(50) { 0 } else { rng.below(8) };
        lines.push(format!("l,{},{role},{}", rng.pick(&uids), rng.pick(&PASSWORDS)));
    }
    lines.push("end".to_string());
    (lines.join("\n") + "\n").into_bytes()
}

/// A good setup in which everyone may log in as role 0, so that much can be done in the repository.
pub fn generous_setup(rng: &mut Rng) -> Vec<u8> {
    let people = rng.within(1, 6);
    let mut lines: Vec<String> = (1..=people).map(|uid| format!("p,{uid},{}", any_group(rng))).collect();
    for junior in 1..=rng.below(7) {
        lines.push(format!("r,{},{junior}", rng.below(junior)));
    }
    for uid in 0..=people {
        lines.push(format!("l,{uid},0,oak"));
        lines.push(format!("l,{uid},{},elm", rng.below(8)));
    }
    lines.push("end".to_string());
    (lines.join("\n") + "\n").into_bytes()
}

/// A person's group, mostly one of few so that people share them.
fn any_group(rng: &mut Rng) -> usize {
    let most = if rng.percent(60) { 4 } else { 15 };
    rng.within(1, most)
}

/// A setup text that is mostly wrong: a good one with something done to it.
pub fn odd_setup(rng: &mut Rng) -> Vec<u8> {
    let text = good_setup(rng);
    match rng.below(3) {
        0 => odd_bytes(rng, text),
        1 => odd_lines(rng, &text),
        _ => odd_line(rng, &text),
    }
}

/// Changes among the bytes, the end of the text included.
fn odd_bytes(rng: &mut Rng, mut text: Vec<u8>) -> Vec<u8> {
    let at = rng.below(text.len());
    match rng.below(8) {
        0 => text.truncate(at),
        1 => text.truncate(text.len() - 1),
        2 => text.extend_from_slice(rng.pick::<&[u8]>(&[b"\n", b"end\n", b"p,1,1\n", b"x", b"\0"])),
        3 => text[at] = rng.byte(),
        4 => text[at] = *rng.pick(b",0123456789\n\r"),
        5 => text.insert(at, *rng.pick(b",0123456789\n\r x")),
        6 => text.truncate(text.len() - 4),
        _ => {
            text.remove(at);
        }
    }
    text
}

/// Lines moved, repeated or left out.
fn odd_lines(rng: &mut Rng, text: &[u8]) -> Vec<u8> {
    let mut lines: Vec<Vec<u8>> = text.split_inclusive(|byte| *byte == 10).map(<[u8]>::to_vec).collect();
    let (a, b) = (rng.below(lines.len()), rng.below(lines.len()));
    match rng.below(4) {
        0 => lines.swap(a, b),
        1 => lines.insert(b, lines[a].clone()),
        2 => {
            lines.remove(a);
        }
        _ => {
            let more = rng.within(20, 40);
            lines.splice(a..a, std::iter::repeat_n(lines[a].clone(), more));
        }
    }
    lines.concat()
}

/// A line of the right look with one value that is just in or out of range.
fn odd_line(rng: &mut Rng, text: &[u8]) -> Vec<u8> {
    const LINES: [&str; 34] = [
        "p,0,1", "p,16,1", "p,1,0", "p,1,16", "p,15,15", "p,01,1", "p,1", "p,1,1,1", "p,,1", "g,0,1", "g,1,0", "g,1,16",
        "g,1,15", "g,16,1", "r,0,7", "r,3,3", "r,7,0", "r,0,8", "r,6,7", "r,0,07", "r,0", "l,0,0,oak", "l,0,7,oak", "l,0,8,oak",
        "l,16,0,oak", "l,0,0,", "l,0,0,passwrd89", "l,0,0,Oak", "l,0,0,o k", "l,0,0,oak,", "end,", "End", "", "x",
    ];
    let mut lines: Vec<Vec<u8>> = text.split_inclusive(|byte| *byte == 10).map(<[u8]>::to_vec).collect();
    let line = format!("{}\n", rng.pick(&LINES)).into_bytes();
    // Mostly beside a line of its kind, so that the order is not what is wrong.
    let kind = lines.iter().position(|other| other[0] == line[0]);
    let at = match kind {
        Some(at) if rng.percent(80) => at,
        _ => rng.below(lines.len() + 1),
    };
    lines.insert(at, line);
    lines.concat()
}
