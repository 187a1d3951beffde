//! A line of the listing. Rows lie in the byte order of their paths, so line n is row n.

use super::number::MISSING;
use super::rows::{unpadded, Fields, Row, MOST_NAMES};
use super::text::Writer;
use super::Outcome;

pub fn line(nodes: &[Row], n: usize, into: &mut [u8]) -> Outcome {
    let row = nodes.get(n).ok_or(MISSING)?;
    let mut answer = Writer::new(into);
    put_path(&mut answer, nodes, n);
    answer.put(if row.is_directory() { b",d," } else { b",f," });
    answer.put_number(row.owner().into());
    answer.put(b",");
    answer.put_number(row.group().into());
    answer.put(b",");
    answer.put_mode(row.mode());
    answer.put(b",");
    answer.put_number(row.revision());
    answer.put(b",");
    let tag = unpadded(row.tag_path());
    answer.put(if tag.is_empty() { b"-" } else { tag });
    answer.put(b",");
    answer.put_number(row.tag_revision());
    answer.put(b",");
    answer.put(unpadded(row.content()));
    Ok(Some(answer.length))
}

/// The names of a row and of those above it, which are the nearest rows before it of each lesser depth.
fn put_path(answer: &mut Writer, nodes: &[Row], n: usize) {
    let mut names = [0; MOST_NAMES];
    let depth = nodes[n].depth();
    let mut wanted = depth;
    for row in nodes[..=n].iter().rev() {
        if wanted == 0 {
            break;
        }
        if row.depth() == wanted {
            wanted -= 1;
            names[wanted] = row.name();
        }
    }
    if depth == 0 {
        answer.put(b"/");
    }
    for name in &names[..depth] {
        answer.put(b"/");
        answer.put_name(*name);
    }
}
