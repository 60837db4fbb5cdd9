//! The jobs that print a line for each line.

use crate::fast_text::{line_end, rows, write_number, write_pair};
use std::ops::Range;

/// Puts what a job prints of the lines in a range behind what is there already.
pub type LineJob = fn(&[u8], Range<usize>, &mut Vec<u8>);

/// The job of a name.
pub fn line_job(name: &str) -> Option<LineJob> {
    match name {
        "concat" => Some(concat),
        "sums" => Some(sums),
        "pairs" => Some(pairs),
        "choice" => Some(choice),
        "lengths" => Some(lengths),
        _ => None,
    }
}

/// Each line and "!".
pub fn concat(text: &[u8], range: Range<usize>, out: &mut Vec<u8>) {
    let mut from = range.start;
    while from < range.end {
        let end = line_end(text, from);
        out.extend_from_slice(&text[from..end]);
        out.extend_from_slice(b"!\n");
        from = end + 1;
    }
}

/// Three times the number of each line, and one more.
fn sums(text: &[u8], range: Range<usize>, out: &mut Vec<u8>) {
    for (_, row) in rows(text, range) {
        write_number(out, row.value.wrapping_mul(3).wrapping_add(1));
        out.push(b'\n');
    }
}

/// The first word of each line with its number.
fn pairs(text: &[u8], range: Range<usize>, out: &mut Vec<u8>) {
    for (from, row) in rows(text, range) {
        write_pair(out, &text[from..row.key_end], row.value);
    }
}

/// Whether the number of each line is low or high.
fn choice(text: &[u8], range: Range<usize>, out: &mut Vec<u8>) {
    for (_, row) in rows(text, range) {
        let name: &[u8] = if row.value < 500 { b"low\n" } else { b"high\n" };
        out.extend_from_slice(name);
    }
}

/// How many words each line has.
fn lengths(text: &[u8], range: Range<usize>, out: &mut Vec<u8>) {
    let mut from = range.start;
    while from < range.end {
        let end = line_end(text, from);
        write_number(out, word_starts(&text[from..end]));
        out.push(b'\n');
        from = end + 1;
    }
}

/// How many words a line has, by how many begin in it.
fn word_starts(line: &[u8]) -> i64 {
    let first = line.first().is_some_and(|byte| *byte > b' ');
    let others = line
        .windows(2)
        .filter(|two| two[0] <= b' ' && two[1] > b' ');
    i64::from(first) + others.count() as i64
}
