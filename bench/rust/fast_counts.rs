//! The jobs that print counts of what is computed of the lines.

use crate::fast_text::{each_word, line_end, load, rows};
use std::ops::Range;

/// What a job counts in the lines of a range.
pub type CountJob = fn(&[u8], Range<usize>) -> i64;

/// The job of a name.
pub fn count_job(name: &str) -> Option<CountJob> {
    match name {
        "pipeline" => Some(pipeline),
        "lineage" => Some(lineage),
        _ => None,
    }
}

/// How often the four operations of `lineage` are taken in turn.
const ROUNDS: usize = 12;

/// How many numbers go through the operations of `lineage` side by side.
const LANES: usize = 8;

/// How many words stand in the lines before "n", other than "end".
fn pipeline(text: &[u8], range: Range<usize>) -> i64 {
    let mut count = 0;
    let mut from = range.start;
    while from < range.end {
        let end = line_end(text, from);
        if text[from] < b'n' {
            each_word(text, from..end, |from, to| {
                count += i64::from(&text[from..to] != b"end");
            });
        }
        from = end + 1;
    }
    count
}

/// How many numbers are even behind a long chain of operations.
fn lineage(text: &[u8], range: Range<usize>) -> i64 {
    let mut count = 0;
    let mut lanes = [0; LANES];
    let mut filled = 0;
    for (_, row) in rows(text, range) {
        lanes[filled] = row.value;
        filled += 1;
        if filled == LANES {
            count += even_ends(lanes, filled);
            filled = 0;
        }
    }
    count + even_ends(lanes, filled)
}

/// How many of the first few numbers are even behind the chain.
fn even_ends(mut lanes: [i64; LANES], filled: usize) -> i64 {
    for _ in 0..ROUNDS {
        for n in &mut lanes {
            *n = n.wrapping_mul(3).wrapping_add(1) % 1_000_003;
            *n = n.wrapping_sub(7);
        }
    }
    lanes[..filled].iter().filter(|n| *n % 2 == 0).count() as i64
}

/// The characters before which the words of `cached` are counted.
pub const BOUNDS: [&str; 6] = ["b", "d", "h", "m", "s", "w"];

/// Where a word lies.
pub struct Kept {
    from: u32,
    to: u32,
}

/// The words of the lines in a range.
pub fn kept_words(text: &[u8], range: Range<usize>) -> Vec<Kept> {
    let mut kept = Vec::with_capacity(range.len() / 5);
    each_word(text, range, |from, to| {
        kept.push(Kept {
            from: from as u32,
            to: to as u32,
        });
    });
    kept
}

/// How many words are before a word of at most eight bytes.
pub fn before(text: &[u8], kept: &[Kept], bound: &str) -> i64 {
    let mut bytes = [0; 8];
    bytes[..bound.len()].copy_from_slice(bound.as_bytes());
    let bound = u64::from_be_bytes(bytes);
    let is_before = |word: &&Kept| first_bytes(text, word) < bound;
    kept.iter().filter(is_before).count() as i64
}

/// The first eight bytes of a word as a number, the first byte highest, and zeros behind it.
fn first_bytes(text: &[u8], word: &Kept) -> u64 {
    let missing = 8_u32.saturating_sub(word.to - word.from);
    let bytes = load(text, word.from as usize).swap_bytes();
    bytes >> (8 * missing) << (8 * missing)
}
