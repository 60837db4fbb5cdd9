//! The job over lines that are generated.

use crate::lines::{lines, number, words};
use std::collections::HashMap;
use std::io::{self, Write};

fn no_number() -> io::Error {
    io::ErrorKind::InvalidData.into()
}

/// The sum of the numbers of each word, in the order of the words, and how many lines there are.
pub fn sums(seed: u32, size: u32, out: &mut impl Write) -> io::Result<()> {
    let text = workload(seed, size)?;
    let mut count = 0;
    let mut sums: HashMap<&str, i64> = HashMap::new();
    for line in lines(&text) {
        let word = words(line).next().ok_or_else(no_number)?;
        let sum = sums.entry(word).or_default();
        *sum = sum.wrapping_add(number(line).ok_or_else(no_number)?);
        count += 1;
    }
    let mut sorted: Vec<(&str, i64)> = sums.into_iter().collect();
    sorted.sort_unstable();
    for (word, sum) in sorted {
        writeln!(out, "({word},{sum})")?;
    }
    writeln!(out, "{count}")
}

/// So many lines of a word and a number, drawn from a seed below 2^31.
fn workload(seed: u32, size: u32) -> io::Result<String> {
    let mut text = Vec::new();
    let mut drawn = seed;
    for _ in 0..size {
        let first = next_number(drawn);
        drawn = next_number(first);
        writeln!(text, "k{} {}", first / 65_536 % 16, drawn / 65_536 % 1_000)?;
    }
    String::from_utf8(text).map_err(|_| no_number())
}

/// The generator's number behind one draw more.
fn next_number(number: u32) -> u32 {
    ((u64::from(number) * 1_103_515_245 + 12_345) % 2_147_483_648) as u32
}
