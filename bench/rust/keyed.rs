//! The jobs by key, one function each.

use crate::lines::{lines, number, words};
use std::collections::HashMap;
use std::io::{self, Write};

fn no_number() -> io::Error {
    io::ErrorKind::InvalidData.into()
}

/// The two numbers of each line.
fn rows(text: &str) -> impl Iterator<Item = io::Result<(i64, i64)>> + '_ {
    lines(text).map(|line| {
        let key = words(line).next().and_then(|word| word.parse().ok());
        key.zip(number(line)).ok_or_else(no_number)
    })
}

/// The sum of the squares of some numbers.
fn squares(numbers: impl Iterator<Item = i64>) -> i64 {
    numbers.fold(0, |sum, n| sum.wrapping_add(n.wrapping_mul(n)))
}

/// How often each word stands there, and the sum of the squares of that.
pub fn word_count(text: &str, out: &mut impl Write) -> io::Result<()> {
    let mut counts: HashMap<&str, i64> = HashMap::new();
    for word in lines(text).flat_map(words) {
        *counts.entry(word).or_default() += 1;
    }
    writeln!(out, "{}", squares(counts.into_values()))
}

/// The sum of the numbers of each first word, and the sum of the squares of that.
pub fn sum_by_key(text: &str, out: &mut impl Write) -> io::Result<()> {
    let mut sums: HashMap<&str, i64> = HashMap::new();
    for line in lines(text) {
        let word = words(line).next().ok_or_else(no_number)?;
        let sum = sums.entry(word).or_default();
        *sum = sum.wrapping_add(number(line).ok_or_else(no_number)?);
    }
    writeln!(out, "{}", squares(sums.into_values()))
}

/// The rows in the order of their keys.
pub fn sort(text: &str, out: &mut impl Write) -> io::Result<()> {
    let mut sorted = rows(text).collect::<io::Result<Vec<_>>>()?;
    sorted.sort_by_key(|(key, _)| *key);
    for (key, value) in sorted {
        writeln!(out, "({key},{value})")?;
    }
    Ok(())
}

/// The values of each key, and the sum over all keys of their number times their sum.
pub fn group(text: &str, out: &mut impl Write) -> io::Result<()> {
    let mut groups: HashMap<i64, Vec<i64>> = HashMap::new();
    for row in rows(text) {
        let (key, value) = row?;
        groups.entry(key).or_default().push(value);
    }
    let total = groups.values().fold(0_i64, |total, values| {
        let sum = values.iter().fold(0_i64, |sum, n| sum.wrapping_add(*n));
        total.wrapping_add(sum.wrapping_mul(values.len() as i64))
    });
    writeln!(out, "{total}")
}

/// Each value of a key on the left with each on the right, and the sum of their products.
pub fn join(left: &str, right: &str, out: &mut impl Write) -> io::Result<()> {
    let mut table: HashMap<i64, Vec<i64>> = HashMap::new();
    for row in rows(left) {
        let (key, value) = row?;
        table.entry(key).or_default().push(value);
    }
    let mut total = 0_i64;
    for row in rows(right) {
        let (key, value) = row?;
        for other in table.get(&key).into_iter().flatten() {
            total = total.wrapping_add(other.wrapping_mul(value));
        }
    }
    writeln!(out, "{total}")
}

/// How many keys there are.
pub fn keys(text: &str, out: &mut impl Write) -> io::Result<()> {
    let mut counts: HashMap<i64, i64> = HashMap::new();
    for row in rows(text) {
        *counts.entry(row?.0).or_default() += 1;
    }
    writeln!(out, "{}", counts.len())
}
