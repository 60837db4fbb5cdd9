//! The jobs that fold by text keys, in tables of each thread, which are then put together.

use crate::fast_table::{key_of, Table};
use crate::fast_text::{each_word, rows, Text};
use crate::fast_threads::each_of;
use std::ops::Range;

/// The counts that a thread found, in a table for each thread that puts tables together.
pub struct Tables<'a> {
    text: &'a [u8],
    parts: Vec<Table<'a>>,
}

impl<'a> Tables<'a> {
    fn new(text: &'a [u8], parts: usize) -> Self {
        Tables {
            text,
            parts: (0..parts).map(|_| Table::new(text)).collect(),
        }
    }

    /// The count of the text in a range, which is 0 at first.
    #[inline]
    fn at(&mut self, from: usize, to: usize) -> &mut i64 {
        let (key, hash) = key_of(self.text, from, to);
        let part = match self.parts.len() {
            1 => 0,
            parts => (hash >> 32) as usize % parts,
        };
        self.parts[part].at(key, hash)
    }
}

/// Puts what a job counts in the lines of a range into tables.
pub type KeyedJob = fn(Range<usize>, &mut Tables);

/// The job of a name.
pub fn keyed_job(name: &str) -> Option<KeyedJob> {
    match name {
        "word_count" => Some(word_count),
        "sum_by_key" => Some(sum_by_key),
        _ => None,
    }
}

/// How often each word stands there.
fn word_count(range: Range<usize>, tables: &mut Tables) {
    each_word(tables.text, range, |from, to| *tables.at(from, to) += 1);
}

/// The sum of the numbers of each first word.
fn sum_by_key(range: Range<usize>, tables: &mut Tables) {
    for (from, row) in rows(tables.text, range) {
        let sum = tables.at(from, row.key_end);
        *sum = sum.wrapping_add(row.value);
    }
}

/// The sum of the squares of what a job counts.
pub fn squares(text: &Text, job: KeyedJob, threads: usize) -> i64 {
    let found = each_of(text.slices(threads), |slice| {
        let mut tables = Tables::new(&text.bytes, threads);
        job(slice, &mut tables);
        tables
    });
    let mut by_part: Vec<Vec<Table>> = (0..threads).map(|_| Vec::new()).collect();
    for tables in found {
        for (part, table) in tables.parts.into_iter().enumerate() {
            by_part[part].push(table);
        }
    }
    each_of(by_part, squares_of_part)
        .into_iter()
        .fold(0, i64::wrapping_add)
}

/// The sum of the squares of the counts in some tables together.
fn squares_of_part(tables: Vec<Table>) -> i64 {
    let all = tables.into_iter().reduce(|mut all, table| {
        all.add(&table);
        all
    });
    all.map_or(0, |all| {
        all.counts()
            .fold(0, |sum, n| sum.wrapping_add(n.wrapping_mul(n)))
    })
}
