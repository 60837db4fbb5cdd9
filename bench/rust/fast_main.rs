//! The jobs in Rust that is written for speed, with std alone: `fast THREADS JOB FILE..` prints
//! what the script of that job prints, from its one file or its two.
//!
//! A thread makes one pass over its slice of the lines. Text keys of up to 15 bytes lie in the
//! slots of a table, rows are sorted by a number that is made of the first bytes of the key, and
//! rows by number are grouped in parts that fit a cache. The files have lines as `bench/make_*.py`
//! writes them: words between single blanks, numbers that aren't below 0, and an end to each line.

mod fast_counts;
mod fast_groups;
mod fast_jobs;
mod fast_keyed;
mod fast_lines;
mod fast_save;
mod fast_sorts;
mod fast_table;
mod fast_text;
mod fast_threads;

use fast_counts::count_job;
use fast_jobs::{cached, count, group, join, keys, print_lines};
use fast_keyed::{keyed_job, squares};
use fast_lines::line_job;
use fast_save::save;
use fast_sorts::{sort_numbers, sort_texts};
use fast_text::Text;
use std::env;
use std::io::{self, BufWriter, Write};

fn main() -> io::Result<()> {
    let words: Vec<String> = env::args().skip(1).collect();
    let [threads, job, paths @ ..] = words.as_slice() else {
        return Err(io::ErrorKind::InvalidInput.into());
    };
    let threads = threads.parse().map_err(io::Error::other)?;
    let texts = paths
        .iter()
        .map(|path| Text::read(path, threads))
        .collect::<io::Result<Vec<_>>>()?;
    let mut out = BufWriter::with_capacity(1 << 16, io::stdout().lock());
    match texts.as_slice() {
        [text] => over_one(job, text, threads, &mut out)?,
        [left, right] if job == "join" => writeln!(out, "{}", join(left, right, threads))?,
        _ => return Err(io::ErrorKind::InvalidInput.into()),
    }
    out.flush()
}

/// A job over one file.
fn over_one(job: &str, text: &Text, threads: usize, out: &mut impl Write) -> io::Result<()> {
    if let Some(job) = line_job(job) {
        return print_lines(text, job, threads, out);
    }
    if let Some(job) = count_job(job) {
        return writeln!(out, "{}", count(text, job, threads));
    }
    if let Some(job) = keyed_job(job) {
        return writeln!(out, "{}", squares(text, job, threads));
    }
    match job {
        "cached" => cached(text, threads, out),
        "group" => writeln!(out, "{}", group(text, threads)),
        "buckets" | "few_buckets" => writeln!(out, "{}", keys(text, threads)),
        "sort" => sort_numbers(text, threads, out),
        "sort_texts" => sort_texts(text, threads, out),
        "save" => save(text, "saved", threads),
        _ => Err(io::ErrorKind::InvalidInput.into()),
    }
}
