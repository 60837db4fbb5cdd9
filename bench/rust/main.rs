//! The jobs of the bench in plain Rust, on one thread and with std alone: `plain JOB FILE..` prints
//! what the script of that job prints, from its one file or its two, and `plain gen SEED SIZE` what
//! `spark_run gen` prints.
//!
//! Each job is written as one would write it by hand for this job alone: in one pass over the
//! lines, with no row kept that isn't needed.

mod generated;
mod jobs;
mod keyed;
mod lines;

use std::io::{self, BufWriter, Write};
use std::{env, fs};

fn main() -> io::Result<()> {
    let words: Vec<String> = env::args().skip(1).collect();
    let mut out = BufWriter::new(io::stdout().lock());
    match words.as_slice() {
        [job, seed, size] if job == "gen" => {
            generated::sums(parsed(seed)?, parsed(size)?, &mut out)?
        }
        [job, path] => over_one(job, &fs::read_to_string(path)?, &mut out)?,
        [job, left, right] if job == "join" => keyed::join(
            &fs::read_to_string(left)?,
            &fs::read_to_string(right)?,
            &mut out,
        )?,
        _ => return Err(io::ErrorKind::InvalidInput.into()),
    }
    out.flush()
}

/// The number that a word is.
fn parsed(word: &str) -> io::Result<u32> {
    word.parse().map_err(|_| io::ErrorKind::InvalidInput.into())
}

/// A job over one file.
fn over_one(job: &str, text: &str, out: &mut impl Write) -> io::Result<()> {
    match job {
        "concat" => jobs::concat(text, out),
        "save" => jobs::save(text, "saved"),
        "sums" => jobs::sums(text, out),
        "pairs" => jobs::pairs(text, out),
        "choice" => jobs::choice(text, out),
        "lengths" => jobs::lengths(text, out),
        "pipeline" => jobs::pipeline(text, out),
        "lineage" => jobs::lineage(text, out),
        "repeated" => jobs::repeated(text, out),
        "cached" => jobs::cached(text, out),
        "word_count" => keyed::word_count(text, out),
        "sum_by_key" => keyed::sum_by_key(text, out),
        "sort" => keyed::sort(text, out),
        "group" => keyed::group(text, out),
        "buckets" | "few_buckets" => keyed::keys(text, out),
        _ => Err(io::ErrorKind::InvalidInput.into()),
    }
}
