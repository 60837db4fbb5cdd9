//! The jobs, one function each.

use crate::lines::{lines, number, words};
use std::fs;
use std::io::{self, BufWriter, Write};

/// Into how many parts `save` writes.
const PARTS: usize = 8;

/// How often the four operations of `lineage` are taken in turn.
const ROUNDS: usize = 12;

/// The characters before which the words of `repeated` are counted.
const BOUNDS: [&str; 6] = ["b", "d", "h", "m", "s", "w"];

fn no_number() -> io::Error {
    io::ErrorKind::InvalidData.into()
}

/// Each line and "!".
pub fn concat(text: &str, out: &mut impl Write) -> io::Result<()> {
    for line in lines(text) {
        out.write_all(line.as_bytes())?;
        out.write_all(b"!\n")?;
    }
    Ok(())
}

/// Each line and "!" in eight parts of a directory, each of which is on its device before the next.
pub fn save(text: &str, folder: &str) -> io::Result<()> {
    let all: Vec<&str> = lines(text).collect();
    fs::create_dir(folder)?;
    for part in 0..PARTS {
        let mut out = BufWriter::new(fs::File::create(format!("{folder}/part-{part:05}"))?);
        for line in &all[part * all.len() / PARTS..(part + 1) * all.len() / PARTS] {
            out.write_all(line.as_bytes())?;
            out.write_all(b"!\n")?;
        }
        out.into_inner()?.sync_all()?;
    }
    fs::File::create(format!("{folder}/_SUCCESS"))?.sync_all()
}

/// Three times the number of each line, and one more.
pub fn sums(text: &str, out: &mut impl Write) -> io::Result<()> {
    for line in lines(text) {
        let n = number(line).ok_or_else(no_number)?;
        writeln!(out, "{}", n.wrapping_mul(3).wrapping_add(1))?;
    }
    Ok(())
}

/// The first word of each line with its number.
pub fn pairs(text: &str, out: &mut impl Write) -> io::Result<()> {
    for line in lines(text) {
        let first = words(line).next().ok_or_else(no_number)?;
        let n = number(line).ok_or_else(no_number)?;
        writeln!(out, "({first},{n})")?;
    }
    Ok(())
}

/// Whether the number of each line is low or high.
pub fn choice(text: &str, out: &mut impl Write) -> io::Result<()> {
    for line in lines(text) {
        let is_low = number(line).ok_or_else(no_number)? < 500;
        out.write_all(if is_low { b"low\n" } else { b"high\n" })?;
    }
    Ok(())
}

/// How many words each line has.
pub fn lengths(text: &str, out: &mut impl Write) -> io::Result<()> {
    for line in lines(text) {
        writeln!(out, "{}", words(line).count())?;
    }
    Ok(())
}

/// How many words stand in the lines before "n", with a last word put behind each and taken away.
pub fn pipeline(text: &str, out: &mut impl Write) -> io::Result<()> {
    let mut count = 0;
    let mut ended = String::new();
    for line in lines(text).filter(|line| *line < "n") {
        ended.clear();
        ended.push_str(line);
        ended.push_str(" end");
        count += words(&ended).filter(|word| *word != "end").count();
    }
    writeln!(out, "{count}")
}

/// How many numbers are even behind a long chain of operations.
pub fn lineage(text: &str, out: &mut impl Write) -> io::Result<()> {
    let mut count = 0;
    for line in lines(text) {
        let mut n = number(line).ok_or_else(no_number)?;
        for _ in 0..ROUNDS {
            n = n.wrapping_mul(3);
            n = n.wrapping_add(1);
            n %= 1_000_003;
            n = n.wrapping_sub(7);
        }
        count += usize::from(n % 2 == 0);
    }
    writeln!(out, "{count}")
}

/// How many words there are before each bound, by a pass over all words for each.
pub fn repeated(text: &str, out: &mut impl Write) -> io::Result<()> {
    for bound in BOUNDS {
        let before = lines(text).flat_map(words).filter(|word| *word < bound);
        writeln!(out, "{}", before.count())?;
    }
    Ok(())
}

/// The same of words that are found once and kept.
pub fn cached(text: &str, out: &mut impl Write) -> io::Result<()> {
    let kept: Vec<&str> = lines(text).flat_map(words).collect();
    for bound in BOUNDS {
        let before = kept.iter().filter(|word| **word < bound);
        writeln!(out, "{}", before.count())?;
    }
    Ok(())
}
