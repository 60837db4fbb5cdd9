//! The bytes of a file, its lines, and slices of it for threads.

use crate::fast_threads::each_of;
use std::fs::File;
use std::io;
use std::ops::Range;
use std::os::unix::fs::FileExt;

/// How many line ends stand behind the text, so that eight bytes can be read at any place of it.
const PAD: usize = 16;

/// The bytes of a file, and line ends behind them.
pub struct Text {
    pub bytes: Vec<u8>,
    end: usize,
}

impl Text {
    /// Reads a file, each thread a part of it.
    pub fn read(path: &str, threads: usize) -> io::Result<Text> {
        let file = File::open(path)?;
        let end = file.metadata()?.len() as usize;
        let mut bytes = vec![0; end + PAD];
        bytes[end..].fill(b'\n');
        let part = end.div_ceil(threads).max(1);
        let parts = bytes[..end].chunks_mut(part).enumerate().collect();
        each_of(parts, |(i, chunk)| {
            file.read_exact_at(chunk, (i * part) as u64)
        })
        .into_iter()
        .collect::<io::Result<()>>()?;
        Ok(Text { bytes, end })
    }

    /// So many ranges of whole lines, about as long as each other.
    pub fn slices(&self, parts: usize) -> Vec<Range<usize>> {
        let bound = |i| self.line_start(i * self.end / parts);
        (0..parts).map(|i| bound(i)..bound(i + 1)).collect()
    }

    /// Ranges of whole lines of about a size.
    pub fn pieces(&self, size: usize) -> Vec<Range<usize>> {
        self.slices(self.end.div_ceil(size).max(1))
    }

    /// The first place from one on at which a line begins, or the end.
    fn line_start(&self, at: usize) -> usize {
        match at {
            0 => 0,
            _ => (line_end(&self.bytes, at - 1) + 1).min(self.end),
        }
    }
}

/// Eight bytes as a number, the first of them lowest.
#[inline]
pub fn load(text: &[u8], at: usize) -> u64 {
    let mut bytes = [0; 8];
    bytes.copy_from_slice(&text[at..at + 8]);
    u64::from_le_bytes(bytes)
}

const ONES: u64 = u64::MAX / 255;

/// The place of the first line end from a place on.
#[inline]
pub fn line_end(text: &[u8], from: usize) -> usize {
    let mut at = from;
    loop {
        let others = load(text, at) ^ (ONES * b'\n' as u64);
        let ends = others.wrapping_sub(ONES) & !others & (ONES << 7);
        if ends != 0 {
            return at + ends.trailing_zeros() as usize / 8;
        }
        at += 8;
    }
}

/// A line's first word, and its number, which is the second.
pub struct Row {
    pub key_end: usize,
    pub value: i64,
    /// Where the next line begins.
    pub next: usize,
}

/// The line that begins at a place, whose number isn't below 0.
#[inline]
pub fn row(text: &[u8], from: usize) -> Row {
    let mut key_end = from;
    while text[key_end] > b' ' {
        key_end += 1;
    }
    let mut at = key_end + 1;
    let mut value = 0_i64;
    while text[at].is_ascii_digit() {
        value = value * 10 + i64::from(text[at] - b'0');
        at += 1;
    }
    Row {
        key_end,
        value,
        next: line_end(text, at) + 1,
    }
}

/// The rows of the lines in a range, each with the place at which it begins.
pub fn rows(text: &[u8], range: Range<usize>) -> impl Iterator<Item = (usize, Row)> + '_ {
    let mut from = range.start;
    std::iter::from_fn(move || {
        (from < range.end).then(|| {
            let row = row(text, from);
            (std::mem::replace(&mut from, row.next), row)
        })
    })
}

/// Gives each word of the lines in a range, as a range of its own, to a function.
#[inline]
pub fn each_word(text: &[u8], range: Range<usize>, mut take: impl FnMut(usize, usize)) {
    let mut from = range.start;
    for at in range.start..=range.end {
        if at == range.end || text[at] <= b' ' {
            if from < at {
                take(from, at);
            }
            from = at + 1;
        }
    }
}

/// The number that a range of digits writes.
#[inline]
pub fn digits(text: &[u8]) -> i64 {
    text.iter().fold(0, |n, b| n * 10 + i64::from(*b - b'0'))
}

/// Writes a number that isn't below 0 in digits.
#[inline]
pub fn write_number(out: &mut Vec<u8>, n: i64) {
    let mut digits = [0_u8; 20];
    let mut at = digits.len();
    let mut rest = n;
    loop {
        at -= 1;
        digits[at] = b'0' + (rest % 10) as u8;
        rest /= 10;
        if rest == 0 {
            break;
        }
    }
    out.extend_from_slice(&digits[at..]);
}

/// Writes the line of a pair whose second is a number.
#[inline]
pub fn write_pair(out: &mut Vec<u8>, first: &[u8], second: i64) {
    out.push(b'(');
    out.extend_from_slice(first);
    out.push(b',');
    write_number(out, second);
    out.extend_from_slice(b")\n");
}
