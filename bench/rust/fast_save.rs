//! The job that saves its lines in parts.

use crate::fast_lines::concat;
use crate::fast_text::{line_end, Text};
use crate::fast_threads::each;
use std::fs::{self, File};
use std::io::{self, Write};
use std::ops::Range;

/// Into how many parts is saved.
const PARTS: usize = 8;

/// How many bytes are gone through at a time.
const PIECE: usize = 1 << 16;

/// Each line and "!" in eight parts of a directory, each of which is on its device before the end.
pub fn save(text: &Text, folder: &str, threads: usize) -> io::Result<()> {
    fs::create_dir(folder)?;
    let parts = parts(text, threads);
    each(threads, |thread| {
        (thread..PARTS)
            .step_by(threads)
            .try_for_each(|part| save_part(text, parts[part].clone(), folder, part))
    })
    .into_iter()
    .collect::<io::Result<()>>()?;
    File::create(format!("{folder}/_SUCCESS"))?.sync_all()
}

/// Saves the lines in a range as one part.
fn save_part(text: &Text, range: Range<usize>, folder: &str, part: usize) -> io::Result<()> {
    let mut file = File::create(format!("{folder}/part-{part:05}"))?;
    let mut made = Vec::with_capacity(2 * PIECE);
    let mut from = range.start;
    while from < range.end {
        let to = (line_end(&text.bytes, from + PIECE.min(range.end - from) - 1) + 1).min(range.end);
        made.clear();
        concat(&text.bytes, from..to, &mut made);
        file.write_all(&made)?;
        from = to;
    }
    file.sync_all()
}

/// The ranges of the parts, which have the same number of lines but for one.
fn parts(text: &Text, threads: usize) -> Vec<Range<usize>> {
    let pieces = text.pieces(PIECE);
    let counts: Vec<Vec<usize>> = each(threads, |thread| {
        let mine = pieces.iter().skip(thread).step_by(threads);
        mine.map(|piece| line_count(&text.bytes[piece.clone()]))
            .collect()
    });
    let count = |piece: usize| counts[piece % threads][piece / threads];
    let all: usize = (0..pieces.len()).map(count).sum();
    let mut starts = Vec::with_capacity(PARTS + 1);
    let mut before = 0;
    for (i, piece) in pieces.iter().enumerate() {
        while starts.len() < PARTS && starts.len() * all / PARTS < before + count(i) {
            let line = starts.len() * all / PARTS - before;
            let start = (0..line).fold(piece.start, |from, _| line_end(&text.bytes, from) + 1);
            starts.push(start);
        }
        before += count(i);
    }
    starts.resize(PARTS + 1, pieces.last().map_or(0, |piece| piece.end));
    starts.windows(2).map(|two| two[0]..two[1]).collect()
}

/// How many lines some bytes are, the last of which may lack its end.
fn line_count(bytes: &[u8]) -> usize {
    let ends = bytes.iter().filter(|byte| **byte == b'\n').count();
    ends + usize::from(bytes.last().is_some_and(|byte| *byte != b'\n'))
}
