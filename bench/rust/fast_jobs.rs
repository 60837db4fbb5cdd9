//! The jobs, each on as many threads as are wanted: what each thread does of its slice, and what is
//! made of that.

use crate::fast_counts::{before, kept_words, CountJob, BOUNDS};
use crate::fast_groups::{scatter, Groups, Ids, Parts, PARTS};
use crate::fast_lines::LineJob;
use crate::fast_text::Text;
use crate::fast_threads::{each, each_of};
use std::io::{self, Write};
use std::sync::mpsc;
use std::thread;

/// How many bytes of the text are gone through for one write.
const PIECE: usize = 1 << 18;

/// How many pieces a thread may be ahead of the writer.
const AHEAD: usize = 2;

/// Writes what a job prints of each line, piece by piece, which threads take in turn.
pub fn print_lines(
    text: &Text,
    job: LineJob,
    threads: usize,
    out: &mut impl Write,
) -> io::Result<()> {
    let pieces = text.pieces(PIECE);
    if threads == 1 {
        let mut made = Vec::with_capacity(2 * PIECE);
        return pieces.into_iter().try_for_each(|piece| {
            made.clear();
            job(&text.bytes, piece, &mut made);
            out.write_all(&made)
        });
    }
    thread::scope(|scope| {
        let pieces = &pieces;
        let begin = |first: usize| {
            let (sender, receiver) = mpsc::sync_channel(AHEAD);
            scope.spawn(move || {
                for piece in pieces.iter().skip(first).step_by(threads) {
                    let mut made = Vec::with_capacity(2 * PIECE);
                    job(&text.bytes, piece.clone(), &mut made);
                    if sender.send(made).is_err() {
                        break;
                    }
                }
            });
            receiver
        };
        let receivers: Vec<_> = (0..threads).map(begin).collect();
        let mut in_turn = receivers.iter().cycle().take(pieces.len());
        in_turn.try_for_each(|receiver| out.write_all(&receiver.recv().map_err(io::Error::other)?))
    })
}

/// What a job counts in all lines.
pub fn count(text: &Text, job: CountJob, threads: usize) -> i64 {
    each_of(text.slices(threads), |slice| job(&text.bytes, slice))
        .into_iter()
        .sum()
}

/// How many words there are before each bound, by a pass for each over words that are kept.
pub fn cached(text: &Text, threads: usize, out: &mut impl Write) -> io::Result<()> {
    let kept = each_of(text.slices(threads), |slice| kept_words(&text.bytes, slice));
    BOUNDS.iter().try_for_each(|bound| {
        let counts = each(threads, |i| before(&text.bytes, &kept[i], bound));
        writeln!(out, "{}", counts.into_iter().sum::<i64>())
    })
}

/// The rows of two numbers a line, which each thread has dealt to parts by their keys.
fn dealt(text: &Text, threads: usize) -> Vec<Parts> {
    each_of(text.slices(threads), |slice| scatter(&text.bytes, slice))
}

/// The lists of one part.
fn lists(dealt: &[Parts], part: usize) -> impl Iterator<Item = &[(i64, i64)]> + Clone {
    dealt.iter().map(move |parts| parts[part].as_slice())
}

/// The sum of what is made of each part; threads take the parts in turn.
fn over_parts(threads: usize, make: impl Fn(usize) -> i64 + Sync) -> i64 {
    let of_thread = |thread| {
        let mine = (thread..PARTS).step_by(threads);
        mine.map(&make).fold(0, i64::wrapping_add)
    };
    each(threads, of_thread)
        .into_iter()
        .fold(0, i64::wrapping_add)
}

/// The values of each key, and the sum over all keys of their number times their sum.
pub fn group(text: &Text, threads: usize) -> i64 {
    let dealt = dealt(text, threads);
    over_parts(threads, |part| {
        Groups::of(lists(&dealt, part))
            .all()
            .fold(0, |total, values| {
                let sum = values.iter().fold(0_i64, |sum, n| sum.wrapping_add(*n));
                total.wrapping_add(sum.wrapping_mul(values.len() as i64))
            })
    })
}

/// Each value of a key on the left with each on the right, and the sum of their products.
pub fn join(left: &Text, right: &Text, threads: usize) -> i64 {
    let (left, right) = (dealt(left, threads), dealt(right, threads));
    over_parts(threads, |part| {
        let groups = Groups::of(lists(&left, part));
        lists(&right, part)
            .flatten()
            .fold(0, |total, (key, value)| {
                let products = groups
                    .get(*key)
                    .iter()
                    .map(|other| other.wrapping_mul(*value));
                products.fold(total, i64::wrapping_add)
            })
    })
}

/// How many keys there are.
pub fn keys(text: &Text, threads: usize) -> i64 {
    let dealt = dealt(text, threads);
    over_parts(threads, |part| {
        let mut ids = Ids::with_room(lists(&dealt, part).map(<[_]>::len).sum());
        lists(&dealt, part).flatten().for_each(|(key, _)| {
            ids.at(*key);
        });
        ids.keys.len() as i64
    })
}
