//! Rows of two numbers: groups by the first, in parts that fit a processor's cache.

use crate::fast_text::{digits, rows};
use std::ops::Range;

/// Into how many parts rows are dealt, as a power of two.
const PART_BITS: u32 = 6;
pub const PARTS: usize = 1 << PART_BITS;

/// How long a line is at least, nearly.
const LINE: usize = 10;

/// Rows by the part of their keys.
pub type Parts = Vec<Vec<(i64, i64)>>;

/// The rows of the lines in a range, by the part of their keys.
pub fn scatter(text: &[u8], range: Range<usize>) -> Parts {
    let room = range.len() / LINE / PARTS;
    let mut parts: Parts = (0..PARTS).map(|_| Vec::with_capacity(room)).collect();
    for (from, row) in rows(text, range) {
        let key = digits(&text[from..row.key_end]);
        parts[(mix(key) >> (64 - PART_BITS)) as usize].push((key, row.value));
    }
    parts
}

fn mix(key: i64) -> u64 {
    (key as u64).wrapping_mul(0x9E37_79B9_7F4A_7C15)
}

/// Numbers from 0 on for keys, in the order in which they come.
pub struct Ids {
    /// One more than the number of a key, or 0.
    slots: Vec<u32>,
    pub keys: Vec<i64>,
}

impl Ids {
    /// No keys, and room for some.
    pub fn with_room(keys: usize) -> Self {
        Ids {
            slots: vec![0; (2 * keys).next_power_of_two().max(2)],
            keys: Vec::with_capacity(keys),
        }
    }

    /// The number of a key, which may be new.
    pub fn at(&mut self, key: i64) -> usize {
        let slot = self.slot(key);
        if self.slots[slot] == 0 {
            self.keys.push(key);
            self.slots[slot] = self.keys.len() as u32;
        }
        self.slots[slot] as usize - 1
    }

    /// The number of a key that came before.
    pub fn get(&self, key: i64) -> Option<usize> {
        (self.slots[self.slot(key)] as usize).checked_sub(1)
    }

    /// The slot of a key, or the empty one that it may have.
    fn slot(&self, key: i64) -> usize {
        let last = self.slots.len() - 1;
        let mut slot = (mix(key) >> 20) as usize & last;
        while self.slots[slot] != 0 && self.keys[self.slots[slot] as usize - 1] != key {
            slot = (slot + 1) & last;
        }
        slot
    }
}

/// The values of each key, which lie together.
pub struct Groups {
    ids: Ids,
    /// Where the values of each key end.
    ends: Vec<u32>,
    values: Vec<i64>,
}

impl Groups {
    /// The groups of the rows in some lists, with the values of a key in the order of the rows.
    pub fn of<'a>(lists: impl Iterator<Item = &'a [(i64, i64)]> + Clone) -> Self {
        let count = lists.clone().map(<[_]>::len).sum();
        let mut ids = Ids::with_room(count);
        let mut found = Vec::with_capacity(count);
        let mut ends: Vec<u32> = Vec::with_capacity(count);
        for (key, _) in lists.clone().flatten() {
            let id = ids.at(*key);
            if id == ends.len() {
                ends.push(0);
            }
            ends[id] += 1;
            found.push(id as u32);
        }
        let mut start = 0;
        for end in &mut ends {
            start += std::mem::replace(end, start);
        }
        let mut values = vec![0; count];
        for (id, (_, value)) in found.into_iter().zip(lists.flatten()) {
            let end = &mut ends[id as usize];
            values[*end as usize] = *value;
            *end += 1;
        }
        Groups { ids, ends, values }
    }

    /// The values of a key.
    pub fn get(&self, key: i64) -> &[i64] {
        self.ids.get(key).map_or(&[], |id| self.group(id))
    }

    /// The values of each key.
    pub fn all(&self) -> impl Iterator<Item = &[i64]> {
        (0..self.ends.len()).map(|id| self.group(id))
    }

    fn group(&self, id: usize) -> &[i64] {
        let start = id.checked_sub(1).map_or(0, |before| self.ends[before]);
        &self.values[start as usize..self.ends[id] as usize]
    }
}
