//! A table of counts by text, with short texts in its slots.

use crate::fast_text::load;

/// How long a text may be that lies in its slot.
const INLINE: usize = 15;
/// What stands in place of the length where a text doesn't lie in its slot.
const LONG: u64 = 0xFF;
const SMALLEST: usize = 1 << 12;

/// A text as two numbers: its bytes and its length, or where it lies and a part of its hash. No
/// text is nothing but zeros.
#[derive(Clone, Copy, PartialEq, Eq)]
pub struct Key {
    low: u64,
    high: u64,
}

#[derive(Clone, Copy)]
struct Slot {
    key: Key,
    count: i64,
}

const EMPTY: Slot = Slot {
    key: Key { low: 0, high: 0 },
    count: 0,
};

/// Counts by text, where texts are ranges of the bytes of one file.
pub struct Table<'a> {
    text: &'a [u8],
    slots: Vec<Slot>,
    used: usize,
}

impl<'a> Table<'a> {
    /// An empty table over a text that has 16 bytes more than any range.
    pub fn new(text: &'a [u8]) -> Self {
        Table {
            text,
            slots: vec![EMPTY; SMALLEST],
            used: 0,
        }
    }

    /// The count of a key, which is 0 at first.
    #[inline]
    pub fn at(&mut self, key: Key, hash: u64) -> &mut i64 {
        if self.used * 2 >= self.slots.len() {
            self.grow();
        }
        let mut i = self.place(hash);
        while self.slots[i].key != key && self.slots[i].key != EMPTY.key {
            if key.high >> 56 == LONG && same_long(self.text, self.slots[i].key, key) {
                return &mut self.slots[i].count;
            }
            i = (i + 1) & (self.slots.len() - 1);
        }
        if self.slots[i].key == EMPTY.key {
            self.slots[i].key = key;
            self.used += 1;
        }
        &mut self.slots[i].count
    }

    /// All counts.
    pub fn counts(&self) -> impl Iterator<Item = i64> + '_ {
        self.filled().map(|slot| slot.count)
    }

    /// Adds the counts of another table.
    pub fn add(&mut self, other: &Table) {
        for slot in other.filled() {
            let count = self.at(slot.key, hash_of(self.text, slot.key));
            *count = count.wrapping_add(slot.count);
        }
    }

    fn filled(&self) -> impl Iterator<Item = &Slot> {
        self.slots.iter().filter(|slot| slot.key != EMPTY.key)
    }

    fn place(&self, hash: u64) -> usize {
        hash as usize & (self.slots.len() - 1)
    }

    #[cold]
    fn grow(&mut self) {
        let bigger = vec![EMPTY; self.slots.len() * 2];
        for slot in std::mem::replace(&mut self.slots, bigger) {
            if slot.key == EMPTY.key {
                continue;
            }
            let mut i = self.place(hash_of(self.text, slot.key));
            while self.slots[i].key != EMPTY.key {
                i = (i + 1) & (self.slots.len() - 1);
            }
            self.slots[i] = slot;
        }
    }
}

/// The key of the text in a range, and its hash.
#[inline]
pub fn key_of(text: &[u8], from: usize, to: usize) -> (Key, u64) {
    let len = to - from;
    if len > INLINE {
        let hash = long_hash(text, from, to);
        let key = Key {
            low: (from as u64) << 32 | len as u64,
            high: hash >> 8 | LONG << 56,
        };
        return (key, hash);
    }
    let high = load(text, from + 8) & mask(len.saturating_sub(8));
    let key = Key {
        low: load(text, from) & mask(len.min(8)),
        high: high | (len as u64) << 56,
    };
    (key, mix(key.low, key.high))
}

/// The range of a key whose text doesn't lie in its slot.
fn range(key: Key) -> std::ops::Range<usize> {
    let from = (key.low >> 32) as usize;
    from..from + (key.low as u32) as usize
}

fn hash_of(text: &[u8], key: Key) -> u64 {
    if key.high >> 56 == LONG {
        let range = range(key);
        return long_hash(text, range.start, range.end);
    }
    mix(key.low, key.high)
}

fn long_hash(text: &[u8], from: usize, to: usize) -> u64 {
    let last = mix(load(text, to - 8), (to - from) as u64);
    (from..to - 8)
        .step_by(8)
        .fold(last, |hash, i| mix(hash ^ load(text, i), 0x9E37_79B9))
}

fn same_long(text: &[u8], a: Key, b: Key) -> bool {
    a.high == b.high && text[range(a)] == text[range(b)]
}

/// The lower bytes of a number.
fn mask(bytes: usize) -> u64 {
    match bytes {
        8 => u64::MAX,
        _ => (1 << (8 * bytes)) - 1,
    }
}

fn mix(a: u64, b: u64) -> u64 {
    let product = u128::from(a ^ 0xA076_1D64_78BD_642F) * u128::from(b ^ 0xE703_7ED1_A0B4_28DB);
    (product ^ (product >> 64)) as u64
}
