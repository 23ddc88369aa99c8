//! The tally book: it takes unit, recording number and spoken count, and counts each unit and number
//! once. It is kept as a map from each key to the counts under it, with the totals beside it.

use crate::recording;
use crate::refusal::Refusal;
use std::collections::HashMap;

/// The most entries that a book holds.
pub const MOST: usize = 4_096;

/// What is counted once: a unit and the number of one of its recordings.
#[derive(Clone, Copy, Debug, PartialEq, Eq, PartialOrd, Ord, Hash)]
pub struct Key {
    pub unit: u32,
    pub number: u32,
}

/// A key and its spoken count.
#[derive(Clone, Copy, Debug, PartialEq, Eq)]
pub struct Entry {
    pub key: Key,
    pub count: u32,
}

impl Entry {
    pub const fn new(unit: u32, number: u32, count: u32) -> Self {
        let key = Key { unit, number };
        Entry { key, count }
    }
}

/// The answer to an entry that is accepted.
#[derive(Clone, Copy, Debug, PartialEq, Eq)]
pub enum Accepted {
    Entered,
    AlreadyHeld,
}

#[derive(Clone, Debug, Default, PartialEq, Eq)]
pub struct Book {
    /// The counts under each key, in the order of the entries. Entering leaves one under a key.
    counts: HashMap<Key, Vec<u32>>,
    /// The sum of all counts of each unit.
    totals: HashMap<u32, u64>,
    entries: usize,
}

impl Book {
    /// The book of any entries, in their order: a key may stand in several.
    pub fn of(entries: impl IntoIterator<Item = Entry>) -> Self {
        let mut book = Book::default();
        for entry in entries {
            book.add(entry);
        }
        book
    }

    fn add(&mut self, Entry { key, count }: Entry) {
        self.counts.entry(key).or_default().push(count);
        *self.totals.entry(key.unit).or_default() += u64::from(count);
        self.entries += 1;
    }

    /// Enters an entry: refusal 13 if its key is held with another count, then 14 if the book is
    /// full and the key is new.
    pub fn enter(&mut self, entry: Entry) -> Result<Accepted, Refusal> {
        match self.held(entry.key) {
            Some(count) if count == entry.count => Ok(Accepted::AlreadyHeld),
            Some(_) => Err(Refusal::OTHER_COUNT),
            None if self.entries >= MOST => Err(Refusal::BOOK_FULL),
            None => {
                self.add(entry);
                Ok(Accepted::Entered)
            }
        }
    }

    /// Enters the unit and the number of a recording's head: the recording's own refusal comes first.
    pub fn enter_recording(&mut self, recording: &[u8], count: u32) -> Result<Accepted, Refusal> {
        self.enter(entry_of(recording, count)?)
    }

    /// The count that a key is held with: that of its first entry.
    pub fn held(&self, key: Key) -> Option<u32> {
        self.counts.get(&key)?.first().copied()
    }

    /// The sum of all counts of a unit.
    pub fn total(&self, unit: u32) -> u64 {
        self.totals.get(&unit).copied().unwrap_or(0)
    }

    /// How many entries there are.
    pub fn entries(&self) -> usize {
        self.entries
    }
}

/// The entry of a recording with a count, or the recording's refusal.
pub fn entry_of(recording: &[u8], count: u32) -> Result<Entry, Refusal> {
    let sound = recording::read(recording)?;
    Ok(Entry::new(sound.unit, sound.number, count))
}
