//! Histories: calls on one tally book, one after the other. First are named ones, at every edge; then
//! generated ones of a seed, in two orders of the same calls, mixed, and over books that no calls made.

use crate::cases::{self, spoken, Frame, Generator};
use crate::recording;
use crate::salvage;
use crate::sheet::{Calls, COUNTS, LONGEST, NUMBERS, UNITS, WORDS};
use crate::tally::{Entry, Key, MOST};

const MAX: u32 = u32::MAX;

/// The numbers that units, numbers and counts are often taken from.
const STRIKING: [u32; 8] = [0, 1, 7, 255, 256, 0x0102_0304, 0x8000_0000, MAX];

/// A history with its name.
#[derive(Clone, Debug)]
pub struct Named {
    pub name: String,
    pub calls: Vec<u8>,
}

/// The named histories.
pub fn named() -> Vec<Named> {
    let mut all = All(Vec::new());
    all.add("empty", Calls::default());
    all.cuts();
    all.unknown();
    all.fills();
    all.lengths();
    all.at_the_limit();
    all.foreign();
    all.0
}

struct All(Vec<Named>);

/// An entry and how many there are, so that calls before a cut are seen.
fn begun() -> Calls {
    let mut calls = Calls::default();
    calls.enter(7, 1, 5);
    calls.entries();
    calls
}

impl All {
    fn add(&mut self, name: impl Into<String>, calls: Calls) {
        self.0.push(Named {
            name: name.into(),
            calls: calls.0,
        });
    }

    /// Each kind of call that has numbers, cut at each length; and further times with no call or a cut one after
    /// them.
    fn cuts(&mut self) {
        let mut whole: [Calls; 6] = Default::default();
        whole[0].enter(7, 2, 5);
        whole[1].enter_recording(5, &[0; 2]);
        whole[2].held(7, 1);
        whole[3].total(7);
        whole[4].lay(0, 1, 0, 0);
        whole[5].more(0);
        for Calls(bytes) in whole {
            for length in 1..bytes.len() {
                let mut calls = begun();
                calls.0.extend_from_slice(&bytes[..length]);
                self.add(format!("{} cut to {length}", bytes[0] as char), calls);
            }
        }
        let mut calls = begun();
        calls.more(3);
        self.add("m and no call", calls.clone());
        calls.0.extend_from_slice(b"t\x07\0\0");
        self.add("m and a cut call", calls);
        let mut calls = begun();
        calls.0.extend_from_slice(b"r\0\0\0\0\xFF\xFF\xFF\xFF");
        calls.0.extend_from_slice(&cases::sample());
        self.add("r of a wild length", calls);
    }

    /// Kinds that there are not.
    fn unknown(&mut self) {
        for kind in [b'x', b'E', 0, b'\n', 255] {
            let mut calls = begun();
            calls.0.push(kind);
            calls.entries();
            self.add(format!("unknown kind {kind}"), calls);
        }
    }

    /// Books filled entry by entry, and calls beyond.
    fn fills(&mut self) {
        // Keys of 16 units and 256 numbers, all shuffled.
        let mut g = Generator::new(3);
        let units: Vec<u32> = STRIKING.into_iter().chain(50..58).collect();
        let numbers = || STRIKING.into_iter().chain(1_000..1_248);
        let mut entries: Vec<Entry> = units
            .iter()
            .flat_map(|&unit| numbers().map(move |number| (unit, number)))
            .map(|(unit, number)| Entry::new(unit, number, g.next() as u32 >> g.below(32)))
            .collect();
        shuffle(&mut g, &mut entries);
        let mut calls = Calls::default();
        for &entry in &entries {
            enter(&mut calls, entry);
        }
        calls.look();
        for &Entry { key, count } in entries.iter().step_by(60) {
            calls.enter(key.unit, key.number, count);
            calls.enter(key.unit, key.number, count.wrapping_add(1));
            calls.enter(key.unit, key.number ^ 0x4000_0000, count);
            calls.held(key.unit, key.number ^ 0x4000_0000);
            calls.held(key.unit, key.number);
        }
        for &unit in &units {
            calls.total(unit);
        }
        calls.look();
        self.add("4096 keys entered", calls);

        // One unit, each count the largest there is.
        let mut numbers: Vec<u32> = (0..MOST as u32 + 8).collect();
        shuffle(&mut g, &mut numbers);
        let mut calls = Calls::default();
        for (n, &number) in numbers.iter().enumerate() {
            calls.enter(77, number, MAX);
            if n < 4 || n + 4 >= MOST || n % 512 == 0 {
                calls.total(77);
                calls.total(number);
                calls.entries();
            }
        }
        calls.look();
        self.add("4096 largest counts", calls);

        // A recording for each entry. Some come in again, with the same count and with another.
        let mut keys: Vec<Key> = (0..MOST as u32)
            .map(|n| Key {
                unit: n % 64,
                number: 0x1000_0000 + n / 64,
            })
            .collect();
        shuffle(&mut g, &mut keys);
        let recording = |key: Key| cases::sound(key.unit, key.number, &[&[[0; 18]]]);
        let mut calls = Calls::default();
        for (&key, count) in keys.iter().zip(0..) {
            calls.enter_recording(count, &recording(key));
        }
        calls.look();
        for (key, count) in keys.iter().zip(0..).step_by(40) {
            calls.enter_recording(count, &recording(*key));
            calls.enter(key.unit, key.number, count + 1);
            calls.held(key.unit, key.number);
        }
        for unit in [64, 0] {
            let new = Key { unit, number: 1 };
            calls.enter_recording(1, &recording(new));
            calls.enter_recording(1, &recording(new)[..47]);
        }
        for unit in 0..65 {
            calls.total(unit);
        }
        calls.look();
        self.add("4096 recordings entered", calls);
    }

    /// Recordings of the greatest lengths: the longest sound one, and those of 65,536 and 65,537 bytes.
    fn lengths(&mut self) {
        let frames: Vec<Frame> = vec![[0; 18]; 3_639];
        let mut bytes = cases::sound(7, 1, &[&frames]);
        let mut calls = Calls::default();
        for length in [bytes.len(), recording::LONGEST, recording::LONGEST + 1] {
            bytes.resize(length, 0);
            calls.enter_recording(6, &bytes);
            calls.look();
        }
        calls.held(7, 1);
        self.add("recordings of 65532, 65536 and 65537 bytes", calls);
    }

    /// As many bytes as are read, and more.
    fn at_the_limit(&mut self) {
        let mut calls = begun();
        calls.enter_recording(6, &vec![0; 100_000]);
        calls.entries();
        calls.enter_recording(6, &vec![0; 65_536]);
        calls.look();
        // A recording that leaves a byte for the last call.
        let left = LONGEST - calls.0.len() - 9 - 1;
        calls.enter_recording(6, &vec![0; left]);
        let mut cut = calls.clone();
        calls.entries();
        self.add("262144 bytes", calls.clone());
        calls.entries();
        calls.enter(7, 1, 6);
        self.add("262144 bytes and more", calls);
        cut.total(7);
        self.add("262144 bytes and a call over them", cut);
    }

    /// Books that no calls made.
    fn foreign(&mut self) {
        let mut calls = Calls::default();
        for word in [0, 1, 3, 4_095, 4_096, 4_097, MAX] {
            calls.lay(0, WORDS, word, 0);
            calls.look();
            calls.held(word, word);
            calls.total(word);
            calls.total(word.wrapping_add(1));
            for count in [word, word ^ 1] {
                calls.enter(word, word, count);
                calls.enter(word ^ 1, word, count);
                calls.enter(word, word ^ 1, count);
            }
            calls.total(word);
            calls.look();
        }
        self.add("all words the same", calls);

        let mut calls = Calls::default();
        calls.lay_rows(0, MOST, 50, 1_000, (1, 1));
        for told in [
            0,
            1,
            2,
            4_094,
            4_095,
            4_096,
            4_097,
            65_536,
            0x8000_0000,
            MAX,
        ] {
            calls.lay(0, 1, told, 0);
            calls.look();
            calls.total(50);
            for number in [1_000, 1_001, 5_093, 5_094, 5_095] {
                calls.held(50, number);
            }
            for number in [1_000, 5_095, 5_096] {
                calls.enter(50, number, number - 999);
                calls.enter(50, number, 0);
            }
            calls.total(50);
            calls.look();
        }
        self.add("many first words", calls);

        // Two numbers by turns: the first two rows say what is held.
        let mut calls = Calls::default();
        calls.lay_rows(MOST as u32, MOST, 2, 0, (9, 7));
        calls.lay(NUMBERS, UNITS, 1, 0x8000_0000);
        for number in [1, 0x8000_0001, 2] {
            calls.held(2, number);
            for count in [9, 16, 23] {
                calls.enter(2, number, count);
            }
        }
        calls.total(2);
        calls.look();
        // Without its first row the first number is held as in row 2.
        calls.lay(UNITS, UNITS + 1, 3, 0);
        calls.held(3, 1);
        calls.held(2, 1);
        calls.total(2);
        calls.total(3);
        calls.look();
        self.add("two numbers by turns", calls);

        // Columns that run over into each other.
        let mut calls = Calls::default();
        let mut g = Generator::new(4);
        for _ in 0..24 {
            let ends = [0, 1, 2, UNITS - 1, UNITS, UNITS + 1, COUNTS - 1, COUNTS + 1];
            let [from, to] = std::array::from_fn(|_| g.one_of(&ends) + g.below(3));
            let first = g.one_of(&STRIKING);
            let step = g.one_of(&[0, 1, MAX, 0x0101_0101]);
            calls.lay(from, to.max(from) + g.below(2_000), first, step);
            calls.look();
            for _ in 0..4 {
                let key = [first, g.one_of(&STRIKING)].map(|n| n.wrapping_add(g.below(3) as u32));
                calls.held(key[0], key[1]);
                calls.total(key[1]);
                calls.enter(key[1], key[0], g.one_of(&STRIKING));
            }
            if g.below(3) == 0 {
                calls.lay(0, 1, g.below(5_000) as u32, 0);
            }
        }
        self.add("columns run over", calls);
    }
}

/// Puts things into another order.
pub fn shuffle<T>(g: &mut Generator, all: &mut [T]) {
    for last in (1..all.len()).rev() {
        all.swap(last, g.below(last + 1));
    }
}

fn enter(calls: &mut Calls, Entry { key, count }: Entry) {
    calls.enter(key.unit, key.number, count);
}

/// The generator of the n-th history of a seed.
fn generator(seed: u64, n: u64) -> Generator {
    let mut g = Generator::new(seed);
    // The recordings of the seed begin with its first number, the uploads with its second.
    g.next();
    g.next();
    Generator::new(g.next() ^ n)
}

/// Any number: small, striking or other.
fn any(g: &mut Generator) -> u32 {
    match g.below(4) {
        0 => g.one_of(&STRIKING),
        1 => g.next() as u32,
        _ => g.below(40) as u32,
    }
}

/// So many keys, each of its own: of few units.
fn keys(g: &mut Generator, count: usize) -> Vec<Key> {
    let units: Vec<u32> = (0..1 + g.below(9)).map(|_| any(g)).collect();
    let first = any(g);
    let mut keys: Vec<Key> = (0..count as u32)
        .map(|n| Key {
            unit: g.one_of(&units),
            number: first.wrapping_add(n),
        })
        .collect();
    shuffle(g, &mut keys);
    keys
}

/// A sound recording of a key, of a few frames.
fn recording_of(g: &mut Generator, key: Key) -> Vec<u8> {
    let frames = spoken(g.next(), 1 + g.below(3));
    let first = 1 + g.below(frames.len());
    let parts = [&frames[..first], &frames[first..]];
    let parts = &parts[..1 + usize::from(first < frames.len())];
    cases::sound(key.unit, key.number, parts)
}

/// A recording of a key: sound, salvaged, or damaged in one way.
fn upload_of(g: &mut Generator, key: Key) -> Vec<u8> {
    let mut bytes = recording_of(g, key);
    let length = bytes.len();
    match g.below(12) {
        // What is salvaged of one that lost its end: with the head and a frame there is something.
        0..=2 => {
            bytes.truncate(38 + g.below(length - 38));
            let salvaged = salvage::salvage(&bytes);
            bytes = salvage::written(&bytes, &salvaged).to_vec();
        }
        3 => bytes.truncate(g.below(length)),
        4 => bytes.push(0),
        5 => bytes[length - 4] ^= 1,
        6 => bytes[g.one_of(&[4, 18, 42])] ^= 1 << g.below(8),
        7 => bytes[g.one_of(&[0, 1, 14, 15, 17])] ^= 1 << g.below(8),
        _ => {}
    }
    bytes
}

/// The same calls in two orders, and what is asked after both.
#[derive(Clone, Debug)]
pub struct Orders {
    pub orders: [Calls; 2],
    pub asks: Calls,
}

/// The n-th two orders of a seed: no two of their entries have a key in common and another count, and
/// there is room for all.
pub fn two_orders(seed: u64, n: u64) -> Orders {
    let mut g = generator(seed, n);
    let count = g.one_of(&[2, 10, 80, 400, 1_000]);
    let keys = keys(&mut g, count);
    let mut asks = Calls::default();
    let mut all: Vec<Calls> = Vec::new();
    for &key in &keys {
        let count = any(&mut g);
        // Some of the keys are not entered, and some several times.
        let times = g.one_of(&[0, 1, 1, 1, 2, 3]);
        for _ in 0..times {
            let mut calls = Calls::default();
            if g.below(12) == 0 {
                calls.enter_recording(count, &upload_of(&mut g, key));
            } else {
                calls.enter(key.unit, key.number, count);
            }
            all.push(calls);
        }
        asks.held(key.unit, key.number);
        if g.below(20) == 0 {
            asks.held(key.number, key.unit);
        }
    }
    let mut units: Vec<u32> = keys.iter().map(|key| key.unit).collect();
    units.sort_unstable();
    units.dedup();
    for unit in units {
        asks.total(unit);
        asks.total(unit.wrapping_add(1));
    }
    asks.entries();
    let orders = [(); 2].map(|()| {
        shuffle(&mut g, &mut all);
        let bytes = all.iter().flat_map(|call| &call.0);
        Calls(bytes.copied().collect())
    });
    Orders { orders, asks }
}

/// Lays some book that no calls made.
fn lay_any(g: &mut Generator, calls: &mut Calls, keys: &[Key]) {
    let key = g.one_of(keys);
    let (first, step) = (any(g), g.one_of(&[0, 0, 1, MAX, 0x8000_0000]));
    let near_full = 4_090 + g.below(10) as u32;
    let few = g.below(30) as u32;
    let told = g.one_of(&[near_full, near_full, few, few, few, MAX]);
    match g.below(4) {
        // Rows of one unit.
        0 => calls.lay_rows(told, MOST, key.unit, key.number, (first, step)),
        // A key in all rows.
        1 => {
            calls.lay_rows(told, MOST, key.unit, key.number, (first, step));
            calls.lay(NUMBERS, UNITS, key.number, 0);
        }
        // A key in a few rows, wherever these are.
        2 => {
            let row = g.below(40);
            calls.lay(NUMBERS + row, NUMBERS + row + 3, key.number, 0);
            calls.lay(UNITS + row, UNITS + row + 3, key.unit, 0);
            calls.lay(COUNTS + row, COUNTS + row + 3, first, step);
            calls.lay(0, 1, told, 0);
        }
        // Any words.
        _ => {
            let from = g.below(WORDS);
            calls.lay(from, from + g.below(WORDS), first, step);
            calls.lay(0, 1, told, 0);
        }
    }
}

/// Mixed calls on a few keys or many: entries, repeated or with another count, recordings, asking,
/// clearing; over foreign books if so.
fn mixed(g: &mut Generator, foreign: bool) -> Calls {
    let (most_keys, most_calls) = match (foreign, g.below(6)) {
        (true, k) => ([1, 3, 10, 10, 60, 60][k], 300),
        (false, k) => [
            (1, 300),
            (4, 800),
            (30, 4_000),
            (30, 1_500),
            (250, 3_000),
            (1_500, 2_000),
        ][k],
    };
    let keys = keys(g, most_keys);
    let usual: Vec<u32> = keys.iter().map(|_| any(g)).collect();
    let clears = g.one_of(&[60, 400, 5_000]);
    let mut calls = Calls::default();
    if foreign {
        lay_any(g, &mut calls, &keys);
    }
    for _ in 0..most_calls / 2 + g.below(most_calls / 2) {
        let mut call = Calls::default();
        let k = g.below(keys.len());
        let mut key = keys[k];
        let count = match g.below(6) {
            0 => any(g),
            1 => usual[k] ^ 1 << g.below(32),
            _ => usual[k],
        };
        match g.below(24) {
            0 => std::mem::swap(&mut key.unit, &mut key.number),
            1 => key.unit ^= 1 << g.below(32),
            2 => key.number ^= 1 << g.below(32),
            _ => {}
        }
        if g.below(30) == 0 {
            call.more(g.below(4) as u32);
        }
        match g.below(40) {
            0..=18 => call.enter(key.unit, key.number, count),
            19..=22 => call.enter_recording(count, &upload_of(g, key)),
            23 if g.below(8) == 0 => {
                let n = g.next() % 40;
                call.enter_recording(count, &cases::recording(5, n));
            }
            23..=30 => call.held(key.unit, key.number),
            31..=35 => call.total(key.unit),
            36 | 37 => call.entries(),
            38 => call.words(),
            _ if g.below(clears) < 20 => call.clear(),
            _ if foreign => lay_any(g, &mut call, &keys),
            _ => call.look(),
        }
        if calls.0.len() + call.0.len() <= LONGEST - 16 {
            calls.0.append(&mut call.0);
        }
    }
    calls.look();
    // Some end with a call that is cut, or of an unknown kind.
    match g.below(6) {
        0 => calls
            .0
            .extend_from_slice(&b"e\x01\0\0\0\x02\0\0\0\x03\0\0"[..1 + g.below(12)]),
        1 => calls.0.extend_from_slice(&[b'A' + g.below(26) as u8, b'n']),
        _ => {}
    }
    calls
}

/// The n-th history of a seed beyond the named ones. Of four, the first two are the same calls in two
/// orders, with the same asks after them; then comes a mixed one, and one over foreign books.
pub fn history(seed: u64, n: u64) -> Vec<u8> {
    match n % 4 {
        order @ (0 | 1) => {
            let Orders { orders, asks } = two_orders(seed, n - order);
            [&orders[order as usize].0[..], &asks.0].concat()
        }
        k => mixed(&mut generator(seed, n), k == 3).0,
    }
}
