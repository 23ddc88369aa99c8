//! Calls on one tally book, laid out in bytes, and the line of each. The book's words stand beside it,
//! for the calls that lay them and that show them all. CASES.md sets out all of it to the letter.

use crate::cases::{self, spoken};
use crate::leaves::as_one;
use crate::listing;
use crate::recording::{self, Recording};
use crate::refusal::Refusal;
use crate::salvage;
use crate::tally::{Accepted, Book, Entry, Key, MOST};

/// How far calls are read.
pub const LONGEST: usize = 262_144;

/// The words of a book: how many entries it holds, then their numbers, units and counts.
pub const WORDS: usize = 1 + 3 * MOST;

/// Where the three columns begin.
pub const NUMBERS: usize = 1;
pub const UNITS: usize = NUMBERS + MOST;
pub const COUNTS: usize = UNITS + MOST;

/// A call.
#[derive(Clone, Copy, Debug, PartialEq, Eq)]
enum Call<'a> {
    Enter(Entry),
    EnterRecording {
        count: u32,
        recording: &'a [u8],
    },
    Held(Key),
    Total(u32),
    Entries,
    Clear,
    Lay {
        from: u32,
        to: u32,
        first: u32,
        step: u32,
    },
    Words,
    /// The next call is made so many times more than once.
    More(u32),
}

/// Takes a word off the front.
fn word(rest: &mut &[u8]) -> Option<u32> {
    let (word, after) = rest.split_first_chunk()?;
    *rest = after;
    Some(u32::from_le_bytes(*word))
}

/// Takes a unit and a number off the front.
fn key(rest: &mut &[u8]) -> Option<Key> {
    let unit = word(rest)?;
    let number = word(rest)?;
    Some(Key { unit, number })
}

/// Takes a call off the front; none if it is cut or of an unknown kind.
fn call<'a>(rest: &mut &'a [u8]) -> Option<Call<'a>> {
    let (kind, after) = rest.split_first()?;
    *rest = after;
    Some(match kind {
        b'e' => {
            let key = key(rest)?;
            let count = word(rest)?;
            Call::Enter(Entry { key, count })
        }
        b'r' => {
            let count = word(rest)?;
            let length = word(rest)? as usize;
            let (recording, after) = rest.split_at_checked(length)?;
            *rest = after;
            Call::EnterRecording { count, recording }
        }
        b'h' => Call::Held(key(rest)?),
        b't' => Call::Total(word(rest)?),
        b'n' => Call::Entries,
        b'c' => Call::Clear,
        b'w' => {
            let from = word(rest)?;
            let to = word(rest)?;
            let first = word(rest)?;
            let step = word(rest)?;
            Call::Lay {
                from,
                to,
                first,
                step,
            }
        }
        b'd' => Call::Words,
        b'm' => Call::More(word(rest)?),
        _ => return None,
    })
}

/// How entering a recording is told.
#[derive(Clone, Copy, PartialEq, Eq)]
enum Form {
    /// By the line of an entry, or by the recording's line of `list`.
    Listed,
    /// As the functions for C tell it: by the words of an entry and what is told of the recording.
    ForC,
}

/// The words for a refusal.
fn refused(Refusal { number, .. }: Refusal) -> String {
    format!("refused {number}")
}

/// A book and its words. The book answers.
struct Sheet {
    form: Form,
    book: Book,
    words: Vec<u32>,
}

impl Sheet {
    fn new(form: Form) -> Self {
        Sheet {
            form,
            book: Book::default(),
            words: vec![0; WORDS],
        }
    }

    /// Makes a call; its line, or nothing.
    fn make(&mut self, call: &Call) -> String {
        match *call {
            Call::Enter(entry) => format!("{}\n", self.enter(entry)),
            Call::EnterRecording { count, recording } => self.enter_recording(recording, count),
            Call::Held(key) => match self.book.held(key) {
                Some(count) => format!("held {count}\n"),
                None => "not held\n".to_string(),
            },
            Call::Total(unit) => format!("total {}\n", self.book.total(unit)),
            Call::Entries => format!("entries {}\n", self.book.entries()),
            Call::Clear => {
                self.words[0] = 0;
                self.read_words();
                "cleared\n".to_string()
            }
            Call::Lay {
                from,
                to,
                first,
                step,
            } => {
                let (from, to) = (from as usize, (to as usize).min(WORDS));
                let mut value = first;
                for word in self.words.get_mut(from..to).unwrap_or(&mut []) {
                    *word = value;
                    value = value.wrapping_add(step);
                }
                self.read_words();
                String::new()
            }
            Call::Words => format!("book {}\n", as_one(0, self.words.iter().map(|&w| w.into()))),
            Call::More(_) => String::new(),
        }
    }

    /// Enters the entry of a recording: the answer and, for C, in five numbers what is told of the
    /// recording.
    fn enter_recording(&mut self, recording: &[u8], count: u32) -> String {
        let checked = recording::check(recording);
        let answer = match (&checked, self.form) {
            (Ok(Recording { unit, number, .. }), _) => {
                self.enter(Entry::new(*unit, *number, count))
            }
            (Err(fault), Form::ForC) => refused((*fault).into()),
            (Err(fault), Form::Listed) => {
                let line = listing::refused((*fault).into());
                return String::from_utf8(line).expect("a line of text");
            }
        };
        match self.form {
            Form::Listed => format!("{answer}\n"),
            Form::ForC => {
                let told = recording::told(&checked).map(|n| format!(" {n}")).concat();
                format!("{answer} told{told}\n")
            }
        }
    }

    /// Enters an entry. One that is new is laid at the next row.
    fn enter(&mut self, entry: Entry) -> String {
        let row = self.book.entries();
        match self.book.enter(entry) {
            Ok(Accepted::Entered) => {
                self.words[NUMBERS + row] = entry.key.number;
                self.words[UNITS + row] = entry.key.unit;
                self.words[COUNTS + row] = entry.count;
                self.words[0] += 1;
                "entered".to_string()
            }
            Ok(Accepted::AlreadyHeld) => "already held".to_string(),
            Err(refusal) => refused(refusal),
        }
    }

    /// Makes the book anew, of the words.
    fn read_words(&mut self) {
        let words = &self.words;
        let rows = (words[0] as usize).min(MOST);
        let entry = |row| {
            Entry::new(
                words[UNITS + row],
                words[NUMBERS + row],
                words[COUNTS + row],
            )
        };
        self.book = Book::of((0..rows).map(entry));
    }
}

/// Makes the calls and writes the line of each.
pub fn answers(input: &[u8]) -> Vec<u8> {
    lines(input, Form::Listed)
}

/// The same as the functions for C tell it.
pub fn answers_for_c(input: &[u8]) -> Vec<u8> {
    lines(input, Form::ForC)
}

fn lines(input: &[u8], form: Form) -> Vec<u8> {
    let mut rest = &input[..input.len().min(LONGEST)];
    let mut sheet = Sheet::new(form);
    let mut out = Vec::new();
    let mut more = 0;
    while let Some(call) = call(&mut rest) {
        if let Call::More(times) = call {
            more = times;
            continue;
        }
        let mut line = sheet.make(&call);
        for _ in 0..more {
            line = sheet.make(&call);
        }
        out.extend_from_slice(line.as_bytes());
        more = 0;
    }
    out
}

/// Calls one after the other.
#[derive(Clone, Debug, Default, PartialEq, Eq)]
pub struct Calls(pub Vec<u8>);

impl Calls {
    /// A kind and its numbers.
    fn put(&mut self, kind: u8, numbers: &[u32]) {
        self.0.push(kind);
        self.0.extend(numbers.iter().flat_map(|n| n.to_le_bytes()));
    }

    pub fn enter(&mut self, unit: u32, number: u32, count: u32) {
        self.put(b'e', &[unit, number, count]);
    }

    pub fn enter_recording(&mut self, count: u32, recording: &[u8]) {
        self.put(b'r', &[count, recording.len() as u32]);
        self.0.extend_from_slice(recording);
    }

    pub fn held(&mut self, unit: u32, number: u32) {
        self.put(b'h', &[unit, number]);
    }

    pub fn total(&mut self, unit: u32) {
        self.put(b't', &[unit]);
    }

    pub fn entries(&mut self) {
        self.put(b'n', &[]);
    }

    pub fn clear(&mut self) {
        self.put(b'c', &[]);
    }

    /// Lays the words from one place to another: the first, and each a step more.
    pub fn lay(&mut self, from: usize, to: usize, first: u32, step: u32) {
        self.put(b'w', &[from as u32, to as u32, first, step]);
    }

    pub fn words(&mut self) {
        self.put(b'd', &[]);
    }

    pub fn more(&mut self, times: u32) {
        self.put(b'm', &[times]);
    }

    /// The entries, and all words.
    pub fn look(&mut self) {
        self.entries();
        self.words();
    }

    /// Lays a first word, and rows of one unit from row 0 on: their numbers from one on, their
    /// counts a step apart.
    pub fn lay_rows(&mut self, told: u32, rows: usize, unit: u32, number: u32, counts: (u32, u32)) {
        self.lay(NUMBERS, NUMBERS + rows, number, 1);
        self.lay(UNITS, UNITS + rows, unit, 0);
        self.lay(COUNTS, COUNTS + rows, counts.0, counts.1);
        self.lay(0, 1, told, 0);
    }
}

/// The calls that the stored lines are for.
pub fn cases() -> Vec<u8> {
    calls(Form::Listed)
}

/// The same for C, where more recordings are refused.
pub fn cases_for_c() -> Vec<u8> {
    calls(Form::ForC)
}

fn calls(form: Form) -> Vec<u8> {
    let mut calls = Calls::default();
    few(&mut calls);
    ends(&mut calls);
    cleared(&mut calls);
    recordings(&mut calls, form);
    nearly_full(&mut calls);
    told_too_many(&mut calls);
    largest_total(&mut calls);
    several_rows(&mut calls);
    laid(&mut calls);
    made_again(&mut calls);
    // An unknown kind, and a call after it that is not made.
    calls.put(b'x', &[]);
    calls.entries();
    calls.0
}

/// An empty book, then few entries: the same again, another count, keys that have one part in common
/// or have the parts in the other order, and the totals of several units.
fn few(calls: &mut Calls) {
    calls.look();
    calls.held(0, 0);
    calls.held(7, 1);
    calls.total(0);
    calls.total(7);
    calls.enter(7, 1, 100);
    calls.look();
    calls.held(7, 1);
    calls.total(7);
    for count in [100, 250, 99, 0, 100] {
        calls.enter(7, 1, count);
        calls.held(7, 1);
        calls.total(7);
        calls.look();
    }
    for (unit, number, count) in [(1, 7, 40), (7, 2, 30), (8, 1, 20), (8, 7, 40), (1, 1, 100)] {
        calls.held(unit, number);
        calls.enter(unit, number, count);
        calls.held(unit, number);
        calls.total(unit);
        calls.look();
    }
    for (unit, number, count) in [(1, 7, 100), (7, 1, 40), (7, 2, 30), (8, 2, 30), (8, 1, 20)] {
        calls.enter(unit, number, count);
        calls.words();
    }
    for unit in [1, 7, 8, 2, 0, 15] {
        calls.total(unit);
        for number in [1, 2, 7, 8] {
            calls.held(unit, number);
        }
    }
    calls.look();
}

/// The largest and the least numbers, and numbers that differ in one byte.
fn ends(calls: &mut Calls) {
    const MAX: u32 = u32::MAX;
    for (unit, number, count) in [
        (9, 9, 0),
        (9, 9, 0),
        (9, 9, 1),
        (0, 0, 5),
        (MAX, MAX, MAX),
        (MAX, MAX, MAX),
        (MAX, MAX, 0),
        (MAX, 0, MAX),
        (0, MAX, MAX),
        (MAX, 1, MAX - 1),
    ] {
        calls.enter(unit, number, count);
        calls.held(unit, number);
        calls.total(unit);
    }
    let (unit, number, count) = (0x0102_0304, 0x0506_0708, 0x090A_0B0C);
    calls.enter(unit, number, count);
    calls.held(unit, number);
    for byte in 0..4 {
        let other = 0x80 << (8 * byte);
        calls.held(unit ^ other, number);
        calls.held(unit, number ^ other);
        calls.total(unit ^ other);
        calls.enter(unit, number, count ^ other);
    }
    calls.held(unit.swap_bytes(), number.swap_bytes());
    calls.total(unit);
    calls.look();
}

/// A book made empty, and entered in again in another order and with other counts. The words of the
/// entries that were are no part of it.
fn cleared(calls: &mut Calls) {
    calls.clear();
    calls.look();
    calls.held(7, 1);
    calls.held(7, 2);
    calls.total(7);
    calls.enter(7, 2, 31);
    calls.held(7, 1);
    calls.held(7, 2);
    calls.total(7);
    calls.look();
    calls.enter(7, 1, 250);
    calls.held(7, 1);
    calls.held(8, 1);
    calls.total(7);
    calls.total(8);
    calls.look();
    calls.clear();
    calls.clear();
    calls.look();
    calls.held(7, 2);
    calls.total(7);
}

/// Recordings: sound, the same again, with another count, with a key that is entered by itself,
/// salvaged and whole, and refused of several causes.
fn recordings(calls: &mut Calls, form: Form) {
    let sample = cases::sample();
    let frames = spoken(21, 2);
    let (unit, number) = (0x0102_0304, 0x0A0B_0C0D);
    let sound = cases::sound(unit, number, &[&frames[..1]]);
    for count in [11, 11, 12] {
        calls.enter_recording(count, &sound);
        calls.held(unit, number);
        calls.held(number, unit);
        calls.total(unit);
        calls.look();
    }
    calls.enter(unit, number, 11);
    calls.enter(unit, number, 12);
    calls.held(unit.swap_bytes(), number.swap_bytes());
    // The sample is of unit 7 and number 1. Cut, it is refused, whether its key is held or not.
    calls.enter_recording(2, &sample[..44]);
    calls.held(7, 1);
    calls.enter(7, 1, 2);
    for count in [2, 3] {
        calls.enter_recording(count, &sample[..44]);
        calls.enter_recording(count, &sample);
        calls.look();
    }
    calls.enter(1, 7, 9);
    calls.held(7, 1);
    calls.total(7);
    // What is salvaged of a recording has the key of the whole one.
    let whole = cases::sound(12, 345, &[&frames[..1], &frames[1..]]);
    let salvaged = salvage::salvage(&whole[..70]);
    let salvaged = salvage::written(&whole[..70], &salvaged);
    calls.enter_recording(5, &whole[..70]);
    calls.enter_recording(5, salvaged);
    calls.enter_recording(5, &whole);
    calls.enter_recording(6, &whole);
    calls.held(12, 345);
    calls.total(12);
    calls.look();
    // Refused: nothing at all, a cut header, lengths past the end, wrong sizes, a wrong number in the end, a byte
    // after it, no head, no end; for C, by its cause, also an unknown kind, a second head, an end before any voice.
    let mut long_head = sound[..14].to_vec();
    long_head[0] = 9;
    long_head.push(0);
    let mut short_voice = sound[..37].to_vec();
    short_voice[14] = 17;
    let mut wrong_end = sound.clone();
    wrong_end[44] = 2;
    let after_the_end = [&sound[..], &[0]].concat();
    let mut unknown_kind = sound.clone();
    unknown_kind[18] = 4;
    let second_head = [&sound[..14], &sound].concat();
    let end_first = [&sound[..14], &sound[38..]].concat();
    let more = match form {
        Form::Listed => vec![],
        Form::ForC => vec![&unknown_kind[..], &second_head, &end_first],
    };
    for recording in [
        &[][..],
        &sound[..3],
        &sound[..13],
        &sound[..19],
        &sound[..47],
        &long_head,
        &short_voice,
        &wrong_end,
        &after_the_end,
        &sound[14..],
        &sound[..38],
    ]
    .into_iter()
    .chain(more)
    {
        calls.enter_recording(11, recording);
        calls.look();
    }
    calls.held(unit, number);
    calls.held(0, 0);
    calls.total(unit);
}

/// A book that has room for two entries, for one and for none, its rows laid.
fn nearly_full(calls: &mut Calls) {
    calls.lay_rows(4_094, 4_096, 50, 1_000, (1, 1));
    calls.look();
    for number in [1_000, 3_000, 5_093, 5_094, 5_095, 999] {
        calls.held(50, number);
    }
    calls.held(1_000, 50);
    calls.total(50);
    calls.enter(50, 1_000, 1);
    calls.enter(50, 1_000, 2);
    calls.look();
    for unit in [60, 61] {
        calls.enter(unit, 1, unit - 55);
        calls.held(unit, 1);
        calls.total(unit);
        calls.held(50, 5_094);
        calls.held(50, 5_095);
        calls.look();
    }
    let frames = spoken(22, 1);
    let recording = |unit, number| cases::sound(unit, number, &[&frames]);
    calls.enter(62, 1, 7);
    calls.held(62, 1);
    calls.total(62);
    calls.look();
    for (unit, number, count) in [
        (50, 1_000, 1),
        (50, 1_000, 2),
        (50, 3_000, 2_001),
        (50, 5_093, 4_094),
        (50, 5_094, 4_095),
        (60, 1, 5),
        (61, 1, 6),
        (61, 1, 7),
        (61, 2, 6),
    ] {
        calls.enter(unit, number, count);
        calls.look();
    }
    for (unit, number, count) in [(63, 1, 9), (61, 1, 6), (61, 1, 9)] {
        let sound = recording(unit, number);
        calls.enter_recording(count, &sound);
        calls.enter_recording(count, &sound[..47]);
        calls.look();
    }
    for unit in [50, 60, 61, 62, 63] {
        calls.total(unit);
    }
    // At 4,095 the last row is no part of the book.
    calls.lay(0, 1, 4_095, 0);
    calls.held(61, 1);
    calls.total(61);
    calls.enter_recording(3, &recording(63, 3));
    calls.look();
    calls.enter(61, 1, 6);
    calls.held(61, 1);
    calls.held(63, 3);
    calls.look();
}

/// A book whose first word tells more entries than there is room for.
fn told_too_many(calls: &mut Calls) {
    for told in [4_096, 4_097, 5_000, u32::MAX] {
        calls.lay(0, 1, told, 0);
        calls.look();
        calls.enter(64, 4, 4);
        calls.enter(63, 3, 3);
        calls.enter(63, 3, 4);
        calls.held(64, 4);
        calls.held(63, 3);
        calls.total(50);
        calls.total(63);
        calls.look();
    }
    calls.clear();
    calls.enter(64, 4, 4);
    calls.look();
}

/// The largest total there is.
fn largest_total(calls: &mut Calls) {
    calls.lay_rows(4_096, 4_096, 77, 0, (u32::MAX, 0));
    calls.total(77);
    calls.total(0);
    calls.enter(77, 0, u32::MAX);
    calls.enter(77, 4_095, u32::MAX);
    calls.enter(77, 4_095, 0);
    calls.enter(77, 4_096, u32::MAX);
    calls.total(77);
    calls.look();
    calls.lay(0, 1, 4_095, 0);
    calls.total(77);
    calls.held(77, 4_095);
    calls.enter(77, 4_096, u32::MAX);
    calls.total(77);
    calls.look();
}

/// A key in several rows: its first one's count is held, and all are in the total.
fn several_rows(calls: &mut Calls) {
    calls.lay(NUMBERS, NUMBERS + 4, 5, 0);
    calls.lay(UNITS, UNITS + 4, 6, 0);
    calls.lay(COUNTS, COUNTS + 4, 10, 10);
    calls.lay(0, 1, 3, 0);
    calls.held(6, 5);
    calls.total(6);
    for count in [10, 20, 30, 40] {
        calls.enter(6, 5, count);
        calls.look();
    }
    calls.enter(6, 6, 1);
    calls.held(6, 5);
    calls.total(6);
    calls.look();
    // The unit of the second row alone is another one.
    calls.lay(UNITS + 1, UNITS + 2, 5, 0);
    calls.held(5, 5);
    calls.held(6, 5);
    calls.total(5);
    calls.total(6);
    calls.clear();
    calls.enter(6, 5, 20);
    calls.total(6);
    calls.look();
}

/// Words laid over the columns, past the last one, backwards and nowhere.
fn laid(calls: &mut Calls) {
    calls.lay(0, WORDS, 3, 2_654_435_761);
    calls.look();
    calls.lay(WORDS - 2, 20_000, u32::MAX - 1, 3);
    calls.words();
    for (from, to) in [(WORDS, WORDS + 1), (9, 9), (9, 3), (u32::MAX as usize, 8)] {
        calls.lay(from, to, 5, 5);
        calls.words();
    }
    calls.lay(0, u32::MAX as usize, 0, 0);
    calls.look();
    // Two entries of zeros.
    calls.lay(0, 1, 2, 0);
    calls.held(0, 0);
    calls.total(0);
    calls.enter(0, 0, 0);
    calls.enter(0, 0, 1);
    calls.look();
    calls.clear();
}

/// Calls that are made again.
fn made_again(calls: &mut Calls) {
    calls.more(0);
    calls.enter(9, 9, 9);
    calls.more(1);
    calls.enter(9, 10, 9);
    calls.more(3);
    calls.enter(9, 10, 8);
    calls.more(5);
    calls.held(9, 10);
    calls.more(2);
    calls.total(9);
    // The later one counts.
    calls.more(7);
    calls.more(0);
    calls.enter(9, 11, 1);
    calls.more(0);
    calls.more(7);
    calls.enter(9, 12, 1);
    calls.more(2);
    calls.entries();
    calls.more(1);
    calls.enter_recording(1, &cases::sample());
    calls.more(1);
    calls.enter_recording(1, &cases::sample()[..3]);
    calls.more(1);
    calls.words();
    // It is for the next call alone, be there a line of it or none.
    calls.more(4);
    calls.lay(COUNTS, COUNTS + 1, 90, 0);
    calls.enter(9, 13, 1);
    calls.enter(9, 13, 1);
    calls.total(9);
    calls.more(2);
    calls.clear();
    calls.enter(9, 13, 2);
    calls.look();
}
