//! The tally book: worked examples, a second way over the plain list of accepted calls, a scan over the
//! words with a fault or none, and what holds in every order of the calls, over generated histories.

use outside::cases::{self, Generator};
use outside::histories::{history, named, shuffle, two_orders, Orders};
use outside::refusal::Refusal;
use outside::salvage::{salvage, written, Salvaged};
use outside::sheet::{self, answers, Calls};
use outside::tally::Accepted::{AlreadyHeld, Entered};
use outside::tally::{Book, Entry, Key};
use outside::{listing, recording};
use std::collections::BTreeSet;

const MAX: u32 = u32::MAX;
const MOST: usize = 4_096;
const WORDS: usize = 12_289;

/// The lines of some calls.
fn said(calls: &[u8]) -> Vec<String> {
    let text = String::from_utf8(answers(calls)).expect("text");
    assert!(text.is_empty() || text.ends_with('\n'));
    text.lines().map(String::from).collect()
}

/// Holds lines to those expected, one by one.
fn same(lines: &[String], expected: &[String]) {
    for (at, (line, expected)) in lines.iter().zip(expected).enumerate() {
        assert_eq!(line, expected, "line {at}");
    }
    assert_eq!(lines.len(), expected.len());
}

/// A call taken apart: its kind, its numbers, and the bytes of a recording.
#[derive(Clone, Debug)]
struct Taken<'a> {
    kind: u8,
    numbers: Vec<u32>,
    recording: &'a [u8],
    /// The call's own bytes.
    bytes: &'a [u8],
}

/// The calls of an input up to the first that is cut or unknown; or the unknown ones left out.
fn taken(input: &[u8], unknown_left_out: bool) -> Vec<Taken<'_>> {
    let input = &input[..input.len().min(262_144)];
    let mut all = Vec::new();
    let mut at = 0;
    while at < input.len() {
        let count = match input[at] {
            b'n' | b'c' | b'd' => 0,
            b't' | b'm' => 1,
            b'h' | b'r' => 2,
            b'e' => 3,
            b'w' => 4,
            _ if unknown_left_out => {
                at += 1;
                continue;
            }
            _ => break,
        };
        let mut end = at + 1 + 4 * count;
        if end > input.len() {
            break;
        }
        let numbers: Vec<u32> = input[at + 1..end]
            .chunks(4)
            .map(|four| four.iter().rev().fold(0, |sum, &b| sum << 8 | u32::from(b)))
            .collect();
        let recording_at = end;
        if input[at] == b'r' {
            end += numbers[1] as usize;
        }
        if end > input.len() {
            break;
        }
        all.push(Taken {
            kind: input[at],
            numbers,
            recording: &input[recording_at..end],
            bytes: &input[at..end],
        });
        at = end;
    }
    all
}

/// A history of accepted calls as a plain list: what is held and summed is told over it.
#[derive(Default)]
struct History(Vec<(u32, u32, u32)>);

impl History {
    /// The count that came first under a key.
    fn held(&self, unit: u32, number: u32) -> Option<u32> {
        let mut under = self.0.iter().filter(|e| (e.0, e.1) == (unit, number));
        under.next().map(|e| e.2)
    }

    /// The distinct entries, without the counts.
    fn keys(&self) -> BTreeSet<(u32, u32)> {
        self.0.iter().map(|e| (e.0, e.1)).collect()
    }

    /// The sum over the distinct entries of a unit of the count that came first.
    fn total(&self, unit: u32) -> u64 {
        let of_unit = self.keys().into_iter().filter(|key| key.0 == unit);
        of_unit
            .map(|key| u64::from(self.held(key.0, key.1).expect("it is in the list")))
            .sum()
    }

    fn enter(&mut self, unit: u32, number: u32, count: u32) -> &'static str {
        let held = self.held(unit, number);
        // Fewer calls than the book has room for cannot have filled it.
        let full = || self.0.len() >= MOST && self.keys().len() == MOST;
        let answer = match held {
            Some(first) if first != count => return "refused 13",
            Some(_) => "already held",
            None if full() => return "refused 14",
            None => "entered",
        };
        self.0.push((unit, number, count));
        answer
    }

    /// The line of a call, if the list says it: all words as one are not of it.
    fn line(&mut self, call: &Taken) -> Option<String> {
        Some(match (call.kind, &call.numbers[..]) {
            (b'e', &[unit, number, count]) => self.enter(unit, number, count).to_string(),
            (b'r', &[count, _]) => match recording::answer(call.recording) {
                Ok(sound) => self.enter(sound.unit, sound.number, count).to_string(),
                Err(_) => line_of(call.recording),
            },
            (b'h', &[unit, number]) => match self.held(unit, number) {
                Some(count) => format!("held {count}"),
                None => "not held".to_string(),
            },
            (b't', &[unit]) => format!("total {}", self.total(unit)),
            (b'n', _) => format!("entries {}", self.keys().len()),
            (b'c', _) => {
                self.0.clear();
                "cleared".to_string()
            }
            _ => return None,
        })
    }
}

/// The line of the listing for a refused recording.
fn line_of(recording: &[u8]) -> String {
    let text = String::from_utf8(listing::list(recording)).expect("text");
    assert!(text.starts_with("refused "));
    text.trim_end().to_string()
}

/// What a program may get wrong.
#[derive(Clone, Copy, Debug, PartialEq, Eq)]
enum Fault {
    None,
    LastCountKept,
    LastCountKeptAndEntered,
    SameCountedTwice,
    SameSummedTwice,
    FullBeforeHeld,
    FullBeforeOtherCount,
    FullAt4095,
    FullForgotten,
    TotalOfAllUnits,
    TotalOfFirstEntries,
    TotalOf32Bits,
    TotalWithoutLastRow,
    OtherCountWrites,
    FullWrites,
    RefusedRecordingWrites,
    RefusedRecordingEntered,
    AskingWrites,
    HeldSwapped,
    KeyUnordered,
    NumberAlone,
    UnitAlone,
    LowHalvesOfKey,
    LowHalfOfCount,
    StaleFound,
    StaleSummed,
    FirstWordAsItIs,
    FirstWordMadeRight,
    LastRowHeld,
    CountZeroIsNone,
    ClearWipes,
    ClearForgotten,
    HeadSwapped,
    HeadTurnedRound,
    RecordingRefusedLast,
    RecordingPlaceLeftOut,
    RecordingCountIsFrames,
    ColumnsSwapped,
    MoreForgotten,
    MoreForAll,
    FirstMoreCounts,
    AllAnswersPrinted,
    UnknownLeftOut,
    LaidWithoutStep,
}

const FAULTS: [Fault; 43] = [
    Fault::LastCountKept,
    Fault::LastCountKeptAndEntered,
    Fault::SameCountedTwice,
    Fault::SameSummedTwice,
    Fault::FullBeforeHeld,
    Fault::FullBeforeOtherCount,
    Fault::FullAt4095,
    Fault::FullForgotten,
    Fault::TotalOfAllUnits,
    Fault::TotalOfFirstEntries,
    Fault::TotalOf32Bits,
    Fault::TotalWithoutLastRow,
    Fault::OtherCountWrites,
    Fault::FullWrites,
    Fault::RefusedRecordingWrites,
    Fault::RefusedRecordingEntered,
    Fault::AskingWrites,
    Fault::HeldSwapped,
    Fault::KeyUnordered,
    Fault::NumberAlone,
    Fault::UnitAlone,
    Fault::LowHalvesOfKey,
    Fault::LowHalfOfCount,
    Fault::StaleFound,
    Fault::StaleSummed,
    Fault::FirstWordAsItIs,
    Fault::FirstWordMadeRight,
    Fault::LastRowHeld,
    Fault::CountZeroIsNone,
    Fault::ClearWipes,
    Fault::ClearForgotten,
    Fault::HeadSwapped,
    Fault::HeadTurnedRound,
    Fault::RecordingRefusedLast,
    Fault::RecordingPlaceLeftOut,
    Fault::RecordingCountIsFrames,
    Fault::ColumnsSwapped,
    Fault::MoreForgotten,
    Fault::MoreForAll,
    Fault::FirstMoreCounts,
    Fault::AllAnswersPrinted,
    Fault::UnknownLeftOut,
    Fault::LaidWithoutStep,
];

/// A book as its words alone, gone through from the first row on at every call.
struct Scan {
    words: Vec<u32>,
    fault: Fault,
    /// How many rows were compared.
    compared: u64,
}

impl Scan {
    fn new(fault: Fault) -> Self {
        Scan {
            words: vec![0; WORDS],
            fault,
            compared: 0,
        }
    }

    fn rows(&self) -> usize {
        (self.words[0] as usize).min(MOST)
    }

    /// The three words of a row: unit, number and count.
    fn row(&self, row: usize) -> (u32, u32, u32) {
        let [number, unit, count] = [1, 4097, 8193].map(|column| self.words[column + row]);
        match self.fault {
            Fault::ColumnsSwapped => (number, unit, count),
            _ => (unit, number, count),
        }
    }

    fn write(&mut self, row: usize, (unit, number, count): (u32, u32, u32)) {
        let row_at = |column: usize| (column + row).min(WORDS - 1);
        let (unit, number) = match self.fault {
            Fault::ColumnsSwapped => (number, unit),
            _ => (unit, number),
        };
        self.words[row_at(1)] = number;
        self.words[row_at(4097)] = unit;
        self.words[row_at(8193)] = count;
    }

    fn same_key(&self, a: (u32, u32), b: (u32, u32)) -> bool {
        match self.fault {
            Fault::KeyUnordered => a == b || a == (b.1, b.0),
            Fault::NumberAlone => a.1 == b.1,
            Fault::UnitAlone => a.0 == b.0,
            Fault::LowHalvesOfKey => (a.0 as u16, a.1 as u16) == (b.0 as u16, b.1 as u16),
            _ => a == b,
        }
    }

    /// The row in which a key is found.
    fn find(&mut self, key: (u32, u32)) -> Option<usize> {
        let rows = match self.fault {
            Fault::StaleFound => MOST,
            _ => self.rows(),
        };
        let mut found = None;
        for row in 0..rows {
            self.compared += 1;
            let (unit, number, count) = self.row(row);
            let there = self.fault != Fault::CountZeroIsNone || count != 0;
            if there && self.same_key((unit, number), key) {
                found = Some(row);
                if self.fault != Fault::LastRowHeld {
                    break;
                }
            }
        }
        found
    }

    fn enter(&mut self, (unit, number, count): (u32, u32, u32)) -> String {
        let row = self.rows();
        let full = row >= MOST || self.fault == Fault::FullAt4095 && row == MOST - 1;
        let found = self.find((unit, number));
        let answer = match found {
            Some(first) => {
                let held = self.row(first).2;
                let same = match self.fault {
                    Fault::LowHalfOfCount => held as u16 == count as u16,
                    _ => held == count,
                };
                let last_row = row.min(MOST - 1);
                match (same, self.fault) {
                    (true, Fault::FullBeforeHeld) if full => "refused 14",
                    (true, Fault::SameCountedTwice) => {
                        self.write(last_row, (unit, number, count));
                        self.words[0] = self.words[0].wrapping_add(1);
                        "already held"
                    }
                    (true, Fault::SameSummedTwice) => {
                        self.write(first, (unit, number, count.wrapping_mul(2)));
                        "already held"
                    }
                    (true, _) => "already held",
                    (false, Fault::FullBeforeOtherCount) if full => "refused 14",
                    (false, Fault::LastCountKept) => {
                        self.write(first, (unit, number, count));
                        "refused 13"
                    }
                    (false, Fault::LastCountKeptAndEntered) => {
                        self.write(first, (unit, number, count));
                        "entered"
                    }
                    (false, Fault::OtherCountWrites) => {
                        self.write(last_row, (unit, number, count));
                        "refused 13"
                    }
                    (false, _) => "refused 13",
                }
            }
            None if full && self.fault == Fault::FullForgotten => {
                self.write(MOST - 1, (unit, number, count));
                "entered"
            }
            None if full => {
                if self.fault == Fault::FullWrites {
                    self.words[0] = self.words[0].wrapping_add(1);
                }
                "refused 14"
            }
            None => {
                self.write(row, (unit, number, count));
                self.words[0] = self.words[0].wrapping_add(1);
                "entered"
            }
        };
        answer.to_string()
    }

    fn enter_recording(&mut self, count: u32, bytes: &[u8]) -> String {
        let number_at = |at: usize| match (bytes.get(at..at + 4), self.fault) {
            (Some(four), Fault::HeadTurnedRound) => {
                four.iter().fold(0, |sum, &b| sum << 8 | u32::from(b))
            }
            (Some(four), _) => four.iter().rev().fold(0, |sum, &b| sum << 8 | u32::from(b)),
            (None, _) => 0,
        };
        let (mut unit, mut number) = (number_at(6), number_at(10));
        if self.fault == Fault::HeadSwapped {
            (unit, number) = (number, unit);
        }
        let sound = recording::answer(bytes);
        let row = self.rows().min(MOST - 1);
        match (sound, self.fault) {
            (Ok(sound), Fault::RecordingCountIsFrames) => self.enter((unit, number, sound.frames)),
            (Ok(_), _) => self.enter((unit, number, count)),
            (Err(_), Fault::RefusedRecordingWrites) => {
                self.write(row, (unit, number, count));
                line_of(bytes)
            }
            (Err(_), Fault::RefusedRecordingEntered) => {
                self.enter((unit, number, count));
                line_of(bytes)
            }
            (Err(_), Fault::RecordingRefusedLast) => match self.find((unit, number)) {
                Some(found) if self.row(found).2 != count => "refused 13".to_string(),
                None if self.rows() == MOST => "refused 14".to_string(),
                _ => line_of(bytes),
            },
            (Err(refusal), Fault::RecordingPlaceLeftOut) => format!("refused {}", refusal.number),
            (Err(_), _) => line_of(bytes),
        }
    }

    fn total(&mut self, unit: u32) -> u64 {
        let mut rows = match self.fault {
            Fault::StaleSummed => MOST,
            _ => self.rows(),
        };
        if self.fault == Fault::TotalWithoutLastRow {
            rows = rows.min(MOST - 1);
        }
        let mut sum = 0;
        let mut before = BTreeSet::new();
        for row in 0..rows {
            self.compared += 1;
            let (of, number, count) = self.row(row);
            let first = self.fault != Fault::TotalOfFirstEntries || before.insert((of, number));
            if first && (of == unit || self.fault == Fault::TotalOfAllUnits) {
                sum += u64::from(count);
            }
        }
        match self.fault {
            Fault::TotalOf32Bits => u64::from(sum as u32),
            _ => sum,
        }
    }

    /// The line of a call; nothing of one that lays words.
    fn line(&mut self, call: &Taken) -> Option<String> {
        let asks = matches!(call.kind, b'h' | b't');
        if asks && self.fault == Fault::AskingWrites && self.rows() < MOST {
            let row = self.rows();
            self.words[1 + row] = call.numbers[0];
        }
        Some(match (call.kind, &call.numbers[..]) {
            (b'e', &[unit, number, count]) => self.enter((unit, number, count)),
            (b'r', &[count, _]) => self.enter_recording(count, call.recording),
            (b'h', &[unit, number]) => {
                let found = match self.fault {
                    Fault::HeldSwapped => self.find((number, unit)),
                    _ => self.find((unit, number)),
                };
                match found {
                    Some(row) => format!("held {}", self.row(row).2),
                    None => "not held".to_string(),
                }
            }
            (b't', &[unit]) => format!("total {}", self.total(unit)),
            (b'n', _) => {
                if self.fault == Fault::FirstWordMadeRight {
                    self.words[0] = self.rows() as u32;
                }
                match self.fault {
                    Fault::FirstWordAsItIs => format!("entries {}", self.words[0]),
                    _ => format!("entries {}", self.rows()),
                }
            }
            (b'c', _) => {
                match self.fault {
                    Fault::ClearWipes => self.words.fill(0),
                    Fault::ClearForgotten => {}
                    _ => self.words[0] = 0,
                }
                "cleared".to_string()
            }
            (b'w', &[from, to, first, step]) => {
                for (i, word) in self.words.iter_mut().enumerate() {
                    if (from as usize..to as usize).contains(&i) {
                        let steps = match self.fault {
                            Fault::LaidWithoutStep => 0,
                            _ => (i - from as usize) as u64,
                        };
                        *word = (u64::from(first) + steps * u64::from(step)) as u32;
                    }
                }
                return None;
            }
            (b'd', _) => {
                let as_one = |sum: u128, &word: &u32| (31 * sum + u128::from(word)) % (1 << 58);
                format!("book {}", self.words.iter().fold(0, as_one))
            }
            _ => return None,
        })
    }
}

/// The lines that a scan says, and how many rows it compared.
fn scanned(input: &[u8], fault: Fault) -> (Vec<String>, u64) {
    let mut scan = Scan::new(fault);
    let mut lines = Vec::new();
    let mut more = 0;
    let mut given = false;
    for call in taken(input, fault == Fault::UnknownLeftOut) {
        if call.kind == b'm' {
            if !(given && fault == Fault::FirstMoreCounts) {
                more = call.numbers[0];
            }
            given = true;
            continue;
        }
        let times = match fault {
            Fault::MoreForgotten => 0,
            _ => more,
        };
        let mut line = scan.line(&call);
        for _ in 0..times {
            if fault == Fault::AllAnswersPrinted {
                lines.extend(line);
            }
            line = scan.line(&call);
        }
        lines.extend(line);
        if fault != Fault::MoreForAll {
            more = 0;
        }
        given = false;
    }
    (lines, scan.compared)
}

/// Many histories: all that are named, and generated ones of a seed.
fn histories(seed: u64, generated: u64) -> Vec<Vec<u8>> {
    let named = named().into_iter().map(|history| history.calls);
    named
        .chain((0..generated).map(|n| history(seed, n)))
        .collect()
}

fn entry(unit: u32, number: u32, count: u32) -> Entry {
    Entry::new(unit, number, count)
}

fn key(unit: u32, number: u32) -> Key {
    Key { unit, number }
}

const OTHER_COUNT: Refusal = Refusal {
    number: 13,
    tells: 0,
    size: None,
};

const FULL: Refusal = Refusal {
    number: 14,
    tells: 0,
    size: None,
};

#[test]
fn worked_entries() {
    let mut book = Book::default();
    assert_eq!((book.entries(), book.total(7)), (0, 0));
    assert_eq!(book.held(key(7, 1)), None);
    assert_eq!(book.enter(entry(7, 1, 100)), Ok(Entered));
    assert_eq!(book.enter(entry(7, 1, 100)), Ok(AlreadyHeld));
    assert_eq!(book.enter(entry(7, 1, 250)), Err(OTHER_COUNT));
    assert_eq!(book.held(key(7, 1)), Some(100));
    assert_eq!((book.entries(), book.total(7)), (1, 100));
    assert_eq!(book.enter(entry(1, 7, 40)), Ok(Entered));
    assert_eq!(book.enter(entry(7, 2, 30)), Ok(Entered));
    assert_eq!(book.enter(entry(8, 1, 0)), Ok(Entered));
    assert_eq!(book.enter(entry(8, 1, 0)), Ok(AlreadyHeld));
    assert_eq!(book.enter(entry(8, 1, 1)), Err(OTHER_COUNT));
    assert_eq!([1, 7, 8, 2].map(|unit| book.total(unit)), [40, 130, 0, 0]);
    assert_eq!(book.held(key(8, 1)), Some(0));
    assert_eq!(book.held(key(8, 2)), None);
    assert_eq!(book.held(key(2, 7)), None);
    assert_eq!(book.entries(), 4);
}

#[test]
fn worked_lines() {
    let mut calls = Calls::default();
    calls.entries();
    calls.words();
    calls.enter(7, 1, 100);
    calls.enter(7, 1, 100);
    calls.enter(7, 1, 99);
    calls.enter_recording(100, &cases::sample());
    calls.enter_recording(5, &cases::sample());
    calls.enter_recording(100, &cases::sample()[..44]);
    calls.enter_recording(100, &[]);
    calls.enter_recording(100, &[7, 0, 0, 0, 1, 0, 0, 0, 0, 0, 0, 0, 0]);
    calls.held(7, 1);
    calls.held(1, 7);
    calls.total(7);
    calls.more(2);
    calls.enter(7, 2, MAX);
    calls.total(7);
    calls.entries();
    calls.lay(0, 1, 5_000, 0);
    calls.entries();
    calls.enter(9, 9, 9);
    calls.total(0);
    calls.enter(0, 0, 0);
    calls.clear();
    calls.entries();
    calls.held(7, 1);
    let lines = [
        "entries 0",
        "book 0",
        "entered",
        "already held",
        "refused 13",
        "already held",
        "refused 13",
        "refused 10 at 14",
        "refused 8 at 0",
        "refused 11 at 0 7",
        "held 100",
        "not held",
        "total 100",
        "already held",
        "total 4294967395",
        "entries 2",
        "entries 4096",
        "refused 14",
        "total 0",
        "already held",
        "cleared",
        "entries 0",
        "not held",
    ];
    assert_eq!(said(&calls.0), lines);
}

#[test]
fn worked_words() {
    // The last three words: the last counts once, the one before it 31 times, and so on.
    let mut calls = Calls::default();
    calls.lay(WORDS - 3, WORDS, 5, 4);
    calls.words();
    calls.lay(WORDS - 1, MAX as usize, MAX, 1);
    calls.words();
    calls.lay(WORDS, MAX as usize, 1, 1);
    calls.lay(8, 8, 1, 1);
    calls.lay(8, 7, 1, 1);
    calls.words();
    let first = 961 * 5 + 31 * 9 + 13;
    let second = 961 * 5 + 31 * 9 + u64::from(MAX);
    let lines = [first, second, second].map(|n| format!("book {n}"));
    assert_eq!(said(&calls.0), lines);

    // An entry is the first number, the first unit and the first count: all its columns are told apart.
    let power = |n: u64| (0..n).fold(1u64, |power, _| power * 31 % (1 << 58));
    let mut calls = Calls::default();
    calls.enter(3, 5, 11);
    calls.words();
    let words = [(1, 12_288), (5, 12_287), (3, 8_191), (11, 4_095)];
    let sum = words.iter().map(|&(word, n)| word * power(n) % (1 << 58));
    let line = format!("book {}", sum.sum::<u64>() % (1 << 58));
    assert_eq!(said(&calls.0), ["entered", &line]);
}

#[test]
fn a_full_book_takes_no_new_key_and_knows_its_own() {
    let mut g = Generator::new(1);
    let mut entries: Vec<Entry> = (0..MOST as u32)
        .map(|n| entry(n % 3, n, n.wrapping_mul(n)))
        .collect();
    shuffle(&mut g, &mut entries);
    let mut book = Book::default();
    for (n, &each) in entries.iter().enumerate() {
        assert_eq!(book.entries(), n);
        assert_eq!(book.enter(each), Ok(Entered));
    }
    let full = book.clone();
    for &Entry { key, count } in &entries {
        assert_eq!(book.enter(Entry { key, count }), Ok(AlreadyHeld));
        let other = entry(key.unit, key.number, count ^ 1 << g.below(32));
        assert_eq!(book.enter(other), Err(OTHER_COUNT));
        let new = entry(key.unit + 3, key.number, count);
        assert_eq!(book.enter(new), Err(FULL));
        assert_eq!((book.held(key), book.held(new.key)), (Some(count), None));
    }
    let sound = cases::sound(3, 1, &[&[[0; 18]]]);
    assert_eq!(book.enter_recording(&sound, 1), Err(FULL));
    let cut = Refusal::new(10, 38);
    assert_eq!(book.enter_recording(&sound[..47], 1), Err(cut));
    assert_eq!((book.entries(), &book), (4_096, &full));
}

#[test]
fn totals_reach_two_to_the_44th() {
    let mut book = Book::default();
    for number in 0..4_095 {
        assert_eq!(book.enter(entry(77, number, MAX)), Ok(Entered));
    }
    assert_eq!(book.total(77), 17_587_891_073_025);
    assert_eq!(book.enter(entry(78, 0, MAX)), Ok(Entered));
    assert_eq!(book.enter(entry(77, 4_095, MAX)), Err(FULL));
    assert_eq!(book.total(77), 17_587_891_073_025);
    assert_eq!((book.total(78), book.total(0)), (4_294_967_295, 0));
    let all = Book::of((0..4_096).map(|number| entry(77, number, MAX)));
    assert_eq!(all.total(77), (1 << 44) - 4_096);
}

#[test]
fn a_recording_counts_once() {
    let frames = cases::spoken(2, 6);
    let whole = cases::sound(0x0102_0304, 0x0506_0708, &[&frames[..2], &frames[2..]]);
    let held = key(16_909_060, 84_281_096);
    let mut book = Book::default();
    assert_eq!(book.enter_recording(&whole, 9), Ok(Entered));
    assert_eq!(book.enter_recording(&whole, 9), Ok(AlreadyHeld));
    assert_eq!(book.enter_recording(&whole, 8), Err(OTHER_COUNT));
    assert_eq!((book.held(held), book.total(16_909_060)), (Some(9), 9));
    assert_eq!(book.entries(), 1);
    // What is salvaged of it is the same recording to the book, and what is left is refused.
    let mut mended = 0;
    for length in 0..whole.len() {
        let cut = &whole[..length];
        let refusal = book.enter_recording(cut, 9).unwrap_err();
        assert!((8..=10).contains(&refusal.number), "{refusal:?}");
        let salvaged = salvage(cut);
        if let Salvaged::Mended { .. } = salvaged {
            let bytes = written(cut, &salvaged);
            assert_eq!(book.enter_recording(bytes, 9), Ok(AlreadyHeld));
            assert_eq!(book.enter_recording(bytes, 8), Err(OTHER_COUNT));
            let mut fresh = Book::default();
            assert_eq!(fresh.enter_recording(bytes, 3), Ok(Entered));
            assert_eq!(fresh.enter_recording(&whole, 3), Ok(AlreadyHeld));
            mended += 1;
        }
    }
    assert_eq!((mended, book.entries()), (whole.len() - 38, 1));
    assert_eq!(
        book.enter_recording(&vec![0; 65_537], 9),
        Err(Refusal::LENGTH)
    );
}

#[test]
fn a_history_is_its_list_of_accepted_calls() {
    let mut kinds = BTreeSet::new();
    let mut compared = 0;
    for input in histories(2, 160) {
        let calls = taken(&input, false);
        if calls.iter().any(|call| call.kind == b'w') {
            continue;
        }
        let mut history = History::default();
        let mut expected = Vec::new();
        let mut more = 0;
        for call in &calls {
            if call.kind == b'm' {
                more = call.numbers[0];
                continue;
            }
            let line = (0..more).fold(history.line(call), |_, _| history.line(call));
            expected.extend(line);
            more = 0;
        }
        let lines = said(&input);
        let lines: Vec<String> = lines
            .into_iter()
            .filter(|l| !l.starts_with("book"))
            .collect();
        same(&lines, &expected);
        compared += lines.len();
        kinds.extend(
            lines
                .iter()
                .map(|line| line.replace(|c: char| c.is_numeric(), "")),
        );
        kinds.extend(
            lines
                .into_iter()
                .filter(|line| line.starts_with("refused 1")),
        );
    }
    assert!(compared > 60_000, "{compared}");
    for line in [
        "entered",
        "already held",
        "refused 13",
        "refused 14",
        "refused 1 at 65536",
    ] {
        assert!(kinds.contains(line), "{line}");
    }
    for line in [
        "held ",
        "not held",
        "total ",
        "entries ",
        "cleared",
        "refused  at  ",
    ] {
        assert!(kinds.contains(line), "{line}");
    }
}

#[test]
fn a_scan_over_the_words_says_the_same() {
    let mut compared = 0;
    for input in histories(3, 120).into_iter().chain([sheet::cases()]) {
        let lines = said(&input);
        same(&lines, &scanned(&input, Fault::None).0);
        compared += lines.len();
    }
    assert!(compared > 60_000, "{compared}");
}

#[test]
fn the_stored_calls_show_every_fault() {
    let without_words = |lines: &[String]| -> Vec<String> {
        let answers = lines.iter().filter(|line| !line.starts_with("book"));
        answers.cloned().collect()
    };
    // These are seen in all words as one, the others in the answers alone.
    let only_words = [
        Fault::AskingWrites,
        Fault::FirstWordMadeRight,
        Fault::ClearWipes,
    ];
    let input = sheet::cases();
    assert!(input.len() < 6_000, "{} bytes", input.len());
    let right = said(&input);
    let (lines, compared) = scanned(&input, Fault::None);
    same(&lines, &right);
    assert!(compared < 1_000_000, "{compared} rows compared");
    for fault in FAULTS {
        let (lines, _) = scanned(&input, fault);
        assert!(lines != right, "{fault:?}");
        let in_answers = without_words(&lines) != without_words(&right);
        assert_eq!(in_answers, !only_words.contains(&fault), "{fault:?}");
    }
}

#[test]
fn what_is_not_entered_leaves_every_word() {
    let mut kinds = BTreeSet::new();
    for input in histories(4, 24).into_iter().chain([sheet::cases()]) {
        // All words after each call, of as many calls as there is room for.
        let mut calls = Calls::default();
        let mut asked = Vec::new();
        for call in taken(&input, false).into_iter().filter(|c| c.kind != b'm') {
            if calls.0.len() + call.bytes.len() + 1 > 262_144 || asked.len() == 2_000 {
                break;
            }
            calls.0.extend_from_slice(call.bytes);
            calls.words();
            asked.push(call.kind);
        }
        let mut lines = said(&calls.0).into_iter();
        let mut before = "book 0".to_string();
        for kind in asked {
            let answer = match kind {
                b'w' => "laid".to_string(),
                _ => lines.next().expect("a line for each call"),
            };
            let words = lines.next().expect("all words");
            match &answer[..] {
                "laid" | "cleared" => {}
                "entered" => assert_ne!(words, before),
                _ => assert_eq!(words, before, "{answer}"),
            }
            before = words;
            let no_numbers = answer.replace(|c: char| c.is_numeric(), "");
            kinds.extend([no_numbers, answer[..answer.len().min(10)].to_string()]);
        }
    }
    for kind in [
        "refused 13",
        "refused 14",
        "refused  at ",
        "refused  at  ",
        "already held",
    ] {
        assert!(kinds.contains(kind), "{kind}");
    }
}

#[test]
fn two_orders_of_the_same_calls_say_the_same() {
    let mut asked = 0;
    let mut differ_before = 0;
    for n in 0..60 {
        let Orders { orders, asks } = two_orders(6, n);
        let count = taken(&asks.0, false).len();
        let [first, second] = orders.map(|order| {
            let lines = said(&[&order.0[..], &asks.0].concat());
            let (before, after) = lines.split_at(lines.len() - count);
            assert!(before
                .iter()
                .all(|l| l != "refused 13" && l != "refused 14"));
            (before.to_vec(), after.to_vec())
        });
        assert_eq!(first.1, second.1);
        let sorted = |mut lines: Vec<String>| {
            lines.sort();
            lines
        };
        differ_before += usize::from(first.0 != second.0);
        assert_eq!(sorted(first.0), sorted(second.0));
        asked += count;
    }
    assert!(
        asked > 5_000 && differ_before > 20,
        "{asked}, {differ_before}"
    );
    // The files of a seed have both orders, the one after the other.
    for n in [0, 4, 8] {
        let Orders { orders, asks } = two_orders(6, n);
        for (order, number) in orders.iter().zip(n..) {
            assert_eq!(history(6, number), [&order.0[..], &asks.0].concat());
        }
    }
}

#[test]
fn as_many_as_there_is_room_for_in_any_order() {
    let mut g = Generator::new(8);
    let mut entries: Vec<Entry> = (0..MOST as u32)
        .map(|n| entry(n % 5, n / 5, g.next() as u32))
        .collect();
    let mut first: Option<Book> = None;
    for _ in 0..6 {
        shuffle(&mut g, &mut entries);
        let mut book = Book::default();
        for (n, &each) in entries.iter().enumerate() {
            assert_eq!(book.enter(each), Ok(Entered));
            // One of those that are entered, again.
            let again = entries[g.below(n + 1)];
            assert_eq!(book.enter(again), Ok(AlreadyHeld));
        }
        for &Entry { key, count } in &entries {
            assert_eq!(book.held(key), Some(count));
        }
        let first = first.get_or_insert_with(|| book.clone());
        assert_eq!(first, &book);
        let totals: u64 = (0..5).map(|unit| book.total(unit)).sum();
        assert_eq!(totals, entries.iter().map(|e| u64::from(e.count)).sum());
    }
}

#[test]
fn calls_are_cut_where_they_are() {
    // What stands after a cut or an unknown call is not made, and what stands before it is.
    let mut whole: Calls = Calls::default();
    whole.enter(7, 1, 5);
    whole.held(7, 1);
    whole.total(7);
    whole.enter_recording(5, &cases::sample());
    whole.lay(0, 1, 0, 0);
    whole.more(1);
    whole.entries();
    let ends = [13, 22, 27, 102, 125];
    let lines = ["entered", "held 5", "total 5", "already held", "entries 0"];
    assert_eq!(whole.0.len(), 125);
    for length in 0..=whole.0.len() {
        let made = ends.iter().filter(|&&end| end <= length).count();
        assert_eq!(said(&whole.0[..length]), lines[..made], "{length}");
        let unknown = [&whole.0[..length], b"xn"].concat();
        if ends.contains(&length) {
            assert_eq!(said(&unknown), lines[..made], "{length}");
        }
    }
    for kind in 0..=255u8 {
        let known = b"erhtncwdm".contains(&kind);
        let input = [&[kind][..], &[0; 16], b"n"].concat();
        let lines = said(&input);
        assert!(known || lines.is_empty(), "{kind}");
        assert!(!known || kind == b'm' || kind == b'w' || !lines.is_empty());
    }
}

#[test]
fn histories_are_of_the_sizes_said() {
    let named = named();
    let names: BTreeSet<&str> = named.iter().map(|history| &history.name[..]).collect();
    assert_eq!((named.len(), names.len()), (74, 74));
    let over = |history: &&outside::histories::Named| history.calls.len() > 262_144;
    let over: Vec<&str> = named.iter().filter(over).map(|h| &h.name[..]).collect();
    let expected = ["262144 bytes and more", "262144 bytes and a call over them"];
    assert_eq!(over, expected);
    let [exact, more, cut] = [
        "262144 bytes",
        "262144 bytes and more",
        "262144 bytes and a call over them",
    ]
    .map(|name| said(&named.iter().find(|h| h.name == name).expect(name).calls));
    assert_eq!(exact, more);
    assert_eq!(exact[..exact.len() - 1], cut);
    assert_eq!(exact.last().unwrap(), "entries 1");

    // What `sheet.py` runs: as many rows compared and bytes as a slow machine goes through.
    let (mut bytes, mut compared, mut lines) = (0, 0, 0);
    for n in 0..120 {
        let calls = match named.get(n) {
            Some(history) => history.calls.clone(),
            None => history(1, n as u64),
        };
        assert!(n < named.len() || calls.len() <= 262_144);
        let said = answers(&calls);
        lines += said.iter().filter(|&&byte| byte == b'\n').count();
        bytes += calls.len() + said.len();
        compared += scanned(&calls, Fault::None).1;
    }
    println!("{bytes} bytes, {compared} rows compared, {lines} lines");
    assert!(bytes < 8_000_000, "{bytes} bytes");
    assert!(compared < 60_000_000, "{compared} rows compared");
    assert!(lines > 40_000, "{lines} lines");
}
