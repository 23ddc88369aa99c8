//! The lines of calls on a tally book as the functions for C tell them: the lines as they are else, and of a
//! recording what is told of it; over generated histories, with a fault or none.

use outside::histories::{history, named};
use outside::sheet::{self, answers, answers_for_c, Calls};
use outside::{cases, listing};
use std::collections::BTreeSet;

const MAX: u32 = u32::MAX;

fn lines(text: Vec<u8>) -> Vec<String> {
    let text = String::from_utf8(text).expect("text");
    assert!(text.is_empty() || text.ends_with('\n'));
    text.lines().map(String::from).collect()
}

/// The lines of some calls.
fn said(calls: &[u8]) -> Vec<String> {
    lines(answers_for_c(calls))
}

/// A call: its kind, and the bytes of a recording.
struct Taken<'a> {
    kind: u8,
    recording: &'a [u8],
}

/// Four bytes as a number, the lowest first.
fn word(bytes: &[u8]) -> u32 {
    bytes
        .iter()
        .rev()
        .fold(0, |sum, &byte| sum << 8 | u32::from(byte))
}

/// The calls of an input up to the first that is cut or unknown.
fn taken(input: &[u8]) -> Vec<Taken<'_>> {
    let mut rest = &input[..input.len().min(sheet::LONGEST)];
    let mut all = Vec::new();
    while let Some((&kind, after)) = rest.split_first() {
        let count = match kind {
            b'n' | b'c' | b'd' => 0,
            b't' | b'm' => 1,
            b'h' | b'r' => 2,
            b'e' => 3,
            b'w' => 4,
            _ => break,
        };
        let Some((numbers, after)) = after.split_at_checked(4 * count) else {
            break;
        };
        let long = match kind {
            b'r' => word(&numbers[4..]) as usize,
            _ => 0,
        };
        let Some((recording, after)) = after.split_at_checked(long) else {
            break;
        };
        all.push(Taken { kind, recording });
        rest = after;
    }
    all
}

/// The numbers of a listing's first line, and how it begins.
fn first_line(recording: &[u8]) -> (bool, Vec<u32>) {
    let text = String::from_utf8(listing::list(recording)).expect("text");
    let line = text.lines().next().expect("a line");
    let numbers = line.split(' ').filter_map(|word| word.parse().ok());
    (line.starts_with("refused "), numbers.collect())
}

/// What is told of a recording, by the first line of its listing and, where that is refused with 8, by the
/// bytes at the place.
fn told(recording: &[u8]) -> String {
    let numbers = match first_line(recording) {
        (false, numbers) => [numbers[0], numbers[1], 0, 0, 0],
        (true, numbers) => {
            let at = numbers[1];
            let size = numbers.get(2).copied().unwrap_or(0);
            match numbers[0] {
                1 => [0, 0, 0, 0, 1],
                9 => [0, 0, at, 0, 2],
                10 => [0, 0, at, 0, 3],
                11 => [0, 0, at, size, 4],
                _ => [0, 0, at, 0, cause_of_8(recording, at as usize)],
            }
        }
    };
    let words = numbers.map(|n| n.to_string()).join(" ");
    format!(" told {words}")
}

/// What is wrong at a place where a recording is refused with 8: the blocks before it are gone through, and
/// none of them is wrong.
fn cause_of_8(recording: &[u8], place: usize) -> u32 {
    let mut at = 0;
    let mut before = Vec::new();
    while at < place {
        before.push(recording[at + 4]);
        let size = &recording[at..at + 4];
        at += 6 + size
            .iter()
            .rev()
            .fold(0, |sum, &b| sum << 8 | usize::from(b));
    }
    let kind = recording.get(place + 4..place + 6);
    match (before.last(), kind) {
        (Some(3), _) => 9,
        _ if place == recording.len() => 7,
        (Some(2), Some([3, 0])) => 8,
        (_, Some([1..=3, 0])) => 6,
        _ => 5,
    }
}

/// What a program may tell wrong of a recording.
#[derive(Clone, Copy, Debug, PartialEq, Eq)]
enum Fault {
    None,
    NothingTold,
    ToldOfRefusedAlone,
    ToldOfSoundAlone,
    NothingToldOfRefusedEntry,
    NothingToldOfHeldEntry,
    KeyToldSwapped,
    KeyToldOfRefused,
    PlaceNotTold,
    SizeNotTold,
    SizeToldOfOthers,
    CauseNotTold,
    CauseCountedFromZero,
    CausesOf8AsOne,
    EndMissingOutOfTurn,
    NoHeadUnknown,
    EndTooEarlyWrong,
    AfterTheEndUnknown,
}

const FAULTS: [Fault; 17] = [
    Fault::NothingTold,
    Fault::ToldOfRefusedAlone,
    Fault::ToldOfSoundAlone,
    Fault::NothingToldOfRefusedEntry,
    Fault::NothingToldOfHeldEntry,
    Fault::KeyToldSwapped,
    Fault::KeyToldOfRefused,
    Fault::PlaceNotTold,
    Fault::SizeNotTold,
    Fault::SizeToldOfOthers,
    Fault::CauseNotTold,
    Fault::CauseCountedFromZero,
    Fault::CausesOf8AsOne,
    Fault::EndMissingOutOfTurn,
    Fault::NoHeadUnknown,
    Fault::EndTooEarlyWrong,
    Fault::AfterTheEndUnknown,
];

/// What is told of a recording, rightly or with a fault: by the answer to it, and by the key that stands where a
/// head has it.
fn told_with(fault: Fault, bytes: &[u8], answer: &str) -> String {
    let sound = !first_line(bytes).0;
    let mut key = bytes.to_vec();
    key.resize(14, 0);
    let key = (word(&key[6..10]), word(&key[10..14]));
    let right = told(bytes);
    let words: Vec<&str> = right.split(' ').skip(2).collect();
    let [unit, number, place, size, cause] = words[..] else {
        panic!("five numbers, not {right}");
    };
    let (unit_read, number_read) = (key.0.to_string(), key.1.to_string());
    let [unit, number, place, size, cause] = match (fault, sound) {
        (Fault::NothingTold, _) => return String::new(),
        (Fault::ToldOfRefusedAlone, true) | (Fault::ToldOfSoundAlone, false) => {
            return String::new()
        }
        (Fault::NothingToldOfRefusedEntry, true) if answer.starts_with("refused") => ["0"; 5],
        (Fault::NothingToldOfHeldEntry, true) if answer == "already held" => ["0"; 5],
        (Fault::KeyToldSwapped, _) => [number, unit, place, size, cause],
        (Fault::KeyToldOfRefused, false) => [&unit_read, &number_read, place, size, cause],
        (Fault::PlaceNotTold, _) => [unit, number, "0", size, cause],
        (Fault::SizeNotTold, _) => [unit, number, place, "0", cause],
        (Fault::SizeToldOfOthers, false) if cause != "1" && cause != "4" => {
            [unit, number, place, "18", cause]
        }
        (Fault::CauseNotTold, _) => [unit, number, place, size, "0"],
        (Fault::CauseCountedFromZero, false) => {
            let less = (cause.parse::<u32>().expect("a number") - 1).to_string();
            return format!(" told {unit} {number} {place} {size} {less}");
        }
        (Fault::CausesOf8AsOne, false) if cause > "5" => [unit, number, place, size, "5"],
        (Fault::EndMissingOutOfTurn, false) if cause == "7" => [unit, number, place, size, "6"],
        (Fault::NoHeadUnknown, false) if (cause, place) == ("6", "0") => {
            [unit, number, place, size, "5"]
        }
        (Fault::EndTooEarlyWrong, false) if cause == "6" && bytes.get(18..20) == Some(&[3, 0]) => {
            [unit, number, place, size, "8"]
        }
        (Fault::AfterTheEndUnknown, false) if cause == "9" => [unit, number, place, size, "5"],
        _ => [unit, number, place, size, cause],
    };
    format!(" told {unit} {number} {place} {size} {cause}")
}

/// The lines for C that are to be, by the lines as they are else.
fn expected(input: &[u8], fault: Fault) -> Vec<String> {
    let mut lines = lines(answers(input)).into_iter();
    let mut all = Vec::new();
    for call in taken(input) {
        // Of a call that is made again the line is that of the call.
        if let b'm' | b'w' = call.kind {
            continue;
        }
        let line = lines.next().expect("a line for each call");
        all.push(match call.kind {
            b'r' => {
                let answer = match line.split_once(" at ") {
                    Some((refused, _)) => refused,
                    None => &line,
                };
                answer.to_string() + &told_with(fault, call.recording, answer)
            }
            _ => line,
        });
    }
    assert!(lines.next().is_none());
    all
}

#[test]
fn worked_recordings() {
    let frames = cases::spoken(3, 2);
    let sound = cases::sound(7, 1, &[&frames[..1], &frames[1..]]);
    assert_eq!(sound.len(), 72);
    let changed = |at: usize, to: u8| {
        let mut bytes = sound.clone();
        bytes[at] = to;
        bytes
    };
    let [head, voice, end] = [&sound[..14], &sound[14..38], &sound[62..]];
    let unknown = changed(42, 9);
    let second_head = [head, voice, head].concat();
    let end_first = [head, end].concat();
    let after_the_end = [&sound[..], end].concat();
    let mut long = sound.clone();
    let mut calls = Calls::default();
    calls.lay(0, 1, 4_096, 0);
    calls.enter_recording(5, &sound);
    calls.clear();
    for count in [5, 5, 6] {
        calls.enter_recording(count, &sound);
    }
    for length in [65_536, 65_537, 65_538] {
        long.resize(length, 0);
        calls.enter_recording(5, &long);
    }
    for recording in [
        &[1][..],
        &sound[..67],
        &sound[..61],
        &changed(38, 1),
        &changed(0, 7),
        &unknown,
        &sound[14..],
        &second_head,
        &end_first,
        &[],
        &sound[..38],
        &changed(68, 1),
        &after_the_end,
    ] {
        calls.enter_recording(5, recording);
    }
    let lines = [
        "refused 14 told 7 1 0 0 0",
        "cleared",
        "entered told 7 1 0 0 0",
        "already held told 7 1 0 0 0",
        "refused 13 told 7 1 0 0 0",
        "refused 8 told 0 0 72 0 9",
        "refused 1 told 0 0 0 0 1",
        "refused 1 told 0 0 0 0 1",
        "refused 9 told 0 0 0 0 2",
        "refused 9 told 0 0 62 0 2",
        "refused 10 told 0 0 38 0 3",
        "refused 11 told 0 0 38 1 4",
        "refused 11 told 0 0 0 7 4",
        "refused 8 told 0 0 38 0 5",
        "refused 8 told 0 0 0 0 6",
        "refused 8 told 0 0 38 0 6",
        "refused 8 told 0 0 14 0 6",
        "refused 8 told 0 0 0 0 7",
        "refused 8 told 0 0 38 0 7",
        "refused 8 told 0 0 62 0 8",
        "refused 8 told 0 0 72 0 9",
    ];
    assert_eq!(said(&calls.0), lines);
    // The parts of the largest key, the unit first.
    let mut calls = Calls::default();
    calls.enter_recording(1, &cases::sound(MAX, MAX - 1, &[&frames]));
    assert_eq!(said(&calls.0), ["entered told 4294967295 4294967294 0 0 0"]);
}

#[test]
fn a_line_for_c_is_the_line_and_what_is_told() {
    let mut kinds = BTreeSet::new();
    let named = named().into_iter().map(|history| history.calls);
    let generated = (0..160).map(|n| history(2, n));
    let stored = [sheet::cases(), sheet::cases_for_c()];
    let mut compared = 0;
    for input in named.chain(generated).chain(stored) {
        let lines = said(&input);
        let expected = expected(&input, Fault::None);
        for (at, (line, expected)) in lines.iter().zip(&expected).enumerate() {
            assert_eq!(line, expected, "line {at}");
        }
        assert_eq!(lines.len(), expected.len());
        compared += lines.len();
        for (answer, told) in lines.iter().filter_map(|line| line.split_once(" told ")) {
            let cause = told.split(' ').next_back().expect("five numbers");
            kinds.insert(format!("{answer} told {cause}"));
        }
    }
    assert!(compared > 60_000, "{compared}");
    for kind in [
        "entered told 0",
        "already held told 0",
        "refused 13 told 0",
        "refused 14 told 0",
        "refused 1 told 1",
        "refused 9 told 2",
        "refused 10 told 3",
        "refused 11 told 4",
        "refused 8 told 5",
        "refused 8 told 6",
        "refused 8 told 7",
        "refused 8 told 8",
        "refused 8 told 9",
    ] {
        assert!(kinds.contains(kind), "{kind}");
    }
}

#[test]
fn the_stored_calls_show_every_fault() {
    let input = sheet::cases_for_c();
    assert!(input.len() < 6_000, "{} bytes", input.len());
    let right = said(&input);
    assert_eq!(right, expected(&input, Fault::None));
    for fault in FAULTS {
        assert!(expected(&input, fault) != right, "{fault:?}");
    }
}
