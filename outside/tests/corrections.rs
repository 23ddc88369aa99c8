//! Corrections: what each number means, what it changes in a record, its letter in the listing and
//! its words in the hearing, which frames count as repaired, what the named edges show, and wrong
//! rules that the generated recordings tell from the right one.

use outside::cases::{self, Frame, Generator};
use outside::frame::{self, Correction, Record};
use outside::recording::{self, answer};
use outside::tables::PLACES;
use outside::{hear, listing};
use std::collections::BTreeMap;

const fn data(field: u8, bit: u8) -> Correction {
    Correction::Data { field, bit }
}

/// The sixteen numbers: the guarded place, what the number means, the letter, and what the hearing
/// says. (Place 0: there is none.)
const NUMBERS: [(usize, Correction, char, &str); 16] = [
    (0, Correction::Clean, 'c', "number 0 c"),
    (21, Correction::Parity(1), 'p', "number 1 p"),
    (51, Correction::Parity(2), 'p', "number 2 p"),
    (11, data(11, 5), 'd', "number 3 d 11 5"),
    (94, Correction::Parity(4), 'p', "number 4 p"),
    (61, data(11, 6), 'd', "number 5 d 11 6"),
    (114, data(11, 7), 'd', "number 6 d 11 7"),
    (41, data(12, 4), 'd', "number 7 d 12 4"),
    (134, Correction::Parity(8), 'p', "number 8 p"),
    (124, data(16, 4), 'd', "number 9 d 16 4"),
    (143, data(19, 5), 'd', "number 10 d 19 5"),
    (83, data(19, 6), 'd', "number 11 d 19 6"),
    (31, data(19, 7), 'd', "number 12 d 19 7"),
    (72, data(20, 4), 'd', "number 13 d 20 4"),
    (1, data(24, 4), 'd', "number 14 d 24 4"),
    (104, data(27, 0), 'd', "number 15 d 27 0"),
];

/// A frame hit at the places of these numbers; 0 is no hit.
fn hit(mut frame: Frame, numbers: &[usize]) -> Frame {
    for &number in numbers {
        if number > 0 {
            frame::flip(&mut frame, NUMBERS[number].0);
        }
    }
    frame
}

/// The zero frame with this SP and SY as sent.
fn zero_but_for(sp: u16, sy: u16) -> Frame {
    let mut record = Record::ZERO;
    (record.fields[26], record.fields[27]) = (sp, sy);
    frame::lay(&record)
}

/// The indices as they come, before any correction.
fn received(frame: &Frame) -> Record {
    let mut record = Record::ZERO;
    for (p, place) in PLACES.iter().enumerate() {
        if let Some(index) = record.fields.get_mut(place.field) {
            *index |= u16::from(frame::is_set(frame, p + 1)) << place.bit;
        }
    }
    record
}

/// The number of a frame: that of each guarded place that is set, taken together.
fn number(frame: &Frame) -> usize {
    let set = (1..=15).filter(|&n| frame::is_set(frame, NUMBERS[n].0));
    set.fold(0, |number, n| number ^ n)
}

fn text(bytes: Vec<u8>) -> String {
    String::from_utf8(bytes).unwrap()
}

#[test]
fn each_number_has_its_case() {
    for (n, (place, meant, ..)) in NUMBERS.into_iter().enumerate() {
        let mut only = [0; 18];
        if place > 0 {
            frame::flip(&mut only, place);
        }
        let reading = frame::read(&only).unwrap();
        assert_eq!(reading.correction, meant, "number {n}");
        assert_eq!(usize::from(reading.correction.number()), n);
        assert_eq!((reading.record, reading.mark), (Record::ZERO, 0));
    }
}

#[test]
fn a_data_hit_inverts_the_bit_that_it_names_and_nothing_else_changes() {
    let mut g = Generator::new(61);
    let mut met = [0; 16];
    for k in 0..30_000 {
        let bytes = match k % 3 {
            0 => g.bytes18(),
            1 => g.frame((k / 3 % 2) as u16),
            _ => {
                let sent = frame::lay(&g.record());
                let hits = [g.below(16), g.below(16), g.below(16)];
                hit(sent, &hits[..1 + g.below(3)])
            }
        };
        let reading = frame::read(&bytes).unwrap();
        let n = number(&bytes);
        met[n] += 1;
        assert_eq!(reading.correction, NUMBERS[n].1);
        let mut expected = received(&bytes);
        match reading.correction {
            Correction::Clean | Correction::Parity(_) => {}
            Correction::Data { field, bit } => {
                expected.fields[usize::from(field) - 1] ^= 1 << bit;
            }
        }
        assert_eq!(reading.record, expected);
        let changed = received(&bytes) != reading.record;
        assert_eq!(changed, ![0, 1, 2, 4, 8].contains(&n), "number {n}");
    }
    assert!(met.iter().all(|&n| n > 500), "{met:?}");
}

#[test]
fn the_correction_is_that_of_the_flips_alone() {
    let mut g = Generator::new(62);
    let mut met = BTreeMap::new();
    for k in 0..20_000 {
        let mut record = g.record();
        record.fields[26] = k % 2;
        let sent = frame::lay(&record);
        let mut flips = [0; 18];
        for _ in 0..g.below(6) {
            match g.below(3) {
                0 => frame::flip(&mut flips, 1 + g.below(144)),
                _ => flips = hit(flips, &[1 + g.below(15)]),
            }
        }
        let alone = frame::read(&flips).unwrap();
        let both: Frame = std::array::from_fn(|at| sent[at] ^ flips[at]);
        let reading = frame::read(&both).unwrap();
        assert_eq!(reading.correction, alone.correction);
        assert_eq!(reading.correction, NUMBERS[number(&flips)].1);
        for field in 0..28 {
            let index = record.fields[field] ^ alone.record.fields[field];
            assert_eq!(reading.record.fields[field], index);
        }
        *met.entry(number(&flips)).or_insert(0) += 1;
    }
    assert_eq!(met.len(), 16);
    assert!(met.values().all(|&n| n > 200), "{met:?}");
}

#[test]
fn the_listing_has_a_letter_after_each_number() {
    let frames: Vec<Frame> = (0..16)
        .map(|n| hit(zero_but_for(0, n as u16 % 2), &[n]))
        .collect();
    let heard = "unit 7 recording 1 frames 16\n\
                 1 0 c 0 0 656 532 656 532\n\
                 2 1 p 0 1 656 532 656 532\n\
                 3 2 p 0 0 656 532 656 532\n\
                 4 3 d 0 1 656 532 656 532\n\
                 5 4 p 0 0 656 532 656 532\n\
                 6 5 d 0 1 656 532 656 532\n\
                 7 6 d 0 0 656 532 656 532\n\
                 8 7 d 0 1 656 532 656 532\n\
                 9 8 p 0 0 656 532 656 532\n\
                 10 9 d 0 1 656 532 656 532\n\
                 11 10 d 0 0 656 532 656 532\n\
                 12 11 d 0 1 656 532 656 532\n\
                 13 12 d 0 0 656 532 656 532\n\
                 14 13 d 0 1 656 532 656 532\n\
                 15 14 d 0 0 656 532 656 532\n\
                 16 15 d 0 1 656 532 656 532\n\
                 repaired 11 breaks 0\n";
    assert_eq!(text(listing::list(&cases::sound(7, 1, &[&frames]))), heard);
    let frames: Vec<Frame> = (0..16)
        .map(|n| hit(zero_but_for(1, n as u16 % 2), &[n]))
        .collect();
    let refused = "unit 7 recording 1 frames 16\n\
                   1 0 c refused 6\n\
                   2 1 p refused 6\n\
                   3 2 p refused 6\n\
                   4 3 d refused 6\n\
                   5 4 p refused 6\n\
                   6 5 d refused 6\n\
                   7 6 d refused 6\n\
                   8 7 d refused 6\n\
                   9 8 p refused 6\n\
                   10 9 d refused 6\n\
                   11 10 d refused 6\n\
                   12 11 d refused 6\n\
                   13 12 d refused 6\n\
                   14 13 d refused 6\n\
                   15 14 d refused 6\n\
                   16 15 d refused 6\n\
                   repaired 11 breaks 0\n";
    let bytes = cases::sound(7, 1, &[&frames[..5], &frames[5..]]);
    assert_eq!(text(listing::list(&bytes)), refused);
}

#[test]
fn hits_on_two_places_show_the_number_of_a_third() {
    // PD(3)-7 and PG(3)-4 show HP-0; HP-0 and HP-1 show PD(1)-5, which is inverted though it was
    // right; HP-0 and SP show PG(4)-4 and leave SP set; PG(1)-4 and HP-3 show SP, which is set; three
    // can show nothing.
    let frames = [
        hit(zero_but_for(0, 0), &[12, 13]),
        hit(zero_but_for(0, 1), &[1, 2]),
        hit(zero_but_for(0, 0), &[1, 15]),
        hit(zero_but_for(0, 1), &[7, 8]),
        hit(zero_but_for(0, 0), &[1, 2, 3]),
    ];
    let said = text(listing::list(&cases::sound(7, 1, &[&frames])));
    let lines: Vec<&str> = said.lines().collect();
    assert!(lines[1].starts_with("1 1 p 0 0 656 532 "), "{said}");
    assert!(lines[2].starts_with("2 3 d 0 1 ") && lines[2].ends_with(" 656 532"));
    assert!(!lines[2].contains(" 656 532 656 532"), "{said}");
    assert_eq!(lines[3..5], ["3 14 d refused 6", "4 15 d refused 6"]);
    assert!(lines[5].starts_with("5 0 c 0 0 "), "{said}");
    assert_eq!(lines[6], "repaired 3 breaks 0");
}

#[test]
fn the_hearing_says_the_field_and_the_bit() {
    for sp in [0, 1] {
        let frames: Vec<Frame> = (0..16).map(|n| hit(zero_but_for(sp, 0), &[n])).collect();
        let said = text(hear::hear(&cases::sound(1, 1, &[&frames])));
        let lines: Vec<&str> = said.lines().collect();
        for (k, (.., words)) in NUMBERS.into_iter().enumerate() {
            let zeros = " 0".repeat(26);
            let then = ["gains -1330 ", "refused 6 sy 0"][usize::from(sp)];
            let start = format!("frame {}{zeros} {sp} 0 {words} mark 0 {then}", k + 1);
            assert!(lines[k + 1].starts_with(&start), "{}", lines[k + 1]);
        }
    }
}

/// The repaired frames of a recording with these numbers shown, block by block; from 16 on the frame
/// is sent with SP 1.
fn repaired(blocks: &[&[usize]]) -> u32 {
    let blocks: Vec<Vec<Frame>> = blocks
        .iter()
        .map(|numbers| {
            let frame = |&n: &usize| hit(zero_but_for((n / 16) as u16, 0), &[n % 16]);
            numbers.iter().map(frame).collect()
        })
        .collect();
    let blocks: Vec<&[Frame]> = blocks.iter().map(Vec::as_slice).collect();
    let bytes = cases::sound(1, 1, &blocks);
    let answer = answer(&bytes).unwrap();
    let last = format!("repaired {} breaks {}\n", answer.repaired, answer.breaks);
    assert!(text(listing::list(&bytes)).ends_with(&last));
    assert!(text(hear::hear(&bytes)).ends_with(&last));
    answer.repaired
}

#[test]
fn only_data_hits_count_as_repaired() {
    assert_eq!(repaired(&[&[0, 0, 0]]), 0);
    assert_eq!(repaired(&[&[1, 2, 4, 8], &[8, 4, 2, 1]]), 0);
    assert_eq!(repaired(&[&[17, 18, 20, 24], &[16]]), 0);
    assert_eq!(repaired(&[&[3, 5, 6, 7, 9, 10, 11, 12, 13, 14, 15]]), 11);
    assert_eq!(
        repaired(&[&[19, 21, 22, 23, 25], &[26, 27, 28], &[29, 30, 31]]),
        11
    );
    // Mixed over voice blocks: 3, 15, then 31 and 7, then 25.
    assert_eq!(
        repaired(&[&[0, 1, 3], &[15], &[2, 31, 16, 7], &[4, 20], &[25]]),
        5
    );
    for n in 0..32 {
        let counted = u32::from(![0, 1, 2, 4, 8].contains(&(n % 16)));
        assert_eq!(repaired(&[&[n]]), counted, "number {n}");
        assert_eq!(
            repaired(&[&[1, n], &[n, 5], &[0]]),
            1 + 2 * counted,
            "number {n}"
        );
    }
}

/// The frames of a sound recording as its listing has them, block by block: number and letter, with
/// `*` where the frame is refused with 6.
fn shown(bytes: &[u8]) -> String {
    let said = text(listing::list(bytes));
    let mut lines = said.lines().skip(1);
    let blocks = recording::read(bytes).unwrap().voice_blocks();
    let block = |(_, payload): (usize, &[u8])| {
        let frame = |line: &str| {
            let words: Vec<&str> = line.split(' ').collect();
            let refused = if words[3] == "refused" { "*" } else { "" };
            format!("{}{}{refused}", words[1], words[2])
        };
        let frames: Vec<String> = lines.by_ref().take(payload.len() / 18).map(frame).collect();
        frames.join(" ")
    };
    blocks.map(block).collect::<Vec<_>>().join(" | ")
}

#[test]
fn the_edges_show_these_numbers_and_letters() {
    let told = [
        (
            "each number in turn",
            "0c 1p 2p 3d 4p 5d 6d 7d 8p 9d 10d 11d 12d 13d 14d 15d",
            11,
        ),
        (
            "each number, from 15 down",
            "15d | 14d 13d 12d | 11d 10d 9d 8p 7d | 6d 5d 4p 3d 2p 1p 0c",
            11,
        ),
        (
            "each number in its own voice",
            "0c | 1p | 2p | 3d | 4p | 5d | 6d | 7d | 8p | 9d | 10d | 11d | 12d | 13d | 14d | 15d",
            11,
        ),
        (
            "each number, LSPs that fall",
            "0c 1p 2p 3d 4p 5d 6d 7d 8p | 9d 10d 11d 12d 13d 14d 15d",
            11,
        ),
        (
            "each number refused",
            "0c* 1p* 2p* 3d* 4p* 5d* 6d* 7d* 8p* 9d* 10d* 11d* 12d* 13d* 14d* 15d*",
            11,
        ),
        (
            "each number refused by hits",
            "0c* 1p* 2p* 3d* 4p* 5d* | 6d* 7d* 8p* 9d* 10d* 11d* 12d* 13d* 14d* 15d*",
            11,
        ),
        (
            "each number by few hits",
            "0c 1p 2p 3d 4p 5d 6d 7d 8p 9d 10d | 11d 12d 13d 14d 15d*",
            11,
        ),
        (
            "each number of a data bit by parity bits",
            "3d 5d 6d 7d | 9d 10d 11d 12d 13d 14d 15d*",
            11,
        ),
        (
            "each number heard and refused",
            "0c | 0c* 1p | 1p* 2p 2p* 3d 3d* 4p 4p* 5d 5d* 6d 6d* 7d 7d* 8p | \
             8p* 9d 9d* 10d 10d* 11d 11d* 12d 12d* 13d 13d* 14d 14d* 15d 15d*",
            22,
        ),
        ("parity hits alone", "1p 2p 4p | 8p 8p 4p 2p 1p", 0),
        (
            "data hits alone",
            "3d 5d 6d 7d | 9d 10d 11d 12d 13d 14d 15d",
            11,
        ),
        (
            "parity hits alone, refused",
            "1p* 2p* 4p* | 8p* 8p* 4p* 2p* 1p*",
            0,
        ),
        (
            "data hits alone, refused",
            "3d* 5d* 6d* 7d* | 9d* 10d* 11d* 12d* 13d* 14d* 15d*",
            11,
        ),
        (
            "parity and data hits by turns, each in its own voice",
            "1p | 3d | 2p | 15d | 4p | 14d | 8p | 9d",
            4,
        ),
        (
            "clean, parity and data hits over voices",
            "0c 0c* | 1p* | 6d 15d* 0c* 8p | 2p* | 13d* 0c 4p* | 3d*",
            4,
        ),
        ("one frame, a parity hit", "2p", 0),
        ("one frame, a data hit", "12d", 1),
        ("one frame refused, a parity hit", "2p*", 0),
        ("one frame refused, a data hit", "12d*", 1),
    ];
    let edges = cases::edges();
    assert_eq!(told.len(), 563 - 544);
    for (edge, (name, frames, repaired)) in edges[544..563].iter().zip(told) {
        assert_eq!(edge.name, name);
        assert_eq!(shown(&edge.bytes), frames, "{name}");
        let answer = answer(&edge.bytes).unwrap();
        assert_eq!((answer.repaired, answer.breaks), (repaired, 0), "{name}");
        assert!(edge.bytes.len() < 700, "{name}");
    }
    // Every frame of the fourth has a mark, and the marks are not all one.
    let said = text(listing::list(&edges[547].bytes));
    let marks = said
        .lines()
        .skip(1)
        .take(16)
        .map(|line| line.split(' ').nth(3));
    let marks: Vec<&str> = marks.map(Option::unwrap).collect();
    assert!(!marks.contains(&"0"), "{marks:?}");
    assert!(marks.iter().any(|mark| *mark != marks[0]), "{marks:?}");
}

/// A rule for letters and repaired frames, right or wrong.
#[derive(Clone, Copy, Debug, PartialEq)]
enum Rule {
    Right,
    /// Parity hits count as repaired.
    ParityIsRepaired,
    /// SP is no data: number 15 is told as a parity hit.
    FifteenIsParity,
    /// Only hits on the voice count: number 15 is `d`, but not repaired.
    FifteenIsNotRepaired,
    /// `p` and `d` change places.
    Swapped,
    /// A frame refused with 6 is told as clean.
    RefusedIsClean,
    /// Frames refused with 6 are not counted.
    RefusedIsNotCounted,
    /// A single hit on a parity bit is told as clean.
    ParityIsClean,
    /// Number 3, the sum of two parity numbers, is told as a parity hit.
    ThreeIsParity,
}

/// The letter of a frame by a rule, and whether it counts as repaired.
fn told_by(rule: Rule, number: usize, refused: bool) -> (char, bool) {
    let right = NUMBERS[number].2;
    let letter = match (rule, right) {
        (Rule::FifteenIsParity, _) if number == 15 => 'p',
        (Rule::ThreeIsParity, _) if number == 3 => 'p',
        (Rule::Swapped, 'p') => 'd',
        (Rule::Swapped, 'd') => 'p',
        (Rule::RefusedIsClean, _) if refused => 'c',
        (Rule::ParityIsClean, 'p') => 'c',
        _ => right,
    };
    let counted = match rule {
        Rule::ParityIsRepaired => letter != 'c',
        Rule::FifteenIsNotRepaired => letter == 'd' && number != 15,
        Rule::RefusedIsNotCounted => letter == 'd' && !refused,
        _ => letter == 'd',
    };
    (letter, counted)
}

/// The letters of a recording by a rule, and the count of repaired frames.
fn all_by(rule: Rule, frames: &[(usize, bool)]) -> (String, usize) {
    let all = frames.iter().map(|&(n, refused)| told_by(rule, n, refused));
    let (letters, counted): (String, Vec<bool>) = all.unzip();
    (letters, counted.into_iter().filter(|&is| is).count())
}

/// The number of each frame of a sound recording, and whether it is refused with 6.
fn seen(bytes: &[u8]) -> Vec<(usize, bool)> {
    let sound = recording::read(bytes).unwrap();
    let mut all = Vec::new();
    for (_, payload) in sound.voice_blocks() {
        for frame in payload.chunks_exact(18) {
            let n = number(frame.try_into().unwrap());
            // SP is place 104.
            let sp = frame::is_set(frame.try_into().unwrap(), 104) != (n == 15);
            all.push((n, sp));
        }
    }
    all
}

/// The letters and the count of the listing; the hearing has the same.
fn listed(bytes: &[u8]) -> (String, usize) {
    let list = text(listing::list(bytes));
    let hear = text(hear::hear(bytes));
    assert_eq!(list.lines().last(), hear.lines().last());
    let frames = list.lines().count() - 2;
    let letter = |word: Option<&str>| word.unwrap().parse::<char>().unwrap();
    let lines = list.lines().skip(1).take(frames);
    let letters: String = lines.map(|line| letter(line.split(' ').nth(2))).collect();
    let lines = hear.lines().skip(1).take(frames);
    let heard: String = lines.map(|line| letter(line.split(' ').nth(32))).collect();
    assert_eq!(letters, heard);
    let last = list.lines().last().unwrap().split(' ').nth(1);
    (letters, last.unwrap().parse().unwrap())
}

const WRONG: [Rule; 8] = [
    Rule::ParityIsRepaired,
    Rule::FifteenIsParity,
    Rule::FifteenIsNotRepaired,
    Rule::Swapped,
    Rule::RefusedIsClean,
    Rule::RefusedIsNotCounted,
    Rule::ParityIsClean,
    Rule::ThreeIsParity,
];

#[test]
fn generated_recordings_tell_wrong_rules_apart() {
    let mut told = [0; 8];
    let mut met = BTreeMap::new();
    let first = cases::edges().len() as u64;
    for n in (first..first + 400).filter(|n| n % 2 == 1) {
        let bytes = cases::recording(1, n);
        let frames = seen(&bytes);
        let right = all_by(Rule::Right, &frames);
        assert_eq!(listed(&bytes), right, "recording {n}");
        for (told, rule) in told.iter_mut().zip(WRONG) {
            *told += usize::from(all_by(rule, &frames) != right);
        }
        for (number, refused) in frames {
            *met.entry((NUMBERS[number].2, refused)).or_insert(0) += 1;
        }
    }
    assert!(told.iter().all(|&n| n >= 20), "{WRONG:?} {told:?}");
    for letter in ['c', 'p', 'd'] {
        for refused in [false, true] {
            let count = met[&(letter, refused)];
            assert!(count >= 40, "{letter} {refused}: {count}");
        }
    }
}

#[test]
fn the_stored_recording_tells_wrong_rules_apart() {
    // The one that the hearing program is stored with.
    let bytes = cases::recording(1, 33995);
    let frames = seen(&bytes);
    let (letters, repaired) = all_by(Rule::Right, &frames);
    assert_eq!(listed(&bytes), (letters.clone(), repaired));
    let of = |letter, refused| {
        let found = |&&(n, is): &&(usize, bool)| NUMBERS[n].2 == letter && is == refused;
        frames.iter().filter(found).count()
    };
    // Clean frames, parity hits and data hits, heard and refused.
    assert_eq!(
        [of('c', false), of('p', false), of('d', false)],
        [24, 4, 13]
    );
    assert_eq!([of('c', true), of('p', true), of('d', true)], [11, 2, 3]);
    assert_eq!(repaired, 16);
    for rule in WRONG {
        assert_ne!(
            all_by(rule, &frames),
            (letters.clone(), repaired),
            "{rule:?}"
        );
    }
}
