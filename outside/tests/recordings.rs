//! Recordings: every edge with its refusal, a second reader written another way, the listing
//! and the hearing against what the parts say, and what the generator makes.

use outside::cases::{self, Generator};
use outside::recording::{self, answer, voice_block};
use outside::refusal::Refusal;
use outside::{hear, listing};
use std::collections::BTreeSet;

/// The number in some bytes, the lowest first, if they are all there.
fn number(bytes: &[u8], at: usize, count: usize) -> Option<u64> {
    let part = bytes.get(at..at + count)?.iter().rev();
    Some(part.fold(0, |sum, &byte| sum * 256 + u64::from(byte)))
}

/// All that is wrong with the first block that has anything wrong, in the order in which it is
/// told, with the block's kind if it is there; nothing of a sound recording.
fn faults(bytes: &[u8]) -> (Option<u64>, Vec<Refusal>) {
    let (mut at, mut frames) = (0, 0);
    let mut before = Vec::new(); // the kinds of the blocks before
    loop {
        let rest = &bytes[at..];
        let place = at as u32;
        let ended = before.contains(&3);
        if ended || rest.is_empty() {
            let wrong = ended != rest.is_empty();
            let all = wrong.then_some(Refusal::new(8, place));
            return (None, all.into_iter().collect());
        }
        let length = number(rest, 0, 4);
        let kind = number(rest, 4, 2);
        let cut = rest.len() < 6;
        let past = length.is_some_and(|length| 6 + length > rest.len() as u64);
        let size_wrong = match (kind, length) {
            (Some(1), Some(length)) => length != 8,
            (Some(2), Some(length)) => length == 0 || !length.is_multiple_of(18),
            (Some(3), Some(length)) => length != 4,
            _ => false,
        };
        let astray = match kind {
            Some(1) => !before.is_empty(),
            Some(2) => before.is_empty(),
            Some(3) => !before.contains(&2) || number(rest, 6, 4).is_some_and(|n| n != frames),
            Some(_) => true,
            None => false,
        };
        let size = length.unwrap_or(0);
        let all = [
            (cut, Refusal::new(9, place)),
            (past, Refusal::new(10, place)),
            (size_wrong, Refusal::wrong_size(place, size as u32)),
            (astray, Refusal::new(8, place)),
        ];
        if all.iter().any(|(holds, _)| *holds) {
            let holding = all.into_iter().filter(|(holds, _)| *holds);
            return (kind, holding.map(|(_, refusal)| refusal).collect());
        }
        before.extend(kind);
        frames += size / 18;
        at += 6 + size as usize;
    }
}

/// A second reader: the first of all that is wrong.
fn second_reader(bytes: &[u8]) -> Option<Refusal> {
    if bytes.len() > 65_536 {
        return Some(Refusal::new(1, 0));
    }
    faults(bytes).1.first().copied()
}

/// Where a recording is refused, the kind of the block there (4 for each unknown one), and the
/// numbers of all that is wrong with it.
fn causes(bytes: &[u8]) -> (u32, Option<u64>, Vec<u8>) {
    let (kind, all) = faults(bytes);
    let place = all.first().map_or(0, |refusal| refusal.tells);
    let kind = kind.map(|kind| if (1..=3).contains(&kind) { kind } else { 4 });
    let numbers = all.iter().map(|refusal| refusal.number);
    (place, kind, numbers.collect())
}

#[test]
fn every_edge_gets_its_refusal() {
    let edges = cases::edges();
    let mut names = BTreeSet::new();
    for edge in &edges {
        assert!(names.insert(&edge.name), "{} twice", edge.name);
        assert_eq!(answer(&edge.bytes).err(), edge.refused, "{}", edge.name);
        assert_eq!(second_reader(&edge.bytes), edge.refused, "{}", edge.name);
        if let Some(refusal) = edge.refused {
            let at = refusal.tells;
            let line = match (refusal.number, refusal.size) {
                (1, None) => "refused 1 at 65536\n".to_string(),
                (number @ 8..=10, None) => format!("refused {number} at {at}\n"),
                (11, Some(size)) => format!("refused 11 at {at} {size}\n"),
                other => panic!("{} tells {other:?}", edge.name),
            };
            assert_eq!(listing::list(&edge.bytes), line.as_bytes(), "{}", edge.name);
            assert_eq!(hear::hear(&edge.bytes), line.as_bytes(), "{}", edge.name);
            assert!(voice_block(&edge.bytes, 0).is_empty(), "{}", edge.name);
        }
    }
    let lengths: BTreeSet<usize> = edges.iter().map(|edge| edge.bytes.len()).collect();
    for length in [0, 5, 6, 65_532, 65_536, 65_537] {
        assert!(lengths.contains(&length), "no edge of {length} bytes");
    }
}

/// A block of each kind and of many lengths at each place of a small recording, with any number
/// of bytes there.
fn made_up() -> Vec<Vec<u8>> {
    let sound = cases::sound(7, 1, &[&[[0; 18]]]);
    let mut all = Vec::new();
    for at in [0, 14, 38, 48] {
        for kind in [0, 1, 2, 3, 4, 256, 65_535u16] {
            for length in (0..40).chain([65_544, 1 << 31, u32::MAX]) {
                for number in [0, 1u32] {
                    let mut bytes = sound[..at].to_vec();
                    bytes.extend(length.to_le_bytes());
                    bytes.extend(kind.to_le_bytes());
                    bytes.extend(number.to_le_bytes());
                    bytes.resize(at + 48, 0);
                    all.extend((at..bytes.len()).map(|end| bytes[..end].to_vec()));
                }
            }
        }
    }
    all
}

#[test]
fn made_up_blocks_are_refused_as_a_second_reader_says() {
    let mut reached = BTreeSet::new();
    for bytes in made_up() {
        assert_eq!(
            recording::read(&bytes).err(),
            second_reader(&bytes),
            "{bytes:?}"
        );
        reached.insert(causes(&bytes));
    }
    let together: BTreeSet<&[u8]> = reached.iter().map(|(_, _, numbers)| &numbers[..]).collect();
    let all: [&[u8]; 10] = [
        &[],
        &[8],
        &[9],
        &[9, 10],
        &[10],
        &[10, 8],
        &[10, 11],
        &[10, 11, 8],
        &[11],
        &[11, 8],
    ];
    assert_eq!(together, BTreeSet::from(all));
    // The edges have all that can be wrong at each place of a small recording.
    let mut edges = cases::edges();
    edges.retain(|edge| edge.bytes.len() <= 65_536);
    let named: BTreeSet<_> = edges.iter().map(|edge| causes(&edge.bytes)).collect();
    for wrong in reached {
        if [0, 14, 38, 48].contains(&wrong.0) {
            assert!(named.contains(&wrong), "no edge has {wrong:?}");
        }
    }
}

#[test]
fn the_most_that_fits() {
    let edges = cases::edges();
    let edge = |name: &str| &edges.iter().find(|edge| edge.name == name).unwrap().bytes[..];
    let most = answer(edge("the most frames")).unwrap();
    assert_eq!((most.frames, edge("the most frames").len()), (3639, 65_532));
    assert_eq!(voice_block(edge("the most frames"), 0).len(), 3639 * 18);
    assert!(voice_block(edge("the most frames"), 1).is_empty());
    let blocks = edge("the most voice blocks");
    assert_eq!(answer(blocks).unwrap().frames, 2729);
    assert_eq!(
        voice_block(blocks, 2728),
        &blocks[blocks.len() - 28..blocks.len() - 10]
    );
    assert!(voice_block(blocks, 2729).is_empty());
}

#[test]
fn generated_recordings_are_refused_as_a_second_reader_says() {
    let mut reached = BTreeSet::new();
    let mut refused = 0;
    for n in 0..6_000 {
        let bytes = cases::recording(99, n);
        let answer = answer(&bytes);
        assert_eq!(answer.err(), second_reader(&bytes), "recording {n}");
        assert_eq!(answer.is_ok(), n % 2 == 1);
        if let Err(refusal) = answer {
            refused += 1;
            reached.insert((refusal.number, refusal.tells.min(39)));
        }
    }
    assert_eq!(refused, 3_000);
    for number in 8..=11 {
        for place in [0, 14, 38, 39] {
            let cause = (number, place);
            assert!(reached.contains(&cause), "no recording refused {cause:?}");
        }
    }
}

#[test]
fn any_bytes_get_an_answer() {
    let mut g = Generator::new(31);
    for _ in 0..20_000 {
        let length = g.below(80);
        let mut bytes = g.bytes(length);
        // Small numbers, so that some get past the first header.
        for byte in bytes.iter_mut() {
            *byte = [0, 0, 0, 1, 2, 3, 8, 18, *byte][g.below(9)];
        }
        assert_eq!(
            recording::read(&bytes).err(),
            second_reader(&bytes),
            "{bytes:?}"
        );
    }
}

#[test]
fn one_changed_header_byte_is_answered_as_a_second_reader_says() {
    let mut g = Generator::new(32);
    let frames = [g.frame(0), g.frame(1), g.frame(0)];
    let sound = cases::sound(5, 6, &[&frames[..1], &frames[1..]]);
    let mut refused = 0;
    for at in 0..sound.len() {
        for byte in 0..=255 {
            let mut bytes = sound.clone();
            bytes[at] = byte;
            let read = recording::read(&bytes);
            assert_eq!(read.err(), second_reader(&bytes), "byte {at} is {byte}");
            refused += usize::from(read.is_err());
        }
    }
    // Headers (6 bytes each) and the end's number: any other value is refused.
    assert_eq!(refused, 255 * (4 * 6 + 4));
}

/// A listing made from the hearing of the same recording.
fn listing_from_hearing(bytes: &[u8]) -> String {
    let heard = String::from_utf8(hear::hear(bytes)).unwrap();
    let answer = answer(bytes).unwrap();
    let outside::recording::Answer {
        unit,
        number,
        frames,
        ..
    } = answer;
    let mut lines = format!("unit {unit} recording {number} frames {frames}\n");
    let mut repaired = 0;
    // Before the first frame a 1 stands in, so that a break is always one that comes twice.
    let mut all_sy = vec!["1"];
    for line in heard.lines().filter(|line| line.starts_with("frame ")) {
        let words: Vec<&str> = line.split(' ').collect();
        let (k, sp, sy) = (words[1], words[28], words[29]);
        let (number, letter) = (words[31], words[32]);
        assert_eq!(words[30], "number");
        // A data hit has its field and its bit after the letter.
        let data_hit = letter == "d";
        repaired += u32::from(data_hit);
        let words = &words[if data_hit { 35 } else { 33 }..];
        assert_eq!(words[0], "mark");
        let mark = words[1];
        all_sy.push(sy);
        if words[2] == "refused" {
            assert_eq!(sp, "1");
            assert_eq!(words[3..], ["6", "sy", sy]);
            lines.push_str(&format!("{k} {number} {letter} refused 6\n"));
        } else {
            assert_eq!((sp, words[2], words[11]), ("0", "gains", "delays"));
            assert_eq!((words[16], words[57]), ("averages", "state"));
            assert_eq!(words[68..], ["sy", sy]);
            let delays = words[12..16].join(" ");
            lines.push_str(&format!("{k} {number} {letter} {mark} {sy} {delays}\n"));
        }
    }
    let breaks = all_sy.windows(2).filter(|two| two[0] == two[1]).count() as u32;
    assert_eq!((answer.repaired, answer.breaks), (repaired, breaks));
    lines.push_str(&format!("repaired {repaired} breaks {breaks}\n"));
    lines
}

#[test]
fn listing_and_hearing_agree() {
    let (mut refused, mut marked, mut repaired) = (0, 0, 0);
    for n in (1..800).step_by(2) {
        let bytes = cases::recording(7, n);
        let listing = String::from_utf8(listing::list(&bytes)).unwrap();
        assert_eq!(listing, listing_from_hearing(&bytes), "recording {n}");
        for heard in recording::read(&bytes).unwrap().heard() {
            refused += usize::from(heard.values.is_err());
            marked += usize::from(heard.reading.mark != 0);
            repaired += usize::from(heard.reading.correction.is_repair());
        }
    }
    assert!(
        refused > 100 && marked > 100 && repaired > 100,
        "{refused} {marked} {repaired}"
    );
}

#[test]
fn hearing_names_every_voice_block_and_one_past() {
    for n in (1..400).step_by(2) {
        let bytes = cases::recording(8, n);
        let heard = String::from_utf8(hear::hear(&bytes)).unwrap();
        let blocks: Vec<&str> = heard
            .lines()
            .filter(|line| line.starts_with("block "))
            .collect();
        for (k, line) in blocks.iter().enumerate() {
            let part = voice_block(&bytes, k);
            let past = k + 1 == blocks.len();
            assert_eq!(part.is_empty(), past);
            let at = if past {
                0
            } else {
                part.as_ptr() as usize - bytes.as_ptr() as usize
            };
            assert_eq!(*line, format!("block {k} {at} {}", part.len()));
        }
        let total: usize = (0..blocks.len())
            .map(|k| voice_block(&bytes, k).len())
            .sum();
        assert_eq!(total as u32, 18 * answer(&bytes).unwrap().frames);
    }
}

#[test]
fn a_thousand_recordings_stay_small() {
    let edges = cases::edges();
    let mut total = 0;
    let mut refused = 0;
    for n in 0..1_000 {
        let bytes = match edges.get(n) {
            Some(edge) => edge.bytes.clone(),
            None => cases::recording(1, n as u64),
        };
        refused += usize::from(recording::read(&bytes).is_err());
        total += bytes.len() + listing::list(&bytes).len();
        if bytes.len() <= 20_000 {
            total += hear::hear(&bytes).len();
        }
    }
    assert!(edges.len() < 600, "{} edges", edges.len());
    assert!(refused >= 500, "{refused} refused");
    assert!(total < 15_000_000, "{total} bytes");
}
