//! What is told of a recording, sound or refused for each cause, against a second reader written another way.

use outside::cases;
use outside::recording;
use outside::refusal::Refusal;
use std::collections::BTreeSet;

/// The number in some bytes, the lowest first, if they are all there.
fn number(bytes: &[u8], at: usize, count: usize) -> Option<u64> {
    let part = bytes.get(at..at + count)?.iter().rev();
    Some(part.fold(0, |sum, &byte| sum * 256 + u64::from(byte)))
}

/// A refusal, and the number of its cause.
type Wrong = (Refusal, u8);

/// All that is wrong with the first block that has anything wrong, in the order in which it is
/// told, with the block's kind if it is there; nothing of a sound recording.
fn faults(bytes: &[u8]) -> (Option<u64>, Vec<Wrong>) {
    let (mut at, mut frames) = (0, 0);
    let mut before = Vec::new(); // the kinds of the blocks before
    loop {
        let rest = &bytes[at..];
        let place = at as u32;
        let ended = before.contains(&3);
        if ended || rest.is_empty() {
            let wrong = ended != rest.is_empty();
            let cause = if ended { 9 } else { 7 };
            let all = wrong.then_some((Refusal::new(8, place), cause));
            return (None, all.into_iter().collect());
        }
        let length = number(rest, 0, 4);
        let kind = number(rest, 4, 2);
        let cut = rest.len() < 6;
        let past = length.is_some_and(|length| 6 + length > rest.len() as u64);
        let size_wrong = match (kind, length) {
            (Some(1), Some(length)) => length != 8,
            (Some(2), Some(length)) => length == 0 || !length.is_multiple_of(18),
            (Some(3), Some(length)) => length != 4,
            _ => false,
        };
        let unknown = kind.is_some_and(|kind| !(1..=3).contains(&kind));
        let out_of_turn = match kind {
            Some(1) => !before.is_empty(),
            Some(2) => before.is_empty(),
            Some(3) => !before.contains(&2),
            _ => false,
        };
        let wrong_number = kind == Some(3) && number(rest, 6, 4).is_some_and(|n| n != frames);
        let size = length.unwrap_or(0);
        let all = [
            (cut, Refusal::new(9, place), 2),
            (past, Refusal::new(10, place), 3),
            (size_wrong, Refusal::wrong_size(place, size as u32), 4),
            (unknown, Refusal::new(8, place), 5),
            (out_of_turn, Refusal::new(8, place), 6),
            (wrong_number, Refusal::new(8, place), 8),
        ];
        if all.iter().any(|(holds, _, _)| *holds) {
            let holding = all.into_iter().filter(|(holds, _, _)| *holds);
            let holding = holding.map(|(_, refusal, cause)| (refusal, cause));
            return (kind, holding.collect());
        }
        before.extend(kind);
        frames += size / 18;
        at += 6 + size as usize;
    }
}

/// A second reader: the first of all that is wrong.
fn second_checker(bytes: &[u8]) -> Option<Wrong> {
    if bytes.len() > 65_536 {
        return Some((Refusal::new(1, 0), 1));
    }
    faults(bytes).1.first().copied()
}

/// What is told of bytes as the second reader says: the number of the cause, 0 if they are sound.
fn hold_told(bytes: &[u8], name: &str) -> u8 {
    let checked = recording::check(bytes);
    let told = recording::told(&checked);
    match second_checker(bytes) {
        None => {
            let [unit, recording] = [6, 10].map(|at| number(bytes, at, 4).unwrap() as u32);
            assert_eq!(told, [unit, recording, 0, 0, 0], "{name}");
            assert!(checked.is_ok(), "{name}");
            0
        }
        Some((refusal, cause)) => {
            let size = refusal.size.unwrap_or(0);
            assert_eq!(told, [0, 0, refusal.tells, size, cause.into()], "{name}");
            let fault = checked.unwrap_err();
            assert_eq!(Refusal::from(fault), refusal, "{name}");
            assert_eq!(fault.cause.number(), cause, "{name}");
            cause
        }
    }
}

/// A block of each kind and of many lengths at each place of a small recording, with any number
/// of bytes there.
fn made_up() -> Vec<Vec<u8>> {
    let sound = cases::sound(7, 1, &[&[[0; 18]]]);
    let mut all = Vec::new();
    for at in [0, 14, 38, 48] {
        for kind in [0, 1, 2, 3, 4, 256, 65_535u16] {
            for length in (0..40).chain([65_544, 1 << 31, u32::MAX]) {
                for number in [0, 1u32] {
                    let mut bytes = sound[..at].to_vec();
                    bytes.extend(length.to_le_bytes());
                    bytes.extend(kind.to_le_bytes());
                    bytes.extend(number.to_le_bytes());
                    bytes.resize(at + 48, 0);
                    all.extend((at..bytes.len()).map(|end| bytes[..end].to_vec()));
                }
            }
        }
    }
    all
}

#[test]
fn every_cause_is_told_as_a_second_reader_says() {
    let mut edges = BTreeSet::new();
    for edge in cases::edges() {
        edges.insert(hold_told(&edge.bytes, &edge.name));
    }
    assert_eq!(edges, (0..=9).collect());
    let mut made = BTreeSet::new();
    for bytes in made_up() {
        made.insert(hold_told(&bytes, "made up"));
    }
    assert_eq!(made, [0].into_iter().chain(2..=9).collect());
    let mut generated = [0; 10];
    for n in 0..6_000 {
        let cause = hold_told(&cases::recording(98, n), &format!("recording {n}"));
        generated[usize::from(cause)] += 1;
    }
    assert_eq!((generated[0], generated[1]), (3_000, 0));
    assert!(generated[2..].iter().all(|&n| n > 20), "{generated:?}");
}
