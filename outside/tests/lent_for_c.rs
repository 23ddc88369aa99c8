//! Salvaging and listing into lent buffers as the functions for C tell it: the numbers that are told, and every
//! byte of the buffers.

use outside::salvage::{salvage, written, Salvaged};
use outside::uploads::{cuts, upload};
use outside::{cases, lent, listing, recording};
use std::collections::BTreeMap;

const LONGEST: usize = 65_536;

/// A case of lent buffers.
fn lent_case(n: u16, recording: &[u8]) -> Vec<u8> {
    [&n.to_le_bytes(), recording].concat()
}

/// A line, and after it a buffer that begins with some bytes and is 170 from there on.
fn line_and_buffer(line: &str, bytes: &[u8], length: usize) -> Vec<u8> {
    let mut all = [line.as_bytes(), b"\n", bytes].concat();
    all.resize(line.len() + 1 + length, 170);
    all
}

/// What is printed of buffers of a length that is not right.
fn wrong_buffers(length: usize) -> Vec<u8> {
    let salvaged = line_and_buffer("salvage -1 9 9 9 9 9", &[], length);
    let listed = line_and_buffer("list -1 9 9 9 9 9 9", &[], 2 * length);
    [salvaged, listed].concat()
}

/// What is printed of right buffers: by what is salvaged, and by the text of the listing and the cause of a
/// refusal.
fn right_buffers(input: &[u8], salvaged: &Salvaged, cause: u8) -> Vec<u8> {
    let bytes = written(input, salvaged);
    let line = match salvaged {
        Salvaged::Sound => format!("salvage 0 0 0 0 0 {}", input.len()),
        Salvaged::Mended {
            dropped,
            from,
            frames,
            end,
            ..
        } => format!("salvage 1 {dropped} {from} {frames} {end} {}", end + 10),
        Salvaged::Refused(number) => format!("salvage -{number} 9 9 9 9 9"),
    };
    let salvaged = line_and_buffer(&line, bytes, LONGEST);
    let text = listing::list(input);
    let words = String::from_utf8(text.clone()).expect("text");
    let words: Vec<&str> = words.lines().next().expect("a line").split(' ').collect();
    let length = text.len();
    let line = match words[..] {
        ["unit", unit, "recording", number, ..] => {
            assert_eq!(cause, 0);
            format!("list 0 {length} {unit} {number} 0 0 0")
        }
        ["refused", "1", "at", "65536"] => format!("list -1 {length} 0 0 0 0 {cause}"),
        ["refused", "11", "at", at, size] => format!("list -11 {length} 0 0 {at} {size} {cause}"),
        ["refused", number, "at", at] => format!("list -{number} {length} 0 0 {at} 0 {cause}"),
        _ => panic!("{words:?}"),
    };
    let listed = line_and_buffer(&line, &text, 2 * LONGEST);
    [salvaged, listed].concat()
}

/// The number of the cause for which bytes are refused, 0 if they are sound.
fn cause(input: &[u8]) -> u8 {
    recording::check(input).map_or_else(|fault| fault.cause.number(), |_| 0)
}

/// Lengths of a buffer that are not right, as a case has them.
const OTHER_LENGTHS: [u16; 7] = [1, 2, 10, 48, 65_520, 65_532, 65_535];

#[test]
fn the_sample_cut_in_its_second_frame_into_lent_buffers() {
    let cut = &cases::sample()[..44];
    let mut mended = cut[..38].to_vec();
    mended[14] = 18;
    mended.extend([4, 0, 0, 0, 3, 0, 1, 0, 0, 0]);
    let said = lent::answer_for_c(&lent_case(0, cut));
    let first = b"salvage 1 6 38 1 38 48\n";
    let (line, rest) = said.split_at(first.len());
    assert_eq!(line, first);
    let (buffer, rest) = rest.split_at(LONGEST);
    assert_eq!(buffer[..48], mended);
    assert!(buffer[48..].iter().all(|&byte| byte == 170));
    let second = b"list -10 17 0 0 14 0 3\n";
    let (line, buffer) = rest.split_at(second.len());
    assert_eq!(line, second);
    assert_eq!(
        (buffer.len(), &buffer[..17]),
        (131_072, &b"refused 10 at 14\n"[..])
    );
    assert!(buffer[17..].iter().all(|&byte| byte == 170));
    // It would go into so many bytes, but no other length is right.
    for n in [48, 49, 65_535] {
        let refused = wrong_buffers(n.into());
        assert_eq!(lent::answer_for_c(&lent_case(n, cut)), refused, "{n}");
    }
}

#[test]
fn the_stored_case_is_cut_in_its_fifth_frame() {
    let case = lent::case();
    assert_eq!(case, lent::case());
    assert_eq!((case.len(), &case[..2]), (109, &[0, 0][..]));
    let recording = &case[2..];
    assert_eq!(recording[14..20], [54, 0, 0, 0, 2, 0]);
    assert_eq!(recording[74..80], [54, 0, 0, 0, 2, 0]);
    let mut mended = recording[..98].to_vec();
    mended[74] = 18;
    mended.extend([4, 0, 0, 0, 3, 0, 4, 0, 0, 0]);
    let salvaged = line_and_buffer("salvage 1 9 98 4 98 108", &mended, LONGEST);
    let text = b"refused 10 at 74\n";
    let listed = line_and_buffer("list -10 17 0 0 74 0 3", text, 2 * LONGEST);
    assert_eq!(lent::answer_for_c(&case), [salvaged, listed].concat());
    // No byte that is written is as the buffer was before, so that it shows how far it goes.
    assert!(!mended.contains(&170));
}

#[test]
fn the_sound_case_is_the_stored_one_whole() {
    let case = lent::sound_case();
    assert_eq!(case.len(), 146);
    assert_eq!(case[..109], lent::case());
    let recording = &case[2..];
    let salvaged = line_and_buffer("salvage 0 0 0 0 0 144", recording, LONGEST);
    let text = listing::list(recording);
    assert_eq!(text.split(|&byte| byte == b'\n').count(), 9);
    let listed = line_and_buffer("list 0 213 12 345 0 0 0", &text, 2 * LONGEST);
    assert_eq!(lent::answer_for_c(&case), [salvaged, listed].concat());
    assert!(!recording.contains(&170));
}

#[test]
fn lent_buffers_hold_what_is_written_and_nothing_else() {
    let mut all: Vec<(String, Vec<u8>)> = cases::edges()
        .into_iter()
        .map(|edge| (edge.name, edge.bytes))
        .collect();
    let cuts = cuts().into_iter().enumerate();
    all.extend(cuts.map(|(n, bytes)| (format!("cut {n}"), bytes)));
    all.extend((0..300).map(|n| (format!("upload {n}"), upload(7, n))));
    let mut reached = BTreeMap::new();
    let mut causes = BTreeMap::new();
    for (name, input) in &all {
        let salvaged = salvage(input);
        let cause = cause(input);
        let expected = right_buffers(input, &salvaged, cause);
        assert!(
            lent::answer_for_c(&lent_case(0, input)) == expected,
            "{name}"
        );
        let word = match salvaged {
            Salvaged::Sound => "sound",
            Salvaged::Mended { .. } => "mended",
            Salvaged::Refused(1) => "refused 1",
            Salvaged::Refused(_) => "refused 12",
        };
        *reached.entry(word).or_insert(0) += 1;
        *causes.entry(cause).or_insert(0) += 1;
    }
    assert_eq!(reached.len(), 4, "{reached:?}");
    assert!(reached.values().all(|&n| n >= 10), "{reached:?}");
    assert_eq!(causes.len(), 10, "{causes:?}");
    assert!(causes.values().all(|&n| n >= 10), "{causes:?}");
}

#[test]
fn lent_buffers_of_another_length_are_refused_whatever_the_recording() {
    for edge in cases::edges() {
        for n in OTHER_LENGTHS {
            let expected = wrong_buffers(n.into());
            let said = lent::answer_for_c(&lent_case(n, &edge.bytes));
            assert!(said == expected, "{n}: {}", edge.name);
        }
    }
}

#[test]
fn short_cases_of_lent_buffers() {
    let sample = cases::sample();
    let none = Salvaged::Refused(12);
    // What is not there of the number is 0, and the recording is empty.
    let empty = right_buffers(&[], &none, 7);
    assert!(empty.starts_with(b"salvage -12 9 9 9 9 9\n\xAA"));
    assert!(empty[LONGEST..].starts_with(&[170; 22]));
    assert!(empty[LONGEST + 22..].starts_with(b"list -8 15 0 0 0 0 7\nrefused 8 at 0\n\xAA"));
    for (case, expected) in [
        (vec![], empty.clone()),
        (vec![0], empty.clone()),
        (vec![0, 0], empty),
        (vec![5], wrong_buffers(5)),
        (vec![255], wrong_buffers(255)),
        // The lowest byte is first.
        (vec![5, 0], wrong_buffers(5)),
        (vec![0, 5], wrong_buffers(1_280)),
        (vec![255, 255], wrong_buffers(65_535)),
        (lent_case(0, &[170]), right_buffers(&[170], &none, 2)),
        (
            lent_case(0, &sample),
            right_buffers(&sample, &Salvaged::Sound, 0),
        ),
        (lent_case(66, &sample), wrong_buffers(66)),
    ] {
        assert!(lent::answer_for_c(&case) == expected, "{case:?}");
    }
    let said = lent::answer_for_c(&lent_case(0, &sample));
    assert!(said.starts_with(b"salvage 0 0 0 0 0 66\n"));
    assert!(
        said[LONGEST + 21..].starts_with(b"list 0 101 7 1 0 0 0\nunit 7 recording 1 frames 2\n")
    );
}

#[test]
fn the_longest_cases_of_lent_buffers() {
    // What is read of a case has room for one byte past the longest recording.
    let edges = cases::edges().into_iter();
    let long = edges
        .map(|edge| edge.bytes)
        .find(|bytes| bytes.len() > LONGEST);
    let long = long.expect("there is one that is too long");
    assert_eq!(lent_case(0, &long[..=LONGEST]).len(), lent::LONGEST_CASE);
    for n in [48, 65_535] {
        let expected = wrong_buffers(n.into());
        assert!(lent::answer_for_c(&lent_case(n, &long)) == expected, "{n}");
    }
    // With right buffers the listing is laid all the same.
    let salvaged = line_and_buffer("salvage -1 9 9 9 9 9", &[], LONGEST);
    let text = b"refused 1 at 65536\n";
    let listed = line_and_buffer("list -1 19 0 0 0 0 1", text, 2 * LONGEST);
    assert!(lent::answer_for_c(&lent_case(0, &long)) == [salvaged, listed].concat());
}
