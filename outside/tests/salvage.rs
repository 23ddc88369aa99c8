//! Salvaging: worked examples, a second way written forward, and what holds of all that is
//! salvaged, over the edges, the cuts, uploads and generated recordings.

use outside::cases::{self, Generator};
use outside::lent;
use outside::recording;
use outside::salvage::{changes, into_lent, salvage, written, Salvaged};
use outside::uploads::{cuts, upload};
use std::collections::BTreeMap;

const LONGEST: usize = 65_536;

/// The number in four bytes, the lowest first.
fn number(bytes: &[u8], at: usize) -> usize {
    let part = bytes[at..at + 4].iter().rev();
    part.fold(0, |sum, &byte| sum * 256 + usize::from(byte))
}

/// A second way: forward, frame by frame, as far as the result with its end has room in so many
/// bytes. It asks no reader: what comes out as it went in was sound.
fn second_way(input: &[u8], room: usize) -> Salvaged {
    if input.len() > LONGEST {
        return Salvaged::Refused(1);
    }
    if input.len() < 14 || input[..6] != [8, 0, 0, 0, 1, 0] {
        return Salvaged::Refused(12);
    }
    let mut out = input[..14].to_vec();
    let mut frames = 0u32;
    let mut kept_to = 14;
    let mut at = 14;
    'blocks: while at + 6 <= input.len() && input[at + 4..at + 6] == [2, 0] {
        let said = number(input, at);
        let there = input.len() - at - 6;
        if said <= there && (said == 0 || !said.is_multiple_of(18)) {
            break;
        }
        let length_at = out.len();
        for k in 1..=said.min(there) / 18 {
            let header: &[u8] = if k == 1 { &[0, 0, 0, 0, 2, 0] } else { &[] };
            if out.len() + header.len() + 18 + 10 > room {
                break 'blocks;
            }
            kept_to = at + 6 + 18 * k;
            out.extend(header);
            out.extend(&input[kept_to - 18..kept_to]);
            out[length_at..length_at + 4].copy_from_slice(&(18 * k as u32).to_le_bytes());
            frames += 1;
        }
        // Past the end there is no further block.
        at += 6 + said;
    }
    if frames == 0 {
        return Salvaged::Refused(12);
    }
    let end = out.len();
    out.extend([4, 0, 0, 0, 3, 0]);
    out.extend(frames.to_le_bytes());
    if out == input {
        return Salvaged::Sound;
    }
    Salvaged::Mended {
        bytes: out,
        dropped: input.len() - kept_to,
        from: kept_to,
        frames: frames as usize,
        end,
    }
}

/// True if the bytes begin with a right head.
fn has_head(input: &[u8]) -> bool {
    input.len() >= 14 && input.starts_with(&[8, 0, 0, 0, 1, 0])
}

/// True if a voice block follows the head that is right or runs past the end, and has a whole
/// frame.
fn has_frame(input: &[u8]) -> bool {
    if input.len() < 14 + 6 + 18 || input[18..20] != [2, 0] {
        return false;
    }
    let said = number(input, 14);
    said > input.len() - 20 || (said > 0 && said.is_multiple_of(18))
}

/// The bytes of all frames of a recording that is sound, or would be if it were not too long.
fn frames_of(bytes: &[u8]) -> Vec<u8> {
    let mut frames = Vec::new();
    let mut at = 14;
    while bytes[at + 4] == 2 {
        let next = at + 6 + number(bytes, at);
        frames.extend(&bytes[at + 6..next]);
        at = next;
    }
    assert_eq!(bytes[at..at + 6], [4, 0, 0, 0, 3, 0]);
    frames
}

/// What came of a recording, in a word.
#[derive(Clone, Copy, Debug, PartialEq, Eq, PartialOrd, Ord)]
enum Outcome {
    Sound,
    TooLong,
    NothingToKeep,
    /// No frame goes, with its bytes dropped or none.
    Mended,
    NothingDropped,
    /// A frame goes, and its block stays or goes.
    FrameGone,
    BlockGone,
}

/// Holds a recording to all that is said of salvaging.
fn hold(name: &str, input: &[u8]) -> Outcome {
    let salvaged = salvage(input);
    assert_eq!(salvaged, second_way(input, LONGEST), "{name}");
    let sound = recording::read(input);
    let refused = match salvaged {
        Salvaged::Refused(number) => Some(number),
        _ => None,
    };
    let too_long = input.len() > LONGEST;
    let something = has_head(input) && has_frame(input);
    assert_eq!(refused == Some(1), too_long, "{name}");
    assert_eq!(refused == Some(12), !(too_long || something), "{name}");
    assert_eq!(salvaged == Salvaged::Sound, sound.is_ok(), "{name}");

    let out = written(input, &salvaged);
    let text = changes(&salvaged);
    match &salvaged {
        Salvaged::Refused(number) => {
            assert_eq!((out, text), (&[][..], format!("refused {number}\n")));
            match number {
                1 => Outcome::TooLong,
                _ => Outcome::NothingToKeep,
            }
        }
        Salvaged::Sound => {
            assert_eq!((out, &text[..]), (input, ""), "{name}");
            Outcome::Sound
        }
        Salvaged::Mended {
            bytes,
            dropped,
            from,
            frames,
            end,
        } => {
            assert_eq!(out, bytes, "{name}");
            // It is accepted, with the same unit and number, and not changed again.
            assert!(bytes.len() <= LONGEST, "{name}");
            let answer = recording::answer(bytes).expect(name);
            let units = (answer.unit as usize, answer.number as usize);
            assert_eq!(units, (number(input, 6), number(input, 10)), "{name}");
            assert_eq!(answer.frames as usize, *frames, "{name}");
            assert_eq!(salvage(bytes), Salvaged::Sound, "{name}");
            // Its blocks are those of the input, but for the last one's length, and stand where
            // they stood; what is dropped is the rest.
            assert_eq!((*end, from + dropped), (bytes.len() - 10, input.len()));
            assert_eq!(end, from, "{name}");
            let blocks = recording::read(bytes).unwrap().voice_blocks();
            let (last, payload) = blocks.last().expect("there is a voice block");
            let mut same = input[..*end].to_vec();
            let length = payload.len() as u32;
            same[last - 6..last - 2].copy_from_slice(&length.to_le_bytes());
            assert_eq!(bytes[..*end], same, "{name}");
            // The lines.
            let lines: Vec<&str> = text.lines().collect();
            let expected = [
                format!("dropped {dropped} bytes from {from}"),
                format!("kept {frames} frames"),
                format!("end written at {end}"),
            ];
            let first = usize::from(*dropped == 0);
            assert_eq!(lines, expected[first..], "{name}");
            assert!(text.ends_with('\n'), "{name}");
            // The frames are the first of those that would be kept if there were room for all.
            let all = with_room(name, input, usize::MAX);
            let kept = frames_of(bytes);
            assert_eq!(kept.len(), 18 * frames, "{name}");
            assert!(frames_of(&all).starts_with(&kept), "{name}");
            if all.len() <= LONGEST {
                assert_eq!(&all, bytes, "{name}");
                return match dropped {
                    0 => Outcome::NothingDropped,
                    _ => Outcome::Mended,
                };
            }
            // With the next one, which has a header or none, the recording would be too long.
            let rooms = [bytes.len() + 18, bytes.len() + 24];
            let [more, most] = rooms.map(|room| with_room(name, input, room));
            let next = if &more == bytes { &most } else { &more };
            assert_eq!(frames_of(next).len(), kept.len() + 18, "{name}");
            assert!(next.len() > LONGEST, "{name}");
            if &more == bytes {
                Outcome::BlockGone
            } else {
                Outcome::FrameGone
            }
        }
    }
}

/// What would be salvaged of a damaged recording if a recording could have so many bytes.
fn with_room(name: &str, input: &[u8], room: usize) -> Vec<u8> {
    match second_way(input, room) {
        Salvaged::Mended { bytes, .. } => bytes,
        other => panic!("{name}: {other:?}"),
    }
}

/// Holds many, and says how many came of them of each kind.
fn hold_all(all: impl IntoIterator<Item = (String, Vec<u8>)>) -> BTreeMap<Outcome, usize> {
    let mut reached = BTreeMap::new();
    for (name, bytes) in all {
        *reached.entry(hold(&name, &bytes)).or_default() += 1;
    }
    reached
}

fn text_of(input: &[u8]) -> String {
    changes(&salvage(input))
}

/// Bytes in hexadecimal.
fn hex(text: &str) -> Vec<u8> {
    let digits: Vec<u8> = text.bytes().filter(|byte| *byte != b' ').collect();
    let pair = |pair: &[u8]| u8::from_str_radix(std::str::from_utf8(pair).unwrap(), 16).unwrap();
    digits.chunks(2).map(pair).collect()
}

const HEAD: &str = "0800 0000 0100 0700 0000 0100 0000";
const ZERO: &str = "0000 0000 0000 0000 0000 0000 0000 0000 0000";
const HIT: &str = "0000 0000 0000 0000 0000 0000 0100 0000 0001";
const ONE_FRAME: &str = "1200 0000 0200";
const TWO_FRAMES: &str = "2400 0000 0200";
const END_OF_1: &str = "0400 0000 0300 0100 0000";
const END_OF_2: &str = "0400 0000 0300 0200 0000";

#[test]
fn the_sample_cut_in_its_second_frame() {
    let sample = cases::sample();
    let cut = hex(&[HEAD, TWO_FRAMES, ZERO, "0000 0000 0000"].concat());
    assert_eq!((&sample[..44], cut.len()), (&cut[..], 44));
    let mended = hex(&[HEAD, ONE_FRAME, ZERO, END_OF_1].concat());
    let expected = Salvaged::Mended {
        bytes: mended.clone(),
        dropped: 6,
        from: 38,
        frames: 1,
        end: 38,
    };
    assert_eq!(salvage(&cut), expected);
    assert_eq!(written(&cut, &expected), mended);
    assert_eq!(
        changes(&expected),
        "dropped 6 bytes from 38\nkept 1 frames\nend written at 38\n"
    );
}

#[test]
fn worked_examples() {
    let whole = [HEAD, TWO_FRAMES, ZERO, HIT, END_OF_2];
    assert_eq!(cases::sample(), hex(&whole.concat()));
    for (name, input, output, text) in [
        ("sound", &whole[..], &whole[..], ""),
        (
            "no end",
            &whole[..4],
            &whole,
            "kept 2 frames\nend written at 56\n",
        ),
        (
            "cut after its first frame",
            &whole[..3],
            &[HEAD, ONE_FRAME, ZERO, END_OF_1],
            "kept 1 frames\nend written at 38\n",
        ),
        (
            "cut in the end's header",
            &[HEAD, TWO_FRAMES, ZERO, HIT, "0400 00"],
            &whole,
            "dropped 3 bytes from 56\nkept 2 frames\nend written at 56\n",
        ),
        (
            "cut in the end's number",
            &[HEAD, TWO_FRAMES, ZERO, HIT, "0400 0000 0300 0200 00"],
            &whole,
            "dropped 9 bytes from 56\nkept 2 frames\nend written at 56\n",
        ),
        (
            "a wrong number",
            &[HEAD, TWO_FRAMES, ZERO, HIT, END_OF_1],
            &whole,
            "dropped 10 bytes from 56\nkept 2 frames\nend written at 56\n",
        ),
        (
            "a byte after a right end",
            &[HEAD, TWO_FRAMES, ZERO, HIT, END_OF_2, "00"],
            &whole,
            "dropped 11 bytes from 56\nkept 2 frames\nend written at 56\n",
        ),
        (
            "a byte after the frames of a cut block",
            &[HEAD, "3600 0000 0200", ZERO, HIT, "00"],
            &whole,
            "dropped 1 bytes from 56\nkept 2 frames\nend written at 56\n",
        ),
        (
            "two voice blocks, the second cut",
            &[HEAD, ONE_FRAME, ZERO, TWO_FRAMES, HIT, "0102 03"],
            &[HEAD, ONE_FRAME, ZERO, ONE_FRAME, HIT, END_OF_2],
            "dropped 3 bytes from 62\nkept 2 frames\nend written at 62\n",
        ),
        (
            "the second cut in its first frame leaves no block",
            &[HEAD, ONE_FRAME, ZERO, TWO_FRAMES, "0102 03"],
            &[HEAD, ONE_FRAME, ZERO, END_OF_1],
            "dropped 9 bytes from 38\nkept 1 frames\nend written at 38\n",
        ),
        (
            "a wild length that is no multiple of 18, over a block and the end",
            &[HEAD, "D007 0000 0200", ZERO, ONE_FRAME, HIT, END_OF_2],
            &[HEAD, TWO_FRAMES, ZERO, ONE_FRAME, &HIT[..29], END_OF_2],
            "dropped 16 bytes from 56\nkept 2 frames\nend written at 56\n",
        ),
        (
            "a block after one of a wrong size",
            &[HEAD, ONE_FRAME, HIT, "0100 0000 0200 00", ONE_FRAME, ZERO],
            &[HEAD, ONE_FRAME, HIT, END_OF_1],
            "dropped 31 bytes from 38\nkept 1 frames\nend written at 38\n",
        ),
        (
            "the head again",
            &[HEAD, ONE_FRAME, HIT, HEAD, ONE_FRAME, ZERO, END_OF_2],
            &[HEAD, ONE_FRAME, HIT, END_OF_1],
            "dropped 48 bytes from 38\nkept 1 frames\nend written at 38\n",
        ),
        (
            "a head past the end",
            &[HEAD, ONE_FRAME, HIT, "4800 0000 0100", ZERO, HIT],
            &[HEAD, ONE_FRAME, HIT, END_OF_1],
            "dropped 42 bytes from 38\nkept 1 frames\nend written at 38\n",
        ),
        ("nothing", &[], &[], "refused 12\n"),
        ("a head alone", &[HEAD], &[], "refused 12\n"),
        ("no voice", &[HEAD, END_OF_1], &[], "refused 12\n"),
        (
            "no whole frame",
            &[HEAD, ONE_FRAME, &ZERO[..42]],
            &[],
            "refused 12\n",
        ),
        (
            "no head",
            &[TWO_FRAMES, ZERO, HIT, END_OF_2],
            &[],
            "refused 12\n",
        ),
        (
            "a voice past the end first",
            &["4800 0000 0200", ZERO, HIT],
            &[],
            "refused 12\n",
        ),
        (
            "a head of nine",
            &["0900 0000 0100", ZERO, ONE_FRAME, ZERO, END_OF_1],
            &[],
            "refused 12\n",
        ),
        (
            "the first voice of a wrong size",
            &[HEAD, "1300 0000 0200 00", ZERO, ONE_FRAME, ZERO, END_OF_1],
            &[],
            "refused 12\n",
        ),
    ] {
        let (input, output) = (hex(&input.concat()), hex(&output.concat()));
        assert_eq!(text_of(&input), text, "{name}");
        assert_eq!(written(&input, &salvage(&input)), output, "{name}");
        hold(name, &input);
    }
}

/// The lines of a recording that is mended with nothing refused: how many bytes are dropped,
/// where the end is written, how many frames are kept.
fn lines(dropped: usize, end: usize, frames: usize) -> String {
    let rest = format!("kept {frames} frames\nend written at {end}\n");
    match dropped {
        0 => rest,
        _ => format!("dropped {dropped} bytes from {end}\n{rest}"),
    }
}

/// The edges made for salvaging.
fn edges_for_salvaging() -> BTreeMap<String, Vec<u8>> {
    let mut edges = cases::edges();
    assert_eq!(edges[325].name, "65,537 bytes, header cut");
    let edges = edges.drain(326..498);
    edges.map(|edge| (edge.name, edge.bytes)).collect()
}

#[test]
fn edges_in_small_recordings() {
    let edges = edges_for_salvaging();
    let mut seen = 0;
    for (count, at, frames) in [(0, 14, 0), (1, 56, 2), (2, 80, 3)] {
        let named = format!("after {count} voices, ");
        for (name, bytes) in &edges {
            let Some(what) = name.strip_prefix(&named) else {
                continue;
            };
            seen += 1;
            // The whole frames of a voice block past the end.
            let words: Vec<&str> = what.split(' ').collect();
            let more = match words[..] {
                [.., left, "left"] => left.parse::<usize>().unwrap() / 18,
                _ => 0,
            };
            let end = if more > 0 { at + 6 + 18 * more } else { at };
            let expected = match frames + more {
                0 => "refused 12\n".to_string(),
                all => lines(bytes.len() - end, end, all),
            };
            assert_eq!(text_of(bytes), expected, "{name}");
        }
    }
    for (name, expected) in [
        ("a voice of 54 first, 36 bytes left", "refused 12\n"),
        ("a voice of 55 first, 36 bytes left", "refused 12\n"),
        ("a voice of 65536 first, over all", "refused 12\n"),
        ("voice 1 of three saying 130", "refused 12\n"),
        ("voice 1 of three saying 131", &lines(4, 146, 7)),
        ("voice 1 of three saying 144", &lines(4, 146, 7)),
        ("voice 1 of three saying 4294967292", &lines(4, 146, 7)),
        ("voice 2 of three saying 70", &lines(76, 74, 3)),
        ("voice 2 of three saying 71", &lines(16, 134, 6)),
        ("voice 2 of three saying 72", &lines(16, 134, 6)),
        ("voice 2 of three saying 4294967292", &lines(16, 134, 6)),
        ("voice 3 of three saying 28", &lines(34, 116, 5)),
        ("voice 3 of three saying 29", &lines(10, 140, 6)),
        ("voice 3 of three saying 36", &lines(10, 140, 6)),
        ("voice 3 of three saying 4294967292", &lines(10, 140, 6)),
        ("a voice over the end and eight bytes", &lines(0, 56, 2)),
    ] {
        seen += 1;
        assert_eq!(text_of(&edges[name]), expected, "{name}");
    }
    let small = edges.values().filter(|bytes| bytes.len() < 1_000);
    assert_eq!(small.count(), seen);
}

/// Of each edge near 65,536 bytes: how many bytes are dropped, where the end is written, how many
/// frames are kept.
const AT_THE_LIMIT: &str = "\
0 65522 3639: 65522 bytes, voices [3639], no end
0 65522 3638: 65522 bytes, voices [1, 1, 1, 3635], no end
0 65522 3638: 65522 bytes, voices [3635, 1, 1, 1], no end
5 65522 3639: 65527 bytes, voices [3639], 5 bytes more, refused 9
10 65522 3639: 65532 bytes, voices [3639], 10 bytes more, refused 8
14 65522 3639: 65536 bytes, voices [3639], 14 bytes more, refused 8
14 65522 3639: 65536 bytes, voices [3639], 14 bytes more, refused 10
0 65522 3639: 65522 bytes, voices [3639] saying 65520, no end
14 65522 3639: 65536 bytes, voices [3639] saying 65520, 14 bytes more, refused 10
14 65522 3639: 65536 bytes, voices [3639] saying 65517, 14 bytes more, refused 10
24 65504 3638: 65528 bytes, voices [3638, 1], no end
25 65504 3638: 65529 bytes, voices [3638, 1], 1 bytes more, refused 9
29 65504 3638: 65533 bytes, voices [3638, 1], 5 bytes more, refused 9
30 65504 3638: 65534 bytes, voices [3638, 1], 6 bytes more, refused 10
31 65504 3638: 65535 bytes, voices [3638, 1], 7 bytes more, refused 10
32 65504 3638: 65536 bytes, voices [3638, 1], 8 bytes more, refused 10
32 65504 3638: 65536 bytes, voices [3638, 1], 8 bytes more, refused 8
24 65504 3638: 65528 bytes, voices [3638, 1] saying 36, no end
32 65504 3638: 65536 bytes, voices [3638, 1] saying 36, 8 bytes more, refused 10
31 65504 3638: 65535 bytes, voices [3638, 1] saying 27, 7 bytes more, refused 10
18 65510 3638: 65528 bytes, voices [3637, 2], no end
26 65510 3638: 65536 bytes, voices [3637, 2], 8 bytes more, refused 10
18 65510 3638: 65528 bytes, voices [3637, 2] saying 54, no end
26 65510 3638: 65536 bytes, voices [3637, 2] saying 54, 8 bytes more, refused 10
18 65510 3638: 65528 bytes, voices [1, 3638], no end
26 65510 3638: 65536 bytes, voices [1, 3638], 8 bytes more, refused 10
26 65510 3638: 65536 bytes, voices [1, 3638], 8 bytes more, refused 11
18 65510 3638: 65528 bytes, voices [1, 3638] saying 65502, no end
26 65510 3638: 65536 bytes, voices [1, 3638] saying 65502, 8 bytes more, refused 10
26 65510 3638: 65536 bytes, voices [1, 3638] saying 65493, 8 bytes more, refused 10
24 65510 3638: 65534 bytes, voices [1, 3637, 1], no end
25 65510 3638: 65535 bytes, voices [1, 3637, 1], 1 bytes more, refused 9
26 65510 3638: 65536 bytes, voices [1, 3637, 1], 2 bytes more, refused 9
24 65510 3638: 65534 bytes, voices [1, 3637, 1] saying 36, no end
26 65510 3638: 65536 bytes, voices [1, 3637, 1] saying 36, 2 bytes more, refused 10
18 65516 3638: 65534 bytes, voices [1, 1, 3637], no end
20 65516 3638: 65536 bytes, voices [1, 1, 3637], 2 bytes more, refused 9
18 65516 3638: 65534 bytes, voices [1, 1, 3637] saying 65484, no end
19 65516 3638: 65535 bytes, voices [1, 1, 3637] saying 65484, 1 bytes more, refused 10
20 65516 3638: 65536 bytes, voices [1, 1, 3637] saying 65484, 2 bytes more, refused 10
0 65522 2730: 65522 bytes, 2728 voices, 1 to 3, no end
0 65522 2730: 65522 bytes, 2728 voices, 3 to 1, no end
14 65522 2730: 65536 bytes, 2728 voices, 1 to 3 saying 72, 14 bytes more, refused 10
14 65522 2730: 65536 bytes, 2728 voices, 3 to 1 saying 36, 14 bytes more, refused 10
18 65510 2729: 65528 bytes, 2729 voices, 1 to 2, no end
26 65510 2729: 65536 bytes, 2729 voices, 1 to 2, 8 bytes more, refused 10
18 65510 2729: 65528 bytes, 2729 voices, 1 to 2 saying 54, no end
26 65510 2729: 65536 bytes, 2729 voices, 1 to 2 saying 54, 8 bytes more, refused 10
24 65504 2729: 65528 bytes, 2729 voices, 2 to 1, no end
32 65504 2729: 65536 bytes, 2729 voices, 2 to 1, 8 bytes more, refused 10
24 65504 2729: 65528 bytes, 2729 voices, 2 to 1 saying 36, no end
32 65504 2729: 65536 bytes, 2729 voices, 2 to 1 saying 36, 8 bytes more, refused 10
24 65510 2729: 65534 bytes, 2730 voices, 1 to 1, no end
25 65510 2729: 65535 bytes, 2730 voices, 1 to 1, 1 bytes more, refused 9
26 65510 2729: 65536 bytes, 2730 voices, 1 to 1, 2 bytes more, refused 9
24 65510 2729: 65534 bytes, 2730 voices, 1 to 1 saying 36, no end
25 65510 2729: 65535 bytes, 2730 voices, 1 to 1 saying 36, 1 bytes more, refused 10
26 65510 2729: 65536 bytes, 2730 voices, 1 to 1 saying 36, 2 bytes more, refused 10
17 65510 2729: 65527 bytes, 2729 voices, 1 to 1 saying 36, 17 bytes more, refused 10
23 65510 2729: 65533 bytes, 2729 voices, 1 to 1, 23 bytes more, refused 10
14 65522 3639: 65536 bytes, voice 1 of many wild
0 65522 3639: 65522 bytes, voice 1 of many wild
17 65504 3638: 65521 bytes, voice 1 of many wild
26 65510 3638: 65536 bytes, voice 2 of many wild
18 65510 3638: 65528 bytes, voice 2 of many wild
17 65510 3638: 65527 bytes, voice 2 of many wild
20 65516 3638: 65536 bytes, voice 3 of many wild
18 65516 3638: 65534 bytes, voice 3 of many wild
17 65516 3638: 65533 bytes, voice 3 of many wild
";

#[test]
fn edges_at_the_limit() {
    let edges = edges_for_salvaging();
    let mut seen = 0;
    for row in AT_THE_LIMIT.lines() {
        let (numbers, name) = row.split_once(": ").unwrap();
        let numbers: Vec<usize> = numbers.split(' ').map(|n| n.parse().unwrap()).collect();
        let expected = lines(numbers[0], numbers[1], numbers[2]);
        assert_eq!(text_of(&edges[name]), expected, "{name}");
        seen += 1;
    }
    for (name, bytes) in &edges {
        if name.starts_with("65537 bytes") {
            seen += 1;
            assert_eq!(text_of(bytes), "refused 1\n", "{name}");
        }
    }
    let large = edges.values().filter(|bytes| bytes.len() >= 1_000);
    assert_eq!(large.count(), seen);
}

#[test]
fn earlier_edges() {
    let edges: BTreeMap<String, Vec<u8>> = cases::edges()
        .into_iter()
        .map(|edge| (edge.name, edge.bytes))
        .collect();
    for (name, expected) in [
        ("no end", &lines(0, 38, 1)[..]),
        ("no end, two voices", &lines(0, 62, 2)),
        ("end's number 0", &lines(10, 38, 1)),
        ("end's number 2 and a byte", &lines(11, 38, 1)),
        ("100 bytes of 255 after the end", &lines(110, 38, 1)),
        ("two recordings", &lines(58, 38, 1)),
        ("second voice of 35", &lines(51, 38, 1)),
        ("voice shortened", &lines(28, 38, 1)),
        ("voice past the end over a head", &lines(14, 38, 1)),
        ("head twice", "refused 12\n"),
        ("voice over the end", "refused 12\n"),
        ("the most frames", ""),
        ("65,536 bytes, four too many", &lines(14, 65_522, 3639)),
        ("65,536 bytes, voice past the end", &lines(14, 65_522, 3639)),
        ("end missing near the limit", &lines(18, 65_516, 3638)),
        ("65,536 bytes, header cut", &lines(20, 65_516, 3638)),
        ("the most voice blocks, no end", &lines(0, 65_510, 2729)),
        ("65,537 bytes", "refused 1\n"),
        ("65,537 bytes of 255", "refused 1\n"),
    ] {
        assert_eq!(text_of(&edges[name]), expected, "{name}");
    }
}

#[test]
fn every_edge_is_salvaged_as_a_second_way_says() {
    let edges = cases::edges().into_iter();
    let reached = hold_all(edges.map(|edge| (edge.name, edge.bytes)));
    assert_eq!(reached.len(), 7, "{reached:?}");
    assert!(reached.values().all(|&n| n >= 7), "{reached:?}");
}

#[test]
fn every_cut_is_salvaged() {
    let cuts = cuts();
    let named = cuts.iter().enumerate();
    let reached = hold_all(named.map(|(n, bytes)| (format!("cut {n}"), bytes.clone())));
    // Of the small recording with its end, that alone is sound; its voice blocks are 20 to 55,
    // 62 to 79 and 86 to 139.
    for (length, bytes) in cuts[..151].iter().enumerate() {
        let (end, frames) = match length {
            0..38 => (0, 0),
            38..56 => (38, 1),
            56..80 => (56, 2),
            80..104 => (80, 3),
            104..122 => (104, 4),
            122..140 => (122, 5),
            140..150 => (140, 6),
            _ => (150, 6),
        };
        let expected = match (end, frames) {
            (_, 0) => "refused 12\n".to_string(),
            (150, _) => String::new(),
            _ => lines(length - end, end, frames),
        };
        assert_eq!(text_of(bytes), expected, "cut to {length}");
    }
    // With the second voice block wild, what stands after its header is all taken as frames.
    for (length, bytes) in cuts[151..302].iter().enumerate().skip(80) {
        let more = (length - 62) / 18;
        let end = 62 + 18 * more;
        let expected = lines(length - end, end, 2 + more);
        assert_eq!(text_of(bytes), expected, "wild, cut to {length}");
    }
    // With bytes after its end, all of them go and the end with them.
    for (n, bytes) in cuts[367..].iter().enumerate() {
        assert_eq!(text_of(bytes), lines(11 + n, 140, 6), "{} more", n + 1);
    }
    assert_eq!(reached[&Outcome::Sound], 1);
    assert!(reached[&Outcome::NothingDropped] >= 12, "{reached:?}");
}

#[test]
fn uploads_are_salvaged_as_a_second_way_says() {
    let all = (0..2_000).map(|n| (format!("upload {n}"), upload(6, n)));
    let reached = hold_all(all);
    assert_eq!(reached.len(), 7, "{reached:?}");
    assert!(reached.values().all(|&n| n >= 5), "{reached:?}");
    assert!(reached[&Outcome::FrameGone] > 30, "{reached:?}");
    assert!(reached[&Outcome::BlockGone] > 15, "{reached:?}");
}

#[test]
fn generated_recordings_are_salvaged_as_a_second_way_says() {
    let all = (0..6_000).map(|n| (format!("recording {n}"), cases::recording(99, n)));
    let reached = hold_all(all);
    assert_eq!(reached[&Outcome::Sound], 3_000);
    assert!(reached[&Outcome::Mended] > 500, "{reached:?}");
    assert!(reached[&Outcome::NothingToKeep] > 500, "{reached:?}");
    assert!(reached[&Outcome::NothingDropped] > 20, "{reached:?}");
}

#[test]
fn made_up_blocks_are_salvaged_as_a_second_way_says() {
    // A block of each kind and of many lengths at each place, with any number of bytes there.
    let sound = cases::sound(7, 1, &[&[[1; 18], [3; 18]], &[[2; 18]]]);
    for at in [0, 14, 56, 80, 90] {
        for kind in [0, 1, 2, 3, 4, 256, 512, 65_535u16] {
            for length in (0..40).chain([54, 65_536, 1 << 31, u32::MAX - 3, u32::MAX]) {
                for number in [0, 2, 3u32] {
                    let mut bytes = sound[..at].to_vec();
                    bytes.extend(length.to_le_bytes());
                    bytes.extend(kind.to_le_bytes());
                    bytes.extend(number.to_le_bytes());
                    bytes.resize(at + 48, 9);
                    for end in at..=bytes.len() {
                        hold("made up", &bytes[..end]);
                    }
                }
            }
        }
    }
}

#[test]
fn one_changed_byte_is_salvaged_as_a_second_way_says() {
    let sound = cuts()[150].clone();
    for at in 0..sound.len() {
        for byte in 0..=255 {
            let mut bytes = sound.clone();
            bytes[at] = byte;
            hold("one byte changed", &bytes);
        }
    }
}

#[test]
fn any_bytes_are_salvaged_as_a_second_way_says() {
    let mut g = Generator::new(33);
    for _ in 0..40_000 {
        let length = g.below(90);
        let mut bytes = g.bytes(length);
        // Small numbers, so that some get past the first header.
        for byte in bytes.iter_mut() {
            *byte = [0, 0, 0, 1, 2, 3, 8, 18, *byte][g.below(9)];
        }
        if g.below(2) == 0 {
            bytes.splice(0..0, [8, 0, 0, 0, 1, 0, 7, 0, 0, 0, 1, 0, 0, 0]);
        }
        hold("any bytes", &bytes);
    }
}

/// A case of salvaging into a lent buffer.
fn lent_case(n: u16, recording: &[u8]) -> Vec<u8> {
    [&n.to_le_bytes(), recording].concat()
}

/// Lines, and after them a buffer that begins with some bytes and is 170 from there on.
fn lines_and_buffer(text: &str, bytes: &[u8], length: usize) -> Vec<u8> {
    let mut all = [text.as_bytes(), bytes].concat();
    all.resize(text.len() + length, 170);
    all
}

/// Lengths of a buffer that are not right, as a case has them.
const OTHER_LENGTHS: [u16; 7] = [1, 2, 10, 48, 65_520, 65_532, 65_535];

#[test]
fn the_sample_cut_in_its_second_frame_into_a_lent_buffer() {
    let cut = &cases::sample()[..44];
    let mended = hex(&[HEAD, ONE_FRAME, ZERO, END_OF_1].concat());
    let said = lent::answer(&lent_case(0, cut));
    let text = "dropped 6 bytes from 38\nkept 1 frames\nend written at 38\n";
    assert_eq!(said.len(), text.len() + LONGEST);
    assert!(said.starts_with(text.as_bytes()));
    let buffer = &said[text.len()..];
    assert_eq!(buffer[..48], mended);
    assert!(buffer[48..].iter().all(|&byte| byte == 170));
    // It would go into so many bytes, but no other length is right.
    for n in [48, 49, 65_535] {
        let refused = lines_and_buffer("refused 1\n", &[], usize::from(n));
        assert_eq!(lent::answer(&lent_case(n, cut)), refused, "{n}");
    }
}

#[test]
fn the_stored_case_is_cut_in_its_fifth_frame() {
    let case = lent::case();
    assert_eq!(case, lent::case());
    assert_eq!((case.len(), &case[..2]), (109, &[0, 0][..]));
    let recording = &case[2..];
    assert_eq!(recording[14..20], [54, 0, 0, 0, 2, 0]);
    assert_eq!(recording[74..80], [54, 0, 0, 0, 2, 0]);
    let mut mended = recording[..98].to_vec();
    mended[74] = 18;
    mended.extend([4, 0, 0, 0, 3, 0, 4, 0, 0, 0]);
    let expected = lines_and_buffer(&lines(9, 98, 4), &mended, LONGEST);
    assert_eq!(lent::answer(&case), expected);
    // No byte that is written is as the buffer was before, so that it shows how far it goes.
    assert!(!mended.contains(&170));
}

#[test]
fn a_lent_buffer_holds_what_is_salvaged_and_else_what_it_held() {
    let mut all: Vec<(String, Vec<u8>)> = cases::edges()
        .into_iter()
        .map(|edge| (edge.name, edge.bytes))
        .collect();
    let cuts = cuts().into_iter().enumerate();
    all.extend(cuts.map(|(n, bytes)| (format!("cut {n}"), bytes)));
    all.extend((0..300).map(|n| (format!("upload {n}"), upload(7, n))));
    let before = Generator::new(41).bytes(LONGEST);
    let mut reached = BTreeMap::new();
    for (name, input) in &all {
        let salvaged = second_way(input, LONGEST);
        let bytes = written(input, &salvaged);
        let expected = lines_and_buffer(&changes(&salvaged), bytes, LONGEST);
        assert!(lent::answer(&lent_case(0, input)) == expected, "{name}");
        // Whatever the buffer held.
        let mut buffer = before.clone();
        assert_eq!(into_lent(input, &mut buffer), salvaged, "{name}");
        assert!(buffer[..bytes.len()] == *bytes, "{name}");
        assert!(buffer[bytes.len()..] == before[bytes.len()..], "{name}");
        let word = match salvaged {
            Salvaged::Sound => "sound",
            Salvaged::Mended { .. } => "mended",
            Salvaged::Refused(1) => "refused 1",
            Salvaged::Refused(_) => "refused 12",
        };
        *reached.entry(word).or_insert(0) += 1;
    }
    assert_eq!(reached.len(), 4, "{reached:?}");
    assert!(reached.values().all(|&n| n >= 10), "{reached:?}");
}

#[test]
fn a_lent_buffer_of_another_length_is_refused_whatever_the_recording() {
    for edge in cases::edges() {
        for n in OTHER_LENGTHS {
            let expected = lines_and_buffer("refused 1\n", &[], usize::from(n));
            let said = lent::answer(&lent_case(n, &edge.bytes));
            assert!(said == expected, "{n}: {}", edge.name);
        }
    }
    // Lengths that no case has.
    let before = Generator::new(42).bytes(2 * LONGEST);
    for recording in [cases::sample(), cases::sample()[..44].to_vec(), Vec::new()] {
        for length in [0, LONGEST + 1, 2 * LONGEST] {
            let mut buffer = before[..length].to_vec();
            let salvaged = into_lent(&recording, &mut buffer);
            assert_eq!(salvaged, Salvaged::Refused(1), "{length}");
            assert!(buffer == before[..length], "{length}");
        }
    }
}

#[test]
fn short_cases_of_a_lent_buffer() {
    let sample = cases::sample();
    for (case, text, bytes, length) in [
        // What is not there of the number is 0, and the recording is empty.
        (vec![], "refused 12\n", &[][..], LONGEST),
        (vec![0], "refused 12\n", &[], LONGEST),
        (vec![0, 0], "refused 12\n", &[], LONGEST),
        (vec![5], "refused 1\n", &[], 5),
        (vec![255], "refused 1\n", &[], 255),
        // The lowest byte is first.
        (vec![5, 0], "refused 1\n", &[], 5),
        (vec![0, 5], "refused 1\n", &[], 1_280),
        (vec![255, 255], "refused 1\n", &[], 65_535),
        (lent_case(0, &[170]), "refused 12\n", &[], LONGEST),
        (lent_case(0, &sample), "", &sample, LONGEST),
        (lent_case(66, &sample), "refused 1\n", &[], 66),
    ] {
        let expected = lines_and_buffer(text, bytes, length);
        assert!(lent::answer(&case) == expected, "{case:?}");
    }
}

#[test]
fn the_longest_cases_of_a_lent_buffer() {
    // What is read of a case has room for one byte past the longest recording.
    let edges = cases::edges().into_iter();
    let long = edges
        .map(|edge| edge.bytes)
        .find(|bytes| bytes.len() > LONGEST);
    let long = long.expect("there is one that is too long");
    assert_eq!(lent_case(0, &long[..=LONGEST]).len(), lent::LONGEST_CASE);
    for n in [0, 48, 65_535] {
        let length = if n == 0 { LONGEST } else { usize::from(n) };
        let expected = lines_and_buffer("refused 1\n", &[], length);
        assert!(lent::answer(&lent_case(n, &long)) == expected, "{n}");
    }
}
