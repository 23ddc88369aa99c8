//! Sync breaks: how many each named edge has, what is left where frames are lost, and wrong rules
//! that the generated recordings tell from the right one.

use outside::cases::{self, Frame, Generator};
use outside::frame;
use outside::recording::{self, answer};
use outside::tables::LSP;
use outside::{hear, listing};
use std::ops::Range;

/// The breaks of a sound recording: the answer's, the listing's and the hearing's.
fn breaks(bytes: &[u8]) -> u32 {
    let answer = answer(bytes).unwrap();
    let last = format!("repaired {} breaks {}", answer.repaired, answer.breaks);
    for text in [listing::list(bytes), hear::hear(bytes)] {
        let text = String::from_utf8(text).unwrap();
        assert_eq!(text.lines().last(), Some(&last[..]));
    }
    answer.breaks
}

#[test]
fn the_edges_have_so_many_breaks() {
    let edges = cases::edges();
    let counted: [_; 46] = [
        ("no frame lost", 0),
        ("no frame lost, one voice", 0),
        ("the first frame lost", 1),
        ("a middle frame lost", 1),
        ("the last frame lost", 0),
        ("two in a row lost", 0),
        ("the first two lost", 0),
        ("two in a row lost over an edge", 0),
        ("two lost apart", 2),
        ("three in a row lost", 1),
        ("three in a row lost over an edge", 1),
        ("the first three lost", 1),
        ("a frame repeated", 1),
        ("a frame twice repeated", 2),
        ("a frame repeated over an edge", 1),
        ("the first frame repeated", 1),
        ("one lost before an edge", 1),
        ("one lost after an edge", 1),
        ("each frame in its own voice", 0),
        ("each frame in its own voice, one lost", 1),
        ("one frame with SY 1", 1),
        ("one frame with SY 0", 0),
        ("SY of the first hit", 2),
        ("SY of a middle one hit", 2),
        ("SY before an edge hit", 2),
        ("SY after an edge hit", 2),
        ("SY of the last hit", 1),
        ("a refused frame in turn", 0),
        ("a refused frame in turn at an edge", 0),
        ("a refused frame that is a break", 1),
        ("a refused frame in a row of breaks", 2),
        ("a frame lost after a refused one", 1),
        ("a frame lost before a refused one", 1),
        ("a refused frame, an edge, one lost", 1),
        ("a refused frame repeated", 1),
        ("two refused in turn", 0),
        ("two refused, a frame lost between", 1),
        ("every frame refused", 0),
        ("every frame refused, two lost", 2),
        ("first frame refused, SY 0", 0),
        ("first frame refused, SY 1", 1),
        ("first frame refused, then lost", 1),
        ("first two refused, SY 1 and 1", 2),
        ("last frame refused", 0),
        ("last frame refused, a break", 1),
        ("one frame refused, SY 1", 1),
    ];
    for (edge, (name, count)) in edges[498..544].iter().zip(counted) {
        assert_eq!(edge.name, name);
        assert_eq!(breaks(&edge.bytes), count, "{name}");
        assert!(edge.bytes.len() < 200, "{name}");
    }
}

/// Frames with SY 0, 1, 0 and so on; those whose bit is set are refused with 6.
fn in_turn(g: &mut Generator, count: usize, refused: u64) -> Vec<Frame> {
    let mut frame = |k: usize| {
        let mut record = g.record();
        record.fields[26] = (refused >> k & 1) as u16;
        record.fields[27] = (k % 2) as u16;
        frame::lay(&record)
    };
    (0..count).map(&mut frame).collect()
}

/// The recording of these frames but for some; a voice block ends after each one whose bit is set.
fn without(frames: &[Frame], lost: Range<usize>, ends: u64) -> Vec<u8> {
    let mut blocks = vec![Vec::new()];
    for (k, &frame) in frames.iter().enumerate() {
        if !lost.contains(&k) {
            blocks.last_mut().unwrap().push(frame);
        }
        if ends >> k & 1 == 1 {
            blocks.push(Vec::new());
        }
    }
    blocks.retain(|block| !block.is_empty());
    let blocks: Vec<&[Frame]> = blocks.iter().map(Vec::as_slice).collect();
    cases::sound(1, 2, &blocks)
}

#[test]
fn one_lost_frame_is_one_break() {
    let mut g = Generator::new(51);
    for count in 2..=12 {
        let mut masks = vec![0, u64::MAX, 0x5555, 0xAAAA];
        masks.extend((0..count).map(|k| 1 << k));
        masks.extend([(); 4].map(|()| g.next()));
        for refused in masks {
            let frames = in_turn(&mut g, count, refused);
            for ends in [0, u64::MAX, 0x2492, g.next(), g.next()] {
                let breaks = |lost: Range<usize>| breaks(&without(&frames, lost, ends));
                assert_eq!(breaks(0..0), 0);
                assert_eq!(breaks(0..1), 1, "the first of {count}");
                assert_eq!(breaks(count - 1..count), 0, "the last of {count}");
                for k in 1..count - 1 {
                    assert_eq!(breaks(k..k + 1), 1, "{k} of {count}");
                }
                if count > 2 {
                    for k in 0..count - 1 {
                        assert_eq!(breaks(k..k + 2), 0, "{k} and the next of {count}");
                    }
                }
            }
        }
    }
}

/// A rule for breaks, right or wrong.
#[derive(Clone, Copy, Debug, PartialEq)]
enum Rule {
    Right,
    /// By the frame's number: SY is not 0 at an odd one or not 1 at an even one.
    ByNumber,
    /// A first frame is none.
    FirstIsNone,
    /// A frame refused with 6 leaves the last SY.
    RefusedLeaves,
    /// At a voice block there is no last SY.
    LostAtBlocks,
}

/// A frame as the rules look at it.
#[derive(Clone, Copy, Debug)]
struct Seen {
    sy: u16,
    refused: bool,
    first_of_block: bool,
    repaired: bool,
    falls: bool,
}

fn seen(bytes: &[u8]) -> Vec<Seen> {
    let mut all = Vec::new();
    for (_, payload) in recording::read(bytes).unwrap().voice_blocks() {
        for (at, frame) in payload.chunks_exact(18).enumerate() {
            let reading = frame::read(frame).unwrap();
            all.push(Seen {
                sy: reading.record.fields[27],
                refused: reading.record.fields[26] == 1,
                first_of_block: at == 0,
                repaired: reading.correction.is_repair(),
                falls: reading.mark != 0,
            });
        }
    }
    all
}

/// Which frames are breaks by a rule.
fn breaks_by(rule: Rule, frames: &[Seen]) -> Vec<bool> {
    let mut last = None;
    let mut step = |(k, frame): (usize, &Seen)| {
        if rule == Rule::LostAtBlocks && frame.first_of_block {
            last = None;
        }
        let found = match (rule, last) {
            (Rule::ByNumber, _) => usize::from(frame.sy) != k % 2,
            (Rule::FirstIsNone, None) => false,
            (_, None) => frame.sy == 1,
            (_, Some(last)) => frame.sy == last,
        };
        if rule != Rule::RefusedLeaves || !frame.refused {
            last = Some(frame.sy);
        }
        found
    };
    frames.iter().enumerate().map(&mut step).collect()
}

fn count(breaks: &[bool]) -> usize {
    breaks.iter().filter(|&&found| found).count()
}

/// The averages of a frame line of the hearing after these LSPs, from its indices alone.
fn averages(previous: Option<&[u32]>, present: &[u32]) -> Vec<u32> {
    let previous = previous.unwrap_or(present);
    let two = previous.iter().zip(present);
    let weights = [(7, 1), (5, 3), (3, 5), (1, 7)];
    let subframe = |(a, b)| two.clone().map(move |(before, now)| a * before + b * now);
    weights.into_iter().flat_map(subframe).collect()
}

/// In how many frames the averages heard are not those after the LSPs of the frame just before, be
/// it refused or not; they are always those after the last one that is not refused.
fn lsps_not_of_the_frame_before(bytes: &[u8]) -> usize {
    let text = String::from_utf8(hear::hear(bytes)).unwrap();
    let (mut last_heard, mut last) = (None, None);
    let mut differ = 0;
    for line in text.lines().filter(|line| line.starts_with("frame ")) {
        let words: Vec<&str> = line.split(' ').collect();
        let hz = |j: usize| u32::from(LSP[j][words[2 + j].parse::<usize>().unwrap()]);
        let present: Vec<u32> = (0..10).map(hz).collect();
        let after = |word: &str, count: usize| -> Vec<u32> {
            let at = words.iter().position(|&other| other == word).unwrap() + 1;
            let numbers = words[at..at + count].iter();
            numbers.map(|n| n.parse().unwrap()).collect()
        };
        if !words.contains(&"refused") {
            let heard = after("averages", 40);
            let state = after("state", 10);
            assert_eq!(heard, averages(last_heard.as_deref(), &present), "{line}");
            assert_eq!(state, present, "{line}");
            differ += usize::from(heard != averages(last.as_deref(), &present));
            last_heard = Some(present.clone());
        }
        last = Some(present);
    }
    differ
}

#[test]
fn generated_recordings_tell_wrong_rules_apart() {
    let wrong = [
        Rule::ByNumber,
        Rule::FirstIsNone,
        Rule::RefusedLeaves,
        Rule::LostAtBlocks,
    ];
    let mut told = [0; 4];
    let (mut lsps, mut unbroken, mut not_repaired) = (0, 0, 0);
    let first = cases::edges().len() as u64;
    for n in (first..first + 300).filter(|n| n % 2 == 1) {
        let bytes = cases::recording(1, n);
        let frames = seen(&bytes);
        let right = count(&breaks_by(Rule::Right, &frames));
        assert_eq!(breaks(&bytes) as usize, right, "recording {n}");
        for (told, rule) in told.iter_mut().zip(wrong) {
            *told += usize::from(count(&breaks_by(rule, &frames)) != right);
        }
        unbroken += usize::from(right == 0);
        let repaired = frames.iter().filter(|frame| frame.repaired).count();
        not_repaired += usize::from(right != repaired);
        lsps += usize::from(lsps_not_of_the_frame_before(&bytes) > 0);
    }
    assert!(told.iter().all(|&n| n >= 20), "{wrong:?} {told:?}");
    assert!(lsps >= 20 && unbroken >= 20, "{lsps} {unbroken}");
    assert!(not_repaired >= 100, "{not_repaired}");
}

/// All that the recording that the hearing program is stored with has, each with whether it is there.
fn wanted(frames: &[Seen]) -> Vec<(&'static str, bool)> {
    let right = breaks_by(Rule::Right, frames);
    let later = |k: usize| k > 0 && frames[k].first_of_block;
    let any = |holds: &dyn Fn(usize) -> bool| (0..frames.len()).any(holds);
    // The frame before this one is refused, and the one before that has another SY and is not.
    let over_refused = |k: usize| {
        k > 1 && frames[k - 1].refused && !frames[k - 2].refused && {
            frames[k - 2].sy != frames[k - 1].sy
        }
    };
    let repaired = frames.iter().filter(|frame| frame.repaired).count();
    let mut all = vec![
        ("40 to 60 frames", (40..=60).contains(&frames.len())),
        (
            "several voice blocks",
            (0..frames.len()).filter(|&k| later(k)).count() >= 3,
        ),
        ("frames repaired", repaired >= 3),
        (
            "frames refused",
            frames.iter().filter(|frame| frame.refused).count() >= 3,
        ),
        (
            "LSPs that fall",
            any(&|k| frames[k].falls && !frames[k].refused),
        ),
        ("a first frame with SY 1", frames[0].sy == 1),
        (
            "a break for a refused frame's SY",
            any(&|k| over_refused(k) && right[k]),
        ),
        (
            "none for a refused frame's SY",
            any(&|k| over_refused(k) && !right[k]),
        ),
        (
            "a break at a voice block",
            any(&|k| later(k) && right[k] && frames[k].sy == 0),
        ),
        (
            "none at a voice block",
            any(&|k| later(k) && !right[k] && frames[k].sy == 1),
        ),
        (
            "breaks that are refused",
            any(&|k| frames[k].refused && right[k]),
        ),
        ("other than repaired", repaired != count(&right)),
    ];
    for (name, rule) in [
        ("other than by number", Rule::ByNumber),
        ("other than without the first", Rule::FirstIsNone),
        ("other than if refused ones leave it", Rule::RefusedLeaves),
        ("other than if lost at voice blocks", Rule::LostAtBlocks),
    ] {
        all.push((name, count(&breaks_by(rule, frames)) != count(&right)));
    }
    all
}

/// The recording that the hearing program is stored with: its voice blocks, frame by frame the SY,
/// or `o` for 0 and `i` for 1 where it is refused.
const STORED: (u64, u64, &str) = (
    1,
    33995,
    "101 01 0 i111 1o i11o0 0i0 i1 io10i 00010io 1 110o0 00 i01 101 0io1 01 o10",
);

#[test]
fn the_stored_recording_has_all_that_is_wanted() {
    let (seed, n, voice) = STORED;
    let bytes = cases::recording(seed, n);
    let frames = seen(&bytes);
    let mut text = String::new();
    for frame in &frames {
        if frame.first_of_block && !text.is_empty() {
            text.push(' ');
        }
        text.push(match (frame.sy, frame.refused) {
            (0, false) => '0',
            (0, true) => 'o',
            (_, false) => '1',
            (_, true) => 'i',
        });
    }
    assert_eq!(text, voice);
    assert_eq!(breaks(&bytes), 20);
    for (name, holds) in wanted(&frames) {
        assert!(holds, "{name}");
    }
    for (rule, wrong) in [
        (Rule::ByNumber, 36),
        (Rule::FirstIsNone, 19),
        (Rule::RefusedLeaves, 25),
        (Rule::LostAtBlocks, 23),
    ] {
        assert_eq!(count(&breaks_by(rule, &frames)), wrong, "{rule:?}");
    }
    assert!(lsps_not_of_the_frame_before(&bytes) >= 5);
}
