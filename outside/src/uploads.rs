//! What uploads leave: a small recording cut at every length, and recordings of all sizes, cut
//! and changed at random.

use crate::cases::{self, spoken, Frame, Generator};
use crate::frame::FRAME_LENGTH;
use crate::recording::{u32_at, HEADER_LENGTH, LONGEST};

/// The bytes of a head, and of an end.
const HEAD_BLOCK: usize = 14;
const END_BLOCK: usize = 10;

/// A head, voice blocks of two frames, of one and of three, and an end: 150 bytes.
fn small() -> Vec<u8> {
    let frames = spoken(18, 6);
    cases::sound(12, 345, &[&frames[..2], &frames[2..3], &frames[3..]])
}

/// Where its second and third voice block begin.
const SECOND: usize = 56;
const THIRD: usize = 80;

/// A recording with the length of the block at a place changed.
fn saying(mut recording: Vec<u8>, at: usize, length: u32) -> Vec<u8> {
    recording[at..at + 4].copy_from_slice(&length.to_le_bytes());
    recording
}

/// The cuts, in four series: the small recording at every length from 0 on; the same with its
/// second voice block saying 36,000; with its third one saying 71, from the end of that header
/// on; and with a recording of one frame after it, from the first byte of that one on.
pub fn cuts() -> Vec<Vec<u8>> {
    let sound = small();
    let followed = [&sound[..], &cases::sound(13, 346, &[&spoken(19, 1)])].concat();
    let mut all = Vec::new();
    for (shortest, bytes) in [
        (0, sound.clone()),
        (0, saying(sound.clone(), SECOND, 36_000)),
        (THIRD + HEADER_LENGTH, saying(sound.clone(), THIRD, 71)),
        (sound.len() + 1, followed),
    ] {
        all.extend((shortest..=bytes.len()).map(|length| bytes[..length].to_vec()));
    }
    all
}

/// The length of a recording of these voice blocks.
fn length(voices: &[Vec<Frame>]) -> usize {
    let of_voice = |frames: &Vec<Frame>| HEADER_LENGTH + FRAME_LENGTH * frames.len();
    HEAD_BLOCK + voices.iter().map(of_voice).sum::<usize>() + END_BLOCK
}

/// Voice blocks of a recording that is at least so long.
fn voices(g: &mut Generator, least: usize) -> Vec<Vec<Frame>> {
    let most_in_block = g.one_of(&[1, 2, 3, 20, 300, 4_000]);
    let mut voices = Vec::new();
    let (mut frames, mut bytes) = (0, HEAD_BLOCK + END_BLOCK);
    while frames == 0 || bytes < least {
        let count = 1 + g.below(most_in_block);
        let block = (frames..frames + count).map(|k| g.frame((k % 2) as u16));
        voices.push(block.collect());
        frames += count;
        bytes += HEADER_LENGTH + FRAME_LENGTH * count;
    }
    voices
}

/// The n-th upload of a seed: of a recording of any size up to the largest that fits, whole or
/// with one damage; or of one that is larger, cut at 65,536 bytes or a few before.
pub fn upload(seed: u64, n: u64) -> Vec<u8> {
    let mut g = Generator::new(seed);
    // The recordings of the seed begin with its first number.
    g.next();
    let mut g = Generator::new(g.next() ^ n);
    let unit = g.next() as u32 >> g.below(32);
    let number = g.next() as u32 >> g.below(32);
    let least = match g.below(16) {
        0..=9 => g.below(300),
        10..=11 => g.below(4_000),
        12 => g.below(LONGEST),
        _ => LONGEST + 1,
    };
    let mut voices = voices(&mut g, least);
    let too_large = length(&voices) > LONGEST && g.below(4) != 0;
    while length(&voices) > LONGEST && !too_large {
        let last = voices.last_mut().expect("a head and an end alone fit");
        last.pop();
        voices.retain(|frames| !frames.is_empty());
    }
    let blocks: Vec<&[Frame]> = voices.iter().map(Vec::as_slice).collect();
    let mut bytes = cases::sound(unit, number, &blocks);
    if too_large {
        let before = g.below(20);
        bytes.truncate(LONGEST - g.one_of(&[0, before]));
    }

    // Where the voice blocks begin whose header is there.
    let mut starts = vec![HEAD_BLOCK];
    for frames in &voices {
        starts.push(starts[starts.len() - 1] + HEADER_LENGTH + FRAME_LENGTH * frames.len());
    }
    let end = starts
        .pop()
        .expect("a start for each voice block and one more");
    starts.retain(|start| start + HEADER_LENGTH <= bytes.len());
    let start = g.one_of(&starts);
    let cut = g.below(bytes.len() + 1);
    match g.below(if too_large { 24 } else { 8 }) {
        // A cut anywhere, before the end, in a header or a first frame.
        0 | 1 => bytes.truncate(cut),
        2 => bytes.truncate(end),
        3 => bytes.truncate(start + g.below(30)),
        // A length that is wild, and a cut as well.
        damage @ (4 | 5) => {
            let said = u32_at(&bytes, start);
            let any = g.next() as u32;
            let lengths = [
                said + 1,
                said + 18,
                said - 18,
                said.swap_bytes(),
                65_536,
                72_000,
                4_294_967_292,
                u32::MAX,
                any,
            ];
            bytes = saying(bytes, start, g.one_of(&lengths));
            if damage == 5 {
                bytes.truncate(cut);
            }
        }
        // Bytes after the end, or a wrong number in it.
        6 if g.below(2) == 0 => {
            let extra = 1 + g.below(30);
            bytes.extend(g.bytes(extra));
        }
        6 => {
            let last = bytes.len() - 1 - g.below(4);
            bytes[last] ^= 1 << g.below(8);
        }
        _ => {}
    }
    bytes
}

#[cfg(test)]
mod tests {
    use super::*;
    use crate::recording;
    use std::collections::BTreeSet;

    #[test]
    fn the_small_recording_is_as_said() {
        let bytes = small();
        let sound = recording::read(&bytes).unwrap();
        let blocks: Vec<(usize, usize)> = sound
            .voice_blocks()
            .map(|(at, payload)| (at, payload.len()))
            .collect();
        assert_eq!(blocks, [(20, 36), (SECOND + 6, 18), (THIRD + 6, 54)]);
        let frames: BTreeSet<Frame> = spoken(18, 6).into_iter().collect();
        assert_eq!((bytes.len(), frames.len()), (150, 6));
    }

    #[test]
    fn there_are_four_series_of_cuts() {
        let cuts = cuts();
        assert_eq!(cuts.len(), 151 + 151 + 65 + 48);
        let lengths: Vec<usize> = cuts.iter().map(Vec::len).collect();
        let expected = (0..=150).chain(0..=150).chain(86..=150).chain(151..=198);
        assert_eq!(lengths, expected.collect::<Vec<usize>>());
        assert!(recording::read(&cuts[150]).is_ok());
    }

    #[test]
    fn uploads_are_of_all_sizes_and_damaged_in_all_ways() {
        let mut refused = [0; 12];
        let mut sound = 0;
        let (mut longest, mut longest_sound) = (0, 0);
        for n in 0..600 {
            let bytes = upload(5, n);
            assert_eq!(bytes, upload(5, n));
            longest = longest.max(bytes.len());
            match recording::read(&bytes) {
                Ok(_) => {
                    sound += 1;
                    longest_sound = longest_sound.max(bytes.len());
                }
                Err(refusal) => refused[usize::from(refusal.number)] += 1,
            }
        }
        assert!(sound > 40, "{sound} sound");
        assert!(refused[8..].iter().all(|&n| n > 10), "{refused:?}");
        assert!(
            (65_500..=65_536).contains(&longest_sound),
            "{longest_sound}"
        );
        assert!((65_536..=65_566).contains(&longest), "{longest}");
    }
}
