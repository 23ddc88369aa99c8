//! Recordings in the house format: one head, one or more voice blocks, one end, nothing after.
//! Reading one gives its unit, number and counts, its voice blocks and all its frames with
//! their values under the running state; or the first refusal, and checking one the cause of it.

use crate::frame::{self, Reading, FRAME_LENGTH};
use crate::lsp::State;
use crate::refusal::Refusal;
use crate::values::{self, Values};

/// The most bytes a recording may have.
pub const LONGEST: usize = 65_536;

/// The bytes of a block before its payload.
pub const HEADER_LENGTH: usize = 6;

pub const HEAD: u16 = 1;
pub const VOICE: u16 = 2;
pub const END: u16 = 3;

/// A sound recording. It borrows the caller's buffer.
#[derive(Clone, Copy, Debug, PartialEq, Eq)]
pub struct Recording<'a> {
    pub unit: u32,
    pub number: u32,
    pub frames: u32,
    /// The voice blocks with their headers.
    voices: &'a [u8],
    /// Where they begin in the recording.
    voices_at: usize,
}

/// The answer to a sound recording.
#[derive(Clone, Copy, Debug, PartialEq, Eq)]
pub struct Answer {
    pub unit: u32,
    pub number: u32,
    pub frames: u32,
    /// Frames of which a data bit was inverted.
    pub repaired: u32,
    /// Frames with the SY of the frame before, and a first one with SY 1.
    pub breaks: u32,
}

/// A frame of a recording.
#[derive(Clone, Copy, Debug, PartialEq, Eq)]
pub struct Heard {
    pub reading: Reading,
    /// The values, or refusal 6.
    pub values: Result<Values, Refusal>,
    /// The state after.
    pub state: State,
}

/// The number in four bytes, the lowest first.
pub fn u32_at(bytes: &[u8], at: usize) -> u32 {
    u32::from_le_bytes([bytes[at], bytes[at + 1], bytes[at + 2], bytes[at + 3]])
}

/// What is wrong with a recording.
#[derive(Clone, Copy, Debug, PartialEq, Eq, PartialOrd, Ord)]
pub enum Cause {
    /// It has more bytes than a recording may have.
    TooLong,
    /// One to five bytes are left where a block's header must stand.
    HeaderCut,
    /// A block's length runs past the end of the recording.
    PastTheEnd,
    /// A head, a voice or an end has a payload of this size, which is wrong for its kind.
    WrongSize(u32),
    /// A block is neither a head nor a voice nor an end.
    UnknownKind,
    /// A block comes where it may not: a first one that is no head, a second head, an end before
    /// any voice.
    OutOfTurn,
    /// There is no further block, and none was an end.
    EndMissing,
    /// The end has another number than that of the frames.
    WrongNumber,
    /// There are bytes after the end.
    AfterTheEnd,
}

impl Cause {
    /// Its number, 1 to 9.
    pub fn number(self) -> u8 {
        match self {
            Cause::TooLong => 1,
            Cause::HeaderCut => 2,
            Cause::PastTheEnd => 3,
            Cause::WrongSize(_) => 4,
            Cause::UnknownKind => 5,
            Cause::OutOfTurn => 6,
            Cause::EndMissing => 7,
            Cause::WrongNumber => 8,
            Cause::AfterTheEnd => 9,
        }
    }

    /// What is wrong, for people.
    pub fn words(self) -> &'static str {
        match self {
            Cause::TooLong => "the recording has more than 65,536 bytes",
            Cause::HeaderCut => "the block's header is cut: one to five bytes are left of its six",
            Cause::PastTheEnd => "the block's length runs past the end of the recording",
            Cause::WrongSize(_) => "the block has a size that its kind cannot have",
            Cause::UnknownKind => "the block is of an unknown kind",
            Cause::OutOfTurn => {
                "the block is out of turn: no head first, a second head, an end before any voice"
            }
            Cause::EndMissing => "the end block is missing",
            Cause::WrongNumber => "the end block tells a wrong number of frames",
            Cause::AfterTheEnd => "there are bytes after the end block",
        }
    }
}

/// The first thing wrong with a recording, and where: the first byte of the block or of the bytes
/// after the end, the recording's length if the end is missing, 0 if it is too long.
#[derive(Clone, Copy, Debug, PartialEq, Eq)]
pub struct Fault {
    pub at: u32,
    pub cause: Cause,
}

impl From<Fault> for Refusal {
    fn from(Fault { at, cause }: Fault) -> Self {
        match cause {
            Cause::TooLong => Refusal::LENGTH,
            Cause::HeaderCut => Refusal::new(9, at),
            Cause::PastTheEnd => Refusal::new(10, at),
            Cause::WrongSize(size) => Refusal::wrong_size(at, size),
            Cause::UnknownKind
            | Cause::OutOfTurn
            | Cause::EndMissing
            | Cause::WrongNumber
            | Cause::AfterTheEnd => Refusal::new(8, at),
        }
    }
}

/// Reads a recording; or its refusal: 1 of the whole, then on each block 9, 10, 11 and 8 in this
/// order.
pub fn read(recording: &[u8]) -> Result<Recording<'_>, Refusal> {
    Ok(check(recording)?)
}

/// Checks a recording block by block: it is sound, or this is wrong with it.
pub fn check(recording: &[u8]) -> Result<Recording<'_>, Fault> {
    if recording.len() > LONGEST {
        let cause = Cause::TooLong;
        return Err(Fault { at: 0, cause });
    }
    let mut head: Option<(u32, u32)> = None;
    let mut voices_at = 0;
    let mut frames = 0;
    let mut at = 0;
    loop {
        let left = recording.len() - at;
        let wrong = |cause| {
            Err(Fault {
                at: at as u32,
                cause,
            })
        };
        if left == 0 {
            return wrong(Cause::EndMissing);
        }
        if left < HEADER_LENGTH {
            return wrong(Cause::HeaderCut);
        }
        let length = u32_at(recording, at) as usize;
        let kind = u16::from_le_bytes([recording[at + 4], recording[at + 5]]);
        if length > left - HEADER_LENGTH {
            return wrong(Cause::PastTheEnd);
        }
        let payload = &recording[at + HEADER_LENGTH..][..length];
        let size_wrong = match kind {
            HEAD => length != 8,
            VOICE => length == 0 || !length.is_multiple_of(FRAME_LENGTH),
            END => length != 4,
            _ => false,
        };
        if size_wrong {
            return wrong(Cause::WrongSize(length as u32));
        }
        let next = at + HEADER_LENGTH + length;
        match (kind, head) {
            (HEAD, None) => {
                head = Some((u32_at(payload, 0), u32_at(payload, 4)));
                voices_at = next;
            }
            (VOICE, Some(_)) => frames += (length / FRAME_LENGTH) as u32,
            (END, Some((unit, number))) if frames > 0 => {
                if u32_at(payload, 0) != frames {
                    return wrong(Cause::WrongNumber);
                }
                if next != recording.len() {
                    return Err(Fault {
                        at: next as u32,
                        cause: Cause::AfterTheEnd,
                    });
                }
                let voices = &recording[voices_at..at];
                return Ok(Recording {
                    unit,
                    number,
                    frames,
                    voices,
                    voices_at,
                });
            }
            (HEAD | VOICE | END, _) => return wrong(Cause::OutOfTurn),
            _ => return wrong(Cause::UnknownKind),
        }
        at = next;
    }
}

/// What is told of a recording that was checked, in five numbers: of a sound one its unit, its
/// number and zeros; of another one two zeros, the place, the size of a wrong payload or 0, and the
/// number of the cause.
pub fn told(checked: &Result<Recording, Fault>) -> [u32; 5] {
    match *checked {
        Ok(Recording { unit, number, .. }) => [unit, number, 0, 0, 0],
        Err(Fault { at, cause }) => {
            let size = match cause {
                Cause::WrongSize(size) => size,
                _ => 0,
            };
            [0, 0, at, size, cause.number().into()]
        }
    }
}

impl<'a> Recording<'a> {
    /// The payloads of the voice blocks, each with its place in the recording.
    pub fn voice_blocks(&self) -> impl Iterator<Item = (usize, &'a [u8])> {
        let mut rest = self.voices;
        let mut at = self.voices_at;
        std::iter::from_fn(move || {
            if rest.is_empty() {
                return None;
            }
            let (header, after) = rest.split_at(HEADER_LENGTH);
            let (payload, after) = after.split_at(u32_at(header, 0) as usize);
            let payload_at = at + HEADER_LENGTH;
            rest = after;
            at = payload_at + payload.len();
            Some((payload_at, payload))
        })
    }

    /// The readings of all frames, in order.
    pub fn readings(&self) -> impl Iterator<Item = Reading> + 'a {
        self.voice_blocks()
            .flat_map(|(_, payload)| payload.chunks_exact(FRAME_LENGTH))
            .map(|frame| frame::read(frame).expect("each piece is 18 bytes"))
    }

    /// All frames with their values under the state that runs on from frame to frame.
    pub fn heard(&self) -> impl Iterator<Item = Heard> + 'a {
        let mut state = State::FRESH;
        self.readings().map(move |reading| {
            let values = values::values(&reading.record, &state);
            state = values::state_after(&reading.record, &state);
            Heard {
                reading,
                values,
                state,
            }
        })
    }
}

/// The repaired frames and the sync breaks among readings, and the state that runs with them.
#[derive(Clone, Copy, Debug, Default, PartialEq, Eq)]
pub struct Counts {
    pub frames: u32,
    pub repaired: u32,
    pub breaks: u32,
    pub state: State,
}

impl Counts {
    /// Counts the next frame in.
    pub fn count(&mut self, reading: &Reading) {
        self.frames += 1;
        self.repaired += u32::from(reading.correction.is_repair());
        self.breaks += u32::from(self.state.is_break(reading.record.sy()));
        self.state = values::state_after(&reading.record, &self.state);
    }
}

/// The answer to any bytes as a recording.
pub fn answer(recording: &[u8]) -> Result<Answer, Refusal> {
    let recording = read(recording)?;
    let mut counts = Counts::default();
    for reading in recording.readings() {
        counts.count(&reading);
    }
    let Recording {
        unit,
        number,
        frames,
        ..
    } = recording;
    let Counts {
        repaired, breaks, ..
    } = counts;
    Ok(Answer {
        unit,
        number,
        frames,
        repaired,
        breaks,
    })
}

/// The payload of voice block k, counted from 0; empty if the recording is refused or has no
/// such block.
pub fn voice_block(recording: &[u8], k: usize) -> &[u8] {
    let sound = read(recording).ok();
    let block = sound.and_then(|sound| sound.voice_blocks().nth(k));
    block.map_or(&[], |(_, payload)| payload)
}

#[cfg(test)]
mod tests {
    use super::*;
    use crate::{cases, lsp};

    #[test]
    fn voice_blocks_are_parts_of_the_callers_buffer() {
        let recording = cases::sound(3, 9, &[&[[1; 18], [2; 18]], &[[3; 18]], &[[4; 18]; 3]]);
        let place = |part: &[u8]| part.as_ptr() as usize - recording.as_ptr() as usize;
        for (k, at, length) in [(0, 20, 36), (1, 62, 18), (2, 86, 54)] {
            let part = voice_block(&recording, k);
            assert_eq!((place(part), part.len()), (at, length));
        }
        for k in [3, 4, 1000, usize::MAX] {
            assert!(voice_block(&recording, k).is_empty());
        }
        assert!(voice_block(&recording[..recording.len() - 1], 0).is_empty());
        assert!(voice_block(&[], 0).is_empty());
    }

    #[test]
    fn each_cause_is_told_with_its_place() {
        let sound = cases::sound(7, 1, &[&[[0; 18], [0; 18]], &[[0; 18]]]);
        assert_eq!(sound.len(), 90);
        let changed = |at: usize, to: u8| {
            let mut bytes = sound.clone();
            bytes[at] = to;
            bytes
        };
        let cut = |length: usize| sound[..length].to_vec();
        let [head, voice, end] = [&sound[..14], &sound[14..56], &sound[80..]];
        let mut long = sound.clone();
        long.resize(65_537, 0);
        for (bytes, number, told_of) in [
            (long, 1, [0, 0, 0, 0, 1]),
            (cut(1), 9, [0, 0, 0, 0, 2]),
            (cut(85), 9, [0, 0, 80, 0, 2]),
            (cut(6), 10, [0, 0, 0, 0, 3]),
            (cut(79), 10, [0, 0, 56, 0, 3]),
            (changed(3, 1), 10, [0, 0, 0, 0, 3]),
            (changed(56, 17), 11, [0, 0, 56, 17, 4]),
            (changed(14, 0), 11, [0, 0, 14, 0, 4]),
            (changed(80, 3), 11, [0, 0, 80, 3, 4]),
            // A wrong size comes before a wrong turn.
            (
                [head, &[7, 0, 0, 0, 1, 0], &[0; 7]].concat(),
                11,
                [0, 0, 14, 7, 4],
            ),
            (changed(4, 4), 8, [0, 0, 0, 0, 5]),
            (changed(5, 1), 8, [0, 0, 0, 0, 5]),
            (changed(60, 0), 8, [0, 0, 56, 0, 5]),
            (changed(84, 255), 8, [0, 0, 80, 0, 5]),
            (voice.to_vec(), 8, [0, 0, 0, 0, 6]),
            (end.to_vec(), 8, [0, 0, 0, 0, 6]),
            ([head, head].concat(), 8, [0, 0, 14, 0, 6]),
            ([head, voice, head].concat(), 8, [0, 0, 56, 0, 6]),
            // Before any voice an end is out of turn, whatever its number is.
            ([head, end].concat(), 8, [0, 0, 14, 0, 6]),
            (
                [head, &[4, 0, 0, 0, 3, 0], &[0; 4]].concat(),
                8,
                [0, 0, 14, 0, 6],
            ),
            (cut(0), 8, [0, 0, 0, 0, 7]),
            (cut(14), 8, [0, 0, 14, 0, 7]),
            (cut(56), 8, [0, 0, 56, 0, 7]),
            (cut(80), 8, [0, 0, 80, 0, 7]),
            (changed(86, 2), 8, [0, 0, 80, 0, 8]),
            (changed(89, 1), 8, [0, 0, 80, 0, 8]),
            // A wrong number comes before bytes after the end.
            ([&changed(86, 2)[..], &[0]].concat(), 8, [0, 0, 80, 0, 8]),
            ([&sound[..], &[0]].concat(), 8, [0, 0, 90, 0, 9]),
            ([&sound[..], &sound].concat(), 8, [0, 0, 90, 0, 9]),
        ] {
            let checked = check(&bytes);
            assert_eq!(told(&checked), told_of, "{bytes:?}");
            let size = (number == 11).then_some(told_of[3]);
            let refusal = Refusal {
                number,
                tells: told_of[2],
                size,
            };
            assert_eq!(checked.map_err(Refusal::from), Err(refusal), "{bytes:?}");
            assert_eq!(read(&bytes), Err(refusal), "{bytes:?}");
        }
        assert_eq!(told(&check(&sound)), [7, 1, 0, 0, 0]);
        let ends = cases::sound(u32::MAX, 0, &[&[[255; 18]]]);
        assert_eq!(told(&check(&ends)), [u32::MAX, 0, 0, 0, 0]);
    }

    #[test]
    fn the_state_runs_on_across_blocks_and_over_refused_frames() {
        let mut g = cases::Generator::new(3);
        let mut records = [g.record(), g.record(), g.record(), g.record()];
        records[1].fields[26] = 1;
        let frames = records.map(|record| frame::lay(&record));
        let recording = cases::sound(1, 1, &[&frames[..2], &frames[2..3], &frames[3..]]);
        let heard: Vec<Heard> = read(&recording).unwrap().heard().collect();
        let first = values::values(&records[0], &State::FRESH).unwrap();
        let mut second = first.state;
        second.last_sy = Some(records[1].sy());
        let third = values::values(&records[2], &second).unwrap();
        let fourth = values::values(&records[3], &third.state).unwrap();
        let all = [Ok(first), Err(Refusal::new(6, 0)), Ok(third), Ok(fourth)];
        let states = [first.state, second, third.state, fourth.state];
        assert_eq!(heard.len(), 4);
        for k in 0..4 {
            assert_eq!(heard[k].values, all[k]);
            assert_eq!(heard[k].state, states[k]);
            assert_eq!(heard[k].reading.record, records[k]);
        }
        // The averages go from the first frame to the third.
        let previous = first.state.hz.map(u32::from);
        let present = third.state.hz.map(u32::from);
        assert_ne!(previous, lsp::frequencies(records[1].lsp()).map(u32::from));
        for j in 0..10 {
            assert_eq!(third.averages[0][j], 7 * previous[j] + present[j]);
        }
    }

    #[test]
    fn counts_include_frames_refused_with_6() {
        let mut refused = frame::Record::ZERO;
        refused.fields[26] = 1;
        let clean = frame::lay(&refused);
        let [mut parity_hit, mut repaired] = [clean; 2];
        frame::flip(&mut parity_hit, 21);
        frame::flip(&mut repaired, 124);
        frame::flip(&mut repaired, 144);
        // Frame 1: SY 0. Frame 2: SY 0 and so a break. Frame 3: SY 1, no break, and repaired.
        // Frame 4: SY 0, no break, and a parity hit.
        let recording = cases::sound(1, 2, &[&[clean, clean, repaired, parity_hit]]);
        let expected = Answer {
            unit: 1,
            number: 2,
            frames: 4,
            repaired: 1,
            breaks: 1,
        };
        assert_eq!(answer(&recording), Ok(expected));
        assert!(read(&recording)
            .unwrap()
            .heard()
            .all(|heard| heard.values.is_err()));
    }
}
