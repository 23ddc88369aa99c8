//! The listing of a recording: a line for the whole, one for each frame, one for the counts;
//! or the one line of its refusal.

use crate::delays;
use crate::frame::Correction;
use crate::recording::{self, Counts, Recording, LONGEST};
use crate::refusal::Refusal;
use crate::text::{number, numbers};

/// The bytes of a buffer that a listing is laid into. The longest listing has room in it.
pub const LENT_LENGTH: usize = 131_072;

/// Lists any bytes as a recording.
pub fn list(recording: &[u8]) -> Vec<u8> {
    let sound = match recording::read(recording) {
        Ok(sound) => sound,
        Err(refusal) => return refused(refusal),
    };
    let mut out = Vec::with_capacity(96 + 40 * sound.frames as usize);
    head(&mut out, &sound);

    let mut counts = Counts::default();
    for reading in sound.readings() {
        counts.count(&reading);
        number(&mut out, counts.frames.into());
        correction(&mut out, reading.correction);
        if reading.record.sp() != 0 {
            out.extend_from_slice(b" refused 6\n");
            continue;
        }
        numbers(&mut out, [reading.mark.into(), reading.record.sy().into()]);
        numbers(&mut out, delays::delays(reading.record.pd()).map(i64::from));
        out.push(b'\n');
    }

    last(&mut out, &counts);
    out
}

/// Lists any bytes as a recording into a lent buffer: the length of the text. A buffer that has not
/// 131,072 bytes is refused 1, whatever the recording is, and nothing is written; what stands past
/// the text stays.
pub fn into_lent(recording: &[u8], buffer: &mut [u8]) -> Result<usize, Refusal> {
    if buffer.len() != LENT_LENGTH {
        return Err(Refusal::LENGTH);
    }
    let text = list(recording);
    buffer[..text.len()].copy_from_slice(&text);
    Ok(text.len())
}

/// The first line: unit, recording number and frames.
pub fn head(out: &mut Vec<u8>, sound: &Recording) {
    out.extend_from_slice(b"unit ");
    number(out, sound.unit.into());
    out.extend_from_slice(b" recording ");
    number(out, sound.number.into());
    out.extend_from_slice(b" frames ");
    number(out, sound.frames.into());
    out.push(b'\n');
}

/// A correction, after a space: its number, and `c` if it is clean, `p` for a parity hit, `d` for a
/// data hit.
pub fn correction(out: &mut Vec<u8>, correction: Correction) {
    numbers(out, [correction.number().into()]);
    out.extend_from_slice(match correction {
        Correction::Clean => b" c",
        Correction::Parity(_) => b" p",
        Correction::Data { .. } => b" d",
    });
}

/// The last line: repaired frames and sync breaks.
pub fn last(out: &mut Vec<u8>, counts: &Counts) {
    out.extend_from_slice(b"repaired ");
    number(out, counts.repaired.into());
    out.extend_from_slice(b" breaks ");
    number(out, counts.breaks.into());
    out.push(b'\n');
}

/// The line of a refused recording: `refused N at P`, with P 65536 for refusal 1, and after it
/// the size that refusal 11 tells.
pub fn refused(refusal: Refusal) -> Vec<u8> {
    let place = if refusal.number == 1 {
        LONGEST as u32
    } else {
        refusal.tells
    };
    let mut out = format!("refused {} at {place}", refusal.number).into_bytes();
    numbers(&mut out, refusal.size.map(i64::from));
    out.push(b'\n');
    out
}

#[cfg(test)]
mod tests {
    use super::*;
    use crate::cases::{self, Frame, Generator};
    use crate::frame;

    #[test]
    fn a_lent_buffer_holds_the_text_and_else_what_it_held() {
        let before = Generator::new(51).bytes(2 * LENT_LENGTH);
        let sample = cases::sample();
        for recording in [&sample[..], &sample[..44], &[], &[0; LONGEST + 1]] {
            let mut buffer = before[..LENT_LENGTH].to_vec();
            let text = list(recording);
            assert_eq!(into_lent(recording, &mut buffer), Ok(text.len()));
            assert!(buffer[..text.len()] == text);
            assert!(buffer[text.len()..] == before[text.len()..LENT_LENGTH]);
            for length in [0, 1, text.len(), LENT_LENGTH - 1, LENT_LENGTH + 1] {
                let mut buffer = before[..length].to_vec();
                assert_eq!(into_lent(recording, &mut buffer), Err(Refusal::LENGTH));
                assert!(buffer == before[..length], "{length}");
            }
        }
    }

    #[test]
    fn the_longest_listing_has_room() {
        // The most frames, each with as long a line as there is: a number of two digits, a mark and four
        // delays of four digits, in the largest unit and recording.
        let mut record = frame::Record::ZERO;
        record.fields[0] = 7;
        for n in [0, 2] {
            // The printed code of 147 samples, and the last of the window after it.
            record.fields[10 + 4 * n] = 0xAF;
            record.fields[14 + 4 * n] = 63;
        }
        let mut frame = frame::lay(&record);
        frame::flip(&mut frame, 143);
        let frames: Vec<Frame> = vec![frame; 3_639];
        let recording = cases::sound(u32::MAX, u32::MAX, &[&frames]);
        assert_eq!(recording.len(), 65_532);
        let text = String::from_utf8(list(&recording)).expect("text");
        let line = "3639 10 d 1 0 1764 1764 1764 1764";
        assert_eq!(text.lines().nth(3_639), Some(line));
        let mut buffer = vec![0; LENT_LENGTH];
        let length = into_lent(&recording, &mut buffer).expect("a right buffer");
        assert!(length == text.len() && length < LENT_LENGTH);
        assert!(buffer.starts_with(text.as_bytes()));
    }
}
