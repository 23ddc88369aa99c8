//! Salvaging into a lent buffer, shown with every byte that the buffer holds afterwards; and salvaging
//! and listing for C, shown with the numbers that are told too.

use crate::cases::{self, spoken};
use crate::listing;
use crate::recording::{self, LONGEST};
use crate::refusal::Refusal;
use crate::salvage::{self, Salvaged};
use crate::text::{number, numbers};

/// The bytes of a case before its recording: the length of the buffer.
const CASE_HEAD: usize = 2;

/// How far a case is read: one byte past the longest recording.
pub const LONGEST_CASE: usize = CASE_HEAD + LONGEST + 1;

/// What each byte of a buffer is before.
const BEFORE: u8 = 170;

/// What each number that is told is before.
const NUMBER_BEFORE: i64 = 9;

/// How much is left of the recording of the stored case: its fifth frame begins at 98.
const CUT: usize = 107;

/// The length of the buffer and the recording of a case.
fn read(case: &[u8]) -> (usize, &[u8]) {
    let byte = |at| case.get(at).copied().unwrap_or(0);
    let length = match u16::from_le_bytes([byte(0), byte(1)]) {
        0 => LONGEST,
        n => usize::from(n),
    };
    (length, case.get(CASE_HEAD..).unwrap_or(&[]))
}

/// Reads a case: the changes of its salvaging, and then the buffer.
pub fn answer(case: &[u8]) -> Vec<u8> {
    let (length, recording) = read(case);
    let mut buffer = vec![BEFORE; length];
    let salvaged = salvage::into_lent(recording, &mut buffer);
    [salvage::changes(&salvaged).as_bytes(), &buffer].concat()
}

/// Reads a case for C: what is told of its salvaging, and the buffer; what is told of its listing, and
/// a buffer of twice the length.
pub fn answer_for_c(case: &[u8]) -> Vec<u8> {
    let (length, recording) = read(case);
    let mut out = Vec::with_capacity(256 + 3 * length);
    salvage_into(&mut out, recording, length);
    list_into(&mut out, recording, 2 * length);
    out
}

/// The result of a refusal.
fn refused(Refusal { number, .. }: Refusal) -> i64 {
    -i64::from(number)
}

/// A word, the result, the numbers that are told, and all bytes of the buffer.
fn say(out: &mut Vec<u8>, word: &[u8], result: i64, told: &[i64], buffer: &[u8]) {
    out.extend_from_slice(word);
    out.push(b' ');
    number(out, result);
    numbers(out, told.iter().copied());
    out.push(b'\n');
    out.extend_from_slice(buffer);
}

/// Salvages into a buffer of a length: 0 of a sound recording and 1 of a mended one, the bytes
/// dropped and from where, the frames kept, the place of the end and the bytes of the result.
fn salvage_into(out: &mut Vec<u8>, recording: &[u8], length: usize) {
    let mut buffer = vec![BEFORE; length];
    let (result, told) = match salvage::into_lent(recording, &mut buffer) {
        Salvaged::Sound => (0, [0, 0, 0, 0, recording.len()].map(|n| n as i64)),
        Salvaged::Mended {
            bytes,
            dropped,
            from,
            frames,
            end,
        } => {
            let told = [dropped, from, frames, end, bytes.len()];
            (1, told.map(|n| n as i64))
        }
        Salvaged::Refused(number) => (-i64::from(number), [NUMBER_BEFORE; 5]),
    };
    say(out, b"salvage", result, &told, &buffer);
}

/// Lists into a buffer of a length: 0 of a sound recording, the length of the text, and what is told
/// of the recording.
fn list_into(out: &mut Vec<u8>, recording: &[u8], length: usize) {
    let mut buffer = vec![BEFORE; length];
    let mut told = [NUMBER_BEFORE; 6];
    let result = match listing::into_lent(recording, &mut buffer) {
        Err(refusal) => refused(refusal),
        Ok(length) => {
            let checked = recording::check(recording);
            told[0] = length as i64;
            told[1..].copy_from_slice(&recording::told(&checked).map(i64::from));
            match checked {
                Ok(_) => 0,
                Err(fault) => refused(fault.into()),
            }
        }
    };
    say(out, b"list", result, &told, &buffer);
}

/// A recording of two voice blocks of three frames each.
fn whole() -> Vec<u8> {
    let frames = spoken(20, 6);
    cases::sound(12, 345, &[&frames[..3], &frames[3..]])
}

/// The case that is stored: right buffers, and the recording cut inside its fifth frame.
pub fn case() -> Vec<u8> {
    [&[0; CASE_HEAD], &whole()[..CUT]].concat()
}

/// The same case with the whole recording: its listing has a line for each frame.
pub fn sound_case() -> Vec<u8> {
    [&[0; CASE_HEAD], &whole()[..]].concat()
}
