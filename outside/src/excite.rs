//! The excitation of every subframe of a recording, a line each, with the register that runs on from
//! one to the next. The layout is set out in CASES.md.

use crate::codes::CODE_LENGTH;
use crate::excitation::{Register, Subframe};
use crate::frame::Record;
use crate::listing;
use crate::recording;
use crate::refusal::Refusal;
use crate::text::{number, numbers};
use crate::values::Values;

/// Excites any bytes as a recording.
pub fn excite(recording: &[u8]) -> Vec<u8> {
    let sound = match recording::read(recording) {
        Ok(sound) => sound,
        Err(refusal) => return listing::refused(refusal),
    };
    let mut out = Vec::with_capacity(1024 * sound.frames as usize);
    let mut register = Register::ZERO;
    for (k, heard) in (1..).zip(sound.heard()) {
        match &heard.values {
            Err(refusal) => refused(&mut out, &[k], refusal),
            Ok(values) => {
                for (s, subframe) in (1..).zip(subframes(&heard.reading.record, values)) {
                    excited(&mut out, &[k, s], &subframe, &mut register);
                }
            }
        }
    }
    out
}

/// The four subframes of a frame that is heard.
fn subframes(record: &Record, values: &Values) -> [Subframe; 4] {
    let (pg, ci, cg) = (record.pg(), record.ci(), record.cg());
    std::array::from_fn(|n| Subframe {
        delay: values.delays[n].into(),
        pg: pg[n],
        ci: ci[n],
        cg: cg[n],
    })
}

/// The line of a subframe.
fn excited(out: &mut Vec<u8>, place: &[i64], subframe: &Subframe, register: &mut Register) {
    let mut buffer = [0; CODE_LENGTH];
    match register.excite(subframe, &mut buffer) {
        Err(refusal) => refused(out, place, &refusal),
        Ok(()) => {
            begin(out, place);
            numbers(out, buffer.map(i64::from));
            out.push(b'\n');
        }
    }
}

/// The line of a frame or of a subframe that is refused.
fn refused(out: &mut Vec<u8>, place: &[i64], refusal: &Refusal) {
    begin(out, place);
    out.extend_from_slice(b" refused");
    numbers(out, [refusal.number.into()]);
    out.push(b'\n');
}

/// The first words of a line: the frame, and the subframe if it is of one.
fn begin(out: &mut Vec<u8>, place: &[i64]) {
    number(out, place[0]);
    numbers(out, place[1..].iter().copied());
}
