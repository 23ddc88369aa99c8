//! Cases of frames and records through the C boundary, of records heard there after any state and of
//! the places of voice blocks, of recordings and values at places that no recording leads to, and of
//! corrections by themselves, with what is printed of each. CASES.md sets out both to the letter.

use crate::cases::{self, Frame, Generator, ONE_HIT, SETTING_SP};
use crate::frame::{self, Correction, Record, FRAME_LENGTH, RECORD_LENGTH};
use crate::lsp::{self, State};
use crate::recording::{self, Counts, HEADER_LENGTH, VOICE};
use crate::tables::{FIELDS, GUARDED, WIDTHS};
use crate::values::{self, Values};
use std::collections::BTreeSet;

/// The bytes of a case.
pub const CASE_LENGTH: usize = 128;

/// The bytes of a case before those that are given.
const CASE_HEAD: usize = 4;

/// The length of the buffer that is lent, and what it holds before.
const BUFFER_LENGTH: usize = 60;
const BEFORE: u8 = 170;

/// The numbers of a state that is lent, and what each value that is lent holds before.
const STATE_NUMBERS: usize = 13;
const VALUE_BEFORE: u16 = 77;

/// What is told where there was nothing to hear.
const NOTHING: usize = 65_536;

/// Reads cases and writes the line of each.
pub fn answers(cases: &[u8]) -> Vec<u8> {
    let mut out = Vec::new();
    for case in cases.chunks_exact(CASE_LENGTH) {
        let number = usize::from(u16::from_le_bytes([case[2], case[3]]));
        if let Some(given) = case[CASE_HEAD..].get(..usize::from(case[1])) {
            answer(&mut out, case[0], given, number);
        }
        out.push(b'\n');
    }
    out
}

/// Numbers, each followed by a space.
fn say(out: &mut Vec<u8>, all: impl IntoIterator<Item = usize>) {
    for n in all {
        out.extend_from_slice(format!("{n} ").as_bytes());
    }
}

fn answer(out: &mut Vec<u8>, kind: u8, given: &[u8], n: usize) {
    match kind {
        b'r' => lent(out, n, |buffer| frame::read_c(given, buffer)),
        b'w' => lent(out, n, |buffer| frame::write_c(given, buffer)),
        b'k' => frame_heard(out, given, n),
        b'c' => {
            say_correction(out, Correction::of(n));
            say(out, [usize::from(data_hit(n).number())]);
        }
        b'm' => say(out, numbers_after(given, data_hit(n)).map(usize::from)),
        b'f' => {
            if let Some((first, rest)) = find(given, n % 256, n / 256) {
                say(out, [first, rest]);
            }
        }
        b'p' => next(out, given, n),
        b'h' => heard_after(out, given),
        b'b' => say(out, payload_between(given, n)),
        _ => values_after(out, given, n),
    }
}

/// Signed numbers, each filled up with spaces to twelve characters.
fn say_signed(out: &mut Vec<u8>, all: impl IntoIterator<Item = i32>) {
    for n in all {
        out.extend_from_slice(format!("{n:<12}").as_bytes());
    }
}

/// A call of the C boundary on a buffer of a length: the result, and what the buffer holds.
fn lent(out: &mut Vec<u8>, long: usize, call: impl FnOnce(&mut [u8]) -> i32) {
    let mut buffer = [BEFORE; BUFFER_LENGTH];
    if let Some(part) = buffer.get_mut(..long) {
        say_signed(out, [call(part)]);
    }
    say(out, buffer.map(usize::from));
}

/// A correction: its number, and then 0 if it is clean, 1 for a parity hit, and for a data hit 2, the field
/// and the bit.
fn say_correction(out: &mut Vec<u8>, correction: Correction) {
    say(out, [usize::from(correction.number())]);
    match correction {
        Correction::Clean => say(out, [0]),
        Correction::Parity(_) => say(out, [1]),
        Correction::Data { field, bit } => say(out, [2, field.into(), bit.into()]),
    }
}

/// A data hit that names bit n / 256 of field n mod 256.
fn data_hit(n: usize) -> Correction {
    let [field, bit] = (n as u16).to_le_bytes();
    Correction::Data { field, bit }
}

/// Twenty-nine numbers, 0 where they are not given, after a data hit whose field counts them from 0 on.
fn numbers_after(given: &[u8], hit: Correction) -> [u16; FIELDS + 1] {
    let byte = |at: usize| given.get(at).copied().unwrap_or(0);
    let mut numbers =
        std::array::from_fn(|at| u16::from_le_bytes([byte(2 * at), byte(2 * at + 1)]));
    if let Correction::Data { field, bit } = hit {
        let mask = 1u16.checked_shl(bit.into()).unwrap_or(0);
        if let Some(number) = numbers.get_mut(usize::from(field)) {
            *number ^= mask;
        }
    }
    numbers
}

/// Frame k of a recording: its correction, and its values under the state before it.
fn frame_heard(out: &mut Vec<u8>, recording: &[u8], k: usize) {
    let mut state = State::FRESH;
    let mut found = None;
    if let Ok(sound) = recording::read(recording) {
        for heard in sound.heard().take(k) {
            state = heard.state;
            found = Some(heard);
        }
        if k > sound.frames as usize {
            found = None;
        }
    }
    match found {
        Some(heard) => {
            say_correction(out, heard.reading.correction);
            match heard.values {
                Ok(values) => told(out, 0, None, Some(&values), &state),
                Err(refusal) => told(out, refusal.number.into(), None, None, &state),
            }
        }
        None => {
            say_correction(out, Correction::Clean);
            told(out, 0, Some(NOTHING), None, &state);
        }
    }
}

/// The outcome, what it tells, the mark, the delays and the state after.
fn told(
    out: &mut Vec<u8>,
    outcome: usize,
    tells: Option<usize>,
    values: Option<&Values>,
    state: &State,
) {
    say(out, [outcome]);
    say(out, tells);
    let (mark, delays) = values.map_or((0, [0; 4]), |values| (values.mark, values.delays));
    say(out, [usize::from(mark)]);
    say(out, delays.map(usize::from));
    say_state(out, state);
}

/// 1 if the state has heard a frame, its Hz, and its last SY if it has one.
fn say_state(out: &mut Vec<u8>, state: &State) {
    if state.heard {
        say(out, [1]);
    }
    say(out, state.hz.map(usize::from));
    say(out, state.last_sy.map(usize::from));
}

/// Where the next frame stands from a place on with so many bytes of a voice block left there, and how many bytes of
/// the block come after it; with none left it is the first of the voice block that stands there.
fn find(bytes: &[u8], at: usize, left: usize) -> Option<(usize, usize)> {
    if left > 0 {
        bytes.get(at..at + FRAME_LENGTH)?;
        return Some((at, left.checked_sub(FRAME_LENGTH)?));
    }
    let block = bytes.get(at..)?;
    let (header, rest) = block.split_at_checked(HEADER_LENGTH)?;
    let length = u32::from_le_bytes([header[0], header[1], header[2], header[3]]) as usize;
    let kind = u16::from_le_bytes([header[4], header[5]]);
    let voice =
        kind == VOICE && length > 0 && length.is_multiple_of(FRAME_LENGTH) && length <= rest.len();
    voice.then(|| (at + HEADER_LENGTH, length - FRAME_LENGTH))
}

/// The state before a step, by how many times 11,001 frames were passed.
fn before_the_step(times: usize) -> State {
    let (hz, heard, last_sy) = match times {
        2 => ([300; 10], true, None),
        3 => ([0; 10], false, Some(0)),
        4 => ([300; 10], true, Some(1)),
        5 => ([300; 10], true, Some(7)),
        _ => ([0; 10], false, None),
    };
    State { hz, heard, last_sy }
}

/// One step of a pass that counts three repaired frames and five breaks.
fn next(out: &mut Vec<u8>, bytes: &[u8], n: usize) {
    let (mut at, mut left) = (n % 256, n / 256 % 32);
    let times = n / 8192 % 8;
    let mut counts = Counts {
        frames: (times * 11_001) as u32,
        repaired: 3,
        breaks: 5,
        state: before_the_step(times),
    };
    let ours = counts.frames <= 65_536 && counts.frames >= counts.repaired.max(counts.breaks);
    if let Some((first, rest)) = find(bytes, at, left).filter(|_| ours) {
        let frame = &bytes[first..first + FRAME_LENGTH];
        counts.count(&frame::read(frame).expect("18 bytes"));
        (at, left) = (first + FRAME_LENGTH, rest);
    }
    let Counts {
        frames,
        repaired,
        breaks,
        state,
    } = counts;
    say(out, [at, left]);
    say(out, [frames, repaired, breaks].map(|n| n as usize));
    say_state(out, &state);
}

/// The values of a frame's record with an index or two changed, after the state that the record itself leaves.
fn values_after(out: &mut Vec<u8>, given: &[u8], n: usize) {
    let record = frame::read(given).map_or(Record::ZERO, |reading| reading.record);
    let state = values::state_after(&record, &State::FRESH);
    let mut changed = record;
    let index = (n / 8 % 8192) as u16;
    match n % 8 {
        1 => changed.fields[9] = index,
        2 => changed.fields[14] = index,
        3 => changed.fields[26] = index,
        4 => changed.fields[27] = index,
        5 => (changed.fields[26], changed.fields[27]) = (1, index),
        _ => {}
    }
    let after = values::state_after(&changed, &state);
    match values::values(&changed, &state) {
        Ok(values) => told(out, 0, None, Some(&values), &after),
        Err(refusal) => {
            let tells = (refusal.number == 2).then_some(refusal.tells as usize);
            told(out, refusal.number.into(), tells, None, &after);
        }
    }
}

/// A state as it is lent: whether a frame was heard, whether there is a last SY (0 where not), the last
/// SY, and ten Hz.
type LentState = [u16; STATE_NUMBERS];

/// The state that thirteen numbers mean.
fn state_of(numbers: &LentState) -> State {
    let [heard, has_last, last_sy, hz @ ..] = *numbers;
    State {
        hz,
        heard: heard != 0,
        last_sy: (has_last != 0).then_some(last_sy),
    }
}

/// A state as thirteen numbers; without a last SY that number is 0.
fn numbers_of(state: &State) -> LentState {
    let flags = [state.heard, state.last_sy.is_some()].map(u16::from);
    let mut numbers = [0; STATE_NUMBERS];
    numbers[..2].copy_from_slice(&flags);
    numbers[2] = state.last_sy.unwrap_or(0);
    numbers[3..].copy_from_slice(&state.hz);
    numbers
}

/// What is lent to the call that hears a record after a state: the state before and after, and the
/// values.
#[derive(Clone, Copy, Debug, PartialEq, Eq)]
struct Lent {
    state: LentState,
    cg: [i32; 4],
    pg: [i32; 4],
    delays: [u16; 4],
    averages: [[u32; 10]; 4],
}

impl Lent {
    /// As it is before the call.
    fn new(state: LentState) -> Self {
        Lent {
            state,
            cg: [VALUE_BEFORE.into(); 4],
            pg: [VALUE_BEFORE.into(); 4],
            delays: [VALUE_BEFORE; 4],
            averages: [[VALUE_BEFORE.into(); 10]; 4],
        }
    }

    /// Hears a record of 56 bytes: its order mark, or minus a refusal's number. Refused with 6 it leaves
    /// the state after it, refused else nothing.
    fn hear(&mut self, record: &[u8]) -> i32 {
        if record.len() != RECORD_LENGTH {
            return -1;
        }
        let record = Record {
            fields: std::array::from_fn(|f| u16::from_le_bytes([record[2 * f], record[2 * f + 1]])),
        };
        let state = state_of(&self.state);
        match values::values(&record, &state) {
            Ok(values) => {
                *self = Lent {
                    state: numbers_of(&values.state),
                    cg: values.cg,
                    pg: values.pg,
                    delays: values.delays,
                    averages: values.averages,
                };
                values.mark.into()
            }
            Err(refusal) => {
                if refusal.number == 6 {
                    self.state = numbers_of(&values::state_after(&record, &state));
                }
                -i32::from(refusal.number)
            }
        }
    }
}

/// A record heard through the C boundary after any state: the result, and all that is lent.
fn heard_after(out: &mut Vec<u8>, given: &[u8]) {
    let byte = |at: usize| given.get(at).copied().unwrap_or(0);
    let state = std::array::from_fn(|at| u16::from_le_bytes([byte(2 * at), byte(2 * at + 1)]));
    let mut lent = Lent::new(state);
    let result = lent.hear(given.get(2 * STATE_NUMBERS..).unwrap_or(&[]));
    say_signed(out, [result]);
    say(out, lent.state.map(usize::from));
    say_signed(out, lent.cg);
    say_signed(out, lent.pg);
    say(out, lent.delays.map(usize::from));
    let averages = lent.averages.as_flattened();
    say(out, averages.iter().map(|&average| average as usize));
}

/// The two places between which the payload of voice block k stands, counted from 0; zeros if the
/// recording is refused or has no such block.
fn payload_between(recording: &[u8], k: usize) -> [usize; 2] {
    let sound = recording::read(recording).ok();
    let block = sound.and_then(|sound| sound.voice_blocks().nth(k));
    block.map_or([0; 2], |(at, payload)| [at, at + payload.len()])
}

/// Puts a case down.
fn put(cases: &mut Vec<u8>, kind: u8, given: &[u8], n: usize) {
    let start = cases.len();
    cases.extend([kind, given.len() as u8]);
    cases.extend((n as u16).to_le_bytes());
    cases.extend_from_slice(given);
    cases.resize(start + CASE_LENGTH, 0);
}

/// The two bytes of each number.
fn pairs(numbers: &[u16]) -> Vec<u8> {
    numbers.iter().flat_map(|n| n.to_le_bytes()).collect()
}

/// A recording of a few frames.
fn small(g: &mut Generator, frames: usize) -> Vec<u8> {
    let all: Vec<Frame> = (0..frames).map(|k| g.frame((k % 2) as u16)).collect();
    let first = 1 + g.below(frames);
    let parts = [&all[..first], &all[first..]];
    cases::sound(7, 1, &parts[..1 + usize::from(first < frames)])
}

/// A frame of its own with this SY, refused with 6 if so said.
fn with_sy(g: &mut Generator, sy: u16, refused: bool) -> Frame {
    let mut record = g.record();
    record.fields[26] = refused.into();
    record.fields[27] = sy;
    frame::lay(&record)
}

/// SY 0 and 1, heard and refused.
const KINDS: [(u16, bool); 4] = [(0, false), (1, false), (0, true), (1, true)];

/// Steps from every kind of state over frames of every kind, each in a voice block of its own.
fn steps(cases: &mut Vec<u8>, g: &mut Generator) {
    let frames = KINDS.map(|(sy, refused)| with_sy(g, sy, refused));
    let blocks: Vec<&[Frame]> = frames.chunks(1).collect();
    let recording = cases::sound(7, 1, &blocks);
    for header in [14, 38, 62, 86] {
        for times in 0..8 {
            put(cases, b'p', &recording, header + 8192 * times);
        }
        let within = header + HEADER_LENGTH + 256 * FRAME_LENGTH;
        for times in [1, 2, 3, 4, 5] {
            put(cases, b'p', &recording, within + 8192 * times);
        }
    }
    // The same with SP hit, and put right.
    let mut hit = frames;
    for frame in &mut hit {
        frame::flip(frame, 104);
    }
    let blocks: Vec<&[Frame]> = hit.chunks(1).collect();
    let recording = cases::sound(7, 1, &blocks);
    for header in [14, 38, 62, 86] {
        for times in [1, 3, 4] {
            put(cases, b'p', &recording, header + 8192 * times);
        }
    }
}

/// The kinds of the frames of small recordings in which some are refused: first, between others and last.
const WITH_REFUSED: [&[(u16, bool)]; 5] = [
    &[(0, true)],
    &[(1, true)],
    &[(1, true), (0, false), (0, true)],
    &[(0, true), (1, true), (0, false)],
    &[(0, false), (0, true), (1, false), (1, true)],
];

/// Each frame of these, the first in a voice block of its own; frame 0, and one past the last.
fn frames_with_refused(cases: &mut Vec<u8>, g: &mut Generator) {
    for kinds in WITH_REFUSED {
        let frame = |&(sy, refused): &(u16, bool)| with_sy(g, sy, refused);
        let frames: Vec<Frame> = kinds.iter().map(frame).collect();
        let parts = [&frames[..1], &frames[1..]];
        let recording = cases::sound(7, 1, &parts[..1 + usize::from(frames.len() > 1)]);
        for k in 0..=frames.len() + 1 {
            put(cases, b'k', &recording, k);
        }
    }
}

/// A record with this order mark: LSP j at its highest is above LSP j+1 at its lowest.
fn with_mark(g: &mut Generator, mark: usize) -> Record {
    let mut record = g.record();
    record.fields[..10].fill(0);
    if mark > 0 {
        record.fields[mark - 1] = (1 << WIDTHS[mark - 1]) - 1;
    }
    record
}

/// Frames for the C reader: each number without a mark and with the highest, a number of each kind with every
/// other mark, and each number where hits set SP.
fn readings_hit(cases: &mut Vec<u8>, g: &mut Generator) {
    let mut read = |mark: usize, hits: &[usize]| {
        let frame = frame::lay(&with_mark(g, mark));
        put(cases, b'r', &cases::hit_at(frame, hits), RECORD_LENGTH);
    };
    for mark in [0, 9] {
        for hits in ONE_HIT {
            read(mark, hits);
        }
    }
    let parity = [1, 2, 4, 8];
    let data = [3, 5, 6, 7, 9, 10, 11, 12, 13, 14, 15];
    for mark in 1..=8 {
        for number in [0, parity[mark % 4], data[mark], data[mark + 2]] {
            read(mark, ONE_HIT[number]);
        }
    }
    for (number, hits) in SETTING_SP.into_iter().enumerate() {
        read(number % 10, hits);
    }
}

/// Each number heard, refused with SP 1 as sent, and refused with SP set by hits: four frames in a recording of two
/// voice blocks; and of the last recording frame 0 and one past the last.
fn frames_hit(cases: &mut Vec<u8>, g: &mut Generator) {
    let mut frames = Vec::new();
    for (number, hits) in (0..).zip(ONE_HIT) {
        for refused in [false, true] {
            let sy = (number + u16::from(refused)) % 2;
            frames.push(cases::hit_at(with_sy(g, sy, refused), hits));
        }
    }
    for hits in SETTING_SP {
        frames.push(cases::hit_at(with_sy(g, 0, false), hits));
    }
    let last = frames.len() / 4 - 1;
    for (n, four) in frames.chunks(4).enumerate() {
        let recording = cases::sound(7, 1, &[&four[..1 + n % 3], &four[1 + n % 3..]]);
        for k in 1..=4 {
            put(cases, b'k', &recording, k);
        }
        if n == last {
            put(cases, b'k', &recording, 0);
            put(cases, b'k', &recording, 5);
        }
    }
}

/// Steps over a frame with each number, heard and refused with 6, and over some with SP set by hits; and over a clean
/// one, one with a parity hit and one with a data hit from every kind of state.
fn steps_over_hits(cases: &mut Vec<u8>, g: &mut Generator) {
    let within = 256 * FRAME_LENGTH;
    for (number, hits) in ONE_HIT.into_iter().enumerate() {
        for refused in [false, true] {
            let sent = with_sy(g, (number / 2 % 2) as u16, refused);
            let times = 1 + (number + usize::from(refused)) % 5;
            let frame = cases::hit_at(sent, hits);
            put(cases, b'p', &frame, within + 8192 * times);
        }
    }
    for number in [0, 1, 14, 15] {
        let frame = cases::hit_at(with_sy(g, 1, false), SETTING_SP[number]);
        put(cases, b'p', &frame, within + 8192 * 4);
    }
    for (sy, refused) in KINDS {
        let frames = [0, 8, 11].map(|n| cases::hit_at(with_sy(g, sy, refused), ONE_HIT[n]));
        let blocks: Vec<&[Frame]> = frames.chunks(1).collect();
        let recording = cases::sound(7, 1, &blocks);
        for header in [14, 38, 62] {
            for times in [1, 2, 3, 4, 5] {
                put(cases, b'p', &recording, header + 8192 * times);
            }
        }
        // No step is made over the data hit.
        for times in [0, 6, 7] {
            put(cases, b'p', &recording, 62 + 8192 * times);
        }
    }
}

/// The eleven guarded data bits: field and bit.
#[rustfmt::skip]
const DATA_BITS: [(usize, usize); 11] = [
    (11, 5), (11, 6), (11, 7), (12, 4), (16, 4), (19, 5), (19, 6), (19, 7), (20, 4), (24, 4), (27, 0),
];

/// What numbers mean, and which data hits have one: the eleven, their neighbours, the parity bits, and far ones.
fn corrections(cases: &mut Vec<u8>) {
    let mut all: BTreeSet<usize> = (0..=16).chain([255, 65_535]).collect();
    let mut name = |field: usize, bit: usize| all.insert(field + 256 * bit);
    for (field, bit) in DATA_BITS {
        for field in [field - 1, field, field + 1] {
            name(field, bit);
        }
        name(field, bit + 1);
        name(field, bit.saturating_sub(1));
    }
    // The same in the lower bits of the field or of the bit, and the two the other way round.
    for (field, bit) in [(11, 5), (20, 4), (27, 0)] {
        for far in [16, 32, 64, 128] {
            name(field, bit + far);
        }
        name(field + 32, bit);
        name(field + 128, bit);
        name(bit, field);
    }
    for bit in 0..4 {
        name(0, bit);
        name(28, bit);
    }
    for field in [0, 11, 27, 28, 255] {
        for bit in [8, 15, 16, 255] {
            name(field, bit);
        }
    }
    for n in all {
        put(cases, b'c', &[], n);
    }
}

/// Numbers that are mixed, all ones and all zeros after data hits, within the 29 numbers and their sixteen bits and
/// beyond; each of the eleven; and where fewer numbers are given.
fn inverted(cases: &mut Vec<u8>, g: &mut Generator) {
    let mut mixed = || std::array::from_fn::<u16, { FIELDS + 1 }, _>(|_| g.next() as u16);
    for field in [0, 1, 11, 27, 28, 29, 255] {
        for bit in [0, 5, 15, 16, 255] {
            put(cases, b'm', &pairs(&mixed()), field + 256 * bit);
        }
    }
    for same in [65_535, 0] {
        for field in [0, 11, 28, 29] {
            for bit in [0, 15, 16] {
                put(cases, b'm', &pairs(&[same; FIELDS + 1]), field + 256 * bit);
            }
        }
    }
    for (field, bit) in DATA_BITS {
        put(cases, b'm', &pairs(&mixed()), field + 256 * bit);
    }
    for count in [0, 1, 11, 12, 27, 28] {
        for (field, bit) in [(0, 0), (11, 15), (28, 5)] {
            put(cases, b'm', &pairs(&mixed()[..count]), field + 256 * bit);
        }
    }
}

/// A fresh state as it is lent.
const FRESH: LentState = [0; STATE_NUMBERS];

/// States that no recording leads to: flags beyond 1, a last SY that no frame has, Hz without a frame
/// heard, a last SY that is not said to be one.
#[rustfmt::skip]
const FOREIGN: [LentState; 9] = [
    [7, 65_535, 7, 300, 300, 300, 300, 300, 300, 300, 300, 300, 300],
    [65_535, 7, 65_535, 0, 0, 0, 0, 0, 0, 0, 0, 0, 0],
    [7, 0, 7, 65_535, 65_535, 65_535, 65_535, 65_535, 65_535, 65_535, 65_535, 65_535, 65_535],
    [0, 7, 7, 1, 2, 3, 4, 5, 6, 7, 8, 9, 10],
    [0, 0, 65_535, 65_535, 0, 65_535, 0, 65_535, 0, 65_535, 0, 65_535, 0],
    [256, 0, 1, 3_830, 3_190, 2_760, 2_225, 1_800, 1_470, 1_000, 620, 420, 210],
    [1, 256, 0, 1, 256, 257, 32_768, 255, 65_280, 4_095, 4_096, 43_690, 21_845],
    [32_768, 32_768, 32_768, 9, 9, 9, 9, 9, 9, 9, 9, 9, 9],
    [0, 1, 7, 0, 0, 0, 0, 0, 0, 0, 0, 0, 1],
];

/// A record's bytes after those of a state.
fn state_and_record(state: &LentState, record: &Record) -> Vec<u8> {
    [pairs(state), pairs(&record.fields)].concat()
}

/// Records heard and refused after any state, ours or not: heard after a fresh one and after others, with every
/// mark, refused with 2 at every field, with 6, and where bytes are too few or too many.
fn records_heard(cases: &mut Vec<u8>, g: &mut Generator) {
    let mut hear = |state: &LentState, record: &Record| {
        put(cases, b'h', &state_and_record(state, record), 0);
    };
    let with = |mut record: Record, sp: u16, sy: u16| {
        record.fields[26] = sp;
        record.fields[27] = sy;
        record
    };
    for sy in [0, 1] {
        hear(&FRESH, &with(Record::ZERO, 0, sy));
        for _ in 0..3 {
            hear(&FRESH, &with(g.record(), 0, sy));
        }
    }
    // Every index at its highest.
    let highest = Record {
        fields: WIDTHS.map(|width| ((1u32 << width) - 1) as u16),
    };
    for state in [FRESH, FOREIGN[0]] {
        for sy in [0, 1] {
            hear(&state, &with(highest, 0, sy));
        }
    }
    for sy in [0, 1, 0, 1] {
        let state = numbers_of(&State::after(lsp::frequencies(g.record().lsp()), sy));
        hear(&state, &g.record());
        hear(&state, &with(g.record(), 1, 1 - sy));
    }
    for _ in 0..12 {
        let state = numbers_of(&g.state());
        hear(&state, &g.record());
    }
    for state in FOREIGN {
        for sy in [0, 1] {
            hear(&state, &with(g.record(), 0, sy));
            hear(&state, &with(g.record(), 1, sy));
        }
    }
    // The state stands as it is given.
    for state in FOREIGN {
        let mut too_large = with(g.record(), 0, 1);
        too_large.fields[g.below(26)] = 512;
        hear(&state, &too_large);
    }
    for sy in [0, 1] {
        hear(&FRESH, &with(Record::ZERO, 1, sy));
        hear(&FRESH, &with(g.record(), 1, sy));
    }
    for mark in 1..=9 {
        let record = with_mark(g, mark);
        hear(&numbers_of(&g.state()), &record);
        // Refused with 6 a mark shows nowhere.
        if mark % 4 == 1 {
            hear(&FOREIGN[mark - 1], &with(record, 1, 0));
        }
    }
    for _ in 0..6 {
        hear(&numbers_of(&g.state()), &g.falling_record());
    }
    for (field, width) in WIDTHS.into_iter().enumerate() {
        let mut record = g.record();
        record.fields[field] = if field % 3 == 2 { 65_535 } else { 1 << width };
        let state = FOREIGN[field % 4];
        hear(&state, &record);
        // Refused with 2 also where SP is 1, and at the lowest of two.
        if field % 4 == 0 {
            record.fields[26] = 1;
            hear(&state, &record);
            record.fields[27] = 2;
            hear(&state, &record);
        }
    }
    for _ in 0..12 {
        hear(&numbers_of(&g.state()), &g.any_record());
    }
    // Records that are too short and too long, and no record at all.
    for length in [0, 1, 28, 54, 55, 57, 58, 98] {
        for state in [FRESH, FOREIGN[0], FOREIGN[4]] {
            let given = [pairs(&state), g.bytes(length)].concat();
            put(cases, b'h', &given, 0);
        }
    }
    // States that are cut.
    for length in [0, 1, 2, 3, 4, 5, 6, 7, 24, 25, 26] {
        let given: Vec<u8> = (0..length).map(|at| 255 - at as u8).collect();
        put(cases, b'h', &given, 0);
    }
    // The number says nothing.
    for n in [1, 17, 65_535] {
        let given = state_and_record(&FOREIGN[1], &g.record());
        put(cases, b'h', &given, n);
    }
}

/// The frames of the voice blocks of small recordings.
#[rustfmt::skip]
const BLOCKS: [&[usize]; 10] = [
    &[1], &[1, 1], &[1, 1, 1], &[2], &[3, 1], &[2, 1, 1], &[1, 3], &[5], &[1, 1, 2], &[2, 2],
];

/// Voice blocks of small recordings by their number, as far as there are any and beyond; and of recordings that are
/// refused in every way.
fn payloads(cases: &mut Vec<u8>, g: &mut Generator) {
    for blocks in BLOCKS {
        let voice: Vec<Vec<Frame>> = blocks
            .iter()
            .map(|&frames| (0..frames).map(|_| g.bytes18()).collect())
            .collect();
        let voice: Vec<&[Frame]> = voice.iter().map(|frames| &frames[..]).collect();
        let recording = cases::sound(g.next() as u32, g.next() as u32, &voice);
        // Of 256 the lower byte alone is the first one.
        let low = (blocks.len() == 1).then_some(256);
        for k in (0..=blocks.len()).chain([65_535]).chain(low) {
            put(cases, b'b', &recording, k);
        }
    }
    let sound = cases::sound(7, 1, &[&[g.bytes18()], &[g.bytes18()]]);
    let changed = |at: usize, to: u8| {
        let mut bytes = sound.clone();
        bytes[at] = to;
        bytes
    };
    // Cut, a wrong size, an unknown kind, out of turn, no end, a wrong number, bytes after the end.
    for refused in [
        sound[..3].to_vec(),
        sound[..40].to_vec(),
        sound[..71].to_vec(),
        changed(0, 9),
        changed(14, 17),
        changed(18, 4),
        sound[14..].to_vec(),
        [&sound[..14], &sound].concat(),
        sound[..62].to_vec(),
        changed(68, 3),
        [&sound[..], &[0]].concat(),
    ] {
        for k in [0, 1] {
            put(cases, b'b', &refused, k);
        }
    }
    for k in [0, 1, 65_535] {
        put(cases, b'b', &[], k);
    }
}

/// The cases that the stored answers are for: every fifth of all but those of hearing after a state and of voice
/// blocks, so that a run of them is short.
pub fn stored() -> Vec<u8> {
    let (first, _) = first_cases();
    let cases = first.chunks_exact(CASE_LENGTH).step_by(5);
    cases.flatten().copied().collect()
}

/// Every fifth of the others.
pub fn others() -> Vec<u8> {
    let all = cases();
    let cases = all.chunks_exact(CASE_LENGTH).step_by(5);
    let others = cases.skip(stored().len() / CASE_LENGTH);
    others.flatten().copied().collect()
}

/// All cases.
pub fn cases() -> Vec<u8> {
    let (mut cases, mut g) = first_cases();
    records_heard(&mut cases, &mut g);
    payloads(&mut cases, &mut g);
    cases
}

/// The cases of all other kinds, and the generator after them.
fn first_cases() -> (Vec<u8>, Generator) {
    let mut cases = Vec::new();
    let mut g = Generator::new(1016);
    let frame = |cases: &mut Vec<u8>, bytes: &[u8]| put(cases, b'r', bytes, RECORD_LENGTH);
    frame(&mut cases, &[0; 18]);
    frame(&mut cases, &[255; 18]);
    for place in 1..=144 {
        let mut only = [0; 18];
        frame::flip(&mut only, place);
        frame(&mut cases, &only);
    }
    for _ in 0..20 {
        frame(&mut cases, &g.bytes18());
        let mut damaged = frame::lay(&g.record());
        frame(&mut cases, &damaged);
        frame::flip(&mut damaged, GUARDED[g.below(15)]);
        frame(&mut cases, &damaged);
        frame::flip(&mut damaged, GUARDED[g.below(15)]);
        frame(&mut cases, &damaged);
        frame(&mut cases, &frame::lay(&g.falling_record()));
    }
    for length in [0, 1, 17, 19, 36, 56] {
        frame(&mut cases, &g.bytes(length));
    }
    for long in [0, 18, 55, 57, 60] {
        put(&mut cases, b'r', &g.bytes(18), long);
        put(&mut cases, b'r', &g.bytes(17), long);
    }
    let write = |cases: &mut Vec<u8>, record: &Record| {
        put(cases, b'w', &pairs(&record.fields), FRAME_LENGTH);
    };
    write(&mut cases, &Record::ZERO);
    for (field, width) in WIDTHS.into_iter().enumerate() {
        let mut record = Record::ZERO;
        record.fields[field] = 1;
        write(&mut cases, &record);
        record.fields[field] = 1 << width;
        write(&mut cases, &record);
        record.fields[26] = 1;
        write(&mut cases, &record);
    }
    for _ in 0..60 {
        write(&mut cases, &g.record());
        write(&mut cases, &g.any_record());
    }
    for _ in 0..12 {
        let mut record = g.falling_record();
        write(&mut cases, &record);
        record.fields[26] = 1;
        write(&mut cases, &record);
    }
    for length in [0, 18, 55, 57, 112] {
        put(&mut cases, b'w', &g.bytes(length), FRAME_LENGTH);
    }
    for long in [0, 17, 19, 56, 60] {
        put(&mut cases, b'w', &pairs(&g.record().fields), long);
        put(&mut cases, b'w', &pairs(&g.any_record().fields), long);
    }
    for frames in 1..=4 {
        for _ in 0..3 {
            let recording = small(&mut g, frames);
            for k in 0..=frames + 2 {
                put(&mut cases, b'k', &recording, k);
            }
            put(&mut cases, b'k', &recording[..recording.len() - 1], 1);
        }
    }
    let recording = small(&mut g, 4);
    for at in [
        0, 1, 13, 14, 15, 20, 30, 38, 74, 92, 98, 104, 106, 107, 108, 116, 200,
    ] {
        for left in [0, 1, 17, 18, 19, 36, 54, 200] {
            put(&mut cases, b'f', &recording, at + 256 * left);
        }
    }
    for at in [14, 20, 38, 92, 107] {
        for left in [0, 18, 31] {
            for frames in 0..8 {
                put(
                    &mut cases,
                    b'p',
                    &recording,
                    at + 256 * left + 8192 * frames,
                );
            }
        }
    }
    for n in 0..4 {
        for index in [0, 1, 2, 7, 8, 63, 64, 8191] {
            put(&mut cases, b'v', &frame::lay(&g.record()), n + 8 * index);
        }
        let mut expanded = g.record();
        expanded.fields[26] = 1;
        put(&mut cases, b'v', &frame::lay(&expanded), n + 8 * 500);
    }
    put(&mut cases, b'v', &[], 0);
    for (sy, refused) in KINDS {
        let given = with_sy(&mut g, sy, refused);
        for n in [4, 5] {
            for index in [0, 1, 2, 8191] {
                put(&mut cases, b'v', &given, n + 8 * index);
            }
        }
    }
    steps(&mut cases, &mut g);
    frames_with_refused(&mut cases, &mut g);
    readings_hit(&mut cases, &mut g);
    frames_hit(&mut cases, &mut g);
    steps_over_hits(&mut cases, &mut g);
    corrections(&mut cases);
    inverted(&mut cases, &mut g);
    (cases, g)
}

#[cfg(test)]
mod tests {
    use super::*;

    fn lines(kind: u8, given: &[u8], n: usize) -> String {
        let mut cases = Vec::new();
        put(&mut cases, kind, given, n);
        String::from_utf8(answers(&cases)).unwrap()
    }

    #[test]
    fn answers_are_those_of_the_documents() {
        let zeros = "0 ".repeat(56);
        let rest = "170 ".repeat(4);
        assert_eq!(
            lines(b'r', &[0; 18], 56),
            format!("0           {zeros}{rest}\n")
        );
        let unwritten = "170 ".repeat(60);
        assert_eq!(
            lines(b'r', &[0; 17], 56),
            format!("-1          {unwritten}\n")
        );
        assert_eq!(
            lines(b'w', &[0; 56], 17),
            format!("-1          {unwritten}\n")
        );
        let sample = cases::sample();
        assert_eq!(lines(b'f', &sample, 14), "20 18 \n");
        assert_eq!(lines(b'f', &sample, 38 + 256 * 18), "38 0 \n");
        assert_eq!(lines(b'f', &sample, 56), "\n");
        let zeros = "0 ".repeat(10);
        assert_eq!(
            lines(b'k', &sample, 1),
            format!("0 0 0 0 656 532 656 532 1 {HZ}0 \n")
        );
        assert_eq!(
            lines(b'k', &sample, 2),
            format!("15 2 27 0 0 0 656 532 656 532 1 {HZ}1 \n")
        );
        assert_eq!(
            lines(b'k', &sample, 3),
            format!("0 0 0 65536 0 0 0 0 0 1 {HZ}1 \n")
        );
        assert_eq!(
            lines(b'k', &sample, 0),
            format!("0 0 0 65536 0 0 0 0 0 {zeros}\n")
        );
        assert_eq!(
            lines(b'v', &[0; 18], 1 + 8 * 8),
            format!("2 10 0 0 0 0 0 1 {HZ}0 \n")
        );
        assert_eq!(
            lines(b'v', &[0; 18], 3 + 8),
            format!("6 0 0 0 0 0 1 {HZ}0 \n")
        );
    }

    /// The LSPs of a zero record.
    const HZ: &str = "100 210 420 620 1000 1470 1800 2225 2760 3190 ";

    /// The zero frame with this SY, refused with 6 if so said.
    fn zero_but_for(sy: u16, refused: bool) -> Frame {
        let mut record = Record::ZERO;
        record.fields[26] = refused.into();
        record.fields[27] = sy;
        frame::lay(&record)
    }

    #[test]
    fn a_refused_frame_leaves_its_sy_alone() {
        let zeros = "0 ".repeat(10);
        for sy in [0, 1] {
            let first = cases::sound(1, 1, &[&[zero_but_for(sy, true)]]);
            let expected = format!("0 0 6 0 0 0 0 0 {zeros}{sy} \n");
            assert_eq!(lines(b'k', &first, 1), expected);
            let expected = format!("0 0 0 65536 0 0 0 0 0 {zeros}{sy} \n");
            assert_eq!(lines(b'k', &first, 2), expected);
            let last = [zero_but_for(0, false), zero_but_for(sy, true)];
            let last = cases::sound(1, 1, &[&last]);
            let expected = format!("0 0 6 0 0 0 0 0 1 {HZ}{sy} \n");
            assert_eq!(lines(b'k', &last, 2), expected);
            let expected = format!("0 0 0 65536 0 0 0 0 0 1 {HZ}{sy} \n");
            assert_eq!(lines(b'k', &last, 3), expected);
        }
    }

    #[test]
    fn values_change_the_sy_that_is_kept() {
        let zeros = "0 ".repeat(10);
        for (kind, index, expected) in [
            (4, 0, format!("0 0 656 532 656 532 1 {HZ}0 \n")),
            (4, 1, format!("0 0 656 532 656 532 1 {HZ}1 \n")),
            (4, 2, format!("2 28 0 0 0 0 0 1 {HZ}0 \n")),
            (4, 8191, format!("2 28 0 0 0 0 0 1 {HZ}0 \n")),
            (5, 0, format!("6 0 0 0 0 0 1 {HZ}0 \n")),
            (5, 1, format!("6 0 0 0 0 0 1 {HZ}1 \n")),
            (5, 2, format!("2 28 0 0 0 0 0 1 {HZ}0 \n")),
            (5, 8191, format!("2 28 0 0 0 0 0 1 {HZ}0 \n")),
        ] {
            let said = lines(b'v', &zero_but_for(0, false), kind + 8 * index);
            assert_eq!(said, expected, "{kind} {index}");
            let said = lines(b'v', &[], kind + 8 * index);
            assert_eq!(said, expected, "{kind} {index}");
        }
        // After a record that is refused itself there is its SY alone.
        for (kind, index, expected) in [
            (0, 0, format!("6 0 0 0 0 0 {zeros}1 \n")),
            (3, 0, format!("0 0 656 532 656 532 1 {HZ}1 \n")),
            (3, 2, format!("2 27 0 0 0 0 0 {zeros}1 \n")),
            (5, 0, format!("6 0 0 0 0 0 {zeros}0 \n")),
            (5, 2, format!("2 28 0 0 0 0 0 {zeros}1 \n")),
        ] {
            let said = lines(b'v', &zero_but_for(1, true), kind + 8 * index);
            assert_eq!(said, expected, "{kind} {index}");
        }
    }

    #[test]
    fn a_step_from_every_kind_of_state() {
        let zeros = "0 ".repeat(10);
        let hz300 = "300 ".repeat(10);
        // The breaks after a frame with SY 0 and with SY 1, and the state if the frame leaves its SY alone.
        for (times, breaks, state) in [
            (1, [5, 6], zeros.clone()),
            (2, [5, 6], format!("1 {hz300}")),
            (3, [6, 5], zeros.clone()),
            (4, [5, 6], format!("1 {hz300}")),
            (5, [5, 5], format!("1 {hz300}")),
        ] {
            let n = 256 * 18 + 8192 * times;
            for sy in [0, 1] {
                let counts = format!("18 0 {} 3 {}", 11_001 * times + 1, breaks[sy]);
                let heard = lines(b'p', &zero_but_for(sy as u16, false), n);
                assert_eq!(heard, format!("{counts} 1 {HZ}{sy} \n"), "{times} {sy}");
                let refused = lines(b'p', &zero_but_for(sy as u16, true), n);
                assert_eq!(refused, format!("{counts} {state}{sy} \n"), "{times} {sy}");
            }
        }
        // No step: no frame there, or counts that no pass has.
        let sample = cases::sample();
        for (times, state) in [
            (0, zeros.clone()),
            (1, zeros.clone()),
            (2, format!("1 {hz300}")),
            (3, format!("{zeros}0 ")),
            (4, format!("1 {hz300}1 ")),
            (5, format!("1 {hz300}7 ")),
            (6, zeros.clone()),
            (7, zeros.clone()),
        ] {
            let frames = 11_001 * times;
            let said = lines(b'p', &sample, 56 + 8192 * times);
            assert_eq!(said, format!("56 0 {frames} 3 5 {state}\n"));
            if ![1, 2, 3, 4, 5].contains(&times) {
                let said = lines(b'p', &sample, 38 + 256 * 18 + 8192 * times);
                assert_eq!(said, format!("38 18 {frames} 3 5 {state}\n"));
            }
        }
        let said = lines(b'p', &sample, 14 + 8192);
        assert_eq!(said, format!("38 18 11002 3 5 1 {HZ}0 \n"));
        let said = lines(b'p', &sample, 38 + 256 * 18 + 8192 * 4);
        assert_eq!(said, format!("56 0 44005 4 6 1 {HZ}1 \n"));
    }

    /// What correction numbers 0 to 15 mean, as it is printed.
    const MEANT: [&str; 16] = [
        "0 0 ",
        "1 1 ",
        "2 1 ",
        "3 2 11 5 ",
        "4 1 ",
        "5 2 11 6 ",
        "6 2 11 7 ",
        "7 2 12 4 ",
        "8 1 ",
        "9 2 16 4 ",
        "10 2 19 5 ",
        "11 2 19 6 ",
        "12 2 19 7 ",
        "13 2 20 4 ",
        "14 2 24 4 ",
        "15 2 27 0 ",
    ];

    /// The numbers that are repairs.
    const REPAIRS: [usize; 11] = [3, 5, 6, 7, 9, 10, 11, 12, 13, 14, 15];

    #[test]
    fn the_reader_tells_its_result_and_the_record() {
        let rest = "170 ".repeat(4);
        for (places, result) in [
            (&[][..], "0           "),
            (&[21], "257         "),
            (&[134], "264         "),
            (&[11], "515         "),
            (&[104], "527         "),
        ] {
            let mut frame = [0; FRAME_LENGTH];
            for &place in places {
                frame::flip(&mut frame, place);
            }
            let zeros = "0 ".repeat(56);
            assert_eq!(lines(b'r', &frame, 56), format!("{result}{zeros}{rest}\n"));
        }
        // PD(1)-5 and PD(1)-6: PD(1) is 224; and LSP 9 at its highest, mark 9.
        let mut frame = [0; FRAME_LENGTH];
        for place in [11, 61, 39, 82, 130] {
            frame::flip(&mut frame, place);
        }
        let (before, between, after) = ("0 ".repeat(16), "0 ".repeat(3), "0 ".repeat(35));
        assert_eq!(
            lines(b'r', &frame, 56),
            format!("662         {before}7 {between}224 {after}{rest}\n")
        );
    }

    #[test]
    fn a_frame_tells_its_correction_heard_and_refused() {
        let zeros = "0 ".repeat(10);
        for (number, meant) in MEANT.into_iter().enumerate() {
            let hit = |refused| cases::hit_at(zero_but_for(1, refused), ONE_HIT[number]);
            let heard = cases::sound(1, 1, &[&[hit(false)]]);
            let expected = format!("{meant}0 0 656 532 656 532 1 {HZ}1 \n");
            assert_eq!(lines(b'k', &heard, 1), expected);
            let refused = cases::sound(1, 1, &[&[hit(true)]]);
            let expected = format!("{meant}6 0 0 0 0 0 {zeros}1 \n");
            assert_eq!(lines(b'k', &refused, 1), expected);
            let refused = cases::hit_at(zero_but_for(1, false), SETTING_SP[number]);
            let refused = cases::sound(1, 1, &[&[refused]]);
            assert_eq!(lines(b'k', &refused, 1), expected);
        }
    }

    #[test]
    fn a_step_counts_data_hits_alone_as_repaired() {
        for (number, hits) in ONE_HIT.into_iter().enumerate() {
            let repaired = 3 + usize::from(REPAIRS.contains(&number));
            for times in [1, 2, 3, 4, 5] {
                let frames = 11_001 * times + 1;
                let breaks = if times == 3 { 6 } else { 5 };
                for refused in [false, true] {
                    let frame = cases::hit_at(zero_but_for(0, refused), hits);
                    let said = lines(b'p', &frame, 256 * 18 + 8192 * times);
                    let counts = format!("18 0 {frames} {repaired} {breaks} ");
                    assert!(said.starts_with(&counts), "{number} {times}: {said}");
                }
            }
        }
    }

    #[test]
    fn numbers_mean_corrections_and_data_hits_have_numbers() {
        for (n, meant) in MEANT.into_iter().enumerate() {
            assert_eq!(lines(b'c', &[], n), format!("{meant}0 \n"));
        }
        for (number, field, bit) in [
            (3, 11, 5),
            (5, 11, 6),
            (6, 11, 7),
            (7, 12, 4),
            (9, 16, 4),
            (10, 19, 5),
            (11, 19, 6),
            (12, 19, 7),
            (13, 20, 4),
            (14, 24, 4),
            (15, 27, 0),
        ] {
            let said = lines(b'c', &[], field + 256 * bit);
            assert_eq!(said, format!("0 0 {number} \n"));
        }
        for (field, bit) in [
            (16, 0),
            (255, 0),
            (255, 255),
            (0, 1),
            (0, 2),
            (0, 3),
            (11, 4),
            (11, 8),
            (11, 21),
            (10, 5),
            (12, 5),
            (15, 4),
            (26, 0),
            (27, 1),
            (27, 16),
            (28, 0),
            (5, 11),
        ] {
            let said = lines(b'c', &[], field + 256 * bit);
            assert_eq!(said, "0 0 0 \n", "{field} {bit}");
        }
    }

    #[test]
    fn a_data_hit_inverts_one_bit_of_one_number() {
        let numbers: [u16; 29] = std::array::from_fn(|at| 100 * at as u16);
        let text = |numbers: &[u16]| {
            let words: String = numbers.iter().map(|n| format!("{n} ")).collect();
            words + "\n"
        };
        for (field, bit, before, after) in [
            (0, 0, 0, 1),
            (0, 15, 0, 32_768),
            (1, 5, 100, 68),
            (11, 5, 1_100, 1_132),
            (27, 0, 2_700, 2_701),
            (28, 0, 2_800, 2_801),
            (28, 15, 2_800, 35_568),
        ] {
            let mut expected = numbers;
            assert_eq!(expected[field], before);
            expected[field] = after;
            let said = lines(b'm', &pairs(&numbers), field + 256 * bit);
            assert_eq!(said, text(&expected), "{field} {bit}");
        }
        for (field, bit) in [(0, 16), (28, 16), (11, 255), (29, 0), (255, 5), (255, 255)] {
            let said = lines(b'm', &pairs(&numbers), field + 256 * bit);
            assert_eq!(said, text(&numbers), "{field} {bit}");
        }
        // What is not given is 0, and is inverted as well.
        let zeros = "0 ".repeat(28);
        assert_eq!(lines(b'm', &[], 0), format!("1 {zeros}\n"));
        assert_eq!(lines(b'm', &[], 28 + 256 * 15), format!("{zeros}32768 \n"));
        assert_eq!(lines(b'm', &[1, 2], 256), format!("515 {zeros}\n"));
    }

    #[test]
    fn every_correction_is_among_the_cases() {
        let cases = cases();
        let (mut results, mut heard) = (BTreeSet::new(), BTreeSet::new());
        let (mut steps, mut numbers) = (BTreeSet::new(), BTreeSet::new());
        let mut inverted = BTreeSet::new();
        let case = |number: u8| match number {
            0 => 'c',
            1 | 2 | 4 | 8 => 'p',
            _ => 'd',
        };
        for (kind, given, n) in parts(&cases) {
            match kind {
                b'r' => {
                    let result = frame::read_c(given, &mut vec![0; n]);
                    results.insert(result);
                }
                b'k' => {
                    let sound = recording::read(given).ok();
                    let frame = sound.and_then(|sound| sound.heard().nth(n.checked_sub(1)?));
                    if let Some(frame) = frame {
                        let number = frame.reading.correction.number();
                        heard.insert((number, frame.values.is_err()));
                    }
                }
                b'p' => {
                    if let Some((first, _)) = find(given, n % 256, n / 256 % 32) {
                        let reading = frame::read(&given[first..][..FRAME_LENGTH]).unwrap();
                        let number = reading.correction.number();
                        steps.insert((case(number), reading.record.sp(), n / 8192));
                    }
                }
                b'c' => {
                    assert!(given.is_empty());
                    assert!(numbers.insert(n), "{n} twice");
                }
                b'm' => {
                    inverted.insert((given.len(), n % 256, n / 256));
                }
                _ => {}
            }
        }
        for number in 0..16 {
            let hit = match case(number) {
                'c' => 0,
                'p' => 256,
                _ => 512,
            };
            for mark in [0, 9] {
                assert!(results.contains(&(hit + 16 * mark + i32::from(number))));
            }
            for refused in [false, true] {
                assert!(heard.contains(&(number, refused)), "{number} {refused}");
            }
        }
        for mark in 0..=9 {
            for hit in [0, 256, 512] {
                let shown = results.iter().any(|result| result >> 4 == mark + hit / 16);
                assert!(shown, "{mark} {hit}");
            }
        }
        for letter in ['c', 'p', 'd'] {
            for sp in [0, 1] {
                assert!((1..=5).all(|times| steps.contains(&(letter, sp, times))));
            }
        }
        for times in [0, 6, 7] {
            assert!(steps.contains(&('d', 0, times)), "{times}");
        }
        for n in (0..=16).chain([27, 28, 255, 65_535]) {
            assert!(numbers.contains(&n), "{n}");
        }
        for (field, bit) in DATA_BITS {
            for (field, bit) in [
                (field, bit),
                (field - 1, bit),
                (field + 1, bit),
                (field, bit + 1),
            ] {
                assert!(numbers.contains(&(field + 256 * bit)), "{field} {bit}");
            }
        }
        for field in [0, 1, 11, 27, 28, 29, 255] {
            for bit in [0, 5, 15, 16, 255] {
                assert!(inverted.contains(&(58, field, bit)), "{field} {bit}");
            }
        }
        for given in [0, 2, 22, 56] {
            assert!(inverted.contains(&(given, 28, 5)), "{given}");
        }
    }

    /// The kind, what is given and n of each case.
    fn parts(cases: &[u8]) -> impl Iterator<Item = (u8, &[u8], usize)> {
        cases.chunks_exact(CASE_LENGTH).map(|case| {
            let n = usize::from(u16::from_le_bytes([case[2], case[3]]));
            (case[0], &case[CASE_HEAD..][..usize::from(case[1])], n)
        })
    }

    #[test]
    fn every_kind_of_state_and_outcome_is_among_the_cases() {
        let cases = cases();
        let (mut steps, mut changed) = (BTreeSet::new(), BTreeSet::new());
        let mut heard = BTreeSet::new();
        for (kind, given, n) in parts(&cases) {
            match kind {
                b'p' => {
                    if let Some((first, _)) = find(given, n % 256, n / 256 % 32) {
                        let record = frame::read(&given[first..][..FRAME_LENGTH]).unwrap().record;
                        steps.insert((n / 8192, record.sy(), record.sp()));
                    }
                }
                b'v' if [4, 5].contains(&(n % 8)) => {
                    let record = frame::read(given).unwrap().record;
                    changed.insert((n % 8, n / 8, record.sy(), record.sp()));
                }
                b'k' => {
                    if let Ok(sound) = recording::read(given) {
                        let refused = |k: usize| {
                            let heard = k.checked_sub(1).and_then(|k| sound.heard().nth(k));
                            heard.map(|heard| heard.values.is_err())
                        };
                        heard.insert((n.min(2), refused(n.wrapping_sub(1)), refused(n)));
                    }
                }
                _ => {}
            }
        }
        for (sy, sp) in [(0, 0), (1, 0), (0, 1), (1, 1)] {
            assert!((0..8).all(|times| steps.contains(&(times, sy, sp))));
            for index in [0, 1, 2, 8191] {
                assert!([4, 5]
                    .iter()
                    .all(|&n| changed.contains(&(n, index, sy, sp))));
            }
        }
        // Frame 0, the first one, one after another, and one past the last, refused or not.
        for kind in [
            (0, None, None),
            (1, None, Some(false)),
            (1, None, Some(true)),
            (2, Some(false), Some(false)),
            (2, Some(false), Some(true)),
            (2, Some(true), Some(false)),
            (2, Some(true), Some(true)),
            (2, Some(false), None),
            (2, Some(true), None),
        ] {
            assert!(heard.contains(&kind), "{kind:?}");
        }
    }

    /// A line of kind `h` taken apart: the result, the state, CG, PG, delays and averages.
    struct Said {
        result: i64,
        state: Vec<i64>,
        cg: Vec<i64>,
        pg: Vec<i64>,
        delays: Vec<i64>,
        averages: Vec<i64>,
    }

    fn taken_apart(line: &str) -> Said {
        let numbers: Vec<i64> = line
            .split_whitespace()
            .map(|word| word.parse().expect("a number"))
            .collect();
        assert_eq!(numbers.len(), 66);
        let part = |from: usize, count: usize| numbers[from..from + count].to_vec();
        Said {
            result: numbers[0],
            state: part(1, 13),
            cg: part(14, 4),
            pg: part(18, 4),
            delays: part(22, 4),
            averages: part(26, 40),
        }
    }

    /// Thirteen numbers as text.
    fn state_text(state: &LentState) -> String {
        state.map(|n| format!("{n} ")).concat()
    }

    /// Every value as it is before.
    fn untouched() -> String {
        format!("{:<12}", 77).repeat(8) + &"77 ".repeat(44)
    }

    #[test]
    fn a_record_is_heard_after_a_fresh_state() {
        let gains = [-1330, -993].map(|gain| format!("{gain:<12}").repeat(4));
        let eighths = "800 1680 3360 4960 8000 11760 14400 17800 22080 25520 ".repeat(4);
        for sy in [0, 1] {
            let mut record = Record::ZERO;
            record.fields[27] = sy;
            let given = state_and_record(&FRESH, &record);
            let expected = format!(
                "0           1 1 {sy} {HZ}{}656 532 656 532 {eighths}\n",
                gains.concat()
            );
            for n in [0, 1, 65_535] {
                assert_eq!(lines(b'h', &given, n), expected);
            }
            // Hz that were not heard, and a last SY that is none, do not matter.
            let mut state = [9; STATE_NUMBERS];
            state[..2].fill(0);
            let given = state_and_record(&state, &record);
            assert_eq!(lines(b'h', &given, 0), expected);
        }
    }

    #[test]
    fn averages_go_from_any_state_to_the_record() {
        // LSP 1 of 340 and then of 250 Hz, whatever says that a frame was heard.
        let mut record = Record::ZERO;
        record.fields[0] = 3;
        for heard in [1, 7, 256, 65_535] {
            let mut state = [340; STATE_NUMBERS];
            state[0] = heard;
            let said = taken_apart(&lines(b'h', &state_and_record(&state, &record), 0));
            assert_eq!(said.result, 1);
            let first: Vec<i64> = said.averages.iter().copied().step_by(10).collect();
            assert_eq!(first, [2630, 2450, 2270, 2090]);
            assert_eq!(said.state[..5], [1, 1, 0, 250, 210]);
        }
        let mut highest = [65_535; STATE_NUMBERS];
        highest[1] = 0;
        let said = taken_apart(&lines(b'h', &state_and_record(&highest, &record), 0));
        assert_eq!(said.averages[0], 7 * 65_535 + 250);
        assert_eq!(said.averages[39], 65_535 + 7 * 3190);
    }

    #[test]
    fn a_refused_record_leaves_what_is_lent() {
        for state in FOREIGN.into_iter().chain([FRESH]) {
            let as_given = state_text(&state) + &untouched();
            for length in [0, 1, 55, 57, 98] {
                let given = [pairs(&state), vec![1; length]].concat();
                let expected = format!("-1          {as_given}\n");
                assert_eq!(lines(b'h', &given, 0), expected, "{length}");
            }
            for (field, width) in WIDTHS.into_iter().enumerate() {
                for (index, sp) in [(1 << width, 0), (1 << width, 1), (65_535, 0)] {
                    let mut record = Record::ZERO;
                    record.fields[26] = sp;
                    record.fields[field] = index;
                    let said = lines(b'h', &state_and_record(&state, &record), 0);
                    assert_eq!(said, format!("-2          {as_given}\n"), "{field}");
                }
            }
            for sy in [0, 1] {
                let mut record = Record::ZERO;
                record.fields[26] = 1;
                record.fields[27] = sy;
                let mut after = state;
                after[0] = state[0].min(1);
                (after[1], after[2]) = (1, sy);
                let expected = format!("-6          {}{}\n", state_text(&after), untouched());
                let said = lines(b'h', &state_and_record(&state, &record), 0);
                assert_eq!(said, expected);
            }
        }
    }

    #[test]
    fn what_is_not_given_of_a_state_is_zero() {
        let bytes: Vec<u8> = (1..=26).collect();
        for length in 0..=26 {
            let mut whole = bytes[..length].to_vec();
            whole.resize(26, 0);
            let numbers: LentState = std::array::from_fn(|at| {
                u16::from(whole[2 * at]) + 256 * u16::from(whole[2 * at + 1])
            });
            let expected = format!("-1          {}{}\n", state_text(&numbers), untouched());
            assert_eq!(lines(b'h', &bytes[..length], 0), expected, "{length}");
        }
    }

    #[test]
    fn records_one_after_the_other_are_those_of_a_recording() {
        // The state after each record is lent to the next one, and the hearing of the frames says the same.
        let mut g = Generator::new(1017);
        for _ in 0..40 {
            let frames: Vec<Frame> = (0..12)
                .map(|_| match g.below(4) {
                    0 => frame::lay(&g.falling_record()),
                    1 => {
                        let sy = g.below(2) as u16;
                        with_sy(&mut g, sy, true)
                    }
                    _ => frame::lay(&g.record()),
                })
                .collect();
            let recording = cases::sound(7, 1, &[&frames[..5], &frames[5..]]);
            let text = String::from_utf8(crate::hear::hear(&recording)).expect("text");
            let mut state = FRESH;
            let heard = text.lines().filter(|line| line.starts_with("frame "));
            assert_eq!(heard.clone().count(), frames.len());
            for (frame, line) in frames.iter().zip(heard) {
                let record = frame::read(frame).expect("18 bytes").record;
                let said = taken_apart(&lines(b'h', &state_and_record(&state, &record), 0));
                let after = |word: &str, count: usize| -> Vec<i64> {
                    let words = line.split(' ').skip_while(|each| *each != word).skip(1);
                    let numbers = words.take(count).map(|n| n.parse().expect("a number"));
                    numbers.collect()
                };
                assert_eq!(said.state[1..3], [1, after("sy", 1)[0]]);
                if line.contains("refused 6") {
                    assert_eq!(said.result, -6);
                    assert_eq!(said.state[0], i64::from(state[0]));
                    assert_eq!(
                        said.state[3..],
                        state[3..].iter().map(|&n| i64::from(n)).collect::<Vec<_>>()
                    );
                } else {
                    assert_eq!(said.result, after("mark", 1)[0]);
                    assert_eq!(said.state[0], 1);
                    assert_eq!(said.state[3..], after("state", 10));
                    let gains = said.cg.iter().zip(&said.pg);
                    let gains: Vec<i64> = gains.flat_map(|(&cg, &pg)| [cg, pg]).collect();
                    assert_eq!(gains, after("gains", 8));
                    assert_eq!(said.delays, after("delays", 4));
                    assert_eq!(said.averages, after("averages", 40));
                }
                state = std::array::from_fn(|at| said.state[at] as u16);
            }
        }
    }

    #[test]
    fn payloads_stand_where_the_voice_blocks_do() {
        let sample = cases::sample();
        assert_eq!(lines(b'b', &sample, 0), "20 56 \n");
        assert_eq!(lines(b'b', &sample, 1), "0 0 \n");
        assert_eq!(lines(b'b', &sample[..65], 0), "0 0 \n");
        assert_eq!(lines(b'b', &[], 0), "0 0 \n");
        let three = cases::sound(7, 1, &[&[[1; 18]], &[[2; 18]; 2], &[[3; 18]]]);
        for (k, expected) in [
            (0, "20 38 \n"),
            (1, "44 80 \n"),
            (2, "86 104 \n"),
            (3, "0 0 \n"),
            (256, "0 0 \n"),
            (65_535, "0 0 \n"),
        ] {
            assert_eq!(lines(b'b', &three, k), expected, "{k}");
        }
        // The part of the caller's own buffer.
        for (_, given, k) in parts(&cases()).filter(|&(kind, _, _)| kind == b'b') {
            let part = recording::voice_block(given, k);
            let expected = match part {
                [] => "0 0 \n".to_string(),
                _ => {
                    let at = part.as_ptr() as usize - given.as_ptr() as usize;
                    format!("{at} {} \n", at + part.len())
                }
            };
            assert_eq!(lines(b'b', given, k), expected);
        }
    }

    /// What the cases of kinds `h` and `b` among some reach.
    fn reached(cases: &[u8]) -> BTreeSet<String> {
        let mut reached = BTreeSet::new();
        for (kind, given, n) in parts(cases) {
            match kind {
                b'h' => {
                    let said = taken_apart(&lines(b'h', given, n));
                    let byte = |at: usize| given.get(at).copied().unwrap_or(0);
                    let number = |at| u16::from_le_bytes([byte(2 * at), byte(2 * at + 1)]);
                    let flags = [number(0), number(1)].map(|flag| match flag {
                        0 | 1 => flag.to_string(),
                        _ => "any".to_string(),
                    });
                    let outcome = said.result.min(1);
                    reached.insert(format!("h {outcome} flags {}", flags.join(" ")));
                    reached.insert(format!("h {}", said.result));
                    reached.insert(format!("h {outcome} sy {}", said.state[2]));
                    if said.result == -1 {
                        reached.insert(format!("h of {} bytes", given.len()));
                    }
                    if said.result == -2 {
                        let pair = |f: usize| u32::from(number(13 + f));
                        let wrong = (0..FIELDS).find(|&f| pair(f) >= 1 << WIDTHS[f]);
                        reached.insert(format!("h -2 at {}", wrong.expect("one is too large") + 1));
                    }
                }
                b'b' => {
                    let sound = recording::read(given).ok();
                    let blocks = sound.map_or(0, |sound| sound.voice_blocks().count());
                    reached.insert(format!("b {n} of {blocks}"));
                    if let Err(fault) = recording::check(given) {
                        reached.insert(format!("b {}", fault.cause.number()));
                    }
                }
                _ => {}
            }
        }
        reached
    }

    #[test]
    fn every_way_of_hearing_a_record_is_among_the_cases() {
        let all = reached(&cases());
        let stored = reached(&others());
        for result in (-2..=9).chain([-6]) {
            assert!(all.contains(&format!("h {result}")), "{result}");
        }
        for result in [-6, -2, -1, 0, 1] {
            let begin = format!("h {result} ");
            assert!(stored.iter().any(|way| way.starts_with(&begin)), "{begin}");
        }
        for result in [-6, -2, 0] {
            for flags in ["0 0", "any any", "any 0", "0 any"] {
                let way = format!("h {result} flags {flags}");
                assert!(all.contains(&way), "{way}");
            }
        }
        for (result, sy) in [
            (0, 0),
            (0, 1),
            (1, 0),
            (1, 1),
            (-6, 0),
            (-6, 1),
            (-2, 7),
            (-1, 7),
        ] {
            assert!(
                all.contains(&format!("h {result} sy {sy}")),
                "{result} {sy}"
            );
        }
        for field in 1..=FIELDS {
            assert!(all.contains(&format!("h -2 at {field}")), "{field}");
        }
        for length in [0, 1, 6, 24, 25, 26, 26 + 55, 26 + 57, 124] {
            assert!(all.contains(&format!("h of {length} bytes")), "{length}");
        }
        for blocks in 1..=3 {
            for k in (0..=blocks).chain([65_535]) {
                assert!(
                    all.contains(&format!("b {k} of {blocks}")),
                    "{k} of {blocks}"
                );
            }
            let way = format!("of {blocks}");
            assert!(stored.iter().any(|each| each.ends_with(&way)), "{blocks}");
        }
        assert!(all.contains("b 256 of 1"));
        // Every fifth of them show a first, a second and a third payload, and where there is none.
        for k in 0..3 {
            let mut there = (k + 1..=3).map(|blocks| format!("b {k} of {blocks}"));
            assert!(there.any(|way| stored.contains(&way)), "{k}");
        }
        for ways in [
            ["b 1 of 1", "b 2 of 2", "b 3 of 3"],
            ["b 0 of 0", "b 5", "b 8"],
        ] {
            assert!(ways.iter().any(|&way| stored.contains(way)), "{ways:?}");
        }
        for result in [-6, -2, 0] {
            let begin = format!("h {result} flags any");
            assert!(stored.iter().any(|way| way.starts_with(&begin)), "{begin}");
        }
        for cause in 2..=9 {
            assert!(all.contains(&format!("b {cause}")), "{cause}");
        }
    }

    #[test]
    fn records_heard_and_payloads_are_the_last_cases() {
        let cases = cases();
        let kinds: Vec<u8> = parts(&cases).map(|(kind, _, _)| kind).collect();
        let (first, last) = kinds.split_at(1_426);
        assert!(first.iter().all(|kind| b"rwkcmfpv".contains(kind)));
        assert!(last[..191].iter().all(|&kind| kind == b'h'));
        assert!(last[191..].iter().all(|&kind| kind == b'b'));
        let [stored, others] = [stored(), others()].map(|cases| cases.len() / CASE_LENGTH);
        assert_eq!((kinds.len(), stored, others), (1_685, 286, 51));
    }

    #[test]
    fn every_refusal_is_reached() {
        let text = String::from_utf8(answers(&cases())).unwrap();
        for number in ["-1 ", "-2 ", "-3 ", "-6 "] {
            assert!(
                text.lines().any(|line| line.starts_with(number)),
                "{number}"
            );
        }
        assert!(cases().chunks_exact(CASE_LENGTH).len() > 600);
    }
}
