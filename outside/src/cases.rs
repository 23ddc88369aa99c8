//! Cases to compare answers on: frames, records, states, delays, and recordings sound and
//! damaged in every way the documents name, alone and combined. Everything comes from a seeded
//! generator (splitmix64), so the same seed always gives the same cases.

use crate::delays::{self, base};
use crate::excitation::Subframe;
use crate::frame::{self, Record, FRAME_LENGTH};
use crate::lsp::State;
use crate::recording::{self, END, HEAD, HEADER_LENGTH, VOICE};
use crate::refusal::Refusal;
use crate::tables::{FIELDS, GUARDED, LSP, TWELFTHS, WIDTHS};

pub type Frame = [u8; FRAME_LENGTH];

/// A splitmix64 generator.
#[derive(Clone, Debug)]
pub struct Generator {
    state: u64,
}

impl Generator {
    pub fn new(seed: u64) -> Self {
        Generator { state: seed }
    }

    #[allow(clippy::should_implement_trait)]
    pub fn next(&mut self) -> u64 {
        self.state = self.state.wrapping_add(0x9E37_79B9_7F4A_7C15);
        let mut z = self.state;
        z = (z ^ z >> 30).wrapping_mul(0xBF58_476D_1CE4_E5B9);
        z = (z ^ z >> 27).wrapping_mul(0x94D0_49BB_1331_11EB);
        z ^ z >> 31
    }

    /// A number from 0 to n - 1.
    pub fn below(&mut self, n: usize) -> usize {
        (self.next() % n as u64) as usize
    }

    pub fn one_of<T: Copy>(&mut self, all: &[T]) -> T {
        all[self.below(all.len())]
    }

    pub fn bytes(&mut self, length: usize) -> Vec<u8> {
        (0..length).map(|_| self.next() as u8).collect()
    }

    /// Any 18 bytes.
    pub fn bytes18(&mut self) -> Frame {
        std::array::from_fn(|_| self.next() as u8)
    }

    /// A record within its widths, in any order and with any SP.
    fn record_within_widths(&mut self) -> Record {
        Record {
            fields: std::array::from_fn(|f| self.below(1 << WIDTHS[f]) as u16),
        }
    }

    /// A record that the writer accepts.
    pub fn record(&mut self) -> Record {
        let mut record = self.record_within_widths();
        let mut least = 0;
        for (index, hz) in record.fields.iter_mut().zip(LSP) {
            let lowest = hz.partition_point(|&hz| hz < least);
            *index = (lowest + self.below(hz.len() - lowest)) as u16;
            least = hz[usize::from(*index)];
        }
        record.fields[26] = 0;
        record
    }

    /// A record whose LSPs fall somewhere, with SP 0.
    pub fn falling_record(&mut self) -> Record {
        loop {
            let mut record = self.record_within_widths();
            record.fields[26] = 0;
            if record.order_mark() != 0 {
                return record;
            }
        }
    }

    /// Any record: accepted, falling, with SP set, with indices too large, or several of these.
    pub fn any_record(&mut self) -> Record {
        let mut record = match self.below(4) {
            0 => self.falling_record(),
            1 => self.record_within_widths(),
            _ => self.record(),
        };
        if self.below(8) == 0 {
            record.fields[26] = 1;
        }
        if self.below(4) == 0 {
            for _ in 0..1 + self.below(3) {
                let field = self.below(FIELDS);
                let past = 1 << WIDTHS[field];
                let any = self.next() as u16;
                record.fields[field] = self.one_of(&[past, past, past + 1, 65_535, any]);
            }
        }
        record
    }

    /// Any state, ours or not.
    pub fn state(&mut self) -> State {
        let hz: [u16; 10] = std::array::from_fn(|_| self.next() as u16);
        let last_sy = [None, Some(0), Some(1), Some(7), Some(hz[1])];
        let mut state = State {
            hz,
            heard: true,
            last_sy: last_sy[usize::from(hz[0] % 5)],
        };
        match self.below(8) {
            0 => state.hz = [65_535; 10],
            1 => state.hz = [0; 10],
            2 => state.heard = false,
            _ => {}
        }
        state
    }

    /// Four delays in twelfths: mostly in the list, and subframes 2 and 4 mostly near their
    /// windows.
    pub fn delays(&mut self) -> [u32; 4] {
        let mut before = 0;
        std::array::from_fn(|n| {
            let near = n % 2 == 1 && self.below(8) != 0;
            let rank = if near {
                (i32::from(base(before)) + self.below(70) as i32 - 3).clamp(0, 255) as u8
            } else {
                self.below(256) as u8
            };
            before = rank;
            let delay = u32::from(TWELFTHS[usize::from(rank)]);
            match self.below(40) {
                0 => delay + 1,
                1 => delay - 1,
                2 => self.one_of(&[0, 239, 1765, 1776, 65_535, 65_536 + 240, u32::MAX]),
                _ => delay,
            }
        })
    }

    /// A frame for a recording, hit or not; it reads with this SY unless that is hit too.
    pub fn frame(&mut self, sy: u16) -> Frame {
        let mut record = self.record();
        record.fields[27] = sy;
        let mut frame = frame::lay(&record);
        match self.below(16) {
            0 => frame = self.bytes18(),
            1 | 2 => frame::flip(&mut frame, self.one_of(&GUARDED)),
            3 => {
                let first = self.below(15);
                let second = (first + 1 + self.below(14)) % 15;
                frame::flip(&mut frame, GUARDED[first]);
                frame::flip(&mut frame, GUARDED[second]);
            }
            4 => {
                for _ in 0..1 + self.below(12) {
                    frame::flip(&mut frame, 1 + self.below(144));
                }
            }
            5 | 6 => {
                record.fields[26] = 1;
                frame = frame::lay(&record);
                if self.below(2) == 0 {
                    frame::flip(&mut frame, self.one_of(&GUARDED));
                }
            }
            7 | 8 => {
                record = self.falling_record();
                record.fields[27] = sy;
                record.fields[26] = (self.below(8) == 0).into();
                frame = frame::lay(&record);
            }
            9 => frame::flip(&mut frame, SY_PLACE),
            10 => frame = self.one_of(&[[0; 18], [255; 18]]),
            _ => {}
        }
        frame
    }

    /// The frames of a recording, in voice blocks. In three of four no SY is hit, and then the SY
    /// are in turn but where frames are lost or come again; in some many frames are refused with 6.
    fn voice(&mut self) -> Vec<Vec<Frame>> {
        let frames = match self.below(100) {
            0..=79 => 1 + self.below(12),
            80..=97 => 13 + self.below(48),
            _ => 200 + self.below(800),
        };
        let most_in_block = self.one_of(&[1, 2, 5, 20, 1000]);
        let in_turn = self.below(4) != 0;
        let refused_of_8 = self.one_of(&[0, 0, 0, 0, 1, 1, 2, 2, 4, 8]);
        let mut voice: Voice = Vec::new();
        for block in 0.. {
            let count = (1 + self.below(most_in_block)).min(frames - voice.len());
            for _ in 0..count {
                let sy = (voice.len() % 2) as u16;
                let mut frame = self.frame(sy);
                if self.below(8) < refused_of_8 {
                    let mut record = self.record();
                    (record.fields[26], record.fields[27]) = (1, sy);
                    frame = frame::lay(&record);
                }
                if in_turn && frame::read_frame(&frame).record.sy() != sy {
                    frame::flip(&mut frame, SY_PLACE);
                }
                voice.push((block, frame));
            }
            if voice.len() == frames {
                break;
            }
        }
        for _ in 0..self.one_of(&[0, 1, 1, 1, 2, 5]) {
            self.lose_or_repeat(&mut voice);
        }
        let blocks = voice.chunk_by(|a, b| a.0 == b.0);
        blocks
            .map(|block| block.iter().map(|&(_, frame)| frame).collect())
            .collect()
    }

    /// Loses one frame, two in a row or three, or lets one come once or twice more: at the front,
    /// at the end, beside the edge of two voice blocks, or anywhere. A frame stays.
    fn lose_or_repeat(&mut self, voice: &mut Voice) {
        let edges: Vec<usize> = (1..voice.len())
            .filter(|&k| voice[k].0 != voice[k - 1].0)
            .collect();
        let at = match self.below(8) {
            0 | 1 => 0,
            2 => voice.len() - 1,
            3 | 4 if !edges.is_empty() => self.one_of(&edges) - self.below(2),
            _ => self.below(voice.len()),
        };
        if self.below(4) == 0 {
            for _ in 0..1 + self.below(2) {
                voice.insert(at, voice[at]);
            }
            return;
        }
        let count = self.one_of(&[1, 1, 1, 2, 2, 3]);
        if count < voice.len() {
            let at = at.min(voice.len() - count);
            voice.drain(at..at + count);
        }
    }
}

/// Frames, each with the number of its voice block.
type Voice = Vec<(usize, Frame)>;

/// The place of SY.
const SY_PLACE: usize = 144;

/// A block as it is put down: its length may say something else than its payload.
#[derive(Clone, Debug)]
struct Block {
    length: u32,
    kind: u16,
    payload: Vec<u8>,
}

impl Block {
    fn new(kind: u16, payload: Vec<u8>) -> Self {
        Block {
            length: payload.len() as u32,
            kind,
            payload,
        }
    }

    fn head(unit: u32, number: u32) -> Self {
        Block::new(HEAD, [unit.to_le_bytes(), number.to_le_bytes()].concat())
    }

    fn voice(frames: &[Frame]) -> Self {
        Block::new(VOICE, frames.concat())
    }

    fn end(frames: u32) -> Self {
        Block::new(END, frames.to_le_bytes().to_vec())
    }

    /// A block whose payload is zeros.
    fn zeros(kind: u16, length: usize) -> Self {
        Block::new(kind, vec![0; length])
    }

    fn saying(mut self, length: u32) -> Self {
        self.length = length;
        self
    }
}

fn joined(blocks: &[Block]) -> Vec<u8> {
    let mut bytes = Vec::new();
    for block in blocks {
        bytes.extend_from_slice(&block.length.to_le_bytes());
        bytes.extend_from_slice(&block.kind.to_le_bytes());
        bytes.extend_from_slice(&block.payload);
    }
    bytes
}

fn sound_blocks(unit: u32, number: u32, voice: &[impl AsRef<[Frame]>]) -> Vec<Block> {
    let mut blocks = vec![Block::head(unit, number)];
    let mut frames = 0;
    for voice in voice {
        blocks.push(Block::voice(voice.as_ref()));
        frames += voice.as_ref().len() as u32;
    }
    blocks.push(Block::end(frames));
    blocks
}

/// A sound recording of these voice blocks.
pub fn sound(unit: u32, number: u32, voice: &[&[Frame]]) -> Vec<u8> {
    joined(&sound_blocks(unit, number, voice))
}

/// The sample of the documents: unit 7, recording 1, one voice block of two frames; frame 1 is
/// zero, frame 2 has only places 104 and 144 set.
pub fn sample() -> Vec<u8> {
    let mut second = [0; FRAME_LENGTH];
    frame::flip(&mut second, 104);
    frame::flip(&mut second, 144);
    sound(7, 1, &[&[[0; FRAME_LENGTH], second]])
}

/// Frames that the writer makes, each of its own, with SY 0, 1, 0 and so on.
pub fn spoken(seed: u64, count: usize) -> Vec<Frame> {
    let mut g = Generator::new(seed);
    let mut written = |k| {
        let mut record = g.record();
        record.fields[27] = (k % 2) as u16;
        frame::lay(&record)
    };
    (0..count).map(&mut written).collect()
}

/// A recording at an edge, with the refusal it must get, or none.
#[derive(Clone, Debug)]
pub struct Edge {
    pub name: String,
    pub bytes: Vec<u8>,
    pub refused: Option<Refusal>,
}

/// The named edges.
pub fn edges() -> Vec<Edge> {
    let mut edges = Edges(Vec::new());
    edges.short();
    edges.sound();
    edges.sizes();
    edges.kinds();
    edges.turns();
    edges.ends();
    edges.lengths();
    edges.limits();
    edges.broken();
    edges.in_a_row();
    edges.told_sizes();
    edges.after_voices();
    edges.frames_left();
    edges.wild_lengths();
    edges.few_at_the_limit();
    edges.many_at_the_limit();
    edges.wild_at_the_limit();
    edges.breaks();
    edges.refused_and_breaks();
    edges.hits();
    edges.whole_delays();
    edges.gains();
    edges.loud();
    edges.refused_subframes();
    edges.refused_frames();
    edges.hit_subframes();
    edges.0
}

struct Edges(Vec<Edge>);

/// Voice blocks of the frames of a voice that has SY 0, 1, 0 and so on, by their numbers from 1 on:
/// below 0 the frame is refused with 6, and 10 more than its number has its SY hit.
type Told<'a> = &'a [&'a [i8]];

/// Where frames are hit: of each the correction numbers of guarded places.
type Hits<'a> = &'a [&'a [usize]];

/// One hit that shows each correction number, 0 to 15, on a frame that is clean as sent.
#[rustfmt::skip]
pub const ONE_HIT: [&[usize]; 16] = [
    &[], &[1], &[2], &[3], &[4], &[5], &[6], &[7], &[8], &[9], &[10], &[11], &[12], &[13], &[14], &[15],
];

/// Two hits that show each, and three that show 0. None is mended, and 15 sets SP.
#[rustfmt::skip]
const FEW_HITS: [&[usize]; 16] = [
    &[1, 2, 3], &[2, 3], &[1, 3], &[1, 2], &[1, 5], &[1, 4], &[2, 4], &[3, 4],
    &[1, 9], &[1, 8], &[2, 8], &[3, 8], &[4, 8], &[5, 8], &[6, 8], &[7, 8],
];

/// Hits that show each and leave SP set, on a frame that has SP 0 as sent.
#[rustfmt::skip]
pub const SETTING_SP: [&[usize]; 16] = [
    &[1, 14, 15], &[14, 15], &[13, 15], &[12, 15], &[11, 15], &[10, 15], &[9, 15], &[8, 15],
    &[7, 15], &[6, 15], &[5, 15], &[4, 15], &[3, 15], &[2, 15], &[1, 15], &[7, 8],
];

/// Hits on parity bits alone that show each number of a data bit; the last one sets SP.
#[rustfmt::skip]
const DATA_BY_PARITY: [&[usize]; 11] = [
    &[1, 2], &[1, 4], &[2, 4], &[1, 2, 4], &[1, 8], &[2, 8], &[1, 2, 8], &[4, 8], &[1, 4, 8], &[2, 4, 8],
    &[1, 2, 4, 8],
];

/// The length of the head, and of the smallest sound recording up to its end block.
const AFTER_HEAD: u32 = 14;
const AFTER_VOICE: u32 = 38;
const AFTER_END: u32 = 48;

const ZERO: Frame = [0; FRAME_LENGTH];

fn head() -> Block {
    Block::head(7, 1)
}

fn voice() -> Block {
    Block::voice(&[ZERO])
}

fn end() -> Block {
    Block::end(1)
}

impl Edges {
    fn add(&mut self, name: impl Into<String>, bytes: Vec<u8>, refused: Option<Refusal>) {
        self.0.push(Edge {
            name: name.into(),
            bytes,
            refused,
        });
    }

    fn sound_one(&mut self, name: &str, bytes: Vec<u8>) {
        self.add(name, bytes, None);
    }

    fn refused(&mut self, name: impl Into<String>, bytes: Vec<u8>, number: u8, at: u32) {
        self.add(name, bytes, Some(Refusal::new(number, at)));
    }

    fn wrong_size(&mut self, name: impl Into<String>, bytes: Vec<u8>, at: u32, size: u32) {
        self.add(name, bytes, Some(Refusal::wrong_size(at, size)));
    }

    fn short(&mut self) {
        self.refused("empty", Vec::new(), 8, 0);
        for length in 1..=5 {
            self.refused(format!("{length} zeros"), vec![0; length], 9, 0);
        }
        self.refused("6 zeros", vec![0; 6], 8, 0);
        for kind in [HEAD, VOICE, END] {
            self.wrong_size(
                format!("only a header of kind {kind}"),
                joined(&[Block::zeros(kind, 0)]),
                0,
                0,
            );
        }
        self.refused(
            "only a header, payload missing",
            joined(&[Block::zeros(HEAD, 0).saying(8)]),
            10,
            0,
        );
        self.refused(
            "only a header, kind 4",
            joined(&[Block::zeros(4, 0).saying(1)]),
            10,
            0,
        );
        let whole = joined(&[head(), voice(), end()]);
        for length in 1..whole.len() {
            let (number, at) = match length {
                1..=5 => (9, 0),
                6..=13 => (10, 0),
                14 => (8, AFTER_HEAD),
                15..=19 => (9, AFTER_HEAD),
                20..=37 => (10, AFTER_HEAD),
                38 => (8, AFTER_VOICE),
                39..=43 => (9, AFTER_VOICE),
                _ => (10, AFTER_VOICE),
            };
            self.refused(
                format!("cut to {length} bytes"),
                whole[..length].to_vec(),
                number,
                at,
            );
        }
    }

    fn sound(&mut self) {
        self.sound_one("sample", sample());
        self.sound_one("one frame", joined(&[head(), voice(), end()]));
        self.sound_one(
            "largest unit and number",
            sound(u32::MAX, u32::MAX, &[&[[255; 18]]]),
        );
        let one_place = |place| {
            let mut frame = ZERO;
            frame::flip(&mut frame, place);
            frame
        };
        let places: Vec<Frame> = (1..=144).map(one_place).collect();
        self.sound_one("each place alone", sound(1, 2, &[&places]));
        let mut g = Generator::new(16);
        let written = frame::lay(&g.record());
        let mut pairs = Vec::new();
        for (at, &first) in GUARDED.iter().enumerate() {
            let mut one = written;
            frame::flip(&mut one, first);
            pairs.push(one);
            for &second in &GUARDED[at + 1..] {
                let mut two = one;
                frame::flip(&mut two, second);
                pairs.push(two);
            }
        }
        self.sound_one(
            "one and two guarded flips",
            sound(2, 3, &[&pairs[..60], &pairs[60..]]),
        );
        let mut expansion = Vec::new();
        for _ in 0..16 {
            let mut record = g.record();
            record.fields[26] = 1;
            expansion.push(frame::lay(&record));
        }
        for c in 1..=15 {
            frame::flip(&mut expansion[c], GUARDED[c - 1]);
        }
        self.sound_one("expansion bit set, and hit", sound(3, 4, &[&expansion]));
        let mut lsps_kept = vec![
            frame::lay(&g.record()),
            expansion[0],
            frame::lay(&g.record()),
        ];
        lsps_kept.extend([expansion[7], expansion[9], frame::lay(&g.record())]);
        self.sound_one(
            "LSPs kept over refused frames",
            sound(4, 5, &[&lsps_kept[..2], &lsps_kept[2..]]),
        );
        self.sound_one(
            "first frame refused",
            sound(5, 6, &[&expansion[..1], &lsps_kept[..1]]),
        );
        let falling: Vec<Frame> = (0..40).map(|_| frame::lay(&g.falling_record())).collect();
        self.sound_one("falling parameters", sound(6, 7, &[&falling]));
        let mut last_pair = Record::ZERO;
        last_pair.fields[..10].copy_from_slice(&[0, 0, 0, 12, 9, 0, 0, 7, 3, 0]);
        let mut frames = vec![frame::lay(&last_pair)];
        last_pair.fields[4] = 8;
        frames.push(frame::lay(&last_pair));
        self.sound_one("equal parameters, then a fall", sound(6, 8, &[&frames]));
        let mut delays = Vec::new();
        for byte in 0..256 {
            let mut record = Record::ZERO;
            record.fields[10] = byte;
            record.fields[14] = byte % 64;
            record.fields[18] = 255 - byte;
            record.fields[22] = 63 - byte % 64;
            record.fields[27] = byte % 2;
            delays.push(frame::lay(&record));
        }
        self.sound_one("every delay byte", sound(8, 9, &[&delays]));
    }

    fn sizes(&mut self) {
        for size in [0, 1, 7, 9, 16, 18] {
            let bytes = joined(&[Block::zeros(HEAD, size), voice(), end()]);
            self.wrong_size(format!("head of {size}"), bytes, 0, size as u32);
        }
        for size in [0, 1, 8, 17, 19, 35, 37] {
            let said = size as u32;
            let bytes = joined(&[head(), Block::zeros(VOICE, size), end()]);
            self.wrong_size(format!("voice of {size}"), bytes, AFTER_HEAD, said);
            let bytes = joined(&[head(), voice(), Block::zeros(VOICE, size), end()]);
            self.wrong_size(format!("second voice of {size}"), bytes, AFTER_VOICE, said);
        }
        for size in [0, 3, 5, 8, 18] {
            let bytes = joined(&[head(), voice(), Block::zeros(END, size)]);
            self.wrong_size(format!("end of {size}"), bytes, AFTER_VOICE, size as u32);
        }
    }

    fn kinds(&mut self) {
        for kind in [0, 4, 256, 512, 768, 0x0102, 65_535] {
            let strange = |size| Block::zeros(kind, size);
            let name = |place: &str| format!("kind {kind} {place}");
            self.refused(name("first"), joined(&[strange(8), voice(), end()]), 8, 0);
            self.refused(
                name("for voice"),
                joined(&[head(), strange(18), end()]),
                8,
                AFTER_HEAD,
            );
            self.refused(
                name("of no bytes"),
                joined(&[head(), strange(0), voice(), end()]),
                8,
                AFTER_HEAD,
            );
            self.refused(
                name("of odd size"),
                joined(&[head(), voice(), strange(7), end()]),
                8,
                AFTER_VOICE,
            );
            self.refused(
                name("for the end"),
                joined(&[head(), voice(), strange(4)]),
                8,
                AFTER_VOICE,
            );
            let past = strange(4).saying(5);
            self.refused(
                name("past the end"),
                joined(&[head(), voice(), past]),
                10,
                AFTER_VOICE,
            );
            let mut cut = joined(&[head(), voice(), strange(0)]);
            cut.pop();
            self.refused(name("cut"), cut, 9, AFTER_VOICE);
        }
    }

    fn turns(&mut self) {
        self.refused("no head", joined(&[voice(), end()]), 8, 0);
        self.refused("only an end", joined(&[Block::end(0)]), 8, 0);
        self.refused(
            "end and then all",
            joined(&[Block::end(0), head(), voice(), end()]),
            8,
            0,
        );
        self.refused(
            "voice before the head",
            joined(&[voice(), head(), end()]),
            8,
            0,
        );
        self.refused(
            "head twice",
            joined(&[head(), head(), voice(), end()]),
            8,
            AFTER_HEAD,
        );
        self.refused(
            "head after voice",
            joined(&[head(), voice(), head(), end()]),
            8,
            AFTER_VOICE,
        );
        for number in [0, 1, 65_535] {
            let bytes = joined(&[head(), Block::end(number)]);
            self.refused(format!("no voice, end of {number}"), bytes, 8, AFTER_HEAD);
        }
        self.refused(
            "end before voice",
            joined(&[head(), Block::end(0), voice(), end()]),
            8,
            AFTER_HEAD,
        );
        // On one block a wrong size or a length past the end comes before 8.
        self.wrong_size(
            "second head of 7",
            joined(&[head(), Block::zeros(HEAD, 7), voice(), end()]),
            AFTER_HEAD,
            7,
        );
        self.wrong_size(
            "end of 5 before voice",
            joined(&[head(), Block::zeros(END, 5)]),
            AFTER_HEAD,
            5,
        );
        self.wrong_size(
            "end of 3 first",
            joined(&[Block::zeros(END, 3), head(), voice(), end()]),
            0,
            3,
        );
        self.wrong_size(
            "voice of 17 first",
            joined(&[Block::zeros(VOICE, 17), head(), end()]),
            0,
            17,
        );
        self.wrong_size(
            "voice of 0 first",
            joined(&[Block::zeros(VOICE, 0), head(), end()]),
            0,
            0,
        );
        self.refused(
            "second head past the end",
            joined(&[head(), head().saying(9)]),
            10,
            AFTER_HEAD,
        );
        // But an earlier block's 8 comes before a later one's 11.
        self.refused(
            "head twice and then a voice of 17",
            joined(&[head(), head(), Block::zeros(VOICE, 17)]),
            8,
            AFTER_HEAD,
        );
        self.wrong_size(
            "voice of 17 and then a head",
            joined(&[head(), Block::zeros(VOICE, 17), head()]),
            AFTER_HEAD,
            17,
        );
    }

    fn ends(&mut self) {
        self.refused("no end", joined(&[head(), voice()]), 8, AFTER_VOICE);
        self.refused(
            "no end, two voices",
            joined(&[head(), voice(), voice()]),
            8,
            AFTER_VOICE + 24,
        );
        for number in [0, 2, 18, 256, 65_537, 0x0100_0000, 0x8000_0001, u32::MAX] {
            let blocks = [head(), voice(), Block::end(number)];
            let mut bytes = joined(&blocks);
            self.refused(
                format!("end's number {number}"),
                bytes.clone(),
                8,
                AFTER_VOICE,
            );
            bytes.push(0);
            self.refused(
                format!("end's number {number} and a byte"),
                bytes,
                8,
                AFTER_VOICE,
            );
        }
        let whole = joined(&[head(), voice(), end()]);
        for extra in [1, 2, 5, 6, 7, 10, 100] {
            for byte in [0, 255] {
                let mut bytes = whole.clone();
                bytes.resize(whole.len() + extra, byte);
                self.refused(
                    format!("{extra} bytes of {byte} after the end"),
                    bytes,
                    8,
                    AFTER_END,
                );
            }
        }
        self.refused(
            "two recordings",
            [whole.clone(), whole].concat(),
            8,
            AFTER_END,
        );
        self.refused(
            "end twice",
            joined(&[head(), voice(), end(), end()]),
            8,
            AFTER_END,
        );
        self.refused(
            "voice after the end",
            joined(&[head(), voice(), end(), voice()]),
            8,
            AFTER_END,
        );
        let mut cut = joined(&[head(), voice(), end(), end()]);
        cut.truncate(AFTER_END as usize + 3);
        self.refused("a cut header after the end", cut, 8, AFTER_END);
    }

    fn lengths(&mut self) {
        // 4,294,967,292 is a multiple of 18; 4,294,967,290 with the header wraps to 0.
        for length in [
            u32::MAX,
            4_294_967_292,
            4_294_967_290,
            4_294_967_284,
            0x8000_0000,
            0x7FFF_FFFF,
            65_536,
        ] {
            let name = |place: &str| format!("length {length} {place}");
            self.refused(
                name("of the head"),
                joined(&[head().saying(length), voice(), end()]),
                10,
                0,
            );
            self.refused(
                name("of a voice"),
                joined(&[head(), voice().saying(length), end()]),
                10,
                AFTER_HEAD,
            );
            self.refused(
                name("of the end"),
                joined(&[head(), voice(), end().saying(length)]),
                10,
                AFTER_VOICE,
            );
            let strange = Block::zeros(9, 4).saying(length);
            self.refused(
                name("of kind 9"),
                joined(&[head(), voice(), strange]),
                10,
                AFTER_VOICE,
            );
        }
        self.refused(
            "voice past the end",
            joined(&[head(), voice().saying(36), end()]),
            10,
            AFTER_HEAD,
        );
        self.refused(
            "voice past the end by one",
            joined(&[head(), voice().saying(29), end()]),
            10,
            AFTER_HEAD,
        );
        self.wrong_size(
            "voice over the end",
            joined(&[head(), voice().saying(28), end()]),
            AFTER_HEAD,
            28,
        );
        self.refused(
            "end past the end by one",
            joined(&[head(), voice(), end().saying(5)]),
            10,
            AFTER_VOICE,
        );
        self.wrong_size(
            "head shortened",
            joined(&[Block::zeros(HEAD, 8).saying(0), voice(), end()]),
            0,
            0,
        );
        // The eighteen zeros left over are then read as a header of kind 0.
        let blocks = [
            head(),
            Block::voice(&[ZERO, ZERO]).saying(18),
            Block::end(2),
        ];
        self.refused("voice shortened", joined(&blocks), 8, AFTER_VOICE);
        // A voice block can swallow the end block and what follows it.
        let blocks = [
            head(),
            voice().saying(36),
            end(),
            Block::zeros(9, 2),
            Block::end(2),
        ];
        self.sound_one("end swallowed by a voice", joined(&blocks));
        let swapped = joined(&[head().saying(8u32.swap_bytes()), voice(), end()]);
        self.refused("length with its bytes turned", swapped, 10, 0);
    }

    fn limits(&mut self) {
        let mut g = Generator::new(65_536);
        let frames: Vec<Frame> = (0..3640).map(|k| g.frame(k % 2)).collect();
        let most = sound(7, 2, &[&frames[..3639]]);
        let length = most.len() as u32;
        let longer = |extra: usize| {
            let mut bytes = most.clone();
            bytes.resize(most.len() + extra, 0);
            bytes
        };
        self.sound_one("the most frames", most.clone());
        self.refused("65,536 bytes, four too many", longer(4), 8, length);
        self.refused("65,537 bytes", longer(5), 1, 0);
        self.refused("one frame more than fits", sound(7, 3, &[&frames]), 1, 0);
        self.refused("65,536 zeros", vec![0; 65_536], 8, 0);
        self.refused("65,537 zeros", vec![0; 65_537], 1, 0);
        self.refused("65,537 bytes of 255", vec![255; 65_537], 1, 0);
        self.refused(
            "65,536 bytes, kind 9",
            joined(&[head(), Block::zeros(9, 65_516)]),
            8,
            AFTER_HEAD,
        );
        self.wrong_size(
            "65,536 bytes, voice size wrong",
            joined(&[head(), Block::zeros(VOICE, 65_516)]),
            AFTER_HEAD,
            65_516,
        );
        let three = [
            head(),
            Block::voice(&frames[..9]),
            Block::voice(&frames[9..10]),
            Block::voice(&frames[10..3639]),
        ];
        let mut cut = joined(&three);
        let at = cut.len() as u32;
        self.refused("end missing near the limit", cut.clone(), 8, at);
        cut.extend_from_slice(&[4, 0]);
        self.refused("65,536 bytes, header cut", cut, 9, at);
        let most_blocks: Vec<&[Frame]> = frames[..2729].chunks(1).collect();
        self.sound_one("the most voice blocks", sound(7, 4, &most_blocks));
        let mut blocks = sound_blocks(7, 5, &most_blocks);
        blocks.pop();
        let at = 14 + 24 * 2729;
        self.refused("the most voice blocks, no end", joined(&blocks), 8, at);
        blocks.push(Block::end(2728));
        self.refused(
            "the most voice blocks, wrong number",
            joined(&blocks),
            8,
            at,
        );
        let small: Vec<&[Frame]> = frames[..300].chunks(1).collect();
        self.sound_one("many small voice blocks", sound(7, 6, &small));
    }

    /// Blocks that are out of turn or unknown, and second voices, each cut, past the end, of a
    /// wrong size, and past the end with a wrong size.
    fn broken(&mut self) {
        for (place, before, kinds) in [
            ("first", &[][..], [VOICE, END, 4]),
            ("after the head", &[head()][..], [HEAD, END, 4]),
            ("after voice", &[head(), voice()][..], [HEAD, VOICE, 4]),
        ] {
            let before = joined(before);
            let at = before.len() as u32;
            let after = |bytes: &[u8]| [&before[..], bytes].concat();
            self.refused(format!("5 bytes of 255 {place}"), after(&[255; 5]), 9, at);
            for kind in kinds {
                let name = |what: &str| format!("kind {kind} {place}, {what}");
                let size = match kind {
                    HEAD => 8,
                    VOICE => 18,
                    END => 4,
                    _ => 7,
                };
                let said = size as u32;
                let whole = joined(&[Block::zeros(kind, size)]);
                self.refused(name("cut"), after(&whole[..5]), 9, at);
                let lacking = after(&whole[..whole.len() - 1]);
                self.refused(name("past the end"), lacking, 10, at);
                if kind <= END {
                    let past = joined(&[Block::zeros(kind, size).saying(said + 1)]);
                    self.refused(name("past the end, too large"), after(&past), 10, at);
                    let small = joined(&[Block::zeros(kind, size - 1)]);
                    self.wrong_size(name("too small"), after(&small), at, said - 1);
                }
            }
        }
        let past = joined(&[head().saying(9)]);
        self.refused("head past the end, too large", past, 10, 0);
        let past = joined(&[head(), voice(), Block::end(2).saying(5)]);
        let name = "end past the end, too large, its number wrong";
        self.refused(name, past, 10, AFTER_VOICE);
    }

    /// A refused block and then another: the first alone is told.
    fn in_a_row(&mut self) {
        let third = |block| vec![head(), voice(), block];
        let later = [
            ("a cut header", joined(&[voice()])[..5].to_vec()),
            ("a voice past the end", joined(&[voice().saying(36)])),
            ("a voice of 17", joined(&[Block::zeros(VOICE, 17)])),
            ("a head", joined(&[head()])),
        ];
        for (name, blocks, refusal) in [
            (
                "head after voice",
                third(head()),
                Refusal::new(8, AFTER_VOICE),
            ),
            (
                "end's number wrong",
                third(Block::end(2)),
                Refusal::new(8, AFTER_VOICE),
            ),
            ("the end", third(end()), Refusal::new(8, AFTER_END)),
            (
                "second voice of 35",
                third(Block::zeros(VOICE, 35)),
                Refusal::wrong_size(AFTER_VOICE, 35),
            ),
            (
                "end of 3",
                third(Block::zeros(END, 3)),
                Refusal::wrong_size(AFTER_VOICE, 3),
            ),
        ] {
            for (then, bytes) in &later {
                let bytes = [&joined(&blocks)[..], bytes].concat();
                self.add(format!("{name}, then {then}"), bytes, Some(refusal));
            }
        }
        self.wrong_size(
            "head of 9, then a voice of 17",
            joined(&[Block::zeros(HEAD, 9), Block::zeros(VOICE, 17), end()]),
            0,
            9,
        );
        self.wrong_size(
            "voice of 0, then an end of 5",
            joined(&[head(), Block::zeros(VOICE, 0), Block::zeros(END, 5)]),
            AFTER_HEAD,
            0,
        );
        self.refused(
            "voice past the end over a head",
            joined(&[head(), voice().saying(36), head()]),
            10,
            AFTER_HEAD,
        );
    }

    /// Ends of a wrong size whose number is right, and sizes and lengths at the limits.
    fn told_sizes(&mut self) {
        let bytes = joined(&[Block::zeros(HEAD, 12), voice(), end()]);
        self.wrong_size("head of 12", bytes, 0, 12);
        let mut long = end();
        long.payload.resize(9, 0);
        for size in [0, 3, 5, 8] {
            let name = format!("end of {size}, its number right");
            let mut bytes = joined(&[head(), voice(), long.clone().saying(size)]);
            let more = format!("{name}, and bytes after it");
            self.wrong_size(more, bytes.clone(), AFTER_VOICE, size);
            if size > 0 {
                bytes.truncate(bytes.len() - 9 + size as usize);
                self.wrong_size(name, bytes, AFTER_VOICE, size);
            }
        }
        for (n, at) in [0, AFTER_HEAD, AFTER_VOICE].into_iter().enumerate() {
            let mut blocks = [head(), voice(), end()];
            blocks[n].length += 65_536;
            let name = format!("kind {} saying 65,536 more", blocks[n].kind);
            self.refused(name, joined(&blocks), 10, at);
        }
        self.wrong_size(
            "65,536 bytes, head size wrong",
            joined(&[Block::zeros(HEAD, 65_530)]),
            0,
            65_530,
        );
        self.wrong_size(
            "65,536 bytes, end size wrong",
            joined(&[head(), voice(), Block::zeros(END, 65_492)]),
            AFTER_VOICE,
            65_492,
        );
        self.wrong_size(
            "the most frames and a byte in one voice",
            joined(&[head(), Block::zeros(VOICE, 65_503), Block::end(3639)]),
            AFTER_HEAD,
            65_503,
        );
        self.refused(
            "65,536 bytes, head past the end",
            joined(&[Block::zeros(HEAD, 65_530).saying(65_531)]),
            10,
            0,
        );
        self.refused(
            "65,536 bytes, voice past the end",
            joined(&[head(), Block::zeros(VOICE, 65_516).saying(65_520)]),
            10,
            AFTER_HEAD,
        );
        self.refused(
            "the largest voice that fits first",
            joined(&[Block::zeros(VOICE, 65_520)]),
            8,
            0,
        );
        self.refused(
            "65,537 bytes, head size wrong",
            joined(&[Block::zeros(HEAD, 65_531)]),
            1,
            0,
        );
        let mut cut = joined(&[head(), Block::zeros(VOICE, 65_466), voice(), voice()]);
        cut.extend_from_slice(&[4, 0, 0]);
        self.refused("65,537 bytes, header cut", cut, 1, 0);
    }

    /// Each cause of a refusal after the head and 0, 1 or 2 voice blocks, with good blocks after
    /// it where they can follow.
    fn after_voices(&mut self) {
        let frames = spoken(12, 7);
        let good = [Block::voice(&frames[5..]), Block::end(2)];
        for count in 0..=2 {
            let before = before_the_refusal(count, &frames);
            let at = before.len() as u32;
            let heard = [0, 2, 3][count];
            let name = |what: &str| format!("after {count} voices, {what}");
            let after = |blocks: &[Block]| [&before[..], &joined(blocks)].concat();
            let then_good = |block: Block| after(&[&[block], &good[..]].concat());
            let two_frames = |kind| Block::new(kind, frames[3..5].concat());

            self.refused(name("the end missing"), before.clone(), 8, at);
            for length in [1, 5] {
                let mut bytes = after(&[two_frames(VOICE)]);
                bytes.truncate(before.len() + length);
                self.refused(name(&format!("{length} bytes of a header")), bytes, 9, at);
            }
            for (what, kind) in [("a head", HEAD), ("an end", END), ("kind 4", 4)] {
                let bytes = after(&[two_frames(kind).saying(54)]);
                self.refused(name(&format!("{what} past the end")), bytes, 10, at);
            }
            for (what, kind, size) in [
                ("a head", HEAD, 9),
                ("a voice", VOICE, 0),
                ("a voice", VOICE, 35),
                ("an end", END, 5),
            ] {
                let mut block = two_frames(kind);
                block.payload.truncate(size);
                let bytes = then_good(block.saying(size as u32));
                let what = name(&format!("{what} of {size}, then good blocks"));
                self.wrong_size(what, bytes, at, size as u32);
            }
            for (what, block) in [
                ("kind 4", two_frames(4)),
                ("a second head", Block::head(9, 5)),
                ("an end saying two more", Block::end(heard + 2)),
            ] {
                let what = name(&format!("{what}, then good blocks"));
                self.refused(what, then_good(block), 8, at);
            }
            if count > 0 {
                let mut byte = after(&[Block::end(heard)]);
                byte.push(2);
                self.refused(name("a right end, then a byte"), byte, 8, at + 10);
                let bytes = then_good(Block::end(heard));
                self.refused(name("a right end, then good blocks"), bytes, 8, at + 10);
            }
        }
    }

    /// A voice block past the end with so many bytes left after its header: first, and after the
    /// head and 0, 1 or 2 voice blocks.
    fn frames_left(&mut self) {
        let frames = spoken(13, 5);
        let cut = |said: u32, left: usize| {
            let mut block = joined(&[Block::voice(&frames[3..]).saying(said)]);
            block.truncate(HEADER_LENGTH + left);
            block
        };
        for said in [54, 55] {
            let name = format!("a voice of {said} first, 36 bytes left");
            self.refused(name, cut(said, 36), 10, 0);
        }
        let blocks = [voice().saying(65_536), head(), voice(), end()];
        self.refused("a voice of 65536 first, over all", joined(&blocks), 10, 0);
        for count in 0..=2 {
            let before = before_the_refusal(count, &frames);
            let mut lengths: Vec<(u32, usize)> = Vec::new();
            for left in [0, 17, 18, 19, 35, 36] {
                lengths.extend([(54, left), (55, left)]);
            }
            if count == 1 {
                lengths.extend([(18, 17), (36, 35)]);
            }
            for (said, left) in lengths {
                let name = format!("after {count} voices, a voice of {said}, {left} left");
                let bytes = [&before[..], &cut(said, left)].concat();
                self.refused(name, bytes, 10, before.len() as u32);
            }
        }
    }

    /// The length of each of three voice blocks made so large that it runs over the blocks after
    /// it: to the end, past it by one byte, to a multiple of 18, by far.
    fn wild_lengths(&mut self) {
        let frames = spoken(14, 6);
        let blocks = sound_blocks(9, 6, &[&frames[..3], &frames[3..5], &frames[5..]]);
        // What stands after the header of each, up to the end of 150 bytes.
        for (k, at, rest) in [(1, 14, 130), (2, 74, 70), (3, 116, 28)] {
            for (said, refusal) in [
                (rest, Refusal::wrong_size(at, rest)),
                (rest + 1, Refusal::new(10, at)),
                (rest.next_multiple_of(18), Refusal::new(10, at)),
                (4_294_967_292, Refusal::new(10, at)),
            ] {
                let mut blocks = blocks.clone();
                blocks[k].length = said;
                let name = format!("voice {k} of three saying {said}");
                self.add(name, joined(&blocks), Some(refusal));
            }
        }
        // Up to the end to the byte and of whole frames: only the end is missing.
        let mut bytes = joined(&[head(), Block::voice(&frames[..1]).saying(36), end()]);
        bytes.extend([7; 8]);
        let length = bytes.len() as u32;
        self.refused("a voice over the end and eight bytes", bytes, 8, length);
    }

    /// A head and voice blocks that have no end, with some bytes more, near 65,536 bytes. With its
    /// end it would have 65,532, 65,538 or 65,544 bytes.
    fn few_at_the_limit(&mut self) {
        let frames = spoken(15, 3640);
        let more = joined(&[end()]);
        let past = |at| Refusal::new(10, at);
        let mut add = |counts: &[usize], said: Option<u32>, more: &[u8], refusal: Refusal| {
            self.at_the_limit(&frames, counts, said, more, refusal);
        };
        // 65,532 bytes with the end: no frame goes.
        for counts in [&[3639][..], &[1, 1, 1, 3635], &[3635, 1, 1, 1]] {
            add(counts, None, &[], Refusal::new(8, 65_522));
        }
        add(&[3639], None, &more[..5], Refusal::new(9, 65_522));
        let wrong = joined(&[Block::end(3640)]);
        add(&[3639], None, &wrong, Refusal::new(8, 65_522));
        let wrong = [&wrong[..], &[0; 4]].concat();
        add(&[3639], None, &wrong, Refusal::new(8, 65_522));
        let voice = joined(&[Block::voice(&frames[3639..])]);
        add(&[3639], None, &voice[..14], past(65_522));
        let next = &frames[3639];
        add(&[3639], Some(65_520), &[], past(14));
        add(&[3639], Some(65_520), &next[..14], past(14));
        add(&[3639], Some(65_517), &next[..14], past(14));
        // 65,538 bytes with the end: a frame goes, and its block if it is the only one.
        for counts in [[3638, 1], [3637, 2], [1, 3638]] {
            add(&counts, None, &[], Refusal::new(8, 65_528));
            add(&counts, None, &more[..8], past(65_528));
        }
        for length in [1, 5] {
            add(&[3638, 1], None, &more[..length], Refusal::new(9, 65_528));
        }
        for length in [6, 7] {
            add(&[3638, 1], None, &more[..length], past(65_528));
        }
        let small = joined(&[Block::new(END, vec![187, 14])]);
        add(&[1, 3638], None, &small, Refusal::wrong_size(65_528, 2));
        let strange = joined(&[Block::zeros(4, 2)]);
        add(&[3638, 1], None, &strange, Refusal::new(8, 65_528));
        for more in [&[][..], &next[..8]] {
            add(&[3638, 1], Some(36), more, past(65_504));
            add(&[3637, 2], Some(54), more, past(65_486));
            add(&[1, 3638], Some(65_502), more, past(38));
        }
        add(&[3638, 1], Some(27), &next[..7], past(65_504));
        add(&[1, 3638], Some(65_493), &next[..8], past(38));
        // 65,544 bytes with the end: a frame goes, and that is enough.
        for (length, number) in [(0, 8), (2, 9)] {
            for counts in [[1, 3637, 1], [1, 1, 3637]] {
                add(&counts, None, &more[..length], Refusal::new(number, 65_534));
            }
            let more = &next[..length];
            add(&[1, 3637, 1], Some(36), more, past(65_510));
            add(&[1, 1, 3637], Some(65_484), more, past(62));
        }
        add(&[1, 3637, 1], None, &more[..1], Refusal::new(9, 65_534));
        add(&[1, 1, 3637], Some(65_484), &next[..1], past(62));
        // A byte more than a recording may have.
        add(&[3639], Some(65_520), &next[..15], Refusal::LENGTH);
        add(&[1, 3638], Some(65_502), &next[..9], Refusal::LENGTH);
        add(&[1, 3637, 1], None, &more[..3], Refusal::LENGTH);
    }

    /// The same with almost as many voice blocks as frames.
    fn many_at_the_limit(&mut self) {
        let frames = spoken(16, 2731);
        let more = joined(&[end()]);
        let next = &frames[2730];
        let past = |at| Refusal::new(10, at);
        let ones = |count| vec![1; count];
        let mut add = |counts: &[usize], said: Option<u32>, more: &[u8], refusal: Refusal| {
            self.at_the_limit(&frames, counts, said, more, refusal);
        };
        // 65,532 bytes with the end.
        let last_three = [ones(2727), vec![3]].concat();
        let first_three = [vec![3], ones(2727)].concat();
        add(&last_three, None, &[], Refusal::new(8, 65_522));
        add(&first_three, None, &[], Refusal::new(8, 65_522));
        add(&last_three, Some(72), &next[..14], past(65_462));
        add(&first_three, Some(36), &next[..14], past(65_498));
        // 65,538 bytes with the end.
        let last_two = [ones(2728), vec![2]].concat();
        let first_two = [vec![2], ones(2728)].concat();
        for (more, number) in [(&[][..], 8), (&more[..8], 10)] {
            add(&last_two, None, more, Refusal::new(number, 65_528));
            add(&first_two, None, more, Refusal::new(number, 65_528));
        }
        for more in [&[][..], &next[..8]] {
            add(&last_two, Some(54), more, past(65_486));
            add(&first_two, Some(36), more, past(65_504));
        }
        // 65,544 bytes with the end.
        let all = ones(2730);
        for (length, number) in [(0, 8), (1, 9), (2, 9)] {
            add(&all, None, &more[..length], Refusal::new(number, 65_534));
            add(&all, Some(36), &next[..length], past(65_510));
        }
        add(&all, None, &more[..3], Refusal::LENGTH);
        add(&all, Some(36), &next[..3], Refusal::LENGTH);
        // The last frame is not whole: the others have room.
        add(&ones(2729), Some(36), &next[..17], past(65_486));
        let voice = joined(&[Block::voice(&frames[2729..2730])]);
        add(&ones(2729), None, &voice[..23], past(65_510));
    }

    /// A wild length over many blocks, up to 65,536 bytes and near it: with its end each would have
    /// 65,532, 65,538 or 65,544 bytes, and with a byte less 18 fewer.
    fn wild_at_the_limit(&mut self) {
        let frames = spoken(17, 3640);
        let mut voices = vec![&frames[..1], &frames[1..2]];
        voices.extend(frames[2..].chunks(40));
        let blocks = sound_blocks(9, 7, &voices);
        for (k, at, fewest) in [(1, 14, 65_522), (2, 38, 65_528), (3, 62, 65_534)] {
            let mut blocks = blocks.clone();
            blocks[k].length = 0x8000_0000;
            let bytes = joined(&blocks);
            for length in [65_536, fewest, fewest - 1] {
                let name = format!("{length} bytes, voice {k} of many wild");
                self.refused(name, bytes[..length].to_vec(), 10, at);
            }
        }
        let bytes = joined(&blocks)[..65_537].to_vec();
        self.refused("65537 bytes of many voices", bytes, 1, 0);
    }

    /// Frames lost, repeated and with SY hit.
    fn breaks(&mut self) {
        let told: &[(&str, Told)] = &[
            ("no frame lost", &[&[1, 2, 3, 4], &[5, 6, 7, 8]]),
            ("no frame lost, one voice", &[&[1, 2, 3, 4, 5, 6, 7, 8]]),
            ("the first frame lost", &[&[2, 3, 4], &[5, 6, 7, 8]]),
            ("a middle frame lost", &[&[1, 2, 4], &[5, 6, 7, 8]]),
            ("the last frame lost", &[&[1, 2, 3, 4], &[5, 6, 7]]),
            ("two in a row lost", &[&[1, 4], &[5, 6, 7, 8]]),
            ("the first two lost", &[&[3, 4], &[5, 6, 7, 8]]),
            ("two in a row lost over an edge", &[&[1, 2, 3], &[6, 7, 8]]),
            ("two lost apart", &[&[1, 3, 4], &[5, 6, 8]]),
            ("three in a row lost", &[&[1, 5, 6], &[7, 8]]),
            ("three in a row lost over an edge", &[&[1, 2], &[6, 7, 8]]),
            ("the first three lost", &[&[4], &[5, 6, 7, 8]]),
            ("a frame repeated", &[&[1, 2, 2, 3, 4], &[5, 6, 7, 8]]),
            ("a frame twice repeated", &[&[1, 2, 3, 3, 3], &[4, 5]]),
            ("a frame repeated over an edge", &[&[1, 2], &[2, 3, 4]]),
            ("the first frame repeated", &[&[1, 1, 2], &[3, 4]]),
            ("one lost before an edge", &[&[1, 2, 3], &[5, 6, 7, 8]]),
            ("one lost after an edge", &[&[1, 2, 3, 4], &[6, 7, 8]]),
            (
                "each frame in its own voice",
                &[&[1], &[2], &[3], &[4], &[5]],
            ),
            (
                "each frame in its own voice, one lost",
                &[&[1], &[2], &[4], &[5], &[6]],
            ),
            ("one frame with SY 1", &[&[2]]),
            ("one frame with SY 0", &[&[3]]),
            ("SY of the first hit", &[&[11, 2, 3], &[4, 5]]),
            ("SY of a middle one hit", &[&[1, 2, 13, 4, 5]]),
            ("SY before an edge hit", &[&[1, 2, 13], &[4, 5]]),
            ("SY after an edge hit", &[&[1, 2, 3], &[14, 5, 6]]),
            ("SY of the last hit", &[&[1, 2, 3], &[4, 15]]),
        ];
        for (name, voice) in told {
            self.told(name, voice);
        }
    }

    /// The same with frames refused with 6 among them.
    fn refused_and_breaks(&mut self) {
        let told: &[(&str, Told)] = &[
            ("a refused frame in turn", &[&[1, -2, 3, 4], &[5]]),
            ("a refused frame in turn at an edge", &[&[1, 2, -3], &[4]]),
            ("a refused frame that is a break", &[&[1, -3, 4], &[5]]),
            ("a refused frame in a row of breaks", &[&[1, -3, 5], &[6]]),
            ("a frame lost after a refused one", &[&[1, -2, 4, 5]]),
            ("a frame lost before a refused one", &[&[1, 2, -4, 5]]),
            ("a refused frame, an edge, one lost", &[&[1, -2], &[4, 5]]),
            ("a refused frame repeated", &[&[1, -2, -2, 3]]),
            ("two refused in turn", &[&[1, -2], &[-3, 4]]),
            ("two refused, a frame lost between", &[&[1, -2], &[-4, 5]]),
            ("every frame refused", &[&[-1, -2], &[-3, -4]]),
            ("every frame refused, two lost", &[&[-1, -3], &[-4, -6]]),
            ("first frame refused, SY 0", &[&[-1, 2, 3]]),
            ("first frame refused, SY 1", &[&[-2, 3, 4]]),
            ("first frame refused, then lost", &[&[-1, 3, 4]]),
            ("first two refused, SY 1 and 1", &[&[-2], &[-4], &[5, 6]]),
            ("last frame refused", &[&[1, 2], &[3, -4]]),
            ("last frame refused, a break", &[&[1, 2], &[3, -5]]),
            ("one frame refused, SY 1", &[&[-2]]),
        ];
        for (name, voice) in told {
            self.told(name, voice);
        }
    }

    /// Frames hit at guarded places: each correction number, heard and refused with 6; parity hits
    /// alone, data hits alone, and all kinds over the edges of voice blocks.
    fn hits(&mut self) {
        let heard = spoken(29, 32);
        let refused: Vec<Frame> = heard.iter().map(expanded).collect();
        let mut g = Generator::new(29);
        let mut fallen = |k: u16| {
            let mut record = g.falling_record();
            record.fields[27] = k % 2;
            frame::lay(&record)
        };
        let falling: Vec<Frame> = (0..16).map(&mut fallen).collect();

        let down: Vec<&[usize]> = ONE_HIT.into_iter().rev().collect();
        self.hit("each number in turn", &heard, &ONE_HIT, &[16]);
        self.hit("each number, from 15 down", &heard, &down, &[1, 3, 5, 7]);
        self.hit("each number in its own voice", &heard, &ONE_HIT, &[1; 16]);
        self.hit("each number, LSPs that fall", &falling, &ONE_HIT, &[9, 7]);
        self.hit("each number refused", &refused, &ONE_HIT, &[16]);
        self.hit("each number refused by hits", &heard, &SETTING_SP, &[6, 10]);
        self.hit("each number by few hits", &heard, &FEW_HITS, &[11, 5]);
        let name = "each number of a data bit by parity bits";
        self.hit(name, &heard, &DATA_BY_PARITY, &[4, 7]);
        // Each number heard, and then refused.
        let (both, twice): (Vec<Frame>, Vec<&[usize]>) = (0..32)
            .map(|k| ([&heard, &refused][k % 2][k], ONE_HIT[k / 2]))
            .unzip();
        let name = "each number heard and refused";
        self.hit(name, &both, &twice, &[1, 2, 14, 15]);

        let one = |n: usize| ONE_HIT[n];
        let parity = [1, 2, 4, 8, 8, 4, 2, 1].map(one);
        let data = [3, 5, 6, 7, 9, 10, 11, 12, 13, 14, 15].map(one);
        for (sent, how) in [(&heard, ""), (&refused, ", refused")] {
            self.hit(&format!("parity hits alone{how}"), sent, &parity, &[3, 5]);
            self.hit(&format!("data hits alone{how}"), sent, &data, &[4, 7]);
        }
        let turns = [1, 3, 2, 15, 4, 14, 8, 9].map(one);
        let name = "parity and data hits by turns, each in its own voice";
        self.hit(name, &heard, &turns, &[1; 8]);
        // The second and the third of each three are refused.
        let mixed: Vec<Frame> = (0..12)
            .map(|k| [&heard, &refused, &refused][k % 3][k])
            .collect();
        let kinds = [0, 0, 1, 6, 15, 0, 8, 2, 13, 0, 4, 3].map(one);
        let name = "clean, parity and data hits over voices";
        self.hit(name, &mixed, &kinds, &[2, 1, 4, 1, 3, 1]);
        for (sent, how) in [(&heard, "one frame"), (&refused, "one frame refused")] {
            for (what, number) in [("a parity hit", 2), ("a data hit", 12)] {
                let name = format!("{how}, {what}");
                self.hit(&name, sent, &ONE_HIT[number..=number], &[1]);
            }
        }
    }

    /// Every whole delay: one after the other up and down, in each subframe, and in any order.
    fn whole_delays(&mut self) {
        let mut g = Generator::new(41);
        let mut of = |samples: &u32| any_subframe(&mut g, 12 * samples);
        let rising: Vec<u32> = (20..=147).collect();
        let falling: Vec<u32> = (20..=147).rev().collect();
        let frames = sent(rising.iter().map(&mut of));
        self.excited("every whole delay, rising", &frames, &[32]);
        let frames = sent(falling.iter().map(&mut of));
        let name = "every whole delay, falling, over voices";
        self.excited(name, &frames, &[1, 3, 8, 20]);
        let frames = sent(rising.iter().flat_map(|samples| [samples; 4]).map(&mut of));
        let name = "every whole delay in every subframe";
        self.excited(name, &frames, &[64, 64]);
        let frames = sent(any_whole(&mut g, 120));
        let name = "whole delays in any order, each frame in its own voice";
        self.excited(name, &frames, &[1; 30]);
        self.excited("one frame, no subframe refused", &frames[..1], &[1]);
    }

    /// Every PG, every CG, each with each, and codes from the first to the last.
    fn gains(&mut self) {
        let mut g = Generator::new(42);
        let mut frames = |count: usize, change: &dyn Fn(usize, &mut Subframe)| {
            let mut all = any_whole(&mut g, count);
            for (n, subframe) in all.iter_mut().enumerate() {
                change(n, subframe);
            }
            sent(all)
        };
        let every_pg = frames(32, &|n, subframe| subframe.pg = n as u16);
        let every_cg = frames(32, &|n, subframe| subframe.cg = n as u16);
        // 365 and 1,024 have no divisor in common.
        let both = frames(1024, &|n, subframe| {
            let n = (365 * n % 1024) as u16;
            (subframe.pg, subframe.cg) = (n / 32, n % 32);
        });
        let codes = frames(64, &|n, subframe| {
            (subframe.pg, subframe.ci) = (6, (n * 511 / 63) as u16);
        });
        self.excited("every PG", &every_pg, &[8]);
        self.excited("every CG", &every_cg, &[3, 5]);
        let name = "every PG with every CG, the first half";
        self.excited(name, &both[..128], &[100, 28]);
        let name = "every PG with every CG, the second half";
        self.excited(name, &both[128..], &[28, 100]);
        self.excited("codes from the first to the last", &codes, &[16]);
    }

    /// The loudest gains until elements are held at both ends, and what comes after them.
    fn loud(&mut self) {
        let mut g = Generator::new(43);
        let same = |samples: u32, pg, ci, cg| Subframe {
            delay: 12 * samples,
            pg,
            ci,
            cg,
        };
        for samples in [20, 147] {
            let frames = sent([same(samples, 31, 410, 31); 120]);
            let name = format!("the loudest gains, delay {samples}");
            self.excited(&name, &frames, &[20, 10]);
        }
        let mut loudest = any_whole(&mut g, 200);
        for (n, subframe) in loudest.iter_mut().enumerate() {
            (subframe.pg, subframe.cg) = (31, [0, 31][n / 3 % 2]);
        }
        let name = "the loudest gains, whole delays in any order";
        self.excited(name, &sent(loudest.clone()), &[50]);
        let mut after = any_whole(&mut g, 160);
        for subframe in &mut after {
            (subframe.pg, subframe.cg) = (g.one_of(&[7, 7, 13]), g.one_of(&[15, 16]));
        }
        let frames = sent([&loudest[..80], &after].concat());
        self.excited("loud, then dying out", &frames, &[20, 40]);
        for subframe in &mut after {
            (subframe.pg, subframe.cg) = (0, g.one_of(&[0, 31]));
        }
        let frames = sent([&loudest[..80], &after[..80]].concat());
        self.excited("loud, then the least PG", &frames, &[39, 1]);
    }

    /// Subframes whose delay is not whole: one or several of a frame, and all four.
    fn refused_subframes(&mut self) {
        let mut g = Generator::new(44);
        // Of frame k those subframes whose bit of k is set are refused.
        let patterns: Vec<Subframe> = (0..64)
            .map(|n| {
                let refused = (n / 4) >> (n % 4) & 1 == 1;
                let whole = [624, 636, 648][n % 3];
                any_subframe(&mut g, if refused { 644 } else { whole })
            })
            .collect();
        let frames = sent(patterns);
        self.excited("each pattern of refused subframes", &frames, &[16]);
        let name = "each pattern of refused subframes, each in its own voice";
        self.excited(name, &frames, &[1; 16]);
        let name = "one frame, all four subframes refused";
        self.excited(name, &frames[15..], &[1]);
        let all: Vec<Subframe> = [244, 248, 315, 318, 321, 412, 416, 956]
            .into_iter()
            .flat_map(|delay| [delay; 4])
            .map(|delay| any_subframe(&mut g, delay))
            .collect();
        let name = "all four subframes of every frame refused";
        self.excited(name, &sent(all), &[5, 3]);
    }

    /// Frames refused with 6 first, between and last, among subframes that are refused and that are
    /// not.
    fn refused_frames(&mut self) {
        let mut g = Generator::new(45);
        let whole = sent(any_whole(&mut g, 32));
        let listed: Vec<Subframe> = (0..32)
            .map(|_| {
                let delay = 600 + 4 * g.below(16) as u32;
                any_subframe(&mut g, delay)
            })
            .collect();
        let listed = sent(listed);
        for (name, frames, refused, counts) in [
            ("frames refused first", &whole, &[0, 1][..], &[8][..]),
            ("frames refused between", &whole, &[2, 3, 5], &[3, 5]),
            ("frames refused last", &whole, &[6, 7], &[7, 1]),
            (
                "frames refused first, between and last",
                &whole,
                &[0, 3, 4, 7],
                &[1, 3, 1, 3],
            ),
            (
                "frames and subframes refused",
                &listed,
                &[0, 3, 4, 7],
                &[2, 2, 1, 3],
            ),
        ] {
            let mut frames = frames.clone();
            for &k in refused {
                frames[k] = expanded(&frames[k]);
            }
            self.excited(name, &frames, counts);
        }
        let refused: Vec<Frame> = whole.iter().map(expanded).collect();
        let name = "every frame refused, no subframe would be";
        self.excited(name, &refused, &[4, 4]);
    }

    /// Frames hit at the guarded bits of PD and PG and at SP, put right and not.
    fn hit_subframes(&mut self) {
        let mut g = Generator::new(46);
        let frames = sent(any_whole(&mut g, 64));
        let one = |n: usize| ONE_HIT[n];
        let put_right = [3, 5, 6, 10, 11, 12, 5, 12].map(one);
        let name = "PD bits hit and put right";
        self.hit(name, &frames, &put_right, &[3, 5]);
        let put_right = [7, 9, 13, 14, 15, 1, 2, 4, 8].map(one);
        let name = "PG bits, SP and parity bits hit and put right";
        self.hit(name, &frames, &put_right, &[9]);
        self.hit("hits not put right", &frames, &FEW_HITS, &[8, 8]);
    }

    /// A sound recording for the excitation, of frames in voice blocks of so many.
    fn excited(&mut self, name: &str, frames: &[Frame], counts: &[usize]) {
        self.in_voices(12, name, frames, counts);
    }

    /// A sound recording of frames as sent, each hit, in voice blocks of so many.
    fn hit(&mut self, name: &str, sent: &[Frame], hits: Hits, counts: &[usize]) {
        let hit = |(frame, numbers): (&Frame, &&[usize])| hit_at(*frame, numbers);
        let frames: Vec<Frame> = sent.iter().zip(hits).map(hit).collect();
        self.in_voices(11, name, &frames, counts);
    }

    /// A sound recording of a unit, of frames in voice blocks of so many.
    fn in_voices(&mut self, unit: u32, name: &str, frames: &[Frame], counts: &[usize]) {
        let mut rest = frames;
        let mut voice = Vec::new();
        for &count in counts {
            let (block, after) = rest.split_at(count);
            voice.push(block);
            rest = after;
        }
        assert!(rest.is_empty(), "{name}: {} frames left", rest.len());
        self.sound_one(name, sound(unit, self.0.len() as u32, &voice));
    }

    /// A sound recording of the voice blocks told.
    fn told(&mut self, name: &str, voice: Told) {
        let frames = spoken(23, 8);
        let frame = |&told: &i8| {
            let k = usize::from(told.unsigned_abs());
            let mut record = frame::read_frame(&frames[(k - 1) % 10]).record;
            record.fields[26] = (told < 0).into();
            record.fields[27] ^= u16::from(k > 10);
            frame::lay(&record)
        };
        let voice: Vec<Vec<Frame>> = voice
            .iter()
            .map(|block| block.iter().map(frame).collect())
            .collect();
        let blocks = sound_blocks(10, self.0.len() as u32, &voice);
        self.sound_one(name, joined(&blocks));
    }

    /// A head and voice blocks of so many frames, the last one saying another length if so, and
    /// then some bytes.
    fn at_the_limit(
        &mut self,
        frames: &[Frame],
        counts: &[usize],
        said: Option<u32>,
        more: &[u8],
        refusal: Refusal,
    ) {
        let mut blocks = vec![Block::head(9, 8)];
        let mut rest = frames;
        for &count in counts {
            let (voice, after) = rest.split_at(count);
            blocks.push(Block::voice(voice));
            rest = after;
        }
        let last = blocks.last_mut().expect("there is a head");
        last.length = said.unwrap_or(last.length);
        let bytes = [&joined(&blocks)[..], more].concat();
        let voices = match counts {
            [first, .., last] if counts.len() > 4 => {
                format!("{} voices, {first} to {last}", counts.len())
            }
            _ => format!("voices {counts:?}"),
        };
        let said = said.map_or(String::new(), |said| format!(" saying {said}"));
        let then = match more {
            [] => "no end".to_string(),
            _ => format!("{} bytes more, refused {}", more.len(), refusal.number),
        };
        let name = format!("{} bytes, {voices}{said}, {then}", bytes.len());
        self.add(name, bytes, Some(refusal));
    }
}

/// A frame hit at guarded places, by their correction numbers.
pub fn hit_at(mut frame: Frame, numbers: &[usize]) -> Frame {
    for number in numbers {
        frame::flip(&mut frame, GUARDED[number - 1]);
    }
    frame
}

/// A subframe of a delay, with any indices else.
fn any_subframe(g: &mut Generator, delay: u32) -> Subframe {
    Subframe {
        delay,
        pg: g.below(32) as u16,
        ci: g.below(512) as u16,
        cg: g.below(32) as u16,
    }
}

/// So many subframes of whole delays that can be sent one after the other.
fn any_whole(g: &mut Generator, count: usize) -> Vec<Subframe> {
    let mut before = 0;
    let mut next = |n: usize| {
        // The second and the fourth of a frame are within the window of the one just before.
        let ranks = match n % 2 {
            0 => 0..256,
            _ => usize::from(base(before))..usize::from(base(before)) + 64,
        };
        let whole: Vec<usize> = ranks
            .filter(|&rank| TWELFTHS[rank].is_multiple_of(12))
            .collect();
        let rank = g.one_of(&whole);
        before = rank as u8;
        any_subframe(g, TWELFTHS[rank].into())
    };
    (0..count).map(&mut next).collect()
}

/// Frames of subframes, four each, with SY 0, 1, 0 and so on.
fn sent(subframes: impl IntoIterator<Item = Subframe>) -> Vec<Frame> {
    let subframes: Vec<Subframe> = subframes.into_iter().collect();
    let mut frames = Vec::new();
    for four in subframes.chunks_exact(4) {
        let mut record = Record::ZERO;
        let delays = std::array::from_fn(|n| four[n].delay);
        let pd = delays::codes(delays).expect("delays that can be sent");
        for (n, &Subframe { pg, ci, cg, .. }) in four.iter().enumerate() {
            record.fields[10 + 4 * n..][..4].copy_from_slice(&[pd[n], pg, ci, cg]);
        }
        record.fields[27] = (frames.len() % 2) as u16;
        frames.push(frame::lay(&record));
    }
    frames
}

/// A frame that is sent with SP 1.
fn expanded(frame: &Frame) -> Frame {
    let mut record = frame::read_frame(frame).record;
    record.fields[26] = 1;
    frame::lay(&record)
}

/// A head and 0, 1 or 2 voice blocks, of two frames and of one.
fn before_the_refusal(count: usize, frames: &[Frame]) -> Vec<u8> {
    let voices = [Block::voice(&frames[..2]), Block::voice(&frames[2..3])];
    joined(&[&[Block::head(9, 4)], &voices[..count]].concat())
}

/// One damage to the blocks of a recording.
fn damage_blocks(g: &mut Generator, blocks: &mut Vec<Block>) {
    if blocks.is_empty() {
        blocks.push(Block::end(0));
    }
    let at = g.below(blocks.len());
    let between = g.below(blocks.len() + 1);
    match g.below(16) {
        0 => {
            let size = blocks[at].payload.len();
            let sizes = [0, 1, 3, 5, 7, 9, 17, 19, size + 1, size.saturating_sub(1)];
            let filling = g.next() as u8;
            let size = g.one_of(&sizes);
            blocks[at].payload.resize(size, filling);
            blocks[at].length = size as u32;
        }
        1 => blocks[at].kind = g.one_of(&[0, 4, 5, 256, 512, 768, 65_535]),
        2 => {
            blocks.remove(0);
        }
        3 => {
            let head = Block::head(g.next() as u32, g.next() as u32);
            blocks.insert(between, head);
        }
        4 => {
            blocks.pop();
        }
        5 => {
            let frames = blocks[..between].iter().filter(|block| block.kind == VOICE);
            let frames = frames
                .map(|block| block.payload.len() / FRAME_LENGTH)
                .sum::<usize>() as u32;
            let number = g.one_of(&[frames, frames, frames + 1, 0]);
            blocks.insert(between, Block::end(number));
        }
        6 => blocks.retain(|block| block.kind != VOICE),
        7 => {
            let any = g.next() as u32;
            let off = g.one_of(&[1, u32::MAX, 18, 65_536, 0x8000_0000, any]);
            if let Some(Block {
                kind: END, payload, ..
            }) = blocks.last_mut()
            {
                if let Some(number) = payload.first_chunk_mut() {
                    *number = u32::from_le_bytes(*number).wrapping_add(off).to_le_bytes();
                }
            }
        }
        8 => {
            let said = blocks[at].length;
            let any = g.next() as u32;
            let lies = [
                said.wrapping_add(1),
                said.wrapping_sub(1),
                said.wrapping_add(18),
                said.wrapping_sub(18),
                said.swap_bytes(),
                u32::MAX,
                4_294_967_290,
                4_294_967_292,
                65_536,
                any,
            ];
            blocks[at].length = g.one_of(&lies);
        }
        9 => {
            let other = g.below(blocks.len());
            blocks.swap(at, other);
        }
        10 => {
            let kind = g.one_of(&[0, 4, 9, 256, 65_535]);
            let size = g.below(30);
            let payload = g.bytes(size);
            blocks.insert(between, Block::new(kind, payload));
        }
        11 => blocks.insert(between, Block::zeros(VOICE, 0)),
        12 => blocks[at].kind = g.one_of(&[HEAD, VOICE, END]),
        13 => blocks.insert(between, blocks[at].clone()),
        14 => {
            let frame = g.frame(0);
            blocks.insert(between, Block::voice(&[frame]));
        }
        _ => {
            blocks.remove(at);
        }
    }
}

/// One damage to the bytes of a recording.
fn damage_bytes(g: &mut Generator, bytes: &mut Vec<u8>) {
    let at = g.below(bytes.len() + 1);
    match g.below(8) {
        0 => bytes.truncate(at),
        1 | 2 => {
            // A cut at a block's first byte, or in its header.
            let mut starts = vec![0];
            let mut start = 0;
            while let Some(header) = bytes
                .get(start..)
                .and_then(|rest| rest.first_chunk::<HEADER_LENGTH>())
            {
                let length = u32::from_le_bytes([header[0], header[1], header[2], header[3]]);
                start += HEADER_LENGTH + length as usize;
                starts.push(start);
            }
            bytes.truncate(g.one_of(&starts) + g.below(6));
        }
        3 => {
            let extra = 1 + g.below(30);
            if g.below(2) == 0 {
                bytes.resize(bytes.len() + extra, 0);
            } else {
                bytes.extend(g.bytes(extra));
            }
        }
        4 => bytes.extend(joined(&[head(), voice(), end()])),
        5 => {
            for _ in 0..1 + g.below(8) {
                let at = g.below(bytes.len().max(1));
                if let Some(byte) = bytes.get_mut(at) {
                    *byte ^= 1 << g.below(8);
                }
            }
        }
        6 => {
            let count = 1 + g.below(20);
            let inserted = g.bytes(count);
            bytes.splice(at..at, inserted);
        }
        _ => {
            let to = (at + 1 + g.below(20)).min(bytes.len());
            bytes.drain(at..to);
        }
    }
}

/// The n-th recording of a seed beyond the edges: sound if n is odd, else damaged until it is
/// refused.
pub fn recording(seed: u64, n: u64) -> Vec<u8> {
    let mut g = Generator::new(seed);
    let mut g = Generator::new(g.next() ^ n);
    let unit = g.next() as u32 >> g.below(32);
    let number = g.next() as u32 >> g.below(32);
    let voice = g.voice();
    let mut blocks = sound_blocks(unit, number, &voice);
    if n % 2 == 1 {
        return joined(&blocks);
    }
    loop {
        let (of_blocks, of_bytes) =
            g.one_of(&[(1, 0), (1, 0), (0, 1), (2, 0), (1, 1), (0, 2), (3, 1)]);
        for _ in 0..of_blocks {
            damage_blocks(&mut g, &mut blocks);
        }
        let mut bytes = joined(&blocks);
        for _ in 0..of_bytes {
            damage_bytes(&mut g, &mut bytes);
        }
        if recording::read(&bytes).is_err() {
            return bytes;
        }
    }
}

#[cfg(test)]
mod tests {
    use super::*;
    use std::collections::{BTreeMap, BTreeSet};

    #[test]
    fn the_generator_is_splitmix64() {
        let mut g = Generator::new(0);
        assert_eq!(g.next(), 0xE220_A839_7B1D_CDAF);
        assert_eq!(g.next(), 0x6E78_9E6A_A1B9_65F4);
    }

    #[test]
    fn records_are_of_the_kinds_said() {
        let mut g = Generator::new(11);
        for _ in 0..5_000 {
            assert!(frame::write(&g.record()).is_ok());
            assert_eq!(frame::write(&g.falling_record()).unwrap_err().number, 3);
        }
        let mut refused = [0; 7];
        for _ in 0..5_000 {
            if let Err(refusal) = frame::write(&g.any_record()) {
                refused[usize::from(refusal.number)] += 1;
            }
        }
        assert!(
            refused[2] > 500 && refused[3] > 500 && refused[6] > 100,
            "{refused:?}"
        );
    }

    #[test]
    fn damage_reaches_every_refusal_of_a_block() {
        let mut refused = [0; 12];
        let mut sizes = BTreeSet::new();
        for seed in 0..400 {
            for n in [0, 2, 4, 6, 8] {
                let refusal = recording::read(&recording(seed, n)).unwrap_err();
                refused[usize::from(refusal.number)] += 1;
                sizes.extend(refusal.size);
            }
        }
        assert_eq!(refused[8..].iter().sum::<u32>(), 2_000);
        assert!(refused[8..].iter().all(|&n| n > 150), "{refused:?}");
        assert!(sizes.len() > 20, "{sizes:?}");
    }

    #[test]
    fn recordings_lose_repeat_and_refuse_frames() {
        let mut reached = BTreeMap::new();
        for n in (1..2_000).step_by(2) {
            let bytes = recording(6, n);
            let sound = recording::read(&bytes).unwrap();
            let mut here = BTreeSet::new();
            let mut before: Option<(&[u8], Record)> = None;
            let mut all_refused = sound.frames > 2;
            let mut unbroken = true;
            for (_, payload) in sound.voice_blocks() {
                for (at, frame) in payload.chunks_exact(FRAME_LENGTH).enumerate() {
                    let record = frame::read(frame).unwrap().record;
                    let refused = record.sp() == 1;
                    all_refused &= refused;
                    let same = match &before {
                        Some((_, last)) => record.sy() == last.sy(),
                        None => record.sy() == 1,
                    };
                    unbroken &= !same;
                    here.insert(match (&before, at, same) {
                        (None, _, true) => "the first is a break",
                        (None, _, false) => "the first is none",
                        (_, 0, true) => "a break at an edge",
                        (_, 0, false) => "none at an edge",
                        (_, _, true) => "a break within a block",
                        (_, _, false) => "none within a block",
                    });
                    if refused && same {
                        here.insert("a refused one is a break");
                    }
                    if let Some((bytes, last)) = before {
                        if bytes == frame {
                            here.insert("a frame comes again");
                        }
                        if last.sp() == 1 && same {
                            here.insert("a break after a refused one");
                        }
                    }
                    before = Some((frame, record));
                }
            }
            if unbroken && sound.frames > 2 {
                here.insert("no break");
            }
            if all_refused {
                here.insert("every frame refused");
            }
            for what in here {
                *reached.entry(what).or_insert(0) += 1;
            }
        }
        assert_eq!(reached.len(), 11, "{reached:?}");
        assert!(reached.values().all(|&n| n >= 40), "{reached:?}");
        assert!((200..500).contains(&reached["no break"]), "{reached:?}");
    }

    #[test]
    fn the_same_seed_gives_the_same_recording() {
        assert_eq!(recording(4, 10), recording(4, 10));
        assert_ne!(recording(4, 11), recording(4, 13));
        assert_ne!(recording(4, 11), recording(5, 11));
    }
}
