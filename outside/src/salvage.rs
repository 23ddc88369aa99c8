//! Salvaging: of a damaged recording the head is kept, every voice block before the first
//! refusal and, of a voice block that runs past the end, its whole frames. A recording made of
//! these has a fresh end and is never too long.

use crate::cases::{self, Frame};
use crate::frame::FRAME_LENGTH;
use crate::recording::{self, u32_at, HEAD, HEADER_LENGTH, LONGEST, VOICE};

/// What comes of any bytes.
#[derive(Clone, Debug, PartialEq, Eq)]
pub enum Salvaged {
    /// The recording is sound and comes out unchanged.
    Sound,
    /// A recording of what is kept.
    Mended {
        bytes: Vec<u8>,
        /// How many bytes stand after the last frame that is kept.
        dropped: usize,
        /// The place of the first of them.
        from: usize,
        /// All frames that are kept.
        frames: usize,
        /// The place of the fresh end block in the new recording.
        end: usize,
    },
    /// Refusal 1: the recording is too long, or a lent buffer has another length than it must.
    /// Refusal 12: there is no head or no whole frame.
    Refused(u8),
}

/// A voice block that is kept: where its payload begins, and its frames.
struct Voice {
    at: usize,
    frames: Vec<Frame>,
}

impl Voice {
    /// The whole frames of a payload.
    fn new(at: usize, payload: &[u8]) -> Self {
        let (frames, _) = payload.as_chunks();
        Voice {
            at,
            frames: frames.to_vec(),
        }
    }
}

/// Salvages any bytes.
pub fn salvage(recording: &[u8]) -> Salvaged {
    let refusal = match recording::read(recording) {
        Ok(_) => return Salvaged::Sound,
        Err(refusal) if refusal.number == 1 => return Salvaged::Refused(1),
        Err(refusal) => refusal,
    };
    let refused_at = refusal.tells as usize;
    let kind_at = |at| u16::from_le_bytes([recording[at + 4], recording[at + 5]]);

    // The head and every voice block before the first refusal. An end there is not kept.
    let mut head = None;
    let mut voice = Vec::new();
    let mut at = 0;
    while at < refused_at {
        let payload_at = at + HEADER_LENGTH;
        let next = payload_at + u32_at(recording, at) as usize;
        let payload = &recording[payload_at..next];
        match kind_at(at) {
            HEAD => head = Some((u32_at(payload, 0), u32_at(payload, 4))),
            VOICE => voice.push(Voice::new(payload_at, payload)),
            _ => {}
        }
        at = next;
    }
    // Where that refusal is a voice block running past the end, the whole frames it still has.
    if refusal.number == 10 && kind_at(refused_at) == VOICE {
        let payload_at = refused_at + HEADER_LENGTH;
        voice.push(Voice::new(payload_at, &recording[payload_at..]));
    }

    let Some((unit, number)) = head else {
        return Salvaged::Refused(12);
    };
    loop {
        // No empty block is left.
        voice.retain(|block| !block.frames.is_empty());
        if voice.is_empty() {
            return Salvaged::Refused(12);
        }
        let blocks: Vec<&[Frame]> = voice.iter().map(|block| &block.frames[..]).collect();
        let bytes = cases::sound(unit, number, &blocks);
        let frames = blocks.concat().len();
        let last = voice.last_mut().expect("there is a block");
        if bytes.len() > LONGEST {
            last.frames.pop();
            continue;
        }
        let from = last.at + FRAME_LENGTH * last.frames.len();
        return Salvaged::Mended {
            dropped: recording.len() - from,
            from,
            frames,
            end: bytes.len() - HEADER_LENGTH - 4,
            bytes,
        };
    }
}

/// What is written of a recording that is salvaged: nothing if it is refused.
pub fn written<'a>(recording: &'a [u8], salvaged: &'a Salvaged) -> &'a [u8] {
    match salvaged {
        Salvaged::Sound => recording,
        Salvaged::Mended { bytes, .. } => bytes,
        Salvaged::Refused(_) => &[],
    }
}

/// Salvages any bytes into a lent buffer. One that has not 65,536 bytes is refused 1, whatever the
/// recording is. A refusal writes nothing, and what stands past the end block stays.
pub fn into_lent(recording: &[u8], buffer: &mut [u8]) -> Salvaged {
    if buffer.len() != LONGEST {
        return Salvaged::Refused(1);
    }
    let salvaged = salvage(recording);
    let bytes = written(recording, &salvaged);
    buffer[..bytes.len()].copy_from_slice(bytes);
    salvaged
}

/// The changes, a line each: nothing of a sound recording; or the line of the refusal.
pub fn changes(salvaged: &Salvaged) -> String {
    match salvaged {
        Salvaged::Sound => String::new(),
        Salvaged::Refused(number) => format!("refused {number}\n"),
        Salvaged::Mended {
            dropped,
            from,
            frames,
            end,
            ..
        } => {
            let mut text = String::new();
            if *dropped > 0 {
                text += &format!("dropped {dropped} bytes from {from}\n");
            }
            text += &format!("kept {frames} frames\n");
            text += &format!("end written at {end}\n");
            text
        }
    }
}
