//! Cases of the leaf functions, laid out in bytes, and a number for the answer to each. CASES.md sets
//! out both to the letter.

use crate::cases::Generator;
use crate::codes;
use crate::delays;
use crate::draws::Draws;
use crate::gains;
use crate::lsp::{self, State};
use crate::refusal::Refusal;
use crate::tables::{CG, LSP, PG, WIDTHS};
use std::fmt::Write;

/// How many bytes of cases a program takes in.
pub const ROOM: usize = 65_536;

/// The widths of PD in the four subframes.
const PD_WIDTHS: [u32; 4] = [8, 6, 8, 6];

/// Many numbers are made one modulo this.
const MANY: u64 = 1 << 58;

/// Reads cases and writes the number of each on a line, then their sum; the sum alone if there is more than one round.
pub fn answers(cases: &[u8]) -> String {
    let (head, rest) = cases.split_at_checked(4).unwrap_or((&[0; 4], &[]));
    let more = u32::from_le_bytes(head.try_into().unwrap());
    let mut out = String::new();
    let mut sum = 0u64;
    for _ in 0..=more {
        let mut left = rest;
        while let [kind, size, body @ ..] = left {
            let Some((case, after)) = body.split_at_checked(usize::from(*size)) else {
                break;
            };
            let number = answer(*kind, case);
            sum = sum.wrapping_add(number);
            if more == 0 {
                let _ = writeln!(out, "{number}");
            }
            left = after;
        }
    }
    let _ = writeln!(out, "{sum}");
    out
}

/// Number k of a case.
fn short(case: &[u8], k: usize) -> u16 {
    match case.get(2 * k..2 * k + 2) {
        Some(pair) => u16::from_le_bytes([pair[0], pair[1]]),
        None => 0,
    }
}

/// Numbers k and k + 1 as one.
fn word(case: &[u8], k: usize) -> u32 {
    u32::from(short(case, k)) | u32::from(short(case, k + 1)) << 16
}

fn ten(case: &[u8], from: usize) -> [u16; 10] {
    std::array::from_fn(|i| short(case, from + i))
}

/// The number for the answer to a case.
fn answer(kind: u8, case: &[u8]) -> u64 {
    let gain = word(case, 0).wrapping_sub(1 << 31) as i32;
    let told = match kind {
        b'c' => gains::cg(short(case, 0)).map(text_of),
        b'p' => gains::pg(short(case, 0)).map(text_of),
        b'n' => Ok(gains::nearest_cg(gain).into()),
        b'q' => Ok(gains::nearest_pg(gain).into()),
        b'm' => meaning(std::array::from_fn(|n| short(case, n))).map(packed),
        b's' => delays::codes(std::array::from_fn(|n| word(case, 2 * n))).map(packed),
        b'l' => Ok(averages(ten(case, 0), ten(case, 10))),
        b'e' => Ok(code(short(case, 0), short(case, 1).into())),
        b'g' => Ok(draws(short(case, 0), short(case, 1), short(case, 2))),
        _ => Ok(text(kind, case)),
    };
    told.unwrap_or_else(refused)
}

/// The number of a refusal.
fn refused(Refusal { number, tells, .. }: Refusal) -> u64 {
    9_000_000_000_000_000_000 + 100_000 * u64::from(number) + u64::from(tells)
}

/// How far a number is above the least one of 32 bits.
fn above_least(x: i32) -> u64 {
    (i64::from(x) + (1 << 31)) as u64
}

/// A number's text as one number: its first eight bytes, dots after it.
fn text_of(x: i32) -> u64 {
    let text = format!("{x:.<8}");
    u64::from_le_bytes(text.as_bytes()[..8].try_into().expect("eight bytes"))
}

/// Four numbers as one, the first lowest.
fn packed(four: [u16; 4]) -> u64 {
    four.iter()
        .rev()
        .fold(0, |high, &low| high << 16 | u64::from(low))
}

/// Many numbers as one.
pub fn as_one(start: u64, all: impl IntoIterator<Item = u64>) -> u64 {
    all.into_iter()
        .fold(start, |sum, n| (31 * (sum % MANY) + n % MANY) % MANY)
}

/// The delays that four codes mean, or the lowest subframe whose code is too large.
fn meaning(codes: [u16; 4]) -> Result<[u16; 4], Refusal> {
    for (subframe, (code, width)) in (1..).zip(codes.into_iter().zip(PD_WIDTHS)) {
        if code >> width != 0 {
            return Err(Refusal::new(2, subframe));
        }
    }
    Ok(delays::delays(codes))
}

/// The mark of the present indices, or the refusal with the lowest field that is too large, and the averages after the
/// previous values. Where an index is too large all the Hz are 0.
fn averages(previous: [u16; 10], indices: [u16; 10]) -> u64 {
    let mut fields = (1..).zip(indices.into_iter().zip(WIDTHS));
    let past = fields.find(|(_, (index, width))| index >> width != 0);
    let (first, hz) = match past {
        Some((field, _)) => (refused(Refusal::new(2, field)), [0; 10]),
        None => {
            let hz = lsp::frequencies(&indices);
            (lsp::order_mark(&hz).into(), hz)
        }
    };
    let averages = State::after(previous, 0).averages(&hz);
    as_one(first, averages.as_flattened().iter().map(|&n| n.into()))
}

/// The refusal of a code and what a buffer holds after it, ones before.
fn code(index: u16, long: usize) -> u64 {
    let mut buffer = [1i8; 62];
    let refusal = match buffer.get_mut(..long) {
        Some(part) => codes::code(index, part).err().map_or(0, |r| r.number),
        None => 0,
    };
    as_one(refusal.into(), buffer.map(|element| (element + 1) as u64))
}

/// Draws from the standard's own numbers, its positions so far on.
fn draws(first: u16, second: u16, count: u16) -> u64 {
    let mut draws = Draws::FIRST;
    draws.k = draws.k.wrapping_add(first);
    draws.j = draws.j.wrapping_add(second);
    as_one(0, (0..count).map(|_| text_of(draws.draw().into())))
}

/// What is laid into the first bytes of four, dots before, and the position after it.
fn text(kind: u8, case: &[u8]) -> u64 {
    let mut room = [b'.'; 4];
    let (long, at) = (usize::from(short(case, 0)), word(case, 1) as usize);
    let laid = match kind {
        b'b' => vec![short(case, 3) as u8],
        b'w' => case.to_vec(),
        b'd' => word(case, 3).to_string().into_bytes(),
        _ => return u64::from(u32::from_le_bytes(room)),
    };
    let mut end = 0;
    if let Some(part) = room.get_mut(..long) {
        let free = part.len().saturating_sub(at);
        for (place, byte) in part.iter_mut().skip(at).zip(laid.iter()) {
            *place = *byte;
        }
        end = part.len().min(at + laid.len().min(free)) as u64;
    }
    end << 32 | u64::from(u32::from_le_bytes(room))
}

/// Cases one after the other.
struct Cases(Vec<u8>);

impl Cases {
    fn new(more: u32) -> Self {
        Cases(more.to_le_bytes().to_vec())
    }

    fn add(&mut self, kind: u8, numbers: &[u16]) {
        let bytes: Vec<u8> = numbers.iter().flat_map(|n| n.to_le_bytes()).collect();
        self.add_bytes(kind, &bytes);
    }

    fn add_bytes(&mut self, kind: u8, bytes: &[u8]) {
        self.0.extend([kind, bytes.len() as u8]);
        self.0.extend_from_slice(bytes);
    }

    fn near(&mut self, kind: u8, x: i32) {
        let up = above_least(x) as u32;
        self.add(kind, &[up as u16, (up >> 16) as u16]);
    }

    fn delays(&mut self, four: [u32; 4]) {
        let halves: Vec<u16> = four
            .iter()
            .flat_map(|&d| [d as u16, (d >> 16) as u16])
            .collect();
        self.add(b's', &halves);
    }

    fn text(&mut self, kind: u8, long: u16, at: u32, n: u32) {
        let halves = [at, n].map(|x| [x as u16, (x >> 16) as u16]);
        self.add(
            kind,
            &[long, halves[0][0], halves[0][1], halves[1][0], halves[1][1]],
        );
    }
}

/// The cases that the stored answers are for.
pub fn cases() -> Vec<u8> {
    let mut cases = Cases::new(0);
    let mut g = Generator::new(1016);
    for kind in [b'c', b'p'] {
        for index in (0..36).chain([63, 255, 256, 32_768, 65_535]) {
            cases.add(kind, &[index]);
        }
    }
    for (kind, table) in [(b'n', &CG), (b'q', &PG)] {
        for two in table.windows(2) {
            let middle = (two[0] + two[1]).div_euclid(2);
            for x in [two[0], middle - 1, middle, middle + 1, two[1]] {
                cases.near(kind, x);
            }
        }
        for x in [i32::MIN, i32::MIN + 1, -2000, 2000, i32::MAX - 1, i32::MAX] {
            cases.near(kind, x);
        }
        for _ in 0..40 {
            cases.near(kind, g.next() as i32);
        }
    }
    for byte in 0..256 {
        cases.add(b'm', &[byte, 0, byte, 63]);
        cases.add(b'm', &[byte, byte % 64, 255 - byte, 7 * byte % 64]);
    }
    for subframe in 0..4 {
        for past in [1 << PD_WIDTHS[subframe], 65_535] {
            let mut codes = [17, 5, 90, 33];
            codes[subframe] = past;
            cases.add(b'm', &codes);
            codes[3] = 64;
            cases.add(b'm', &codes);
        }
    }
    for _ in 0..900 {
        cases.delays(g.delays());
    }
    for _ in 0..160 {
        cases.add(b'l', &lsps(&mut g));
    }
    for index in (0..516).chain([1024, 65_535]) {
        cases.add(b'e', &[index, 60]);
    }
    for long in [0, 1, 58, 59, 61, 62] {
        for index in [0, 300, 511, 512] {
            cases.add(b'e', &[index, long]);
        }
    }
    cases.add(b'g', &[0, 0, 4]);
    for first in 0..8 {
        for second in 0..8 {
            cases.add(b'g', &[first, second, 12]);
        }
    }
    for (first, second) in [(65_530, 0), (65_531, 65_535), (65_533, 7), (60_000, 40_000)] {
        cases.add(b'g', &[first, second, 40]);
    }
    for long in 0..=4 {
        for at in [0, 1, 2, 3, 4, 5, 70_000] {
            cases.text(b'b', long, at, u32::from(b'x'));
            for n in [0, 7, 10, 99, 100, 4321, 98_765, u32::MAX] {
                cases.text(b'd', long, at, n);
            }
            let bytes = [&long.to_le_bytes()[..], &at.to_le_bytes()].concat();
            cases.add_bytes(b'w', &bytes);
        }
        for size in 2..5 {
            cases.add_bytes(b'w', &[long as u8, 0, 77, 88][..size]);
        }
    }
    cases.0
}

/// Ten previous values in Hz and ten present indices, one in eight of them too large somewhere.
fn lsps(g: &mut Generator) -> Vec<u16> {
    let previous = g.state().hz;
    let mut indices = match g.below(2) {
        0 => *g.record().lsp(),
        _ => LSP.map(|column| g.below(column.len()) as u16),
    };
    if g.below(8) == 0 {
        for _ in 0..1 + g.below(2) {
            let lsp = g.below(10);
            indices[lsp] = (1 << WIDTHS[lsp]) + g.below(3) as u16 * 1000;
        }
    }
    [previous, indices].concat()
}

/// As many cases of a kind as there is room for, to go through one time and so many more; none of a kind that is not known.
pub fn many(kind: u8, more: u32, seed: u64) -> Vec<u8> {
    let mut cases = Cases::new(more);
    let mut g = Generator::new(seed);
    while cases.0.len() + 64 <= ROOM {
        match kind {
            b'c' | b'p' => cases.add(kind, &[g.below(33) as u16]),
            b'n' | b'q' => cases.near(kind, g.below(4001) as i32 - 2000),
            b'm' => cases.add(kind, &PD_WIDTHS.map(|width| g.below(1 << width) as u16)),
            b's' => cases.delays(g.delays()),
            b'l' => cases.add(kind, &lsps(&mut g)),
            b'e' => cases.add(kind, &[g.below(512) as u16, 60]),
            b'g' => cases.add(kind, &[g.below(6) as u16, g.below(6) as u16, 1]),
            _ => break,
        }
    }
    cases.0
}

/// Every code of a second subframe after every byte of the first, in as many parts as need room.
pub fn windows() -> Vec<Vec<u8>> {
    let pairs: Vec<[u16; 2]> = (0..256)
        .flat_map(|byte| (0..64).map(move |code| [byte, code]))
        .collect();
    pairs
        .chunks(8192)
        .map(|part| {
            let mut cases = Cases::new(0);
            for two in part.chunks(2) {
                cases.add(b'm', &two.concat());
            }
            cases.0
        })
        .collect()
}

#[cfg(test)]
mod tests {
    use super::*;

    fn case(kind: u8, numbers: &[u16]) -> u64 {
        let mut cases = Cases::new(0);
        cases.add(kind, numbers);
        answer(kind, &cases.0[6..])
    }

    #[test]
    fn answers_are_the_worked_numbers() {
        assert_eq!(case(b'c', &[10]), u64::from_le_bytes(*b"-98....."));
        assert_eq!(case(b'c', &[32]), 9_000_000_000_000_200_000);
        assert_eq!(case(b'n', &[0, 0x8000]), 15);
        assert_eq!(case(b'q', &[0, 0]), 0);
        let samples = packed([656, 532, 656, 532]);
        assert_eq!(case(b'm', &[0, 0, 0, 0]), samples);
        assert_eq!(case(b'm', &[0, 64, 256, 0]), 9_000_000_000_000_200_002);
        assert_eq!(case(b's', &[656, 0, 532, 0, 656, 0, 532, 0]), 0);
        assert_eq!(
            case(b's', &[656, 0, 1, 0, 0, 0, 0, 0]),
            9_000_000_000_000_400_002
        );
        let four = [8472, -31377, -26172, 25681].map(text_of);
        assert_eq!(case(b'g', &[0, 0, 4]), as_one(0, four));
    }

    #[test]
    fn text_is_laid_as_far_as_there_is_room() {
        let holds = |room: &[u8; 4], end: u64| end << 32 | u64::from(u32::from_le_bytes(*room));
        assert_eq!(case(b'd', &[4, 1, 0, 4321, 0]), holds(b".432", 4));
        assert_eq!(case(b'd', &[3, 1, 0, 98, 0]), holds(b".98.", 3));
        assert_eq!(case(b'd', &[3, 3, 0, 98, 0]), holds(b"....", 3));
        assert_eq!(case(b'b', &[2, 1, 0, 120, 0]), holds(b".x..", 2));
        assert_eq!(case(b'b', &[2, 9, 0, 120, 0]), holds(b"....", 2));
        assert_eq!(case(b'w', &[3, 0, 0]), holds(&[3, 0, 0, b'.'], 3));
    }

    #[test]
    fn the_stored_cases_fit_and_reach_every_refusal() {
        let cases = cases();
        assert!(cases.len() < ROOM);
        let text = answers(&cases);
        let refused = |number: u64, tells: u64| {
            let line = 9_000_000_000_000_000_000 + 100_000 * number + tells;
            text.lines().any(|l| l == line.to_string())
        };
        assert!(refused(2, 0));
        assert!((1..=4).all(|subframe| refused(2, subframe) && refused(4, subframe)));
        assert!(refused(5, 2) && refused(5, 4));
    }

    #[test]
    fn rounds_add_up() {
        let once = many(b'c', 0, 1);
        let lines = answers(&once);
        let sum: u64 = lines.lines().last().unwrap().parse().unwrap();
        let thrice = answers(&many(b'c', 2, 1));
        assert_eq!(thrice, format!("{}\n", sum.wrapping_mul(3)));
        assert!(windows().iter().all(|part| part.len() <= ROOM));
    }
}
