//! Cases of single subframes, laid out in bytes, and the line of each: the refusal, or the result for
//! C, the lent buffer and the register after. CASES.md sets out both to the letter.

use crate::cases::Generator;
use crate::codes::{self, CODE_LENGTH};
use crate::excitation::{Register, Subframe, REGISTER_LENGTH};
use crate::tables::{CG, PG, TWELFTHS};
use crate::text::{number, numbers};

/// The bytes of a case.
pub const CASE_LENGTH: usize = 604;

/// The longest buffer, and what each of its elements is before.
const LONGEST: usize = 62;
const BEFORE: i32 = 7;

/// The whole delays in samples.
const SHORTEST: u32 = 20;
const FARTHEST_BACK: u32 = 147;

/// A code that has each of -1, 0 and 1 at least eight times.
const MIXED: u16 = 410;

/// The index of the PG that is 0.
const NO_PG: u16 = 6;

/// A case.
#[derive(Clone, Copy, Debug, PartialEq, Eq)]
struct Case {
    /// How many times more than once the excitation is made.
    more: u32,
    register: Register,
    subframe: Subframe,
    /// The length of the buffer; more than 62 is 62.
    length: u16,
}

/// Takes bytes off the front.
fn take<const N: usize>(rest: &mut &[u8]) -> [u8; N] {
    let (taken, after) = rest.split_first_chunk().expect("a case is whole");
    *rest = after;
    *taken
}

impl Case {
    /// A case that is made once into a buffer of sixty, of a whole delay in samples.
    fn once(register: Register, samples: u32, pg: u16, ci: u16, cg: u16) -> Case {
        Case {
            more: 0,
            register,
            subframe: Subframe {
                delay: 12 * samples,
                pg,
                ci,
                cg,
            },
            length: CODE_LENGTH as u16,
        }
    }

    /// The same, made so many times more.
    fn and_more(self, more: u32) -> Case {
        Case { more, ..self }
    }

    /// The same into a buffer of another length.
    fn into_buffer_of(self, length: u16) -> Case {
        Case { length, ..self }
    }

    /// The same of another delay, in twelfths.
    fn delayed(mut self, twelfths: u32) -> Case {
        self.subframe.delay = twelfths;
        self
    }

    /// Reads the bytes of a case.
    fn read(bytes: &[u8]) -> Case {
        let mut rest = bytes;
        let more = u32::from_le_bytes(take(&mut rest));
        let register = std::array::from_fn(|_| i32::from_le_bytes(take(&mut rest)));
        let delay = u32::from_le_bytes(take(&mut rest));
        let [pg, ci, cg, length] = [(); 4].map(|()| u16::from_le_bytes(take(&mut rest)));
        Case {
            more,
            register: Register(register),
            subframe: Subframe { delay, pg, ci, cg },
            length,
        }
    }

    /// Puts the bytes of the case down.
    fn write(&self, out: &mut Vec<u8>) {
        let Subframe { delay, pg, ci, cg } = self.subframe;
        out.extend(self.more.to_le_bytes());
        out.extend(self.register.0.iter().flat_map(|n| n.to_le_bytes()));
        out.extend(delay.to_le_bytes());
        out.extend(
            [pg, ci, cg, self.length]
                .iter()
                .flat_map(|n| n.to_le_bytes()),
        );
    }

    /// Makes the excitation and writes the line of it, which begins with the refusal's number times a
    /// sign.
    fn answer(&self, out: &mut Vec<u8>, sign: i64) {
        let mut register = self.register;
        let mut buffer = [BEFORE; LONGEST];
        let lent = &mut buffer[..usize::from(self.length).min(LONGEST)];
        let mut refused = 0;
        for _ in 0..=self.more {
            refused = match register.excite(&self.subframe, lent) {
                Ok(()) => 0,
                Err(refusal) => refusal.number,
            };
        }
        number(out, sign * i64::from(refused));
        numbers(out, buffer.map(i64::from));
        numbers(out, register.0.map(i64::from));
        out.push(b'\n');
    }
}

/// Reads cases and writes the line of each.
fn lines(cases: &[u8], sign: i64) -> Vec<u8> {
    let mut out = Vec::new();
    for case in cases.chunks_exact(CASE_LENGTH) {
        Case::read(case).answer(&mut out, sign);
    }
    out
}

/// The line of each case: it begins with the refusal's number, 0 where there is none.
pub fn answers(cases: &[u8]) -> Vec<u8> {
    lines(cases, 1)
}

/// The line of each case for C: it begins with the result, minus the refusal's number.
pub fn answers_for_c(cases: &[u8]) -> Vec<u8> {
    lines(cases, -1)
}

/// The bytes of the cases whose answers are stored.
pub fn stored() -> Vec<u8> {
    written(&few())
}

/// The bytes of all cases.
pub fn cases() -> Vec<u8> {
    written(&all())
}

fn written(cases: &[Case]) -> Vec<u8> {
    let mut out = Vec::with_capacity(CASE_LENGTH * cases.len());
    for case in cases {
        case.write(&mut out);
    }
    out
}

/// All cases, those that are stored first.
fn all() -> Vec<Case> {
    parts().concat()
}

/// The parts of all cases.
fn parts() -> [Vec<Case>; 15] {
    [
        few(),
        whole_delays(),
        gains(),
        ends(),
        codes_alone(),
        halves(),
        near_the_ends(),
        listed(),
        not_listed(),
        wrong_indices(),
        refusals_together(),
        lengths(),
        many_times(),
        refused_many_times(),
        mixed(),
    ]
}

/// A register whose elements are all the same.
fn flat(n: i32) -> Register {
    Register([n; REGISTER_LENGTH])
}

/// A register of two numbers by turns, the first one the oldest.
fn by_turns(one: i32, other: i32) -> Register {
    Register(std::array::from_fn(|i| [one, other][i % 2]))
}

/// A register that tells its positions: a step, twice the step and so on, the oldest first.
fn telling(step: i32) -> Register {
    Register(std::array::from_fn(|i| step * (i as i32 + 1)))
}

/// A register of any numbers that have so many bits.
fn any(g: &mut Generator, bits: u32) -> Register {
    Register(std::array::from_fn(|_| g.next() as i32 >> (32 - bits)))
}

/// The least adaptive elements over 0, at most so many, that by a PG give so many thousandths beyond
/// whole numbers. There may be none.
fn with_rest(pg: i32, rest: i32, most: usize) -> Vec<i32> {
    let gives = |element: &i32| (pg * element).rem_euclid(1000) == rest;
    (1..=2000).filter(gives).take(most).collect()
}

/// The ternary code of an index.
fn ternary(ci: u16) -> [i8; CODE_LENGTH] {
    let mut code = [0; CODE_LENGTH];
    codes::code(ci, &mut code).expect("an index of a code");
    code
}

/// A case whose adaptive elements are chosen, by the ternary element that stands beside each: from the
/// list for -1, for 0 or for 1, whose numbers are gone through in turn.
fn chosen(samples: u32, pg: u16, cg: u16, lists: [Vec<i32>; 3]) -> Case {
    let mut register = telling(1);
    let mut next = lists.each_ref().map(|list| list.iter().cycle());
    let first = REGISTER_LENGTH - samples as usize;
    for (element, beside) in register.0[first..].iter_mut().zip(ternary(MIXED)) {
        *element = *next[(beside + 1) as usize]
            .next()
            .expect("no list is empty");
    }
    Case::once(register, samples, pg, MIXED, cg)
}

/// A case whose sums without CG are halves, just under a half and just over one, of both signs; with
/// CG the same, beside each ternary element. None for a PG that gives no half.
fn halves_of(samples: u32, pg: u16, cg: u16) -> Option<Case> {
    let gain = PG[usize::from(pg)];
    let [half, next]: [i32; 2] = with_rest(gain, 500, 2).try_into().ok()?;
    // Of two halves in a row one lies over an even number and one over an odd one.
    let under = with_rest(gain, 499, 1).pop().unwrap_or(half - 1);
    let over = with_rest(gain, 501, 1).pop().unwrap_or(half + 1);
    let list: Vec<i32> = [half, next, under, over]
        .into_iter()
        .flat_map(|element| [element, -element])
        .collect();
    Some(chosen(samples, pg, cg, [list.clone(), list.clone(), list]))
}

/// Sums near the ends, in thousandths. Of the first, one part by itself may be over the end.
const NEAR_THE_END: [i64; 15] = [
    999_500_000,
    999_998_500,
    999_999_000,
    999_999_400,
    999_999_499,
    999_999_500,
    999_999_501,
    1_000_000_000,
    1_000_000_001,
    1_000_000_400,
    1_000_000_499,
    1_000_000_500,
    1_000_000_501,
    1_000_001_000,
    1_000_001_500,
];

/// The adaptive elements that take the sum near an end beside a ternary element: those that reach one
/// of the sums exactly first, and how many they are.
fn reaching(pg: u16, cg: u16, beside: i8) -> (Vec<i32>, usize) {
    let [pg, cg] = [PG[usize::from(pg)], CG[usize::from(cg)]].map(i64::from);
    let both = NEAR_THE_END.into_iter().flat_map(|sum| [sum, -sum]);
    let parts = both.map(|sum| sum - 1000 * cg * i64::from(beside));
    let (exact, others): (Vec<i64>, Vec<i64>) = parts.partition(|part| part % pg == 0);
    let count = exact.len();
    let elements = exact.into_iter().chain(others);
    (elements.map(|part| (part / pg) as i32).collect(), count)
}

/// A case whose sums are near the ends.
fn near_the_ends_of(samples: u32, pg: u16, cg: u16) -> Case {
    let lists = [-1, 0, 1].map(|beside| reaching(pg, cg, beside).0);
    chosen(samples, pg, cg, lists)
}

/// The cases that are stored.
fn few() -> Vec<Case> {
    let mut g = Generator::new(81);
    let both_ends = by_turns(i32::MIN, i32::MAX);
    let halves = |samples, pg, cg| halves_of(samples, pg, cg).expect("a PG that gives halves");
    let [small, large] = [9, 22].map(|bits| any(&mut g, bits));
    let sound = Case::once(telling(1_000), 40, 22, 300, 24);
    let mut wrong = [sound; 3];
    wrong[0].subframe.pg = 32;
    wrong[1].subframe.ci = 512;
    wrong[2].subframe.cg = 256;
    vec![
        // Positions, with delays under sixty, of sixty and over it.
        Case::once(telling(1_000), 20, 22, 0, 16),
        Case::once(telling(-7), 59, 26, 511, 31),
        Case::once(telling(-1_000), 60, 2, MIXED, 0),
        Case::once(telling(6_000), 147, 19, 128, 28),
        // Halves of both signs, with CG larger than the other part, smaller, and of either sign.
        halves(60, 31, 31),
        halves(101, 0, 16),
        halves(147, 16, 3),
        // Sums at the ends and about them: exactly 999,999.5 with this CG, 1,000,000.5 and 1,000,001
        // with the next, and one part over the end while the sum is not with the last.
        near_the_ends_of(60, 7, 28),
        near_the_ends_of(88, 7, 19),
        near_the_ends_of(146, 22, 31),
        // The ends of 32 bits.
        Case::once(both_ends, 33, 31, 1, 15),
        Case::once(both_ends, 120, NO_PG, 510, 30),
        Case::once(flat(i32::MIN), 20, 0, 77, 31),
        // Zeros, small numbers and large ones.
        Case::once(Register::ZERO, 77, 31, 509, 0),
        Case::once(small, 25, 10, 431, 17),
        Case::once(large, 100, 11, 200, 29),
        // Refused: each by itself, and before those that come after it.
        sound.delayed(244),
        sound.delayed(241),
        sound.delayed(228),
        sound.delayed(65_536 + 240),
        wrong[0],
        wrong[1].delayed(244),
        wrong[2].delayed(0),
        sound.into_buffer_of(59),
        wrong[0].delayed(1).into_buffer_of(65_535),
        // Several times: growing to both ends, growing quieter, and refused.
        Case::once(Register::ZERO, 20, 31, 349, 31).and_more(11),
        Case::once(flat(1_000_000), 147, 16, 64, 14).and_more(25),
        sound.delayed(956).and_more(2),
    ]
}

/// Every whole delay, of registers that tell their positions and of any numbers.
fn whole_delays() -> Vec<Case> {
    let mut g = Generator::new(82);
    let mut cases = Vec::new();
    for samples in SHORTEST..=FARTHEST_BACK {
        let ci = (4 * samples % 512) as u16;
        let cg = (samples % 32) as u16;
        cases.push(Case::once(telling(1_000), samples, 22, ci, cg));
        cases.push(Case::once(telling(-7), samples, 31, 511 - ci, 31 - cg));
        cases.push(Case::once(any(&mut g, 21), samples, 0, ci + 1, cg));
    }
    cases
}

/// Each PG with each CG, of registers of small and large numbers. Each code comes twice.
fn gains() -> Vec<Case> {
    let mut g = Generator::new(83);
    let mut cases = Vec::new();
    for pg in 0..32 {
        for cg in 0..32 {
            let bits = [8, 16, 21, 32][usize::from(pg + cg) % 4];
            let samples = SHORTEST + (37 * u32::from(pg) + 11 * u32::from(cg)) % 128;
            let ci = (32 * pg + cg) % 512;
            cases.push(Case::once(any(&mut g, bits), samples, pg, ci, cg));
        }
    }
    cases
}

/// Each PG with registers at the ends of 32 bits, at those of an excitation, and of zeros.
fn ends() -> Vec<Case> {
    let mut cases = Vec::new();
    for register in [
        flat(i32::MIN),
        flat(i32::MAX),
        by_turns(i32::MIN, i32::MAX),
        by_turns(i32::MAX, i32::MIN),
        by_turns(1_000_000, -1_000_000),
        by_turns(-1_000_001, 1_000_001),
        Register::ZERO,
    ] {
        for pg in 0..32 {
            let n = cases.len() as u32;
            let samples = SHORTEST + 29 * n % 128;
            let case = Case::once(register, samples, pg, (n % 512) as u16, (n / 7 % 32) as u16);
            cases.push(case.and_more(n % 3));
        }
    }
    cases
}

/// Codes at the ends and others, each by itself: the register is zeros.
fn codes_alone() -> Vec<Case> {
    let mut g = Generator::new(84);
    let at_the_ends = [0, 1, 2, 3, 254, 255, 256, 257, 508, 509, 510, 511];
    let others = [(); 30].map(|()| g.below(512) as u16);
    at_the_ends
        .into_iter()
        .chain(others)
        .map(|ci| Case::once(Register::ZERO, 60, NO_PG, ci, 31))
        .collect()
}

/// Halves and what is just under and over, of each PG that has any and of several CG.
fn halves() -> Vec<Case> {
    let mut cases = Vec::new();
    for pg in 0..32 {
        for cg in [16, 24, 31, 3] {
            let samples = 60 + (7 * u32::from(pg) + u32::from(cg)) % 88;
            cases.extend(halves_of(samples, pg, cg));
        }
    }
    cases
}

/// Sums near the ends: each PG with the least CG, and with each that reaches one of the sums exactly.
fn near_the_ends() -> Vec<Case> {
    let mut cases = Vec::new();
    for pg in (0..32).filter(|&pg| pg != NO_PG) {
        for cg in 0..32 {
            if cg == 16 || reaching(pg, cg, 1).1 + reaching(pg, cg, -1).1 > 0 {
                let samples = 60 + (5 * u32::from(pg) + 3 * u32::from(cg)) % 88;
                cases.push(near_the_ends_of(samples, pg, cg));
            }
        }
    }
    cases
}

/// A sound case of its own, of a register that tells its positions.
fn sound(g: &mut Generator) -> Case {
    let [pg, cg] = [(); 2].map(|()| g.below(32) as u16);
    let step = 1 + g.below(20_000) as i32;
    let samples = SHORTEST + g.below(128) as u32;
    Case::once(telling(step), samples, pg, g.below(512) as u16, cg)
}

/// Every delay that is in the list but is not whole.
fn listed() -> Vec<Case> {
    let mut g = Generator::new(85);
    let delays = TWELFTHS.into_iter().map(u32::from);
    delays
        .filter(|twelfths| !twelfths.is_multiple_of(12))
        .map(|twelfths| sound(&mut g).delayed(twelfths))
        .collect()
}

/// Delays that are not in the list: far ones, whole ones, those of another size in fewer bits, samples
/// for twelfths, and all near the edges of its stretches.
fn not_listed() -> Vec<Case> {
    let mut g = Generator::new(86);
    let far = [
        0,
        1,
        4,
        11,
        12,
        20,
        60,
        120,
        147,
        216,
        482,
        483,
        970,
        1_000,
        1_001,
        1_200 + 4,
        1_788,
        1_800,
        2_000,
        2_400,
        4_096,
        14_700,
        32_767,
        32_768,
        65_535,
        65_536,
        65_536 + 240,
        65_536 + 244,
        65_536 + 1_764,
        131_072 + 720,
        16_777_216 + 240,
        2_147_483_647,
        2_147_483_648,
        2_147_483_648 + 240,
        4_294_967_056,
        4_294_967_284,
        4_294_967_295,
    ];
    let near = [228..=251, 300..=330, 396..=420, 948..=984, 1_751..=1_776];
    let all = far.into_iter().chain(near.into_iter().flatten());
    all.filter(|&twelfths| TWELFTHS.iter().all(|&one| u32::from(one) != twelfths))
        .map(|twelfths| sound(&mut g).delayed(twelfths))
        .collect()
}

/// Indices that are too large, one at a time, with a delay that is whole, listed and neither.
fn wrong_indices() -> Vec<Case> {
    let mut g = Generator::new(87);
    let mut cases = Vec::new();
    for twelfths in [480, 484, 481] {
        for index in [32, 33, 63, 64, 255, 256, 257, 32_768, 65_535] {
            let mut wrong = [sound(&mut g).delayed(twelfths); 2];
            wrong[0].subframe.pg = index;
            wrong[1].subframe.cg = index;
            cases.extend(wrong);
        }
        for index in [512, 513, 767, 768, 1_023, 1_024, 32_768, 65_535] {
            let mut wrong = sound(&mut g).delayed(twelfths);
            wrong.subframe.ci = index;
            cases.push(wrong);
        }
    }
    cases
}

/// Each refusal together with each other one: buffer, PG, CI, CG, and a delay that is whole, listed
/// and neither.
fn refusals_together() -> Vec<Case> {
    let mut g = Generator::new(88);
    let mut cases = Vec::new();
    for length in [60, 59] {
        for pg in [5, 32] {
            for ci in [300, 512] {
                for cg in [7, 32] {
                    for delay in [480, 484, 481] {
                        let mut case = sound(&mut g).into_buffer_of(length);
                        case.subframe = Subframe { delay, pg, ci, cg };
                        cases.push(case);
                    }
                }
            }
        }
    }
    cases
}

/// Buffers of every length that is told apart, and longer ones, with nothing else wrong and with
/// something.
fn lengths() -> Vec<Case> {
    let mut g = Generator::new(89);
    let mut cases = Vec::new();
    for length in (0..=64).chain([120, 255, 256, 316, 32_828, 65_535]) {
        let sound = sound(&mut g).into_buffer_of(length);
        let mut wrong = sound;
        match length % 4 {
            0 => wrong.subframe.pg = 40,
            1 => wrong.subframe.delay = 244,
            2 => wrong.subframe.ci = 600,
            _ => wrong.subframe.delay = 241,
        }
        cases.extend([sound, wrong]);
    }
    cases
}

/// The same subframe many times: loud ones grow to both ends, others die out.
fn many_times() -> Vec<Case> {
    let mut g = Generator::new(90);
    let mut cases = Vec::new();
    for pg in [0, 7, 16, 22, 23, 25, 27, 31] {
        for samples in [20, 33, 59, 60, 61, 100, 147] {
            for (n, more) in [1, 2, 3, 5, 11, 30, 80, 199].into_iter().enumerate() {
                // A PG over one, in thousandths, is loud.
                let register = match PG[usize::from(pg)] {
                    1_000.. if n % 2 == 0 => Register::ZERO,
                    1_000.. => any(&mut g, 6),
                    _ if n % 2 == 0 => by_turns(1_000_000, -999_999),
                    _ => any(&mut g, 32),
                };
                let cg = [31, 0, 16, 20][n % 4];
                let ci = g.below(512) as u16;
                cases.push(Case::once(register, samples, pg, ci, cg).and_more(more));
            }
        }
    }
    cases
}

/// Each refusal many times.
fn refused_many_times() -> Vec<Case> {
    let mut g = Generator::new(91);
    let mut cases = Vec::new();
    for more in [1, 2, 100] {
        let mut wrong = [(); 4].map(|()| sound(&mut g).and_more(more));
        wrong[0].length = 61;
        wrong[1].subframe.ci = 512;
        wrong[2].subframe.delay = 248;
        wrong[3].subframe.delay = 228;
        cases.extend(wrong);
    }
    cases
}

/// Anything with anything.
fn mixed() -> Vec<Case> {
    let mut g = Generator::new(92);
    let mut cases = Vec::new();
    for _ in 0..400 {
        let bits = g.one_of(&[4, 9, 12, 16, 20, 21, 22, 26, 32]);
        let mut case = Case {
            register: any(&mut g, bits),
            ..sound(&mut g)
        };
        case.more = g.one_of(&[0, 0, 0, 1, 2, 7]);
        match g.below(24) {
            0 => case.subframe.delay = g.one_of(&TWELFTHS).into(),
            1 => case.subframe.delay = 200 + g.below(1_700) as u32,
            2 => case.subframe.pg = g.below(40) as u16,
            3 => case.subframe.cg = g.below(40) as u16,
            4 => case.subframe.ci = g.below(600) as u16,
            5 => case.length = g.below(64) as u16,
            _ => {}
        }
        cases.push(case);
    }
    cases
}

#[cfg(test)]
mod tests {
    use super::*;

    #[test]
    fn the_parts_have_so_many_cases() {
        let counts = parts().map(|cases| cases.len());
        let told = [
            28, 384, 1024, 224, 42, 116, 144, 128, 151, 78, 48, 142, 448, 12, 400,
        ];
        assert_eq!(counts, told);
        assert_eq!(cases().len(), 604 * told.iter().sum::<usize>());
    }

    #[test]
    fn a_case_is_read_as_it_is_written() {
        for case in all() {
            let mut bytes = Vec::new();
            case.write(&mut bytes);
            assert_eq!(bytes.len(), CASE_LENGTH);
            assert_eq!(Case::read(&bytes), case);
        }
    }

    #[test]
    fn the_mixed_code_has_each_element_often() {
        let code = ternary(MIXED);
        for element in [-1, 0, 1] {
            let count = code.iter().filter(|&&other| other == element).count();
            assert!(count >= 8, "{count} of {element}");
        }
        assert_eq!(PG[usize::from(NO_PG)], 0);
    }
}
