//! The excitation: worked numbers, refusals, the lines of the commands, a second way over all cases
//! with a fault or none, what the cases and the named edges show, and recordings heard a second way.

use outside::cases::{self, Frame};
use outside::codes;
use outside::excitation::{Register, Subframe};
use outside::frame::{self, Record};
use outside::recording;
use outside::refusal::Refusal;
use outside::tables::{CG, PG, PLACES};
use outside::{delays, excite, hear, subframes};
use std::collections::BTreeSet;

/// Where code 511, the first elements of the printed table, is 1 and where it is -1.
const UP: [usize; 6] = [1, 5, 12, 14, 26, 58];
const DOWN: [usize; 11] = [19, 22, 24, 34, 36, 37, 40, 42, 44, 46, 54];

/// Sixty elements of which these are not 0.
fn sixty(told: &[(i32, &[usize])]) -> [i32; 60] {
    let mut elements = [0; 60];
    for &(element, places) in told {
        for &t in places {
            assert_eq!(elements[t], 0, "{t} twice");
            elements[t] = element;
        }
    }
    elements
}

/// Code 511 times 1,330.
fn first_of_two() -> [i32; 60] {
    sixty(&[(1330, &UP), (-1330, &DOWN)])
}

/// What follows it with the same indices, PG 1.991 and a delay of 20. Of the elements before, the last
/// twenty are -1330 at 0, 2, 4, 6 and 14, and 1330 at 18; 1.991 times 1330 is 2648.03.
fn second_of_two() -> [i32; 60] {
    sixty(&[
        (-2648, &[0, 2, 4, 6, 20]),
        (2648, &[18, 38]),
        (1330, &[1, 5, 12]),
        (-1330, &[19, 36, 37]),
        (-1318, &[14, 26]),
        (-3978, &[22, 24, 34, 40, 42, 44, 46, 54]),
        (3978, &[58]),
    ])
}

fn subframe(delay: u32, pg: u16, ci: u16, cg: u16) -> Subframe {
    Subframe { delay, pg, ci, cg }
}

/// The excitation of a subframe from a register, and the register after.
fn excited(register: [i32; 147], subframe: &Subframe) -> ([i32; 60], [i32; 147]) {
    let mut register = Register(register);
    let mut buffer = [7; 60];
    register.excite(subframe, &mut buffer).unwrap();
    (buffer, register.0)
}

/// A register whose last sixty are these; the others are 9.
fn ending_in(last: [i32; 60]) -> [i32; 147] {
    let mut register = [9; 147];
    register[87..].copy_from_slice(&last);
    register
}

#[test]
fn two_subframes_from_a_fresh_register() {
    let mut register = Register::ZERO;
    let loudest = subframe(240, 31, 511, 31);
    let mut buffer = [7; 60];
    register.excite(&loudest, &mut buffer).unwrap();
    assert_eq!(buffer, first_of_two());
    assert_eq!(register.0[..87], [0; 87]);
    assert_eq!(register.0[87..], first_of_two());
    register.excite(&loudest, &mut buffer).unwrap();
    assert_eq!(buffer, second_of_two());
    assert_eq!(register.0[..27], [0; 27]);
    assert_eq!(register.0[27..87], first_of_two());
    assert_eq!(register.0[87..], second_of_two());
    // A delay of 80 begins at element 40 of the first, -1330.
    let after = register.0;
    let (heard, _) = excited(after, &subframe(80 * 12, 31, 511, 31));
    assert_eq!(heard[..5], [-2648, 1330, -2648, 0, -2648]);
    // One of 120 begins at its element 0: then 2648.03 comes to 1330.
    let (heard, _) = excited(after, &subframe(120 * 12, 31, 511, 31));
    assert_eq!(heard[..5], [0, 3978, 0, 0, 0]);
    // One of 147 begins with the twenty-seven zeros before it.
    let (heard, _) = excited(after, &subframe(147 * 12, 31, 511, 31));
    assert_eq!(heard[..13], first_of_two()[..13]);
    assert_eq!(heard[26..29], [1330, 0, 2648]);
}

#[test]
fn each_delay_takes_these_positions() {
    // The oldest is 20, the next 40; 0.850 times 20 is 17. CG is 1.
    let register: [i32; 147] = std::array::from_fn(|i| 20 * (i as i32 + 1));
    let mut code = [0; 60];
    for t in UP {
        code[t] = 1;
    }
    for t in DOWN {
        code[t] = -1;
    }
    for d in 20..=147 {
        let (heard, after) = excited(register, &subframe(12 * d, 18, 511, 16));
        for (t, &element) in heard.iter().enumerate() {
            let from_the_oldest = 147 - d as usize + t % d as usize + 1;
            assert_eq!(element, 17 * from_the_oldest as i32 + code[t], "{d} {t}");
        }
        assert_eq!((after[0], after[86]), (20 * 61, 20 * 147));
        assert_eq!(after[87..], heard);
    }
    // Some of them by hand.
    let first_and_last = |d: u32| {
        let (heard, _) = excited(register, &subframe(12 * d, 18, 511, 16));
        [heard[0], heard[1], heard[59]]
    };
    assert_eq!(first_and_last(20), [17 * 128, 17 * 129 + 1, 17 * 147]);
    assert_eq!(first_and_last(59), [17 * 89, 17 * 90 + 1, 17 * 89]);
    assert_eq!(first_and_last(60), [17 * 88, 17 * 89 + 1, 17 * 147]);
    assert_eq!(first_and_last(147), [17, 17 * 2 + 1, 17 * 60]);
}

/// The element of an excitation beside this element of code 511, with a delay of sixty.
fn beside(code: i32, pg: u16, cg: u16, adaptive: i32) -> i32 {
    let t = match code {
        1 => 5,
        0 => 3,
        _ => 42,
    };
    let mut last = [0; 60];
    last[t] = adaptive;
    excited(ending_in(last), &subframe(720, pg, 511, cg)).0[t]
}

#[test]
fn sums_are_rounded_once_and_halves_go_away_from_zero() {
    // PG 8 is 0.255: a hundred gives 25.5, three hundred 76.5. CG 20 is 64, 18 is 13, 16 is 1.
    for (code, cg, adaptive, expected) in [
        (0, 20, 100, 26),
        (0, 20, -100, -26),
        (0, 20, 300, 77),
        (0, 20, -300, -77),
        // 64 + 25.5, 64 - 25.5, and the same with the signs turned.
        (1, 20, 100, 90),
        (1, 20, -100, 39),
        (-1, 20, 100, -39),
        (-1, 20, -100, -90),
        // 64 - 76.5 and 76.5 - 64.
        (1, 20, -300, -13),
        (-1, 20, 300, 13),
        // 25.5 - 13 and 13 - 25.5.
        (-1, 18, 100, 13),
        (1, 18, -100, -13),
        // 25.5 - 1, and one more or less than a hundred: 25.755 and 25.245.
        (-1, 16, 100, 25),
        (0, 16, 101, 26),
        (0, 16, 99, 25),
        (0, 16, -99, -25),
        (0, 16, 0, 0),
    ] {
        assert_eq!(beside(code, 8, cg, adaptive), expected, "{code} {adaptive}");
    }
    // PG 22 is 0.983: 838.499, 491.5 and 144.501; CG 31 is 1330.
    for (code, adaptive, expected) in [
        (0, 853, 838),
        (0, -853, -838),
        (0, 500, 492),
        (0, -500, -492),
        (0, 147, 145),
        (0, -147, -145),
        (1, -853, 492),
        (1, -500, 839),
        (1, -147, 1185),
        (-1, 853, -492),
        (-1, 500, -839),
        (-1, 147, -1185),
    ] {
        let heard = beside(code, 22, 31, adaptive);
        assert_eq!(heard, expected, "{code} {adaptive}");
    }
    // PG 0 is -0.993, and CG 0 is -1330: 496.5 and 1489.5 with the other sign.
    assert_eq!((beside(0, 0, 0, 500), beside(0, 0, 0, -500)), (-497, 497));
    assert_eq!(beside(1, 0, 0, -1500), 160);
    assert_eq!(beside(-1, 0, 0, 500), 834);
}

#[test]
fn elements_are_held_and_the_register_is_not() {
    // PG 18 is 0.850: 999,998.65, 999,999.5, 1,000,000.35, 1,000,001.2.
    for (adaptive, expected) in [
        (1_176_469, 999_999),
        (1_176_470, 1_000_000),
        (1_176_471, 1_000_000),
        (1_176_472, 1_000_000),
        (i32::MAX, 1_000_000),
        (-1_176_469, -999_999),
        (-1_176_470, -1_000_000),
        (-1_176_472, -1_000_000),
        (i32::MIN, -1_000_000),
    ] {
        assert_eq!(beside(0, 18, 16, adaptive), expected, "{adaptive}");
    }
    // PG 7 is 0.139: 999,999.499 and 1,000,000.472; 0.139 times 7,000,000 is 973,000.
    assert_eq!(beside(0, 7, 31, 7_194_241), 999_999);
    assert_eq!(beside(0, 7, 31, -7_194_241), -999_999);
    assert_eq!(beside(0, 7, 31, 7_194_248), 1_000_000);
    assert_eq!(beside(0, 7, 31, 7_000_000), 973_000);
    // 0.850 times 1,177,000 is 1,000,450; with 1330 it is over the end, without it is not.
    assert_eq!(beside(1, 18, 31, 1_177_000), 1_000_000);
    assert_eq!(beside(-1, 18, 31, 1_177_000), 999_120);
    assert_eq!(beside(1, 18, 31, -1_177_000), -999_120);
    // -0.993 times the least number there is.
    assert_eq!(beside(0, 0, 16, i32::MIN), 1_000_000);
    assert_eq!(beside(0, 0, 16, i32::MAX), -1_000_000);
    // With PG 0 the code alone is heard; what stays in the register stays as it is.
    for n in [i32::MIN, i32::MAX] {
        let (heard, after) = excited([n; 147], &subframe(240, 6, 511, 31));
        assert_eq!(heard, first_of_two());
        assert_eq!(after[..87], [n; 87]);
        assert_eq!(after[87..], heard);
    }
}

#[test]
fn refusals_come_in_their_order_and_leave_everything() {
    let told: [i32; 147] = std::array::from_fn(|i| i as i32 - 70);
    for (length, pg, ci, cg, delay, number) in [
        (0, 0, 0, 0, 240, 1),
        (59, 31, 511, 31, 1764, 1),
        (61, 0, 0, 0, 240, 1),
        (120, 32, 512, 32, 241, 1),
        (59, 0, 0, 0, 244, 1),
        (60, 32, 0, 0, 240, 2),
        (60, 0, 512, 0, 240, 2),
        (60, 0, 0, 32, 240, 2),
        (60, 256, 0, 0, 240, 2),
        (60, 0, 65_535, 0, 240, 2),
        (60, 0, 0, 65_535, 244, 2),
        (60, 32, 0, 0, 241, 2),
        (60, 0, 512, 0, 0, 2),
        (60, 0, 0, 0, 244, 15),
        (60, 0, 0, 0, 315, 15),
        (60, 31, 511, 31, 404, 4),
        (60, 31, 511, 31, 405, 15),
        (60, 31, 511, 31, 956, 15),
        (60, 31, 511, 31, 964, 4),
        (60, 0, 0, 0, 0, 4),
        (60, 0, 0, 0, 20, 4),
        (60, 0, 0, 0, 228, 4),
        (60, 0, 0, 0, 241, 4),
        (60, 0, 0, 0, 1776, 4),
        (60, 0, 0, 0, 65_536 + 240, 4),
        (60, 0, 0, 0, 65_536 + 244, 4),
        (60, 0, 0, 0, u32::MAX, 4),
    ] {
        let mut register = Register(told);
        let mut buffer = vec![7; length];
        let answer = register.excite(&subframe(delay, pg, ci, cg), &mut buffer);
        let case = format!("{length} {pg} {ci} {cg} {delay}");
        assert_eq!(answer, Err(Refusal::new(number, 0)), "{case}");
        assert_eq!(register.0, told, "{case}");
        assert_eq!(buffer, vec![7; length], "{case}");
    }
    let mut register = Register(told);
    let answer = register.excite(&subframe(1764, 31, 511, 31), &mut [7; 60]);
    assert_eq!(answer, Ok(()));
    assert_ne!(register.0, told);
}

/// A case as its bytes have it.
#[derive(Clone, Debug)]
struct Given {
    more: u32,
    register: Vec<i32>,
    delay: u32,
    pg: u16,
    ci: u16,
    cg: u16,
    length: u16,
}

impl Given {
    fn bytes(&self) -> Vec<u8> {
        let mut bytes = self.more.to_le_bytes().to_vec();
        for element in &self.register {
            bytes.extend(element.to_le_bytes());
        }
        bytes.extend(self.delay.to_le_bytes());
        for index in [self.pg, self.ci, self.cg, self.length] {
            bytes.extend(index.to_le_bytes());
        }
        assert_eq!(bytes.len(), 604);
        bytes
    }

    fn sound(&self) -> bool {
        refusal(Rule::Right, self) == 0
    }
}

/// The cases of some bytes.
fn given(bytes: &[u8]) -> Vec<Given> {
    assert!(bytes.len().is_multiple_of(604));
    let case = |bytes: &[u8]| {
        let word = |at: usize| u32::from_le_bytes(bytes[at..at + 4].try_into().unwrap());
        let half = |at: usize| u16::from_le_bytes(bytes[at..at + 2].try_into().unwrap());
        Given {
            more: word(0),
            register: (0..147).map(|i| word(4 + 4 * i) as i32).collect(),
            delay: word(592),
            pg: half(596),
            ci: half(598),
            cg: half(600),
            length: half(602),
        }
    };
    bytes.chunks(604).map(case).collect()
}

/// The numbers of each line.
fn lines(text: &[u8]) -> Vec<Vec<i64>> {
    let text = std::str::from_utf8(text).unwrap();
    assert!(text.is_empty() || text.ends_with('\n'));
    let line = |line: &str| line.split(' ').map(|n| n.parse().unwrap()).collect();
    text.lines().map(line).collect()
}

/// The text of numbers, one space apart.
fn text(numbers: &[i32]) -> String {
    let words: Vec<String> = numbers.iter().map(i32::to_string).collect();
    words.join(" ")
}

#[test]
fn the_lines_of_subframes_are_these() {
    let mut fresh = Given {
        more: 0,
        register: vec![0; 147],
        delay: 240,
        pg: 31,
        ci: 511,
        cg: 31,
        length: 60,
    };
    let said = |given: &Given| String::from_utf8(subframes::answers(&given.bytes())).unwrap();
    let (first, second) = (text(&first_of_two()), text(&second_of_two()));
    let once = format!("0 {first} 7 7 {} {first}\n", text(&[0; 87]));
    assert_eq!(said(&fresh), once);
    fresh.more = 1;
    let zeros = text(&[0; 27]);
    let twice = format!("0 {second} 7 7 {zeros} {first} {second}\n");
    assert_eq!(said(&fresh), twice);
    // Refused, also many times: all is as it was.
    fresh.register = (0..147).map(|i| i - 73).collect();
    let rest = format!("{} {}\n", text(&[7; 62]), text(&fresh.register));
    for more in [0, 1, 500] {
        for (delay, pg, length, number) in [
            (240, 31, 59, 1),
            (240, 31, 0, 1),
            (240, 31, 62, 1),
            (240, 31, 63, 1),
            (240, 31, 65_535, 1),
            (241, 32, 61, 1),
            (241, 32, 60, 2),
            (244, 31, 60, 15),
            (1788, 31, 60, 4),
        ] {
            let refused = Given {
                more,
                delay,
                pg,
                length,
                ..fresh.clone()
            };
            assert_eq!(said(&refused), format!("{number} {rest}"));
        }
    }
    // Cases one after the other; one that is cut ends them.
    (fresh.more, fresh.register) = (0, vec![0; 147]);
    let case = fresh.bytes();
    assert_eq!(subframes::answers(&[]), b"");
    assert_eq!(subframes::answers(&case[..603]), b"");
    let three = [case.clone(), case.clone(), case].concat();
    for (length, count) in [(604, 1), (1207, 1), (1208, 2), (1811, 2), (1812, 3)] {
        let said = subframes::answers(&three[..length]);
        assert_eq!(said, once.repeat(count).as_bytes(), "{length}");
    }
}

/// A way to make an excitation, right or wrong.
#[derive(Clone, Copy, Debug, PartialEq)]
enum Rule {
    Right,
    /// Either product is rounded by itself.
    RoundsParts,
    RoundsTowardZero,
    RoundsDown,
    HalvesToEven,
    HalvesUp,
    HalvesTowardZero,
    /// The adaptive part is held before the sum.
    HoldsPart,
    /// What comes from the register is held.
    HoldsRegister,
    NotHeld,
    HeldOneLess,
    HeldByBits,
    /// The adaptive part has 32 bits.
    Wraps,
    OneLate,
    OneEarly,
    RegisterReversed,
    /// Past a short delay the new elements are used.
    RunsOn,
    /// Past a short delay there is nothing.
    NotRepeated,
    Unmoved,
    /// The register moves by fifty-nine.
    MovesLess,
    NewestFirst,
    /// The new elements go to the other end.
    MovesBack,
    MadeOnce,
    RefusedMoves,
    RefusedWrites,
    IndexBeforeBuffer,
    DelayBeforeIndex,
    /// A buffer of more than sixty does.
    LongerIsEnough,
    /// Both kinds of delay are told as 4, or as 15.
    NotWholeIsNotListed,
    NotListedIsNotWhole,
    /// A delay that is not whole is cut.
    CutsDelay,
    /// Any whole delay does.
    AnyWhole,
    DelayOf16Bits,
    IndexOf8Bits,
    CodeBackwards,
    NextCode,
}

const WRONG: [Rule; 35] = [
    Rule::RoundsParts,
    Rule::RoundsTowardZero,
    Rule::RoundsDown,
    Rule::HalvesToEven,
    Rule::HalvesUp,
    Rule::HalvesTowardZero,
    Rule::HoldsPart,
    Rule::HoldsRegister,
    Rule::NotHeld,
    Rule::HeldOneLess,
    Rule::HeldByBits,
    Rule::Wraps,
    Rule::OneLate,
    Rule::OneEarly,
    Rule::RegisterReversed,
    Rule::RunsOn,
    Rule::NotRepeated,
    Rule::Unmoved,
    Rule::MovesLess,
    Rule::NewestFirst,
    Rule::MovesBack,
    Rule::MadeOnce,
    Rule::RefusedMoves,
    Rule::RefusedWrites,
    Rule::IndexBeforeBuffer,
    Rule::DelayBeforeIndex,
    Rule::LongerIsEnough,
    Rule::NotWholeIsNotListed,
    Rule::NotListedIsNotWhole,
    Rule::CutsDelay,
    Rule::AnyWhole,
    Rule::DelayOf16Bits,
    Rule::IndexOf8Bits,
    Rule::CodeBackwards,
    Rule::NextCode,
];

/// Whether a delay is in the list, by its stretches.
fn listed(twelfths: u32) -> bool {
    match twelfths {
        240..=311 | 408..=959 => twelfths.is_multiple_of(4),
        312..=407 => twelfths.is_multiple_of(3),
        960..=1764 => twelfths.is_multiple_of(12),
        _ => false,
    }
}

/// The indices and the delay as a rule takes them.
fn taken(rule: Rule, given: &Given) -> (u32, [usize; 3]) {
    let delay = match rule {
        Rule::DelayOf16Bits => given.delay % 65_536,
        _ => given.delay,
    };
    let index = |index: u16| match rule {
        Rule::IndexOf8Bits => index % 256,
        _ => index,
    };
    let ci = match rule {
        Rule::NextCode if given.ci < 511 => given.ci + 1,
        _ => given.ci,
    };
    (
        delay,
        [index(given.pg), ci, index(given.cg)].map(usize::from),
    )
}

/// The number of the refusal, or 0.
fn refusal(rule: Rule, given: &Given) -> i64 {
    let (delay, [pg, ci, cg]) = taken(rule, given);
    let of_buffer = match given.length {
        60 => 0,
        61.. if rule == Rule::LongerIsEnough => 0,
        _ => 1,
    };
    let of_index = if pg > 31 || cg > 31 || ci > 511 { 2 } else { 0 };
    let of_delay = match (listed(delay), delay % 12 == 0) {
        (true, true) => 0,
        (true, false) if rule == Rule::CutsDelay => 0,
        (true, false) if rule == Rule::NotWholeIsNotListed => 4,
        (true, false) => 15,
        (false, false) if rule == Rule::NotListedIsNotWhole => 15,
        (false, true) if rule == Rule::AnyWhole && (12..1764).contains(&delay) => 0,
        (false, _) => 4,
    };
    let order = match rule {
        Rule::IndexBeforeBuffer => [of_index, of_buffer, of_delay],
        Rule::DelayBeforeIndex => [of_buffer, of_delay, of_index],
        _ => [of_buffer, of_index, of_delay],
    };
    order.into_iter().find(|&number| number > 0).unwrap_or(0)
}

/// Thousandths rounded to whole numbers, halves away from zero.
fn away(thousandths: i128) -> i128 {
    thousandths.signum() * ((2 * thousandths.abs() + 1000) / 2000)
}

/// Thousandths rounded by a rule.
fn rounded(rule: Rule, thousandths: i128) -> i128 {
    let half = thousandths.rem_euclid(1000) == 500;
    let down = thousandths.div_euclid(1000);
    match rule {
        Rule::RoundsTowardZero => thousandths / 1000,
        Rule::RoundsDown => down,
        Rule::HalvesToEven if half => down + down % 2,
        Rule::HalvesUp if half => down + 1,
        Rule::HalvesTowardZero if half => thousandths / 1000,
        _ => away(thousandths),
    }
}

/// An element by a rule.
fn element(rule: Rule, cg: i128, ternary: i128, pg: i128, adaptive: i128) -> i32 {
    let end = 1_000_000;
    let part = match rule {
        Rule::HoldsRegister => pg * adaptive.clamp(-end, end),
        Rule::Wraps => i128::from((pg * adaptive) as i32),
        Rule::HoldsPart => (pg * adaptive).clamp(-1000 * end, 1000 * end),
        Rule::RoundsParts => 1000 * away(pg * adaptive),
        _ => pg * adaptive,
    };
    let sum = rounded(rule, 1000 * cg * ternary + part);
    let held = match rule {
        Rule::NotHeld => sum,
        Rule::HeldOneLess => sum.clamp(1 - end, end - 1),
        Rule::HeldByBits => sum.clamp(-(1 << 20), (1 << 20) - 1),
        _ => sum.clamp(-end, end),
    };
    held as i32
}

/// The excitation of a subframe by a rule; the buffer and the register go with it.
fn make(rule: Rule, given: &Given, register: &mut Vec<i32>, buffer: &mut [i32]) -> i64 {
    let number = refusal(rule, given);
    if number > 0 {
        if rule == Rule::RefusedMoves {
            register.drain(..60);
            register.extend([0; 60]);
        }
        if rule == Rule::RefusedWrites {
            buffer.fill(0);
        }
        return number;
    }
    let (delay, [pg, ci, cg]) = taken(rule, given);
    let d = (delay / 12) as usize;
    let mut code = codes::elements()[2 * (511 - ci)..][..60].to_vec();
    if rule == Rule::CodeBackwards {
        code.reverse();
    }
    // The last d elements, over and over.
    let mut window = register[147 - d..].to_vec();
    match rule {
        Rule::OneLate => window.rotate_left(1),
        Rule::OneEarly => window.rotate_right(1),
        Rule::RegisterReversed => {
            window = register[..d].to_vec();
            window.reverse();
        }
        _ => {}
    }
    let mut new: Vec<i32> = Vec::new();
    for t in 0..60 {
        let adaptive = match rule {
            Rule::RunsOn if t >= d => new[t - d],
            Rule::NotRepeated if t >= d => 0,
            _ => window[t % d],
        };
        let [cg, ternary] = [i128::from(CG[cg]), i128::from(code[t])];
        new.push(element(rule, cg, ternary, PG[pg].into(), adaptive.into()));
    }
    buffer[..60].copy_from_slice(&new);
    match rule {
        Rule::Unmoved => {}
        Rule::MovesLess => {
            register.drain(..59);
            register.extend(&new[..59]);
        }
        Rule::NewestFirst => {
            register.drain(..60);
            register.extend(new.iter().rev());
        }
        Rule::MovesBack => {
            register.truncate(87);
            register.splice(..0, new);
        }
        _ => {
            register.drain(..60);
            register.extend(new);
        }
    }
    0
}

/// The line of a case by a rule.
fn line(rule: Rule, given: &Given) -> Vec<i64> {
    let mut register = given.register.clone();
    let mut buffer = [7; 62];
    let length = usize::from(given.length).min(62);
    let more = match rule {
        Rule::MadeOnce => 0,
        _ => given.more,
    };
    let mut number = 0;
    for _ in 0..=more {
        number = make(rule, given, &mut register, &mut buffer[..length]);
    }
    let numbers = buffer.iter().chain(&register);
    [number]
        .into_iter()
        .chain(numbers.map(|&n| n.into()))
        .collect()
}

#[test]
fn every_case_is_answered_as_a_second_way_says() {
    let cases = subframes::cases();
    let said = lines(&subframes::answers(&cases));
    let given = given(&cases);
    assert!((3_000..=4_000).contains(&given.len()), "{}", given.len());
    assert_eq!(said.len(), given.len());
    for (n, (said, given)) in said.iter().zip(&given).enumerate() {
        assert_eq!(said.len(), 210);
        assert!(*said == line(Rule::Right, given), "case {n}");
    }
}

#[test]
fn the_stored_cases_come_first() {
    let (stored, all) = (subframes::stored(), subframes::cases());
    assert_eq!(stored, all[..stored.len()]);
    assert_eq!(stored.len() / 604, 28);
}

#[test]
fn the_stored_cases_tell_each_wrong_rule() {
    let given = given(&subframes::stored());
    for rule in WRONG {
        let told = |given: &Given| line(rule, given) != line(Rule::Right, given);
        assert!(given.iter().any(told), "{rule:?}");
    }
}

#[test]
fn all_cases_tell_each_wrong_rule_many_times() {
    let mut given = given(&subframes::cases());
    given.retain(|given| given.more < 20);
    let right: Vec<Vec<i64>> = given.iter().map(|one| line(Rule::Right, one)).collect();
    for rule in WRONG {
        let all = given.iter().zip(&right);
        let told = all.filter(|(one, right)| line(rule, one) != **right);
        let told = told.take(12).count();
        // Few delays need more than sixteen bits, and few are whole but not in the list.
        let least = match rule {
            Rule::DelayOf16Bits | Rule::AnyWhole => 5,
            _ => 12,
        };
        assert!(told >= least, "{rule:?}: {told}");
    }
}

/// The exact sum of each element that is made first, in thousandths, and the part of it that is CG's.
fn sums(given: &Given) -> Vec<(i128, i128)> {
    let d = (given.delay / 12) as usize;
    let code = &codes::elements()[2 * (511 - usize::from(given.ci))..];
    let [pg, cg] = [PG[usize::from(given.pg)], CG[usize::from(given.cg)]].map(i128::from);
    let sum = |t: usize| {
        let part = 1000 * cg * i128::from(code[t]);
        let adaptive = given.register[147 - d + t % d];
        (part + pg * i128::from(adaptive), part)
    };
    (0..60).map(sum).collect()
}

/// All that sums show: exact halves and what is just under and over, by the sign of the sum and of
/// CG's part, and sums near the ends.
fn shown(cases: &[Given]) -> BTreeSet<String> {
    let mut shown = BTreeSet::new();
    for given in cases.iter().filter(|given| given.sound()) {
        for (sum, part) in sums(given) {
            let sign = |n: i128| ["below", "no", "above"][(n.signum() + 1) as usize];
            let rest = sum.abs() % 1000;
            if (499..=501).contains(&rest) && sum.abs() < 100_000_000 {
                let parity = ["even", "odd"][(sum.abs() / 1000 % 2) as usize];
                let parity = if rest == 500 { parity } else { "any" };
                let (sum, part) = (sign(sum), sign(part));
                shown.insert(format!("{rest} {parity}: sum {sum}, CG {part}"));
            }
            // The other part has the other sign.
            if rest == 500 && part.signum() == sum.signum() && part.abs() > sum.abs() {
                shown.insert(format!("turned half: sum {}", sign(sum)));
            }
            if (999_000_000..1_002_000_000).contains(&sum.abs()) {
                shown.insert(format!("sum {sum}"));
                let other = sum - part;
                if other.abs() > 1_000_000_000 && sum.abs() < 999_999_000 {
                    shown.insert(format!("one part over the end: sum {}", sign(sum)));
                }
            }
            let held = sum.abs() > 1_000_000_500 && sum % 1000 != 0;
            if held {
                shown.insert(format!("held, a fraction lost: {}", sign(sum)));
            }
        }
    }
    shown
}

#[test]
fn the_cases_show_halves_and_sums_at_the_ends() {
    let (stored, all) = (
        shown(&given(&subframes::stored())),
        shown(&given(&subframes::cases())),
    );
    let mut wanted = Vec::new();
    for sum in ["below", "above"] {
        for part in ["below", "no", "above"] {
            for half in ["500 even", "500 odd", "499 any", "501 any"] {
                wanted.push(format!("{half}: sum {sum}, CG {part}"));
            }
        }
        wanted.push(format!("turned half: sum {sum}"));
        wanted.push(format!("held, a fraction lost: {sum}"));
        wanted.push(format!("one part over the end: sum {sum}"));
    }
    for sum in [999_999_500, 1_000_000_500, 1_000_001_000] {
        wanted.extend([format!("sum {sum}"), format!("sum -{sum}")]);
    }
    for what in &wanted {
        assert!(stored.contains(what), "stored: {what}");
        assert!(all.contains(what), "all: {what}");
    }
    for sum in [
        999_998_500,
        999_999_000,
        999_999_400,
        999_999_499,
        999_999_501,
        1_000_000_000,
        1_000_000_001,
        1_000_000_400,
        1_000_000_499,
        1_000_001_500,
    ] {
        assert!(all.contains(&format!("sum {sum}")), "{sum}");
        assert!(all.contains(&format!("sum -{sum}")), "-{sum}");
    }
}

#[test]
fn all_that_is_wanted_is_among_the_cases() {
    let all = given(&subframes::cases());
    let sound: Vec<&Given> = all.iter().filter(|given| given.sound()).collect();
    let delays: BTreeSet<u32> = sound.iter().map(|given| given.delay).collect();
    assert!(delays.into_iter().eq((20..=147).map(|d| 12 * d)));
    let gains: BTreeSet<(u16, u16)> = sound.iter().map(|given| (given.pg, given.cg)).collect();
    assert_eq!(gains.len(), 1024);
    let codes: BTreeSet<u16> = sound.iter().map(|given| given.ci).collect();
    assert_eq!(codes.len(), 512);
    for n in [i32::MIN, i32::MAX, 0] {
        let flat = sound.iter().filter(|one| one.register == [n; 147]);
        let gains: BTreeSet<u16> = flat.map(|given| given.pg).collect();
        assert_eq!(gains.len(), 32, "{n}");
    }
    for two in [[i32::MIN, i32::MAX], [i32::MAX, i32::MIN]] {
        let by_turns: Vec<i32> = (0..147).map(|i| two[i % 2]).collect();
        let found = sound.iter().filter(|given| given.register == by_turns);
        assert!(found.count() >= 32);
    }
    // Refused: every listed delay, others, and each length.
    let refused = |number| {
        let of = all
            .iter()
            .filter(move |one| refusal(Rule::Right, one) == number);
        of.collect::<Vec<&Given>>()
    };
    let not_whole: BTreeSet<u32> = refused(15).iter().map(|given| given.delay).collect();
    assert_eq!(not_whole.len(), 128);
    let not_listed: BTreeSet<u32> = refused(4).iter().map(|given| given.delay).collect();
    for delay in [
        0, 1, 12, 228, 239, 241, 310, 311, 313, 407, 409, 959, 961, 1763, 1765, 1775, 1776, 1788,
        65_535,
    ] {
        assert!(not_listed.contains(&delay), "{delay}");
    }
    for delay in [65_536 + 240, 2_147_483_648, 4_294_967_295] {
        assert!(not_listed.contains(&delay), "{delay}");
    }
    let lengths: BTreeSet<u16> = refused(1).iter().map(|given| given.length).collect();
    for length in (0..60).chain(61..64).chain([65_535]) {
        assert!(lengths.contains(&length), "{length}");
    }
    let wrong: BTreeSet<(u16, u16, u16)> = refused(2)
        .iter()
        .filter(|given| given.delay == 480)
        .map(|given| (given.pg.max(31), given.ci.max(511), given.cg.max(31)))
        .collect();
    for index in [32, 33, 255, 256, 65_535] {
        assert!(wrong.contains(&(index, 511, 31)), "PG {index}");
        assert!(wrong.contains(&(31, 511, index)), "CG {index}");
    }
    for index in [512, 513, 1_023, 65_535] {
        assert!(wrong.contains(&(31, index, 31)), "CI {index}");
    }
    // Every two causes together, and all of them.
    let causes: BTreeSet<[bool; 6]> = all
        .iter()
        .map(|given| {
            let Given {
                pg, ci, cg, delay, ..
            } = *given;
            let (listed, whole) = (listed(delay), delay % 12 == 0);
            let wrong = [given.length != 60, pg > 31, ci > 511, cg > 31];
            [
                wrong[0],
                wrong[1],
                wrong[2],
                wrong[3],
                listed && !whole,
                !listed,
            ]
        })
        .collect();
    assert_eq!(causes.len(), 48);
    // Many times, by delays shorter and longer than sixty.
    for short in [false, true] {
        let many = sound.iter().filter(|one| (one.delay < 720) == short);
        let times: BTreeSet<u32> = many.map(|given| given.more).collect();
        for more in [1, 2, 3, 5, 11, 30, 80, 199] {
            assert!(times.contains(&more), "{short} {more}");
        }
    }
}

#[test]
fn many_times_grow_to_both_ends_and_die_out() {
    let cases = subframes::cases();
    let said = lines(&subframes::answers(&cases));
    let (mut grown, mut died) = (BTreeSet::new(), BTreeSet::new());
    for (given, said) in given(&cases).iter().zip(said) {
        if said[0] != 0 || given.more < 11 {
            continue;
        }
        let short = given.delay < 720;
        let before = given.register.iter().map(|n| n.unsigned_abs()).max();
        let (least, most) = (said[1..61].iter().min(), said[1..61].iter().max());
        if before < Some(64) && (least, most) == (Some(&-1_000_000), Some(&1_000_000)) {
            grown.insert((given.pg, short));
        }
        let largest = said[1..61].iter().map(|n| n.unsigned_abs()).max();
        if before >= Some(999_999) && largest < Some(10) {
            died.insert((given.pg, short));
        }
    }
    for short in [false, true] {
        assert!(grown.contains(&(31, short)) && grown.contains(&(27, short)));
        assert!(died.contains(&(7, short)) && died.contains(&(16, short)));
    }
}

/// The delay, PG, CI and CG of a subframe.
type Indices = (u32, u16, u16, u16);

/// A recording of voice blocks, of the subframes of each frame. A first delay of 0 refuses the frame
/// with 6.
fn recorded(voice: &[&[[Indices; 4]]]) -> Vec<u8> {
    let frame = |four: &[Indices; 4]| {
        let mut record = Record::ZERO;
        if four[0].0 == 0 {
            record.fields[26] = 1;
            return frame::lay(&record);
        }
        let pd = delays::codes(four.map(|(delay, ..)| delay)).unwrap();
        for (n, (_, pg, ci, cg)) in four.iter().enumerate() {
            record.fields[10 + 4 * n..][..4].copy_from_slice(&[pd[n], *pg, *ci, *cg]);
        }
        frame::lay(&record)
    };
    let blocks: Vec<Vec<Frame>> = voice
        .iter()
        .map(|frames| frames.iter().map(frame).collect())
        .collect();
    let blocks: Vec<&[Frame]> = blocks.iter().map(Vec::as_slice).collect();
    cases::sound(7, 1, &blocks)
}

fn excited_text(recording: &[u8]) -> String {
    String::from_utf8(excite::excite(recording)).unwrap()
}

#[test]
fn the_lines_of_a_recording_are_these() {
    let loudest = (240, 31, 511, 31);
    let not_whole = (244, 31, 511, 31);
    let refused = [(0, 0, 0, 0); 4];
    // The two subframes that are heard are the first of the second frame and the third of the fifth.
    let recording = recorded(&[
        &[refused],
        &[[loudest, not_whole, not_whole, not_whole], refused],
        &[[not_whole; 4]],
        &[[not_whole, not_whole, loudest, not_whole], refused],
    ]);
    let expected = [
        "1 refused 6".to_string(),
        format!("2 1 {}", text(&first_of_two())),
        "2 2 refused 15\n2 3 refused 15\n2 4 refused 15\n3 refused 6".to_string(),
        "4 1 refused 15\n4 2 refused 15\n4 3 refused 15\n4 4 refused 15".to_string(),
        "5 1 refused 15\n5 2 refused 15".to_string(),
        format!("5 3 {}", text(&second_of_two())),
        "5 4 refused 15\n6 refused 6\n".to_string(),
    ];
    assert_eq!(excited_text(&recording), expected.join("\n"));
    // The delays of the sample are 54.67 and 44.33.
    let sample: String = (1..=8)
        .map(|n| format!("{} {} refused 15\n", (n + 3) / 4, (n + 3) % 4 + 1))
        .collect();
    assert_eq!(excited_text(&cases::sample()), sample);
    assert_eq!(excited_text(&[]), "refused 8 at 0\n");
    assert_eq!(excited_text(&[1]), "refused 9 at 0\n");
    assert_eq!(excited_text(&cases::sample()[..44]), "refused 10 at 14\n");
    let wrong_size = excited_text(&[1, 0, 0, 0, 2, 0, 5]);
    assert_eq!(wrong_size, "refused 11 at 0 1\n");
    assert_eq!(excited_text(&[0; 65_537]), "refused 1 at 65536\n");
}

/// A way to go through a recording, right or wrong.
#[derive(Clone, Copy, Debug, PartialEq)]
enum Way {
    Right,
    /// The register is zeros again at each frame, at each voice block, and after what is refused.
    FreshFrames,
    FreshVoices,
    FreshAfterFrame,
    FreshAfterSubframe,
    /// What is refused moves zeros in.
    FrameMoves,
    SubframeMoves,
    /// The first subframe that is refused ends its frame.
    EndsFrame,
    /// Indices are those that come, before any correction.
    AsReceived,
}

const WRONG_WAYS: [Way; 8] = [
    Way::FreshFrames,
    Way::FreshVoices,
    Way::FreshAfterFrame,
    Way::FreshAfterSubframe,
    Way::FrameMoves,
    Way::SubframeMoves,
    Way::EndsFrame,
    Way::AsReceived,
];

/// The indices of a frame as they come, before any correction.
fn received(frame: &[u8]) -> Record {
    let frame: &Frame = frame.try_into().unwrap();
    let mut record = Record::ZERO;
    for (p, place) in PLACES.iter().enumerate() {
        if let Some(index) = record.fields.get_mut(place.field) {
            *index |= u16::from(frame::is_set(frame, p + 1)) << place.bit;
        }
    }
    record
}

/// The fields and the delays of each frame, by what is heard; no delays where it is refused.
fn heard(bytes: &[u8]) -> Vec<(Vec<u16>, Vec<u32>)> {
    let text = String::from_utf8(hear::hear(bytes)).unwrap();
    let frame = |line: &str| {
        let words: Vec<&str> = line.split(' ').collect();
        let fields = words[2..30].iter().map(|word| word.parse().unwrap());
        let at = words.iter().position(|&word| word == "delays");
        let delays = at.map_or(&[][..], |at| &words[at + 1..at + 5]);
        let delays = delays.iter().map(|word| word.parse().unwrap());
        (fields.collect(), delays.collect())
    };
    let lines = text.lines().filter(|line| line.starts_with("frame "));
    lines.map(frame).collect()
}

/// The lines of a sound recording, a second way.
fn lines_by(way: Way, bytes: &[u8]) -> String {
    let mut out = String::new();
    let mut register = vec![0; 147];
    let mut frames = heard(bytes).into_iter().enumerate();
    for (_, payload) in recording::read(bytes).unwrap().voice_blocks() {
        if way == Way::FreshVoices {
            register = vec![0; 147];
        }
        for frame in payload.chunks_exact(18) {
            let (k, (mut fields, mut delays)) = frames.next().unwrap();
            if way == Way::FreshFrames {
                register = vec![0; 147];
            }
            if way == Way::AsReceived {
                let record = received(frame);
                fields = record.fields.to_vec();
                delays = match record.sp() {
                    0 => delays::delays(record.pd()).map(u32::from).to_vec(),
                    _ => Vec::new(),
                };
            }
            if delays.is_empty() {
                out += &format!("{} refused 6\n", k + 1);
                match way {
                    Way::FreshAfterFrame => register = vec![0; 147],
                    Way::FrameMoves => register = [&register[60..], &[0; 60]].concat(),
                    _ => {}
                }
            }
            for (n, &delay) in delays.iter().enumerate() {
                let given = Given {
                    more: 0,
                    register: Vec::new(),
                    delay,
                    pg: fields[11 + 4 * n],
                    ci: fields[12 + 4 * n],
                    cg: fields[13 + 4 * n],
                    length: 60,
                };
                let mut buffer = [0; 60];
                let number = make(Rule::Right, &given, &mut register, &mut buffer);
                out += &format!("{} {}", k + 1, n + 1);
                out += &match number {
                    0 => format!(" {}\n", text(&buffer)),
                    _ => format!(" refused {number}\n"),
                };
                match way {
                    Way::EndsFrame if number > 0 => break,
                    Way::FreshAfterSubframe if number > 0 => register = vec![0; 147],
                    Way::SubframeMoves if number > 0 => {
                        register = [&register[60..], &[0; 60]].concat();
                    }
                    _ => {}
                }
            }
        }
    }
    assert!(frames.next().is_none());
    out
}

#[test]
fn recordings_are_excited_as_a_second_way_says() {
    let mut told = [0; WRONG_WAYS.len()];
    let first = cases::edges().len() as u64;
    for n in (first..first + 300).filter(|n| n % 2 == 1) {
        let bytes = cases::recording(1, n);
        if bytes.len() > 4_000 {
            continue;
        }
        let right = excited_text(&bytes);
        assert!(right == lines_by(Way::Right, &bytes), "recording {n}");
        for (told, way) in told.iter_mut().zip(WRONG_WAYS) {
            *told += usize::from(lines_by(way, &bytes) != right);
        }
    }
    assert!(told.iter().all(|&n| n >= 20), "{WRONG_WAYS:?} {told:?}");
}

/// The edges made for the excitation, and the ways that each tells from the right one.
#[rustfmt::skip]
const EDGES: [(&str, &[Way]); 28] = [
    ("every whole delay, rising", &[Way::FreshFrames]),
    ("every whole delay, falling, over voices", &[Way::FreshVoices]),
    ("every whole delay in every subframe", &[Way::FreshFrames, Way::FreshVoices]),
    ("whole delays in any order, each frame in its own voice", &[Way::FreshVoices]),
    ("one frame, no subframe refused", &[]),
    ("every PG", &[Way::FreshFrames]),
    ("every CG", &[Way::FreshVoices]),
    ("every PG with every CG, the first half", &[Way::FreshVoices]),
    ("every PG with every CG, the second half", &[Way::FreshVoices]),
    ("codes from the first to the last", &[]),
    ("the loudest gains, delay 20", &[Way::FreshFrames, Way::FreshVoices]),
    ("the loudest gains, delay 147", &[Way::FreshFrames, Way::FreshVoices]),
    ("the loudest gains, whole delays in any order", &[Way::FreshFrames]),
    ("loud, then dying out", &[Way::FreshVoices]),
    ("loud, then the least PG", &[Way::FreshVoices]),
    ("each pattern of refused subframes", &[Way::FreshAfterSubframe, Way::SubframeMoves, Way::EndsFrame]),
    ("each pattern of refused subframes, each in its own voice", &[Way::FreshVoices, Way::SubframeMoves]),
    ("one frame, all four subframes refused", &[Way::EndsFrame]),
    ("all four subframes of every frame refused", &[Way::EndsFrame]),
    ("frames refused first", &[]),
    ("frames refused between", &[Way::FreshAfterFrame, Way::FrameMoves]),
    ("frames refused last", &[]),
    ("frames refused first, between and last", &[Way::FreshVoices, Way::FreshAfterFrame, Way::FrameMoves]),
    ("frames and subframes refused", &[Way::FreshAfterFrame, Way::FreshAfterSubframe, Way::SubframeMoves]),
    ("every frame refused, no subframe would be", &[]),
    ("PD bits hit and put right", &[Way::AsReceived]),
    ("PG bits, SP and parity bits hit and put right", &[Way::AsReceived]),
    ("hits not put right", &[Way::AsReceived]),
];

/// The edges made for the excitation.
fn edges() -> Vec<cases::Edge> {
    let edges = cases::edges().split_off(563);
    assert_eq!(edges.len(), EDGES.len());
    edges
}

#[test]
fn the_edges_tell_wrong_ways() {
    for (edge, (name, ways)) in edges().iter().zip(EDGES) {
        assert_eq!(edge.name, name);
        assert!(edge.bytes.len() < 4_000, "{name}");
        let right = excited_text(&edge.bytes);
        assert!(right == lines_by(Way::Right, &edge.bytes), "{name}");
        for &way in ways {
            assert!(lines_by(way, &edge.bytes) != right, "{name}: {way:?}");
        }
    }
}

/// The lines of an edge: the elements of each subframe, or the number of its refusal.
fn told(bytes: &[u8]) -> Vec<Result<Vec<i32>, String>> {
    let text = excited_text(bytes);
    let line = |line: &str| match line.split_once(" refused ") {
        Some((_, number)) => Err(number.to_string()),
        None => Ok(line
            .split(' ')
            .skip(2)
            .map(|n| n.parse().unwrap())
            .collect()),
    };
    text.lines().map(line).collect()
}

#[test]
fn the_edges_show_what_they_are_named_for() {
    let edges = edges();
    let of = |name: &str| &edges.iter().find(|edge| edge.name == name).unwrap().bytes[..];
    let subframes = |name: &str| -> Vec<Indices> {
        let frames = heard(of(name)).into_iter();
        let four = |(fields, delays): (Vec<u16>, Vec<u32>)| {
            let of = move |n: usize| {
                (
                    delays[n],
                    fields[11 + 4 * n],
                    fields[12 + 4 * n],
                    fields[13 + 4 * n],
                )
            };
            (0..4).map(of).collect::<Vec<_>>()
        };
        frames.flat_map(four).collect()
    };
    // Every whole delay, and in every subframe.
    for name in [
        "every whole delay, rising",
        "every whole delay, falling, over voices",
    ] {
        let delays: BTreeSet<u32> = subframes(name).iter().map(|one| one.0).collect();
        assert!(delays.into_iter().eq((20..=147).map(|d| 12 * d)), "{name}");
    }
    let all = subframes("every whole delay in every subframe");
    for n in 0..4 {
        let delays: BTreeSet<u32> = all.iter().skip(n).step_by(4).map(|one| one.0).collect();
        assert_eq!(delays.len(), 128);
    }
    // Every PG, every CG, each with each, and 64 codes.
    let gains: BTreeSet<u16> = subframes("every PG").iter().map(|one| one.1).collect();
    assert_eq!(gains.len(), 32);
    let gains: BTreeSet<u16> = subframes("every CG").iter().map(|one| one.3).collect();
    assert_eq!(gains.len(), 32);
    let mut both = subframes("every PG with every CG, the first half");
    both.extend(subframes("every PG with every CG, the second half"));
    let both: BTreeSet<(u16, u16)> = both.iter().map(|one| (one.1, one.3)).collect();
    assert_eq!(both.len(), 1024);
    let codes = subframes("codes from the first to the last");
    let codes: BTreeSet<u16> = codes.iter().map(|one| one.2).collect();
    assert_eq!(codes.len(), 64);
    assert_eq!((codes.first(), codes.last()), (Some(&0), Some(&511)));
    // Nothing is refused in the first fifteen.
    for edge in &edges[..15] {
        assert!(told(&edge.bytes).iter().all(Result::is_ok), "{}", edge.name);
    }
    // Held at both ends, many times; and later quiet.
    for name in [
        "the loudest gains, delay 20",
        "the loudest gains, delay 147",
        "the loudest gains, whole delays in any order",
        "loud, then dying out",
        "loud, then the least PG",
    ] {
        let elements: Vec<i32> = told(of(name))
            .into_iter()
            .flat_map(Result::unwrap)
            .collect();
        for end in [-1_000_000, 1_000_000] {
            let count = elements.iter().filter(|&&element| element == end).count();
            assert!(count >= 20, "{name}: {count} at {end}");
        }
        if name == "loud, then dying out" {
            let last = &elements[elements.len() - 600..];
            assert!(last.iter().all(|element| element.abs() < 20), "{last:?}");
        }
    }
    // Refused subframes and frames.
    let number = |line: &Result<Vec<i32>, String>| line.clone().err().unwrap_or_default();
    let pattern = |name: &str| -> Vec<String> { told(of(name)).iter().map(number).collect() };
    let refused = pattern("each pattern of refused subframes");
    for (n, number) in refused.iter().enumerate() {
        let expected = if (n / 4) >> (n % 4) & 1 == 1 {
            "15"
        } else {
            ""
        };
        assert_eq!(number, expected, "{n}");
    }
    let name = "each pattern of refused subframes, each in its own voice";
    assert_eq!(pattern(name), refused);
    assert_eq!(pattern("one frame, all four subframes refused"), ["15"; 4]);
    let name = "all four subframes of every frame refused";
    assert_eq!(pattern(name), ["15"; 32]);
    let whole = |count| vec![""; count];
    let six = |count| vec!["6"; count];
    for (name, expected) in [
        ("frames refused first", [six(2), whole(24)].concat()),
        (
            "frames refused between",
            [whole(8), six(2), whole(4), six(1), whole(8)].concat(),
        ),
        ("frames refused last", [whole(24), six(2)].concat()),
        (
            "frames refused first, between and last",
            [six(1), whole(8), six(2), whole(8), six(1)].concat(),
        ),
        ("every frame refused, no subframe would be", six(8)),
    ] {
        assert_eq!(pattern(name), expected, "{name}");
    }
    let both: BTreeSet<String> = pattern("frames and subframes refused")
        .into_iter()
        .collect();
    assert_eq!(both.len(), 3);
    // What is put right is heard as it was sent; what is not is not.
    for name in [
        "PD bits hit and put right",
        "PG bits, SP and parity bits hit and put right",
    ] {
        assert!(told(of(name)).iter().all(Result::is_ok), "{name}");
    }
    let numbers: BTreeSet<String> = pattern("hits not put right").into_iter().collect();
    assert!(
        numbers.contains("15") && numbers.contains("6"),
        "{numbers:?}"
    );
}
