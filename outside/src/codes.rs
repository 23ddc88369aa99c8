//! The ternary codes (3.3): the 1,082 elements that the printed FORTRAN program makes, here
//! computed once when first needed, and the 512 codes of 60 elements that overlap in them.

use crate::draws::Draws;
use crate::refusal::Refusal;
use std::sync::OnceLock;

/// How many elements there are.
pub const ELEMENTS: usize = 1082;

/// How many elements a code has.
pub const CODE_LENGTH: usize = 60;

const THRESHOLD: f64 = 1.2;

/// The 1,082 elements, each -1, 0 or 1.
pub fn elements() -> &'static [i8; ELEMENTS] {
    static ELEMENTS_ONCE: OnceLock<[i8; ELEMENTS]> = OnceLock::new();
    ELEMENTS_ONCE.get_or_init(|| {
        // The FORTRAN makes its numbers 0 to 1,083 in pairs and prints numbers 1 to 1,082.
        let mut draws = Draws::FIRST;
        let mut made = [0; ELEMENTS + 2];
        for pair in made.chunks_exact_mut(2) {
            let (x1, x2) = noise(&mut draws);
            pair[0] = ternary(x1);
            pair[1] = ternary(x2);
        }
        let mut elements = [0; ELEMENTS];
        elements.copy_from_slice(&made[1..=ELEMENTS]);
        elements
    })
}

/// The FORTRAN subroutine `noise`: of each four draws the last is used.
fn noise(draws: &mut Draws) -> (f64, f64) {
    loop {
        let f1 = 2.0 * fourth_draw(draws) - 1.0;
        let f2 = 2.0 * fourth_draw(draws) - 1.0;
        let s = f1 * f1 + f2 * f2;
        if s < 1.0 {
            let s = (-2.0 * s.ln() / s).sqrt();
            return (f1 * s, f2 * s);
        }
    }
}

fn fourth_draw(draws: &mut Draws) -> f64 {
    for _ in 0..3 {
        draws.draw();
    }
    (f64::from(draws.draw()) + 32768.0) / 65535.0
}

fn ternary(x: f64) -> i8 {
    if x.abs() < THRESHOLD {
        0
    } else if x > 0.0 {
        1
    } else {
        -1
    }
}

/// Writes code `index` into a lent buffer of 60 elements.
pub fn code(index: u16, buffer: &mut [i8]) -> Result<(), Refusal> {
    if buffer.len() != CODE_LENGTH {
        return Err(Refusal::LENGTH);
    }
    if index > 511 {
        return Err(Refusal::LONE_INDEX);
    }
    let first = 2 * (511 - usize::from(index));
    buffer.copy_from_slice(&elements()[first..first + CODE_LENGTH]);
    Ok(())
}

#[cfg(test)]
mod tests {
    use super::*;

    /// The printed rows: the number of the first element, the number of elements, the row.
    const PRINTED: [(usize, usize, &str); 21] = [
        (
            0,
            20,
            "0, 1, 0, 0, 0, 1, 0, 0, 0, 0, 0, 0, 1, 0, 1, 0, 0, 0, 0, -1",
        ),
        (
            20,
            20,
            "0, 0, -1, 0, -1, 0, 1, 0, 0, 0, 0, 0, 0, 0, -1, 0, -1, -1, 0, 0",
        ),
        (
            40,
            20,
            "-1, 0, -1, 0, -1, 0, -1, 0, 0, 0, 0, 0, 0, 0, -1, 0, 0, 0, 1, 0",
        ),
        (
            60,
            20,
            "0, 0, 0, -1, 0, 0, 0, 0, 1, 0, 0, 0, 0, 0, 0, 0, 0, 1, -1, 0",
        ),
        (
            80,
            20,
            "1, 0, 1, 0, -1, 1, 0, 0, 0, 0, 0, -1, 0, 0, 1, 0, 0, 0, -1, 0",
        ),
        (
            100,
            20,
            "0, 0, 0, 0, 0, 0, 0, 0, 0, 0, 0, 0, 0, 0, 0, 0, 0, 0, 0, 0",
        ),
        (
            120,
            20,
            "0, -1, -1, 0, 0, 0, 0, 0, 0, 0, 0, 0, 0, 0, 0, 0, 0, 0, -1, -1",
        ),
        (
            140,
            20,
            "0, 1, -1, 0, 0, -1, -1, 0, 0, 0, 0, 1, 0, 0, 0, 0, 0, 0, 0, 0",
        ),
        (
            160,
            20,
            "0, 0, 0, -1, 0, -1, -1, 0, 0, -1, 0, 1, 0, 0, 0, 1, 0, 0, 0, 0",
        ),
        (
            180,
            20,
            "0, -1, 0, 0, 0, -1, 0, 0, 0, 0, 0, 0, -1, 0, 1, 0, 0, 0, 0, 0",
        ),
        (
            882,
            18,
            "0, 1, 0, 0, 0, 0, 0, 0, 1, -1, 0, 0, 1, 0, 0, 0, 0, -1",
        ),
        (
            900,
            20,
            "0, 0, 0, 0, 0, 0, 0, 0, 0, 0, -1, 0, 0, 0, 1, 0, 0, 1, 0, 0",
        ),
        (
            920,
            20,
            "0, 0, 1, 0, 0, 1, 0, 0, -1, 0, 0, 0, 1, 0, 0, 0, 0, 0, 0, 0",
        ),
        (
            940,
            20,
            "1, 0, 0, -1, 0, 0, -1, 0, 0, 0, 1, 0, 0, 0, 0, 0, 0, 0, 0, 0",
        ),
        (
            960,
            20,
            "0, 0, 0, 1, 0, 0, 0, 0, 0, 1, 0, 0, -1, 1, -1, 0, 1, 0, 0, 0",
        ),
        (
            980,
            20,
            "0, 0, 0, 0, 1, -1, 0, 0, 0, 0, 0, 0, 0, -1, 1, 0, 0, 0, 0, 0",
        ),
        (
            1000,
            20,
            "0, 0, 0, 0, 0, 0, 0, 1, 0, 0, 0, 0, -1, 0, 0, 0, 0, -1, 0",
        ),
        (
            1020,
            20,
            "0, 0, -1, 0, -1, 0, 0, 0, 0, 0, -1, 0, 0, -1, 0, 0, 0, 0, 0",
        ),
        (
            1040,
            20,
            "0, 0, 0, 1, -1, 0, 0, 0, 0, -1, 0, 1, 0, 0, 1, 0, 0, 0, 0, -1",
        ),
        (
            1060,
            20,
            "0, 0, 0, 0, 1, 0, 0, 0, 0, -1, 0, 0, -1, 0, 0, 0, 0, 0, 1",
        ),
        (1080, 2, "0, 0"),
    ];

    fn printed() -> impl Iterator<Item = (usize, usize, Vec<i8>)> {
        PRINTED.iter().map(|&(first, count, row)| {
            (
                first,
                count,
                row.split(", ")
                    .map(|element| element.parse().unwrap())
                    .collect(),
            )
        })
    }

    #[test]
    fn elements_are_those_printed() {
        let mut compared = 0;
        for (first, count, row) in printed() {
            if row.len() == count && first != 980 {
                assert_eq!(
                    row,
                    elements()[first..first + count],
                    "from element {first}"
                );
                compared += count;
            }
        }
        assert_eq!(compared, 400 - 4 * 20);
    }

    #[test]
    fn a_row_printed_short_has_lost_one_zero() {
        let mut short = 0;
        for (first, count, row) in printed() {
            if row.len() != count {
                let made = &elements()[first..first + count];
                let lost = (0..count).find(|&at| made[at] == 0 && without(made, at) == row);
                assert!(lost.is_some(), "from element {first}");
                short += 1;
            }
        }
        assert_eq!(short, 3);
    }

    /// The one row printed with its full count that the FORTRAN does not give: a zero is lost
    /// before its last two numbers, and one is printed too many after them.
    #[test]
    fn the_row_from_980_is_misprinted_by_one_moved_zero() {
        let (_, _, mut row) = printed().find(|row| row.0 == 980).unwrap();
        let made = &elements()[980..1000];
        assert_ne!(row, made);
        assert_eq!(row.pop(), Some(0));
        assert_eq!(row, without(made, 13));
        assert_eq!(made[13..16], [0, -1, 1]);
    }

    fn without(made: &[i8], at: usize) -> Vec<i8> {
        [&made[..at], &made[at + 1..]].concat()
    }

    #[test]
    fn single_precision_gives_the_same_elements() {
        let mut draws = Draws::FIRST;
        let mut fourth_draw = || {
            let drawn = (0..4).map(|_| draws.draw()).last().unwrap();
            (f32::from(drawn) + 32768.0) / 65535.0
        };
        let mut made: Vec<i8> = Vec::new();
        while made.len() < ELEMENTS + 2 {
            let f1 = 2.0 * fourth_draw() - 1.0;
            let f2 = 2.0 * fourth_draw() - 1.0;
            let s = f1 * f1 + f2 * f2;
            if s >= 1.0 {
                continue;
            }
            let s: f32 = (-2.0 * s.ln() / s).sqrt();
            for x in [f1 * s, f2 * s] {
                made.push(if x.abs() < 1.2 { 0 } else { x.signum() as i8 });
            }
        }
        assert_eq!(made[1..=ELEMENTS], elements()[..]);
    }

    #[test]
    fn no_number_lies_close_to_the_threshold() {
        let mut draws = Draws::FIRST;
        for _ in 0..ELEMENTS / 2 + 1 {
            let (x1, x2) = noise(&mut draws);
            for x in [x1, x2] {
                assert!((x.abs() - THRESHOLD).abs() > 0.0009);
            }
        }
    }

    #[test]
    fn codes_overlap_and_are_ternary() {
        assert!(elements().iter().all(|element| (-1..=1).contains(element)));
        let mut before = [9; CODE_LENGTH];
        code(0, &mut before).unwrap();
        assert_eq!(before, elements()[1022..1082]);
        for n in 1..512 {
            let mut now = [9; CODE_LENGTH];
            code(n, &mut now).unwrap();
            assert_eq!(now[2..], before[..58], "code {n}");
            assert_eq!(
                now[..],
                elements()[2 * (511 - usize::from(n))..][..60],
                "code {n}"
            );
            before = now;
        }
        assert_eq!(before, elements()[..60]);
    }

    #[test]
    fn a_refused_code_writes_nothing() {
        for (index, length, refusal) in [
            (0, 59, Refusal::LENGTH),
            (511, 61, Refusal::LENGTH),
            (512, 0, Refusal::LENGTH),
            (65_535, 59, Refusal::LENGTH),
            (512, 60, Refusal::LONE_INDEX),
            (65_535, 60, Refusal::LONE_INDEX),
        ] {
            let mut buffer = vec![9; length];
            assert_eq!(code(index, &mut buffer), Err(refusal));
            assert_eq!(buffer, vec![9; length]);
        }
    }
}
