//! The excitation of a subframe (3.5.1 with the house rules): the register of 147 elements, the
//! adaptive code of a whole delay, and the exact sum of both codes by their gains, rounded once and
//! held.

use crate::codes::{self, CODE_LENGTH};
use crate::delays;
use crate::gains;
use crate::refusal::Refusal;

/// How many elements the register holds.
pub const REGISTER_LENGTH: usize = 147;

/// No element of an excitation is farther from zero than this.
pub const FARTHEST: i64 = 1_000_000;

/// The register: what was last excited, the oldest element first. Any numbers are one, ours or not.
#[derive(Clone, Copy, Debug, PartialEq, Eq)]
pub struct Register(pub [i32; REGISTER_LENGTH]);

/// What a subframe is excited by.
#[derive(Clone, Copy, Debug, PartialEq, Eq)]
pub struct Subframe {
    /// The delay in twelfths of a sample.
    pub delay: u32,
    /// The index PG.
    pub pg: u16,
    /// The index CI.
    pub ci: u16,
    /// The index CG.
    pub cg: u16,
}

impl Default for Register {
    fn default() -> Self {
        Register::ZERO
    }
}

impl Register {
    /// The register before the first subframe.
    pub const ZERO: Register = Register([0; REGISTER_LENGTH]);

    /// The element at a position from -147, the oldest, to -1, the newest.
    pub fn element(&self, position: i32) -> i32 {
        self.0[(REGISTER_LENGTH as i32 + position) as usize]
    }

    /// The adaptive code of a delay of d whole samples, d from 1 to 147.
    pub fn adaptive(&self, d: i32) -> [i32; CODE_LENGTH] {
        std::array::from_fn(|t| self.element(-d + t as i32 % d))
    }

    /// The register after these new elements: the last 147 of what it holds and of them.
    pub fn after(&self, new: &[i32; CODE_LENGTH]) -> Register {
        let all = [&self.0[..], new].concat();
        let last = all.last_chunk().expect("there are more than 147");
        Register(*last)
    }

    /// Writes the excitation of a subframe into a lent buffer of 60 elements, and moves by them; or
    /// refusal 1, 2, 15 or 4, which leaves both as they are.
    pub fn excite(&mut self, subframe: &Subframe, buffer: &mut [i32]) -> Result<(), Refusal> {
        let buffer: &mut [i32; CODE_LENGTH] = buffer.try_into().map_err(|_| Refusal::LENGTH)?;
        let pg = gains::pg(subframe.pg)?;
        let cg = gains::cg(subframe.cg)?;
        let mut code = [0; CODE_LENGTH];
        codes::code(subframe.ci, &mut code)?;
        let adaptive = self.adaptive(whole(subframe.delay)?);
        *buffer = std::array::from_fn(|t| sum(cg, code[t], pg, adaptive[t]));
        *self = self.after(buffer);
        Ok(())
    }
}

/// The whole samples of a delay; or refusal 15 if it is in the list but not whole, 4 if it is not in
/// the list.
pub fn whole(twelfths: u32) -> Result<i32, Refusal> {
    match delays::rank(twelfths) {
        None => Err(Refusal::NOT_LISTED),
        Some(_) if !twelfths.is_multiple_of(12) => Err(Refusal::NOT_WHOLE),
        Some(_) => Ok((twelfths / 12) as i32),
    }
}

/// An element of the excitation: CG times an element of the ternary code and PG, in thousandths,
/// times one of the adaptive code, together, rounded and then held.
pub fn sum(cg: i32, ternary: i8, pg: i32, adaptive: i32) -> i32 {
    // Neither part is over 1,991 times 2 to the 31st, and 64 bits hold far more.
    let stochastic = 1000 * i64::from(cg) * i64::from(ternary);
    let adaptive = i64::from(pg) * i64::from(adaptive);
    nearest(stochastic + adaptive).clamp(-FARTHEST, FARTHEST) as i32
}

/// The whole number nearest to so many thousandths, the one farther from zero of two equally near.
pub fn nearest(thousandths: i64) -> i64 {
    let nearer_zero = thousandths / 1000;
    let farther = nearer_zero + thousandths.signum();
    if 2 * (1000 * farther - thousandths).abs() <= 1000 {
        farther
    } else {
        nearer_zero
    }
}

#[cfg(test)]
mod tests {
    use super::*;
    use crate::cases::Generator;

    #[test]
    fn nearest_is_at_most_a_half_away_and_ties_go_away_from_zero() {
        let mut g = Generator::new(71);
        let near = -5_000..=5_000;
        let far = (0..20_000).map(|_| g.next() as i64 >> 20);
        let ends = [1991, -1991].map(|pg| pg * i64::from(i32::MIN));
        for thousandths in near.chain(far).chain(ends) {
            let n = nearest(thousandths);
            let distance = 1000 * n - thousandths;
            assert!(distance.abs() <= 500, "{thousandths}");
            if distance.abs() == 500 {
                assert!((1000 * n).abs() > thousandths.abs(), "{thousandths}");
            }
            assert_eq!(nearest(-thousandths), -n, "{thousandths}");
        }
    }

    #[test]
    fn the_codes_of_3_5_1_are_these_elements() {
        // Each element is its own position.
        let register = Register(std::array::from_fn(|i| i as i32 - 147));
        let run = |first: i32, last: i32| (first..=last).collect::<Vec<i32>>();
        assert_eq!(register.adaptive(60)[..], run(-60, -1));
        assert_eq!(register.adaptive(61)[..], run(-61, -2));
        assert_eq!(register.adaptive(147)[..], run(-147, -88));
        assert_eq!(register.adaptive(20)[..], run(-20, -1).repeat(3));
        assert_eq!(register.adaptive(59)[..59], run(-59, -1));
        assert_eq!(register.adaptive(59)[59], -59);
        assert_eq!(register.adaptive(58)[57..], [-1, -58, -57]);
        // An example of 3.5.3 has -4 and -3 here, one further than 3.5.1 and the house rule give.
        assert_eq!(register.adaptive(21)[58..], [-5, -4]);
    }

    #[test]
    fn the_register_moves_by_sixty() {
        let register = Register(std::array::from_fn(|i| i as i32));
        let new = std::array::from_fn(|t| 1_000 + t as i32);
        let after = register.after(&new);
        assert_eq!((after.element(-147), after.element(-61)), (60, 146));
        assert_eq!((after.element(-60), after.element(-1)), (1_000, 1_059));
        assert_eq!(Register::default(), Register([0; 147]));
    }

    #[test]
    fn a_delay_is_whole_listed_or_neither() {
        let (mut whole_ones, mut listed) = (0, 0);
        for twelfths in 0..70_000 {
            match whole(twelfths) {
                Ok(d) => {
                    assert_eq!(d as u32 * 12, twelfths);
                    whole_ones += 1;
                }
                Err(Refusal::NOT_WHOLE) => listed += 1,
                Err(refusal) => assert_eq!(refusal, Refusal::new(4, 0)),
            }
        }
        assert_eq!((whole_ones, listed), (128, 128));
        assert_eq!((whole(240), whole(1764)), (Ok(20), Ok(147)));
    }
}
