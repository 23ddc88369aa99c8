//! Gains (3.4, 3.6): from an index to the gain, and from a gain to the index of the nearest
//! one in the table, the lower of two equally near. PG is in thousandths.

use crate::refusal::Refusal;
use crate::tables::{CG, PG};

/// The stochastic code gain of an index.
pub fn cg(index: u16) -> Result<i32, Refusal> {
    CG.get(usize::from(index))
        .copied()
        .ok_or(Refusal::LONE_INDEX)
}

/// The adaptive code gain of an index, in thousandths.
pub fn pg(index: u16) -> Result<i32, Refusal> {
    PG.get(usize::from(index))
        .copied()
        .ok_or(Refusal::LONE_INDEX)
}

/// The index of the nearest CG.
pub fn nearest_cg(gain: i32) -> u16 {
    nearest(&CG, gain)
}

/// The index of the nearest PG to a gain in thousandths.
pub fn nearest_pg(gain: i32) -> u16 {
    nearest(&PG, gain)
}

/// Both tables rise, so the nearest entry is the last at or below the gain or the one above.
fn nearest(table: &[i32; 32], gain: i32) -> u16 {
    let above = table.partition_point(|&entry| entry <= gain);
    let index = match above {
        0 => 0,
        32 => 31,
        _ => {
            let up = i64::from(table[above]) - i64::from(gain);
            let down = i64::from(gain) - i64::from(table[above - 1]);
            if up < down {
                above
            } else {
                above - 1
            }
        }
    };
    index as u16
}

#[cfg(test)]
mod tests {
    use super::*;
    use crate::cases::Generator;

    fn brute_force(table: &[i32; 32], gain: i32) -> u16 {
        let distance = |i: &usize| (i64::from(table[*i]) - i64::from(gain)).abs();
        // `min_by_key` gives the first of equal ones.
        (0..32).min_by_key(distance).unwrap() as u16
    }

    #[test]
    fn nearest_is_nearest() {
        let mut g = Generator::new(5);
        let near = -3000..=3000;
        let far = (0..20_000).map(|_| g.next() as i32);
        let ends = [i32::MIN, i32::MIN + 1, i32::MAX - 1, i32::MAX];
        for gain in near.chain(far).chain(ends) {
            assert_eq!(nearest_cg(gain), brute_force(&CG, gain), "cg {gain}");
            assert_eq!(nearest_pg(gain), brute_force(&PG, gain), "pg {gain}");
        }
    }

    #[test]
    fn ties_take_the_lower_index() {
        assert_eq!(nearest_cg(0), 15);
        assert_eq!(nearest_cg(2), 16);
        assert_eq!(nearest_cg(-1100), 0);
        assert_eq!(nearest_pg(-912), 0);
        assert_eq!(nearest_pg(1878), 30);
    }

    #[test]
    fn every_gain_is_nearest_to_itself() {
        for index in 0..32 {
            assert_eq!(nearest_cg(cg(index).unwrap()), index);
            assert_eq!(nearest_pg(pg(index).unwrap()), index);
        }
    }

    #[test]
    fn an_index_over_31_is_refused() {
        for index in [32, 33, 255, 256, 65_535] {
            assert_eq!(cg(index), Err(Refusal::new(2, 0)));
            assert_eq!(pg(index), Err(Refusal::new(2, 0)));
        }
    }
}
