//! Delays (3.5.4, 3.5.5) in twelfths of a sample, both ways. Subframes 1 and 3 send the printed
//! byte of the delay's rank; 2 and 4 send rank minus base, six bits, in a window around the rank
//! just before.

use crate::refusal::Refusal;
use crate::tables::{DELAY_BYTES, DELAY_RANKS, TWELFTHS};

/// The lowest rank of the window that follows a rank; it holds 64 ranks.
pub fn base(before: u8) -> u8 {
    before.saturating_sub(31).min(192)
}

/// The rank of a delay, if it is in the list.
pub fn rank(twelfths: u32) -> Option<u8> {
    let twelfths = u16::try_from(twelfths).ok()?;
    TWELFTHS
        .binary_search(&twelfths)
        .ok()
        .map(|rank| rank as u8)
}

/// The delays that a record's four PD mean. The PD are within their widths.
pub fn delays(pd: [u16; 4]) -> [u16; 4] {
    debug_assert!(pd[0] < 256 && pd[1] < 64 && pd[2] < 256 && pd[3] < 64);
    let first = DELAY_RANKS[usize::from(pd[0])];
    let second = base(first) + pd[1] as u8;
    let third = DELAY_RANKS[usize::from(pd[2])];
    let fourth = base(third) + pd[3] as u8;
    [first, second, third, fourth].map(|rank| TWELFTHS[usize::from(rank)])
}

/// The four PD that send four delays; or refusal 4 (not in the list) or 5 (outside the window)
/// of the first subframe that has one, telling the subframe.
pub fn codes(delays: [u32; 4]) -> Result<[u16; 4], Refusal> {
    let in_list =
        |subframe: u32| rank(delays[subframe as usize - 1]).ok_or(Refusal::new(4, subframe));
    let in_window = |subframe: u32, before: u8| {
        let step = in_list(subframe)?
            .checked_sub(base(before))
            .filter(|&step| step < 64);
        step.map(u16::from).ok_or(Refusal::new(5, subframe))
    };
    let first = in_list(1)?;
    let second = in_window(2, first)?;
    let third = in_list(3)?;
    let fourth = in_window(4, third)?;
    let byte = |rank: u8| u16::from(DELAY_BYTES[usize::from(rank)]);
    Ok([byte(first), second, byte(third), fourth])
}

#[cfg(test)]
mod tests {
    use super::*;
    use crate::cases::Generator;

    #[test]
    fn the_window_is_that_of_3_5_5() {
        for before in 0..=255u8 {
            let (low, high) = match TWELFTHS[usize::from(before)] {
                240..=351 => (240, 460),     // 20.00 to 29.25: 20.00 to 38.33
                1380..=1764 => (1008, 1764), // 115 to 147: 84 to 147
                _ => (
                    TWELFTHS[usize::from(before) - 31],
                    TWELFTHS[usize::from(before) + 32],
                ),
            };
            let base = usize::from(base(before));
            assert_eq!(
                (TWELFTHS[base], TWELFTHS[base + 63]),
                (low, high),
                "rank {before}"
            );
        }
    }

    #[test]
    fn only_the_256_delays_have_a_rank() {
        let mut found = 0;
        for twelfths in 0..70_000 {
            if let Some(rank) = rank(twelfths) {
                assert_eq!(u32::from(TWELFTHS[usize::from(rank)]), twelfths);
                found += 1;
            }
        }
        assert_eq!(found, 256);
        assert_eq!(rank(u32::MAX), None);
        assert_eq!(rank(65_536 + 240), None);
    }

    #[test]
    fn every_rank_and_six_bit_code_goes_and_comes_back() {
        for before in 0..=255u8 {
            let byte = u16::from(DELAY_BYTES[usize::from(before)]);
            let mut reached = [false; 256];
            for six in 0..64 {
                let pd = [byte, six, byte, 63 - six];
                let meant = delays(pd);
                assert_eq!(meant[0], TWELFTHS[usize::from(before)]);
                assert_eq!(meant[2], meant[0]);
                assert_eq!(codes(meant.map(u32::from)), Ok(pd));
                reached[usize::from(rank(meant[1].into()).unwrap())] = true;
            }
            // What no code reaches is refused with 5, as the second or the fourth delay.
            let t0 = u32::from(TWELFTHS[usize::from(before)]);
            for other in 0..256 {
                let t = u32::from(TWELFTHS[other]);
                let refused = |subframe| Err(Refusal::new(5, subframe));
                if reached[other] {
                    assert!(codes([t0, t, t0, t]).is_ok());
                } else {
                    assert_eq!(codes([t0, t, 0, 0]), refused(2));
                    assert_eq!(codes([t0, t0, t0, t]), refused(4));
                }
            }
            assert_eq!(reached.iter().filter(|&&reached| reached).count(), 64);
        }
    }

    #[test]
    fn subframes_are_taken_in_order_and_4_before_5() {
        let refused = |delays, number, subframe| {
            assert_eq!(
                codes(delays),
                Err(Refusal::new(number, subframe)),
                "{delays:?}"
            );
        };
        refused([1, 1, 1, 1], 4, 1);
        refused([240, 1, 1, 1], 4, 2);
        refused([240, 1764, 1, 1], 5, 2);
        refused([240, 460, 1, 1], 4, 3);
        refused([240, 460, 1764, 1], 4, 4);
        refused([240, 460, 1764, 240], 5, 4);
        refused([240, 464, 1, 1], 5, 2);
        refused([1, 1764, 240, 240], 4, 1);
        // Subframe 3 does not look at 2, nor 4 at 2.
        assert_eq!(codes([240, 460, 1764, 1764]), Ok([0x42, 63, 0xAF, 63]));
        assert_eq!(codes([1764, 1008, 240, 240]), Ok([0xAF, 0, 0x42, 0]));
    }

    #[test]
    fn random_delays_are_refused_exactly_where_they_must_be() {
        let mut g = Generator::new(8);
        let mut accepted = 0;
        for _ in 0..20_000 {
            let four = g.delays();
            let mut expected = None;
            let mut before = 0;
            for (n, &delay) in (1..).zip(&four) {
                let Some(rank) = TWELFTHS.iter().position(|&t| u32::from(t) == delay) else {
                    expected = Some(Refusal::new(4, n));
                    break;
                };
                if n % 2 == 0 {
                    let low = (before as i32 - 31).clamp(0, 192);
                    if !(low..low + 64).contains(&(rank as i32)) {
                        expected = Some(Refusal::new(5, n));
                        break;
                    }
                }
                before = rank;
            }
            match (codes(four), expected) {
                (Ok(pd), None) => {
                    assert_eq!(delays(pd).map(u32::from), four);
                    accepted += 1;
                }
                (answer, expected) => assert_eq!(answer.err(), expected, "{four:?}"),
            }
        }
        assert!((2_000..18_000).contains(&accepted), "{accepted} accepted");
    }
}
