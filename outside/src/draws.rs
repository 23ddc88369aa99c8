//! The draws of the printed FORTRAN function `random`: sixteen-bit sums that wrap, over five
//! kept numbers. Any state draws: its two positions count by their remainder on five, 0 being
//! the fifth.

/// Five kept numbers and the FORTRAN's two positions, `k` (whose kept number each draw
/// replaces) and `j`.
#[derive(Clone, Copy, Debug, PartialEq, Eq)]
pub struct Draws {
    pub kept: [i16; 5],
    pub k: u16,
    pub j: u16,
}

impl Draws {
    /// The state the standard starts from.
    pub const FIRST: Draws = Draws {
        kept: [-21161, -8478, 30892, -10216, 16950],
        k: 5,
        j: 2,
    };

    /// Draws the next number.
    pub fn draw(&mut self) -> i16 {
        let k = counted(self.k);
        let j = counted(self.j);
        let drawn = self.kept[k - 1].wrapping_add(self.kept[j - 1]);
        self.kept[k - 1] = drawn;
        self.k = one_less(k);
        self.j = one_less(j);
        drawn
    }
}

/// The position from 1 to 5 that any position counts as.
fn counted(position: u16) -> usize {
    match position % 5 {
        0 => 5,
        rest => usize::from(rest),
    }
}

fn one_less(position: usize) -> u16 {
    if position == 1 {
        5
    } else {
        position as u16 - 1
    }
}

#[cfg(test)]
mod tests {
    use super::*;

    #[test]
    fn the_first_four_draws() {
        let mut draws = Draws::FIRST;
        let drawn: Vec<i16> = (0..4).map(|_| draws.draw()).collect();
        assert_eq!(drawn, [8472, -31377, -26172, 25681]);
        assert_eq!((draws.k, draws.j), (1, 3));
    }

    #[test]
    fn a_draw_replaces_only_the_number_at_k() {
        let mut draws = Draws {
            kept: [1, 20, 300, 4000, 30000],
            k: 3,
            j: 5,
        };
        assert_eq!(draws.draw(), 30300);
        assert_eq!(
            draws,
            Draws {
                kept: [1, 20, 30300, 4000, 30000],
                k: 2,
                j: 4
            }
        );
    }

    #[test]
    fn positions_count_by_their_remainder_on_five() {
        for (position, counts_as, after) in [
            (0, 5, 4),
            (1, 1, 5),
            (2, 2, 1),
            (5, 5, 4),
            (6, 1, 5),
            (7, 2, 1),
            (65_535, 5, 4),
        ] {
            let mut far = Draws {
                kept: [3, 50, 700, 9000, 11000],
                k: position,
                j: 4,
            };
            let mut near = Draws {
                k: counts_as,
                ..far
            };
            assert_eq!(far.draw(), near.draw());
            assert_eq!(far, near);
            assert_eq!(far.k, after);
            let mut far = Draws {
                kept: [3, 50, 700, 9000, 11000],
                k: 4,
                j: position,
            };
            let mut near = Draws {
                j: counts_as,
                ..far
            };
            assert_eq!(far.draw(), near.draw());
            assert_eq!(far, near);
            assert_eq!(far.j, after);
        }
    }

    #[test]
    fn positions_may_coincide_and_sums_wrap() {
        let mut draws = Draws {
            kept: [-32768, 0, 0, 0, 0],
            k: 1,
            j: 6,
        };
        assert_eq!(draws.draw(), 0);
        assert_eq!(
            draws,
            Draws {
                kept: [0; 5],
                k: 5,
                j: 5
            }
        );
        let mut draws = Draws {
            kept: [32767, 1, 0, 0, 0],
            k: 1,
            j: 2,
        };
        assert_eq!(draws.draw(), -32768);
    }
}
