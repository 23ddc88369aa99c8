//! Line spectral parameters (3.7): their order mark, and the averages in eighths of a Hz between
//! the previous frame's and the present one's, with the state that runs from frame to frame and
//! tells sync breaks too.

use crate::tables::LSP;

/// What runs from frame to frame. Any state has averages and tells breaks, ours or not.
#[derive(Clone, Copy, Debug, PartialEq, Eq)]
pub struct State {
    /// The LSPs of the last frame that was heard, in Hz.
    pub hz: [u16; 10],
    /// Whether a frame was heard.
    pub heard: bool,
    /// The SY of the frame before, also if that was refused with 6; none before the first.
    pub last_sy: Option<u16>,
}

impl Default for State {
    fn default() -> Self {
        State::FRESH
    }
}

impl State {
    /// The state before the first frame.
    pub const FRESH: State = State {
        hz: [0; 10],
        heard: false,
        last_sy: None,
    };

    /// The averages of the four subframes, in eighths of a Hz, when a frame with these LSPs
    /// follows.
    pub fn averages(&self, present: &[u16; 10]) -> [[u32; 10]; 4] {
        let previous = if self.heard { &self.hz } else { present };
        let mut averages = [[0; 10]; 4];
        for (n, subframe) in (1..).zip(&mut averages) {
            for (j, average) in subframe.iter_mut().enumerate() {
                *average =
                    (9 - 2 * n) * u32::from(previous[j]) + (2 * n - 1) * u32::from(present[j]);
            }
        }
        averages
    }

    /// The state after a frame with these LSPs and this SY that is heard.
    pub fn after(present: [u16; 10], sy: u16) -> State {
        State {
            hz: present,
            heard: true,
            last_sy: Some(sy),
        }
    }

    /// Whether a frame with this SY is a sync break: it has the SY of the frame before, or there
    /// is none before and it has 1.
    pub fn is_break(&self, sy: u16) -> bool {
        match self.last_sy {
            Some(last) => sy == last,
            None => sy == 1,
        }
    }
}

/// The LSPs in Hz of ten indices that are within their widths.
pub fn frequencies(indices: &[u16; 10]) -> [u16; 10] {
    std::array::from_fn(|j| LSP[j][usize::from(indices[j])])
}

/// The order mark: the lowest j for which LSP j+1 is below LSP j, or 0.
pub fn order_mark(hz: &[u16; 10]) -> u8 {
    match hz.windows(2).position(|two| two[1] < two[0]) {
        Some(at) => at as u8 + 1,
        None => 0,
    }
}

#[cfg(test)]
mod tests {
    use super::*;

    #[test]
    fn equal_is_in_order_and_the_lowest_fall_is_marked() {
        assert_eq!(order_mark(&[5; 10]), 0);
        assert_eq!(order_mark(&[1, 2, 3, 4, 5, 6, 7, 8, 9, 10]), 0);
        for j in 1..=9 {
            let mut hz = [100; 10];
            hz[j] = 99;
            assert_eq!(usize::from(order_mark(&hz)), j);
            hz[9] = 0;
            assert_eq!(usize::from(order_mark(&hz)), j);
        }
        assert_eq!(order_mark(&[9, 8, 7, 6, 5, 4, 3, 2, 1, 0]), 1);
    }

    #[test]
    fn averages_weigh_the_previous_and_the_present() {
        let state = State::after([340; 10], 0);
        let averages = state.averages(&[250; 10]);
        assert_eq!(
            averages.map(|subframe| subframe[0]),
            [2630, 2450, 2270, 2090]
        );
        assert_eq!(
            State::after([250; 10], 1),
            State {
                hz: [250; 10],
                heard: true,
                last_sy: Some(1),
            }
        );
    }

    #[test]
    fn a_state_that_has_heard_none_takes_the_frames_own_values() {
        let present = [100, 210, 420, 620, 1000, 1470, 1800, 2225, 2760, 3190];
        for (hz, last_sy) in [([0; 10], None), ([0; 10], Some(1)), ([65_535; 10], None)] {
            let state = State {
                hz,
                heard: false,
                last_sy,
            };
            for subframe in state.averages(&present) {
                assert_eq!(subframe, present.map(|hz| 8 * u32::from(hz)));
            }
        }
        assert_eq!(State::default(), State::FRESH);
    }

    #[test]
    fn any_state_has_averages() {
        let state = State::after([65_535; 10], 7);
        assert_eq!(state.averages(&[65_535; 10]), [[524_280; 10]; 4]);
        assert_eq!(state.averages(&[0; 10])[0], [458_745; 10]);
        let state = State {
            last_sy: None,
            ..State::after([0; 10], 0)
        };
        assert_eq!(state.averages(&[3830; 10])[3], [26_810; 10]);
    }

    #[test]
    fn any_state_tells_breaks() {
        // The last SY, and which of 0, 1, 2, 7 and 65,535 are breaks after it.
        for (last_sy, breaks) in [
            (None, [false, true, false, false, false]),
            (Some(0), [true, false, false, false, false]),
            (Some(1), [false, true, false, false, false]),
            (Some(2), [false, false, true, false, false]),
            (Some(7), [false, false, false, true, false]),
            (Some(65_535), [false, false, false, false, true]),
        ] {
            // Neither the LSPs nor whether a frame was heard matters.
            for (hz, heard) in [([0; 10], false), ([300; 10], true), ([1; 10], false)] {
                let state = State { hz, heard, last_sy };
                assert_eq!([0, 1, 2, 7, 65_535].map(|sy| state.is_break(sy)), breaks);
            }
        }
        assert!(State::FRESH.is_break(1) && !State::FRESH.is_break(0));
    }
}
