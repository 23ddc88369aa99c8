//! The values of a record under the state before it: gains, delays, averages, order mark and
//! the state after; and the state after a record that has none.

use crate::delays;
use crate::frame::Record;
use crate::lsp::{self, State};
use crate::refusal::Refusal;
use crate::tables::{CG, PG};

#[derive(Clone, Copy, Debug, PartialEq, Eq)]
pub struct Values {
    /// CG of subframes 1 to 4.
    pub cg: [i32; 4],
    /// PG of subframes 1 to 4, in thousandths.
    pub pg: [i32; 4],
    /// The delays of subframes 1 to 4, in twelfths of a sample.
    pub delays: [u16; 4],
    /// The averages of subframes 1 to 4, in eighths of a Hz.
    pub averages: [[u32; 10]; 4],
    /// The order mark; fallen LSPs are used as they are.
    pub mark: u8,
    /// The state after, which holds this record's LSPs and SY.
    pub state: State,
}

/// Refusal 2 or 6 of a record that has no values.
fn check(record: &Record) -> Result<(), Refusal> {
    record.check_widths()?;
    match record.sp() {
        0 => Ok(()),
        _ => Err(Refusal::EXPANSION),
    }
}

/// The state after a record. One that has values leaves its LSPs and its SY; one refused with 6
/// its SY alone, and the rest as it came; one refused with 2 all as it came.
pub fn state_after(record: &Record, state: &State) -> State {
    match check(record) {
        Ok(()) => State::after(lsp::frequencies(record.lsp()), record.sy()),
        Err(Refusal::EXPANSION) => State {
            last_sy: Some(record.sy()),
            ..*state
        },
        Err(_) => *state,
    }
}

/// The values of a record; or refusal 2 or 6.
pub fn values(record: &Record, state: &State) -> Result<Values, Refusal> {
    check(record)?;
    let hz = lsp::frequencies(record.lsp());
    Ok(Values {
        cg: record.cg().map(|index| CG[usize::from(index)]),
        pg: record.pg().map(|index| PG[usize::from(index)]),
        delays: delays::delays(record.pd()),
        averages: state.averages(&hz),
        mark: lsp::order_mark(&hz),
        state: State::after(hz, record.sy()),
    })
}

#[cfg(test)]
mod tests {
    use super::*;
    use crate::cases::Generator;
    use crate::gains;
    use crate::tables::{FIELDS, LSP, WIDTHS};

    #[test]
    fn refusal_2_comes_before_6() {
        let mut record = Record::ZERO;
        record.fields[26] = 1;
        assert_eq!(values(&record, &State::FRESH), Err(Refusal::new(6, 0)));
        for field in 1..=FIELDS {
            for index in [1 << WIDTHS[field - 1], 65_535] {
                let mut record = record;
                record.fields[field - 1] = index;
                assert_eq!(
                    values(&record, &State::FRESH),
                    Err(Refusal::new(2, field as u32))
                );
                record.fields[27] = 2;
                assert_eq!(
                    values(&record, &State::FRESH),
                    Err(Refusal::new(2, field as u32))
                );
            }
        }
    }

    #[test]
    fn the_state_after_goes_by_the_outcome() {
        let hz = [100, 210, 420, 620, 1000, 1470, 1800, 2225, 2760, 3190];
        for (before_hz, heard) in [([0; 10], false), ([300; 10], true), ([9; 10], false)] {
            for last_sy in [None, Some(0), Some(1), Some(7)] {
                let state = State {
                    hz: before_hz,
                    heard,
                    last_sy,
                };
                for sy in [0, 1] {
                    let mut record = Record::ZERO;
                    record.fields[27] = sy;
                    let mut expected = State {
                        hz,
                        heard: true,
                        last_sy: Some(sy),
                    };
                    assert_eq!(state_after(&record, &state), expected);
                    assert_eq!(values(&record, &state).unwrap().state, expected);
                    // Refused with 6: the SY alone is kept.
                    record.fields[26] = 1;
                    (expected.hz, expected.heard) = (before_hz, heard);
                    assert_eq!(values(&record, &state), Err(Refusal::new(6, 0)));
                    assert_eq!(state_after(&record, &state), expected);
                    // Refused with 2: nothing is.
                    for (field, sp) in [(1, 0), (1, 1), (15, 1), (28, 0), (28, 1)] {
                        let mut record = record;
                        record.fields[26] = sp;
                        record.fields[field - 1] = 64;
                        let refusal = Refusal::new(2, field as u32);
                        assert_eq!(values(&record, &state), Err(refusal));
                        assert_eq!(state_after(&record, &state), state);
                    }
                }
            }
        }
    }

    #[test]
    fn fallen_lsps_are_marked_and_used() {
        let mut record = Record::ZERO;
        record.fields[3] = 12;
        record.fields[4] = 8;
        let values = values(&record, &State::FRESH).unwrap();
        assert_eq!(values.mark, 4);
        assert_eq!(values.state.hz[3..5], [1670, 1590]);
        assert_eq!(values.averages[2][3..5], [8 * 1670, 8 * 1590]);
    }

    #[test]
    fn values_are_those_of_the_parts() {
        let mut g = Generator::new(2);
        let mut state = State::FRESH;
        let (mut accepted, mut refused) = (0, 0);
        for _ in 0..10_000 {
            let record = g.any_record();
            let any_state = if g.below(4) == 0 { g.state() } else { state };
            let too_large = (0..FIELDS).find(|&f| u32::from(record.fields[f]) >= 1 << WIDTHS[f]);
            let after = state_after(&record, &any_state);
            match values(&record, &any_state) {
                Err(refusal) => {
                    refused += 1;
                    let mut expected = any_state;
                    match too_large {
                        Some(f) => assert_eq!(refusal, Refusal::new(2, f as u32 + 1)),
                        None => {
                            assert_eq!(record.fields[26], 1);
                            assert_eq!(refusal, Refusal::new(6, 0));
                            expected.last_sy = Some(record.fields[27]);
                        }
                    }
                    assert_eq!(after, expected);
                }
                Ok(values) => {
                    accepted += 1;
                    assert_eq!((too_large, record.fields[26]), (None, 0));
                    for n in 0..4 {
                        assert_eq!(Ok(values.pg[n]), gains::pg(record.fields[11 + 4 * n]));
                        assert_eq!(Ok(values.cg[n]), gains::cg(record.fields[13 + 4 * n]));
                    }
                    assert_eq!(delays::codes(values.delays.map(u32::from)), Ok(record.pd()));
                    for j in 0..10 {
                        let present = u32::from(LSP[j][usize::from(record.fields[j])]);
                        let previous = if any_state.heard {
                            any_state.hz[j].into()
                        } else {
                            present
                        };
                        let expected = [(7, 1), (5, 3), (3, 5), (1, 7)]
                            .map(|(a, b)| a * previous + b * present);
                        assert_eq!(values.averages.map(|subframe| subframe[j]), expected);
                        assert_eq!(u32::from(values.state.hz[j]), present);
                    }
                    assert!(values.state.heard);
                    assert_eq!(values.state.last_sy, Some(record.fields[27]));
                    assert_eq!(values.mark, record.order_mark());
                    assert_eq!(after, values.state);
                }
            }
            state = after;
        }
        assert!(
            accepted > 3_000 && refused > 1_000,
            "{accepted} accepted, {refused} refused"
        );
    }
}
