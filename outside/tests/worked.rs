//! The twelve worked numbers of the documents, and the sample recording with its listing.

use outside::delays::{self, base};
use outside::draws::Draws;
use outside::frame::{self, Correction, Record};
use outside::gains;
use outside::listing;
use outside::lsp::{self, State};
use outside::tables::{DELAY_RANKS, TWELFTHS};
use outside::values;

fn only(places: &[usize]) -> frame::Reading {
    let mut bytes = [0; 18];
    for &place in places {
        frame::flip(&mut bytes, place);
    }
    frame::read(&bytes).unwrap()
}

/// The rank of a delay given in hundredths of a sample.
fn rank(hundredths: u32) -> u8 {
    delays::rank(hundredths * 12 / 100).unwrap()
}

/// What codes 0 and 63 mean after a rank.
fn window(before: u8) -> (u16, u16) {
    let base = usize::from(base(before));
    (TWELFTHS[base], TWELFTHS[base + 63])
}

#[test]
fn number_1_first_four_draws() {
    let mut draws = Draws::FIRST;
    assert_eq!(
        [(); 4].map(|()| draws.draw()),
        [8472, -31377, -26172, 25681]
    );
}

#[test]
fn number_2_zero_frame() {
    assert_eq!(
        only(&[]),
        frame::Reading {
            record: Record::ZERO,
            correction: Correction::Clean,
            mark: 0
        }
    );
}

#[test]
fn number_3_only_place_104() {
    assert_eq!(only(&[104]).correction.number(), 15);
    assert_eq!(
        only(&[104]),
        frame::Reading {
            record: Record::ZERO,
            correction: Correction::Data { field: 27, bit: 0 },
            mark: 0
        }
    );
}

#[test]
fn number_4_only_11_and_61() {
    let reading = only(&[11, 61]);
    assert_eq!(reading.correction, Correction::Data { field: 11, bit: 7 });
    assert_eq!(reading.correction.number(), 6);
    let mut expected = Record::ZERO;
    expected.fields[10] = 224;
    assert_eq!(reading.record, expected);
    let values = values::values(&reading.record, &State::FRESH).unwrap();
    assert_eq!(values.delays[0], 748);
}

#[test]
fn number_5_only_21() {
    assert_eq!(
        only(&[21]),
        frame::Reading {
            record: Record::ZERO,
            correction: Correction::Parity(1),
            mark: 0
        }
    );
}

#[test]
fn number_6_lsp_1_of_340_then_250() {
    let mut record = Record::ZERO;
    record.fields[0] = 5;
    let first = values::values(&record, &State::FRESH).unwrap();
    assert_eq!(first.state.hz[0], 340);
    record.fields[0] = 3;
    let second = values::values(&record, &first.state).unwrap();
    assert_eq!(second.state.hz[0], 250);
    assert_eq!(second.averages[0][0], 2630);
}

#[test]
fn number_7_codes_42_and_af() {
    assert_eq!(TWELFTHS[usize::from(DELAY_RANKS[0x42])], 240);
    assert_eq!(TWELFTHS[usize::from(DELAY_RANKS[0xAF])], 1764);
    assert_eq!(delays::delays([0x42, 0, 0xAF, 63]), [240, 240, 1764, 1764]);
}

#[test]
fn number_8_after_29_25() {
    assert_eq!(window(rank(2925)), (240, 460));
}

#[test]
fn number_9_after_29_50() {
    assert_eq!(window(rank(2950)), (244, 464));
}

#[test]
fn number_10_after_114_and_115() {
    assert_eq!(window(rank(11400)), (83 * 12, 146 * 12));
    assert_eq!(window(rank(11500)), (84 * 12, 147 * 12));
}

#[test]
fn number_11_nearest_gains() {
    assert_eq!(gains::nearest_cg(0), 15);
    assert_eq!(gains::nearest_pg(-1_000_000), 0);
}

#[test]
fn number_12_equal_is_no_fall() {
    let mut record = Record::ZERO;
    record.fields[3] = 12;
    record.fields[4] = 9;
    record.fields[5] = 7;
    record.fields[6] = 7;
    record.fields[7] = 7;
    record.fields[8] = 7;
    record.fields[9] = 7;
    assert_eq!(lsp::frequencies(record.lsp())[3..5], [1670, 1670]);
    assert_eq!(record.order_mark(), 0);
    record.fields[4] = 8;
    assert_eq!(record.order_mark(), 4);
    record.fields[0] = 7;
    record.fields[1] = 0;
    assert_eq!(record.order_mark(), 1);
}

#[test]
fn the_sample_and_its_listing() {
    let sample = outside::cases::sample();
    assert_eq!(sample.len(), 66);
    let mut expected = vec![8, 0, 0, 0, 1, 0, 7, 0, 0, 0, 1, 0, 0, 0, 36, 0, 0, 0, 2, 0];
    expected.extend([0; 18]);
    expected.extend([0, 0, 0, 0, 0, 0, 0, 0, 0, 0, 0, 0, 1, 0, 0, 0, 0, 1]);
    expected.extend([4, 0, 0, 0, 3, 0, 2, 0, 0, 0]);
    assert_eq!(sample, expected);
    let listing = "unit 7 recording 1 frames 2\n\
                   1 0 c 0 0 656 532 656 532\n\
                   2 15 d 0 1 656 532 656 532\n\
                   repaired 1 breaks 0\n";
    assert_eq!(String::from_utf8(listing::list(&sample)).unwrap(), listing);
}
