//! The three demands over many frames, records and flips.

use outside::cases::{Frame, Generator};
use outside::frame::{self, Correction, Record};
use outside::refusal::Refusal;
use outside::tables::{GUARDED, LSP, PLACES, WIDTHS};

/// The refusal a record to write must get, straight from the table of refusals.
fn refusal(record: &Record) -> Option<Refusal> {
    for (at, width) in WIDTHS.iter().enumerate() {
        if u32::from(record.fields[at]) >= 1 << width {
            return Some(Refusal::new(2, at as u32 + 1));
        }
    }
    let hz = |j: usize| LSP[j][usize::from(record.fields[j])];
    for j in 1..10 {
        if hz(j) < hz(j - 1) {
            return Some(Refusal::new(3, j as u32));
        }
    }
    (record.fields[26] == 1).then_some(Refusal::new(6, 0))
}

fn xor(a: &Frame, b: &Frame) -> Frame {
    std::array::from_fn(|at| a[at] ^ b[at])
}

/// The guarded data bits of a record.
fn guarded_data(record: &Record) -> Vec<u16> {
    let data = (1..=15usize).filter(|number| !number.is_power_of_two());
    data.map(|number| PLACES[GUARDED[number - 1] - 1])
        .map(|place| record.fields[place.field] >> place.bit & 1)
        .collect()
}

#[test]
fn demand_1_a_record_is_refused_exactly_when_it_must_be() {
    let mut g = Generator::new(21);
    let mut refused = 0;
    for _ in 0..20_000 {
        let record = g.any_record();
        assert_eq!(frame::write(&record).err(), refusal(&record), "{record:?}");
        refused += usize::from(refusal(&record).is_some());
    }
    assert!((5_000..18_000).contains(&refused), "{refused} refused");
}

#[test]
fn demand_2_an_accepted_record_reads_back_equal() {
    let mut g = Generator::new(22);
    for _ in 0..20_000 {
        let record = g.record();
        let written = frame::write(&record).unwrap();
        let reading = frame::read(&written).unwrap();
        assert_eq!(
            reading,
            frame::Reading {
                record,
                correction: Correction::Clean,
                mark: 0
            }
        );
    }
}

#[test]
fn demand_2_a_frame_writes_back_exactly_when_it_was_clean() {
    let mut g = Generator::new(23);
    let (mut back, mut not_back) = (0, 0);
    for k in 0..40_000 {
        let frame = if k % 4 == 0 {
            g.bytes18()
        } else {
            g.frame(k % 2)
        };
        let reading = frame::read(&frame).unwrap();
        let clean = reading.correction == Correction::Clean
            && reading.record.sp() == 0
            && reading.mark == 0;
        assert_eq!(
            frame::write(&reading.record) == Ok(frame),
            clean,
            "{frame:?}"
        );
        back += usize::from(clean);
        not_back += usize::from(!clean);
    }
    assert!(back > 5_000 && not_back > 5_000, "{back} and {not_back}");
}

#[test]
fn demand_3_flips_read_the_same_whatever_was_written() {
    let mut g = Generator::new(24);
    for k in 0..40_000 {
        let record = g.record();
        let written = frame::write(&record).unwrap();
        let mut flips = [0; 18];
        match k % 3 {
            0 => flips = g.bytes18(),
            1 => (0..1 + g.below(6)).for_each(|_| frame::flip(&mut flips, 1 + g.below(144))),
            _ => (0..1 + g.below(6)).for_each(|_| frame::flip(&mut flips, GUARDED[g.below(15)])),
        }
        let alone = frame::read(&flips).unwrap();
        let reading = frame::read(&xor(&written, &flips)).unwrap();
        assert_eq!(reading.correction, alone.correction);
        for field in 0..28 {
            let expected = record.fields[field] ^ alone.record.fields[field];
            assert_eq!(
                reading.record.fields[field],
                expected,
                "field {}",
                field + 1
            );
        }
        let guarded = GUARDED
            .iter()
            .filter(|&&place| frame::is_set(&flips, place))
            .count();
        if guarded <= 1 {
            assert_eq!(guarded_data(&reading.record), guarded_data(&record));
        }
        if guarded == 2 {
            assert_ne!(reading.correction, Correction::Clean);
        }
    }
}

#[test]
fn demand_3_one_guarded_flip_is_mended_and_two_are_reported() {
    let mut g = Generator::new(25);
    for _ in 0..300 {
        let record = g.record();
        let written = frame::write(&record).unwrap();
        for first in 1..=15usize {
            let mut one = written;
            frame::flip(&mut one, GUARDED[first - 1]);
            let reading = frame::read(&one).unwrap();
            assert_eq!(
                (usize::from(reading.correction.number()), reading.record),
                (first, record)
            );
            for second in first + 1..=15 {
                let mut two = one;
                frame::flip(&mut two, GUARDED[second - 1]);
                let reading = frame::read(&two).unwrap();
                let number = usize::from(reading.correction.number());
                assert_eq!(number, first ^ second);
                assert_ne!(reading.correction, Correction::Clean);
            }
            // Flips outside the guarded places leave the guarded data as written.
            let mut more = one;
            for place in (1..=144).filter(|place| !GUARDED.contains(place)) {
                if g.below(4) == 0 {
                    frame::flip(&mut more, place);
                }
            }
            let reading = frame::read(&more).unwrap();
            assert_eq!(guarded_data(&reading.record), guarded_data(&record));
        }
    }
}
