//! Frames of 18 bytes and index records of 28 fields: reading with correction (3.9), writing,
//! and both as the host program in C calls them, on plain byte buffers.

use crate::lsp;
use crate::refusal::Refusal;
use crate::tables::{Place, FIELDS, GUARDED, PARITY, PLACES, WIDTHS};

/// The bytes of a frame.
pub const FRAME_LENGTH: usize = 18;

/// The bytes of a record as the host program lends it: 28 little-endian pairs.
pub const RECORD_LENGTH: usize = 2 * FIELDS;

/// An index record; field f stands at f - 1.
#[derive(Clone, Copy, Debug, PartialEq, Eq)]
pub struct Record {
    pub fields: [u16; FIELDS],
}

impl Record {
    pub const ZERO: Record = Record {
        fields: [0; FIELDS],
    };

    /// The ten LSP indices.
    pub fn lsp(&self) -> &[u16; 10] {
        self.fields.first_chunk().expect("a record has ten LSPs")
    }

    /// PD of subframes 1 to 4.
    pub fn pd(&self) -> [u16; 4] {
        self.of_subframes(0)
    }

    /// PG of subframes 1 to 4.
    pub fn pg(&self) -> [u16; 4] {
        self.of_subframes(1)
    }

    /// CI of subframes 1 to 4.
    pub fn ci(&self) -> [u16; 4] {
        self.of_subframes(2)
    }

    /// CG of subframes 1 to 4.
    pub fn cg(&self) -> [u16; 4] {
        self.of_subframes(3)
    }

    fn of_subframes(&self, at: usize) -> [u16; 4] {
        std::array::from_fn(|n| self.fields[10 + 4 * n + at])
    }

    /// The expansion bit.
    pub fn sp(&self) -> u16 {
        self.fields[26]
    }

    /// The synchronization bit.
    pub fn sy(&self) -> u16 {
        self.fields[27]
    }

    /// Refusal 2 of the lowest field whose index is too large for it, if there is one.
    pub fn check_widths(&self) -> Result<(), Refusal> {
        for ((field, &index), width) in (1..).zip(&self.fields).zip(WIDTHS) {
            if index >> width != 0 {
                return Err(Refusal::new(2, field));
            }
        }
        Ok(())
    }

    /// The order mark of a record whose indices are within their widths.
    pub fn order_mark(&self) -> u8 {
        lsp::order_mark(&lsp::frequencies(self.lsp()))
    }
}

/// What the parity of a frame shows, and what was done about it.
#[derive(Clone, Copy, Debug, PartialEq, Eq)]
pub enum Correction {
    /// Computed and received parity are the same.
    Clean,
    /// A parity bit is hit, the one with this correction number: 1, 2, 4 or 8. No index changes.
    Parity(u8),
    /// A data bit was inverted: this bit, 0 being the lowest, of this field, counted from 1.
    Data { field: u8, bit: u8 },
}

impl Correction {
    /// What a correction number means; one over 15 is clean.
    pub fn of(number: usize) -> Correction {
        let guarded = number.checked_sub(1).and_then(|at| GUARDED.get(at));
        match guarded.map(|place| PLACES[place - 1]) {
            None => Correction::Clean,
            Some(Place { field: PARITY, .. }) => Correction::Parity(number as u8),
            Some(Place { field, bit }) => Correction::Data {
                field: field as u8 + 1,
                bit: bit as u8,
            },
        }
    }

    /// The correction number, 0 to 15; 0 also of a data bit that is not guarded.
    pub fn number(self) -> u8 {
        match self {
            Correction::Clean => 0,
            Correction::Parity(number) => number,
            Correction::Data { .. } => {
                let means = |&number: &u8| Correction::of(number.into()) == self;
                (1..=15).find(means).unwrap_or(0)
            }
        }
    }

    /// Whether a data bit was inverted.
    pub fn is_repair(self) -> bool {
        matches!(self, Correction::Data { .. })
    }
}

/// What a frame reads as.
#[derive(Clone, Copy, Debug, PartialEq, Eq)]
pub struct Reading {
    pub record: Record,
    pub correction: Correction,
    /// The order mark; 0 if no LSP falls.
    pub mark: u8,
}

/// Reads any bytes: refusal 1 unless they are 18.
pub fn read(frame: &[u8]) -> Result<Reading, Refusal> {
    let frame = frame.try_into().map_err(|_| Refusal::LENGTH)?;
    Ok(read_frame(frame))
}

/// Reads a frame. Any 18 bytes have a reading.
pub fn read_frame(frame: &[u8; FRAME_LENGTH]) -> Reading {
    let mut bits = [0; FIELDS + 1];
    for (byte, places) in frame.iter().zip(PLACES.chunks_exact(8)) {
        for (shift, place) in (0..8).rev().zip(places) {
            bits[place.field] |= u16::from(byte >> shift & 1) << place.bit;
        }
    }

    let correction = Correction::of(parity(frame));
    let mut record = Record {
        fields: *bits.first_chunk().expect("there are 28 fields"),
    };
    if let Correction::Data { field, bit } = correction {
        record.fields[usize::from(field) - 1] ^= 1 << bit;
    }
    Reading {
        record,
        correction,
        mark: record.order_mark(),
    }
}

/// Writes a record; or refusal 2, 3 or 6, the lowest that applies.
pub fn write(record: &Record) -> Result<[u8; FRAME_LENGTH], Refusal> {
    record.check_widths()?;
    match record.order_mark() {
        0 => {}
        mark => return Err(Refusal::new(3, mark.into())),
    }
    if record.sp() != 0 {
        return Err(Refusal::EXPANSION);
    }
    Ok(lay(record))
}

/// Lays a record into the 144 places with its parity, also one that the writer refuses for its
/// order or expansion bit. The indices are within their widths.
pub fn lay(record: &Record) -> [u8; FRAME_LENGTH] {
    let mut frame = [0; FRAME_LENGTH];
    for (p, place) in PLACES.iter().enumerate() {
        if place.field != PARITY && record.fields[place.field] >> place.bit & 1 == 1 {
            flip(&mut frame, p + 1);
        }
    }
    // With the parity bits still 0 the correction number is the parity itself.
    let parity = parity(&frame);
    for i in 0..4 {
        if parity >> i & 1 == 1 {
            flip(&mut frame, GUARDED[(1 << i) - 1]);
        }
    }
    frame
}

/// The correction number: computed parity against received.
fn parity(frame: &[u8; FRAME_LENGTH]) -> usize {
    let guarded = (1..)
        .zip(GUARDED)
        .filter(|&(_, place)| is_set(frame, place));
    guarded.fold(0, |number, (c, _)| number ^ c)
}

/// Whether a place, counted from 1, is set.
pub fn is_set(frame: &[u8; FRAME_LENGTH], place: usize) -> bool {
    frame[(place - 1) / 8] & 0x80 >> ((place - 1) % 8) != 0
}

/// Flips a place, counted from 1.
pub fn flip(frame: &mut [u8; FRAME_LENGTH], place: usize) {
    frame[(place - 1) / 8] ^= 0x80 >> ((place - 1) % 8);
}

/// The reader for C: 16 times the order mark plus the correction number, and 256 more for a parity
/// hit or 512 for a data hit; or minus a refusal's number. Writes the record only if it is not
/// refused.
pub fn read_c(frame: &[u8], record: &mut [u8]) -> i32 {
    if record.len() != RECORD_LENGTH {
        return -1;
    }
    match read(frame) {
        Ok(reading) => {
            for (pair, index) in record.chunks_exact_mut(2).zip(reading.record.fields) {
                pair.copy_from_slice(&index.to_le_bytes());
            }
            let hit = match reading.correction {
                Correction::Clean => 0,
                Correction::Parity(_) => 256,
                Correction::Data { .. } => 512,
            };
            hit + 16 * i32::from(reading.mark) + i32::from(reading.correction.number())
        }
        Err(refusal) => -i32::from(refusal.number),
    }
}

/// The writer for C: 0, or minus a refusal's number. Writes the frame only if it is not refused.
pub fn write_c(record: &[u8], frame: &mut [u8]) -> i32 {
    if record.len() != RECORD_LENGTH || frame.len() != FRAME_LENGTH {
        return -1;
    }
    let mut given = Record::ZERO;
    for (index, pair) in given.fields.iter_mut().zip(record.chunks_exact(2)) {
        *index = u16::from_le_bytes([pair[0], pair[1]]);
    }
    match write(&given) {
        Ok(written) => {
            frame.copy_from_slice(&written);
            0
        }
        Err(refusal) => -i32::from(refusal.number),
    }
}

#[cfg(test)]
mod tests {
    use super::*;
    use crate::cases::Generator;
    use crate::tables::{place_named, PLACE_NAMES};

    fn only(places: &[usize]) -> [u8; FRAME_LENGTH] {
        let mut frame = [0; FRAME_LENGTH];
        for &place in places {
            flip(&mut frame, place);
        }
        frame
    }

    #[test]
    fn place_1_is_the_top_bit_of_byte_0_and_144_the_lowest_of_17() {
        assert_eq!(only(&[1])[0], 0x80);
        assert_eq!(only(&[8])[0], 0x01);
        assert_eq!(only(&[9])[1], 0x80);
        assert_eq!(only(&[144])[17], 0x01);
        assert!(is_set(&only(&[144]), 144) && !is_set(&only(&[144]), 143));
    }

    #[test]
    fn one_place_alone_reads_as_its_own_bit_unless_it_is_guarded() {
        for p in 1..=144 {
            let reading = read_frame(&only(&[p]));
            let mut expected = Record::ZERO;
            let number = GUARDED
                .iter()
                .position(|&guarded| guarded == p)
                .map_or(0, |at| at + 1);
            if number == 0 {
                let place = place_named(PLACE_NAMES[p - 1]);
                expected.fields[place.field] = 1 << place.bit;
            }
            assert_eq!(reading.record, expected, "place {p}");
            assert_eq!(
                usize::from(reading.correction.number()),
                number,
                "place {p}"
            );
        }
    }

    const fn data(field: u8, bit: u8) -> Correction {
        Correction::Data { field, bit }
    }

    /// What numbers 0 to 15 mean, from the list of guarded places.
    const MEANT: [Correction; 16] = [
        Correction::Clean,
        Correction::Parity(1),
        Correction::Parity(2),
        data(11, 5), // PD(1)-5
        Correction::Parity(4),
        data(11, 6), // PD(1)-6
        data(11, 7), // PD(1)-7
        data(12, 4), // PG(1)-4
        Correction::Parity(8),
        data(16, 4), // PG(2)-4
        data(19, 5), // PD(3)-5
        data(19, 6), // PD(3)-6
        data(19, 7), // PD(3)-7
        data(20, 4), // PG(3)-4
        data(24, 4), // PG(4)-4
        data(27, 0), // SP
    ];

    #[test]
    fn each_number_is_one_case_and_each_case_one_number() {
        for (number, meant) in MEANT.into_iter().enumerate() {
            assert_eq!(Correction::of(number), meant);
            assert_eq!(usize::from(meant.number()), number);
            assert_eq!(meant.is_repair(), ![0, 1, 2, 4, 8].contains(&number));
        }
        for number in (16..600).chain([65_535, 65_536, usize::MAX]) {
            assert_eq!(Correction::of(number), Correction::Clean);
        }
    }

    #[test]
    fn a_data_bit_that_is_not_guarded_has_number_0() {
        let mut guarded = 0;
        for field in 0..=255 {
            for bit in 0..=255 {
                let number = data(field, bit).number();
                let meant = MEANT.iter().position(|&meant| meant == data(field, bit));
                assert_eq!(meant.unwrap_or(0), usize::from(number), "{field} {bit}");
                guarded += usize::from(number != 0);
            }
        }
        assert_eq!(guarded, 11);
    }

    #[test]
    fn the_number_is_computed_parity_against_received() {
        // 3.9.1 and 3.9.2 to the letter, over the whole of the fifteen places.
        for set in 0..1u32 << 15 {
            let bit = |number: usize| (set >> (number - 1) & 1) as u8;
            let mut result = 0;
            for i in 0..4 {
                let data = (1..=15usize).filter(|n| n >> i & 1 == 1 && n.count_ones() > 1);
                let computed = data.map(bit).sum::<u8>() % 2;
                result |= (computed ^ bit(1 << i)) << i;
            }
            let places: Vec<usize> = (1..=15)
                .filter(|&n| bit(n) == 1)
                .map(|n| GUARDED[n - 1])
                .collect();
            let reading = read_frame(&only(&places));
            assert_eq!(reading.correction, MEANT[usize::from(result)]);
            assert_eq!(reading.correction.number(), result);
            let mut expected = Record::ZERO;
            for n in (1..=15usize).filter(|n| n.count_ones() > 1) {
                let place = PLACES[GUARDED[n - 1] - 1];
                expected.fields[place.field] |=
                    u16::from(bit(n) ^ u8::from(usize::from(result) == n)) << place.bit;
            }
            assert_eq!(reading.record, expected);
        }
    }

    #[test]
    fn a_frame_not_of_18_bytes_is_refused() {
        for length in [0, 1, 17, 19, 36, 144] {
            assert_eq!(read(&vec![0; length]), Err(Refusal::new(1, 0)));
        }
    }

    #[test]
    fn every_field_one_past_its_width_is_refused() {
        for field in 1..=FIELDS {
            for index in [1 << WIDTHS[field - 1], (1 << WIDTHS[field - 1]) + 1, 65_535] {
                let mut record = Record::ZERO;
                record.fields[field - 1] = index;
                assert_eq!(write(&record), Err(Refusal::new(2, field as u32)));
                // Higher fields, falling LSPs and a set SP do not matter then.
                for other in record.fields[field..].iter_mut() {
                    *other = 65_535;
                }
                assert_eq!(write(&record), Err(Refusal::new(2, field as u32)));
            }
        }
    }

    #[test]
    fn the_widest_indices_are_written() {
        let mut record = Record::ZERO;
        for (index, width) in record.fields.iter_mut().zip(WIDTHS) {
            *index = (1 << width) - 1;
        }
        record.fields[26] = 0;
        let frame = write(&record).unwrap();
        assert_eq!(
            read_frame(&frame),
            Reading {
                record,
                correction: Correction::Clean,
                mark: 0
            }
        );
    }

    #[test]
    fn the_writer_refuses_2_then_3_then_6() {
        let mut record = Record::ZERO;
        record.fields[26] = 1;
        assert_eq!(write(&record), Err(Refusal::new(6, 0)));
        record.fields[3] = 15; // LSP 4 of 1,970 Hz above LSP 5 of 1,000
        assert_eq!(write(&record), Err(Refusal::new(3, 4)));
        record.fields[26] = 0;
        assert_eq!(write(&record), Err(Refusal::new(3, 4)));
        record.fields[26] = 2;
        assert_eq!(write(&record), Err(Refusal::new(2, 27)));
        record.fields[27] = 2;
        assert_eq!(write(&record), Err(Refusal::new(2, 27)));
    }

    #[test]
    fn c_reads_and_writes_what_the_others_do() {
        let mut g = Generator::new(1);
        for _ in 0..5_000 {
            let frame = g.bytes18();
            let reading = read(&frame).unwrap();
            let mut lent = [0xEE; RECORD_LENGTH];
            let result = read_c(&frame, &mut lent);
            let of_correction = match reading.correction {
                Correction::Clean => 0,
                Correction::Parity(number) => 256 + i32::from(number),
                correction => 512 + i32::from(correction.number()),
            };
            assert_eq!(result, 16 * i32::from(reading.mark) + of_correction);
            for (at, index) in reading.record.fields.into_iter().enumerate() {
                assert_eq!(
                    u16::from(lent[2 * at]) + 256 * u16::from(lent[2 * at + 1]),
                    index
                );
            }

            let record = g.any_record();
            let pairs: Vec<u8> = record
                .fields
                .iter()
                .flat_map(|index| index.to_le_bytes())
                .collect();
            let mut lent = [0xEE; FRAME_LENGTH];
            match write(&record) {
                Ok(frame) => {
                    assert_eq!(write_c(&pairs, &mut lent), 0);
                    assert_eq!(lent, frame);
                }
                Err(refusal) => {
                    assert_eq!(write_c(&pairs, &mut lent), -i32::from(refusal.number));
                    assert_eq!(lent, [0xEE; FRAME_LENGTH]);
                }
            }
        }
    }

    /// What the reader for C gives for numbers 0 to 15 with mark 0.
    const RESULTS: [i32; 16] = [
        0, 257, 258, 515, 260, 517, 518, 519, 264, 521, 522, 523, 524, 525, 526, 527,
    ];

    #[test]
    fn c_tells_a_parity_hit_from_a_data_hit_with_every_mark() {
        for mark in 0..=9 {
            let mut record = Record::ZERO;
            if mark > 0 {
                // The highest value of LSP j is above the lowest of the next one.
                record.fields[mark - 1] = (1 << WIDTHS[mark - 1]) - 1;
            }
            for sp in [0, 1] {
                record.fields[26] = sp;
                for (number, result) in RESULTS.into_iter().enumerate() {
                    let mut frame = lay(&record);
                    if number > 0 {
                        flip(&mut frame, GUARDED[number - 1]);
                    }
                    let mut lent = [0xEE; RECORD_LENGTH];
                    let expected = result + 16 * mark as i32;
                    assert_eq!(read_c(&frame, &mut lent), expected, "{mark} {number}");
                    let given: Vec<u8> = record
                        .fields
                        .iter()
                        .flat_map(|index| index.to_le_bytes())
                        .collect();
                    assert_eq!(lent[..], given);
                }
            }
        }
    }

    #[test]
    fn results_of_the_reader_for_c() {
        // LSP 4 of 1,970 Hz above LSP 5 of 1,000, and LSP 9 of 3,550 above LSP 10 of 3,190.
        for (field, index, number, expected) in [
            (4, 15, 0, 64),
            (4, 15, 1, 256 + 64 + 1),
            (4, 15, 3, 512 + 64 + 3),
            (9, 7, 0, 144),
            (9, 7, 8, 256 + 144 + 8),
            (9, 7, 15, 512 + 144 + 15),
        ] {
            let mut record = Record::ZERO;
            record.fields[field - 1] = index;
            let mut frame = lay(&record);
            if number > 0 {
                flip(&mut frame, GUARDED[number - 1]);
            }
            assert_eq!(read_c(&frame, &mut [0; RECORD_LENGTH]), expected);
        }
    }

    #[test]
    fn c_checks_both_lengths_before_anything_else() {
        for (frame, record) in [
            (17, 56),
            (19, 56),
            (18, 55),
            (18, 57),
            (18, 28),
            (0, 0),
            (17, 55),
        ] {
            let mut lent = vec![0xEE; record];
            assert_eq!(read_c(&vec![0xFF; frame], &mut lent), -1);
            assert_eq!(lent, vec![0xEE; record]);
            // This record would be refused with 2.
            let mut lent = vec![0xEE; frame];
            assert_eq!(write_c(&vec![0xFF; record], &mut lent), -1);
            assert_eq!(lent, vec![0xEE; frame]);
        }
        let mut lent = [0xEE; FRAME_LENGTH];
        assert_eq!(write_c(&[0xFF; RECORD_LENGTH], &mut lent), -2);
        assert_eq!(lent, [0xEE; FRAME_LENGTH]);
    }
}
