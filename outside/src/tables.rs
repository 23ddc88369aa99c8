//! The tables of Federal Standard 1016: the 144 places (3.8.2), the gains (3.4, 3.6), the
//! delays with their printed codes (3.5.4) and the line spectral parameters (3.7.2).
//! Both printed copies of the standard agree on every entry below.

use crate::codes;
use crate::text::{number, numbers};

/// How many fields an index record has.
pub const FIELDS: usize = 28;

/// The widths of fields 1 to 28 in bits.
pub const WIDTHS: [u32; FIELDS] = [
    3, 4, 4, 4, 4, 3, 3, 3, 3, 3, // LSP 1 to 10
    8, 5, 9, 5, // PD, PG, CI, CG of subframe 1
    6, 5, 9, 5, // of subframe 2
    8, 5, 9, 5, // of subframe 3
    6, 5, 9, 5, // of subframe 4
    1, 1, // SP, SY
];

/// The standard's names of places 1 to 144. (Place 104 is printed `SP-0`.)
#[rustfmt::skip]
pub const PLACE_NAMES: [&str; 144] = [
    "PG(4)-4", "PD(3)-4", "LSP 1-1", "CG(2)-4", "CI(3)-3", "CI(1)-8",
    "PD(4)-0", "LSP 8-0", "PG(2)-3", "CG(3)-0", "PD(1)-5", "LSP 3-3",
    "CI(2)-3", "CI(4)-4", "PD(2)-1", "LSP 10-0", "PG(1)-3", "CG(4)-0",
    "LSP 5-2", "PD(3)-0", "HP-0", "CI(1)-1", "CI(4)-8", "LSP 2-2",
    "PG(3)-1", "PD(4)-5", "CG(1)-3", "CI(3)-5", "LSP 7-0", "CI(2)-1",
    "PD(3)-7", "CI(1)-0", "PG(4)-0", "LSP 4-3", "CG(3)-1", "CI(1)-5",
    "PD(2)-0", "CI(4)-1", "LSP 9-0", "CI(3)-8", "PG(1)-4", "CG(2)-2",
    "PD(1)-3", "LSP 6-1", "CI(3)-4", "CI(2)-2", "CG(1)-4", "PD(2)-3",
    "LSP 1-2", "PG(3)-2", "HP-1", "PD(3)-1", "CG(4)-3", "LSP 8-1",
    "PG(3)-0", "CI(2)-8", "PD(4)-1", "CI(4)-0", "LSP 3-2", "PG(2)-0",
    "PD(1)-6", "CG(2)-0", "CI(3)-6", "LSP 10-1", "PG(1)-1", "CI(4)-7",
    "PD(3)-3", "CG(1)-2", "LSP 5-3", "CI(1)-6", "LSP 2-0", "PG(3)-4",
    "PD(1)-4", "CG(3)-2", "LSP 7-1", "CI(2)-7", "CI(3)-0", "PD(2)-5",
    "LSP 4-1", "CG(1)-0", "PG(4)-3", "LSP 9-1", "PD(3)-6", "CI(1)-4",
    "CG(2)-1", "LSP 6-2", "CI(4)-3", "PG(2)-2", "PD(4)-3", "LSP 1-0",
    "CG(4)-2", "LSP 8-2", "CI(2)-4", "HP-2", "PD(2)-2", "LSP 3-0",
    "PG(1)-2", "CG(3)-4", "LSP 10-2", "CI(4)-5", "CI(2)-0", "PD(1)-2",
    "LSP 5-1", "SP", "PG(4)-2", "CG(2)-3", "LSP 2-1", "PD(4)-4",
    "CI(1)-2", "PG(2)-1", "CI(3)-7", "LSP 4-0", "CI(2)-5", "PD(1)-7",
    "PG(1)-0", "CG(4)-4", "LSP 5-0", "PD(4)-2", "CI(1)-3", "CI(3)-1",
    "LSP 7-2", "CI(4)-2", "PD(1)-1", "PG(2)-4", "CG(3)-3", "LSP 3-1",
    "CI(1)-7", "PD(3)-2", "CI(2)-6", "LSP 9-2", "PG(4)-1", "CG(1)-1",
    "PD(2)-4", "HP-3", "LSP 6-0", "PG(3)-3", "CI(4)-6", "PD(1)-0",
    "LSP 2-3", "CG(4)-1", "CI(3)-2", "LSP 4-2", "PD(3)-5", "SY",
];

/// Stands in for the field of the four parity bits, which are in no field.
pub const PARITY: usize = FIELDS;

/// What one place holds: bit `bit` of field `field` + 1, or of the parity.
#[derive(Clone, Copy, Debug, PartialEq, Eq)]
pub struct Place {
    pub field: usize,
    pub bit: u32,
}

/// What places 1 to 144 hold.
pub const PLACES: [Place; 144] = {
    let mut places = [Place { field: 0, bit: 0 }; 144];
    let mut p = 0;
    while p < 144 {
        places[p] = place_named(PLACE_NAMES[p]);
        p += 1;
    }
    places
};

/// What a place of this name holds.
pub const fn place_named(name: &str) -> Place {
    let name = name.as_bytes();
    let last = name.len() - 1;
    let bit = name[last].wrapping_sub(b'0') as u32;
    match (name[0], name[1]) {
        (b'S', b'P') => Place { field: 26, bit: 0 },
        (b'S', b'Y') => Place { field: 27, bit: 0 },
        (b'H', _) => Place { field: PARITY, bit },
        (b'L', _) if name.len() == 8 => Place { field: 9, bit },
        (b'L', _) => Place {
            field: (name[4] - b'1') as usize,
            bit,
        },
        (first, second) => {
            let subframe = (name[3] - b'1') as usize;
            let of_subframe = match (first, second) {
                (b'P', b'D') => 0,
                (b'P', b'G') => 1,
                (b'C', b'I') => 2,
                _ => 3,
            };
            Place {
                field: 10 + 4 * subframe + of_subframe,
                bit,
            }
        }
    }
}

/// The guarded places (counted from 1); the one with correction number c stands at c - 1.
pub const GUARDED: [usize; 15] = [
    21, 51, 11, 94, 61, 114, 41, 134, 124, 143, 83, 31, 72, 1, 104,
];

/// CG by index. (Index 10 is printed without its sign.)
#[rustfmt::skip]
pub const CG: [i32; 32] = [
    -1330, -870, -660, -520, -418, -340, -278, -224,
    -178, -136, -98, -64, -35, -13, -3, -1,
    1, 3, 13, 35, 64, 98, 136, 178,
    224, 278, 340, 418, 520, 660, 870, 1330,
];

/// PG by index, in thousandths.
#[rustfmt::skip]
pub const PG: [i32; 32] = [
    -993, -831, -693, -555, -414, -229, 0, 139,
    255, 368, 457, 531, 601, 653, 702, 745,
    780, 816, 850, 881, 915, 948, 983, 1020,
    1062, 1117, 1193, 1289, 1394, 1540, 1765, 1991,
];

/// The frequencies of LSP 1 to 10 by index, in Hz.
#[rustfmt::skip]
pub const LSP: [&[u16]; 10] = [
    &[100, 170, 225, 250, 280, 340, 420, 500],
    &[210, 235, 265, 295, 325, 360, 400, 440, 480, 520, 560, 610, 670, 740, 810, 880],
    &[420, 460, 500, 540, 585, 640, 705, 775, 850, 950, 1050, 1150, 1250, 1350, 1450, 1550],
    &[620, 660, 720, 795, 880, 970, 1080, 1170, 1270, 1370, 1470, 1570, 1670, 1770, 1870, 1970],
    &[1000, 1050, 1130, 1210, 1285, 1350, 1430, 1510, 1590, 1670, 1750, 1850, 1950, 2050, 2150, 2250],
    &[1470, 1570, 1690, 1830, 2000, 2200, 2400, 2600],
    &[1800, 1880, 1960, 2100, 2300, 2480, 2700, 2900],
    &[2225, 2400, 2525, 2650, 2800, 2950, 3150, 3350],
    &[2760, 2880, 3000, 3100, 3200, 3310, 3430, 3550],
    &[3190, 3270, 3350, 3420, 3490, 3590, 3710, 3830],
];

/// The delays in rising order, in hundredths of a sample as printed, with their codes.
#[rustfmt::skip]
const PRINTED_DELAYS: [(u16, u8); 256] = [
    (2000, 0x42), (2033, 0x46), (2067, 0x47), (2100, 0x57), (2133, 0x56),
    (2167, 0x59), (2200, 0x58), (2233, 0xAE), (2267, 0xBE), (2300, 0xBA),
    (2333, 0xB8), (2367, 0xBC), (2400, 0xAC), (2433, 0xA8), (2467, 0x94),
    (2500, 0x84), (2533, 0x8C), (2567, 0x9C), (2600, 0x9E), (2625, 0x8E),
    (2650, 0x86), (2675, 0x96), (2700, 0x0A), (2725, 0x02), (2750, 0x0B),
    (2775, 0x03), (2800, 0x1B), (2825, 0x13), (2850, 0x09), (2875, 0x01),
    (2900, 0x19), (2925, 0x11), (2950, 0xF3), (2975, 0xF7), (3000, 0xE7),
    (3025, 0xE3), (3050, 0xE5), (3075, 0xE1), (3100, 0xF1), (3125, 0xF5),
    (3150, 0x61), (3175, 0x65), (3200, 0x75), (3225, 0x71), (3250, 0x6D),
    (3275, 0x7D), (3300, 0x69), (3325, 0x79), (3350, 0x7B), (3375, 0x7F),
    (3400, 0x6B), (3433, 0xC1), (3467, 0xC0), (3500, 0xC3), (3533, 0xC2),
    (3567, 0xD2), (3600, 0xD3), (3633, 0xD1), (3667, 0xD0), (3700, 0x30),
    (3733, 0x32), (3767, 0x3A), (3800, 0x31), (3833, 0x33), (3867, 0x3B),
    (3900, 0x3F), (3933, 0x37), (3967, 0x3E), (4000, 0x36), (4033, 0x34),
    (4067, 0x4A), (4100, 0x4B), (4133, 0x4E), (4167, 0x4F), (4200, 0x5F),
    (4233, 0x5E), (4267, 0x5C), (4300, 0x5D), (4333, 0x54), (4367, 0x55),
    (4400, 0x50), (4433, 0x51), (4467, 0xAA), (4500, 0xA6), (4533, 0xA2),
    (4567, 0xB6), (4600, 0xB2), (4633, 0xBB), (4667, 0xB0), (4700, 0xB9),
    (4733, 0xB4), (4767, 0xBD), (4800, 0xA4), (4833, 0xA0), (4867, 0xA9),
    (4900, 0xAD), (4933, 0x95), (4967, 0x85), (5000, 0x9D), (5033, 0x8D),
    (5067, 0x89), (5100, 0x99), (5133, 0x88), (5167, 0x98), (5200, 0x90),
    (5233, 0x80), (5267, 0x9A), (5300, 0x8A), (5333, 0x82), (5367, 0x92),
    (5400, 0x1A), (5433, 0x12), (5467, 0x00), (5500, 0x08), (5533, 0x06),
    (5567, 0x0E), (5600, 0x0F), (5633, 0x07), (5667, 0x17), (5700, 0x1F),
    (5733, 0x0D), (5767, 0x05), (5800, 0x1D), (5833, 0x15), (5867, 0xFB),
    (5900, 0xFF), (5933, 0xEB), (5967, 0xEF), (6000, 0xED), (6033, 0xEA),
    (6067, 0xEE), (6100, 0xEC), (6133, 0xE6), (6167, 0xE2), (6200, 0xE4),
    (6233, 0xE0), (6267, 0xF4), (6300, 0xF0), (6333, 0x60), (6367, 0x64),
    (6400, 0x74), (6433, 0x70), (6467, 0x73), (6500, 0x72), (6533, 0x6C),
    (6567, 0x7C), (6600, 0x68), (6633, 0x78), (6667, 0x7A), (6700, 0x7E),
    (6733, 0x6A), (6767, 0x6E), (6800, 0x6F), (6833, 0xC4), (6867, 0xC5),
    (6900, 0xC9), (6933, 0xC8), (6967, 0xC7), (7000, 0xCB), (7033, 0xC6),
    (7067, 0xCA), (7100, 0xD6), (7133, 0xDA), (7167, 0xDB), (7200, 0xD7),
    (7233, 0xD9), (7267, 0xD5), (7300, 0xD8), (7333, 0xD4), (7367, 0x20),
    (7400, 0x28), (7433, 0x38), (7467, 0x22), (7500, 0x2A), (7533, 0x39),
    (7567, 0x29), (7600, 0x21), (7633, 0x23), (7667, 0x2B), (7700, 0x27),
    (7733, 0x2F), (7767, 0x25), (7800, 0x2D), (7833, 0x3D), (7867, 0x35),
    (7900, 0x3C), (7933, 0x2E), (7967, 0x2C), (8000, 0x26), (8100, 0x24),
    (8200, 0x49), (8300, 0x48), (8400, 0x4C), (8500, 0x4D), (8600, 0x44),
    (8700, 0x45), (8800, 0x40), (8900, 0x41), (9000, 0xA7), (9100, 0xA3),
    (9200, 0xB7), (9300, 0xB3), (9400, 0xB1), (9500, 0xB5), (9600, 0xA5),
    (9700, 0xA1), (9800, 0x97), (9900, 0x87), (10000, 0x9F), (10100, 0x8F),
    (10200, 0x81), (10300, 0x91), (10400, 0x9B), (10500, 0x8B), (10600, 0x83),
    (10700, 0x93), (10800, 0x18), (10900, 0x10), (11000, 0x04), (11100, 0x0C),
    (11200, 0x16), (11300, 0x1E), (11400, 0x14), (11500, 0x1C), (11600, 0xF9),
    (11700, 0xFA), (11800, 0xFD), (11900, 0xE9), (12000, 0xFE), (12100, 0xE8),
    (12200, 0xFC), (12300, 0x43), (12400, 0xF2), (12500, 0xF6), (12600, 0xF8),
    (12700, 0x5B), (12800, 0x5A), (12900, 0x63), (13000, 0x62), (13100, 0x77),
    (13200, 0x76), (13300, 0x52), (13400, 0x53), (13500, 0x66), (13600, 0x67),
    (13700, 0xCC), (13800, 0xCD), (13900, 0xAB), (14000, 0xCF), (14100, 0xCE),
    (14200, 0xDE), (14300, 0xBF), (14400, 0xDF), (14500, 0xDD), (14600, 0xDC),
    (14700, 0xAF),
];

/// The delay of each rank in twelfths of a sample.
pub const TWELFTHS: [u16; 256] = {
    let mut twelfths = [0; 256];
    let mut rank = 0;
    while rank < 256 {
        let hundredths = PRINTED_DELAYS[rank].0;
        twelfths[rank] = hundredths / 100 * 12
            + match hundredths % 100 {
                0 => 0,
                25 => 3,
                33 => 4,
                50 => 6,
                67 => 8,
                75 => 9,
                _ => panic!("not a printed part of a sample"),
            };
        rank += 1;
    }
    twelfths
};

/// The printed code of each rank.
pub const DELAY_BYTES: [u8; 256] = {
    let mut bytes = [0; 256];
    let mut rank = 0;
    while rank < 256 {
        bytes[rank] = PRINTED_DELAYS[rank].1;
        rank += 1;
    }
    bytes
};

/// The rank of each byte: the inverse of [`DELAY_BYTES`].
pub const DELAY_RANKS: [u8; 256] = {
    let mut ranks = [0; 256];
    let mut rank = 0;
    while rank < 256 {
        ranks[PRINTED_DELAYS[rank].1 as usize] = rank as u8;
        rank += 1;
    }
    ranks
};

/// All the tables in plain text, one section after another.
pub fn text() -> Vec<u8> {
    let mut out = Vec::new();
    out.extend_from_slice(b"places 144\n");
    for name in PLACE_NAMES {
        out.extend_from_slice(name.as_bytes());
        out.push(b'\n');
    }
    out.extend_from_slice(b"codes 256\n");
    for rank in 0..256 {
        number(&mut out, rank as i64);
        numbers(
            &mut out,
            [i64::from(TWELFTHS[rank]), i64::from(DELAY_BYTES[rank])],
        );
        out.push(b'\n');
    }
    for (header, gains) in [(b"cg 32\n", CG), (b"pg 32\n", PG)] {
        out.extend_from_slice(header);
        for gain in gains {
            number(&mut out, gain.into());
            out.push(b'\n');
        }
    }
    out.extend_from_slice(b"lsp 10\n");
    for hz in LSP {
        number(&mut out, hz[0].into());
        numbers(&mut out, hz[1..].iter().map(|&hz| hz.into()));
        out.push(b'\n');
    }
    out.extend_from_slice(b"elements 1082\n");
    for &element in codes::elements() {
        number(&mut out, element.into());
        out.push(b'\n');
    }
    out
}

#[cfg(test)]
mod tests {
    use super::*;

    #[test]
    fn every_bit_of_every_field_has_one_place() {
        let mut count = [0u32; 29];
        let mut seen = [0u16; 29];
        for place in PLACES {
            count[place.field] += 1;
            seen[place.field] |= 1 << place.bit;
        }
        for field in 0..FIELDS {
            assert_eq!(count[field], WIDTHS[field], "field {}", field + 1);
            assert_eq!(
                u32::from(seen[field]),
                (1u32 << WIDTHS[field]) - 1,
                "field {}",
                field + 1
            );
        }
        assert_eq!((count[PARITY], seen[PARITY]), (4, 15));
        assert_eq!(WIDTHS.iter().sum::<u32>() + 4, 144);
    }

    #[test]
    fn names_say_what_they_hold() {
        assert_eq!(place_named("LSP 1-2"), Place { field: 0, bit: 2 });
        assert_eq!(place_named("LSP 10-0"), Place { field: 9, bit: 0 });
        assert_eq!(place_named("PD(1)-7"), Place { field: 10, bit: 7 });
        assert_eq!(place_named("PG(2)-4"), Place { field: 15, bit: 4 });
        assert_eq!(place_named("CI(3)-8"), Place { field: 20, bit: 8 });
        assert_eq!(place_named("CG(4)-0"), Place { field: 25, bit: 0 });
        assert_eq!(place_named("SP"), Place { field: 26, bit: 0 });
        assert_eq!(place_named("SY"), Place { field: 27, bit: 0 });
        assert_eq!(
            place_named("HP-3"),
            Place {
                field: PARITY,
                bit: 3
            }
        );
    }

    #[test]
    fn guarded_places_are_those_named() {
        let named = [
            "HP-0", "HP-1", "PD(1)-5", "HP-2", "PD(1)-6", "PD(1)-7", "PG(1)-4", "HP-3", "PG(2)-4",
            "PD(3)-5", "PD(3)-6", "PD(3)-7", "PG(3)-4", "PG(4)-4", "SP",
        ];
        for (place, name) in GUARDED.into_iter().zip(named) {
            assert_eq!(PLACE_NAMES[place - 1], name);
        }
    }

    #[test]
    fn parity_bits_guard_the_bits_printed_in_3_9_1() {
        let printed = [
            [
                "PD(1)-5", "PD(1)-6", "PG(1)-4", "PG(2)-4", "PD(3)-6", "PG(3)-4", "SP",
            ],
            [
                "PD(1)-5", "PD(1)-7", "PG(1)-4", "PD(3)-5", "PD(3)-6", "PG(4)-4", "SP",
            ],
            [
                "PD(1)-6", "PD(1)-7", "PG(1)-4", "PD(3)-7", "PG(3)-4", "PG(4)-4", "SP",
            ],
            [
                "PG(2)-4", "PD(3)-5", "PD(3)-6", "PD(3)-7", "PG(3)-4", "PG(4)-4", "SP",
            ],
        ];
        for (i, printed) in printed.iter().enumerate() {
            let parity = format!("HP-{i}");
            for (at, place) in GUARDED.into_iter().enumerate() {
                let name = PLACE_NAMES[place - 1];
                let guards = name == parity || printed.contains(&name);
                assert_eq!((at + 1) >> i & 1 == 1, guards, "{parity} and {name}");
            }
        }
    }

    #[test]
    fn cg_is_its_own_negative_and_both_gains_rise() {
        for i in 0..32 {
            assert_eq!(CG[i], -CG[31 - i]);
        }
        for i in 0..31 {
            assert!(CG[i] < CG[i + 1]);
            assert!(PG[i] < PG[i + 1]);
        }
        assert_eq!((CG[10], PG[0], PG[31]), (-98, -993, 1991));
    }

    #[test]
    fn delays_run_in_thirds_quarters_thirds_and_wholes() {
        let mut delays = Vec::new();
        delays.extend((20 * 12..26 * 12).step_by(4));
        delays.extend((26 * 12..34 * 12).step_by(3));
        delays.extend((34 * 12..80 * 12).step_by(4));
        delays.extend((80 * 12..=147 * 12).step_by(12));
        assert_eq!(delays, TWELFTHS);
        for (first, samples) in [(0, 20), (18, 26), (50, 34), (188, 80), (255, 147)] {
            assert_eq!(TWELFTHS[first], samples * 12);
        }
    }

    #[test]
    fn each_byte_is_the_code_of_one_rank() {
        for rank in 0..256 {
            assert_eq!(
                usize::from(DELAY_RANKS[usize::from(DELAY_BYTES[rank])]),
                rank
            );
        }
        let mut bytes = DELAY_BYTES;
        bytes.sort_unstable();
        assert!(bytes.into_iter().eq(0..=255));
    }

    #[test]
    fn frequencies_rise_and_fill_their_widths() {
        for (j, hz) in LSP.iter().enumerate() {
            assert_eq!(hz.len(), 1 << WIDTHS[j]);
            assert!(hz.windows(2).all(|two| two[0] < two[1]), "LSP {}", j + 1);
        }
    }

    #[test]
    fn the_text_has_its_sections() {
        let text = String::from_utf8(text()).unwrap();
        let lines: Vec<&str> = text.lines().collect();
        assert_eq!(lines.len(), 145 + 257 + 33 + 33 + 11 + 1083);
        assert_eq!(lines[..2], ["places 144", "PG(4)-4"]);
        assert_eq!(lines[145..147], ["codes 256", "0 240 66"]);
        assert_eq!(lines[402..404], ["cg 32", "-1330"]);
        assert_eq!(lines[435..437], ["pg 32", "-993"]);
        assert_eq!(
            lines[468..470],
            ["lsp 10", "100 170 225 250 280 340 420 500"]
        );
        assert_eq!(lines[479..482], ["elements 1082", "0", "1"]);
    }
}
