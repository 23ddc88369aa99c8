//! Writing whole numbers as decimal text into a byte buffer, one space apart.

/// Appends a number in decimal.
pub fn number(out: &mut Vec<u8>, n: i64) {
    if n < 0 {
        out.push(b'-');
    }
    let mut rest = n.unsigned_abs();
    let mut digits = [0; 20];
    let mut at = digits.len();
    loop {
        at -= 1;
        digits[at] = b'0' + (rest % 10) as u8;
        rest /= 10;
        if rest == 0 {
            break;
        }
    }
    out.extend_from_slice(&digits[at..]);
}

/// Appends numbers in decimal, each after one space.
pub fn numbers(out: &mut Vec<u8>, all: impl IntoIterator<Item = i64>) {
    for n in all {
        out.push(b' ');
        number(out, n);
    }
}

#[cfg(test)]
mod tests {
    use super::*;

    #[test]
    fn numbers_are_written_in_decimal() {
        for n in [
            0,
            7,
            10,
            -1,
            65_536,
            i64::from(i32::MIN),
            i64::from(u32::MAX),
            i64::MIN,
            i64::MAX,
        ] {
            let mut out = Vec::new();
            number(&mut out, n);
            assert_eq!(out, n.to_string().as_bytes());
        }
        let mut out = Vec::new();
        numbers(&mut out, [1, -2, 30]);
        assert_eq!(out, b" 1 -2 30");
    }
}
