//! The lines of subframes as the function for C tells them: minus the refusal's number, and all else the same.

use outside::subframes;
use std::collections::BTreeSet;

/// The first number of a line, and all else.
fn parts(line: &str) -> (i64, &str) {
    let (number, rest) = line.split_once(' ').expect("a number and more");
    (number.parse().expect("a number"), rest)
}

/// A case of a register of zeros: a delay in twelfths, a PG and the length of the buffer.
fn case(delay: u32, pg: u16, length: u16) -> Vec<u8> {
    let mut bytes = vec![0; 4 + 4 * 147];
    bytes.extend(delay.to_le_bytes());
    bytes.extend([pg, 511, 31, length].iter().flat_map(|n| n.to_le_bytes()));
    bytes
}

#[test]
fn the_results_of_refused_subframes_are_these() {
    let rest = [vec!["7"; 62], vec!["0"; 147]].concat().join(" ");
    for (delay, pg, length, result) in [
        (240, 31, 59, -1),
        (240, 31, 65_535, -1),
        (241, 32, 61, -1),
        (241, 32, 60, -2),
        (244, 31, 60, -15),
        (1788, 31, 60, -4),
    ] {
        let said = subframes::answers_for_c(&case(delay, pg, length));
        assert_eq!(
            String::from_utf8(said).unwrap(),
            format!("{result} {rest}\n")
        );
    }
}

#[test]
fn a_line_for_c_differs_by_the_sign_of_its_first_number() {
    let cases = subframes::cases();
    let lines = String::from_utf8(subframes::answers(&cases)).expect("text");
    let for_c = String::from_utf8(subframes::answers_for_c(&cases)).expect("text");
    assert_eq!(lines.lines().count(), cases.len() / subframes::CASE_LENGTH);
    assert_eq!(lines.lines().count(), for_c.lines().count());
    let mut results = BTreeSet::new();
    for (line, line_for_c) in lines.lines().zip(for_c.lines()) {
        let ((number, rest), (result, rest_for_c)) = (parts(line), parts(line_for_c));
        assert_eq!((result, rest_for_c), (-number, rest));
        results.insert(result);
    }
    assert_eq!(results, BTreeSet::from([-15, -4, -2, -1, 0]));
    // One that is cut ends them.
    let cut = &cases[..2 * subframes::CASE_LENGTH - 1];
    let one = subframes::answers_for_c(cut);
    assert_eq!(one.iter().filter(|&&byte| byte == b'\n').count(), 1);
    assert!(for_c.as_bytes().starts_with(&one));
}
