//! What the command for people prints of several recordings: the text of each after its name, how many
//! are sound and how many are refused, and on standard error what is wrong with each that is not sound.

use crate::recording::{self, Cause, Fault};
use crate::refusal::Refusal;
use crate::{excite, hear, listing};
use std::ffi::{OsStr, OsString};
use std::fs::File;
use std::io::{self, Read, Write};
use std::os::unix::ffi::OsStrExt;

/// Which text is printed of a recording.
#[derive(Clone, Copy, Debug, PartialEq, Eq)]
pub enum Word {
    List,
    Hear,
    Excite,
}

impl Word {
    /// The word of this name.
    pub fn named(name: &OsStr) -> Option<Word> {
        match name.as_bytes() {
            b"list" => Some(Word::List),
            b"hear" => Some(Word::Hear),
            b"excite" => Some(Word::Excite),
            _ => None,
        }
    }

    /// The text of any bytes as a recording.
    pub fn text(self, recording: &[u8]) -> Vec<u8> {
        match self {
            Word::List => listing::list(recording),
            Word::Hear => hear::hear(recording),
            Word::Excite => excite::excite(recording),
        }
    }
}

/// How many recordings are sound, are refused and could not be read.
#[derive(Clone, Copy, Debug, Default, PartialEq, Eq)]
pub struct Outcomes {
    pub sound: usize,
    pub refused: usize,
    pub not_read: usize,
}

impl Outcomes {
    /// The last line.
    fn line(self) -> String {
        let Outcomes {
            sound,
            refused,
            not_read,
        } = self;
        let all = sound + refused + not_read;
        let unread = match not_read {
            0 => String::new(),
            _ => format!(", {not_read} not read"),
        };
        format!("{all} recordings: {sound} sound, {refused} refused{unread}\n")
    }

    /// The exit status: 3 if one could not be read, else 1 if one is refused, else 0.
    pub fn status(self) -> u8 {
        match self {
            Outcomes { not_read: 1.., .. } => 3,
            Outcomes { refused: 1.., .. } => 1,
            _ => 0,
        }
    }
}

/// Reads a file into a buffer, as far as one byte past the longest recording.
pub fn read_file(name: &OsStr, bytes: &mut Vec<u8>) -> io::Result<()> {
    let most = recording::LONGEST as u64 + 1;
    File::open(name)?.take(most).read_to_end(bytes)?;
    Ok(())
}

/// The system's own words for an error.
fn words(error: &io::Error) -> String {
    let text = error.to_string();
    match error.raw_os_error() {
        Some(code) => {
            let after = format!(" (os error {code})");
            text.strip_suffix(&after).unwrap_or(&text).to_string()
        }
        None => text,
    }
}

/// The refusal of a recording, for people.
fn refused(fault: Fault) -> String {
    let Refusal { number, .. } = fault.into();
    let Fault { at, cause } = fault;
    let place = match cause {
        Cause::TooLong => String::new(),
        Cause::WrongSize(size) => format!(" at {at} {size}"),
        _ => format!(" at {at}"),
    };
    format!("refused {number}{place}: {}", cause.words())
}

/// Prints the texts of named recordings, of one alone just its text, and says what is wrong with those
/// that are not sound.
pub fn many(
    word: Word,
    names: &[OsString],
    mut read: impl FnMut(&OsStr, &mut Vec<u8>) -> io::Result<()>,
    out: &mut impl Write,
    said: &mut impl Write,
) -> io::Result<Outcomes> {
    let alone = names.len() == 1;
    let mut outcomes = Outcomes::default();
    let mut bytes = Vec::new();
    for name in names {
        let mut say = |what: &str| {
            said.write_all(name.as_bytes())?;
            writeln!(said, ": {what}")
        };
        bytes.clear();
        if let Err(error) = read(name, &mut bytes) {
            say(&words(&error))?;
            outcomes.not_read += 1;
            continue;
        }
        match recording::check(&bytes) {
            Ok(_) => outcomes.sound += 1,
            Err(fault) => {
                say(&refused(fault))?;
                outcomes.refused += 1;
            }
        }
        if !alone {
            out.write_all(name.as_bytes())?;
            out.write_all(b":\n")?;
        }
        out.write_all(&word.text(&bytes))?;
    }
    if !alone {
        out.write_all(outcomes.line().as_bytes())?;
    }
    Ok(outcomes)
}

#[cfg(test)]
mod tests {
    use super::*;
    use crate::cases;

    const NO_SUCH_FILE: i32 = 2;
    const IS_A_DIRECTORY: i32 = 21;

    /// A file by its name: its bytes, or the system's number for the error.
    type Named<'a> = (&'a str, Result<&'a [u8], i32>);

    /// What is printed, what is said, and the status.
    fn of(word: Word, files: &[Named]) -> (String, String, u8) {
        let names: Vec<OsString> = files.iter().map(|(name, _)| name.into()).collect();
        let mut next = files.iter();
        let read = |name: &OsStr, bytes: &mut Vec<u8>| {
            let (next, content) = next.next().expect("each file is read once");
            assert_eq!((name, bytes.len()), (OsStr::new(next), 0));
            let content = content.map_err(io::Error::from_raw_os_error)?;
            bytes.extend_from_slice(content);
            Ok(())
        };
        let (mut out, mut said) = (Vec::new(), Vec::new());
        let outcomes = many(word, &names, read, &mut out, &mut said).expect("nothing fails");
        assert_eq!(
            outcomes.sound + outcomes.refused + outcomes.not_read,
            files.len()
        );
        let [out, said] = [out, said].map(|bytes| String::from_utf8(bytes).expect("text"));
        (out, said, outcomes.status())
    }

    const SOUND: &str = "unit 7 recording 1 frames 2\n1 0 c 0 0 656 532 656 532\n\
                         2 15 d 0 1 656 532 656 532\nrepaired 1 breaks 0\n";

    #[test]
    fn one_file_is_its_text_alone() {
        let sample = cases::sample();
        let printed = of(Word::List, &[("a", Ok(&sample))]);
        assert_eq!(printed, (SOUND.to_string(), String::new(), 0));
        for word in [Word::List, Word::Hear, Word::Excite] {
            let (out, said, status) = of(word, &[("a", Ok(&sample))]);
            assert_eq!(
                (out.into_bytes(), &said[..], status),
                (word.text(&sample), "", 0)
            );
            let (out, said, status) = of(word, &[("x/y.rec", Ok(&sample[..44]))]);
            assert_eq!((&out[..], status), ("refused 10 at 14\n", 1));
            let wrong = "the block's length runs past the end of the recording";
            assert_eq!(said, format!("x/y.rec: refused 10 at 14: {wrong}\n"));
        }
        let printed = of(Word::Hear, &[("a", Err(NO_SUCH_FILE))]);
        let said = "a: No such file or directory\n".to_string();
        assert_eq!(printed, (String::new(), said, 3));
    }

    #[test]
    fn several_files_have_their_names_and_a_last_line() {
        let sample = cases::sample();
        let files = [
            ("a", Ok(&sample[..])),
            ("b c", Ok(&sample[..59])),
            ("d", Err(NO_SUCH_FILE)),
            ("a", Ok(&sample)),
            ("e:", Err(IS_A_DIRECTORY)),
            ("", Ok(&[])),
        ];
        let cut = "b c: refused 9 at 56: the block's header is cut: one to five bytes are left of its six\n";
        let (out, said, status) = of(Word::List, &files);
        let texts = format!("a:\n{SOUND}b c:\nrefused 9 at 56\na:\n{SOUND}:\nrefused 8 at 0\n");
        let last = "6 recordings: 2 sound, 2 refused, 2 not read\n";
        assert_eq!(out, format!("{texts}{last}"));
        let missing = ": refused 8 at 0: the end block is missing\n";
        let unread = "d: No such file or directory\ne:: Is a directory\n";
        assert_eq!(said, format!("{cut}{unread}{missing}"));
        assert_eq!(status, 3);

        let (out, said, status) = of(Word::List, &files[..2]);
        let last = "2 recordings: 1 sound, 1 refused\n";
        assert_eq!(out, format!("a:\n{SOUND}b c:\nrefused 9 at 56\n{last}"));
        assert_eq!((said, status), (cut.to_string(), 1));

        let (out, said, status) = of(Word::List, &[files[0], files[3]]);
        let last = "2 recordings: 2 sound, 0 refused\n";
        assert_eq!(out, format!("a:\n{SOUND}a:\n{SOUND}{last}"));
        assert_eq!((&said[..], status), ("", 0));

        let (out, _, status) = of(Word::Excite, &[files[2], files[4]]);
        assert_eq!(out, "2 recordings: 0 sound, 0 refused, 2 not read\n");
        assert_eq!(status, 3);
    }

    #[test]
    fn each_cause_has_its_words() {
        let sound = cases::sound(7, 1, &[&[[0; 18]]]);
        let changed = |at: usize, to: u8| {
            let mut bytes = sound.clone();
            bytes[at] = to;
            bytes
        };
        let after = [&sound[..], &[0]].concat();
        for (bytes, line) in [
            (&[0; 65_537][..], "1: the recording has more than 65,536 bytes"),
            (
                &sound[..43],
                "9 at 38: the block's header is cut: one to five bytes are left of its six",
            ),
            (
                &sound[..47],
                "10 at 38: the block's length runs past the end of the recording",
            ),
            (
                &changed(14, 17),
                "11 at 14 17: the block has a size that its kind cannot have",
            ),
            (&changed(18, 4), "8 at 14: the block is of an unknown kind"),
            (
                &sound[14..],
                "8 at 0: the block is out of turn: no head first, a second head, an end before any voice",
            ),
            (&sound[..38], "8 at 38: the end block is missing"),
            (
                &changed(44, 2),
                "8 at 38: the end block tells a wrong number of frames",
            ),
            (&after, "8 at 48: there are bytes after the end block"),
        ] {
            let (_, said, status) = of(Word::List, &[("n", Ok(bytes))]);
            assert_eq!((said, status), (format!("n: refused {line}\n"), 1));
        }
    }

    #[test]
    fn a_refused_frame_does_not_matter() {
        let mut record = crate::frame::Record::ZERO;
        record.fields[26] = 1;
        let sound = cases::sound(1, 2, &[&[crate::frame::lay(&record)]]);
        for word in [Word::List, Word::Hear, Word::Excite] {
            let (out, said, status) = of(word, &[("a", Ok(&sound)), ("b", Ok(&sound))]);
            assert!(out.contains("refused 6"));
            assert!(out.ends_with("\n2 recordings: 2 sound, 0 refused\n"));
            assert_eq!((&said[..], status), ("", 0));
        }
    }

    #[test]
    fn errors_are_told_in_the_systems_words() {
        for (code, expected) in [
            (NO_SUCH_FILE, "No such file or directory"),
            (5, "Input/output error"),
            (13, "Permission denied"),
            (20, "Not a directory"),
            (IS_A_DIRECTORY, "Is a directory"),
            (36, "File name too long"),
            (40, "Too many levels of symbolic links"),
        ] {
            assert_eq!(words(&io::Error::from_raw_os_error(code)), expected);
        }
        assert_eq!(words(&io::Error::other("no room")), "no room");
    }

    #[test]
    fn the_status_goes_by_the_worst() {
        for (sound, refused, not_read, status) in [
            (0, 0, 0, 0),
            (5, 0, 0, 0),
            (5, 1, 0, 1),
            (0, 2, 0, 1),
            (5, 0, 1, 3),
            (0, 3, 2, 3),
        ] {
            let outcomes = Outcomes {
                sound,
                refused,
                not_read,
            };
            assert_eq!(outcomes.status(), status);
        }
    }
}
