//! compare N SEED ANSWERS..: the archive against the independent program, on at least N frames and N
//! records. ANSWERS, one or more words, is the program of answers.c on the archive. Every case compares
//! the result and every byte of both buffers, with guard bytes round them; after a refusal the lent
//! buffer must be what it was. Ends in `compared N cases, 0 differ`.

use boundary::{hex, record_bytes, Which, ROOM};
use outside::cases::Generator;
use outside::frame::{flip, lay, Record};
use outside::tables::{GUARDED, LSP, WIDTHS};
use std::io::{self, BufReader, BufWriter, Read, Write};
use std::process::{ChildStdin, ChildStdout, Command, ExitCode, Stdio};
use std::sync::mpsc::{sync_channel, Receiver, SyncSender};
use std::thread;

/// How many differences are printed.
const PRINTED: u64 = 20;

/// A case that was asked, and what has to come back.
struct Case {
    which: Which,
    null: bool,
    given: Vec<u8>,
    held: Vec<u8>,
    result: i32,
    left: Vec<u8>,
}

/// Asks the cases; another thread hears the answers.
struct Comparison {
    numbers: Generator,
    frames: u64,
    records: u64,
    asks: BufWriter<ChildStdin>,
    asked: SyncSender<Case>,
}

/// Hears the answers: how many cases, and how many differ.
fn hear(answers: ChildStdout, asked: Receiver<Case>) -> io::Result<(u64, u64)> {
    let mut answers = BufReader::with_capacity(1 << 16, answers);
    let (mut cases, mut differ) = (0, 0);
    for case in asked {
        let mut told = [0; 5];
        answers.read_exact(&mut told)?;
        let mut left = vec![0; case.held.len()];
        answers.read_exact(&mut left)?;
        let result = i32::from_le_bytes([told[0], told[1], told[2], told[3]]);
        cases += 1;
        let fault = if result != case.result {
            "the result"
        } else if left != case.left {
            "the lent bytes"
        } else if result < 0 && left != case.held {
            "a refusal has written"
        } else if told[4] != 1 {
            "the given bytes or a guard byte have changed"
        } else {
            continue;
        };
        differ += 1;
        if differ <= PRINTED {
            println!(
                "{:?}: {fault}\n  given {} ({} bytes{})\n  lent {} bytes, held {}\n  expected {} {}\n  answered {result} {}",
                case.which,
                hex(&case.given),
                case.given.len(),
                if case.null { ", null where empty" } else { "" },
                case.held.len(),
                hex(&case.held),
                case.result,
                hex(&case.left),
                hex(&left),
            );
        }
    }
    Ok((cases, differ))
}

impl Comparison {
    fn frame(&mut self, frame: &[u8; 18]) -> io::Result<()> {
        self.frames += 1;
        self.case(Which::Reader, frame, 56)
    }

    fn record(&mut self, fields: &[u16; 28]) -> io::Result<()> {
        self.records += 1;
        self.case(Which::Writer, &record_bytes(fields), 18)
    }

    /// One case, by pointers as they come and, where a length is 0, also by null ones.
    fn case(&mut self, which: Which, given: &[u8], lent_len: usize) -> io::Result<()> {
        self.try_case(which, given, lent_len, false)?;
        if given.is_empty() || lent_len == 0 {
            self.try_case(which, given, lent_len, true)?;
        }
        Ok(())
    }

    fn try_case(
        &mut self,
        which: Which,
        given: &[u8],
        lent_len: usize,
        null: bool,
    ) -> io::Result<()> {
        let random = self.numbers.next();
        let held: Vec<u8> = (0..lent_len)
            .map(|at| (random >> (at % 8 * 8)) as u8 ^ at as u8)
            .collect();
        assert!(given.len() <= ROOM && lent_len <= ROOM);
        let mut left = held.clone();
        let result = which.independent(given, &mut left);

        self.asks.write_all(&[
            matches!(which, Which::Writer).into(),
            null.into(),
            (random & 15) as u8,
            (random >> 4 & 15) as u8,
        ])?;
        self.asks.write_all(&(given.len() as u16).to_le_bytes())?;
        self.asks.write_all(&(lent_len as u16).to_le_bytes())?;
        self.asks.write_all(given)?;
        self.asks.write_all(&held)?;
        let case = Case {
            which,
            null,
            given: given.to_vec(),
            held,
            result,
            left,
        };
        self.asked
            .send(case)
            .map_err(|_| io::Error::other("the answers have ended"))
    }

    /// Frames made by a rule: zero, each place, each two places, every set of guarded places, and all frames at distance 1 from
    /// written ones.
    fn frames_by_rule(&mut self, written: u64) -> io::Result<()> {
        let zero = [0; 18];
        self.frame(&zero)?;
        self.frame(&[255; 18])?;
        for one in 1..=144 {
            let mut frame = zero;
            flip(&mut frame, one);
            self.frame(&frame)?;
            for two in one + 1..=144 {
                let mut frame = frame;
                flip(&mut frame, two);
                self.frame(&frame)?;
            }
        }
        let mut base = lay(&self.numbers.record());
        for set in 0..1u32 << 15 {
            let mut frame = base;
            for (n, &place) in GUARDED.iter().enumerate() {
                if set >> n & 1 == 1 {
                    flip(&mut frame, place);
                }
            }
            self.frame(&frame)?;
        }
        for _ in 0..written {
            base = lay(&self.numbers.record());
            self.frame(&base)?;
            for place in 1..=144 {
                let mut frame = base;
                flip(&mut frame, place);
                self.frame(&frame)?;
            }
        }
        Ok(())
    }

    /// Records made by a rule: each field at every index up to one past its width and at the ends of sixteen bits, over a record of
    /// zeros and one in order; SP and SY from 0 to 2; each two neighbouring LSPs at all their indices.
    fn records_by_rule(&mut self) -> io::Result<()> {
        let zero = Record::ZERO.fields;
        let sound = self.numbers.record().fields;
        for base in [zero, sound] {
            self.record(&base)?;
            for (f, &width) in WIDTHS.iter().enumerate() {
                let past = 1u32 << width;
                for index in (0..=past + 1)
                    .chain((0..16).map(|bit| 1 << bit))
                    .chain([255, 256, 32_767, 65_534, 65_535])
                {
                    let mut fields = base;
                    fields[f] = index as u16;
                    self.record(&fields)?;
                }
            }
            for sp in 0..=2 {
                for sy in 0..=2 {
                    let mut fields = base;
                    fields[26] = sp;
                    fields[27] = sy;
                    self.record(&fields)?;
                }
            }
            for j in 0..9 {
                for lower in 0..=LSP[j].len() {
                    for upper in 0..=LSP[j + 1].len() {
                        let mut fields = base;
                        fields[j] = lower as u16;
                        fields[j + 1] = upper as u16;
                        self.record(&fields)?;
                    }
                }
            }
            // each two fields too large at once, and each with a fall or SP: the lowest number is given
            for f in 0..28 {
                for g in f + 1..28 {
                    let mut fields = base;
                    fields[f] = 1 << WIDTHS[f];
                    fields[g] = 65_535;
                    self.record(&fields)?;
                }
                let mut fields = base;
                fields[f] = 1 << WIDTHS[f];
                fields[0] = fields[0].max(7);
                fields[1] = 0;
                fields[26] = 1;
                self.record(&fields)?;
            }
        }
        Ok(())
    }

    /// Buffers of wrong lengths, alone and together, null where the length is 0.
    fn lengths(&mut self) -> io::Result<()> {
        let lengths = [
            0, 1, 2, 9, 16, 17, 18, 19, 20, 35, 36, 37, 54, 55, 56, 57, 58, 72, 111, 112, 113, 128,
        ];
        for which in [Which::Reader, Which::Writer] {
            for given in lengths {
                for lent in lengths {
                    for round in 0..3 {
                        let bytes = match round {
                            0 => vec![0; given],
                            1 => vec![255; given],
                            _ => self.numbers.bytes(given),
                        };
                        self.case(which, &bytes, lent)?;
                    }
                }
            }
        }
        Ok(())
    }

    fn run(&mut self, n: u64) -> io::Result<()> {
        self.lengths()?;
        self.frames_by_rule(n / 5 / 145)?;
        self.records_by_rule()?;
        while self.frames < n {
            let frame = match self.numbers.below(4) {
                0 => {
                    // a written frame with a few flips
                    let mut frame = lay(&self.numbers.record());
                    for _ in 0..self.numbers.below(5) {
                        let place = 1 + self.numbers.below(144);
                        flip(&mut frame, place);
                    }
                    frame
                }
                _ => self.numbers.bytes18(),
            };
            self.frame(&frame)?;
        }
        while self.records < n {
            let fields = match self.numbers.below(8) {
                0 => std::array::from_fn(|_| self.numbers.next() as u16),
                1..=3 => self.numbers.record().fields,
                _ => self.numbers.any_record().fields,
            };
            self.record(&fields)?;
        }
        Ok(())
    }
}

/// Asks the program for all cases: how many frames and records, how many cases, how many differ.
fn compare(n: u64, seed: u64, answers: &[String]) -> io::Result<(u64, u64, u64, u64)> {
    let mut child = Command::new(&answers[0])
        .args(&answers[1..])
        .stdin(Stdio::piped())
        .stdout(Stdio::piped())
        .spawn()?;
    let asks = BufWriter::with_capacity(1 << 16, child.stdin.take().expect("it is piped"));
    let answered = child.stdout.take().expect("it is piped");
    let (asked, heard) = sync_channel(1 << 14);
    let ears = thread::spawn(move || hear(answered, heard));
    let mut comparison = Comparison {
        numbers: Generator::new(seed),
        frames: 0,
        records: 0,
        asks,
        asked,
    };
    comparison.run(n)?;
    comparison.asks.flush()?;
    let (frames, records) = (comparison.frames, comparison.records);
    // the questions end here, and so do the answers
    drop(comparison);
    let (cases, differ) = ears.join().expect("it does not panic")?;
    if !child.wait()?.success() {
        return Err(io::Error::other("the answering program failed"));
    }
    Ok((frames, records, cases, differ))
}

fn main() -> ExitCode {
    let words: Vec<String> = std::env::args().skip(1).collect();
    let numbers: Vec<u64> = words.iter().take(2).flat_map(|word| word.parse()).collect();
    let (&[n, seed], Some(answers @ [_, ..])) = (numbers.as_slice(), words.get(2..)) else {
        eprintln!("usage: compare N SEED ANSWERS..");
        return ExitCode::from(2);
    };
    match compare(n, seed, answers) {
        Err(error) => {
            eprintln!("compare: {error}");
            ExitCode::FAILURE
        }
        Ok((frames, records, cases, differ)) => {
            println!("seed {seed}: {frames} frames, {records} records");
            println!("compared {cases} cases, {differ} differ");
            if cases > 0 && differ == 0 {
                ExitCode::SUCCESS
            } else {
                ExitCode::FAILURE
            }
        }
    }
}
