//! bench [ROUNDS]: nanoseconds a frame, the archive's reader and writer beside the plain C ones, in turns on the same buffers; the
//! best of the rounds counts. Results and bytes are compared as well. Buffers are reused and not cleared.

use boundary::{call, record_bytes, Function, Which};
use outside::cases::Generator;
use outside::frame::{lay, Record};
use std::hint::black_box;
use std::process::ExitCode;
use std::time::Instant;

const FRAMES: usize = 1_000;
const ROUNDS: usize = 200;

/// Goes once over all inputs; the time in nanoseconds for each, and the sum of the results.
fn once(function: Function, given: &[Vec<u8>], lent: &mut [u8]) -> (f64, i64) {
    let mut sum = 0;
    let start = Instant::now();
    for bytes in given {
        sum += i64::from(call(black_box(function), black_box(bytes), black_box(lent)));
    }
    (start.elapsed().as_nanos() as f64 / given.len() as f64, sum)
}

/// Whether both answer the same everywhere.
fn same(which: Which, given: &[Vec<u8>], lent: usize) -> bool {
    given.iter().all(|bytes| {
        let mut ours = vec![0xA5; lent];
        let mut plain = ours.clone();
        call(which.archive(), bytes, &mut ours) == call(which.plain(), bytes, &mut plain)
            && ours == plain
    })
}

fn measure(what: &str, which: Which, given: &[Vec<u8>], rounds: usize) -> bool {
    let (_, lent) = which.lengths();
    if !same(which, given, lent) {
        println!("{what}: the archive and plain C differ");
        return false;
    }
    let mut buffer = vec![0; lent];
    let (mut ours, mut plain) = (f64::INFINITY, f64::INFINITY);
    let mut sums = (0, 0);
    for round in 0..rounds {
        // in turns, and in either order
        for second in [false, true] {
            if (round % 2 == 0) == second {
                let (time, sum) = once(which.plain(), given, &mut buffer);
                plain = plain.min(time);
                sums.1 = sum;
            } else {
                let (time, sum) = once(which.archive(), given, &mut buffer);
                ours = ours.min(time);
                sums.0 = sum;
            }
        }
    }
    println!(
        "{what:<28} archive {ours:7.1} ns   plain C {plain:7.1} ns   ratio {:.2}",
        ours / plain
    );
    sums.0 == sums.1
}

fn main() -> ExitCode {
    let rounds = match std::env::args().nth(1).map(|word| word.parse()) {
        None => ROUNDS,
        Some(Ok(rounds)) if rounds > 0 => rounds,
        Some(_) => {
            eprintln!("usage: bench [ROUNDS]");
            return ExitCode::from(2);
        }
    };
    let mut numbers = Generator::new(1016);
    let records: Vec<Record> = (0..FRAMES).map(|_| numbers.record()).collect();
    let clean: Vec<Vec<u8>> = records.iter().map(|record| lay(record).to_vec()).collect();
    let damaged: Vec<Vec<u8>> = (0..FRAMES).map(|_| numbers.bytes18().to_vec()).collect();
    let sound: Vec<Vec<u8>> = records
        .iter()
        .map(|record| record_bytes(&record.fields).to_vec())
        .collect();
    let refused: Vec<Vec<u8>> = (0..FRAMES)
        .map(|_| record_bytes(&numbers.falling_record().fields).to_vec())
        .collect();

    let all = [
        measure("reader, written frames", Which::Reader, &clean, rounds),
        measure("reader, random frames", Which::Reader, &damaged, rounds),
        measure("writer, sound records", Which::Writer, &sound, rounds),
        measure("writer, falling records", Which::Writer, &refused, rounds),
    ];
    if all == [true; 4] {
        ExitCode::SUCCESS
    } else {
        ExitCode::FAILURE
    }
}
