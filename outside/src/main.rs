//! The command line over the library: tables, numbers, listings, hearings, excitations, salvaging, the
//! tally book and cases.

use outside::{
    cases, exchange, excite, hear, histories, leaves, lent, listing, many, recording, salvage,
    sheet, subframes, tables, uploads,
};
use std::ffi::OsString;
use std::fs;
use std::io::{self, BufWriter, Read, Write};
use std::path::{Path, PathBuf};
use std::process::ExitCode;

const USAGE: &str =
    "usage: outside tables | sample | list | hear | excite | many WORD FILE.. | salvage | lent | lent-for-c | lent-case [sound] | sheet | sheet-cases | sheet-for-c | sheet-cases-for-c | histories DIR N SEED | edges | recording SEED N | recordings DIR N SEED | cuts DIR | uploads DIR N SEED | leaves | leaf-cases [KIND MORE SEED] | windows DIR | exchange | exchange-cases [all | others] | subframes | subframes-for-c | subframe-cases [all]";

/// Recordings longer than this get no `.hear` file.
const LONGEST_HEARD: usize = 20_000;

/// Recordings longer than this get no `.excite` file.
const LONGEST_EXCITED: usize = 4_000;

fn main() -> ExitCode {
    let arguments: Vec<OsString> = std::env::args_os().skip(1).collect();
    // The names of files may be any bytes.
    if let [command, word, files @ ..] = &arguments[..] {
        if command == "many" {
            return match many::Word::named(word) {
                Some(word) if !files.is_empty() => print_many(word, files),
                _ => usage(),
            };
        }
    }
    let words: Option<Vec<&str>> = arguments.iter().map(|word| word.to_str()).collect();
    let Some(words) = words else {
        return usage();
    };
    let done = match words[..] {
        ["tables"] => print(&tables::text()),
        ["leaves"] => input().and_then(|cases| print(leaves::answers(&cases).as_bytes())),
        ["leaf-cases"] => print(&leaves::cases()),
        ["leaf-cases", kind, more, seed] => match (kind.as_bytes(), more.parse(), seed.parse()) {
            (&[kind], Ok(more), Ok(seed)) => print(&leaves::many(kind, more, seed)),
            _ => return usage(),
        },
        ["exchange"] => all_input().and_then(|cases| print(&exchange::answers(&cases))),
        ["exchange-cases"] => print(&exchange::stored()),
        ["exchange-cases", "all"] => print(&exchange::cases()),
        ["exchange-cases", "others"] => print(&exchange::others()),
        ["subframes"] => all_input().and_then(|cases| print(&subframes::answers(&cases))),
        ["subframes-for-c"] => {
            all_input().and_then(|cases| print(&subframes::answers_for_c(&cases)))
        }
        ["subframe-cases"] => print(&subframes::stored()),
        ["subframe-cases", "all"] => print(&subframes::cases()),
        ["windows", folder] => windows(Path::new(folder)),
        ["sample"] => print(&cases::sample()),
        ["list"] => input().and_then(|recording| print(&listing::list(&recording))),
        ["hear"] => input().and_then(|recording| print(&hear::hear(&recording))),
        ["excite"] => input().and_then(|recording| print(&excite::excite(&recording))),
        ["salvage"] => input().and_then(|recording| print_salvaged(&recording)),
        ["lent"] => first(lent::LONGEST_CASE).and_then(|case| print(&lent::answer(&case))),
        ["lent-for-c"] => {
            first(lent::LONGEST_CASE).and_then(|case| print(&lent::answer_for_c(&case)))
        }
        ["lent-case"] => print(&lent::case()),
        ["lent-case", "sound"] => print(&lent::sound_case()),
        ["sheet"] => first(sheet::LONGEST).and_then(|calls| print(&sheet::answers(&calls))),
        ["sheet-cases"] => print(&sheet::cases()),
        ["sheet-for-c"] => {
            first(sheet::LONGEST).and_then(|calls| print(&sheet::answers_for_c(&calls)))
        }
        ["sheet-cases-for-c"] => print(&sheet::cases_for_c()),
        ["histories", folder, count, seed] => match (count.parse(), seed.parse()) {
            (Ok(count), Ok(seed)) => histories(Path::new(folder), count, seed),
            _ => return usage(),
        },
        ["edges"] => print(edges().as_bytes()),
        ["recording", seed, n] => match (seed.parse(), n.parse()) {
            (Ok(seed), Ok(n)) => print(&cases::recording(seed, n)),
            _ => return usage(),
        },
        ["recordings", folder, count, seed] => match (count.parse(), seed.parse()) {
            (Ok(count), Ok(seed)) => recordings(Path::new(folder), count, seed),
            _ => return usage(),
        },
        ["cuts", folder] => salvages(Path::new(folder), uploads::cuts()),
        ["uploads", folder, count, seed] => match (count.parse(), seed.parse()) {
            (Ok(count), Ok(seed)) => {
                let all = (0..count).map(|n| uploads::upload(seed, n));
                salvages(Path::new(folder), all)
            }
            _ => return usage(),
        },
        _ => return usage(),
    };
    match done {
        Ok(()) => ExitCode::SUCCESS,
        Err(error) => failed(&error),
    }
}

fn failed(error: &io::Error) -> ExitCode {
    eprintln!("outside: {error}");
    ExitCode::FAILURE
}

fn usage() -> ExitCode {
    eprintln!("{USAGE}");
    ExitCode::from(2)
}

fn print(bytes: &[u8]) -> io::Result<()> {
    let mut out = io::stdout().lock();
    out.write_all(bytes)?;
    out.flush()
}

/// Prints the salvaged recording, and the changes on standard error.
fn print_salvaged(recording: &[u8]) -> io::Result<()> {
    let salvaged = salvage::salvage(recording);
    print(salvage::written(recording, &salvaged))?;
    io::stderr().write_all(salvage::changes(&salvaged).as_bytes())
}

/// Prints what the command for people prints of several files, and says what it says.
fn print_many(word: many::Word, files: &[OsString]) -> ExitCode {
    let mut out = BufWriter::with_capacity(1 << 16, io::stdout().lock());
    let mut said = BufWriter::with_capacity(1 << 16, io::stderr().lock());
    let done = many::many(word, files, many::read_file, &mut out, &mut said)
        .and_then(|outcomes| out.flush().map(|()| outcomes))
        .and_then(|outcomes| said.flush().map(|()| outcomes));
    // What failed is told on the same stream.
    drop(said);
    match done {
        Ok(outcomes) => ExitCode::from(outcomes.status()),
        Err(error) => failed(&error),
    }
}

/// The number and the name of each edge.
fn edges() -> String {
    let edges = cases::edges().into_iter().enumerate();
    edges
        .map(|(n, edge)| format!("{n} {}\n", edge.name))
        .collect()
}

/// Standard input, as far as one byte past the longest recording.
fn input() -> io::Result<Vec<u8>> {
    first(recording::LONGEST + 1)
}

/// The first bytes of standard input, at most so many.
fn first(most: usize) -> io::Result<Vec<u8>> {
    let mut bytes = Vec::with_capacity(most);
    io::stdin()
        .lock()
        .take(most as u64)
        .read_to_end(&mut bytes)?;
    Ok(bytes)
}

/// All of standard input.
fn all_input() -> io::Result<Vec<u8>> {
    let mut bytes = Vec::new();
    io::stdin().lock().read_to_end(&mut bytes)?;
    Ok(bytes)
}

/// Writes the cases of every window.
fn windows(folder: &Path) -> io::Result<()> {
    fs::create_dir_all(folder)?;
    for (n, cases) in leaves::windows().iter().enumerate() {
        fs::write(folder.join(format!("{n}.cases")), cases)?;
    }
    Ok(())
}

/// The file of a recording or a history by its number.
fn file(folder: &Path, n: usize, ending: &str) -> PathBuf {
    folder.join(format!("{n:05}.{ending}"))
}

/// Writes a recording, what is salvaged of it and the changes.
fn write_salvaged(folder: &Path, n: usize, recording: &[u8]) -> io::Result<()> {
    let salvaged = salvage::salvage(recording);
    fs::write(file(folder, n, "rec"), recording)?;
    let written = salvage::written(recording, &salvaged);
    fs::write(file(folder, n, "salvaged"), written)?;
    fs::write(file(folder, n, "changes"), salvage::changes(&salvaged))
}

/// Writes recordings with what is salvaged of each.
fn salvages(folder: &Path, all: impl IntoIterator<Item = Vec<u8>>) -> io::Result<()> {
    fs::create_dir_all(folder)?;
    for (n, bytes) in all.into_iter().enumerate() {
        write_salvaged(folder, n, &bytes)?;
    }
    Ok(())
}

/// Writes histories with what is said of each: the named ones first.
fn histories(folder: &Path, count: usize, seed: u64) -> io::Result<()> {
    fs::create_dir_all(folder)?;
    let mut named = histories::named().into_iter();
    for n in 0..count {
        let calls = match named.next() {
            Some(history) => history.calls,
            None => histories::history(seed, n as u64),
        };
        fs::write(file(folder, n, "calls"), &calls)?;
        fs::write(file(folder, n, "said"), sheet::answers(&calls))?;
    }
    Ok(())
}

/// Writes recordings with their listings, what is heard in them, their excitation and what is salvaged
/// of them: the edges first.
fn recordings(folder: &Path, count: usize, seed: u64) -> io::Result<()> {
    fs::create_dir_all(folder)?;
    let mut edges = cases::edges().into_iter();
    for n in 0..count {
        let bytes = match edges.next() {
            Some(edge) => edge.bytes,
            None => cases::recording(seed, n as u64),
        };
        write_salvaged(folder, n, &bytes)?;
        fs::write(file(folder, n, "list"), listing::list(&bytes))?;
        if bytes.len() <= LONGEST_HEARD {
            fs::write(file(folder, n, "hear"), hear::hear(&bytes))?;
        }
        if bytes.len() <= LONGEST_EXCITED {
            fs::write(file(folder, n, "excite"), excite::excite(&bytes))?;
        }
    }
    Ok(())
}
