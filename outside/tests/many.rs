//! The command over many recordings, run as a program: what it prints and says of files, and its status.

use outside::cases;
use outside::{excite, hear, listing};
use std::ffi::OsStr;
use std::fs;
use std::os::unix::ffi::OsStrExt;
use std::path::{Path, PathBuf};
use std::process::{Command, Output};
use std::time::Instant;

/// A folder of its own, gone when it is dropped.
struct Folder(PathBuf);

impl Folder {
    fn new(name: &str) -> Self {
        let name = format!("outside-many-{name}-{}", std::process::id());
        let folder = std::env::temp_dir().join(name);
        fs::create_dir(&folder).expect("a fresh folder");
        Folder(folder)
    }

    fn file(&self, name: impl AsRef<Path>, bytes: &[u8]) -> PathBuf {
        let path = self.0.join(name);
        fs::write(&path, bytes).expect("a file is written");
        path
    }
}

impl Drop for Folder {
    fn drop(&mut self) {
        // It stands in a folder for what may be lost.
        let _ = fs::remove_dir_all(&self.0);
    }
}

fn run(word: &str, files: &[PathBuf]) -> Output {
    let mut command = Command::new(env!("CARGO_BIN_EXE_outside"));
    let ended = command.arg("many").arg(word).args(files).output();
    ended.expect("the program runs")
}

/// The text of a recording by each word.
fn text(word: &str, bytes: &[u8]) -> Vec<u8> {
    match word {
        "list" => listing::list(bytes),
        "hear" => hear::hear(bytes),
        _ => excite::excite(bytes),
    }
}

#[test]
fn edges_and_generated_recordings_are_printed_one_after_the_other() {
    let folder = Folder::new("edges");
    let edges = cases::edges().into_iter().map(|edge| edge.bytes);
    let generated = (0..200).map(|n| cases::recording(12, n));
    let all: Vec<Vec<u8>> = edges.chain(generated).collect();
    let files: Vec<PathBuf> = all
        .iter()
        .enumerate()
        .map(|(n, bytes)| folder.file(format!("{n}.rec"), bytes))
        .collect();
    for word in ["list", "hear", "excite"] {
        let mut printed = Vec::new();
        let mut said = Vec::new();
        let mut refused = 0;
        for (file, bytes) in files.iter().zip(&all) {
            let name = file.to_str().expect("text");
            let text = text(word, bytes);
            printed.extend_from_slice(format!("{name}:\n").as_bytes());
            printed.extend_from_slice(&text);
            if let Some(line) = text.strip_prefix(b"refused ") {
                refused += 1;
                // The place of a recording that is too long is not said.
                let line = String::from_utf8_lossy(line);
                let line = line.trim_end().replace("1 at 65536", "1");
                said.push(format!("{name}: refused {line}: "));
            }
        }
        let sound = all.len() - refused;
        let last = format!(
            "{} recordings: {sound} sound, {refused} refused\n",
            all.len()
        );
        printed.extend_from_slice(last.as_bytes());
        let ended = run(word, &files);
        assert_eq!(ended.status.code(), Some(1));
        assert!(ended.stdout == printed, "{word}");
        let lines = String::from_utf8(ended.stderr).expect("text");
        assert!(lines.ends_with('\n'));
        assert_eq!(lines.lines().count(), refused);
        for (line, begin) in lines.lines().zip(said) {
            assert!(line.starts_with(&begin), "{line}, not {begin}");
        }
    }
}

#[test]
fn files_that_cannot_be_read_are_told_apart() {
    let folder = Folder::new("unread");
    let sample = cases::sample();
    let sound = folder.file("sound", &sample);
    let cut = folder.file("cut", &sample[..59]);
    let missing = folder.0.join("missing");
    let below = sound.join("below");
    // A name of bytes that are no text.
    let strange = folder.file(OsStr::from_bytes(b"\xFF \xFE"), &sample[..56]);
    let files = [&cut, &missing, &sound, &folder.0, &strange, &below].map(PathBuf::clone);
    let ended = run("list", &files);
    assert_eq!(ended.status.code(), Some(3));
    let name = |path: &Path| path.as_os_str().as_bytes().to_vec();
    let printed = [
        &name(&cut)[..],
        b":\nrefused 9 at 56\n",
        &name(&sound),
        b":\n",
        &listing::list(&sample),
        &name(&strange),
        b":\nrefused 8 at 56\n6 recordings: 1 sound, 2 refused, 3 not read\n",
    ];
    assert_eq!(ended.stdout, printed.concat());
    let said = [
        &name(&cut)[..],
        b": refused 9 at 56: the block's header is cut: one to five bytes are left of its six\n",
        &name(&missing),
        b": No such file or directory\n",
        &name(&folder.0),
        b": Is a directory\n",
        &name(&strange),
        b": refused 8 at 56: the end block is missing\n",
        &name(&below),
        b": Not a directory\n",
    ];
    assert_eq!(ended.stderr, said.concat());
    // Each alone.
    for (file, status) in [(&sound, 0), (&cut, 1), (&strange, 1), (&missing, 3)] {
        let ended = run("list", std::slice::from_ref(file));
        assert_eq!(ended.status.code(), Some(status));
        let text = fs::read(file).map_or(Vec::new(), |bytes| listing::list(&bytes));
        assert_eq!(ended.stdout, text);
        assert_eq!(ended.stderr.is_empty(), status == 0);
    }
}

#[test]
fn a_file_is_read_as_far_as_one_byte_past_the_longest() {
    let folder = Folder::new("long");
    let mut bytes = cases::sample();
    for (length, line) in [
        (65_536, "refused 8 at 66\n"),
        (65_537, "refused 1 at 65536\n"),
        (200_000, "refused 1 at 65536\n"),
    ] {
        bytes.resize(length, 0);
        let file = folder.file("long", &bytes);
        let ended = run("hear", &[file]);
        assert_eq!(String::from_utf8_lossy(&ended.stdout), line);
    }
    // One that has no end.
    let ended = run("list", &[PathBuf::from("/dev/zero")]);
    assert_eq!(ended.stdout, b"refused 1 at 65536\n");
    assert_eq!(
        ended.stderr,
        b"/dev/zero: refused 1: the recording has more than 65,536 bytes\n"
    );
}

#[test]
fn other_arguments_are_a_usage() {
    let folder = Folder::new("usage");
    let sound = folder.file("sound", &cases::sample());
    for (word, files) in [("list", &[][..]), ("salvage", &[sound]), ("", &[])] {
        let ended = run(word, files);
        assert_eq!(ended.status.code(), Some(2));
        assert!(ended.stdout.is_empty() && ended.stderr.starts_with(b"usage: "));
    }
}

#[test]
fn ten_thousand_files_are_quick() {
    let folder = Folder::new("quick");
    let frames = cases::spoken(5, 20);
    let sound = cases::sound(7, 1, &[&frames]);
    let files: Vec<PathBuf> = (0..10_000)
        .map(|n| folder.file(format!("{n}"), &sound))
        .collect();
    let begun = Instant::now();
    let ended = run("list", &files);
    let taken = begun.elapsed();
    println!("{taken:?}");
    assert!(ended
        .stdout
        .ends_with(b"\n10000 recordings: 10000 sound, 0 refused\n"));
    assert_eq!((ended.status.code(), ended.stderr.len()), (Some(0), 0));
    assert!(taken.as_secs() < 20, "{taken:?}");
}
