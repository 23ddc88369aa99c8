//! For the benchmark (feature `archive`): links the archive with the frame reader and writer, and builds the plain C ones beside it.
//! OATLANTERN_ARCHIVE names the archive or the folder that it is in; CC names the C compiler.

use std::env;
use std::path::{Path, PathBuf};
use std::process::Command;

const ARCHIVE: &str = "liboatlantern.a";

fn main() {
    let here = PathBuf::from(env::var_os("CARGO_MANIFEST_DIR").expect("cargo sets it"));
    let out = PathBuf::from(env::var_os("OUT_DIR").expect("cargo sets it"));

    println!("cargo:rerun-if-env-changed=OATLANTERN_ARCHIVE");
    if env::var_os("CARGO_FEATURE_ARCHIVE").is_none() {
        return;
    }
    if env::var("CARGO_CFG_TARGET_ARCH").as_deref() != Ok("x86_64") {
        eprintln!("the archive is for x86-64, and this machine is not: no times can be taken here");
        std::process::exit(1);
    }
    let given = env::var_os("OATLANTERN_ARCHIVE").map_or_else(
        || here.join("../../target/host/liboatlantern.a"),
        PathBuf::from,
    );
    let archive = if given.is_dir() {
        given.join(ARCHIVE)
    } else {
        given
    };
    if !archive.is_file() {
        eprintln!(
            "{} is not there: run `make -C host archive` at the repository's root, or set OATLANTERN_ARCHIVE",
            archive.display()
        );
        std::process::exit(1);
    }
    println!("cargo:rerun-if-changed={}", archive.display());
    // Under a name of its own, so that the archive may be called anything.
    std::fs::copy(&archive, out.join("liboatlantern_under_test.a"))
        .expect("the archive can be copied");
    println!("cargo:rustc-link-search=native={}", out.display());
    println!("cargo:rustc-link-lib=static=oatlantern_under_test");

    plain(&here, &out);
}

fn plain(here: &Path, out: &Path) {
    println!("cargo:rerun-if-env-changed=CC");
    println!("cargo:rerun-if-changed=plain.c");
    println!("cargo:rerun-if-changed=plain.h");
    let compiler = env::var_os("CC").unwrap_or_else(|| "gcc".into());
    let object = out.join("plain.o");
    run(Command::new(compiler)
        .args(["-std=c99", "-Wall", "-Wextra", "-pedantic", "-O3", "-c"])
        .arg(here.join("plain.c"))
        .arg("-o")
        .arg(&object));
    run(Command::new("ar")
        .arg("crs")
        .arg(out.join("libplain.a"))
        .arg(&object));
    println!("cargo:rustc-link-lib=static=plain");
}

fn run(command: &mut Command) {
    match command.status() {
        Ok(status) if status.success() => {}
        Ok(status) => panic!("{command:?}: {status}"),
        Err(error) => panic!("{command:?}: {error}"),
    }
}
