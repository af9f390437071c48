//! Has the archive of the proved library written by `rt lib` in crates/capi, keeps it in target/staticlib, and links it.

use std::path::{Path, PathBuf};
use std::process::{exit, Command};
use std::time::SystemTime;
use std::{env, fs, io};

fn main() {
    if env::var("CARGO_CFG_TARGET_ARCH").as_deref() != Ok("x86_64") {
        stop("the library is for x86-64: `./hamrisk` at the repository's root builds for it on any machine, and runs it under an emulator");
    }
    let host = PathBuf::from(env::var_os("CARGO_MANIFEST_DIR").expect("cargo names the folder of the crate"));
    let root = host.parent().expect("the crate stands in the repository");
    let sources = sources(root).unwrap_or_else(|e| stop(&format!("the folder `crates` cannot be read: {e}")));
    let folder = root.join("target/staticlib");
    let archive = folder.join("libcapi.a");
    for path in sources.iter().chain([&archive]) {
        println!("cargo:rerun-if-changed={}", path.display());
    }
    if !is_newer(&archive, &sources) {
        write_archive(root, &archive);
    }
    println!("cargo:rustc-link-search=native={}", folder.display());
    println!("cargo:rustc-link-lib=static=capi");
    println!("cargo:rustc-env=HAMRISK_ARCHIVE={}", archive.display());
    println!("cargo:rustc-env=HAMRISK_INCLUDE={}", root.join("include").display());
}

/// What the archive is made of; what `rt` keeps in crates/*/out is none of it.
fn sources(root: &Path) -> io::Result<Vec<PathBuf>> {
    let mut found = vec![root.join("crates.txt")];
    for entry in fs::read_dir(root.join("crates"))? {
        let folder = entry?.path();
        found.extend(["src", "specs", "proofs"].map(|part| folder.join(part)).into_iter().filter(|part| part.is_dir()));
    }
    Ok(found)
}

/// Whether the archive is there and no source has changed since it was written.
fn is_newer(archive: &Path, sources: &[PathBuf]) -> bool {
    let written = fs::metadata(archive).and_then(|m| m.modified());
    written.is_ok_and(|written| sources.iter().all(|s| newest(s).is_ok_and(|changed| changed < written)))
}

/// When a file, or a folder or anything in it, last changed.
fn newest(path: &Path) -> io::Result<SystemTime> {
    let meta = fs::metadata(path)?;
    let mut time = meta.modified()?;
    if meta.is_dir() {
        for entry in fs::read_dir(path)? {
            time = time.max(newest(&entry?.path())?);
        }
    }
    Ok(time)
}

/// Runs `rt lib` in crates/capi, which proves the library before it writes the archive, and keeps a copy of that, whole or not at all.
/// It is for each x86-64 processor: an archive cannot look what it runs on.
fn write_archive(root: &Path, archive: &Path) {
    let capi = root.join("crates/capi");
    let output = match Command::new("rt").args(["lib", "--cpu", "x86-64"]).current_dir(&capi).output() {
        Ok(output) => output,
        Err(e) if e.kind() == io::ErrorKind::NotFound => {
            stop("`rt` is not on the path: the Rattle toolchain is needed to prove and compile the library")
        }
        Err(e) => stop(&format!("`rt` could not be run: {e}")),
    };
    if !output.status.success() {
        eprintln!("{}{}", String::from_utf8_lossy(&output.stdout), String::from_utf8_lossy(&output.stderr));
        stop(&format!("`rt lib` in crates/capi failed ({}); what it said stands above", output.status));
    }
    let new = archive.with_extension("new");
    let copied = fs::create_dir_all(archive.parent().expect("the archive stands in a folder"))
        .and_then(|()| fs::copy(capi.join("out/libcapi.a"), &new))
        .and_then(|_| fs::rename(&new, archive));
    if let Err(e) = copied {
        stop(&format!("crates/capi/out/libcapi.a could not be copied to {}: {e}", archive.display()));
    }
}

fn stop(why: &str) -> ! {
    eprintln!("hamrisk: {why}");
    exit(1)
}
