//! Files read and written whole, `-` standing for standard input and output; and standard input read as it comes.

use crate::failure::Failure;
use crate::progress::{Progress, PIECE};
use std::fs::{self, File};
use std::io::{self, ErrorKind, Read, Write};
use std::path::{Path, PathBuf};

/// The most bytes of one read of a stream.
const READ: usize = 64 << 10;

/// Whether a name stands for standard input, or for standard output where it is written.
pub fn is_stream(path: &Path) -> bool {
    path.as_os_str() == "-"
}

/// All bytes of a file.
pub fn read(path: &Path) -> Result<Vec<u8>, Failure> {
    if is_stream(path) {
        return told("standard input", read_pieces(io::stdin().lock(), 0));
    }
    let open = || {
        let file = File::open(path)?;
        let length = file.metadata()?.len() as usize;
        read_pieces(file, length)
    };
    open().map_err(|error| Failure::file(path, error))
}

/// Reads to the end; `expected` is the length if it is known, else 0.
fn read_pieces(mut file: impl Read, expected: usize) -> io::Result<Vec<u8>> {
    let mut progress = Progress::new("read", expected);
    let mut bytes = Vec::with_capacity(expected);
    loop {
        let count = file.by_ref().take(PIECE as u64).read_to_end(&mut bytes)?;
        progress.advance(count);
        if count < PIECE {
            return Ok(bytes);
        }
    }
}

/// Hands on what comes on standard input, a read at a time, to its end.
pub fn read_stream(mut take: impl FnMut(&[u8]) -> Result<(), Failure>) -> Result<(), Failure> {
    let mut stream = io::stdin().lock();
    let mut bytes = vec![0; READ];
    loop {
        match stream.read(&mut bytes) {
            Ok(0) => return Ok(()),
            Ok(count) => take(&bytes[..count])?,
            Err(error) if error.kind() == ErrorKind::Interrupted => {}
            Err(error) => return told("standard input", Err(error)),
        }
    }
}

/// Writes a file of these parts, one after the other. It appears under its name only once it is complete.
pub fn write(path: &Path, parts: &[&[u8]]) -> Result<(), Failure> {
    if is_stream(path) {
        return write_pieces(io::stdout().lock(), parts).map_err(output_failed);
    }
    let target = fs::canonicalize(path).unwrap_or_else(|_| path.to_path_buf());
    let written = match fs::metadata(&target) {
        Ok(meta) if !meta.is_file() => File::options().write(true).open(&target).and_then(|f| write_pieces(f, parts)),
        _ => write_beside(&target, parts),
    };
    written.map_err(|error| Failure::file(path, error))
}

/// Writes a file of another name in the same folder, and then gives it its name.
fn write_beside(target: &Path, parts: &[&[u8]]) -> io::Result<()> {
    let part = part_of(target)?;
    let file = File::create_new(&part)?;
    let result = write_pieces(file, parts).and_then(|()| fs::rename(&part, target));
    if result.is_err() {
        // The first error is the one to tell.
        let _ = fs::remove_file(&part);
    }
    result
}

fn part_of(target: &Path) -> io::Result<PathBuf> {
    let name = target.file_name().ok_or_else(|| io::Error::other("this names no file"))?;
    Ok(target.with_file_name(format!(".{}.{}.part", name.to_string_lossy(), std::process::id())))
}

fn write_pieces(mut file: impl Write, parts: &[&[u8]]) -> io::Result<()> {
    let mut progress = Progress::new("write", parts.iter().map(|part| part.len()).sum());
    for piece in parts.iter().flat_map(|part| part.chunks(PIECE)) {
        file.write_all(piece)?;
        progress.advance(piece.len());
    }
    file.flush()
}

/// Text on standard output.
pub fn print(text: &str) -> Result<(), Failure> {
    write_pieces(io::stdout().lock(), &[text.as_bytes()]).map_err(output_failed)
}

/// Text beside the file `out`: on standard output, or on standard error if the file itself is there.
pub fn print_beside(out: &Path, text: &str) -> Result<(), Failure> {
    if is_stream(out) {
        return told("standard error", write_pieces(io::stderr().lock(), &[text.as_bytes()]));
    }
    print(text)
}

/// Standard output cannot be written.
pub fn output_failed(error: io::Error) -> Failure {
    Failure::file(Path::new("standard output"), error)
}

/// What became of a stream.
fn told<T>(stream: &str, result: io::Result<T>) -> Result<T, Failure> {
    result.map_err(|error| Failure::file(Path::new(stream), error))
}
