//! The command over files and streams: what each subcommand writes, what it says when it is refused, and that it leaves
//! nothing behind.

mod runner;
mod tiff;

use hamrisk::{read_directory, ByteOrder, Coding, Layout, Strip};
use std::ffi::OsStr;
use std::fs;
use std::io::{ErrorKind, Read, Write};
use std::os::unix::ffi::OsStrExt;
use std::path::{Path, PathBuf};
use std::process::{Child, Command, Output, Stdio};
use tiff::Page;

/// A folder of its own for each test, removed at its end.
struct Folder(PathBuf);

impl Folder {
    fn new(name: &str) -> Folder {
        let path = Path::new(env!("CARGO_TARGET_TMPDIR")).join(format!("{name}-{}", std::process::id()));
        fs::create_dir_all(&path).unwrap();
        Folder(path)
    }

    fn put(&self, name: &str, bytes: &[u8]) {
        fs::write(self.0.join(name), bytes).unwrap();
    }

    fn get(&self, name: &str) -> Vec<u8> {
        fs::read(self.0.join(name)).unwrap()
    }

    fn names(&self) -> Vec<String> {
        let entries = fs::read_dir(&self.0).unwrap();
        let mut names: Vec<String> = entries.map(|e| e.unwrap().file_name().into_string().unwrap()).collect();
        names.sort();
        names
    }

    /// The command in this folder on the words of a line.
    fn command(&self, line: &str) -> Command {
        let mut command = runner::program(env!("CARGO_BIN_EXE_hamrisk"));
        command.args(line.split_whitespace()).current_dir(&self.0);
        command
    }

    /// Runs the command on the words of a line; answers its exit status, standard output and error.
    fn run(&self, line: &str) -> (i32, String, String) {
        let (status, output, error) = told(self.command(line).output().unwrap());
        (status, String::from_utf8(output).unwrap(), error)
    }

    /// Runs the command with these bytes on standard input.
    fn piped(&self, input: &[u8], line: &str) -> (i32, Vec<u8>, String) {
        let mut child = start(self.command(line).stdin(Stdio::piped()));
        feed(&mut child, input);
        told(child.wait_with_output().unwrap())
    }

    /// Runs the command on `in`, and takes what it wrote to `out`.
    #[track_caller]
    fn written(&self, input: &[u8], line: &str) -> Vec<u8> {
        self.put("in", input);
        let (status, _, error) = self.run(line);
        assert_eq!((status, error.as_str()), (0, ""), "{line}");
        let bytes = self.get("out");
        fs::remove_file(self.0.join("out")).unwrap();
        bytes
    }

    /// Runs a command line that is wrong in this way.
    #[track_caller]
    fn wrong(&self, call: &str, rest: &str, words: &str) {
        self.refused(&[0; 8], &format!("{call} {rest}"), 64, &format!("{call}: {words}; see hamrisk {call} --help"));
    }

    /// Runs the command on `in`, which it must refuse with these words; an `out` that was there stays.
    #[track_caller]
    fn refused(&self, input: &[u8], line: &str, status: i32, words: &str) {
        self.put("in", input);
        let expected = (status, String::new(), format!("hamrisk: {words}\n"));
        assert_eq!(self.run(line), expected, "{line}");
        assert!(!self.names().contains(&"out".to_string()), "{line}: an output file is left");
        self.put("out", b"before");
        assert_eq!(self.run(line), expected, "{line}");
        assert_eq!(self.get("out"), b"before", "{line}");
        fs::remove_file(self.0.join("out")).unwrap();
        let rest = self.names();
        assert!(rest.iter().all(|name| !name.ends_with(".part")), "{line}: {rest:?}");
    }
}

impl Drop for Folder {
    fn drop(&mut self) {
        fs::remove_dir_all(&self.0).unwrap();
    }
}

/// An end: exit status, standard output and error.
fn told(done: Output) -> (i32, Vec<u8>, String) {
    (done.status.code().unwrap(), done.stdout, String::from_utf8(done.stderr).unwrap())
}

/// Starts a command whose standard output and error are kept.
fn start(command: &mut Command) -> Child {
    command.stdout(Stdio::piped()).stderr(Stdio::piped()).spawn().unwrap()
}

/// Writes all of standard input, and closes it. A command that is wrong does not read it.
fn feed(child: &mut Child, input: &[u8]) {
    let written = child.stdin.take().unwrap().write_all(input);
    assert!(written.is_ok() || written.is_err_and(|error| error.kind() == ErrorKind::BrokenPipe));
}

#[test]
fn convert_and_forward() {
    let folder = Folder::new("convert");
    let raw = [0x01, 0x00, 0x02, 0x00, 0xFF, 0xFF];
    let samples =
        folder.written(&raw, "convert in out --row-bytes 6 --channels 1 --width 2 --predict --from le --to be");
    assert_eq!(samples, [0x00, 0x01, 0x00, 0x03, 0x00, 0x02]);
    let back =
        folder.written(&samples, "forward --predict --from=be --to=le --width=2 --channels=1 --row-bytes=6 in out");
    assert_eq!(back, raw);
    let plain =
        folder.written(&raw, "convert in out --row-bytes 6 --channels 3 --width 2 --no-predict --from be --to be");
    assert_eq!(plain, raw);
    let three = "--row-bytes 9 --channels 1 --width 3 --predict";
    let raw = [0xFF, 0xFF, 0xFF, 0x02, 0x00, 0x00, 0xFE, 0xFF, 0xFF];
    let samples = folder.written(&raw, &format!("convert in out {three} --from le --to be"));
    assert_eq!(samples, [0xFF, 0xFF, 0xFF, 0x00, 0x00, 0x01, 0xFF, 0xFF, 0xFF]);
    assert_eq!(folder.written(&samples, &format!("forward in out {three} --from be --to le")), raw);
    let in_place = "convert in in --row-bytes 2 --channels 1 --width 1 --predict";
    folder.put("in", &[5, 251, 7, 1]);
    assert_eq!(folder.run(in_place).0, 0);
    assert_eq!(folder.get("in"), [5, 0, 7, 8]);
    assert_eq!(folder.names(), ["in"]);
}

#[test]
fn marks() {
    let folder = Folder::new("marks");
    let mut map = [0; 16];
    map[3] = 1;
    folder.put("in", &map);
    let line = "marks in out --row-bytes 8 --channels 1 --width 2 --predict";
    assert_eq!(folder.run(line), (0, "3 of 8 samples marked\n".into(), String::new()));
    assert_eq!(folder.get("out"), [0, 1, 1, 1, 0, 0, 0, 0]);
    let picture = folder.written(&map, &format!("{line} --pgm"));
    assert_eq!(picture, b"P5\n4 2\n255\n\x00\xFF\xFF\xFF\x00\x00\x00\x00");
    let line = "marks in out --row-bytes 9 --channels 1 --width 3 --no-predict";
    assert_eq!(folder.written(&[0, 0, 0, 0, 0, 1, 0, 0, 0], line), [0, 1, 0]);
}

/// Above 64 MiB the work is cut into pieces: what comes out is that of one call.
#[test]
fn large_files() {
    let folder = Folder::new("large");
    let strip = Strip { row_bytes: 3_000, channels: 3, width: 2 };
    let mut raw: Vec<u8> = (0..70_000 / 3 * 3_000u32).map(|n| (n.wrapping_mul(n) >> 9) as u8).collect();
    let geometry = "--row-bytes 3000 --channels 3 --width 2 --predict";
    let options = &format!("{geometry} --from le --to le");
    let samples = folder.written(&raw, &format!("convert in out {options}"));
    let predict = Coding { from: ByteOrder::Little, to: ByteOrder::Little, predict: true };
    assert!(samples == hamrisk::converted(&raw, strip, predict).unwrap());
    assert!(folder.written(&samples, &format!("forward in out {options}")) == raw);
    let damage: Vec<u8> = raw.iter().map(|&byte| u8::from(byte == 77)).collect();
    let (marks, count) = hamrisk::marked(&damage, strip, true).unwrap();
    folder.put("in", &damage);
    let said = format!("{count} of {} samples marked\n", marks.len());
    assert_eq!(folder.run(&format!("marks in out {geometry}")), (0, said, String::new()));
    assert!(folder.get("out") == marks);
    let mut swapped = vec![0; raw.len()];
    hamrisk::swap_components(&raw, 5, &mut swapped).unwrap();
    assert!(folder.written(&raw, "swap in out --width 5") == swapped);
    let reversed = folder.written(&raw, "reverse in out");
    hamrisk::reverse_bits(&mut raw);
    assert!(reversed == raw);
    raw.pop();
    let refused = format!("convert refused: 2 Invalid: length {} is no multiple of row bytes 3000", raw.len());
    folder.refused(&raw, &format!("convert in out {options}"), 2, &refused);
}

/// A strip that goes in byte by byte: each sample comes out before the next byte goes in, and all are those of `convert`.
#[test]
fn stream_byte_by_byte() {
    let folder = Folder::new("stream");
    let raw: Vec<u8> = (0..48u32).map(|n| (n * n / 3) as u8).collect();
    for (width, orders) in [(1, ""), (2, "--from le --to be"), (4, "--from be --to be"), (8, "--from be --to le")] {
        let options = format!("--row-bytes 24 --channels 3 --width {width} --predict {orders}");
        let converted = folder.written(&raw, &format!("convert in out {options}"));
        let mut child = start(folder.command(&format!("stream {options}")).stdin(Stdio::piped()));
        let (mut input, mut output) = (child.stdin.take().unwrap(), child.stdout.take().unwrap());
        for (sample, expected) in raw.chunks(width).zip(converted.chunks(width)) {
            for byte in sample {
                input.write_all(&[*byte]).and_then(|()| input.flush()).unwrap();
            }
            let mut came = vec![0; width];
            output.read_exact(&mut came).unwrap();
            assert_eq!(came, expected, "{options}");
        }
        drop(input);
        assert_eq!(output.read_to_end(&mut vec![]).unwrap(), 0);
        assert_eq!(told(child.wait_with_output().unwrap()), (0, vec![], String::new()));
    }
}

/// More than a pipe, a read or a piece holds.
#[test]
fn stream_of_a_large_strip() {
    let folder = Folder::new("stream-large");
    let raw: Vec<u8> = (0..3_000 * 700u32).map(|n| (n.wrapping_mul(n) >> 9) as u8).collect();
    folder.put("in", &raw);
    let options = "--row-bytes 3000 --channels 3 --width 4 --predict --from be --to le";
    let converted = folder.written(&raw, &format!("convert in out {options}"));
    let input = fs::File::open(folder.0.join("in")).unwrap();
    let (status, samples, error) = told(folder.command(&format!("stream {options}")).stdin(input).output().unwrap());
    assert_eq!((status, error.as_str()), (0, ""));
    assert!(samples == converted);
}

/// What is whole is written before a ragged end is told.
#[test]
fn stream_with_a_ragged_end() {
    let folder = Folder::new("stream-ragged");
    let raw = [1, 0, 2, 0, 255, 255, 5, 0, 1, 0, 1, 0];
    let samples = [0, 1, 0, 3, 0, 2, 0, 5, 0, 6, 0, 7];
    let line = "stream --row-bytes 6 --channels 1 --width 2 --predict --from le --to be";
    for length in 0..=raw.len() {
        let left = length % 6;
        let words = "hamrisk: stream refused: 2 Invalid: ";
        let said = format!("{words}{length} bytes came, no multiple of row bytes 6: {left} left over\n");
        let (status, said) = if left == 0 { (0, String::new()) } else { (2, said) };
        let whole = samples[..length / 2 * 2].to_vec();
        assert_eq!(folder.piped(&raw[..length], line), (status, whole, said), "{length}");
    }
    assert!(folder.names().is_empty());
}

#[test]
fn streams_that_are_refused() {
    let folder = Folder::new("stream-refused");
    for (options, status, words) in [
        ("--row-bytes 7 --channels 3 --width 5", 1, "Unsupported: width 5 is not 1, 2, 3, 4 or 8"),
        ("--row-bytes 65 --channels 65 --width 1", 1, "Unsupported: channels 65 is not 1 to 64"),
        ("--row-bytes 0 --channels 3 --width 2", 1, "Unsupported: row bytes 0 is not served"),
        ("--row-bytes 7 --channels 3 --width 2", 2, "Invalid: row bytes 7 is no multiple of channels 3 × width 2 (6)"),
    ] {
        let line = format!("stream {options} --no-predict --from le --to be");
        let said = format!("hamrisk: stream refused: {status} {words}\n");
        assert_eq!(folder.piped(&[1; 12], &line), (status, vec![], said), "{line}");
    }
    let strip = "--row-bytes 8 --channels 1 --width 2";
    for (options, words) in [
        ("--predict --to be", "--from is missing: width 2 wants a byte order, le or be"),
        ("--predict --from be", "--to is missing: width 2 wants a byte order, le or be"),
        ("--from be --to be", "one of --predict and --no-predict is wanted"),
        ("- --predict --from be --to be", "no file wanted, 1 file given"),
    ] {
        folder.wrong("stream", &format!("{strip} {options}"), words);
    }
}

/// The whole of the largest strip goes through, and one byte more is refused: both in little memory.
#[test]
fn stream_of_a_strip_above_the_limit() {
    let folder = Folder::new("stream-limit");
    let line = "stream --row-bytes 8 --channels 1 --width 8 --no-predict --from le --to le";
    let most = hamrisk::limits::MOST_STRIP_BYTES;
    let input = fs::File::create(folder.0.join("in")).unwrap();
    input.set_len(most as u64 + 8).unwrap();
    let input = fs::File::open(folder.0.join("in")).unwrap();
    let end = folder.command(line).stdin(input).stdout(Stdio::null()).stderr(Stdio::piped()).output().unwrap();
    let (status, _, error) = told(end);
    let said = format!("hamrisk: stream refused: 5 Limit: {} bytes came, above {most}\n", most + 8);
    assert_eq!((status, error), (5, said));
}

#[test]
fn swap_and_reverse() {
    let folder = Folder::new("swap");
    assert_eq!(folder.written(&[1, 2, 3, 4, 5, 6], "swap in out --width 3"), [3, 2, 1, 6, 5, 4]);
    assert_eq!(folder.written(&[1, 80], "reverse in out"), [128, 10]);
    assert_eq!(folder.written(&[], "reverse in out"), []);
}

#[test]
fn pack_and_unpack() {
    let folder = Folder::new("pack");
    // a run that passes the row's end is cut there
    let rows = [7, 7, 7, 8, 9, 9, 9, 9, 9, 9];
    let packed = folder.written(&rows, "pack in out --row-bytes 5");
    assert_eq!(packed, [254, 7, 1, 8, 9, 252, 9]);
    assert_eq!(folder.written(&packed, "unpack in out --row-bytes=5"), rows);
    let literals = folder.written(&rows, "pack --literal --row-bytes 5 in out");
    assert_eq!(literals, [4, 7, 7, 7, 8, 9, 4, 9, 9, 9, 9, 9]);
    assert_eq!(folder.written(&literals, "unpack in out --row-bytes 5"), rows);
    for line in ["pack in out --row-bytes 5", "pack in out --row-bytes 5 --literal", "unpack in out --row-bytes 5"] {
        assert_eq!(folder.written(&[], line), [], "{line}");
    }
    // a packet of nothing before the last row
    assert_eq!(folder.written(&[253, 1, 128, 253, 2], "unpack in out --row-bytes 4"), [1, 1, 1, 1, 2, 2, 2, 2]);
}

/// More than a piece of the work, in rows longer than a packet and shorter.
#[test]
fn pack_of_a_large_file() {
    let folder = Folder::new("pack-large");
    let runs = |n: u32| (n.wrapping_mul(2_654_435_761) >> 27) as usize;
    let rows: Vec<u8> = (0..).flat_map(|n| vec![n as u8; runs(n)]).take(9_000_000).collect();
    for row_bytes in [3_000, 100, 9_000_000] {
        let packed = folder.written(&rows, &format!("pack in out --row-bytes {row_bytes}"));
        assert!(packed.len() < rows.len() / 4, "{row_bytes}: {} bytes", packed.len());
        let expected: Vec<u8> = rows.chunks(row_bytes).flat_map(hamrisk::packed).collect();
        assert!(packed == expected, "{row_bytes}");
        assert!(folder.written(&packed, &format!("unpack in out --row-bytes {row_bytes}")) == rows, "{row_bytes}");
        let literals = folder.written(&rows, &format!("pack in out --literal --row-bytes {row_bytes}"));
        assert_eq!(literals.len(), rows.len() / row_bytes * hamrisk::packed_length(row_bytes));
        assert!(folder.written(&literals, &format!("unpack in out --row-bytes {row_bytes}")) == rows, "{row_bytes}");
    }
}

#[test]
fn refusals_name_the_row() {
    let folder = Folder::new("pack-refusals");
    for line in ["pack in out --row-bytes 5", "pack in out --row-bytes 5 --literal"] {
        let words = "pack refused: 2 Invalid: length 12 is no multiple of row bytes 5: 2 left over";
        folder.refused(&[7; 12], line, 2, words);
    }
    for (packed, status, words) in [
        (
            &[253, 1, 128, 1, 1, 2, 3, 1, 2, 3, 4][..],
            2,
            "2 Invalid: row 1, from byte 2: the packet at byte 6 has 4 bytes, and the row has room for 2",
        ),
        (
            &[253, 1, 252],
            2,
            "2 Invalid: row 1, from byte 2: the packet at byte 2 has 5 bytes, and the row has room for 4",
        ),
        (
            &[253, 1, 255, 1],
            3,
            "3 Truncated: row 1, from byte 2: its input ends at byte 4, with 2 of its 4 bytes filled",
        ),
        (
            &[253, 1, 253, 1, 3, 1, 2],
            3,
            "3 Truncated: row 2, from byte 4: the packet at byte 4 takes 5 bytes, and its input ends at byte 7",
        ),
        // a packet of nothing begins a row that does not come
        (&[253, 1, 128], 3, "3 Truncated: row 1, from byte 2: its input ends at byte 3, with 0 of its 4 bytes filled"),
    ] {
        folder.refused(packed, "unpack in out --row-bytes 4", status, &format!("unpack refused: {words}"));
    }
    let (status, output, error) = folder.piped(&[253, 1, 0], "unpack - - --row-bytes 4");
    assert_eq!((status, output), (3, vec![]), "{error}");
    folder.wrong("pack", "in out --row-bytes 0", "--row-bytes wants 1 to 1073741824, not 0");
    folder.wrong("unpack", "in out --row-bytes 0", "--row-bytes wants 1 to 1073741824, not 0");
    folder.wrong("unpack", "in out", "--row-bytes is missing");
}

#[test]
fn render_and_planes() {
    let folder = Folder::new("render");
    let apart = "--w 2 --h 1 --ch 3 --separate";
    let picture = folder.written(&[1, 2, 3, 4, 5, 6], &format!("render in out {apart}"));
    assert_eq!(picture, [1, 3, 5, 2, 4, 6]);
    assert_eq!(folder.written(&picture, &format!("planes in out {apart}")), [1, 2, 3, 4, 5, 6]);
    let colours = folder.written(&[1, 2, 3, 4, 5, 6], &format!("render in out {apart} --pnm"));
    assert_eq!(colours, b"P6\n2 1\n255\n\x01\x03\x05\x02\x04\x06");
    let depth = folder.written(&[0x34, 0x12], "render in out --w 1 --h 1 --bytes 2 --le --pnm");
    assert_eq!(depth, b"P5\n1 1\n65535\n\x12\x34");
    let no_alpha = folder.written(&[9, 255, 8, 255], "render in out --w 2 --h 1 --ch 2 --alpha 1 --pnm");
    assert_eq!(no_alpha, b"P5\n2 1\n255\n\x09\x08");
    let no_fourth = folder.written(&[1, 2, 3, 4], "render in out --w 1 --h 1 --ch 4 --alpha 2 --pnm");
    assert_eq!(no_fourth, b"P6\n1 1\n255\n\x01\x02\x03");
    let white = folder.written(&[0x80, 0x80], "render in out --w 9 --h 1 --slots 8 --white");
    assert_eq!(white, [0, 255, 255, 255, 255, 255, 255, 255, 0]);
}

#[test]
fn render_with_a_palette() {
    let folder = Folder::new("palette");
    folder.put("colours", &[9, 10, 0, 20, 0, 30, 0, 40, 0, 50, 0, 60, 0]);
    let line = "render in out --w 2 --h 1 --ch 3 --slots 8 --palette --file colours --map 1 --be";
    assert_eq!(folder.written(&[0x40], line), [10, 30, 50, 20, 40, 60]);
    assert_eq!(folder.written(&[0x40], &line.replace("--be", "--le")), [0; 6]);
    folder.refused(
        &[0x40],
        &line.replace("--map 1", "--map 2"),
        3,
        "render refused: 3 Truncated: the palette of 2 colours at map 2 ends at byte 14, and its file has 13 bytes",
    );
}

#[test]
fn refusals_name_the_number() {
    let folder = Folder::new("refusals");
    let raw = [0; 12];
    for (line, status, words) in [
        (
            "convert in out --row-bytes 7 --channels 3 --width 5 --predict --from le --to be",
            1,
            "width 5 is not 1, 2, 3, 4 or 8",
        ),
        (
            "forward in out --row-bytes 7 --channels 65 --width 2 --predict --from le --to be",
            1,
            "channels 65 is not 1 to 64",
        ),
        ("marks in out --row-bytes 0 --channels 3 --width 2 --no-predict", 1, "row bytes 0 is not served"),
        (
            "convert in out --row-bytes 7 --channels 3 --width 2 --predict --from le --to be",
            2,
            "row bytes 7 is no multiple of channels 3 × width 2 (6)",
        ),
        ("marks in out --row-bytes 8 --channels 2 --width 2 --predict", 2, "length 12 is no multiple of row bytes 8"),
        ("swap in out --width 9", 1, "width 9 is not 1 to 8"),
        ("swap in out --width 0", 1, "width 0 is not 1 to 8"),
        ("swap in out --width 5", 2, "length 12 is no multiple of width 5"),
        ("render in out --w 2 --h 2 --bytes 4 --le", 1, "bytes 4 is not 1, 2 or 8"),
        ("render in out --w 2 --h 2 --ch 3 --bytes 8 --be", 1, "bytes 8 is not rendered"),
        ("render in out --w 2 --h 0", 2, "h 0 leaves no picture"),
        ("render in out --w 2 --h 2 --alpha 2 --ch 3", 2, "alpha 2 needs ch 2 or 4, not 3"),
        ("render in out --w 13 --h 1", 3, "the planes have 12 bytes and need 13"),
        ("render in out --w 16385 --h 1", 5, "w 16385 is above 16384"),
        (
            "planes in out --w 16384 --h 16384 --ch 4 --bytes 2 --be",
            5,
            "w 16384 × h 16384 × ch 4 × bytes 2 is 2147483648, above 1073741824",
        ),
        ("planes in out --w 2 --h 2 --ch 2 --alpha 1", 1, "alpha 1 is not written"),
        ("planes in out --w 13 --h 1", 3, "the picture has 12 bytes and needs 13"),
        ("wrap in out --w 2 --h 0", 2, "h 0 leaves no picture"),
        ("wrap in out --w 2 --h 2 --ch 3 --palette --le", 1, "a palette is not written"),
        ("wrap in out --w 2 --h 2 --bytes 8 --le", 1, "bytes 8 is not written"),
        ("wrap in out --w 2 --h 2 --ch 2 --alpha 1", 1, "alpha 1 is not written"),
        ("wrap in out --w 2 --h 2 --be", 1, "be planes are not written to a file, which is le"),
        ("wrap in out --w 2 --h 2 --ch 4", 1, "ch 4 needs alpha 2, not 0, in a file"),
        ("wrap in out --w 2 --h 2 --ch 3 --white", 1, "ch 3 does not go with white in a file"),
        ("wrap in out --w 2 --h 2 --rows-per-strip 0", 2, "rows per strip 0 is not 1 to h 2"),
        ("wrap in out --w 2 --h 2 --rows-per-strip 3", 2, "rows per strip 3 is not 1 to h 2"),
        ("wrap in out --w 13 --h 1", 3, "the planes have 12 bytes and need 13"),
        ("wrap in out --w 1 --h 16385 --rows-per-strip 0", 5, "h 16385 is above 16384"),
    ] {
        let call = line.split(' ').next().unwrap();
        let kind = ["", "Unsupported", "Invalid", "Truncated", "OutputTooSmall", "Limit"][status as usize];
        folder.refused(&raw, line, status, &format!("{call} refused: {status} {kind}: {words}"));
    }
    let mut late = [255; 12];
    late[10] = 7;
    let words = "planes refused: 2 Invalid: byte 10 of the picture, row 2 and column 2, is 7, neither 0 nor 255";
    folder.refused(&late, "planes in out --w 4 --h 3 --slots 8", 2, words);
}

/// What is missing, and why it is wanted: no byte order is taken for granted.
#[test]
fn a_byte_order_has_to_be_said() {
    let folder = Folder::new("orders");
    let strip = |width| format!("in out --row-bytes 8 --channels 1 --width {width} --predict");
    for call in ["convert", "forward"] {
        for width in [2, 4, 8] {
            for (given, missing) in [("", "from"), ("--to le", "from"), ("--to be", "from"), ("--from be", "to")] {
                let words = format!("--{missing} is missing: width {width} wants a byte order, le or be");
                folder.wrong(call, &format!("{} {given}", strip(width)), &words);
            }
        }
        folder.wrong(call, &format!("{} --from x", strip(1)), "--from wants le or be, not 'x'");
    }
    for call in ["render", "planes", "wrap"] {
        let words = "--le or --be is missing: bytes 2 wants a byte order";
        folder.wrong(call, "in out --w 1 --h 1 --bytes 2", words);
        let words = "one of --le and --be is wanted, not both";
        folder.wrong(call, "in out --w 1 --h 1 --bytes 2 --le --be", words);
        let words = "--le or --be is missing: a palette, with 2 bytes to a colour, wants a byte order";
        folder.wrong(call, "in out --w 1 --h 1 --ch 3 --palette", words);
    }
}

/// Samples of one byte have no order: none is asked for, and one that is given changes nothing.
#[test]
fn one_byte_has_no_order() {
    let folder = Folder::new("no-order");
    let strip = "in out --row-bytes 2 --channels 1 --width 1 --predict";
    for orders in ["", "--from be", "--to be", "--from be --to le", "--from le --to le"] {
        assert_eq!(folder.written(&[5, 251, 7, 1], &format!("convert {strip} {orders}")), [5, 0, 7, 8]);
        assert_eq!(folder.written(&[5, 0, 7, 8], &format!("forward {strip} {orders}")), [5, 251, 7, 1]);
    }
    for order in ["", "--le", "--be"] {
        let layout = format!("in out --w 2 --h 1 --ch 3 --separate {order}");
        assert_eq!(folder.written(&[1, 2, 3, 4, 5, 6], &format!("render {layout}")), [1, 3, 5, 2, 4, 6]);
        assert_eq!(folder.written(&[1, 3, 5, 2, 4, 6], &format!("planes {layout}")), [1, 2, 3, 4, 5, 6]);
    }
}

/// Depth of two bytes through one command and the next, in each order.
#[test]
fn depth_keeps_its_value_from_command_to_command() {
    let folder = Folder::new("depth");
    for (order, samples) in [("le", [0x34, 0x12, 0x78, 0x56]), ("be", [0x12, 0x34, 0x56, 0x78])] {
        let strip = format!("in out --row-bytes 4 --channels 1 --width 2 --predict --from {order} --to {order}");
        let words = folder.written(&samples, &format!("forward {strip}"));
        let depths = folder.written(&words, &format!("convert {strip}"));
        assert_eq!(depths, samples);
        let layout = format!("in out --w 2 --h 1 --bytes 2 --{order}");
        let picture = folder.written(&depths, &format!("render {layout}"));
        assert_eq!(picture, [0x12, 0x34, 0x56, 0x78]);
        assert_eq!(folder.written(&picture, &format!("planes {layout}")), samples);
    }
}

#[test]
fn wrong_command_lines_end_with_64() {
    let folder = Folder::new("usage");
    folder.put("in", &[0; 12]);
    for line in [
        "",
        "straighten in out",
        "reverse in",
        "reverse in out more",
        "reverse in out --width 2",
        "reverse in out -v",
        "swap in out",
        "swap in out --width",
        "swap in out --width two",
        "swap in out --width -2",
        "swap in out --width 2 --width 2",
        "swap in out --width 99999999999999999999",
        "convert in out --row-bytes 6 --channels 1 --width 2 --from le --to le",
        "convert in out --row-bytes 6 --channels 1 --width 2 --from le --to le --predict --no-predict",
        "convert in out --row-bytes 6 --channels 1 --width 2 --from le --to le --predict=yes",
        "convert in out --row-bytes 6 --channels 1 --width 2 --to le --predict --from big",
        "convert in out --row-bytes 6 --channels 1 --width 1 --to le --predict --from big",
        "convert in out --row-bytes 6 --channels 1 --predict --from le --to le",
        "stream in out --row-bytes 6 --channels 1 --width 1 --predict",
        "stream --row-bytes 6 --channels 1 --width 1 --predict --pgm",
        "stream --row-bytes 6 --width 1 --predict",
        "pack in out",
        "pack in out --row-bytes 0",
        "pack in out --row-bytes 1073741825",
        "pack in out --row-bytes 4 --literal=1",
        "unpack in out",
        "unpack in out --row-bytes 0",
        "unpack in out --row-bytes 4 --literal",
        "render in out --w 2",
        "render in out --w 2 --h 1 --bytes 2 --le --be",
        "render in out --w 2 --h 1 --ch 3 --palette --le",
        "render in out --w 2 --h 1 --file in",
        "wrap in out --w 2",
        "wrap in --w 2 --h 1",
        "wrap in out --w 2 --h 1 --rows-per-strip all",
        "wrap in out --w 2 --h 1 --file in",
        "demo out",
        "info",
        "info in out",
        "info in --page",
        "info in --page one",
        "info in --strips=1",
        "picture in",
        "picture in out --to le",
        "samples in out --pnm",
        "samples in out --page 0 --page 0",
    ] {
        let (status, output, error) = folder.run(line);
        assert_eq!((status, output.as_str()), (64, ""), "{line}: {error}");
        assert!(error.starts_with("hamrisk: ") && error.contains("--help"), "{line}: {error}");
        assert_eq!(folder.names(), ["in"], "{line}");
    }
}

#[test]
fn files_that_cannot_be_read_or_written_end_with_74() {
    let folder = Folder::new("files");
    folder.put("in", &[1]);
    for (line, named) in [
        ("reverse none out", "none"),
        ("reverse in none/out", "none/out"),
        ("reverse in .", "."),
        ("info none", "none"),
        ("picture . out", "."),
    ] {
        let (status, _, error) = folder.run(line);
        assert_eq!(status, 74, "{line}: {error}");
        assert!(error.starts_with(&format!("hamrisk: {named}: ")), "{line}: {error}");
        assert_eq!(folder.names(), ["in"], "{line}");
    }
}

#[test]
fn a_dash_is_standard_input_or_output() {
    let folder = Folder::new("streams");
    folder.put("in", &[1, 80]);
    let reversed = |output: &[u8]| (0, output.to_vec(), String::new());
    assert_eq!(folder.piped(&[1, 80], "reverse - -"), reversed(&[128, 10]));
    assert_eq!(folder.piped(&[1, 80], "reverse -- - -"), reversed(&[128, 10]));
    assert_eq!(folder.piped(&[], "reverse - -"), reversed(&[]));
    assert_eq!(folder.piped(b"not read", "reverse in -"), reversed(&[128, 10]));
    assert_eq!(folder.piped(&[1, 80], "reverse - out"), reversed(&[]));
    assert_eq!(folder.get("out"), [128, 10]);
    assert_eq!(folder.piped(&[1, 80], "reverse - ./-"), reversed(&[]));
    assert_eq!(folder.piped(b"not read", "reverse ./- -"), reversed(&[1, 80]));
    assert_eq!(folder.names(), ["-", "in", "out"]);
}

/// Each command, from standard input to standard output.
#[test]
fn every_command_stands_in_a_pipe() {
    let folder = Folder::new("pipes");
    let strip = "- - --row-bytes 4 --channels 1 --width 2 --predict";
    let apart = "- - --w 2 --h 1 --ch 3 --separate";
    folder.put("colours", &[10, 0, 20, 0, 30, 0, 40, 0, 50, 0, 60, 0]);
    let palette = "--w 2 --h 1 --ch 3 --slots 8 --palette --be";
    for (line, input, output) in [
        (&*format!("convert {strip} --from le --to be"), &[1, 0, 2, 0][..], &[0, 1, 0, 3][..]),
        (&format!("stream {} --from le --to be", &strip[4..]), &[1, 0, 2, 0], &[0, 1, 0, 3]),
        (&format!("forward {strip} --from be --to le"), &[0, 1, 0, 3], &[1, 0, 2, 0]),
        ("swap - - --width 3", &[1, 2, 3], &[3, 2, 1]),
        ("reverse - -", &[1, 80], &[128, 10]),
        ("pack - - --row-bytes 3", &[7, 7, 7], &[254, 7]),
        ("unpack - - --row-bytes 3", &[254, 7], &[7, 7, 7]),
        (&format!("render {apart}"), &[1, 2, 3, 4, 5, 6], &[1, 3, 5, 2, 4, 6]),
        (&format!("planes {apart}"), &[1, 3, 5, 2, 4, 6], &[1, 2, 3, 4, 5, 6]),
        ("render - - --w 1 --h 1 --pnm", &[7], b"P5\n1 1\n255\n\x07"),
        (&format!("render - - {palette} --file colours"), &[0x40], &[10, 30, 50, 20, 40, 60]),
    ] {
        assert_eq!(folder.piped(input, line), (0, output.to_vec(), String::new()), "{line}");
    }
    let file = hamrisk::written_file(&Layout::grey(2, 1, ByteOrder::Little), 1, &[8, 9]).unwrap();
    assert_eq!(folder.piped(&[8, 9], "wrap - - --w 2 --h 1"), (0, file.clone(), String::new()));
    assert_eq!(folder.piped(&file, "picture - -"), (0, vec![8, 9], String::new()));
    folder.put("in", &[0x40]);
    let colours = folder.get("colours");
    let from_stream = folder.piped(&colours, &format!("render in - {palette} --file -"));
    assert_eq!(from_stream, (0, vec![10, 30, 50, 20, 40, 60], String::new()));
}

/// What is said goes to standard error where standard output has the bytes.
#[test]
fn marks_on_standard_output() {
    let folder = Folder::new("marks-stream");
    let line = "marks - - --row-bytes 4 --channels 1 --width 2 --predict";
    let said = String::from("2 of 2 samples marked\n");
    assert_eq!(folder.piped(&[1, 0, 0, 0], line), (0, vec![1, 1], said.clone()));
    assert_eq!(folder.piped(&[1, 0, 0, 0], &format!("{line} --pgm")), (0, b"P5\n2 1\n255\n\xFF\xFF".to_vec(), said));
}

/// Two commands in a row, and more bytes than a pipe or a piece holds.
#[test]
fn one_command_feeds_the_next() {
    let folder = Folder::new("chain");
    let samples: Vec<u8> = (0..9_000_000u32).map(|n| (n.wrapping_mul(n) >> 9) as u8).collect();
    folder.put("in", &samples);
    let strip = "--row-bytes 3000 --channels 3 --width 2 --predict";
    let mut first = start(&mut folder.command(&format!("forward in - {strip} --from be --to le")));
    let words = first.stdout.take().unwrap();
    let second = start(folder.command(&format!("convert - - {strip} --from le --to be")).stdin(words));
    let (status, output, error) = told(second.wait_with_output().unwrap());
    assert_eq!((status, error.as_str()), (0, ""));
    assert!(output == samples);
    assert!(first.wait().unwrap().success());
}

#[test]
fn a_refusal_leaves_standard_output_empty() {
    let folder = Folder::new("stream-refusals");
    let strip = "--row-bytes 4 --channels 1 --width 2 --predict";
    let layout = "--w 2 --h 1 --ch 3 --slots 8 --palette --be";
    for (line, status, words) in [
        ("swap - - --width 2".into(), 2, "swap refused: 2 Invalid: length 3 is no multiple of width 2"),
        ("render - - --w 4 --h 1".into(), 3, "render refused: 3 Truncated: the planes have 3 bytes and need 4"),
        ("wrap - - --w 4 --h 1".into(), 3, "wrap refused: 3 Truncated: the planes have 3 bytes and need 4"),
        (
            format!("convert - - {strip} --to le"),
            64,
            "convert: --from is missing: width 2 wants a byte order, le or be; see hamrisk convert --help",
        ),
        (
            format!("render - - {layout} --file -"),
            64,
            "render: IN and --file are both -, and standard input can be read only once; see hamrisk render --help",
        ),
    ] {
        let line: String = line;
        assert_eq!(folder.piped(&[1, 2, 3], &line), (status, vec![], format!("hamrisk: {words}\n")), "{line}");
    }
    assert!(folder.names().is_empty());
}

#[test]
fn streams_that_cannot_be_read_or_written_end_with_74() {
    let folder = Folder::new("stream-files");
    folder.put("in", &[7; 100_000]);
    let file =
        |name: &str| fs::File::options().read(true).write(name == "/dev/full").open(folder.0.join(name)).unwrap();
    for line in ["reverse - -", "stream --row-bytes 4 --channels 1 --width 1 --predict"] {
        let mut broken = start(folder.command(line).stdin(Stdio::piped()));
        drop(broken.stdout.take());
        feed(&mut broken, &[7; 100_000]);
        let (status, _, error) = told(broken.wait_with_output().unwrap());
        assert_eq!((status, error.as_str()), (74, "hamrisk: standard output: Broken pipe (os error 32)\n"));
        let full = folder.command(line).stdin(file("in")).stdout(file("/dev/full")).output().unwrap();
        let (status, _, error) = told(full);
        let said = "hamrisk: standard output: No space left on device (os error 28)\n";
        assert_eq!((status, error.as_str()), (74, said));
        let (status, _, error) = told(folder.command(line).stdin(file("")).output().unwrap());
        assert_eq!((status, error.as_str()), (74, "hamrisk: standard input: Is a directory (os error 21)\n"));
    }
}

#[test]
fn names_that_are_no_text_and_names_after_two_dashes() {
    let folder = Folder::new("names");
    let odd = OsStr::from_bytes(b"\xFF\xFE");
    fs::write(folder.0.join(odd), [1, 80]).unwrap();
    let words = ["reverse".as_ref(), odd, "--".as_ref(), "--out".as_ref()];
    assert!(folder.command("").args(words).status().unwrap().success());
    assert_eq!(folder.get("--out"), [128, 10]);
}

#[test]
fn help_of_each() {
    let folder = Folder::new("help");
    let (status, overview, _) = folder.run("--help");
    assert_eq!(status, 0);
    for name in [
        "info", "picture", "samples", "convert", "stream", "forward", "marks", "swap", "reverse", "pack", "unpack",
        "render", "planes", "wrap", "demo",
    ] {
        assert!(overview.contains(&format!("\n  {name} ")), "{name}");
        let (status, text, error) = folder.run(&format!("{name} --help"));
        assert_eq!((status, error.as_str()), (0, ""));
        assert!(text.starts_with(&format!("hamrisk {name}")), "{text}");
        assert!(text.contains("Exit status") && !text.contains("{}"), "{text}");
        assert_eq!(text.contains("standard input"), name != "demo", "{text}");
    }
    for (name, served) in [
        ("convert", "bytes of a sample: 1, 2, 3, 4 or 8; required"),
        ("stream", "which has at most 1073741824 bytes"),
        ("marks", "samples of a pixel, 1 to 64; required"),
        ("swap", "bytes of a group, 1 to 8; required"),
        ("render", "columns of the picture, 1 to 16384; required"),
        ("planes", "channels of a pixel of the picture, 1 to 4; 1 if not given"),
        ("wrap", "rows of a strip, 1 to h; as many as take 8192 bytes or fewer, but one at least, if not given"),
        ("info", "which page, 0 to 15; 0, the first, if not given"),
        ("pack", "bytes of a row, 1 to 1073741824; required"),
        ("unpack", "bytes of a row, 1 to 1073741824; required"),
    ] {
        let (_, text, _) = folder.run(&format!("{name} --help"));
        assert!(text.contains(served), "{text}");
    }
}

/// Depth of three columns and five rows, predicted, in strips of two rows.
fn depth(order: ByteOrder) -> Vec<u8> {
    let row = |first: u16| {
        [first, 1, 0xFFFF].map(|v| if order == ByteOrder::Little { v.to_le_bytes() } else { v.to_be_bytes() })
    };
    let rows: Vec<Vec<u8>> = (0..5).map(|y| row(0x1200 + y).concat()).collect();
    let strips = [rows[..2].concat(), rows[2..4].concat(), rows[4..].concat()];
    let page = Page::grey(3, 5, 16, &strips.each_ref().map(|strip| &strip[..]));
    tiff::file(order, &[page.with(278, &[2]).with(317, &[2])])
}

/// What `depth` holds, stored in this order.
fn depths(order: ByteOrder) -> Vec<u8> {
    let values = (0..5u16).flat_map(|y| [0x1200 + y, 0x1201 + y, 0x1200 + y]);
    values.flat_map(|v| if order == ByteOrder::Little { v.to_le_bytes() } else { v.to_be_bytes() }).collect()
}

/// Red, green and blue of two pixels.
fn colours() -> Page {
    Page::grey(2, 1, 8, &[&[1, 2, 3, 4, 5, 6]]).with(258, &[8, 8, 8]).with(262, &[2]).with(277, &[3])
}

#[test]
fn info_says_what_a_page_is() {
    let folder = Folder::new("info");
    folder.put("depth.tif", &depth(ByteOrder::Big));
    let facts = "\
byte order: be (MM)
pages: 1
page: 0
columns: 3
rows: 5
samples: 1
bits: 16
colours: grey, 0 is black
planes: together
alpha: 0 (none)
compression: 1 (none)
predictor: 2 (each sample less the one a pixel before it)
strips: 3
rows of a strip: 2, the last 1
row bytes: 6
bytes of the samples: 30
bytes of the picture: 30
";
    assert_eq!(folder.run("info depth.tif"), (0, facts.into(), String::new()));
    let strips = "\
strip 0: place 134, length 12
strip 1: place 146, length 12
strip 2: place 158, length 6
";
    assert_eq!(folder.run("info depth.tif --strips"), (0, format!("{facts}{strips}"), String::new()));
    let streamed = folder.piped(&depth(ByteOrder::Big), "info -");
    assert_eq!(streamed, (0, facts.as_bytes().to_vec(), String::new()));
}

/// The page of `depth` with its strips packed.
fn packed_depth(order: ByteOrder) -> Vec<u8> {
    let file = depth(order);
    let strips = hamrisk::placed(&file, 0).unwrap().into_iter().map(|place| &file[place]);
    let packed: Vec<Vec<u8>> = strips.map(|strip| strip.chunks(6).flat_map(hamrisk::packed).collect()).collect();
    let packed: Vec<&[u8]> = packed.iter().map(|strip| &strip[..]).collect();
    tiff::file(order, &[Page::grey(3, 5, 16, &packed).with(259, &[32_773]).with(278, &[2]).with(317, &[2])])
}

#[test]
fn packed_pages() {
    let folder = Folder::new("packed-page");
    folder.put("packed.tif", &packed_depth(ByteOrder::Big));
    folder.put("depth.tif", &depth(ByteOrder::Big));
    let info = |name: &str| folder.run(&format!("info {name}"));
    let expected =
        info("depth.tif").1.replace("compression: 1 (none)", "compression: 32773 (PackBits, each row on its own)");
    assert_eq!(info("packed.tif"), (0, expected, String::new()));
    let (_, strips, _) = folder.run("info packed.tif --strips");
    assert!(strips
        .ends_with("strip 0: place 146, length 14\nstrip 1: place 160, length 14\nstrip 2: place 174, length 7\n"));
    for order in [ByteOrder::Little, ByteOrder::Big] {
        let file = packed_depth(order);
        assert_eq!(folder.written(&file, "picture in out"), depths(ByteOrder::Big));
        assert_eq!(folder.written(&file, "samples in out --to le"), depths(ByteOrder::Little));
    }
    let mut spoiled = packed_depth(ByteOrder::Big);
    spoiled[160] += 1;
    let words = "strip 1: row 0, from byte 160: the packet at byte 160 has 7 bytes, and the row has room for 6";
    folder.refused(&spoiled, "picture in out", 2, &format!("picture refused: 2 Invalid: {words}"));
    folder.put("in", &spoiled);
    let (status, text, error) = folder.run("info in --strips");
    assert_eq!((status, error), (2, format!("hamrisk: info refused: 2 Invalid: {words}\n")));
    assert!(text.contains("\nstrips: 3, of which 2 are sound\n") && !text.contains("rows of a strip"), "{text}");
    assert!(text.contains(&format!("\n{words} (2 Invalid)\n")), "{text}");
}

/// Facts that another page has.
#[test]
fn info_tells_pages_apart() {
    let folder = Folder::new("info-pages");
    let palette = Page::grey(3, 1, 4, &[&[0x12, 0x30]]).with(262, &[3]).with(320, &[7; 48]);
    let planes = colours().with(258, &[8; 4]).with(277, &[4]).with(284, &[2]).with(338, &[1]);
    let apart = planes.with(273, &[8, 10, 12, 14]).with(279, &[2; 4]);
    let white = Page::grey(9, 1, 1, &[&[0x80, 0]]).with(258, &[]).with(262, &[0]);
    let file = tiff::file(ByteOrder::Little, &[colours(), palette, apart, white]);
    folder.put("pages.tif", &file);
    for (page, facts) in [
        (
            "0",
            &["pages: 4", "page: 0", "samples: 3", "bits: 8", "colours: red, green, blue", "predictor: 1 (none)"][..],
        ),
        (
            "1",
            &["byte order: le (II)", "samples: 1", "bits: 4", "colours: a palette of 16 at byte", "rows of a strip: 1"],
        ),
        ("2", &["planes: apart", "samples: 4", "strips: 4", "alpha: 1 (the colours are multiplied by it)"]),
        (
            "3",
            &["page: 3", "bits: 1", "colours: grey, 0 is white", "bytes of the samples: 2", "bytes of the picture: 9"],
        ),
    ] {
        let (status, text, error) = folder.run(&format!("info pages.tif --page {page}"));
        assert_eq!((status, error.as_str()), (0, ""));
        for fact in facts {
            assert!(text.lines().any(|line| line.starts_with(fact)), "page {page}: {fact} is not in\n{text}");
        }
    }
}

/// A chain that loops has no last page, and one that breaks is counted up to there.
#[test]
fn info_counts_pages() {
    let folder = Folder::new("info-count");
    let end = |file: &[u8]| file.len() - 10;
    let two = tiff::file(ByteOrder::Little, &[colours(), colours()]);
    for (pointer, said) in [
        (0, "2".to_string()),
        (8, "16 or more; only so many are read".into()),
        (
            two.len() as u32,
            format!(
                "2, then no more can be read (page 2: its directory is at byte {0}, and the file ends at byte {0})",
                two.len()
            ),
        ),
    ] {
        let mut file = two.clone();
        // After the last directory come the three values of tag 258, and the six bytes of the strip.
        let next = end(&file) - 6;
        tiff::put(&mut file, ByteOrder::Little, next, 4, pointer);
        folder.put("in", &file);
        let (status, text, error) = folder.run("info in");
        assert_eq!((status, error.as_str()), (0, ""));
        assert!(text.contains(&format!("\npages: {said}\n")), "{text}");
    }
}

#[test]
fn picture_of_a_page() {
    let folder = Folder::new("picture");
    let big = depths(ByteOrder::Big);
    for order in [ByteOrder::Little, ByteOrder::Big] {
        assert_eq!(folder.written(&depth(order), "picture in out"), big);
        let pgm = [b"P5\n3 5\n65535\n", &big[..]].concat();
        assert_eq!(folder.written(&depth(order), "picture in out --pnm"), pgm);
        assert_eq!(folder.piped(&depth(order), "picture - -"), (0, big.clone(), String::new()));
        assert_eq!(folder.piped(&depth(order), "picture --pnm - -"), (0, pgm, String::new()));
    }
    let second = tiff::file(ByteOrder::Big, &[Page::grey(1, 1, 8, &[&[7]]), colours()]);
    assert_eq!(folder.written(&second, "picture in out --page 1"), [1, 2, 3, 4, 5, 6]);
    assert_eq!(folder.written(&second, "picture in out --page=0"), [7]);
    let white = tiff::file(ByteOrder::Big, &[Page::grey(9, 1, 1, &[&[0x80, 0x80]]).with(262, &[0])]);
    assert_eq!(folder.written(&white, "picture in out"), [0, 255, 255, 255, 255, 255, 255, 255, 0]);
    let mut map = vec![0; 48];
    (map[1], map[16 + 1], map[32 + 1]) = (0x0A00, 0x1400, 0x1E00);
    let palette = Page::grey(3, 1, 4, &[&[0x10, 0x10]]).with(262, &[3]).with(320, &map);
    let palette = tiff::file(ByteOrder::Little, &[palette]);
    assert_eq!(folder.written(&palette, "picture in out"), [10, 20, 30, 0, 0, 0, 10, 20, 30]);
}

/// The name of OUT says what is written.
#[test]
fn picture_by_the_name_of_out() {
    let folder = Folder::new("forms");
    folder.put("grey", &tiff::file(ByteOrder::Big, &[Page::grey(2, 1, 8, &[&[8, 9]])]));
    folder.put("colours", &tiff::file(ByteOrder::Big, &[colours()]));
    let alpha = Page::grey(1, 1, 8, &[&[8, 9]]).with(258, &[8, 8]).with(277, &[2]).with(338, &[2]);
    folder.put("alpha", &tiff::file(ByteOrder::Big, &[alpha]));
    for (line, out, expected) in [
        ("picture grey", "a.pgm", &b"P5\n2 1\n255\n\x08\x09"[..]),
        ("picture grey", "a.PNM", b"P5\n2 1\n255\n\x08\x09"),
        ("picture grey", "pgm", b"\x08\x09"),
        ("picture grey", "a.pam", b"P7\nWIDTH 2\nHEIGHT 1\nDEPTH 1\nMAXVAL 255\nTUPLTYPE GRAYSCALE\nENDHDR\n\x08\x09"),
        ("picture colours", "a.ppm", b"P6\n2 1\n255\n\x01\x02\x03\x04\x05\x06"),
        ("picture colours", "a.pnm", b"P6\n2 1\n255\n\x01\x02\x03\x04\x05\x06"),
        ("picture colours --pnm", "a.pgm", b"P6\n2 1\n255\n\x01\x02\x03\x04\x05\x06"),
        ("picture alpha", "a.pgm", b"P5\n1 1\n255\n\x08"),
        (
            "picture alpha",
            "a.pam",
            b"P7\nWIDTH 1\nHEIGHT 1\nDEPTH 2\nMAXVAL 255\nTUPLTYPE GRAYSCALE_ALPHA\nENDHDR\n\x08\x09",
        ),
        ("picture alpha", "a.tif.raw", b"\x08\x09"),
        ("render grey --w 1 --h 1", "a.pgm", b"P5\n1 1\n255\nM"),
    ] {
        assert_eq!(folder.run(&format!("{line} {out}")), (0, String::new(), String::new()));
        assert_eq!(folder.get(out), expected, "{line} {out}");
        fs::remove_file(folder.0.join(out)).unwrap();
    }
    for (line, words) in [
        ("picture grey a.ppm", "a .ppm has colours, and this picture is grey: call OUT .pgm or .pnm"),
        ("picture colours a.pgm", "a .pgm is grey, and this picture has colours: call OUT .ppm or .pnm"),
        ("picture colours a.png", "such a file is not written: call OUT .tif, .pgm, .ppm, .pnm or .pam to look at it"),
    ] {
        let said = format!("hamrisk: picture: {words}; see hamrisk picture --help\n");
        assert_eq!(folder.run(line), (64, String::new(), said));
    }
    assert_eq!(folder.names(), ["alpha", "colours", "grey"]);
}

/// The page that a file of the folder has.
fn page_of(folder: &Folder, name: &str) -> hamrisk::Page {
    read_directory(&folder.get(name), 0).unwrap()
}

#[test]
fn wrap_planes() {
    let folder = Folder::new("wrap");
    let planes: Vec<u8> = (0..2 * 30 * 50).map(|n| (n % 251) as u8).collect();
    folder.put("planes", &planes);
    for (options, layout) in [
        ("--w 60 --h 50", Layout::grey(60, 50, ByteOrder::Little)),
        ("--w 60 --h 50 --le --white", Layout { white: true, ..Layout::grey(60, 50, ByteOrder::Little) }),
        ("--w 30 --h 50 --bytes 2 --le", Layout { bytes: 2, ..Layout::grey(30, 50, ByteOrder::Little) }),
        ("--w 475 --h 50 --slots 8", Layout::bilevel(475, 50, ByteOrder::Little)),
        ("--w 20 --h 50 --ch 3 --separate", Layout { separate: true, ..Layout::colour(20, 50, ByteOrder::Little) }),
        ("--w 15 --h 50 --ch 4 --alpha 2", Layout { ch: 4, alpha: 2, ..Layout::grey(15, 50, ByteOrder::Little) }),
    ] {
        for (rows, given) in [("", 50), ("--rows-per-strip 50", 50), ("--rows-per-strip=7", 7)] {
            let line = format!("wrap planes OUT.tif {options} {rows}");
            assert_eq!(folder.run(&line), (0, String::new(), String::new()), "{line}");
            assert_eq!(folder.get("OUT.tif"), hamrisk::written_file(&layout, given, &planes).unwrap(), "{line}");
            assert_eq!(folder.run("samples OUT.tif out --to le").0, 0);
            assert_eq!(folder.get("out"), planes, "{line}");
            assert_eq!(page_of(&folder, "OUT.tif").layout, layout);
        }
    }
    assert_eq!(folder.run("wrap planes out --w 300 --h 10").0, 0, "any name serves");
    assert_eq!(page_of(&folder, "out").strips, 1, "27 rows have at most 8192 bytes, and there are 10");
    assert_eq!(folder.run("wrap planes out --w 1 --h 2").0, 0, "bytes past the planes are not looked at");
    assert_eq!(hamrisk::picture(&folder.get("out"), 0).unwrap().bytes, [0, 1]);
}

/// Strips of 8192 bytes or a little fewer, where nothing else is said.
#[test]
fn wrap_in_advised_strips() {
    let folder = Folder::new("wrap-rows");
    folder.put("planes", &[7; 60_000]);
    for (options, strips, first) in [("--w 300 --h 200", 8, 8_100), ("--w 10000 --h 2 --ch 3", 2, 30_000)] {
        assert_eq!(folder.run(&format!("wrap planes out {options}")).0, 0);
        assert_eq!(page_of(&folder, "out").strips, strips, "{options}");
        assert_eq!(hamrisk::strip(&folder.get("out"), 0, 0).unwrap().len(), first, "{options}");
    }
}

/// What `picture` makes of a page as a TIFF: little-endian, planes together, 0 black, alpha 2; bilevel stays so.
#[test]
fn picture_as_tiff() {
    let folder = Folder::new("tiffs");
    let alpha = Page::grey(2, 1, 8, &[&[100, 200, 9, 0]]).with(258, &[8, 8]).with(277, &[2]);
    let mut map = vec![0; 48];
    (map[1], map[16 + 1], map[32 + 1]) = (0x0A00, 0x1400, 0x1E00);
    let grey = Layout::grey(2, 1, ByteOrder::Little);
    let bilevel = Page::grey(9, 1, 1, &[&[0x80, 0x80]]);
    for (page, layout) in [
        (Page::grey(2, 1, 8, &[&[8, 9]]), grey),
        (Page::grey(2, 1, 8, &[&[8, 9]]).with(262, &[0]), grey),
        (Page::grey(2, 1, 16, &[&[1, 2, 3, 4]]), Layout { bytes: 2, ..grey }),
        (colours(), Layout { ch: 3, ..grey }),
        (colours().with(258, &[16; 3]).with(279, &[12]).with(273, &[8]), Layout { ch: 3, bytes: 2, ..grey }),
        (colours().with(284, &[2]).with(273, &[8, 10, 12]).with(279, &[2; 3]), Layout { ch: 3, ..grey }),
        (alpha.clone().with(338, &[1]), Layout { ch: 2, alpha: 2, ..grey }),
        (alpha.with(338, &[2]).with(262, &[0]), Layout { ch: 2, alpha: 2, ..grey }),
        (bilevel.clone(), Layout::bilevel(9, 1, ByteOrder::Little)),
        (bilevel.with(262, &[0]), Layout::bilevel(9, 1, ByteOrder::Little)),
        (Page::grey(2, 1, 4, &[&[0x10]]).with(262, &[3]).with(320, &map), Layout { ch: 3, ..grey }),
        (Page::grey(2, 1, 1, &[&[0x40]]).with(262, &[3]).with(320, &[7 << 8; 6]), Layout { ch: 3, ..grey }),
    ] {
        let file = tiff::file(ByteOrder::Big, &[page]);
        folder.put("in", &file);
        for out in ["a.tif", "a.TIFF", "a.tiff"] {
            assert_eq!(folder.run(&format!("picture in {out}")), (0, String::new(), String::new()));
            let found = page_of(&folder, out);
            assert_eq!((found.layout, found.predict), (layout, false));
            let ours = hamrisk::picture(&folder.get(out), 0).unwrap().bytes;
            assert_eq!(ours, hamrisk::picture(&file, 0).unwrap().bytes, "{layout:?}");
            fs::remove_file(folder.0.join(out)).unwrap();
        }
    }
    assert_eq!(folder.names(), ["in"]);
}

/// Planes rendered to a TIFF; two or four channels are written with alpha alone.
#[test]
fn render_as_tiff() {
    let folder = Folder::new("render-tiff");
    folder.put("in", &[1, 2, 3, 4, 5, 6]);
    assert_eq!(folder.run("render in a.tif --w 2 --h 1 --ch 3 --separate").0, 0);
    assert_eq!(hamrisk::picture(&folder.get("a.tif"), 0).unwrap().bytes, [1, 3, 5, 2, 4, 6]);
    assert_eq!(page_of(&folder, "a.tif").layout, Layout::colour(2, 1, ByteOrder::Little));
    assert_eq!(folder.run("render in b.tif --w 1 --h 1 --ch 2 --alpha 1").0, 0);
    assert_eq!(page_of(&folder, "b.tif").layout.alpha, 2);
    let words = "a .tif has two or four channels with alpha alone: call OUT .pam";
    for line in ["render in c.tif --w 1 --h 1 --ch 2", "render in c.tif --w 1 --h 1 --ch 4 --bytes 1"] {
        let said = format!("hamrisk: render: {words}; see hamrisk render --help\n");
        assert_eq!(folder.run(line), (64, String::new(), said));
    }
    let said = "hamrisk: render refused: 3 Truncated: the planes have 6 bytes and need 7\n";
    assert_eq!(folder.run("render in c.tif --w 7 --h 1"), (3, String::new(), said.into()));
    assert_eq!(folder.run("picture in c.tif").0, 3);
    assert_eq!(folder.names(), ["a.tif", "b.tif", "in"]);
}

#[test]
fn samples_of_a_page() {
    let folder = Folder::new("samples");
    for from in [ByteOrder::Little, ByteOrder::Big] {
        for (to, name) in [(ByteOrder::Little, "le"), (ByteOrder::Big, "be")] {
            assert_eq!(folder.written(&depth(from), &format!("samples in out --to {name}")), depths(to));
        }
        assert_eq!(folder.piped(&depth(from), "samples - - --to le"), (0, depths(ByteOrder::Little), String::new()));
        let words =
            "samples: --to is missing: samples of 16 bits want a byte order, le or be; see hamrisk samples --help";
        folder.refused(&depth(from), "samples in out", 64, words);
        let words = "samples: --to wants le or be, not 'me'; see hamrisk samples --help";
        folder.refused(&depth(from), "samples in out --to me", 64, words);
    }
    let planes = colours().with(284, &[2]).with(273, &[8, 10, 12]).with(279, &[2; 3]);
    let mut file = tiff::file(ByteOrder::Little, &[colours(), planes.clone(), Page::grey(9, 1, 1, &[&[0x80, 0x7F]])]);
    let end = file.len() as u32;
    file.extend([1, 4, 2, 5, 3, 6]);
    for to in ["", "--to le", "--to be"] {
        assert_eq!(folder.written(&file, &format!("samples in out {to}")), [1, 2, 3, 4, 5, 6]);
        assert_eq!(folder.written(&file, &format!("samples in out --page 2 {to}")), [0x80, 0x7F]);
    }
    let apart = planes.with(273, &[end, end + 2, end + 4]);
    let mut apart = tiff::file(ByteOrder::Little, &[apart]);
    apart.resize(end as usize, 0);
    apart.extend([1, 4, 2, 5, 3, 6]);
    assert_eq!(folder.written(&apart, "samples in out"), [1, 4, 2, 5, 3, 6]);
    assert_eq!(folder.written(&apart, "picture in out"), [1, 2, 3, 4, 5, 6]);
}

/// Each kind of refusal, with the directory, entry, tag or strip that it is about.
#[test]
fn refusals_name_the_tag() {
    let folder = Folder::new("tags");
    let of = |page: Page| tiff::file(ByteOrder::Little, &[page]);
    let good = of(colours());
    let tiled = Page::grey(16, 16, 8, &[]).with(322, &[16]);
    let changed = |at: usize, size: usize, value: u32| {
        let mut file = good.clone();
        tiff::put(&mut file, ByteOrder::Little, at, size, value);
        file
    };
    for (file, page, status, words) in [
        (good.clone(), "16", 5, "page 16 is above 15, the highest that is read"),
        (good[..7].to_vec(), "0", 3, "the file's length is 7"),
        (changed(0, 2, 0), "0", 2, "the file begins with bytes"),
        (changed(2, 2, 43), "0", 2, "the number at byte 2 is 43, not TIFF's 42: the file is a BigTIFF"),
        (good.clone(), "1", 2, "page 1 is not there: the file has 1 page"),
        (changed(4, 4, 4000), "0", 3, "page 0: its directory is at byte 4000"),
        (changed(8, 2, 65), "0", 5, "page 0: the directory at byte 8 says 65 entries"),
        (good[..40].to_vec(), "0", 3, "page 0: the directory at byte 8"),
        (changed(22, 2, 256), "0", 2, "page 0: entry 1 has tag 256"),
        (of(colours().with(256, &[])), "0", 2, "tag 256 (ImageWidth)"),
        (changed(12, 2, 4 + 256), "0", 2, "tag 256 (ImageWidth)"),
        (of(colours().with(257, &[1, 1])), "0", 2, "tag 257 (ImageLength)"),
        (changed(42, 4, 4000), "0", 3, "tag 258 (BitsPerSample)"),
        (of(colours().with(259, &[5])), "0", 1, "tag 259 (Compression): its value is 5"),
        (of(colours().with(262, &[5])), "0", 1, "tag 262 (PhotometricInterpretation): its value is 5 (CMYK)"),
        (of(tiled), "0", 2, "tag 273 (StripOffsets): it is missing, and tag 322 (TileWidth) is there"),
        (of(colours().with(278, &[0])), "0", 2, "tag 278 (RowsPerStrip)"),
        (of(colours().with(277, &[4])), "0", 2, "tag 277 (SamplesPerPixel)"),
        (of(Page::grey(2, 2, 4, &[&[0; 2]])), "0", 2, "tag 258 (BitsPerSample)"),
        (of(Page::grey(16_385, 1, 8, &[&[0; 16_385]])), "0", 5, "tag 256 (ImageWidth)"),
        (of(colours().with(257, &[2]).with(278, &[2])), "0", 2, "strip 0: its byte count is 6"),
        (good[..good.len() - 1].to_vec(), "0", 3, "strip 0: at byte"),
        (of(Page::grey(2, 1, 8, &[&[254, 7]]).with(259, &[32_773])), "0", 2, "strip 0: row 0, from byte"),
        (of(Page::grey(2, 1, 8, &[&[255]]).with(259, &[32_773])), "0", 3, "strip 0: row 0, from byte"),
        (of(Page::grey(2, 1, 8, &[&[255, 7, 128]]).with(259, &[32_773])), "0", 2, "strip 0: its rows 1 end at byte"),
    ] {
        let kind = ["", "Unsupported", "Invalid", "Truncated", "OutputTooSmall", "Limit"][status as usize];
        folder.put("in", &file);
        for call in ["picture in out", "samples in out", "info in"] {
            let line = format!("{call} --page {page}");
            let (ended, output, error) = folder.run(&line);
            let name = call.split(' ').next().unwrap();
            let begins = format!("hamrisk: {name} refused: {status} {kind}: ");
            assert!(ended == status && error.starts_with(&begins) && error.contains(words), "{line}: {ended}: {error}");
            assert!(output.is_empty() || words.starts_with("strip"), "{line}: {output}");
            assert_eq!(folder.names(), ["in"], "{line}");
        }
    }
    let words = "picture refused: 2 Invalid: page 1 is not there: the file has 1 page, page 0";
    folder.refused(&good, "picture in out --page 1", 2, words);
}

/// What a directory says is true also where the file lost its end; the strips that it still has are told from the others.
#[test]
fn info_of_a_file_that_lost_its_end() {
    let folder = Folder::new("lost-end");
    let whole = depth(ByteOrder::Little);
    folder.put("in", &whole[..148]);
    let error = "strip 1: at byte 146 with 12 bytes it ends at byte 158, the file at byte 148";
    let (status, text, said) = folder.run("info in --strips");
    assert_eq!((status, said), (3, format!("hamrisk: info refused: 3 Truncated: {error}\n")));
    assert!(text.contains("\nbits: 16\n") && text.contains("\nstrips: 3, of which 1 is sound\n"), "{text}");
    assert!(!text.contains("rows of a strip"), "{text}");
    let strips = "\
strip 0: place 134, length 12
strip 1: at byte 146 with 12 bytes it ends at byte 158, the file at byte 148 (3 Truncated)
strip 2: at byte 158 with 6 bytes it ends at byte 164, the file at byte 148 (3 Truncated)
";
    assert!(text.ends_with(strips), "{text}");
    let refused = format!("picture refused: 3 Truncated: {error}");
    folder.refused(&whole[..148], "picture in out", 3, &refused);
}

/// Tags that are not looked at are told, and change neither what is written nor the exit status.
#[test]
fn skipped_tags_are_told() {
    let folder = Folder::new("skipped");
    let page = Page::grey(9, 1, 1, &[&[0x80, 0x80]]).with(266, &[2]).with(274, &[6]);
    folder.put("in", &tiff::file(ByteOrder::Big, &[page]));
    let fill = "tag 266 (FillOrder) is 2: bits are taken as they stand\n";
    let turned = "tag 274 (Orientation) is 6: rows are taken from the top, columns from the left\n";
    let (status, text, error) = folder.run("info in");
    assert_eq!((status, error.as_str()), (0, ""));
    assert!(text.ends_with(&format!("\nnot looked at: {fill}not looked at: {turned}")), "{text}");
    let warnings = format!("hamrisk: warning: {fill}hamrisk: warning: {turned}");
    for (line, bytes) in [("picture in out", &[255, 0, 0, 0, 0, 0, 0, 0, 255][..]), ("samples in out", &[0x80, 0x80])] {
        assert_eq!(folder.run(line), (0, String::new(), warnings.clone()));
        assert_eq!(folder.get("out"), bytes);
    }
    let signed = Page::grey(1, 1, 16, &[&[0xFF, 0xFE]]).with(339, &[2]);
    let (status, text, error) = folder.piped(&tiff::file(ByteOrder::Big, &[signed]), "samples - - --to be");
    assert_eq!((status, &text[..]), (0, &[0xFF, 0xFE][..]));
    let words = "tag 339 (SampleFormat) is 2 (with a sign): samples are taken as whole numbers without a sign";
    assert_eq!(error, format!("hamrisk: warning: {words}\n"));
}

#[test]
fn demo_marks_all_that_came_out_wrong() {
    let folder = Folder::new("demo");
    let (status, text, error) = folder.run("demo --to pictures");
    assert_eq!((status, error.as_str()), (0, ""));
    assert!(text.contains("111 bare places came out full"), "{text}");
    assert!(text.contains("192 samples are marked; 0 came out wrong without a mark"), "{text}");
    assert!(text.contains("Pictures: shelf, plain and marks, each as .pgm and as .tif, in pictures"), "{text}");
    for name in ["shelf", "plain", "marks"] {
        let picture = folder.get(&format!("pictures/{name}.pgm"));
        let (header, pixels) = picture.split_at(15);
        assert_eq!(header, b"P5\n576 192\n255\n");
        let tiff = hamrisk::picture(&folder.get(&format!("pictures/{name}.tif")), 0).unwrap();
        assert_eq!(tiff.page.layout, Layout::grey(576, 192, ByteOrder::Little));
        assert!(tiff.bytes == pixels, "{name}");
    }
    assert_eq!(folder.run("demo --to pictures"), (0, text, String::new()));
}
