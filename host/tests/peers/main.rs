//! Files that tifffile, Pillow and libtiff write, and what each reads of its own, held against [`hamrisk::picture`]: a
//! few that are kept in `tests/files`, and fresh ones of `make.py` where the three are installed. There they also read
//! files that we write, and rows that we pack, by `read.py`; and strips of three-byte words, which none of them reads, are
//! numpy's, by `depth.py`.

#[path = "../tiff/mod.rs"]
mod tiff;

use hamrisk::ByteOrder::{Big, Little};
use hamrisk::{
    advised_rows_per_strip, check_layout, converted, forwarded, pack_row, packed, packed_length, picture, rendered,
    samples, written_file, Coding, Layout, PacketWriter, Refusal, Strip,
};
use std::fs;
use std::io::Write;
use std::path::{Path, PathBuf};
use std::process::Command;

/// A folder's files: the name of each, and its bytes.
fn files(folder: &Path) -> Vec<(String, Vec<u8>)> {
    let paths = fs::read_dir(folder).unwrap().map(|entry| entry.unwrap().path());
    let mut paths: Vec<PathBuf> = paths.filter(|path| path.extension().is_some_and(|end| end == "tif")).collect();
    paths.sort();
    let name = |path: &PathBuf| path.file_stem().unwrap().to_str().unwrap().to_string();
    paths.iter().map(|path| (name(path), fs::read(path).unwrap())).collect()
}

/// Holds each page of each file of a folder against the picture that stands beside it; answers the files' names.
fn compare(folder: &Path) -> Vec<String> {
    let mut names = vec![];
    for (name, file) in files(folder) {
        let expected = |page: usize| fs::read(folder.join(format!("{name}.{page}.picture"))).ok();
        let pages: Vec<Vec<u8>> = (0..).map_while(expected).collect();
        assert!(!pages.is_empty(), "{name} has no picture beside it");
        for (page, bytes) in pages.iter().enumerate() {
            let ours = picture(&file, page).unwrap_or_else(|refusal| {
                let fault = hamrisk::explain(&file, page).unwrap_err();
                panic!("{name}, page {page}: {refusal:?}: {fault}")
            });
            assert_eq!(ours.bytes, *bytes, "{name}, page {page}: ours, and what its maker reads");
            let layout = ours.page.layout;
            let planes = samples(&file, page, layout.order).unwrap().bytes;
            assert_eq!(rendered(&layout, &file, &planes).as_ref(), Ok(bytes), "{name}, page {page}: from its samples");
        }
        assert_eq!(picture(&file, pages.len()), Err(Refusal::Invalid), "{name} has a page more than its maker reads");
        names.push(name);
    }
    names
}

/// What every set of files has to show, as a part of a name.
const KINDS: [&str; 22] = [
    "grey",
    "grey16",
    "-mm",
    "-white",
    "bilevel",
    "colour",
    "apart",
    "palette1",
    "palette4",
    "palette8",
    "alpha",
    "multiplied",
    "predicted",
    "predicted16",
    "pages",
    "tifffile-packed",
    "pillow-packed",
    "libtiff-packed",
    "packed-bilevel",
    "packed-colour",
    "packed-grey16",
    "packed-palette",
];

#[track_caller]
fn assert_kinds(names: &[String]) {
    for peer in ["tifffile", "pillow", "libtiff"] {
        assert!(names.iter().any(|name| name.starts_with(peer)), "no file of {peer}");
    }
    for kind in KINDS {
        assert!(names.iter().any(|name| name.contains(kind)), "no file of kind {kind}");
    }
}

#[test]
fn kept_files() {
    assert_kinds(&compare(&Path::new(env!("CARGO_MANIFEST_DIR")).join("tests/files")));
}

/// The Python that has the peers: HAMRISK_PEERS where that is set, else Debian's if they are installed.
fn python() -> Option<String> {
    let usual = "/usr/bin/python3";
    let has = |command: &mut Command| command.output().is_ok_and(|output| output.status.success());
    let installed =
        || has(Command::new(usual).args(["-c", "import PIL, tifffile"])) && has(Command::new("which").arg("tiffcp"));
    std::env::var("HAMRISK_PEERS").ok().or_else(|| installed().then(|| usual.into()))
}

/// A folder of this test's own name, and what a script prints of it; nothing where the peers are not installed.
fn run_script(name: &str, script: &str, fill: impl Fn(&Path), look: impl Fn(&Path, &str)) {
    let Some(python) = python() else {
        eprintln!("tifffile, Pillow or libtiff's tools are not installed: {script} is not run");
        return;
    };
    let folder = Path::new(env!("CARGO_TARGET_TMPDIR")).join(format!("peers-{name}-{}", std::process::id()));
    fs::create_dir_all(&folder).unwrap();
    fill(&folder);
    let path = Path::new(env!("CARGO_MANIFEST_DIR")).join("tests/peers").join(script);
    // B: no compiled modules beside the scripts
    let run = Command::new(&python).arg("-B").arg(path).arg(&folder).output().expect("HAMRISK_PEERS is a Python");
    assert!(run.status.success(), "{}", String::from_utf8_lossy(&run.stderr));
    look(&folder, &String::from_utf8(run.stdout).unwrap());
    fs::remove_dir_all(&folder).unwrap();
}

#[test]
fn fresh_files() {
    run_script("fresh", "make.py", |_| (), |folder, _| assert_kinds(&compare(folder)));
}

/// Every kind of layout that is written to a file, by name, one of many columns and rows among them.
fn layouts() -> Vec<(&'static str, Layout)> {
    let (grey, colour) = (Layout::grey(13, 7, Little), Layout::colour(13, 7, Little));
    let bilevel = Layout::bilevel(13, 7, Little);
    let wide = |l: Layout| Layout { bytes: 2, ..l };
    let white = |l: Layout| Layout { white: true, ..l };
    let alpha = |l: Layout| Layout { ch: l.ch + 1, alpha: 2, ..l };
    let apart = |l: Layout| Layout { separate: true, ..l };
    vec![
        ("grey", grey),
        ("grey-apart", apart(grey)),
        ("grey-large", Layout { w: 300, h: 61, ..grey }),
        ("grey-white", white(grey)),
        ("grey16", wide(grey)),
        ("grey16-white", white(wide(grey))),
        ("bilevel", bilevel),
        ("bilevel-apart", apart(bilevel)),
        ("bilevel-white", white(bilevel)),
        ("colour", colour),
        ("colour-apart", apart(colour)),
        ("colour16", wide(colour)),
        ("colour16-apart", apart(wide(colour))),
        ("grey-alpha", alpha(grey)),
        ("grey-alpha-apart", apart(alpha(grey))),
        ("grey-alpha-white", white(alpha(grey))),
        ("colour-alpha", alpha(colour)),
        ("colour-alpha-apart", apart(alpha(colour))),
    ]
}

/// Bytes that look random.
fn noise(n: usize) -> Vec<u8> {
    (0..n as u32).map(|k| (k.wrapping_mul(0x9E37_79B9) >> 13) as u8).collect()
}

/// Writes a file of each layout in strips of one row, of three with a shorter last one, of all, and of those advised, and
/// beside it the picture of its planes.
fn write_files(folder: &Path) {
    for (name, l) in layouts() {
        let planes = noise(check_layout(&l).unwrap().scratch_length);
        let expected = rendered(&l, &[], &planes).unwrap();
        for rows in [1, 3, l.h, advised_rows_per_strip(&l).unwrap()] {
            let path = folder.join(format!("{name}-{rows}"));
            fs::write(path.with_extension("tif"), written_file(&l, rows, &planes).unwrap()).unwrap();
            fs::write(path.with_extension("0.picture"), &expected).unwrap();
        }
    }
}

/// tifffile and libtiff read all of them; Pillow lacks 16 bits with 0 white or in colour, and grey with alpha apart or with
/// 0 white.
#[test]
fn files_that_we_write() {
    run_script("written", "read.py", write_files, |folder, said| {
        assert_eq!(compare(folder).len(), 55);
        assert_eq!(said, "tifffile 55 pillow 40 libtiff 55\n");
    });
}

/// Bytes with runs among those that look random.
fn runs(n: usize) -> Vec<u8> {
    let bytes = noise(n);
    (0..n).map(|k| bytes[if k % 23 < 11 { k - k % 23 } else { k }]).collect()
}

/// A file of these planes, its rows packed in this way.
fn packed_file(l: &Layout, planes: &[u8], rows_per_strip: usize, pack: fn(&[u8]) -> Vec<u8>) -> Vec<u8> {
    let derived = check_layout(l).unwrap();
    let row_bytes = derived.encoded_width * derived.plane_channels;
    let plane_strips = |plane: &[u8]| -> Vec<Vec<u8>> {
        let strips = plane.chunks(rows_per_strip * row_bytes);
        strips.map(|strip| strip.chunks(row_bytes).flat_map(pack).collect()).collect()
    };
    let strips: Vec<Vec<u8>> = planes.chunks(derived.plane_length).flat_map(plane_strips).collect();
    let strips: Vec<&[u8]> = strips.iter().map(|strip| &strip[..]).collect();
    let bits = if l.slots == 8 { 1 } else { 8 * l.bytes as u32 };
    let colours = if l.ch > 2 { 2 } else { u32::from(!l.white) };
    let page = tiff::Page::grey(l.w as u32, l.h as u32, bits, &strips)
        .with(258, &vec![bits; l.ch])
        .with(259, &[32_773])
        .with(262, &[colours])
        .with(277, &[l.ch as u32])
        .with(278, &[rows_per_strip as u32])
        .with(284, &[1 + u32::from(l.separate)])
        .with(338, if l.alpha == 0 { &[] } else { &[2] });
    tiff::file(l.order, &[page])
}

fn literals(row: &[u8]) -> Vec<u8> {
    let mut out = vec![0; packed_length(row.len())];
    pack_row(row, &mut out).unwrap();
    out
}

/// Writes a file of each layout, its rows packed by a plan and as literals, in strips of one row, of three and of all.
fn pack_files(folder: &Path) {
    for (name, l) in layouts() {
        let planes = runs(check_layout(&l).unwrap().scratch_length);
        let expected = rendered(&l, &[], &planes).unwrap();
        for (how, pack) in [("plan", packed as fn(&[u8]) -> Vec<u8>), ("literals", literals)] {
            for rows in [1, 3, l.h] {
                let path = folder.join(format!("{name}-{how}-{rows}"));
                fs::write(path.with_extension("tif"), packed_file(&l, &planes, rows, pack)).unwrap();
                fs::write(path.with_extension("0.picture"), &expected).unwrap();
            }
        }
    }
}

/// All three unpack our rows to what we packed, with the kinds that Pillow lacks left out.
#[test]
fn rows_that_we_pack() {
    run_script("packed", "read.py", pack_files, |folder, said| {
        assert_eq!(compare(folder).len(), 108);
        assert_eq!(said, "tifffile 108 pillow 78 libtiff 108\n");
    });
}

/// Strips of five rows and what numpy makes of them: each is converted, whole and in packets that cut words, and forward
/// prediction gives it back.
#[test]
fn depth_words_of_three_bytes() {
    run_script(
        "depth",
        "depth.py",
        |_| (),
        |folder, said| {
            // of 20 predicted strips every row
            assert_eq!(said, "100\n");
            for (order, to) in [("le", "le"), ("le", "be"), ("be", "le"), ("be", "be")] {
                for channels in 1..=5 {
                    for (how, predict) in [("predicted", true), ("plain", false)] {
                        let path = folder.join(format!("{order}-{to}-{channels}-{how}.raw"));
                        let (raw, expected) =
                            (fs::read(&path).unwrap(), fs::read(path.with_extension("samples")).unwrap());
                        let strip = Strip { row_bytes: raw.len() / 5, channels, width: 3 };
                        let [from, to] = [order, to].map(|order| if order == "le" { Little } else { Big });
                        let coding = Coding { from, to, predict };
                        assert!(converted(&raw, strip, coding).as_ref() == Ok(&expected), "{path:?}");
                        assert!(forwarded(&expected, strip, coding.back()).as_ref() == Ok(&raw), "{path:?} back");
                        let mut writer = PacketWriter::new(strip, coding, Vec::new()).unwrap();
                        raw.chunks(100).for_each(|packet| writer.write_all(packet).unwrap());
                        assert!(writer.finish().unwrap() == expected, "{path:?} in packets");
                    }
                }
            }
        },
    );
}
