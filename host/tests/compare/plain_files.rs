//! Section 15 of docs/RULES.md read plainly and slowly: a file is its parts, one after the other. It shares no code or
//! number with the library.

use crate::plain::{check_layout, INVALID, OUTPUT_TOO_SMALL, TRUNCATED, UNSUPPORTED};
use hamrisk::{ByteOrder, Derived, Layout};

/// An entry of a directory: its tag, its type, how many values it has, and the bytes of these.
struct Entry {
    tag: u16,
    kind: u16,
    count: usize,
    values: Vec<u8>,
}

impl Entry {
    /// The values, where they do not stand in the entry.
    fn outside(&self) -> &[u8] {
        if self.values.len() > 4 {
            &self.values
        } else {
            &[]
        }
    }

    /// Its twelve bytes; `place` is where its values stand if they are outside.
    fn bytes(&self, place: usize) -> Vec<u8> {
        let mut last = if self.outside().is_empty() { self.values.clone() } else { longs(&[place]) };
        last.resize(4, 0);
        [shorts(&[self.tag.into(), self.kind.into()]), longs(&[self.count]), last].concat()
    }
}

fn shorts(values: &[usize]) -> Vec<u8> {
    values.iter().flat_map(|&v| [v % 256, v / 256]).map(|digit| u8::try_from(digit).unwrap()).collect()
}

fn longs(values: &[usize]) -> Vec<u8> {
    values.iter().flat_map(|&v| shorts(&[v % 65_536, v / 65_536])).collect()
}

/// SHORTs.
fn short(tag: u16, values: &[usize]) -> Entry {
    Entry { tag, kind: 3, count: values.len(), values: shorts(values) }
}

/// LONGs.
fn long(tag: u16, values: &[usize]) -> Entry {
    Entry { tag, kind: 4, count: values.len(), values: longs(values) }
}

/// The RATIONAL 1 / 1.
fn one(tag: u16) -> Entry {
    Entry { tag, kind: 5, count: 1, values: longs(&[1, 1]) }
}

/// The bytes of each strip, plane after plane.
fn strip_lengths(l: &Layout, d: &Derived, rows_per_strip: usize) -> Vec<usize> {
    let mut lengths = vec![];
    for _ in 0..d.planes {
        let mut rows = l.h;
        while rows > 0 {
            let own = rows.min(rows_per_strip);
            lengths.push(own * d.encoded_width * d.plane_channels);
            rows -= own;
        }
    }
    lengths
}

/// The entries; the first strip begins at `place`.
fn entries(l: &Layout, rows_per_strip: usize, lengths: &[usize], place: usize) -> Vec<Entry> {
    let bits = if l.slots == 8 { 1 } else { 8 * l.bytes };
    let photometric = match (l.ch, l.white) {
        (3 | 4, _) => 2,
        (_, true) => 0,
        (_, false) => 1,
    };
    let mut places = vec![];
    let mut at = place;
    for length in lengths {
        places.push(at);
        at += length;
    }
    let mut entries = vec![
        short(256, &[l.w]),
        short(257, &[l.h]),
        short(258, &vec![bits; l.ch]),
        short(259, &[1]),
        short(262, &[photometric]),
        long(273, &places),
        short(277, &[l.ch]),
        long(278, &[rows_per_strip]),
        long(279, lengths),
        one(282),
        one(283),
        short(284, &[if l.separate { 2 } else { 1 }]),
        short(296, &[1]),
        short(317, &[1]),
    ];
    if l.alpha != 0 {
        entries.push(short(338, &[2]));
    }
    entries
}

/// The bytes of header and directory.
fn directory_end(entries: &[Entry]) -> usize {
    8 + 2 + 12 * entries.len() + 4
}

/// Where the strips begin: behind the directory and the values outside of it.
fn planes_place(l: &Layout, rows_per_strip: usize, lengths: &[usize]) -> usize {
    let entries = entries(l, rows_per_strip, lengths, 0);
    directory_end(&entries) + entries.iter().map(|entry| entry.outside().len()).sum::<usize>()
}

fn served(l: &Layout) -> bool {
    let kind = match (l.ch, l.alpha) {
        (1, _) | (2, 2) => true,
        (3, _) | (4, 2) => !l.white,
        _ => false,
    };
    kind && l.order == ByteOrder::Little && l.bytes != 8 && !l.palette
}

/// What both calls look at first.
fn asked(l: &Layout, rows_per_strip: usize) -> Result<Derived, u32> {
    let derived = check_layout(l)?;
    if !served(l) {
        return Err(UNSUPPORTED);
    }
    if rows_per_strip == 0 || rows_per_strip > l.h {
        return Err(INVALID);
    }
    Ok(derived)
}

pub fn file_length(l: &Layout, rows_per_strip: usize) -> Result<usize, u32> {
    let d = asked(l, rows_per_strip)?;
    Ok(planes_place(l, rows_per_strip, &strip_lengths(l, &d, rows_per_strip)) + d.scratch_length)
}

pub fn write_file(l: &Layout, rows_per_strip: usize, planes: &[u8], out_length: usize) -> Result<Vec<u8>, u32> {
    let d = asked(l, rows_per_strip)?;
    if planes.len() < d.scratch_length {
        return Err(TRUNCATED);
    }
    let file = file(l, rows_per_strip, &d, &planes[..d.scratch_length]);
    if out_length < file.len() {
        return Err(OUTPUT_TOO_SMALL);
    }
    Ok(file)
}

fn file(l: &Layout, rows_per_strip: usize, d: &Derived, planes: &[u8]) -> Vec<u8> {
    let lengths = strip_lengths(l, d, rows_per_strip);
    let entries = entries(l, rows_per_strip, &lengths, planes_place(l, rows_per_strip, &lengths));
    let mut file = b"II".to_vec();
    file.extend(shorts(&[42]));
    file.extend(longs(&[8]));
    file.extend(shorts(&[entries.len()]));
    let mut place = directory_end(&entries);
    for entry in &entries {
        file.extend(entry.bytes(place));
        place += entry.outside().len();
    }
    file.extend(longs(&[0]));
    for entry in &entries {
        file.extend(entry.outside());
    }
    file.extend(planes);
    file
}
