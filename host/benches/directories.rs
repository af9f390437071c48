//! The strip places of whole files in memory, beside libtiff, which opens the same bytes.
use crate::libtiff::Libtiff;
use crate::{both, seconds};
use hamrisk::{placed, read_directory, strip_place};
use std::hint::black_box;
use std::ops::Range;

const SHORT: u16 = 3;
const LONG: u16 = 4;

/// Tags that the reading skips and libtiff knows, each with a value of four bytes or fewer.
#[rustfmt::skip]
const SKIPPED: [(u16, u16, u32); 53] = [
    (254, LONG, 1), (255, SHORT, 1), (263, SHORT, 1), (264, SHORT, 1), (265, SHORT, 1), (266, SHORT, 1), (269, 2, 4),
    (270, 2, 4), (271, 2, 4), (272, 2, 4), (274, SHORT, 1), (280, SHORT, 1), (281, SHORT, 1), (285, 2, 4), (290, SHORT, 1),
    (296, SHORT, 1), (297, SHORT, 2), (305, 2, 4), (306, 2, 4), (315, 2, 4), (316, 2, 4), (321, SHORT, 2), (332, SHORT, 1),
    (336, SHORT, 2), (337, 2, 4), (339, SHORT, 1), (346, SHORT, 1), (700, 1, 4), (32997, LONG, 1), (33300, LONG, 1),
    (33301, LONG, 1), (33302, 2, 4), (33303, 2, 4), (33432, 2, 4), (33723, LONG, 1), (34377, 1, 4), (34675, 7, 4),
    (34908, LONG, 1), (34909, 2, 4), (34910, LONG, 1), (34911, 2, 4), (50706, 1, 4), (50707, 1, 4), (50708, 2, 4),
    (50709, 1, 4), (50711, SHORT, 1), (50733, LONG, 1), (50735, 2, 4), (50741, SHORT, 1), (50778, SHORT, 1),
    (50779, SHORT, 1), (50827, 1, 4), (50879, SHORT, 1),
];

/// A file, least significant byte first.
struct File {
    name: String,
    bytes: Vec<u8>,
    pages: usize,
    /// where the pointer to the next page stands
    pointer: usize,
}

impl File {
    fn new(name: String) -> File {
        File { name, bytes: b"II*\0\0\0\0\0".to_vec(), pages: 0, pointer: 4 }
    }

    /// Numbers at the end of the file; answers where they begin.
    fn add_numbers(&mut self, numbers: impl Iterator<Item = usize>) -> usize {
        let at = self.bytes.len();
        self.bytes.extend(numbers.flat_map(|n| (n as u32).to_le_bytes()));
        at
    }

    /// A grey page of a row of 16 bytes in each strip, with these entries besides.
    fn add_page(&mut self, strips: usize, skipped: &[(u16, u16, u32)]) {
        let data = self.bytes.len();
        self.bytes.resize(data + 16 * strips, 7);
        let (mut places, mut lengths) = (data, 16);
        if strips > 1 {
            places = self.add_numbers((0..strips).map(|k| data + 16 * k));
            lengths = self.add_numbers((0..strips).map(|_| 16));
        }
        let mut entries: Vec<(u16, u16, u32, u32)> = [
            (256, SHORT, 1, 16),
            (257, SHORT, 1, strips),
            (258, SHORT, 1, 8),
            (259, SHORT, 1, 1),
            (262, SHORT, 1, 1),
            (273, LONG, strips, places),
            (277, SHORT, 1, 1),
            (278, SHORT, 1, 1),
            (279, LONG, strips, lengths),
            (284, SHORT, 1, 1),
        ]
        .map(|(tag, kind, count, value)| (tag, kind, count as u32, value as u32))
        .to_vec();
        entries.extend(skipped.iter().map(|&(tag, kind, count)| (tag, kind, count, 1)));
        entries.sort();
        self.add_directory(&entries);
    }

    fn add_directory(&mut self, entries: &[(u16, u16, u32, u32)]) {
        let at = self.bytes.len() as u32;
        self.bytes[self.pointer..self.pointer + 4].copy_from_slice(&at.to_le_bytes());
        self.bytes.extend((entries.len() as u16).to_le_bytes());
        for (tag, kind, count, value) in entries {
            self.bytes.extend([tag.to_le_bytes(), kind.to_le_bytes()].concat());
            self.bytes.extend([count.to_le_bytes(), value.to_le_bytes()].concat());
        }
        self.pointer = self.bytes.len();
        self.bytes.extend([0; 4]);
        self.pages += 1;
    }
}

fn files() -> Vec<File> {
    let mut files: Vec<File> = vec![];
    for strips in [1_024, 4_096, 16_384] {
        let mut file = File::new(format!("one page of {strips} strips"));
        file.add_page(strips, &[]);
        files.push(file);
    }
    let mut file = File::new("16 pages of 64 entries".into());
    for _ in 0..16 {
        file.add_page(1, &SKIPPED);
    }
    files.push(file);
    files
}

/// How many strips all pages have.
fn strips(file: &File) -> usize {
    (0..file.pages).map(|page| read_directory(black_box(&file.bytes), page).unwrap().strips).sum()
}

/// The place of every strip of every page, found at once.
fn at_once(file: &File) -> Vec<Vec<Range<usize>>> {
    (0..file.pages).map(|page| placed(black_box(&file.bytes), page).unwrap()).collect()
}

/// The same, found one by one.
fn one_by_one(file: &File, strips: usize) -> Vec<Range<usize>> {
    let of = |page, k| strip_place(black_box(&file.bytes), page, k).unwrap();
    (0..file.pages).flat_map(|page| (0..strips / file.pages).map(move |k| of(page, k))).collect()
}

/// A row for each file: microseconds, and how fast all places at once are as a part of what libtiff is.
pub fn print(libtiff: Option<&Libtiff>) {
    println!(
        "\n| file | read_directory, µs | all places at once, µs | one by one, µs | libtiff, µs | at once to libtiff |"
    );
    println!("|---|---|---|---|---|---|");
    for file in files() {
        let (name, places) = (&file.name, at_once(&file).concat());
        assert!(one_by_one(&file, places.len()) == places && strips(&file) == places.len(), "{name}");
        let directory = seconds(|| assert!(strips(&file) > 0)) * 1e6;
        let each = seconds(|| assert!(!one_by_one(&file, places.len()).is_empty())) * 1e6;
        let ours = || assert!(!at_once(&file).is_empty());
        if let Some(libtiff) = libtiff {
            let mut theirs = libtiff.places(&file.bytes);
            assert!(theirs().iter().map(|(place, length)| *place..place + length).eq(places), "{name}");
            let (ours, theirs) = both(ours, || assert!(!theirs().is_empty()));
            let (all, rival, ratio) = (ours * 1e6, theirs * 1e6, theirs / ours);
            println!("| {name} | {directory:.1} | {all:.1} | {each:.1} | {rival:.1} | {ratio:.2} |");
        } else {
            println!("| {name} | {directory:.1} | {:.1} | {each:.1} | | |", seconds(ours) * 1e6);
        }
    }
}
