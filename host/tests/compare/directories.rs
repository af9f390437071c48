//! Directories: the library and the host's plain reading on a million spoiled files, refusal by refusal.

use crate::lent::Lent;
use crate::made::{made, made_with_wide_palette, made_without_rows, Made};
use crate::numbers::{check, seven};
use crate::random::Random;
use crate::spoiled::spoiled;
use crate::{plain, told};
use hamrisk::{
    explain, explain_strip, placed, read_directory, strip, ByteOrder, Fault, Layout, LayoutFault, Reading, RowFault,
    StripFault, TagFault,
};
use std::collections::BTreeMap;
use std::thread;

#[rustfmt::skip]
extern "C" {
    fn hamrisk_directory(file: *const u8, file_len: usize, page: usize, found: *mut usize) -> u32;
    fn hamrisk_strip(file: *const u8, file_len: usize, page: usize, k: usize, place: *mut usize, length: *mut usize) -> u32;
    fn hamrisk_strips(file: *const u8, file_len: usize, page: usize, parts: *mut usize, parts_len: usize) -> u32;
}

/// What the lent numbers hold before a call.
const CANARY: usize = usize::MAX / 11;

/// A fault's tag, 0 for one of no tag, and what it is.
type Kind = (u64, &'static str);

/// How often each kind of fault was met, and each number answered.
#[derive(Default)]
struct Tally {
    kinds: BTreeMap<Kind, usize>,
    numbers: [usize; 6],
}

impl Tally {
    fn note<T>(&mut self, answer: &Result<T, Fault>) {
        match answer {
            Ok(_) => self.numbers[0] += 1,
            Err(fault) => {
                self.numbers[fault.refusal().number() as usize] += 1;
                *self.kinds.entry(kind(fault)).or_default() += 1;
            }
        }
    }

    fn add(&mut self, other: Tally) {
        for (kind, count) in other.kinds {
            *self.kinds.entry(kind).or_default() += count;
        }
        for (sum, count) in self.numbers.iter_mut().zip(other.numbers) {
            *sum += count;
        }
    }
}

fn kind(fault: &Fault) -> Kind {
    match fault {
        Fault::PageLimit { .. } => (0, "page above the limit"),
        Fault::NoHeader { .. } => (0, "no header"),
        Fault::NoOrder { .. } => (0, "neither II nor MM"),
        Fault::NoTiff { .. } => (0, "not 42"),
        Fault::NoPage { .. } => (0, "no such page"),
        Fault::NoCount { .. } => (0, "no count of entries"),
        Fault::EntryLimit { .. } => (0, "entries above the limit"),
        Fault::DirectoryEnd { .. } => (0, "directory past the end"),
        Fault::TagOrder { .. } => (0, "tags not ascending"),
        Fault::Strip { fault, .. } => (0, kind_of_strip(fault)),
        Fault::Tag { tag, fault } => (*tag, kind_of_tag(fault)),
        Fault::Layout { tag, fault } => (*tag, kind_of_layout(fault)),
    }
}

fn kind_of_strip(fault: &StripFault) -> &'static str {
    match fault {
        StripFault::Missing { .. } => "no such strip",
        StripFault::Length { .. } => "strip's length",
        StripFault::End { .. } => "strip past the end",
        StripFault::Row { fault: RowFault::NoPacket { .. }, .. } => "packed row without an end",
        StripFault::Row { fault: RowFault::PastRow { .. }, .. } => "packet past the row",
        StripFault::Row { fault: RowFault::PacketEnd { .. }, .. } => "packet past the strip",
        StripFault::LeftOver { .. } => "bytes left over",
    }
}

fn kind_of_tag(fault: &TagFault) -> &'static str {
    match fault {
        TagFault::Missing => "missing",
        TagFault::Tiled => "tiles",
        TagFault::Type { .. } => "type",
        TagFault::Count { .. } => "count",
        TagFault::Room { .. } => "room",
        TagFault::Value { .. } => "value",
        TagFault::NoRows => "no rows",
        TagFault::SamplesOfBits { .. } => "not 258's count",
        TagFault::SamplesOfKind { .. } => "not 262's samples",
        TagFault::LengthsOfPlaces { .. } => "not 273's count",
        TagFault::PlacesOfStrips { .. } => "not the strips",
        TagFault::ColoursOfBits { .. } => "not the colours",
        TagFault::ExtraSamples { extra: 0, .. } => "extra sample without it",
        TagFault::ExtraSamples { .. } => "no extra sample with it",
    }
}

fn kind_of_layout(fault: &LayoutFault) -> &'static str {
    match fault {
        LayoutFault::Empty => "no columns",
        LayoutFault::AlphaBits { .. } => "alpha not of 8 bits",
        LayoutFault::AlphaPalette => "alpha with palette",
        LayoutFault::PaletteBits => "palette of 16 bits",
        LayoutFault::PalettePlanes => "palette with planes",
        LayoutFault::FourBits => "4 bits without palette",
        LayoutFault::OneBit { .. } => "1 bit, many samples",
        LayoutFault::Side { .. } => "side above the limit",
        LayoutFault::Size { .. } => "size above the limit",
    }
}

/// Every kind of fault that the rules have.
const KINDS: [(u64, &[&str]); 14] = [
    (0, &FILE_KINDS),
    (256, &["missing", "type", "count", "no columns", "side above the limit"]),
    (257, &["missing", "type", "count", "side above the limit", "size above the limit"]),
    (258, &["type", "count", "room", "value", "palette of 16 bits", "4 bits without palette", "1 bit, many samples"]),
    (259, &["type", "count", "value"]),
    (262, &["missing", "type", "count", "value"]),
    (273, &["missing", "tiles", "type", "count", "room"]),
    (277, &["type", "count", "not 258's count", "not 262's samples"]),
    (278, &["type", "count", "no rows"]),
    (279, &["missing", "type", "count", "room", "not 273's count"]),
    (284, &["type", "count", "value", "not the strips", "palette with planes"]),
    (317, &["type", "count", "value"]),
    (320, &["missing", "type", "count", "room", "not the colours"]),
    (338, &ALPHA_KINDS),
];

const FILE_KINDS: [&str; 16] = [
    "page above the limit",
    "no header",
    "neither II nor MM",
    "not 42",
    "no such page",
    "no count of entries",
    "entries above the limit",
    "directory past the end",
    "tags not ascending",
    "no such strip",
    "strip's length",
    "strip past the end",
    "packed row without an end",
    "packet past the row",
    "packet past the strip",
    "bytes left over",
];

const ALPHA_KINDS: [&str; 7] = [
    "type",
    "count",
    "value",
    "extra sample without it",
    "no extra sample with it",
    "alpha not of 8 bits",
    "alpha with palette",
];

/// The numbers of the header's `hamrisk_page`, in its order.
fn page_numbers(reading: &Reading) -> Vec<usize> {
    let Layout { w, h, ch, bytes, slots, palette, separate, order, white, alpha, map } = reading.layout;
    let [palette, separate, white, le] = [palette, separate, white, order == ByteOrder::Little].map(usize::from);
    let mut numbers = vec![w, h, ch, bytes, slots, palette, separate, le, white, alpha, map];
    numbers.extend(seven(plain::check_layout(&reading.layout).expect("a page's layout is good")));
    numbers.extend([reading.predictor, reading.strips.len(), reading.compression as usize]);
    numbers
}

/// A page to be asked for: mostly one that is there.
fn any_page(random: &mut Random, file: &Made) -> usize {
    match random.below(12) {
        0 => random.below(18),
        1 => file.pages.len(),
        2 => [usize::MAX, 1 << 32, 1 << 63, 16][random.below(4)],
        _ => random.below(file.pages.len()),
    }
}

/// A strip to be asked for: mostly one that is there.
fn any_strip(random: &mut Random, strips: usize) -> usize {
    match random.below(10) {
        0 => strips + random.below(3),
        1 => [usize::MAX, 1 << 32, 1 << 62, 1 << 63][random.below(4)],
        _ => random.below(strips.max(1)),
    }
}

fn compare_directory(file: &[u8], page: usize, expected: &Result<Reading, u32>) {
    let numbers = expected.as_ref().map(page_numbers).map_err(|&number| number);
    // SAFETY: the pointers are those of a slice and of 21 numbers.
    check(CANARY, 21, numbers, |found| unsafe { hamrisk_directory(file.as_ptr(), file.len(), page, found) });
}

/// All strips at once, into as many numbers as they need, more or fewer.
fn compare_strips(random: &mut Random, file: &[u8], page: usize, expected: &Result<Reading, u32>, tally: &mut Tally) {
    let needed = expected.as_ref().map_or(random.below(20), |reading| 2 * reading.strips.len());
    let room = random.around(needed);
    let parts = match expected {
        Ok(_) if room < needed => {
            tally.numbers[plain::OUTPUT_TOO_SMALL as usize] += 1;
            Err(plain::OUTPUT_TOO_SMALL)
        }
        Ok(reading) => Ok(reading.strips.iter().flat_map(|&(place, length)| [place, length]).collect()),
        Err(number) => Err(*number),
    };
    // SAFETY: the pointers are those of a slice and of `room` numbers.
    check(CANARY, room, parts, |parts| unsafe { hamrisk_strips(file.as_ptr(), file.len(), page, parts, room) });
}

/// A strip's place and length, with a number between them that is not to be written, and its bytes.
fn compare_strip(file: &[u8], page: usize, k: usize, tally: &mut Tally) {
    let expected = explain_strip(file, page, k);
    tally.note(&expected);
    let expected = expected.map_err(|fault| fault.refusal().number());
    assert_eq!(told(strip(file, page, k)), expected.map(|(place, length)| &file[place..place + length]));
    let numbers = expected.map(|(place, length)| vec![place, CANARY, length]);
    // SAFETY: the pointers are those of a slice and of two numbers out of three.
    check(CANARY, 3, numbers, |place| unsafe {
        hamrisk_strip(file.as_ptr(), file.len(), page, k, place, place.add(2))
    });
}

/// The calls of the Rust API that answer a page and all its places.
fn compare_rust(file: &[u8], page: usize, expected: &Result<Reading, u32>) {
    let found = told(read_directory(file, page)).map(|found| {
        let predictor = if found.predict { 2 } else { 1 };
        assert_eq!(Ok(found.derived), plain::check_layout(&found.layout));
        (found.layout, predictor, found.compression, found.strips)
    });
    let of_reading = |reading: Reading| (reading.layout, reading.predictor, reading.compression, reading.strips.len());
    let wanted = expected.clone().map(of_reading);
    assert_eq!(found, wanted);
    let places = told(placed(file, page)).map(|places| places.iter().map(|p| (p.start, p.len())).collect());
    assert_eq!(places, expected.clone().map(|reading| reading.strips));
}

/// Says which file it was when a test fails.
struct Shown<'a> {
    file: &'a Made,
    page: usize,
}

impl Drop for Shown<'_> {
    fn drop(&mut self) {
        if thread::panicking() {
            eprintln!("page {} of the file {:?}", self.page, self.file.bytes);
        }
    }
}

/// Every call on one file.
fn compare(random: &mut Random, file: &Made, tally: &mut Tally) {
    let page = any_page(random, file);
    let _shown = Shown { file, page };
    let lent = Lent::of(random, &file.bytes);
    let bytes = lent.bytes();
    let answer = explain(bytes, page);
    tally.note(&answer);
    let expected = answer.map_err(|fault| fault.refusal().number());
    compare_directory(bytes, page, &expected);
    compare_strips(random, bytes, page, &expected, tally);
    if random.below(8) == 0 {
        compare_rust(bytes, page, &expected);
    }
    let strips = file.pages.get(page).map_or(0, |page| page.strips);
    compare_strip(bytes, page, any_strip(random, strips), tally);
    lent.assert_kept();
}

/// As many spoiled files from this seed.
fn compare_many(seed: u64, files: usize) -> Tally {
    let (mut random, mut tally) = (Random::new(seed), Tally::default());
    for _ in 0..files / 50 {
        let good = made(&mut random);
        for _ in 0..50 {
            let file = spoiled(&mut random, &good);
            compare(&mut random, &file, &mut tally);
        }
    }
    for _ in 0..4 {
        for rare in [made_with_wide_palette, made_without_rows] {
            let file = rare(&mut random);
            compare(&mut random, &file, &mut tally);
        }
    }
    tally
}

const FILES: usize = 1_000_000;

/// A million files, or as many as HAMRISK_FILES says.
#[test]
fn spoiled_files() {
    let files = std::env::var("HAMRISK_FILES").map_or(FILES, |n| n.parse().expect("HAMRISK_FILES is a number"));
    let mut tally = Tally::default();
    thread::scope(|scope| {
        let shares: Vec<_> = (0..8).map(|seed| scope.spawn(move || compare_many(50 + seed, files / 8))).collect();
        shares.into_iter().for_each(|share| tally.add(share.join().expect("a share of the files agrees")));
    });
    for (number, count) in tally.numbers.iter().enumerate() {
        println!("answer {number}: {count} times");
    }
    for ((tag, what), count) in &tally.kinds {
        println!("{tag:3} {what}: {count} times");
    }
    // fewer do not meet every fault
    if files < FILES {
        return;
    }
    assert!(tally.numbers.iter().all(|count| *count > 0), "an answer was never met");
    let mut all: Vec<Kind> = KINDS.iter().flat_map(|(tag, kinds)| kinds.iter().map(|&what| (*tag, what))).collect();
    all.sort();
    assert_eq!(tally.kinds.keys().copied().collect::<Vec<_>>(), all, "the faults that were met, and all there are");
}
