//! Files made to be read: every kind of page that the rules serve, and kinds whose layout alone is refused.

use crate::random::Random;
use std::rc::Rc;

/// The tags that the rules look at.
pub const USED: [u64; 13] = [256, 257, 258, 259, 262, 273, 277, 278, 279, 284, 317, 320, 338];

/// A file, and where it can be spoiled.
#[derive(Clone)]
pub struct Made {
    pub bytes: Vec<u8>,
    pub little: bool,
    pub pages: Vec<Rc<Page>>,
}

/// Where a page's directory and the pointer to it stand, its tags and how many strips it has.
pub struct Page {
    pub pointer: usize,
    pub at: usize,
    pub tags: Vec<u64>,
    pub strips: usize,
}

/// What a page says of its picture.
#[derive(Clone, Copy)]
struct Picture {
    w: u64,
    h: u64,
    bits: u64,
    kind: u64,
    alpha: Option<u64>,
    planar: u64,
    predictor: u64,
    rows_per_strip: u64,
    compression: u64,
}

/// The compression of strips whose rows are packed.
const PACKBITS: u64 = 32_773;

impl Picture {
    fn samples(&self) -> u64 {
        let own = if self.kind == 2 { 3 } else { 1 };
        own + u64::from(self.alpha.is_some())
    }

    fn row_bytes(&self) -> u64 {
        let together = if self.planar == 2 { 1 } else { self.samples() };
        (self.w * self.bits * together).div_ceil(8)
    }

    /// The rows of each strip.
    fn rows(&self) -> Vec<u64> {
        let planes = if self.planar == 2 { self.samples() } else { 1 };
        let rows_before = (0..self.h).step_by(self.rows_per_strip as usize);
        let plane: Vec<u64> = rows_before.map(|y| self.rows_per_strip.min(self.h - y)).collect();
        plane.repeat(planes as usize)
    }
}

/// A picture of any kind that is served.
fn served(random: &mut Random) -> Picture {
    let (bits, kinds, alpha): (u64, &[u64], bool) = match random.below(10) {
        0 => (1, &[0, 1], false),
        1 => (16, &[0, 1, 2], false),
        2 => (8, &[0, 1, 2], true),
        3 => (1, &[3], false),
        4 | 5 => (4, &[3], false),
        6 if random.below(4) == 0 => (8, &[3], false),
        _ => (8, &[0, 1, 2], false),
    };
    let kind = random.one_of(kinds);
    let (w, h) = (1 + random.below(9) as u64, 1 + random.below(7) as u64);
    Picture {
        w,
        h,
        bits,
        kind,
        alpha: alpha.then(|| 1 + random.below(2) as u64),
        planar: if kind == 3 { 1 } else { random.one_of(&[1, 1, 2]) },
        predictor: if bits >= 8 { random.one_of(&[1, 2]) } else { 1 },
        rows_per_strip: match random.below(4) {
            0 => random.one_of(&[h, h + 1, u64::from(u32::MAX)]),
            _ => 1 + random.below(h as usize) as u64,
        },
        compression: random.one_of(&[1, 1, PACKBITS]),
    }
}

/// A picture that the layout alone may refuse: any numbers that fit together.
fn any(random: &mut Random) -> Picture {
    let mut picture = served(random);
    let sides = [0, 1, 16_384, 16_385, u64::from(u16::MAX), u64::from(u32::MAX)];
    match random.below(4) {
        0 => picture.w = random.one_of(&sides),
        1 => (picture.h, picture.rows_per_strip) = (random.one_of(&sides[1..]), u64::from(u32::MAX)),
        // at and beside the most bytes of a picture
        2 => {
            (picture.w, picture.rows_per_strip) = (16_384, 16_384);
            picture.h = random.one_of(&[16_384, 16_384, 10_922, 10_923]);
            (picture.kind, picture.bits, picture.alpha) =
                random.one_of(&[(1, 16, None), (2, 8, Some(2)), (2, 16, None)]);
        }
        _ => {
            picture.bits = random.one_of(&[1, 4, 8]);
            picture.kind = random.below(4) as u64;
            picture.alpha = random.one_of(&[None, Some(1), Some(2)]);
            picture.planar = random.one_of(&[1, 2]);
        }
    }
    if picture.bits < 8 {
        picture.predictor = 1;
    }
    picture
}

/// A file of a few pages.
pub fn made(random: &mut Random) -> Made {
    let pages = match random.below(40) {
        0 => 16,
        1..=3 => 2 + random.below(14),
        4..=12 => 2,
        _ => 1,
    };
    let little = random.flag();
    let mut made = Made { bytes: vec![0; 8], little, pages: vec![] };
    made.bytes[..2].copy_from_slice(if little { b"II" } else { b"MM" });
    made.put(2, 42, 2);
    let mut pointer = 4;
    for _ in 0..pages {
        let picture = if random.below(6) == 0 { any(random) } else { served(random) };
        pointer = made.add_page(random, picture, pointer);
    }
    made
}

/// A file whose one page has a palette of 65,536 colours, more than a layout has.
pub fn made_with_wide_palette(random: &mut Random) -> Made {
    let picture = Picture { bits: 16, kind: 3, alpha: None, planar: 1, ..served(random) };
    made_of(random, picture)
}

/// A file whose one page has no rows, at times no 278 either, and a 284 that is not served: 278's default is not the rows.
pub fn made_without_rows(random: &mut Random) -> Made {
    let picture = Picture { h: 1, rows_per_strip: u64::from(u32::MAX), planar: 3, ..served(random) };
    let mut made = made_of(random, picture);
    let page = made.pages[0].clone();
    let entry = page.tags.iter().position(|&tag| tag == 257).expect("a page has 257");
    made.put(page.at + 2 + 12 * entry + 8, 0, 4);
    made
}

/// A file of one page.
fn made_of(random: &mut Random, picture: Picture) -> Made {
    let mut made = Made { bytes: b"II*\0\0\0\0\0".to_vec(), little: true, pages: vec![] };
    made.add_page(random, picture, 4);
    made
}

/// A tag's type and values.
type Field = (u64, u64, Vec<u64>);

impl Made {
    /// Writes a number in the file's order; what falls past its end is left out.
    pub fn put(&mut self, at: usize, value: u64, size: usize) {
        let digits = &value.to_le_bytes()[..size];
        for (n, &digit) in digits.iter().enumerate() {
            let place = if self.little { at + n } else { at + size - 1 - n };
            if let Some(byte) = self.bytes.get_mut(place) {
                *byte = digit;
            }
        }
    }

    /// The number of four bytes or fewer at a place; past the file's end all bytes are 0.
    pub fn get(&self, at: usize, size: usize) -> u64 {
        let byte = |n: usize| u64::from(self.bytes.get(at + n).copied().unwrap_or(0));
        (0..size).fold(0, |value, n| value * 256 + byte(if self.little { size - 1 - n } else { n }))
    }

    /// Random bytes at the file's end; answers where they begin.
    fn append(&mut self, random: &mut Random, length: usize) -> usize {
        let at = self.bytes.len();
        let content = random.next().to_le_bytes();
        self.bytes.extend(content.iter().cycle().take(length));
        at
    }

    /// A page at the file's end; answers where the pointer to the next one stands.
    fn add_page(&mut self, random: &mut Random, picture: Picture, pointer: usize) -> usize {
        let fields = self.fields(random, picture);
        let length = 2 + 12 * fields.len() + 4;
        let values_first = random.flag();
        let mut at = self.bytes.len();
        if !values_first {
            self.append(random, length);
        }
        let places: Vec<usize> = fields.iter().map(|field| self.add_values(random, field)).collect();
        if values_first {
            at = self.append(random, length);
        }
        self.put(pointer, at as u64, 4);
        self.put(at, fields.len() as u64, 2);
        for (n, (field, place)) in fields.iter().zip(&places).enumerate() {
            self.put_entry(at + 2 + 12 * n, field, *place);
        }
        self.put(at + length - 4, 0, 4);
        let tags = fields.iter().map(|field| field.0).collect();
        self.pages.push(Rc::new(Page { pointer, at, tags, strips: picture.rows().len() }));
        at + length - 4
    }

    /// The values of a field, where they do not fit in its entry.
    fn add_values(&mut self, random: &mut Random, (_, kind, values): &Field) -> usize {
        let size = size(*kind);
        if values.len() * size <= 4 {
            return 0;
        }
        let at = self.append(random, values.len() * size);
        for (k, value) in values.iter().enumerate() {
            self.put(at + k * size, *value, size);
        }
        at
    }

    fn put_entry(&mut self, at: usize, (tag, kind, values): &Field, place: usize) {
        let size = size(*kind);
        self.put(at, *tag, 2);
        self.put(at + 2, *kind, 2);
        self.put(at + 4, values.len() as u64, 4);
        if place != 0 {
            self.put(at + 8, place as u64, 4);
        } else {
            for (k, value) in values.iter().enumerate() {
                self.put(at + 8 + k * size, *value, size);
            }
        }
    }

    /// The fields of a page, ascending: those of its picture and some that are not used.
    fn fields(&mut self, random: &mut Random, p: Picture) -> Vec<Field> {
        let (places, lengths) = self.add_strips(random, p);
        let samples = p.samples() as usize;
        let mut fields = vec![
            number(random, 256, p.w),
            number(random, 257, p.h),
            (258, 3, vec![p.bits; samples]),
            (259, 3, vec![p.compression]),
            (262, 3, vec![p.kind]),
            numbers(random, 273, places),
            (277, 3, vec![samples as u64]),
            number(random, 278, p.rows_per_strip),
            numbers(random, 279, lengths),
            (284, 3, vec![p.planar]),
            (317, 3, vec![p.predictor]),
        ];
        if p.kind == 3 {
            fields.push((320, 3, vec![random.next() & 0xFFFF; 3 << p.bits]));
        }
        fields.extend(p.alpha.map(|alpha| (338, 3, vec![alpha])));
        fields.retain(|(tag, _, values)| !(is_default(*tag, values) && random.flag()));
        add_unused(random, &mut fields);
        fields.sort();
        fields
    }

    /// Strips somewhere in the file, at times all at one place, a shorter one the front of the others; the largest are past its
    /// end. Answers their places and lengths.
    fn add_strips(&mut self, random: &mut Random, p: Picture) -> (Vec<u64>, Vec<u64>) {
        let (rows, row_bytes) = (p.rows(), p.row_bytes());
        let most = rows.iter().copied().max().unwrap_or(0);
        if most * row_bytes > 1_000 {
            return (rows.iter().map(|_| random.next() >> 32).collect(), rows.iter().map(|n| n * row_bytes).collect());
        }
        if random.below(4) == 0 {
            let (at, ends) = self.add_strip(random, p, most);
            return (vec![at; rows.len()], rows.iter().map(|&n| ends[n as usize]).collect());
        }
        let strips = rows.iter().map(|&n| self.add_strip(random, p, n));
        strips.map(|(at, ends)| (at, ends[ends.len() - 1])).unzip()
    }

    /// A strip of so many rows; answers its place, and the length of its first rows, from none of them to all.
    fn add_strip(&mut self, random: &mut Random, p: Picture, rows: u64) -> (u64, Vec<u64>) {
        let (at, row_bytes) = (self.bytes.len(), p.row_bytes() as usize);
        let mut ends = vec![0];
        for _ in 0..rows {
            if p.compression == PACKBITS {
                self.bytes.extend(packed_row(random, row_bytes));
            } else {
                self.append(random, row_bytes);
            }
            ends.push((self.bytes.len() - at) as u64);
        }
        (at as u64, ends)
    }
}

/// A row of so many bytes in packets of any kind, packets of nothing among them.
fn packed_row(random: &mut Random, mut left: usize) -> Vec<u8> {
    let mut packed = vec![];
    while left > 0 {
        let bytes = 1 + random.below(left.min(128));
        match random.below(8) {
            0 => {
                packed.push(128);
                continue;
            }
            1..=3 if bytes > 1 => packed.extend([(257 - bytes) as u8, random.next() as u8]),
            _ => {
                packed.push(bytes as u8 - 1);
                packed.extend(random.bytes(bytes));
            }
        }
        left -= bytes;
    }
    packed
}

/// The bytes of a value of a type.
fn size(kind: u64) -> usize {
    if kind == 4 {
        4
    } else {
        2
    }
}

/// A field of numbers as SHORT or LONG, where they fit.
fn numbers(random: &mut Random, tag: u64, values: Vec<u64>) -> Field {
    let short = values.iter().all(|&value| value < 65_536) && random.flag();
    (tag, if short { 3 } else { 4 }, values)
}

fn number(random: &mut Random, tag: u64, value: u64) -> Field {
    numbers(random, tag, vec![value])
}

/// Whether a field says what its absence would.
fn is_default(tag: u64, values: &[u64]) -> bool {
    match tag {
        258 | 259 | 277 | 284 | 317 => values == [1],
        278 => values == [u64::from(u32::MAX)],
        _ => false,
    }
}

/// Fields that the rules do not look at, mostly few, at times up to 64 in all; without a palette 320 is such a one.
fn add_unused(random: &mut Random, fields: &mut Vec<Field>) {
    let most = match random.below(12) {
        0 => 64 - fields.len(),
        1..=4 => 1 + random.below(4),
        _ => 0,
    };
    for _ in 0..most {
        let tag = match random.below(4) {
            0 => 320,
            1 => random.below(65_536) as u64,
            _ => 254 + random.below(90) as u64,
        };
        let palette = fields.iter().any(|(tag, _, values)| *tag == 262 && *values == [3]);
        let unused = !USED.contains(&tag) || (tag == 320 && !palette);
        if unused && fields.iter().all(|field| field.0 != tag) {
            fields.push((tag, random.one_of(&[1, 2, 3, 4, 7, 12, 16]), vec![random.next() & 0xFFFF]));
        }
    }
}
