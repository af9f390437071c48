//! A second reading of a file's directories, plain and slow, from the words of docs/RULES.md alone. The proved library
//! decides what is served; this says which directory, tag or strip a refusal is about, and with which number. It calls
//! nothing of the library, and the tests hold the two against each other.

mod row;
mod words;

pub use row::{explain_row, RowFault};

use crate::limits::{MOST_ENTRIES, MOST_PAGES, MOST_PICTURE_BYTES, MOST_SIDE};
use crate::{ByteOrder, Compression, Layout, Refusal};
use std::error::Error;

const SHORT: u64 = 3;
const LONG: u64 = 4;

/// Tags that may have values of four bytes beside those of two.
const LONG_TAGS: [u64; 5] = [256, 257, 273, 278, 279];

/// Tags that may have more values than one.
const LIST_TAGS: [u64; 5] = [258, 273, 279, 320, 339];

/// Tags that are not looked at, though all values but 1 give the samples or the rows another meaning.
const SKIPPED_TAGS: [u64; 3] = [266, 274, 339];

/// What a page of a file says of its picture.
#[derive(Clone, Debug, PartialEq, Eq)]
pub struct Reading {
    /// The picture, and how its planes hold it.
    pub layout: Layout,
    /// 1: samples are stored as they are; 2: each is stored less the one a pixel before it.
    pub predictor: usize,
    /// How the strips are compressed.
    pub compression: Compression,
    /// Place and length of each strip.
    pub strips: Vec<(usize, usize)>,
}

/// What is wrong with a file, and where. As text it names the directory, tag or strip and the number at fault.
#[derive(Clone, Copy, Debug, PartialEq, Eq)]
#[allow(missing_docs)]
pub enum Fault {
    /// A page above the highest that is read.
    PageLimit { page: usize },
    /// A file shorter than a header.
    NoHeader { length: usize },
    /// A file that begins neither with II nor with MM.
    NoOrder { found: [u8; 2] },
    /// A file whose third and fourth byte are not 42.
    NoTiff { found: u64 },
    /// A page that is not there: the pointer to it is 0.
    NoPage { page: usize, pages: usize },
    /// A directory whose count of entries is not all in the file.
    NoCount { page: usize, at: u64, length: u64 },
    /// A directory of more entries than are read.
    EntryLimit { page: usize, at: u64, entries: u64 },
    /// A directory that ends past the file.
    DirectoryEnd { page: usize, at: u64, entries: u64, end: u64, length: u64 },
    /// An entry whose tag is not above that of the entry before it.
    TagOrder { page: usize, entry: u64, tag: u64, before: u64 },
    /// A tag that is used, and what is wrong with it.
    Tag { tag: u64, fault: TagFault },
    /// A layout that is refused, and the tag that tells why.
    Layout { tag: u64, fault: LayoutFault },
    /// A strip, and what is wrong with it.
    Strip { strip: usize, fault: StripFault },
}

/// What is wrong with a tag's entry or its values.
#[derive(Clone, Copy, Debug, PartialEq, Eq)]
#[allow(missing_docs)]
pub enum TagFault {
    /// It is not there and has no default.
    Missing,
    /// It is not there, as the page has tiles in place of strips.
    Tiled,
    /// Its type is not one that the tag has.
    Type { found: u64 },
    /// Its count is not one that the tag has.
    Count { found: u64 },
    /// Its values end past the file.
    Room { at: u64, bytes: u64, length: u64 },
    /// One of its values is not served.
    Value { number: u64, value: u64 },
    /// 0 rows in a strip.
    NoRows,
    /// As many samples as 258 has no values for.
    SamplesOfBits { samples: u64, bits: u64 },
    /// Neither the samples of the kind of picture nor one more.
    SamplesOfKind { samples: u64, own: u64 },
    /// Another count than 273 has.
    LengthsOfPlaces { lengths: u64, places: u64 },
    /// As many strips as 273 has no places for.
    PlacesOfStrips { places: u64, strips: u64 },
    /// Not three values for each colour.
    ColoursOfBits { found: u64, needed: u64 },
    /// The samples are not those of the kind of picture and the extra one.
    ExtraSamples { samples: u64, own: u64, extra: u64 },
}

/// Why a layout is refused, in the words of the tags that it comes from.
#[derive(Clone, Copy, Debug, PartialEq, Eq)]
#[allow(missing_docs)]
pub enum LayoutFault {
    /// No columns.
    Empty,
    /// Alpha with other samples than those of 8 bits.
    AlphaBits { bits: u64 },
    /// Alpha with a palette.
    AlphaPalette,
    /// A palette with samples of 16 bits.
    PaletteBits,
    /// A palette with planes apart.
    PalettePlanes,
    /// Samples of 4 bits without a palette.
    FourBits,
    /// Samples of one bit without a palette, and more than one to a pixel.
    OneBit { samples: u64 },
    /// A side above the limit.
    Side { value: u64 },
    /// A picture above the limit.
    Size { w: u64, h: u64, ch: u64, bytes: u64 },
}

/// What is wrong with a strip.
#[derive(Clone, Copy, Debug, PartialEq, Eq)]
#[allow(missing_docs)]
pub enum StripFault {
    /// It is not there.
    Missing { strips: u64 },
    /// Its byte count is not that of its rows, though it is not compressed.
    Length { length: u64, rows: u64, row_bytes: u64 },
    /// It ends past the file.
    End { place: u64, length: u64, file: u64 },
    /// A row of it, which begins at this byte of the file, does not unpack.
    Row { row: u64, at: u64, fault: RowFault },
    /// Its rows, unpacked, end before it does.
    LeftOver { rows: u64, end: u64, bytes: u64 },
}

/// What the directory of a page says, or the first fault of the file, of the directories up to it, of its tags, its
/// layout and its strips, in that order: that of [`read_directory`](crate::read_directory).
///
/// ```
/// let fault = hamrisk::explain(b"II*\0\x08\0\0\0\x41\0", 0).unwrap_err();
/// assert_eq!(fault.refusal(), hamrisk::Refusal::Limit);
/// assert_eq!(fault.to_string(), "page 0: the directory at byte 8 says 65 entries; at most 64 are read");
/// ```
pub fn explain(file: &[u8], page: usize) -> Result<Reading, Fault> {
    let fields = fields(&directory(file, page)?)?;
    let layout = layout(&fields)?;
    let strips = (0..fields.places.count as usize).map(|k| strip(&fields, k)).collect::<Result<_, _>>()?;
    Ok(Reading { layout, predictor: fields.predictor as usize, compression: fields.compression, strips })
}

/// Place and length of a strip, or the first fault of all that [`explain`] looks at before strips, of the strip's number
/// and of that strip alone: that of [`strip_place`](crate::strip_place).
pub fn explain_strip(file: &[u8], page: usize, k: usize) -> Result<(usize, usize), Fault> {
    let fields = fields(&directory(file, page)?)?;
    layout(&fields)?;
    if k as u64 >= fields.places.count {
        return Err(Fault::Strip { strip: k, fault: StripFault::Missing { strips: fields.places.count } });
    }
    strip(&fields, k)
}

/// Layout, predictor, compression and number of strips of a page, or the first fault of all that [`explain`] looks at before
/// strips.
pub fn explain_layout(file: &[u8], page: usize) -> Result<(Layout, usize, Compression, usize), Fault> {
    let fields = fields(&directory(file, page)?)?;
    Ok((layout(&fields)?, fields.predictor as usize, fields.compression, fields.places.count as usize))
}

/// A tag that is not looked at, with a value that gives the samples or the rows of a page another meaning than the one
/// that they are read with. As text it says how they are read.
#[derive(Clone, Copy, Debug, PartialEq, Eq)]
pub struct Skipped {
    /// 266 (FillOrder), 274 (Orientation) or 339 (SampleFormat).
    pub tag: u64,
    /// Its first value that is not 1.
    pub value: u64,
}

/// The tags of a page that should make its reader wary, though they are no reason to refuse it; none where the directory
/// is refused.
pub fn skipped(file: &[u8], page: usize) -> Vec<Skipped> {
    let Ok(directory) = directory(file, page) else {
        return Vec::new();
    };
    let wary = |tag: u64| {
        let values = directory.values(tag).ok()??;
        let value = (0..values.count).map(|k| values.get(k)).find(|&value| value != 1)?;
        Some(Skipped { tag, value })
    };
    SKIPPED_TAGS.into_iter().filter_map(wary).collect()
}

/// A file's bytes, read as numbers in its byte order.
#[derive(Clone, Copy)]
struct Source<'a> {
    bytes: &'a [u8],
    order: ByteOrder,
}

impl Source<'_> {
    fn length(&self) -> u64 {
        self.bytes.len() as u64
    }

    /// The number of `size` bytes at a place; they are all there.
    fn number(&self, at: u64, size: u64) -> u64 {
        let digits = &self.bytes[at as usize..(at + size) as usize];
        let worth = |value: u64, digit: &u8| value * 256 + u64::from(*digit);
        match self.order {
            ByteOrder::Big => digits.iter().fold(0, worth),
            ByteOrder::Little => digits.iter().rev().fold(0, worth),
        }
    }
}

/// A directory that is all there, its tags ascending.
struct Directory<'a> {
    source: Source<'a>,
    at: u64,
    entries: u64,
}

/// The values of a tag: `count` of `size` bytes each, all there.
#[derive(Clone, Copy)]
struct Values<'a> {
    source: Source<'a>,
    at: u64,
    count: u64,
    size: u64,
}

impl Values<'_> {
    fn get(&self, k: u64) -> u64 {
        self.source.number(self.at + k * self.size, self.size)
    }
}

fn source(file: &[u8], page: usize) -> Result<Source<'_>, Fault> {
    if page >= MOST_PAGES {
        return Err(Fault::PageLimit { page });
    }
    if file.len() < 8 {
        return Err(Fault::NoHeader { length: file.len() });
    }
    let order = match &file[..2] {
        b"II" => ByteOrder::Little,
        b"MM" => ByteOrder::Big,
        _ => return Err(Fault::NoOrder { found: [file[0], file[1]] }),
    };
    let source = Source { bytes: file, order };
    match source.number(2, 2) {
        42 => Ok(source),
        found => Err(Fault::NoTiff { found }),
    }
}

/// The directory of a page, once those before it are found good.
fn directory(file: &[u8], page: usize) -> Result<Directory<'_>, Fault> {
    let source = source(file, page)?;
    let mut pointer = source.number(4, 4);
    for before in 0..page {
        pointer = directory_at(source, page, before, pointer)?.next();
    }
    directory_at(source, page, page, pointer)
}

/// The directory that a pointer leads to, that of page `this` on the way to `page`.
fn directory_at(source: Source<'_>, page: usize, this: usize, at: u64) -> Result<Directory<'_>, Fault> {
    let length = source.length();
    if at == 0 {
        return Err(Fault::NoPage { page, pages: this });
    }
    if at + 2 > length {
        return Err(Fault::NoCount { page: this, at, length });
    }
    let entries = source.number(at, 2);
    if entries > MOST_ENTRIES as u64 {
        return Err(Fault::EntryLimit { page: this, at, entries });
    }
    let end = at + 2 + 12 * entries + 4;
    if end > length {
        return Err(Fault::DirectoryEnd { page: this, at, entries, end, length });
    }
    let found = Directory { source, at, entries };
    for entry in 1..entries {
        let (before, tag) = (found.tag(entry - 1), found.tag(entry));
        if tag <= before {
            return Err(Fault::TagOrder { page: this, entry, tag, before });
        }
    }
    Ok(found)
}

impl<'a> Directory<'a> {
    fn entry(&self, number: u64) -> u64 {
        self.at + 2 + 12 * number
    }

    fn tag(&self, number: u64) -> u64 {
        self.source.number(self.entry(number), 2)
    }

    /// The pointer to the directory after this one.
    fn next(&self) -> u64 {
        self.source.number(self.entry(self.entries), 4)
    }

    /// Where the entry of a tag stands, if it is there.
    fn find(&self, tag: u64) -> Option<u64> {
        (0..self.entries).find(|&n| self.tag(n) == tag).map(|n| self.entry(n))
    }

    /// The values of a tag, if it is there; their type, count and room are good.
    fn values(&self, tag: u64) -> Result<Option<Values<'a>>, Fault> {
        let wrong = |fault| Err(Fault::Tag { tag, fault });
        let Some(entry) = self.find(tag) else {
            return Ok(None);
        };
        let size = match self.source.number(entry + 2, 2) {
            SHORT => 2,
            LONG if LONG_TAGS.contains(&tag) => 4,
            found => return wrong(TagFault::Type { found }),
        };
        let count = self.source.number(entry + 4, 4);
        let good = if LIST_TAGS.contains(&tag) { count != 0 } else { count == 1 };
        if !good {
            return wrong(TagFault::Count { found: count });
        }
        let (bytes, length) = (count * size, self.source.length());
        let at = if bytes <= 4 { entry + 8 } else { self.source.number(entry + 8, 4) };
        if at + bytes > length {
            return wrong(TagFault::Room { at, bytes, length });
        }
        Ok(Some(Values { source: self.source, at, count, size }))
    }

    /// The values of a tag that has to be there.
    fn needed(&self, tag: u64) -> Result<Values<'a>, Fault> {
        let tiled = tag == 273 && self.find(TILES).is_some();
        let fault = if tiled { TagFault::Tiled } else { TagFault::Missing };
        self.values(tag)?.ok_or(Fault::Tag { tag, fault })
    }

    /// The one value of a tag, or where it is missing its default.
    fn value_or(&self, tag: u64, default: u64) -> Result<u64, Fault> {
        Ok(self.values(tag)?.map_or(default, |values| values.get(0)))
    }
}

/// What the tags of a directory say, all of them good and in agreement.
struct Fields<'a> {
    w: u64,
    h: u64,
    bits: u64,
    compression: Compression,
    kind: u64,
    places: Values<'a>,
    samples: u64,
    rows_per_strip: u64,
    lengths: Values<'a>,
    separate: bool,
    predictor: u64,
    map: u64,
    alpha: u64,
}

/// 262: samples are places in a palette.
const PALETTE: u64 = 3;

/// The tag that every page of tiles has.
const TILES: u64 = 322;

fn wrong_if(found: bool, tag: u64, fault: TagFault) -> Result<(), Fault> {
    if found {
        Err(Fault::Tag { tag, fault })
    } else {
        Ok(())
    }
}

fn served(tag: u64, value: u64, served: bool) -> Result<u64, Fault> {
    wrong_if(!served, tag, TagFault::Value { number: 0, value })?;
    Ok(value)
}

/// 258: how many values it has, and the one that they all are.
fn bits(directory: &Directory) -> Result<(u64, u64), Fault> {
    let Some(values) = directory.values(258)? else {
        return Ok((1, 1));
    };
    let first = values.get(0);
    for number in 0..values.count {
        let value = values.get(number);
        let good = value == first && [1, 4, 8, 16].contains(&value);
        wrong_if(!good, 258, TagFault::Value { number, value })?;
    }
    Ok((values.count, first))
}

/// 259: how strips are compressed.
fn compression(directory: &Directory) -> Result<Compression, Fault> {
    match directory.value_or(259, 1)? {
        1 => Ok(Compression::None),
        32_773 => Ok(Compression::PackBits),
        value => Err(Fault::Tag { tag: 259, fault: TagFault::Value { number: 0, value } }),
    }
}

/// 277: the samples of a pixel.
fn samples(directory: &Directory, bit_count: u64, own: u64) -> Result<u64, Fault> {
    let samples = directory.value_or(277, 1)?;
    wrong_if(samples != bit_count, 277, TagFault::SamplesOfBits { samples, bits: bit_count })?;
    wrong_if(samples != own && samples != own + 1, 277, TagFault::SamplesOfKind { samples, own })?;
    Ok(samples)
}

/// 279: the bytes of each strip.
fn lengths<'a>(directory: &Directory<'a>, places: u64) -> Result<Values<'a>, Fault> {
    let lengths = directory.needed(279)?;
    wrong_if(lengths.count != places, 279, TagFault::LengthsOfPlaces { lengths: lengths.count, places })?;
    Ok(lengths)
}

/// 284: whether planes stand apart.
fn separate(directory: &Directory, height: u64, rows_per_strip: u64, samples: u64, places: u64) -> Result<bool, Fault> {
    let planar = directory.value_or(284, 1)?;
    served(284, planar, planar == 1 || planar == 2)?;
    let planes = if planar == 2 { samples } else { 1 };
    let strips = height.div_ceil(rows_per_strip) * planes;
    wrong_if(places != strips, 284, TagFault::PlacesOfStrips { places, strips })?;
    Ok(planar == 2)
}

/// 320: where the colours of a palette stand.
fn map(directory: &Directory, bits: u64) -> Result<u64, Fault> {
    let colours = directory.needed(320)?;
    let needed = 3 * (1 << bits);
    wrong_if(colours.count != needed, 320, TagFault::ColoursOfBits { found: colours.count, needed })?;
    Ok(colours.at)
}

/// 338: the kind of the extra sample, 0 if there is none.
fn alpha(directory: &Directory, samples: u64, own: u64) -> Result<u64, Fault> {
    let (extra, kind) = match directory.values(338)? {
        Some(values) => (1, values.get(0)),
        None => (0, 0),
    };
    served(338, kind, extra == 0 || kind == 1 || kind == 2)?;
    wrong_if(samples != own + extra, 338, TagFault::ExtraSamples { samples, own, extra })?;
    Ok(kind)
}

/// Every used tag, ascending.
fn fields<'a>(directory: &Directory<'a>) -> Result<Fields<'a>, Fault> {
    let w = directory.needed(256)?.get(0);
    let h = directory.needed(257)?.get(0);
    let (bit_count, bits) = bits(directory)?;
    let compression = compression(directory)?;
    let kind = directory.needed(262)?.get(0);
    served(262, kind, kind <= 3)?;
    let places = directory.needed(273)?;
    let own = if kind == 2 { 3 } else { 1 };
    let samples = samples(directory, bit_count, own)?;
    let rows_per_strip = directory.value_or(278, (1 << 32) - 1)?;
    wrong_if(rows_per_strip == 0, 278, TagFault::NoRows)?;
    let lengths = lengths(directory, places.count)?;
    let separate = separate(directory, h, rows_per_strip, samples, places.count)?;
    let predictor = directory.value_or(317, 1)?;
    served(317, predictor, predictor == 1 || (predictor == 2 && bits >= 8))?;
    let map = if kind == PALETTE { map(directory, bits)? } else { 0 };
    let alpha = alpha(directory, samples, own)?;
    Ok(Fields {
        w,
        h,
        bits,
        compression,
        kind,
        places,
        samples,
        rows_per_strip,
        lengths,
        separate,
        predictor,
        map,
        alpha,
    })
}

/// The layout of the page, if the layout check has no fault of it. Those that the tags leave no room for are not looked for.
fn layout(fields: &Fields) -> Result<Layout, Fault> {
    let Fields { w, h, bits, samples, separate, .. } = *fields;
    let (palette, alpha) = (fields.kind == PALETTE, fields.alpha != 0);
    let ch = if palette { 3 } else { samples };
    let bytes = if bits == 16 { 2 } else { 1 };
    let size = u128::from(w) * u128::from(h) * u128::from(ch * bytes);
    let faults = [
        (w == 0, 256, LayoutFault::Empty),
        (alpha && bits != 8, 338, LayoutFault::AlphaBits { bits }),
        (alpha && palette, 338, LayoutFault::AlphaPalette),
        (palette && bits == 16, 258, LayoutFault::PaletteBits),
        (palette && separate, 284, LayoutFault::PalettePlanes),
        (!palette && bits == 4, 258, LayoutFault::FourBits),
        (!palette && bits == 1 && samples != 1, 258, LayoutFault::OneBit { samples }),
        (w > MOST_SIDE as u64, 256, LayoutFault::Side { value: w }),
        (h > MOST_SIDE as u64, 257, LayoutFault::Side { value: h }),
        (size > MOST_PICTURE_BYTES as u128, 257, LayoutFault::Size { w, h, ch, bytes }),
    ];
    if let Some((_, tag, fault)) = faults.into_iter().find(|(found, ..)| *found) {
        return Err(Fault::Layout { tag, fault });
    }
    Ok(Layout {
        w: w as usize,
        h: h as usize,
        ch: ch as usize,
        bytes: bytes as usize,
        slots: if bits < 8 { 8 / bits as usize } else { 1 },
        palette,
        separate,
        order: fields.places.source.order,
        white: fields.kind == 0,
        alpha: fields.alpha as usize,
        map: fields.map as usize,
    })
}

/// Place and length of a strip that is there.
fn strip(fields: &Fields, k: usize) -> Result<(usize, usize), Fault> {
    let Fields { w, h, bits, samples, separate, rows_per_strip, .. } = *fields;
    let row_bytes = (w * bits * if separate { 1 } else { samples }).div_ceil(8);
    let in_plane = k as u64 % h.div_ceil(rows_per_strip);
    let rows = rows_per_strip.min(h - in_plane * rows_per_strip);
    let (place, length) = (fields.places.get(k as u64), fields.lengths.get(k as u64));
    let wrong = |fault| Err(Fault::Strip { strip: k, fault });
    if fields.compression == Compression::None && length != rows * row_bytes {
        return wrong(StripFault::Length { length, rows, row_bytes });
    }
    let file = fields.places.source.length();
    if place + length > file {
        return wrong(StripFault::End { place, length, file });
    }
    let (place, length) = (place as usize, length as usize);
    if fields.compression == Compression::PackBits {
        let up_to_end = &fields.places.source.bytes[..place + length];
        packed_rows(up_to_end, place, rows, row_bytes as usize).map_err(|fault| Fault::Strip { strip: k, fault })?;
    }
    Ok((place, length))
}

/// The rows of a strip from a place to the end of these bytes.
fn packed_rows(bytes: &[u8], place: usize, rows: u64, row_bytes: usize) -> Result<(), StripFault> {
    let mut at = place;
    for row in 0..rows {
        at = explain_row(bytes, at, row_bytes).map_err(|fault| StripFault::Row { row, at: at as u64, fault })?;
    }
    if at < bytes.len() {
        return Err(StripFault::LeftOver { rows, end: at as u64, bytes: (bytes.len() - at) as u64 });
    }
    Ok(())
}

impl Fault {
    /// The refusal that it leads to.
    pub fn refusal(&self) -> Refusal {
        match self {
            Fault::PageLimit { .. } | Fault::EntryLimit { .. } => Refusal::Limit,
            Fault::Strip { fault: StripFault::Row { fault, .. }, .. } => fault.refusal(),
            Fault::NoHeader { .. }
            | Fault::NoCount { .. }
            | Fault::DirectoryEnd { .. }
            | Fault::Strip { fault: StripFault::End { .. }, .. }
            | Fault::Tag { fault: TagFault::Room { .. }, .. } => Refusal::Truncated,
            Fault::Tag { fault: TagFault::Value { .. }, .. } => Refusal::Unsupported,
            Fault::Layout { fault: LayoutFault::Side { .. } | LayoutFault::Size { .. }, .. } => Refusal::Limit,
            Fault::NoOrder { .. }
            | Fault::NoTiff { .. }
            | Fault::NoPage { .. }
            | Fault::TagOrder { .. }
            | Fault::Tag { .. }
            | Fault::Layout { .. }
            | Fault::Strip { .. } => Refusal::Invalid,
        }
    }
}

impl Error for Fault {}

#[cfg(test)]
mod tests {
    use super::*;

    type Entry = (u16, u16, u32, u32);

    /// 4 columns and 3 rows of grey bytes, two rows to a strip; the strips stand from byte 200, their places at byte 180.
    const GREY: [Entry; 8] = [
        (256, 3, 1, 4),
        (257, 4, 1, 3),
        (258, 3, 1, 8),
        (262, 3, 1, 1),
        (273, 4, 2, 180),
        (277, 3, 1, 1),
        (278, 3, 1, 2),
        (279, 3, 2, 8 + (4 << 16)),
    ];

    /// A file of 220 bytes with its directory at byte 8, least significant byte first.
    fn file(entries: &[Entry]) -> Vec<u8> {
        let mut file = vec![b'I', b'I', 42, 0, 8, 0, 0, 0];
        file.extend((entries.len() as u16).to_le_bytes());
        for (tag, kind, count, value) in entries {
            file.extend([tag.to_le_bytes(), kind.to_le_bytes()].concat());
            file.extend([count.to_le_bytes(), value.to_le_bytes()].concat());
        }
        file.resize(220, 0);
        file[180..184].copy_from_slice(&200u32.to_le_bytes());
        file[184..188].copy_from_slice(&208u32.to_le_bytes());
        file
    }

    /// The grey file with one entry in place of that of its tag, or beside the others.
    fn with(entry: Entry) -> Vec<u8> {
        let mut entries: Vec<Entry> = GREY.into_iter().filter(|e| e.0 != entry.0).collect();
        entries.push(entry);
        entries.sort();
        file(&entries)
    }

    #[track_caller]
    fn assert_fault(file: &[u8], page: usize, refusal: Refusal, text: &str) {
        let fault = explain(file, page).unwrap_err();
        assert_eq!((fault.refusal(), fault.to_string().as_str()), (refusal, text));
    }

    #[test]
    fn a_grey_page_of_two_strips() {
        let layout = Layout::grey(4, 3, ByteOrder::Little);
        let strips = vec![(200, 8), (208, 4)];
        let reading = Reading { layout, predictor: 1, compression: Compression::None, strips };
        assert_eq!(explain(&file(&GREY), 0), Ok(reading));
        assert_eq!(explain_strip(&file(&GREY), 0, 1), Ok((208, 4)));
    }

    #[test]
    fn a_short_in_the_entry_of_a_big_endian_file_stands_in_its_high_half() {
        let entries: [[u8; 12]; 5] = [
            [1, 0, 0, 3, 0, 0, 0, 1, 0, 9, 0xFF, 0xFF],
            [1, 1, 0, 3, 0, 0, 0, 1, 0, 2, 0xFF, 0xFF],
            [1, 6, 0, 3, 0, 0, 0, 1, 0, 0, 0xFF, 0xFF],
            [1, 17, 0, 4, 0, 0, 0, 1, 0, 0, 0, 0],
            [1, 23, 0, 3, 0, 0, 0, 1, 0, 4, 0xFF, 0xFF],
        ];
        let file = [&[b'M', b'M', 0, 42, 0, 0, 0, 8, 0, 5][..], &entries.concat(), &[0; 4]].concat();
        let layout = Layout { white: true, ..Layout::bilevel(9, 2, ByteOrder::Big) };
        let reading = Reading { layout, predictor: 1, compression: Compression::None, strips: vec![(0, 4)] };
        assert_eq!(explain(&file, 0), Ok(reading));
    }

    #[test]
    fn the_file_and_its_pages() {
        let good = file(&GREY);
        let mut looped = good.clone();
        looped[10 + 12 * GREY.len()] = 8;
        assert_eq!(explain(&looped, 15), explain(&good, 0));
        assert_fault(&[], 16, Refusal::Limit, "page 16 is above 15, the highest that is read");
        assert_fault(&good[..7], 0, Refusal::Truncated, "the file's length is 7; a header has 8 bytes");
        let text = "the file begins with bytes 73 and 77, not with II or MM: it is no TIFF file";
        assert_fault(b"IM*\0\0\0\0\0", 0, Refusal::Invalid, text);
        assert_fault(b"MM*\0\0\0\0\0", 0, Refusal::Invalid, "the number at byte 2 is 10752, not TIFF's 42");
        let text = "the number at byte 2 is 43, not TIFF's 42: the file is a BigTIFF, which is not read";
        assert_fault(b"MM\0+\0\x08\0\0", 0, Refusal::Invalid, text);
        let text = "page 3 is not there: the file has 0 pages, the first being 0";
        assert_fault(b"II*\0\0\0\0\0", 3, Refusal::Invalid, text);
        assert_fault(&good, 2, Refusal::Invalid, "page 2 is not there: the file has 1 page, page 0");
    }

    #[test]
    fn directories() {
        let good = file(&GREY);
        let text = "page 0: its directory is at byte 8, and the file ends at byte 9";
        assert_fault(&good[..9], 0, Refusal::Truncated, text);
        let text = "page 0: the directory at byte 8, of count 8, ends at byte 110, and the file at byte 109";
        assert_fault(&good[..109], 0, Refusal::Truncated, text);
        let text = "page 0: the directory at byte 8 says 65 entries; at most 64 are read";
        assert_fault(b"II*\0\x08\0\0\0\x41\0", 0, Refusal::Limit, text);
        let twice = file(&[(256, 3, 1, 4), (256, 3, 1, 4)]);
        let text = "page 0: entry 1 has tag 256, not above tag 256 of the entry before it";
        assert_fault(&twice, 0, Refusal::Invalid, text);
    }

    #[test]
    fn entries() {
        let text = "tag 256 (ImageWidth): it is missing and has no default";
        assert_fault(&file(&GREY[1..]), 0, Refusal::Invalid, text);
        let text = "tag 256 (ImageWidth): its type is 5, neither 3 (SHORT) nor 4 (LONG)";
        assert_fault(&with((256, 5, 9, 4)), 0, Refusal::Invalid, text);
        let text = "tag 262 (PhotometricInterpretation): its type is 4, not 3 (SHORT)";
        assert_fault(&with((262, 4, 1, 1)), 0, Refusal::Invalid, text);
        assert_fault(&with((257, 3, 2, 3)), 0, Refusal::Invalid, "tag 257 (ImageLength): its count is 2, not 1");
        assert_fault(&with((273, 4, 0, 180)), 0, Refusal::Invalid, "tag 273 (StripOffsets): its count is 0");
        let text = "tag 273 (StripOffsets): its 8 bytes at byte 213 end at byte 221, and the file at byte 220";
        assert_fault(&with((273, 4, 2, 213)), 0, Refusal::Truncated, text);
        let text = "tag 258 (BitsPerSample): its value 2, the first being 0, is 0; served are 1, 4, 8 and 16, the same for all samples";
        let mut bits = with((258, 3, 3, 190));
        bits[190..194].copy_from_slice(&[8, 0, 8, 0]);
        assert_fault(&bits, 0, Refusal::Unsupported, text);
    }

    #[test]
    fn tiles() {
        let mut entries = GREY.to_vec();
        entries[4] = (322, 3, 1, 16);
        entries.sort();
        let text = "tag 273 (StripOffsets): it is missing, and tag 322 (TileWidth) is there: the page has tiles, and only strips are read";
        assert_fault(&file(&entries), 0, Refusal::Invalid, text);
        assert!(explain(&with((322, 3, 1, 16)), 0).is_ok());
    }

    #[test]
    fn values_that_are_not_served() {
        let text = "tag 259 (Compression): its value is 5 (LZW); served are 1, not compressed, and 32773, PackBits";
        assert_fault(&with((259, 3, 1, 5)), 0, Refusal::Unsupported, text);
        let text = "tag 258 (BitsPerSample): its value is 32; served are 1, 4, 8 and 16, the same for all samples";
        assert_fault(&with((258, 3, 1, 32)), 0, Refusal::Unsupported, text);
        let text = "tag 284 (PlanarConfiguration): its value is 3; served are 1 and 2";
        assert_fault(&with((284, 3, 1, 3)), 0, Refusal::Unsupported, text);
    }

    #[test]
    fn skipped_tags() {
        let told = |entry: Entry| skipped(&with(entry), 0).iter().map(Skipped::to_string).collect::<Vec<_>>();
        assert_eq!(told((266, 3, 1, 2)), ["tag 266 (FillOrder) is 2: bits are taken as they stand"]);
        let text = "tag 274 (Orientation) is 6: rows are taken from the top, columns from the left";
        assert_eq!(told((274, 3, 1, 6)), [text]);
        let text = "tag 339 (SampleFormat) is 3 (floating point): samples are taken as whole numbers without a sign";
        assert_eq!(told((339, 3, 2, 1 + (3 << 16))), [text]);
        // 1 is how they are taken; what cannot be read is not looked at; nor is a page that is refused
        for silent in [(266, 3, 1, 1), (339, 3, 2, 1 + (1 << 16)), (266, 4, 1, 2), (339, 3, 3, 215), (273, 4, 2, 180)] {
            assert_eq!(told(silent), [""; 0]);
        }
        assert_eq!(skipped(&with((266, 3, 1, 2)), 1), []);
    }

    #[test]
    fn contradictions() {
        let text = "tag 277 (SamplesPerPixel): its value is 2, and the count of tag 258 (BitsPerSample) is 1";
        assert_fault(&with((277, 3, 1, 2)), 0, Refusal::Invalid, text);
        let text = "tag 277 (SamplesPerPixel): its value is 1; tag 262 (PhotometricInterpretation) asks for 3, or 4 with alpha";
        assert_fault(&with((262, 3, 1, 2)), 0, Refusal::Invalid, text);
        let text = "tag 279 (StripByteCounts): its count is 1, and the count of tag 273 (StripOffsets) is 2";
        assert_fault(&with((279, 3, 1, 12)), 0, Refusal::Invalid, text);
        let text =
            "tag 284 (PlanarConfiguration): strips of the picture: 3, and the count of tag 273 (StripOffsets) is 2";
        assert_fault(&with((278, 3, 1, 1)), 0, Refusal::Invalid, text);
        let text = "tag 338 (ExtraSamples): it asks for 2 samples to a pixel, and tag 277 (SamplesPerPixel) is 1";
        assert_fault(&with((338, 3, 1, 2)), 0, Refusal::Invalid, text);
        assert_fault(
            &with((278, 3, 1, 0)),
            0,
            Refusal::Invalid,
            "tag 278 (RowsPerStrip): its value is 0: a strip has rows",
        );
        assert_fault(
            &with((262, 3, 1, 3)),
            0,
            Refusal::Invalid,
            "tag 320 (ColorMap): it is missing and has no default",
        );
    }

    #[test]
    fn layouts() {
        assert_fault(
            &with((256, 4, 1, 16_385)),
            0,
            Refusal::Limit,
            "tag 256 (ImageWidth): its value is 16385; at most 16384 is read",
        );
        assert_fault(
            &with((256, 4, 1, 0)),
            0,
            Refusal::Invalid,
            "tag 256 (ImageWidth): its value is 0: that leaves no picture",
        );
        assert_fault(
            &with((258, 3, 1, 4)),
            0,
            Refusal::Invalid,
            "tag 258 (BitsPerSample): samples of 4 bits go with a palette alone",
        );
    }

    #[test]
    fn strips() {
        let text = "strip 1: its byte count is 8, not rows 1 × row bytes 4 (4)";
        let short = with((279, 3, 2, 8 + (8 << 16)));
        assert_fault(&short, 0, Refusal::Invalid, text);
        assert_eq!(explain_strip(&short, 0, 0), Ok((200, 8)));
        let text = "strip 1: at byte 208 with 4 bytes it ends at byte 212, the file at byte 211";
        let cut = &file(&GREY)[..211];
        assert_fault(cut, 0, Refusal::Truncated, text);
        assert_eq!(explain_strip(cut, 0, 0), Ok((200, 8)));
        let fault = explain_strip(cut, 0, 2).unwrap_err();
        assert_eq!(fault.to_string(), "strip 2 is not there: the page has 2 strips");
    }

    /// The grey file with packed strips, the first of these bytes.
    fn with_packed(first: &[u8]) -> Vec<u8> {
        let mut file = with((259, 3, 1, 32_773));
        // its last entry is 279's
        let lengths = 10 + 12 * GREY.len() + 8;
        file[lengths..lengths + 4].copy_from_slice(&(first.len() as u32 + (2 << 16)).to_le_bytes());
        file[200..200 + first.len()].copy_from_slice(first);
        file[208..210].copy_from_slice(&[253, 9]);
        file
    }

    #[test]
    fn packed_strips() {
        let layout = Layout::grey(4, 3, ByteOrder::Little);
        let good = with_packed(&[253, 7, 128, 3, 1, 2, 3, 4]);
        let (compression, strips) = (Compression::PackBits, vec![(200, 8), (208, 2)]);
        assert_eq!(explain(&good, 0), Ok(Reading { layout, predictor: 1, compression, strips }));
        assert_eq!(explain_layout(&good, 0), Ok((layout, 1, compression, 2)));
        let text = "strip 0: row 1, from byte 202: the packet at byte 204 has 3 bytes, and the row has room for 2";
        assert_fault(&with_packed(&[253, 7, 255, 7, 2]), 0, Refusal::Invalid, text);
        let text = "strip 0: row 1, from byte 202: its input ends at byte 204, with 2 of its 4 bytes filled";
        assert_fault(&with_packed(&[253, 7, 255, 7]), 0, Refusal::Truncated, text);
        let text =
            "strip 0: row 0, from byte 200: the packet at byte 200 takes 5 bytes, and its input ends at byte 204";
        assert_fault(&with_packed(&[3, 1, 2, 3]), 0, Refusal::Truncated, text);
        let text = "strip 0: its rows 2 end at byte 204, and 1 byte is left over";
        assert_fault(&with_packed(&[253, 7, 253, 7, 128]), 0, Refusal::Invalid, text);
        let text = "strip 1: at byte 208 with 2 bytes it ends at byte 210, the file at byte 209";
        assert_fault(&good[..209], 0, Refusal::Truncated, text);
        assert_eq!(explain_strip(&good[..209], 0, 0), Ok((200, 8)));
    }
}
