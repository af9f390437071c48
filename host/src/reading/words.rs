//! What faults and tags that are not looked at say to a person: the directory, tag or strip, and the number at fault.

use super::{Fault, LayoutFault, RowFault, Skipped, StripFault, TagFault, LONG_TAGS, TILES};
use crate::limits::{MOST_ENTRIES, MOST_PAGES, MOST_PICTURE_BYTES, MOST_SIDE};
use std::fmt;

/// The number at byte 2 of a file that has places of eight bytes.
const BIG_TIFF: u64 = 43;

impl fmt::Display for Fault {
    fn fmt(&self, f: &mut fmt::Formatter) -> fmt::Result {
        match *self {
            Fault::PageLimit { page } => write!(f, "page {page} is above {}, the highest that is read", MOST_PAGES - 1),
            Fault::NoHeader { length } => write!(f, "the file's length is {length}; a header has 8 bytes"),
            Fault::NoOrder { found: [a, b] } => {
                write!(f, "the file begins with bytes {a} and {b}, not with II or MM: it is no TIFF file")
            }
            Fault::NoTiff { found } => {
                let big = if found == BIG_TIFF { ": the file is a BigTIFF, which is not read" } else { "" };
                write!(f, "the number at byte 2 is {found}, not TIFF's 42{big}")
            }
            Fault::NoPage { page, pages } => {
                let there = if pages == 1 { "page, page 0" } else { "pages, the first being 0" };
                write!(f, "page {page} is not there: the file has {pages} {there}")
            }
            Fault::NoCount { page, at, length } => {
                write!(f, "page {page}: its directory is at byte {at}, and the file ends at byte {length}")
            }
            Fault::EntryLimit { page, at, entries } => {
                let most = MOST_ENTRIES;
                write!(f, "page {page}: the directory at byte {at} says {entries} entries; at most {most} are read")
            }
            Fault::DirectoryEnd { page, at, entries, end, length } => {
                write!(f, "page {page}: the directory at byte {at}, of count {entries}, ends at byte {end}, ")?;
                write!(f, "and the file at byte {length}")
            }
            Fault::TagOrder { page, entry, tag, before } => {
                write!(f, "page {page}: entry {entry} has tag {tag}, not above tag {before} of the entry before it")
            }
            Fault::Tag { tag, fault } => {
                write!(f, "{}: ", Named(tag))?;
                fault.tell(tag, f)
            }
            Fault::Layout { tag, fault } => write!(f, "{}: {fault}", Named(tag)),
            Fault::Strip { strip, fault: fault @ StripFault::Missing { .. } } => write!(f, "strip {strip} {fault}"),
            Fault::Strip { strip, fault } => write!(f, "strip {strip}: {fault}"),
        }
    }
}

impl fmt::Display for StripFault {
    fn fmt(&self, f: &mut fmt::Formatter) -> fmt::Result {
        match *self {
            StripFault::Missing { strips: 1 } => write!(f, "is not there: the page has 1 strip"),
            StripFault::Missing { strips } => write!(f, "is not there: the page has {strips} strips"),
            StripFault::Length { length, rows, row_bytes } => {
                let needed = rows * row_bytes;
                write!(f, "its byte count is {length}, not rows {rows} × row bytes {row_bytes} ({needed})")
            }
            StripFault::End { place, length, file } => {
                let end = place + length;
                write!(f, "at byte {place} with {length} bytes it ends at byte {end}, the file at byte {file}")
            }
            StripFault::Row { row, at, fault } => write!(f, "row {row}, from byte {at}: {fault}"),
            StripFault::LeftOver { rows, end, bytes: 1 } => {
                write!(f, "its rows {rows} end at byte {end}, and 1 byte is left over")
            }
            StripFault::LeftOver { rows, end, bytes } => {
                write!(f, "its rows {rows} end at byte {end}, and {bytes} bytes are left over")
            }
        }
    }
}

impl fmt::Display for RowFault {
    fn fmt(&self, f: &mut fmt::Formatter) -> fmt::Result {
        match *self {
            RowFault::NoPacket { at, filled, row_bytes } => {
                write!(f, "its input ends at byte {at}, with {filled} of its {row_bytes} bytes filled")
            }
            RowFault::PastRow { at, bytes, left } => {
                write!(f, "the packet at byte {at} has {bytes} bytes, and the row has room for {left}")
            }
            RowFault::PacketEnd { at, takes, end } => {
                write!(f, "the packet at byte {at} takes {takes} bytes, and its input ends at byte {end}")
            }
        }
    }
}

impl TagFault {
    fn tell(self, tag: u64, f: &mut fmt::Formatter) -> fmt::Result {
        match self {
            TagFault::Missing => write!(f, "it is missing and has no default"),
            TagFault::Tiled => {
                write!(f, "it is missing, and {} is there: the page has tiles, and only strips are read", Named(TILES))
            }
            TagFault::Type { found } => write!(f, "its type is {found}, {}", types(tag)),
            TagFault::Count { found: 0 } => write!(f, "its count is 0"),
            TagFault::Count { found } => write!(f, "its count is {found}, not 1"),
            TagFault::Room { at, bytes, length } => {
                write!(f, "its {bytes} bytes at byte {at} end at byte {}, and the file at byte {length}", at + bytes)
            }
            TagFault::Value { number, value } => tell_value(f, tag, number, value),
            TagFault::NoRows => write!(f, "its value is 0: a strip has rows"),
            TagFault::SamplesOfBits { samples, bits } => {
                write!(f, "its value is {samples}, and the count of {} is {bits}", Named(258))
            }
            TagFault::SamplesOfKind { samples, own } => {
                write!(f, "its value is {samples}; {} asks for {own}, or {} with alpha", Named(262), own + 1)
            }
            TagFault::LengthsOfPlaces { lengths, places } => {
                write!(f, "its count is {lengths}, and the count of {} is {places}", Named(273))
            }
            TagFault::PlacesOfStrips { places, strips } => {
                write!(f, "strips of the picture: {strips}, and the count of {} is {places}", Named(273))
            }
            TagFault::ColoursOfBits { found, needed } => {
                write!(f, "its count is {found}; {} asks for {needed}", Named(258))
            }
            TagFault::ExtraSamples { samples, own, extra: 0 } => {
                write!(f, "it is missing, and {} is {samples}; {} asks for {own}", Named(277), Named(262))
            }
            TagFault::ExtraSamples { samples, own, .. } => {
                write!(f, "it asks for {} samples to a pixel, and {} is {samples}", own + 1, Named(277))
            }
        }
    }
}

fn tell_value(f: &mut fmt::Formatter, tag: u64, number: u64, value: u64) -> fmt::Result {
    match number {
        0 => write!(f, "its value is {value}{}; {}", Meant(tag, value), values(tag)),
        _ => write!(f, "its value {number}, the first being 0, is {value}; {}", values(tag)),
    }
}

/// What a wrong type of a tag is not.
fn types(tag: u64) -> &'static str {
    if LONG_TAGS.contains(&tag) {
        "neither 3 (SHORT) nor 4 (LONG)"
    } else {
        "not 3 (SHORT)"
    }
}

/// The values that are served of a tag.
fn values(tag: u64) -> &'static str {
    match tag {
        258 => "served are 1, 4, 8 and 16, the same for all samples",
        259 => "served are 1, not compressed, and 32773, PackBits",
        262 => "served are 0 and 1 (grey), 2 (red, green and blue) and 3 (a palette)",
        317 => "served are 1 and, from 8 bits a sample, 2",
        _ => "served are 1 and 2",
    }
}

/// What a tag's value stands for, in brackets, where it is a common one that is not served or not looked at.
struct Meant(u64, u64);

impl fmt::Display for Meant {
    fn fmt(&self, f: &mut fmt::Formatter) -> fmt::Result {
        let name = match (self.0, self.1) {
            (259, 2..=4) => "fax",
            (259, 5) => "LZW",
            (259, 6 | 7) => "JPEG",
            (259, 8 | 32_946) => "Deflate",
            (259, 34_925) => "LZMA",
            (259, 50_000) => "Zstandard",
            (259, 50_001) => "WebP",
            (262, 4) => "a mask",
            (262, 5) => "CMYK",
            (262, 6) => "YCbCr",
            (262, 8..=10) => "L*a*b*",
            (262, 32_803) => "a colour filter",
            (317, 3) => "floating point",
            (338, 0) => "no meaning given",
            (339, 2) => "with a sign",
            (339, 3) => "floating point",
            _ => return Ok(()),
        };
        write!(f, " ({name})")
    }
}

impl fmt::Display for Skipped {
    fn fmt(&self, f: &mut fmt::Formatter) -> fmt::Result {
        let Skipped { tag, value } = *self;
        let taken = match tag {
            266 => "bits are taken as they stand",
            274 => "rows are taken from the top, columns from the left",
            _ => "samples are taken as whole numbers without a sign",
        };
        write!(f, "{} is {value}{}: {taken}", Named(tag), Meant(tag, value))
    }
}

/// TIFF's name of a tag that is spoken of.
fn name(tag: u64) -> &'static str {
    match tag {
        256 => "ImageWidth",
        257 => "ImageLength",
        258 => "BitsPerSample",
        259 => "Compression",
        262 => "PhotometricInterpretation",
        266 => "FillOrder",
        273 => "StripOffsets",
        274 => "Orientation",
        277 => "SamplesPerPixel",
        278 => "RowsPerStrip",
        279 => "StripByteCounts",
        284 => "PlanarConfiguration",
        317 => "Predictor",
        320 => "ColorMap",
        322 => "TileWidth",
        338 => "ExtraSamples",
        339 => "SampleFormat",
        other => unreachable!("tag {other} is not spoken of"),
    }
}

/// A tag with its name.
struct Named(u64);

impl fmt::Display for Named {
    fn fmt(&self, f: &mut fmt::Formatter) -> fmt::Result {
        write!(f, "tag {} ({})", self.0, name(self.0))
    }
}

impl fmt::Display for LayoutFault {
    fn fmt(&self, f: &mut fmt::Formatter) -> fmt::Result {
        match self {
            LayoutFault::Empty => write!(f, "its value is 0: that leaves no picture"),
            LayoutFault::AlphaBits { bits } => write!(f, "alpha goes with samples of 8 bits, not of {bits}"),
            LayoutFault::AlphaPalette => write!(f, "alpha does not go with a palette"),
            LayoutFault::PaletteBits => write!(f, "a palette goes with samples of 1, 4 or 8 bits, not of 16"),
            LayoutFault::PalettePlanes => write!(f, "a palette does not go with planes apart (2)"),
            LayoutFault::FourBits => write!(f, "samples of 4 bits go with a palette alone"),
            LayoutFault::OneBit { samples } => write!(f, "samples of 1 bit go one to a pixel, not {samples}"),
            LayoutFault::Side { value } => write!(f, "its value is {value}; at most {MOST_SIDE} is read"),
            LayoutFault::Size { w, h, ch, bytes } => {
                let size = u128::from(w * h) * u128::from(ch * bytes);
                write!(f, "{w} columns × {h} rows × {ch} channels × {bytes} bytes are {size} bytes, ")?;
                write!(f, "above {MOST_PICTURE_BYTES}")
            }
        }
    }
}
