//! What a user wants of a TIFF file in one call: the picture of a page, its samples, or where its strips stand.

use crate::owned::zeros;
use crate::*;
use std::ops::Range;

/// The picture of a page.
#[derive(Clone, Debug, PartialEq, Eq, Hash)]
pub struct Picture {
    /// The page that it is of.
    pub page: Page,
    /// Rows of pixels of `page.layout.ch` channels of `page.layout.bytes` bytes, the most significant first.
    pub bytes: Vec<u8>,
}

/// The samples of a page.
#[derive(Clone, Debug, PartialEq, Eq, Hash)]
pub struct Samples {
    /// The page that they are of; its layout has the byte order of the file, not the asked one.
    pub page: Page,
    /// The planes one after the other, each rows of samples; several samples to a byte where they have 1 or 4 bits.
    pub bytes: Vec<u8>,
}

/// The picture of a page of a TIFF file, counted from 0: its strips gathered, compression and prediction undone, and rendered.
///
/// Refuses: as [`read_directory`]; then planes or a picture that there is no memory for is Limit.
///
/// Bits, samples and rows are taken as they stand in the file: [`skipped`] names the tags that say otherwise.
///
/// Strips may overlap in the file, so a file of 200 KB can hold a picture of 1 GiB, the most that is served. Where that is
/// too much, [`read_directory`] says beforehand what a page takes: scratch length for its samples, and output length
/// beside it for its picture.
///
/// ```
/// use hamrisk::{picture, Refusal};
///
/// let entry = |tag: u8, value: u8| [tag, 1, 3, 0, 1, 0, 0, 0, value, 0, 0, 0]; // one SHORT of tag 256 + `tag`
/// let mut file = b"II*\0\x08\0\0\0\x08\0".to_vec(); // a directory of eight entries at byte 8
/// // Two columns, one row, 16 bits, 0 is black, a strip at byte 110, of one row and four bytes; predicted.
/// for (tag, value) in [(0, 2), (1, 1), (2, 16), (6, 1), (17, 110), (22, 1), (23, 4), (61, 2)] {
///     file.extend(entry(tag, value));
/// }
/// file.extend([0, 0, 0, 0, 0x34, 0x12, 0x01, 0x00]); // no further page; the strip
/// assert_eq!(picture(&file, 0)?.bytes, [0x12, 0x34, 0x12, 0x35]);
/// assert_eq!(picture(&file[..113], 0), Err(Refusal::Truncated));
/// # Ok::<(), Refusal>(())
/// ```
pub fn picture(file: &[u8], page: usize) -> Result<Picture, Refusal> {
    let found = read_directory(file, page)?;
    let planes = planes(file, page, &found, found.layout.order)?;
    let mut bytes = zeros(found.derived.output_length)?;
    render(&found.layout, file, &planes, &mut bytes)?;
    Ok(Picture { page: found, bytes })
}

/// The samples of a page of a TIFF file, counted from 0, in the asked byte order: its strips gathered, compression and
/// prediction undone. Samples of 8 bits and fewer are the same in both orders.
///
/// Refuses: as [`read_directory`]; then planes that there is no memory for, as of [`picture`], is Limit.
///
/// ```
/// # let entry = |tag: u8, value: u8| [tag, 1, 3, 0, 1, 0, 0, 0, value, 0, 0, 0];
/// # let mut file = b"II*\0\x08\0\0\0\x08\0".to_vec();
/// # for (tag, value) in [(0, 2), (1, 1), (2, 16), (6, 1), (17, 110), (22, 1), (23, 4), (61, 2)] {
/// #     file.extend(entry(tag, value));
/// # }
/// # file.extend([0, 0, 0, 0, 0x34, 0x12, 0x01, 0x00]);
/// use hamrisk::{samples, ByteOrder, Refusal};
///
/// // The file of `picture`.
/// assert_eq!(samples(&file, 0, ByteOrder::Little)?.bytes, [0x34, 0x12, 0x35, 0x12]);
/// # Ok::<(), Refusal>(())
/// ```
pub fn samples(file: &[u8], page: usize, order: ByteOrder) -> Result<Samples, Refusal> {
    let found = read_directory(file, page)?;
    let bytes = planes(file, page, &found, order)?;
    Ok(Samples { page: found, bytes })
}

/// [`strip_places`] in a new `Vec`. Refuses as [`read_directory`].
pub fn placed(file: &[u8], page: usize) -> Result<Vec<Range<usize>>, Refusal> {
    places(file, page, read_directory(file, page)?.strips)
}

fn places(file: &[u8], page: usize, strips: usize) -> Result<Vec<Range<usize>>, Refusal> {
    let mut parts = vec![0; 2 * strips];
    strip_places(file, page, &mut parts)?;
    Ok(parts.chunks_exact(2).map(|part| part[0]..part[0] + part[1]).collect())
}

/// The planes that a page's strips are, end to end, unpacked and converted. A row never crosses a strip.
fn planes(file: &[u8], page: usize, found: &Page, order: ByteOrder) -> Result<Vec<u8>, Refusal> {
    let coding = Coding { from: found.layout.order, to: order, predict: found.predict };
    let mut planes = zeros(found.derived.scratch_length)?;
    let mut rest = &mut planes[..];
    for place in places(file, page, found.strips)? {
        rest = match found.compression {
            Compression::None => put_strip(&file[place], found.geometry(), coding, rest)?,
            Compression::PackBits => put_packed_strip(&file[place], found.geometry(), coding, rest)?,
        };
    }
    Ok(planes)
}

/// Converts a strip to the front of the planes; answers what is left of these.
fn put_strip<'a>(raw: &[u8], strip: Strip, coding: Coding, planes: &'a mut [u8]) -> Result<&'a mut [u8], Refusal> {
    let (out, rest) = planes.split_at_mut(raw.len());
    convert(raw, strip, coding, out)?;
    Ok(rest)
}

/// The same of a strip whose rows are packed, to its last byte.
fn put_packed_strip<'a>(
    mut packed: &[u8],
    strip: Strip,
    coding: Coding,
    mut planes: &'a mut [u8],
) -> Result<&'a mut [u8], Refusal> {
    let mut row = vec![0; strip.row_bytes];
    while !packed.is_empty() {
        packed = &packed[unpack_row(packed, &mut row)?..];
        planes = put_strip(&row, strip, coding, planes)?;
    }
    Ok(planes)
}
