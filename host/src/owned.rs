//! Calls that answer a `Vec` of the right length in place of writing to a slice.

use crate::*;

/// [`convert`] into a new `Vec`. Refuses as [`check_strip`].
pub fn converted(raw: &[u8], strip: Strip, coding: Coding) -> Result<Vec<u8>, Refusal> {
    let mut out = vec![0; raw.len()];
    convert(raw, strip, coding, &mut out)?;
    Ok(out)
}

/// [`forward`] into a new `Vec`. Refuses as [`check_strip`].
///
/// ```
/// use hamrisk::{converted, forwarded, ByteOrder, Coding, Refusal, Strip};
///
/// let strip = Strip { row_bytes: 8, channels: 1, width: 4 };
/// let coding = Coding { from: ByteOrder::Big, to: ByteOrder::Little, predict: true };
/// let words = forwarded(b"any text", strip, coding)?;
/// assert_eq!(converted(&words, strip, coding.back())?, b"any text");
/// # Ok::<(), Refusal>(())
/// ```
pub fn forwarded(raw: &[u8], strip: Strip, coding: Coding) -> Result<Vec<u8>, Refusal> {
    let mut out = vec![0; raw.len()];
    forward(raw, strip, coding, &mut out)?;
    Ok(out)
}

/// [`marks`] in a new `Vec`, and how many samples are marked. Refuses as [`check_strip`].
pub fn marked(damage: &[u8], strip: Strip, predict: bool) -> Result<(Vec<u8>, usize), Refusal> {
    check_strip(damage.len(), strip)?;
    let mut out = vec![0; damage.len() / strip.width];
    let count = marks(damage, strip, predict, &mut out)?;
    Ok((out, count))
}

/// [`unpack_row`] of a row of so many bytes into a new `Vec`, and how many bytes of `packed` it takes.
///
/// Refuses: a row that there is no memory for is Limit; then as [`unpack_row`].
///
/// ```
/// assert_eq!(hamrisk::unpacked(&[254, 9, 0, 1], 3), Ok((vec![9, 9, 9], 2)));
/// ```
pub fn unpacked(packed: &[u8], row_bytes: usize) -> Result<(Vec<u8>, usize), Refusal> {
    let mut row = zeros(row_bytes)?;
    let used = unpack_row(packed, &mut row)?;
    Ok((row, used))
}

/// A row packed by [`Plan::of`] it, in a new `Vec`: [`packed_length`] bytes at most.
///
/// ```
/// use hamrisk::{packed, unpacked};
///
/// let row = [7, 8, 9, 9, 9];
/// assert_eq!(packed(&row), [1, 7, 8, 254, 9]);
/// assert_eq!(unpacked(&packed(&row), 5), Ok((row.to_vec(), 5)));
/// ```
pub fn packed(row: &[u8]) -> Vec<u8> {
    let plan = Plan::of(row);
    let mut out = vec![0; plan.length()];
    write_plan(row, &plan, &mut out).expect("a row's own plan is written");
    out
}

/// So many zeros, if there is memory for them.
pub(crate) fn zeros(length: usize) -> Result<Vec<u8>, Refusal> {
    let mut bytes = Vec::new();
    bytes.try_reserve_exact(length).map_err(|_| Refusal::Limit)?;
    bytes.resize(length, 0);
    Ok(bytes)
}

/// [`render`] into a new `Vec`. Refuses as [`render`], but for a short output.
pub fn rendered(layout: &Layout, file: &[u8], raw: &[u8]) -> Result<Vec<u8>, Refusal> {
    let mut out = vec![0; check_layout(layout)?.output_length];
    render(layout, file, raw, &mut out)?;
    Ok(out)
}

/// [`write_planes`] into a new `Vec`. Refuses as [`write_planes`], but for a short output.
///
/// ```
/// use hamrisk::{rendered, written, ByteOrder::Big, Layout, Refusal};
///
/// let apart = Layout { separate: true, ..Layout::colour(2, 1, Big) };
/// let planes = written(&apart, &[1, 3, 5, 2, 4, 6])?;
/// assert_eq!(planes, [1, 2, 3, 4, 5, 6]);
/// assert_eq!(rendered(&apart, &[], &planes)?, [1, 3, 5, 2, 4, 6]);
/// # Ok::<(), Refusal>(())
/// ```
pub fn written(layout: &Layout, picture: &[u8]) -> Result<Vec<u8>, Refusal> {
    let mut planes = vec![0; check_layout(layout)?.scratch_length];
    write_planes(layout, picture, &mut planes)?;
    Ok(planes)
}

/// [`write_file`] into a new `Vec`. Refuses as [`write_file`], but for a short output.
///
/// ```
/// use hamrisk::{advised_rows_per_strip, picture, written, written_file, ByteOrder::Little, Layout, Refusal};
///
/// let depth = Layout { bytes: 2, ..Layout::grey(2, 1, Little) };
/// let planes = written(&depth, &[0x12, 0x34, 0x56, 0x78])?;
/// let file = written_file(&depth, advised_rows_per_strip(&depth)?, &planes)?;
/// let read = picture(&file, 0)?;
/// assert_eq!(read.page.layout, depth);
/// assert_eq!(read.bytes, [0x12, 0x34, 0x56, 0x78]);
/// # Ok::<(), Refusal>(())
/// ```
pub fn written_file(layout: &Layout, rows_per_strip: usize, planes: &[u8]) -> Result<Vec<u8>, Refusal> {
    let mut file = vec![0; file_length(layout, rows_per_strip)?];
    write_file(layout, rows_per_strip, planes, &mut file)?;
    Ok(file)
}
