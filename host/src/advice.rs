//! What TIFF 6.0 advises to one who writes a file.

use crate::{check_layout, Layout, Refusal};

/// The bytes that a strip should have, or a little fewer.
const STRIP_BYTES: usize = 8_192;

/// The rows per strip that TIFF 6.0 advises for [`write_file`](crate::write_file): the most that take 8192 bytes or fewer, at
/// least one, and at most those of the picture.
///
/// Refuses: as [`check_layout`].
///
/// ```
/// use hamrisk::{advised_rows_per_strip, ByteOrder::Little, Layout};
///
/// assert_eq!(advised_rows_per_strip(&Layout::grey(640, 480, Little)), Ok(12));
/// assert_eq!(advised_rows_per_strip(&Layout::colour(4_000, 3_000, Little)), Ok(1));
/// assert_eq!(advised_rows_per_strip(&Layout::bilevel(640, 80, Little)), Ok(80));
/// ```
pub fn advised_rows_per_strip(layout: &Layout) -> Result<usize, Refusal> {
    let derived = check_layout(layout)?;
    let row_bytes = derived.encoded_width * derived.plane_channels;
    Ok((STRIP_BYTES / row_bytes).clamp(1, layout.h))
}
