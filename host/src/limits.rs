//! The numbers that the calls serve, as docs/RULES.md has them (10, and 5 for layouts). The library's own checks decide;
//! `tests/limits.rs` holds each number here to them.

use std::fmt;

/// Which values of a number are served. It reads as a list or a range: `1, 2, 3, 4 or 8`, `1 to 64`.
///
/// ```
/// use hamrisk::limits::WIDTHS;
///
/// assert!(WIDTHS.has(4) && !WIDTHS.has(5));
/// assert_eq!(WIDTHS.to_string(), "1, 2, 3, 4 or 8");
/// ```
#[derive(Clone, Copy, Debug, PartialEq, Eq)]
pub enum Served {
    /// These alone.
    OneOf(&'static [usize]),
    /// All from the first to the last.
    FromTo(usize, usize),
}

impl Served {
    /// Whether a value is served.
    pub fn has(self, value: usize) -> bool {
        match self {
            Served::OneOf(values) => values.contains(&value),
            Served::FromTo(first, last) => (first..=last).contains(&value),
        }
    }
}

impl fmt::Display for Served {
    fn fmt(&self, f: &mut fmt::Formatter) -> fmt::Result {
        match self {
            Served::OneOf(values) => {
                for (place, value) in values.iter().enumerate() {
                    let before = match values.len() - place {
                        _ if place == 0 => "",
                        1 => " or ",
                        _ => ", ",
                    };
                    write!(f, "{before}{value}")?;
                }
                Ok(())
            }
            Served::FromTo(first, last) => write!(f, "{first} to {last}"),
        }
    }
}

/// Bytes of a word of [`read_word`](crate::read_word), and of a sample of a [`Strip`](crate::Strip).
pub const WIDTHS: Served = Served::OneOf(&[1, 2, 3, 4, 8]);

/// The most bytes of a strip that arrives in [`Packets`](crate::Packets).
pub const MOST_STRIP_BYTES: usize = 1_073_741_824;

/// Bytes of a row that a literal of a [`Plan`](crate::Plan) has.
pub const LITERALS: Served = Served::FromTo(1, 128);

/// Bytes of a row, all equal, that a repeat of a [`Plan`](crate::Plan) has.
pub const REPEATS: Served = Served::FromTo(2, 128);

/// Bytes of a group of [`swap_components`](crate::swap_components).
pub const SWAP_WIDTHS: Served = Served::FromTo(1, 8);

/// Samples of a pixel of a [`Strip`](crate::Strip).
pub const CHANNELS: Served = Served::FromTo(1, 64);

/// `ch` of a [`Layout`](crate::Layout).
pub const LAYOUT_CH: Served = Served::FromTo(1, 4);

/// `bytes` of a [`Layout`](crate::Layout).
pub const LAYOUT_BYTES: Served = Served::OneOf(&[1, 2, 8]);

/// `bytes` of a [`Layout`](crate::Layout) that is rendered or written.
pub const RENDERED_BYTES: Served = Served::OneOf(&[1, 2]);

/// `slots` of a [`Layout`](crate::Layout).
pub const LAYOUT_SLOTS: Served = Served::OneOf(&[1, 2, 8]);

/// `alpha` of a [`Layout`](crate::Layout).
pub const LAYOUT_ALPHAS: Served = Served::FromTo(0, 2);

/// `alpha` of a [`Layout`](crate::Layout) that is written.
pub const WRITTEN_ALPHAS: Served = Served::OneOf(&[0, 2]);

/// The most columns, and the most rows, of a [`Layout`](crate::Layout).
pub const MOST_SIDE: usize = 16_384;

/// The most bytes of the picture of a [`Layout`](crate::Layout).
pub const MOST_PICTURE_BYTES: usize = 1_073_741_824;

/// The most pages of a file that are read.
pub const MOST_PAGES: usize = 16;

/// The page of [`read_directory`](crate::read_directory), the first being 0.
pub const PAGES: Served = Served::FromTo(0, MOST_PAGES - 1);

/// The most entries of a directory.
pub const MOST_ENTRIES: usize = 64;

/// Bits of a sample of a page (tag 258).
pub const SAMPLE_BITS: Served = Served::OneOf(&[1, 4, 8, 16]);

/// How the strips of a page are compressed (tag 259): not at all, or by PackBits.
pub const COMPRESSIONS: Served = Served::OneOf(&[1, 32_773]);

/// What the samples of a page are (tag 262): grey with 0 white, grey with 0 black, three colours, or indices of colours.
pub const COLOURS: Served = Served::FromTo(0, 3);

/// Where the planes of a page stand (tag 284): together or apart.
pub const PLANES: Served = Served::FromTo(1, 2);

/// Whether the samples of a page are predicted (tag 317): no, or from 8 bits up yes.
pub const PREDICTORS: Served = Served::FromTo(1, 2);

/// What the extra sample of a page is (tag 338): an alpha that the colours are multiplied by, or not.
pub const EXTRA_SAMPLES: Served = Served::FromTo(1, 2);
