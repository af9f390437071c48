//! What the calls take and answer.

use std::error::Error;
use std::{fmt, io};

/// Why a call did nothing: the first fault, in the order that stands at the call.
#[derive(Clone, Copy, Debug, PartialEq, Eq, Hash)]
pub enum Refusal {
    /// A width, channel count or mode not served.
    Unsupported = 1,
    /// Numbers that contradict each other, or forbidden content.
    Invalid,
    /// An input too short.
    Truncated,
    /// An output buffer too short.
    OutputTooSmall,
    /// A size above the limits of [`check_layout`](crate::check_layout), [`read_directory`](crate::read_directory) or
    /// [`Packets::piece`](crate::Packets::piece), or above what this machine has memory for.
    Limit,
}

impl Refusal {
    /// Its number, 1 to 5.
    ///
    /// ```
    /// assert_eq!(hamrisk::Refusal::Truncated.number(), 3);
    /// ```
    pub fn number(self) -> u32 {
        self as u32
    }
}

impl fmt::Display for Refusal {
    fn fmt(&self, f: &mut fmt::Formatter) -> fmt::Result {
        f.write_str(match self {
            Refusal::Unsupported => "a width, channel count or mode not served",
            Refusal::Invalid => "numbers that contradict each other, or forbidden content",
            Refusal::Truncated => "an input too short",
            Refusal::OutputTooSmall => "an output buffer too short",
            Refusal::Limit => "a size above the limit",
        })
    }
}

impl Error for Refusal {}

/// An error of kind `InvalidData` that has the refusal within: `get_ref` and `downcast` give it back.
impl From<Refusal> for io::Error {
    fn from(refusal: Refusal) -> io::Error {
        io::Error::new(io::ErrorKind::InvalidData, refusal)
    }
}

/// A place counted in bytes.
#[derive(Clone, Copy, Debug, PartialEq, Eq, PartialOrd, Ord, Hash)]
pub struct ByteAt(pub usize);

/// A place counted in samples.
#[derive(Clone, Copy, Debug, PartialEq, Eq, PartialOrd, Ord, Hash)]
pub struct SampleAt(pub usize);

/// Which byte of a word comes first. There is no default: a wrong guess would swap every sample without a word.
#[derive(Clone, Copy, Debug, PartialEq, Eq, Hash)]
pub enum ByteOrder {
    /// The least significant one.
    Little,
    /// The most significant one.
    Big,
}

/// The geometry of a strip: rows of pixels of samples, one after the other.
#[derive(Clone, Copy, Debug, PartialEq, Eq, Hash)]
pub struct Strip {
    /// Bytes of a row.
    pub row_bytes: usize,
    /// Samples of a pixel.
    pub channels: usize,
    /// Bytes of a sample.
    pub width: usize,
}

/// How a strip is read and written. Samples of one byte are the same in both orders.
#[derive(Clone, Copy, Debug, PartialEq, Eq, Hash)]
pub struct Coding {
    /// The byte order that is read.
    pub from: ByteOrder,
    /// The byte order that is written.
    pub to: ByteOrder,
    /// Whether each sample but a row's first pixel is stored less the one a pixel before it.
    pub predict: bool,
}

impl Coding {
    /// The coding of the way back: [`forward`](crate::forward) with one and [`convert`](crate::convert) with the other
    /// give the first bytes back.
    pub fn back(self) -> Coding {
        Coding { from: self.to, to: self.from, predict: self.predict }
    }
}

/// A picture, and how its planes hold it. Build one from [`grey`](Layout::grey), [`colour`](Layout::colour),
/// [`bilevel`](Layout::bilevel) or [`indexed`](Layout::indexed) and change what differs:
///
/// ```
/// use hamrisk::{check_layout, ByteOrder, Layout, Refusal};
///
/// let depth = Layout { bytes: 2, ..Layout::grey(640, 480, ByteOrder::Little) };
/// assert_eq!(check_layout(&depth)?.output_length, 614_400);
/// # Ok::<(), Refusal>(())
/// ```
#[derive(Clone, Copy, Debug, PartialEq, Eq, Hash)]
pub struct Layout {
    /// Columns of the picture.
    pub w: usize,
    /// Rows of the picture.
    pub h: usize,
    /// Channels of a pixel, as it is rendered: 1 to 4.
    pub ch: usize,
    /// Bytes of a channel, as it is rendered: 1 or 2; 8 is a layout but is neither rendered nor written.
    pub bytes: usize,
    /// Samples in a byte of the planes: 8 in a bilevel picture, 1, 2 or 8 with a palette, else 1.
    pub slots: usize,
    /// Whether the planes hold indices of colours.
    pub palette: bool,
    /// Whether each channel stands in a plane of its own.
    pub separate: bool,
    /// The byte order of the planes, and of the palette; planes of one byte have none.
    pub order: ByteOrder,
    /// Whether 0 is white; a palette ignores it.
    pub white: bool,
    /// 0: no alpha; 1: the last channel is alpha and the others are multiplied by it, which rendering undoes; 2: it is,
    /// and they are not.
    pub alpha: usize,
    /// The byte of the file at which the palette begins: all reds, then greens, then blues, two bytes each.
    pub map: usize,
}

impl Layout {
    /// One channel of one byte, 0 black; the order counts once `bytes` is 2.
    pub const fn grey(w: usize, h: usize, order: ByteOrder) -> Layout {
        Layout {
            w,
            h,
            ch: 1,
            bytes: 1,
            slots: 1,
            palette: false,
            separate: false,
            order,
            white: false,
            alpha: 0,
            map: 0,
        }
    }

    /// Three channels of one byte, side by side; the order counts once `bytes` is 2.
    pub const fn colour(w: usize, h: usize, order: ByteOrder) -> Layout {
        Layout { ch: 3, ..Layout::grey(w, h, order) }
    }

    /// One channel of a bit, 0 black; bits have no byte order, so either serves.
    pub const fn bilevel(w: usize, h: usize, order: ByteOrder) -> Layout {
        Layout { slots: 8, ..Layout::grey(w, h, order) }
    }

    /// Indices of colours, `slots` in a byte, with the palette at byte `map` of the file; the order is the palette's.
    pub const fn indexed(w: usize, h: usize, slots: usize, map: usize, order: ByteOrder) -> Layout {
        Layout { slots, palette: true, map, ..Layout::colour(w, h, order) }
    }
}

/// What follows from a layout.
#[derive(Clone, Copy, Debug, PartialEq, Eq, Hash)]
pub struct Derived {
    /// Places in a row of a plane: pixels, or bytes that hold several samples.
    pub encoded_width: usize,
    /// Bytes at a place.
    pub plane_channels: usize,
    /// How many planes there are.
    pub planes: usize,
    /// Bytes of a plane.
    pub plane_length: usize,
    /// Bytes of all planes.
    pub scratch_length: usize,
    /// Bytes of the picture.
    pub output_length: usize,
    /// Colours of a palette.
    pub colours: usize,
}

/// How the strips of a page are compressed (tag 259).
#[derive(Clone, Copy, Debug, PartialEq, Eq, Hash)]
pub enum Compression {
    /// Not at all.
    None = 1,
    /// PackBits, each row on its own.
    PackBits = 32_773,
}

impl Compression {
    /// The one of a page's number, which is served.
    pub(crate) fn of(number: usize) -> Compression {
        match number {
            1 => Compression::None,
            32_773 => Compression::PackBits,
            other => unreachable!("a page has a compression that is served, not {other}"),
        }
    }
}

/// A page of a TIFF file.
#[derive(Clone, Copy, Debug, PartialEq, Eq, Hash)]
pub struct Page {
    /// Its picture, and how the planes hold it: its strips end to end, once unpacked, are the planes.
    pub layout: Layout,
    /// What follows from the layout.
    pub derived: Derived,
    /// Whether each sample but a row's first pixel is stored less the one a pixel before it.
    pub predict: bool,
    /// How many strips it has.
    pub strips: usize,
    /// How they are compressed.
    pub compression: Compression,
}

impl Page {
    /// The geometry of its strips, unpacked where they are compressed, for [`convert`](crate::convert) and
    /// [`marks`](crate::marks).
    pub fn geometry(&self) -> Strip {
        let Derived { encoded_width, plane_channels, .. } = self.derived;
        let width = self.layout.bytes;
        Strip { row_bytes: encoded_width * plane_channels, channels: plane_channels / width, width }
    }
}
