//! The calls, each handed to its function of the archive. All `unsafe` code of the crate stands here.
//!
//! What the header `include/hamrisk.h` asks of its caller, slices and references give: a slice's pointer is not null and
//! stands for as many initialised bytes as its length says, what is lent to be written overlaps nothing else, a lent
//! number is aligned, and a `bool` is 0 or 1.

use crate::{ByteAt, ByteOrder, Coding, Compression, Derived, Layout, Page, Plan, Refusal, SampleAt, Strip};
use std::ops::Range;

/// Declares functions of the archive that take a strip and its coding.
macro_rules! declare_over_strip {
    ($($name:ident;)*) => {
        extern "C" {
            $(fn $name(
                raw: *const u8, raw_len: usize, row_bytes: usize, channels: usize, width: usize, le: bool, predict: bool,
                out_le: bool, out: *mut u8, out_len: usize
            ) -> u32;)*
        }
    };
}

/// Calls one of them.
macro_rules! call_over_strip {
    ($name:ident($raw:expr, $strip:expr, $coding:expr, $out:expr)) => {
        $name(
            $raw.as_ptr(),
            $raw.len(),
            $strip.row_bytes,
            $strip.channels,
            $strip.width,
            is_little($coding.from),
            $coding.predict,
            is_little($coding.to),
            $out.as_mut_ptr(),
            $out.len(),
        )
    };
}

/// A layout as the archive reads it: the numbers of the header's `hamrisk_layout`, in its order.
fn numbers(l: &Layout) -> [usize; 11] {
    let order = is_little(l.order).into();
    let (palette, separate, white) = (l.palette.into(), l.separate.into(), l.white.into());
    [l.w, l.h, l.ch, l.bytes, l.slots, palette, separate, order, white, l.alpha, l.map]
}

/// A layout that the archive answers, from the same numbers.
fn layout_of([w, h, ch, bytes, slots, palette, separate, le, white, alpha, map]: [usize; 11]) -> Layout {
    let order = if le == 1 { ByteOrder::Little } else { ByteOrder::Big };
    let (palette, separate, white) = (palette == 1, separate == 1, white == 1);
    Layout { w, h, ch, bytes, slots, palette, separate, order, white, alpha, map }
}

/// What follows from a layout, from the numbers of the header's `derived`, in its order.
fn derived_of(numbers: [usize; 7]) -> Derived {
    let [encoded_width, plane_channels, planes, plane_length, scratch_length, output_length, colours] = numbers;
    Derived { encoded_width, plane_channels, planes, plane_length, scratch_length, output_length, colours }
}

/// The numbers of a state of packets: the header's `HAMRISK_PACKETS`.
const PACKETS: usize = 80;

/// The header's `hamrisk_page`.
#[repr(C)]
#[derive(Default)]
struct Found {
    layout: [usize; 11],
    derived: [usize; 7],
    predictor: usize,
    strips: usize,
    compression: usize,
}

extern "C" {
    fn hamrisk_read_word(s: *const u8, s_len: usize, at: usize, width: usize, le: bool, value: *mut u64) -> u32;
    fn hamrisk_load(s: *const u8, s_len: usize, i: usize, wide: bool, le: bool, value: *mut u32) -> u32;
    fn hamrisk_check_strip(raw_len: usize, row_bytes: usize, channels: usize, width: usize) -> u32;
    fn hamrisk_marks(
        damage: *const u8,
        damage_len: usize,
        row_bytes: usize,
        channels: usize,
        width: usize,
        predict: bool,
        marks: *mut u8,
        marks_len: usize,
        count: *mut usize,
    ) -> u32;
    fn hamrisk_packets_start(
        row_bytes: usize,
        channels: usize,
        width: usize,
        le: bool,
        predict: bool,
        out_le: bool,
        state: *mut u64,
    ) -> u32;
    fn hamrisk_packets_piece(
        state: *mut u64,
        piece: *const u8,
        piece_len: usize,
        out: *mut u8,
        out_len: usize,
        written: *mut usize,
    ) -> u32;
    fn hamrisk_packets_close(state: *const u64) -> u32;
    fn hamrisk_reverse_bits(s: *mut u8, s_len: usize);
    fn hamrisk_swap_components(raw: *const u8, raw_len: usize, width: usize, out: *mut u8, out_len: usize) -> u32;
    fn hamrisk_commit(source: *const u8, source_len: usize, out: *mut u8, out_len: usize) -> u32;
    fn hamrisk_unpack_row(packed: *const u8, packed_len: usize, row: *mut u8, row_len: usize, used: *mut usize) -> u32;
    fn hamrisk_write_plan_lists(
        row: *const u8,
        row_len: usize,
        kinds: *const u8,
        kinds_len: usize,
        lengths: *const u8,
        lengths_len: usize,
        out: *mut u8,
        out_len: usize,
        length: *mut usize,
    ) -> u32;
    fn hamrisk_pack_row(row: *const u8, row_len: usize, out: *mut u8, out_len: usize, length: *mut usize) -> u32;
    fn hamrisk_check_layout(layout: *const usize, derived: *mut usize) -> u32;
    fn hamrisk_index(layout: *const usize, k: usize, place: *mut usize) -> u32;
    fn hamrisk_render(
        layout: *const usize,
        file: *const u8,
        file_len: usize,
        raw: *const u8,
        raw_len: usize,
        out: *mut u8,
        out_len: usize,
    ) -> u32;
    fn hamrisk_write_planes(
        layout: *const usize,
        picture: *const u8,
        picture_len: usize,
        planes: *mut u8,
        planes_len: usize,
    ) -> u32;
    fn hamrisk_directory(file: *const u8, file_len: usize, page: usize, found: *mut Found) -> u32;
    fn hamrisk_strip(
        file: *const u8,
        file_len: usize,
        page: usize,
        k: usize,
        place: *mut usize,
        length: *mut usize,
    ) -> u32;
    fn hamrisk_strips(file: *const u8, file_len: usize, page: usize, parts: *mut usize, parts_len: usize) -> u32;
    fn hamrisk_file_length(layout: *const usize, rows_per_strip: usize, length: *mut usize) -> u32;
    fn hamrisk_write_file(
        layout: *const usize,
        rows_per_strip: usize,
        planes: *const u8,
        planes_len: usize,
        out: *mut u8,
        out_len: usize,
        length: *mut usize,
    ) -> u32;
}

declare_over_strip! {
    hamrisk_convert;
    hamrisk_forward;
}

/// What the archive's answer means.
fn done(status: u32) -> Result<(), Refusal> {
    match status {
        0 => Ok(()),
        1 => Err(Refusal::Unsupported),
        2 => Err(Refusal::Invalid),
        3 => Err(Refusal::Truncated),
        4 => Err(Refusal::OutputTooSmall),
        5 => Err(Refusal::Limit),
        other => unreachable!("a call answers 0 to 5, not {other}"),
    }
}

fn is_little(order: ByteOrder) -> bool {
    order == ByteOrder::Little
}

/// The word of `width` bytes at a byte of `s`.
///
/// Refuses: a width not 1, 2, 3, 4 or 8 is Unsupported; `at` + `width` past the end is Truncated.
///
/// ```
/// use hamrisk::{read_word, ByteAt, ByteOrder, Refusal};
///
/// assert_eq!(read_word(&[9, 1, 2], ByteAt(1), 2, ByteOrder::Big), Ok(0x0102));
/// assert_eq!(read_word(&[9, 1, 2], ByteAt(usize::MAX), 2, ByteOrder::Big), Err(Refusal::Truncated));
/// ```
pub fn read_word(s: &[u8], at: ByteAt, width: usize, order: ByteOrder) -> Result<u64, Refusal> {
    let mut value = 0;
    // SAFETY: the pointers are a slice's and a local number's, as the header asks.
    done(unsafe { hamrisk_read_word(s.as_ptr(), s.len(), at.0, width, is_little(order), &mut value) })?;
    Ok(value)
}

/// Sample `i` of `s`, of two bytes if `wide`, else of one.
///
/// Refuses: a sample not all within `s` is Truncated.
///
/// ```
/// use hamrisk::{load, ByteOrder, Refusal, SampleAt};
///
/// assert_eq!(load(&[9, 9, 1, 2], SampleAt(1), true, ByteOrder::Little), Ok(0x0201));
/// assert_eq!(load(&[9, 9, 1, 2], SampleAt(2), true, ByteOrder::Little), Err(Refusal::Truncated));
/// ```
pub fn load(s: &[u8], i: SampleAt, wide: bool, order: ByteOrder) -> Result<u32, Refusal> {
    let mut value = 0;
    // SAFETY: the pointers are a slice's and a local number's, as the header asks.
    done(unsafe { hamrisk_load(s.as_ptr(), s.len(), i.0, wide, is_little(order), &mut value) })?;
    Ok(value)
}

/// Whether a strip of `raw_len` bytes has this geometry.
///
/// Refuses: a width not 1, 2, 3, 4 or 8, channels 0 or above 64, or row bytes 0 is Unsupported; then row bytes no multiple
/// of channels × width, or `raw_len` no multiple of row bytes, is Invalid.
///
/// ```
/// use hamrisk::{check_strip, Refusal, Strip};
///
/// assert_eq!(check_strip(12, Strip { row_bytes: 6, channels: 3, width: 1 }), Ok(()));
/// assert_eq!(check_strip(12, Strip { row_bytes: 7, channels: 3, width: 5 }), Err(Refusal::Unsupported));
/// assert_eq!(check_strip(12, Strip { row_bytes: 7, channels: 3, width: 2 }), Err(Refusal::Invalid));
/// ```
pub fn check_strip(raw_len: usize, strip: Strip) -> Result<(), Refusal> {
    // SAFETY: no pointer is handed over.
    done(unsafe { hamrisk_check_strip(raw_len, strip.row_bytes, strip.channels, strip.width) })
}

/// The samples of a strip. With prediction each sample but a row's first pixel is its word plus the sample a pixel
/// before it, modulo 256^width; without, it is its word.
///
/// Refuses: as [`check_strip`]; then `out` shorter than `raw` is OutputTooSmall. Writes `raw.len()` bytes of `out`.
///
/// ```
/// use hamrisk::{convert, ByteOrder::Big, Coding, Refusal, Strip};
///
/// let mut out = [0; 5];
/// let strip = Strip { row_bytes: 2, channels: 1, width: 1 };
/// convert(&[5, 251, 7, 1], strip, Coding { from: Big, to: Big, predict: true }, &mut out)?;
/// assert_eq!(out, [5, 0, 7, 8, 0]);
/// # Ok::<(), Refusal>(())
/// ```
pub fn convert(raw: &[u8], strip: Strip, coding: Coding, out: &mut [u8]) -> Result<(), Refusal> {
    // SAFETY: the pointers are two slices', which do not overlap, as the header asks.
    done(unsafe { call_over_strip!(hamrisk_convert(raw, strip, coding, out)) })
}

/// Forward prediction, which [`convert`] undoes: with prediction each word but a row's first pixel is its sample less
/// the sample a pixel before it, modulo 256^width; without, it is its sample.
///
/// Refuses: as [`convert`]. Writes `raw.len()` bytes of `out`.
///
/// ```
/// use hamrisk::{forward, ByteOrder::Big, Coding, Refusal, Strip};
///
/// let mut out = [0; 4];
/// let strip = Strip { row_bytes: 2, channels: 1, width: 1 };
/// forward(&[5, 0, 7, 8], strip, Coding { from: Big, to: Big, predict: true }, &mut out)?;
/// assert_eq!(out, [5, 251, 7, 1]);
/// # Ok::<(), Refusal>(())
/// ```
pub fn forward(raw: &[u8], strip: Strip, coding: Coding, out: &mut [u8]) -> Result<(), Refusal> {
    // SAFETY: the pointers are two slices', which do not overlap, as the header asks.
    done(unsafe { call_over_strip!(hamrisk_forward(raw, strip, coding, out)) })
}

/// Which samples of a strip the damaged bytes can change, and how many these are. `damage` has a byte for each byte of
/// the strip: 0 for sound, anything else for damaged.
///
/// Refuses: as [`check_strip`], `damage.len()` being the strip's length; then `marks` shorter than `damage.len()` /
/// width is OutputTooSmall. Writes that many bytes of `marks`: 1 for a marked sample, 0 for any other.
///
/// ```
/// use hamrisk::{marks, Refusal, Strip};
///
/// let mut damage = [0; 16];
/// damage[3] = 1;
/// let mut out = [0; 8];
/// let strip = Strip { row_bytes: 8, channels: 1, width: 2 };
/// assert_eq!(marks(&damage, strip, true, &mut out)?, 3);
/// assert_eq!(out, [0, 1, 1, 1, 0, 0, 0, 0]);
/// # Ok::<(), Refusal>(())
/// ```
pub fn marks(damage: &[u8], strip: Strip, predict: bool, marks: &mut [u8]) -> Result<usize, Refusal> {
    let mut count = 0;
    // SAFETY: the pointers are two slices' and a local number's, which do not overlap, as the header asks.
    done(unsafe {
        hamrisk_marks(
            damage.as_ptr(),
            damage.len(),
            strip.row_bytes,
            strip.channels,
            strip.width,
            predict,
            marks.as_mut_ptr(),
            marks.len(),
            &mut count,
        )
    })?;
    Ok(count)
}

/// A strip that arrives in pieces, which have any length and split rows and samples anywhere. What [`piece`](Packets::piece)
/// writes, put end to end, is what [`convert`] writes of the whole strip once it [closes](Packets::close), and the whole
/// samples so far while it is open. It holds 640 bytes, whatever the strip's length; a clone goes on by itself.
///
/// ```
/// use hamrisk::{ByteOrder, Coding, Packets, Refusal, Strip};
///
/// // A row of three samples of two bytes, each stored as what it adds to the one before it.
/// let strip = Strip { row_bytes: 6, channels: 1, width: 2 };
/// let coding = Coding { from: ByteOrder::Little, to: ByteOrder::Big, predict: true };
/// let mut packets = Packets::start(strip, coding)?;
/// let mut out = [0; 16];
/// assert_eq!(packets.piece(&[0x01, 0x00, 0x02], &mut out)?, 2);
/// assert_eq!(out[..2], [0x00, 0x01]);
/// assert_eq!(packets.close(), Err(Refusal::Invalid));
/// assert_eq!(packets.piece(&[0x00, 0xFF, 0xFF], &mut out)?, 4);
/// assert_eq!(out[..4], [0x00, 0x03, 0x00, 0x02]);
/// assert_eq!(packets.close(), Ok(()));
/// # Ok::<(), Refusal>(())
/// ```
#[derive(Clone, Debug)]
pub struct Packets {
    /// The header's `state`.
    state: [u64; PACKETS],
}

impl Packets {
    /// A strip of which nothing has come.
    ///
    /// Refuses: as [`check_strip`] of no bytes.
    pub fn start(strip: Strip, coding: Coding) -> Result<Packets, Refusal> {
        let mut state = [0; PACKETS];
        // SAFETY: the pointer is that of a local array of so many numbers, as the header asks.
        done(unsafe {
            hamrisk_packets_start(
                strip.row_bytes,
                strip.channels,
                strip.width,
                is_little(coding.from),
                coding.predict,
                is_little(coding.to),
                state.as_mut_ptr(),
            )
        })?;
        Ok(Packets { state })
    }

    /// Takes the next bytes of the strip and writes the samples that they complete to the front of `out`; answers how many
    /// bytes these have, at most 7 more than `bytes` has.
    ///
    /// Refuses: a strip above 1,073,741,824 bytes with these is Limit; then `out` shorter than the samples is
    /// OutputTooSmall. A refusal takes and writes nothing: the strip is as it was.
    pub fn piece(&mut self, bytes: &[u8], out: &mut [u8]) -> Result<usize, Refusal> {
        let mut written = 0;
        // SAFETY: the pointers are those of the state, two slices and a local number, which do not overlap, as the header asks.
        done(unsafe {
            hamrisk_packets_piece(
                self.state.as_mut_ptr(),
                bytes.as_ptr(),
                bytes.len(),
                out.as_mut_ptr(),
                out.len(),
                &mut written,
            )
        })?;
        Ok(written)
    }

    /// Whether the strip may end here. It may go on all the same.
    ///
    /// Refuses: bytes so far no multiple of row bytes is Invalid. A strip of no bytes may end.
    pub fn close(&self) -> Result<(), Refusal> {
        // SAFETY: the pointer is that of the state, as the header asks.
        done(unsafe { hamrisk_packets_close(self.state.as_ptr()) })
    }
}

/// Bit i of every byte goes to bit 7 − i, in place. Never refuses.
///
/// ```
/// let mut s = [1, 80];
/// hamrisk::reverse_bits(&mut s);
/// assert_eq!(s, [128, 10]);
/// ```
pub fn reverse_bits(s: &mut [u8]) {
    // SAFETY: the pointer is a slice's, as the header asks.
    unsafe { hamrisk_reverse_bits(s.as_mut_ptr(), s.len()) }
}

/// Each group of `width` bytes backwards.
///
/// Refuses: width 0 or above 8 is Unsupported; then a length no multiple of `width` is Invalid; then `out` shorter than
/// `raw` is OutputTooSmall. Writes `raw.len()` bytes of `out`.
///
/// ```
/// use hamrisk::{swap_components, Refusal};
///
/// let mut out = [0; 6];
/// swap_components(&[1, 2, 3, 4, 5, 6], 3, &mut out)?;
/// assert_eq!(out, [3, 2, 1, 6, 5, 4]);
/// # Ok::<(), Refusal>(())
/// ```
pub fn swap_components(raw: &[u8], width: usize, out: &mut [u8]) -> Result<(), Refusal> {
    // SAFETY: the pointers are two slices', which do not overlap, as the header asks.
    done(unsafe { hamrisk_swap_components(raw.as_ptr(), raw.len(), width, out.as_mut_ptr(), out.len()) })
}

/// A copy of `source` at the front of `out`.
///
/// Refuses: `out` shorter than `source` is OutputTooSmall. Writes `source.len()` bytes of `out`.
///
/// ```
/// use hamrisk::{commit, Refusal};
///
/// let mut out = [9; 3];
/// commit(&[1, 2], &mut out)?;
/// assert_eq!(out, [1, 2, 9]);
/// # Ok::<(), Refusal>(())
/// ```
pub fn commit(source: &[u8], out: &mut [u8]) -> Result<(), Refusal> {
    // SAFETY: the pointers are two slices', which do not overlap, as the header asks.
    done(unsafe { hamrisk_commit(source.as_ptr(), source.len(), out.as_mut_ptr(), out.len()) })
}

/// A row of PackBits, filled from the packets at the front of `packed`; answers how many bytes these have. Reading stops once
/// the row is full, so that the next row begins there.
///
/// Refuses, packet by packet: an input that ends before it is Truncated; more bytes than are left of the row, all there or
/// not, is Invalid; an input that ends within it is Truncated. Writes all of `row`.
///
/// ```
/// use hamrisk::{unpack_row, Refusal};
///
/// let packed = [1, 7, 8, 254, 9, 0, 1]; // two bytes as they are; one three times; the next row
/// let mut row = [0; 5];
/// assert_eq!(unpack_row(&packed, &mut row), Ok(5));
/// assert_eq!(row, [7, 8, 9, 9, 9]);
/// assert_eq!(unpack_row(&packed, &mut [0; 4]), Err(Refusal::Invalid));
/// assert_eq!(unpack_row(&packed[..4], &mut row), Err(Refusal::Truncated));
/// ```
pub fn unpack_row(packed: &[u8], row: &mut [u8]) -> Result<usize, Refusal> {
    let mut used = 0;
    // SAFETY: the pointers are two slices' and a local number's, which do not overlap, as the header asks.
    done(unsafe { hamrisk_unpack_row(packed.as_ptr(), packed.len(), row.as_mut_ptr(), row.len(), &mut used) })?;
    Ok(used)
}

/// A row as the packets of a plan, which [`unpack_row`] reads back; answers how many bytes these have,
/// [`plan.length()`](Plan::length).
///
/// Refuses: a literal not of 1 to 128 bytes, a repeat not of 2 to 128 or of bytes that are not all equal, or packets that do
/// not end with the row is Invalid; then `out` shorter than the packets is OutputTooSmall. Writes the packets at the front of
/// `out`.
///
/// ```
/// use hamrisk::{write_plan, Planned, Plan, Refusal};
///
/// let plan: Plan = [Planned::Literal(2), Planned::Repeat(3)].into_iter().collect();
/// let mut out = [0; 6];
/// assert_eq!(write_plan(&[7, 8, 9, 9, 9], &plan, &mut out), Ok(5));
/// assert_eq!(out, [1, 7, 8, 254, 9, 0]);
/// assert_eq!(write_plan(&[7, 8, 9, 9, 7], &plan, &mut out), Err(Refusal::Invalid));
/// ```
pub fn write_plan(row: &[u8], plan: &Plan, out: &mut [u8]) -> Result<usize, Refusal> {
    let mut length = 0;
    let (kinds, lengths) = plan.kinds_and_lengths();
    // SAFETY: the pointers are four slices' and a local number's, and those that are written overlap no other, as the header
    // asks.
    done(unsafe {
        hamrisk_write_plan_lists(
            row.as_ptr(),
            row.len(),
            kinds.as_ptr(),
            kinds.len(),
            lengths.as_ptr(),
            lengths.len(),
            out.as_mut_ptr(),
            out.len(),
            &mut length,
        )
    })?;
    Ok(length)
}

/// A row as literals of 128 bytes and a shorter last one, which [`unpack_row`] reads back; answers how many bytes these have,
/// [`packed_length`](crate::packed_length) of the row's.
///
/// Refuses: `out` shorter than the packets is OutputTooSmall. Writes the packets at the front of `out`.
///
/// ```
/// let mut out = [0; 5];
/// assert_eq!(hamrisk::pack_row(&[9, 9, 9], &mut out), Ok(4));
/// assert_eq!(out, [2, 9, 9, 9, 0]);
/// ```
pub fn pack_row(row: &[u8], out: &mut [u8]) -> Result<usize, Refusal> {
    let mut length = 0;
    // SAFETY: the pointers are two slices' and a local number's, which do not overlap, as the header asks.
    done(unsafe { hamrisk_pack_row(row.as_ptr(), row.len(), out.as_mut_ptr(), out.len(), &mut length) })?;
    Ok(length)
}

/// Checks a layout and answers what follows from it.
///
/// Refuses, in this order:
/// - Unsupported: bytes not 1, 2 or 8; ch not 1 to 4; slots not 1, 2 or 8; alpha above 2.
/// - Invalid: w or h 0; bytes 8 with white, palette, alpha, slots not 1, or ch neither 1 nor 3; alpha with bytes not 1,
///   ch neither 2 nor 4, or palette; palette with ch not 3, bytes not 1 or separate; without palette slots not 1,
///   unless slots is 8, ch and bytes 1 and alpha 0.
/// - Limit: w or h above 16,384, or w × h × ch × bytes above 1,073,741,824.
///
/// ```
/// use hamrisk::{check_layout, ByteOrder::Big, Layout, Refusal};
///
/// assert_eq!(check_layout(&Layout::bilevel(9, 2, Big))?.scratch_length, 4);
/// assert_eq!(check_layout(&Layout::grey(16_385, 1, Big)), Err(Refusal::Limit));
/// # Ok::<(), Refusal>(())
/// ```
pub fn check_layout(layout: &Layout) -> Result<Derived, Refusal> {
    let mut derived = [0; 7];
    // SAFETY: the pointers are those of a layout and of a local array of seven numbers, as the header asks.
    done(unsafe { hamrisk_check_layout(numbers(layout).as_ptr(), derived.as_mut_ptr()) })?;
    Ok(derived_of(derived))
}

/// Which byte of the planes byte `k` of the picture comes from.
///
/// Refuses: as [`check_layout`]; then `k` at or past the output length is Invalid.
///
/// ```
/// use hamrisk::{index, ByteAt, ByteOrder::Big, Layout};
///
/// let apart = Layout { separate: true, ..Layout::colour(2, 1, Big) };
/// assert_eq!(index(&apart, ByteAt(1)), Ok(ByteAt(2)));
/// ```
pub fn index(layout: &Layout, k: ByteAt) -> Result<ByteAt, Refusal> {
    let mut place = 0;
    // SAFETY: the pointers are those of a layout and of a local number, as the header asks.
    done(unsafe { hamrisk_index(numbers(layout).as_ptr(), k.0, &mut place) })?;
    Ok(ByteAt(place))
}

/// The picture that the planes `raw` hold. `file` has the palette, and is not read without one. Samples of two bytes
/// come out most significant byte first. With alpha 1 a colour u beside alpha a is divided by it again: 255 × u / a to the
/// nearest whole number, halves upward, at most 255, and 0 if a is 0.
///
/// Refuses: as [`check_layout`]; then bytes 8 is Unsupported; with a palette, map + 6 × colours past the end of `file` is
/// Truncated; `raw` shorter than the scratch length is Truncated; `out` shorter than the output length is
/// OutputTooSmall. Writes output length bytes of `out`.
///
/// ```
/// use hamrisk::{render, ByteOrder, Layout, Refusal};
///
/// let depth = Layout { bytes: 2, ..Layout::grey(2, 1, ByteOrder::Little) };
/// let mut out = [7; 5];
/// render(&depth, &[], &[0x34, 0x12, 0x78, 0x56], &mut out)?;
/// assert_eq!(out, [0x12, 0x34, 0x56, 0x78, 7]);
/// # Ok::<(), Refusal>(())
/// ```
pub fn render(layout: &Layout, file: &[u8], raw: &[u8], out: &mut [u8]) -> Result<(), Refusal> {
    // SAFETY: the pointers are a layout's and three slices', and the one that is written overlaps no other, as the header asks.
    done(unsafe {
        hamrisk_render(
            numbers(layout).as_ptr(),
            file.as_ptr(),
            file.len(),
            raw.as_ptr(),
            raw.len(),
            out.as_mut_ptr(),
            out.len(),
        )
    })
}

/// The planes whose rendering is `picture`; padding bits are 0.
///
/// Refuses: as [`check_layout`]; then palette, bytes 8 or alpha 1 is Unsupported; `picture` shorter than the output
/// length is Truncated; `planes` shorter than the scratch length is OutputTooSmall; in a bilevel picture a byte neither 0
/// nor 255 is Invalid. Writes scratch length bytes of `planes`.
///
/// ```
/// use hamrisk::{write_planes, ByteOrder::Big, Layout, Refusal};
///
/// let mut planes = [0; 2];
/// write_planes(&Layout::bilevel(9, 1, Big), &[255, 0, 0, 0, 0, 0, 0, 0, 255], &mut planes)?;
/// assert_eq!(planes, [0x80, 0x80]);
/// # Ok::<(), Refusal>(())
/// ```
pub fn write_planes(layout: &Layout, picture: &[u8], planes: &mut [u8]) -> Result<(), Refusal> {
    // SAFETY: the pointers are a layout's and two slices', which do not overlap, as the header asks.
    done(unsafe {
        hamrisk_write_planes(
            numbers(layout).as_ptr(),
            picture.as_ptr(),
            picture.len(),
            planes.as_mut_ptr(),
            planes.len(),
        )
    })
}

/// The page of a TIFF file, counted from 0: its layout, whether its samples are predicted, how many strips it has and how they
/// are compressed. Every strip is in the file and holds its rows, no more and no fewer.
///
/// Refuses, in this order:
/// 1. `page` above 15 is Limit; a file under 8 bytes is Truncated; one that does not begin with II or MM, and 42 in that
///    byte order, is Invalid.
/// 2. For each directory on the way, the asked one too: a pointer to it of 0, a page that is not there, is Invalid; its
///    count not in the file is Truncated; a count above 64 is Limit; entries or next pointer not in the file is
///    Truncated; tags not strictly ascending is Invalid.
/// 3. For each tag that is used, ascending (256, 257, 258, 259, 262, 273, 277, 278, 279, 284, 317, 320 with a palette
///    alone, 338): missing, where there is no default, is Invalid; a wrong type is Invalid; a wrong count is Invalid;
///    values not in the file is Truncated; a value that is not served is Unsupported, and 0 rows a strip is Invalid; a
///    contradiction with lower tags is Invalid.
/// 4. As [`check_layout`] of the page's layout.
/// 5. For each strip, by number: without compression a byte count that is not its rows × the bytes of a row is Invalid; an
///    end past the file's is Truncated; with compression, as [`unpack_row`] of each of its rows, and bytes left over behind
///    the last are Invalid.
///
/// Served are strips that are not compressed, or by PackBits: grey or three colours of 8 or 16 bits, with 8 bits one alpha
/// beside them; bilevel; palettes of 1, 4 or 8 bits; planes together or apart; predicted, from 8 bits up, or not.
///
/// ```
/// use hamrisk::{read_directory, Refusal};
///
/// let entry = |tag: u8, value: u8| [tag, 1, 3, 0, 1, 0, 0, 0, value, 0, 0, 0]; // one SHORT of tag 256 + `tag`
/// let mut file = b"II*\0\x08\0\0\0\x07\0".to_vec(); // a directory of seven entries at byte 8
/// for (tag, value) in [(0, 2), (1, 1), (2, 8), (6, 1), (17, 98), (22, 1), (23, 2)] {
///     file.extend(entry(tag, value));
/// }
/// file.extend([0, 0, 0, 0, 50, 60]); // no further page; the strip at byte 98
/// let page = read_directory(&file, 0)?;
/// assert_eq!((page.layout.w, page.layout.h, page.strips), (2, 1, 1));
/// assert_eq!(read_directory(&file, 1), Err(Refusal::Invalid));
/// assert_eq!(read_directory(&file[..99], 0), Err(Refusal::Truncated));
/// # Ok::<(), Refusal>(())
/// ```
pub fn read_directory(file: &[u8], page: usize) -> Result<Page, Refusal> {
    let mut found = Found::default();
    // SAFETY: the pointers are a slice's and that of a local page, as the header asks.
    done(unsafe { hamrisk_directory(file.as_ptr(), file.len(), page, &mut found) })?;
    let Found { layout, derived, predictor, strips, compression } = found;
    Ok(Page {
        layout: layout_of(layout),
        derived: derived_of(derived),
        predict: predictor == 2,
        strips,
        compression: Compression::of(compression),
    })
}

/// Where strip `k` of a page stands in the file.
///
/// Refuses: 1 to 4 of [`read_directory`]; then a strip that is not there is Invalid; then 5 of that strip alone. So the
/// sound strips of a file that lost its end are still found.
///
/// ```
/// # let entry = |tag: u8, value: u8| [tag, 1, 3, 0, 1, 0, 0, 0, value, 0, 0, 0];
/// # let mut file = b"II*\0\x08\0\0\0\x07\0".to_vec();
/// # for (tag, value) in [(0, 2), (1, 1), (2, 8), (6, 1), (17, 98), (22, 1), (23, 2)] {
/// #     file.extend(entry(tag, value));
/// # }
/// # file.extend([0, 0, 0, 0, 50, 60]);
/// use hamrisk::{strip_place, Refusal};
///
/// // The file of `read_directory`.
/// assert_eq!(strip_place(&file, 0, 0), Ok(98..100));
/// assert_eq!(strip_place(&file, 0, 1), Err(Refusal::Invalid));
/// ```
pub fn strip_place(file: &[u8], page: usize, k: usize) -> Result<Range<usize>, Refusal> {
    let (mut place, mut length) = (0, 0);
    // SAFETY: the pointers are a slice's and two local numbers', as the header asks.
    done(unsafe { hamrisk_strip(file.as_ptr(), file.len(), page, k, &mut place, &mut length) })?;
    Ok(place..place + length)
}

/// The bytes of strip `k` of a page as they stand in the file, packed where it is compressed. Refuses as [`strip_place`].
pub fn strip(file: &[u8], page: usize, k: usize) -> Result<&[u8], Refusal> {
    Ok(&file[strip_place(file, page, k)?])
}

/// Where every strip of a page stands in the file: `parts` gets the place of strip k at 2k and its length at 2k + 1.
/// One call for all strips costs as much as [`strip_place`] for one and a little for each.
///
/// Refuses: as [`read_directory`]; then `parts` shorter than 2 × strips is OutputTooSmall. Writes 2 × strips numbers of
/// `parts`.
pub fn strip_places(file: &[u8], page: usize, parts: &mut [usize]) -> Result<(), Refusal> {
    // SAFETY: the pointers are two slices', which do not overlap, as the header asks.
    done(unsafe { hamrisk_strips(file.as_ptr(), file.len(), page, parts.as_mut_ptr(), parts.len()) })
}

/// The bytes of the file that [`write_file`] writes.
///
/// Refuses: as [`check_layout`]; then planes of the most significant byte first, palette, bytes 8, ch 2 or 4 without
/// alpha 2, or ch 3 or 4 with white is Unsupported; rows per strip 0 or above h is Invalid.
///
/// ```
/// use hamrisk::{file_length, ByteOrder::Little, Layout, Refusal};
///
/// assert_eq!(file_length(&Layout::grey(2, 1, Little), 1), Ok(200));
/// assert_eq!(file_length(&Layout::grey(2, 1, Little), 2), Err(Refusal::Invalid));
/// ```
pub fn file_length(layout: &Layout, rows_per_strip: usize) -> Result<usize, Refusal> {
    let mut length = 0;
    // SAFETY: the pointers are those of a layout and of a local number, as the header asks.
    done(unsafe { hamrisk_file_length(numbers(layout).as_ptr(), rows_per_strip, &mut length) })?;
    Ok(length)
}

/// A TIFF file of one page, little-endian, not compressed and not predicted, whose strips are the planes as they are, with
/// `rows_per_strip` rows in each, fewer in the last of a plane; answers its length. [`read_directory`] reads this layout
/// back from it, with map 0.
///
/// Refuses: as [`file_length`]; then `planes` shorter than the scratch length is Truncated; `out` shorter than the file is
/// OutputTooSmall. Writes the file at the front of `out`.
///
/// ```
/// use hamrisk::{strip, write_file, ByteOrder::Little, Layout, Refusal};
///
/// let mut out = [0; 210];
/// let length = write_file(&Layout::grey(2, 1, Little), 1, &[50, 60], &mut out)?;
/// assert_eq!(strip(&out[..length], 0, 0)?, [50, 60]);
/// # Ok::<(), Refusal>(())
/// ```
pub fn write_file(layout: &Layout, rows_per_strip: usize, planes: &[u8], out: &mut [u8]) -> Result<usize, Refusal> {
    let mut length = 0;
    // SAFETY: the pointers are a layout's, two slices' and a local number's, which do not overlap, as the header asks.
    done(unsafe {
        hamrisk_write_file(
            numbers(layout).as_ptr(),
            rows_per_strip,
            planes.as_ptr(),
            planes.len(),
            out.as_mut_ptr(),
            out.len(),
            &mut length,
        )
    })?;
    Ok(length)
}
