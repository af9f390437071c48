//! Which number a refusal is about: each call's faults in the order in which the library looks for them.

use crate::failure::Fault;
use hamrisk::limits::{self, Served, MOST_PICTURE_BYTES, MOST_SIDE, MOST_STRIP_BYTES};
use hamrisk::Refusal::{self, Invalid, Limit, Truncated, Unsupported};
use hamrisk::{check_layout, explain_row, ByteOrder, Layout, Strip};

/// A fault, if it is one.
fn fault(holds: bool, refusal: Refusal, text: impl Into<String>) -> Option<Fault> {
    holds.then(|| (refusal, text.into()))
}

/// A number that is not served.
fn unserved(name: &str, value: usize, served: Served) -> Option<Fault> {
    fault(!served.has(value), Unsupported, format!("{name} {value} is not {served}"))
}

/// The first fault of these.
fn first<const N: usize>(faults: [Option<Fault>; N]) -> Option<Fault> {
    faults.into_iter().flatten().next()
}

/// Whether n is no multiple of `of`, a 0 being a fault of its own.
fn ragged(n: usize, of: usize) -> bool {
    of != 0 && n % of != 0
}

pub fn of_strip(length: usize, strip: Strip) -> Option<Fault> {
    let Strip { row_bytes, channels, width } = strip;
    let pixel = channels.saturating_mul(width);
    let row = format!("row bytes {row_bytes}");
    first([
        unserved("width", width, limits::WIDTHS),
        unserved("channels", channels, limits::CHANNELS),
        fault(row_bytes == 0, Unsupported, format!("{row} is not served")),
        fault(
            ragged(row_bytes, pixel),
            Invalid,
            format!("{row} is no multiple of channels {channels} × width {width} ({pixel})"),
        ),
        fault(ragged(length, row_bytes), Invalid, format!("length {length} is no multiple of {row}")),
    ])
}

/// Of a strip of which so many bytes came, one piece after the other.
pub fn of_stream(came: usize, strip: Strip) -> Option<Fault> {
    let row_bytes = strip.row_bytes;
    let left = came.checked_rem(row_bytes).unwrap_or(0);
    first([
        of_strip(0, strip),
        fault(came > MOST_STRIP_BYTES, Limit, format!("{came} bytes came, above {MOST_STRIP_BYTES}")),
        fault(left > 0, Invalid, format!("{came} bytes came, no multiple of row bytes {row_bytes}: {left} left over")),
    ])
}

pub fn of_swap(length: usize, width: usize) -> Option<Fault> {
    first([
        unserved("width", width, limits::SWAP_WIDTHS),
        fault(ragged(length, width), Invalid, format!("length {length} is no multiple of width {width}")),
    ])
}

/// Of bytes that are to be rows.
pub fn of_rows(length: usize, row_bytes: usize) -> Option<Fault> {
    let left = length % row_bytes;
    fault(left > 0, Invalid, format!("length {length} is no multiple of row bytes {row_bytes}: {left} left over"))
}

/// Of a packed row that begins at byte `at`.
pub fn of_packed_row(packed: &[u8], at: usize, row: usize, row_bytes: usize) -> Option<Fault> {
    let fault = explain_row(packed, at, row_bytes).err()?;
    Some((fault.refusal(), format!("row {row}, from byte {at}: {fault}")))
}

fn of_layout(l: &Layout) -> Option<Fault> {
    unserved_field(l).or_else(|| contradiction(l)).or_else(|| above_limit(l))
}

fn unserved_field(l: &Layout) -> Option<Fault> {
    let Layout { ch, bytes, slots, alpha, .. } = *l;
    first([
        unserved("bytes", bytes, limits::LAYOUT_BYTES),
        unserved("ch", ch, limits::LAYOUT_CH),
        unserved("slots", slots, limits::LAYOUT_SLOTS),
        unserved("alpha", alpha, limits::LAYOUT_ALPHAS),
    ])
}

fn contradiction(l: &Layout) -> Option<Fault> {
    let Layout { w, h, ch, bytes, slots, palette, separate, white, alpha, .. } = *l;
    let (eight, has_alpha) = (bytes == 8, alpha != 0);
    let packed = !palette && slots == 8;
    first([
        fault(w == 0, Invalid, "w 0 leaves no picture"),
        fault(h == 0, Invalid, "h 0 leaves no picture"),
        fault(eight && white, Invalid, "bytes 8 does not go with white"),
        fault(eight && palette, Invalid, "bytes 8 does not go with a palette"),
        fault(eight && has_alpha, Invalid, format!("bytes 8 does not go with alpha {alpha}")),
        fault(eight && slots != 1, Invalid, format!("bytes 8 needs slots 1, not {slots}")),
        fault(eight && ch != 1 && ch != 3, Invalid, format!("bytes 8 needs ch 1 or 3, not {ch}")),
        fault(has_alpha && bytes != 1, Invalid, format!("alpha {alpha} needs bytes 1, not {bytes}")),
        fault(has_alpha && ch != 2 && ch != 4, Invalid, format!("alpha {alpha} needs ch 2 or 4, not {ch}")),
        fault(has_alpha && palette, Invalid, format!("alpha {alpha} does not go with a palette")),
        fault(palette && ch != 3, Invalid, format!("a palette needs ch 3, not {ch}")),
        fault(palette && bytes != 1, Invalid, format!("a palette needs bytes 1, not {bytes}")),
        fault(palette && separate, Invalid, "a palette does not go with separate"),
        fault(!palette && slots == 2, Invalid, "slots 2 needs a palette"),
        fault(packed && has_alpha, Invalid, format!("slots 8 does not go with alpha {alpha}")),
        fault(packed && ch != 1, Invalid, format!("slots 8 without a palette needs ch 1, not {ch}")),
        fault(packed && bytes != 1, Invalid, format!("slots 8 needs bytes 1, not {bytes}")),
    ])
}

fn above_limit(l: &Layout) -> Option<Fault> {
    let Layout { w, h, ch, bytes, .. } = *l;
    let size = [w, h, ch, bytes].iter().fold(1, |size: u128, &n| size.saturating_mul(n as u128));
    first([
        fault(w > MOST_SIDE, Limit, format!("w {w} is above {MOST_SIDE}")),
        fault(h > MOST_SIDE, Limit, format!("h {h} is above {MOST_SIDE}")),
        fault(
            size > MOST_PICTURE_BYTES as u128,
            Limit,
            format!("w {w} × h {h} × ch {ch} × bytes {bytes} is {size}, above {MOST_PICTURE_BYTES}"),
        ),
    ])
}

pub fn of_render(l: &Layout, file_length: usize, raw_length: usize) -> Option<Fault> {
    let Ok(d) = check_layout(l) else {
        return of_layout(l);
    };
    let (map, colours, needed) = (l.map, d.colours, d.scratch_length);
    let end = map as u128 + 6 * colours as u128;
    first([
        fault(!limits::RENDERED_BYTES.has(l.bytes), Unsupported, format!("bytes {} is not rendered", l.bytes)),
        fault(
            l.palette && end > file_length as u128,
            Truncated,
            format!("the palette of {colours} colours at map {map} ends at byte {end}, and its file has {file_length} bytes"),
        ),
        short_planes(raw_length, needed),
    ])
}

fn short_planes(length: usize, needed: usize) -> Option<Fault> {
    fault(length < needed, Truncated, format!("the planes have {length} bytes and need {needed}"))
}

/// What no planes and no file are written of.
fn unwritten(l: &Layout) -> Option<Fault> {
    first([
        fault(l.palette, Unsupported, "a palette is not written"),
        fault(!limits::RENDERED_BYTES.has(l.bytes), Unsupported, format!("bytes {} is not written", l.bytes)),
        fault(!limits::WRITTEN_ALPHAS.has(l.alpha), Unsupported, format!("alpha {} is not written", l.alpha)),
    ])
}

pub fn of_planes(l: &Layout, picture: &[u8]) -> Option<Fault> {
    let Ok(d) = check_layout(l) else {
        return of_layout(l);
    };
    let (length, needed) = (picture.len(), d.output_length);
    let short = fault(length < needed, Truncated, format!("the picture has {length} bytes and needs {needed}"));
    unwritten(l).or(short).or_else(|| grey_byte(l, picture))
}

pub fn of_file(l: &Layout, rows_per_strip: usize, planes_length: usize) -> Option<Fault> {
    let Ok(d) = check_layout(l) else {
        return of_layout(l);
    };
    let Layout { h, ch, .. } = *l;
    first([
        unwritten(l),
        fault(l.order == ByteOrder::Big, Unsupported, "be planes are not written to a file, which is le"),
        fault([2, 4].contains(&ch) && l.alpha == 0, Unsupported, format!("ch {ch} needs alpha 2, not 0, in a file")),
        fault(ch > 2 && l.white, Unsupported, format!("ch {ch} does not go with white in a file")),
        fault(
            !(1..=h).contains(&rows_per_strip),
            Invalid,
            format!("rows per strip {rows_per_strip} is not 1 to h {h}"),
        ),
        short_planes(planes_length, d.scratch_length),
    ])
}

/// The first byte of a bilevel picture that is neither black nor white.
fn grey_byte(l: &Layout, picture: &[u8]) -> Option<Fault> {
    if l.slots != 8 {
        return None;
    }
    let at = picture.iter().take(l.w * l.h).position(|&v| v != 0 && v != 255)?;
    let (row, column, value) = (at / l.w, at % l.w, picture[at]);
    Some((Invalid, format!("byte {at} of the picture, row {row} and column {column}, is {value}, neither 0 nor 255")))
}

#[cfg(test)]
mod tests {
    use super::*;
    use hamrisk::{check_strip, rendered, swap_components, unpacked, written, written_file, Coding, Packets};

    /// The fault that is named is one that leads to the library's refusal; without a refusal there is none.
    #[track_caller]
    fn assert_agrees<T>(answer: Result<T, Refusal>, fault: Option<Fault>) {
        assert_eq!(answer.err(), fault.as_ref().map(|(kind, _)| *kind), "{fault:?}");
    }

    #[test]
    fn faults_of_strips_agree_with_the_library() {
        let sizes = [0, 1, 2, 3, 4, 6, 8, 12, 64, 65, 130, usize::MAX];
        for length in sizes {
            for (row_bytes, channels) in sizes.into_iter().flat_map(|row| sizes.map(|channels| (row, channels))) {
                for width in sizes {
                    let strip = Strip { row_bytes, channels, width };
                    assert_agrees(check_strip(length, strip), of_strip(length, strip));
                }
            }
        }
    }

    #[test]
    fn faults_of_streams_agree_with_the_library() {
        let coding = Coding { from: ByteOrder::Big, to: ByteOrder::Big, predict: true };
        let zeros = vec![0; MOST_STRIP_BYTES + 1];
        let sizes = [0, 1, 2, 3, 4, 6, 8, 12, 64, 65, 130];
        for came in sizes.into_iter().chain([MOST_STRIP_BYTES + 1]) {
            for (row_bytes, channels) in sizes.into_iter().flat_map(|row| sizes.map(|channels| (row, channels))) {
                for width in sizes {
                    let strip = Strip { row_bytes, channels, width };
                    let answer = Packets::start(strip, coding).and_then(|mut packets| {
                        packets.piece(&zeros[..came], &mut [0; 130])?;
                        packets.close()
                    });
                    assert_agrees(answer, of_stream(came, strip));
                }
            }
        }
    }

    #[test]
    fn faults_of_swaps_agree_with_the_library() {
        for (length, width) in (0..30).flat_map(|length| (0..11).map(move |width| (length, width))) {
            assert_agrees(swap_components(&vec![0; length], width, &mut vec![0; length]), of_swap(length, width));
        }
    }

    #[test]
    fn faults_of_packed_rows_agree_with_the_library() {
        for (first, length) in (0..=255).flat_map(|first| (0..=4).map(move |length| (first, length))) {
            let packed = [0, 7, first, 254, 9, 0];
            for row_bytes in [0, 1, 2, 3, 4, 130] {
                let packed = &packed[..2 + length];
                assert_agrees(unpacked(&packed[2..], row_bytes), of_packed_row(packed, 2, 1, row_bytes));
            }
        }
    }

    #[test]
    fn faults_of_layouts_agree_with_the_library() {
        let over = MOST_SIDE + 1;
        let sides = [(0, 1), (1, 0), (3, 2), (9, 1), (over, 1), (1, over), (usize::MAX, usize::MAX)];
        let flags = |bits: usize| [bits & 1 == 1, bits & 2 == 2, bits & 4 == 4];
        for case in 0..7 * 6 * 5 * 4 * 4 * 8 {
            let mut rest = case;
            let mut pick = |count: usize| {
                let place = rest % count;
                rest /= count;
                place
            };
            let (w, h) = sides[pick(7)];
            let ch = pick(6);
            let bytes = [0, 1, 2, 3, 8][pick(5)];
            let slots = [1, 2, 8, 9][pick(4)];
            let alpha = pick(4);
            let [palette, separate, white] = flags(pick(8));
            let l = Layout {
                ch,
                bytes,
                slots,
                alpha,
                palette,
                separate,
                white,
                map: 3,
                ..Layout::grey(w, h, ByteOrder::Big)
            };
            for length in [0, 2, 12, 100, 1539] {
                let content = [7; 1539];
                let some = &content[..length];
                assert_agrees(rendered(&l, some, some), of_render(&l, length, length));
                assert_agrees(written(&l, some), of_planes(&l, some));
            }
            let little = Layout { order: ByteOrder::Little, ..l };
            for (l, rows, length) in
                [(l, 1, 9), (little, 0, 0), (little, 1, 9), (little, 2, 99), (little, usize::MAX, 0)]
            {
                assert_agrees(written_file(&l, rows, &[7; 99][..length]), of_file(&l, rows, length));
            }
        }
    }
}
