//! The numbers of `hamrisk::limits`, held to what the library itself serves and refuses.

mod tiff;

use hamrisk::limits::{self, Served, MOST_ENTRIES, MOST_PAGES, MOST_PICTURE_BYTES, MOST_SIDE, MOST_STRIP_BYTES};
use hamrisk::{
    check_layout, check_strip, file_length, read_directory, read_word, rendered, swap_components, write_plan, written,
    ByteAt, ByteOrder, Coding, Layout, Packets, Plan, Planned, Refusal, Strip,
};
use tiff::Page;

/// A layout that is served, of one pixel.
const DOT: Layout = Layout::grey(1, 1, ByteOrder::Little);

/// A page of one pixel that is served.
fn dot() -> Page {
    Page::grey(1, 1, 8, &[&[7]])
}

/// Whatever has not the number itself for its fault: the numbers beside it may not fit it.
fn passes<T>(answer: Result<T, Refusal>) -> bool {
    !matches!(answer, Err(Refusal::Unsupported))
}

/// Every small value, those beside powers of two, and the largest.
fn tried() -> impl Iterator<Item = usize> {
    let large = (8..usize::BITS).flat_map(|bits| [(1 << bits) - 1, 1 << bits, (1 << bits) + 1]);
    (0..=256).chain(large).chain([usize::MAX])
}

/// Asks the library about all of these.
#[track_caller]
fn assert_served(name: &str, served: Served, library: impl Fn(usize) -> bool) {
    for value in tried() {
        assert_eq!(library(value), served.has(value), "{name} {value}; {served} are said to be served");
    }
}

#[test]
fn widths_and_channels() {
    let strip = |channels, width| check_strip(0, Strip { row_bytes: 1, channels, width });
    assert_served("width", limits::WIDTHS, |width| passes(strip(1, width)));
    assert_served("width", limits::WIDTHS, |width| passes(read_word(&[0; 8], ByteAt(0), width, ByteOrder::Big)));
    assert_served("width", limits::SWAP_WIDTHS, |width| passes(swap_components(&[], width, &mut [])));
    assert_served("channels", limits::CHANNELS, |channels| passes(strip(channels, 1)));
}

/// All at once; a length that is served has no room for its samples.
#[test]
fn bytes_of_a_strip_in_pieces() {
    let coding = Coding { from: ByteOrder::Big, to: ByteOrder::Big, predict: true };
    let mut packets = Packets::start(Strip { row_bytes: 8, channels: 1, width: 8 }, coding).unwrap();
    let zeros = vec![0; MOST_STRIP_BYTES + 1];
    assert_eq!(packets.piece(&zeros, &mut []), Err(Refusal::Limit));
    assert_eq!(packets.piece(&zeros[1..], &mut []), Err(Refusal::OutputTooSmall));
    assert_eq!(packets.piece(&[0; 9], &mut [0; 8]), Ok(8));
    assert_eq!(packets.piece(&zeros[9..], &mut []), Err(Refusal::Limit));
    assert_eq!(packets.piece(&zeros[10..], &mut []), Err(Refusal::OutputTooSmall));
}

#[test]
fn bytes_of_a_planned_packet() {
    for bytes in 0..=255 {
        for (packet, served) in [(Planned::Literal(bytes), limits::LITERALS), (Planned::Repeat(bytes), limits::REPEATS)]
        {
            let plan: Plan = [packet].into_iter().collect();
            let answer = write_plan(&vec![7; bytes.into()], &plan, &mut [0; 256]);
            assert_eq!(answer.is_ok(), served.has(bytes.into()), "{packet:?}; {served} are said to be served");
        }
    }
}

#[test]
fn fields_of_a_layout() {
    let passes_check = |l: Layout| passes(check_layout(&l));
    assert_served("ch", limits::LAYOUT_CH, |ch| passes_check(Layout { ch, ..DOT }));
    assert_served("bytes", limits::LAYOUT_BYTES, |bytes| passes_check(Layout { bytes, ..DOT }));
    assert_served("slots", limits::LAYOUT_SLOTS, |slots| passes_check(Layout { slots, ..DOT }));
    assert_served("alpha", limits::LAYOUT_ALPHAS, |alpha| passes_check(Layout { alpha, ..DOT }));
}

#[test]
fn pictures_rendered_and_written() {
    let content = [0; 16];
    let of_bytes = |bytes| Layout { bytes, ..DOT };
    assert_served("bytes", limits::RENDERED_BYTES, |bytes| passes(rendered(&of_bytes(bytes), &[], &content)));
    assert_served("bytes", limits::RENDERED_BYTES, |bytes| passes(written(&of_bytes(bytes), &content)));
    let of_alpha = |alpha| Layout { ch: 2, alpha, ..DOT };
    assert_served("alpha", limits::LAYOUT_ALPHAS, |alpha| passes(rendered(&of_alpha(alpha), &[], &content)));
    assert_served("alpha", limits::WRITTEN_ALPHAS, |alpha| passes(written(&of_alpha(alpha), &content)));
    assert_served("bytes", limits::RENDERED_BYTES, |bytes| passes(file_length(&of_bytes(bytes), 1)));
}

#[test]
fn sides_of_a_picture() {
    for side in [MOST_SIDE - 1, MOST_SIDE, MOST_SIDE + 1, usize::MAX] {
        for l in [Layout { w: side, ..DOT }, Layout { h: side, ..DOT }] {
            let expected = if side > MOST_SIDE { Err(Refusal::Limit) } else { Ok(side) };
            assert_eq!(check_layout(&l).map(|d| d.output_length), expected, "{l:?}");
        }
    }
}

/// For every width the most rows that fit are served, and one more are not: the nearest sizes on both sides of the limit.
#[test]
fn bytes_of_a_picture() {
    let mut nearest = usize::MAX;
    for (ch, bytes) in [(4, 1), (2, 2), (3, 2), (4, 2), (1, 8), (3, 8)] {
        for w in 1..=MOST_SIDE {
            let row = w * ch * bytes;
            let h = (MOST_PICTURE_BYTES / row).min(MOST_SIDE);
            assert_eq!(check_layout(&Layout { w, h, ch, bytes, ..DOT }).map(|d| d.output_length), Ok(row * h));
            if h < MOST_SIDE {
                assert_eq!(check_layout(&Layout { w, h: h + 1, ch, bytes, ..DOT }), Err(Refusal::Limit));
                nearest = nearest.min(row * (h + 1));
            }
        }
    }
    assert_eq!(
        check_layout(&Layout { w: MOST_SIDE, h: MOST_SIDE, ch: 4, ..DOT }).unwrap().output_length,
        MOST_PICTURE_BYTES
    );
    assert!(
        nearest < MOST_PICTURE_BYTES + 64,
        "the smallest picture that is refused has {nearest} bytes: too far above"
    );
}

#[test]
fn pages_of_a_file() {
    let file = tiff::file(ByteOrder::Big, &vec![dot(); MOST_PAGES + 1]);
    assert_served("page", limits::PAGES, |page| read_directory(&file, page).is_ok());
    assert_eq!(read_directory(&file, MOST_PAGES), Err(Refusal::Limit));
}

#[test]
fn entries_of_a_directory() {
    let own = 6;
    for entries in [MOST_ENTRIES - 1, MOST_ENTRIES, MOST_ENTRIES + 1] {
        let full = (own..entries).fold(dot(), |page, n| page.with(40_000 + n as u16, &[0]));
        let file = tiff::file(ByteOrder::Little, &[full]);
        assert_eq!(file[8], entries as u8);
        let expected = if entries > MOST_ENTRIES { Err(Refusal::Limit) } else { Ok(1) };
        assert_eq!(read_directory(&file, 0).map(|page| page.strips), expected, "{entries} entries");
    }
}

/// Values of two bytes, which these tags have.
#[test]
fn values_of_tags() {
    let alpha = dot().with(258, &[8, 8]).with(277, &[2]).with(338, &[1]);
    for (tag, page, served) in [
        (258, dot(), limits::SAMPLE_BITS),
        (259, dot(), limits::COMPRESSIONS),
        (262, dot(), limits::COLOURS),
        (284, dot(), limits::PLANES),
        (317, dot(), limits::PREDICTORS),
        (338, alpha, limits::EXTRA_SAMPLES),
    ] {
        for value in tried().filter(|value| *value <= usize::from(u16::MAX)) {
            let file = tiff::file(ByteOrder::Little, &[page.clone().with(tag, &[value as u32])]);
            assert_eq!(passes(read_directory(&file, 0)), served.has(value), "tag {tag}, value {value}");
        }
    }
}
