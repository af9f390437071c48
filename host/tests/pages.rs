//! `picture`, `samples`, `placed` and `strip` of files of every kind that is read, made of planes that are known.

mod tiff;

use hamrisk::{
    check_layout, forwarded, pack_row, packed, packed_length, picture, placed, read_directory, rendered, samples,
    strip, strip_place, swap_components, ByteOrder, Coding, Compression, Layout, Refusal, Strip,
};
use tiff::Page;

const W: usize = 6;
const H: usize = 5;

/// What a page's tags say.
#[derive(Clone, Copy, Debug)]
struct Kind {
    bits: usize,
    colours: u32,
    samples: usize,
    alpha: usize,
}

const KINDS: [Kind; 11] = [
    Kind { bits: 1, colours: 0, samples: 1, alpha: 0 },
    Kind { bits: 1, colours: 1, samples: 1, alpha: 0 },
    Kind { bits: 8, colours: 1, samples: 1, alpha: 0 },
    Kind { bits: 16, colours: 0, samples: 1, alpha: 0 },
    Kind { bits: 8, colours: 1, samples: 2, alpha: 1 },
    Kind { bits: 8, colours: 2, samples: 3, alpha: 0 },
    Kind { bits: 16, colours: 2, samples: 3, alpha: 0 },
    Kind { bits: 8, colours: 2, samples: 4, alpha: 2 },
    Kind { bits: 1, colours: 3, samples: 1, alpha: 0 },
    Kind { bits: 4, colours: 3, samples: 1, alpha: 0 },
    Kind { bits: 8, colours: 3, samples: 1, alpha: 0 },
];

/// How its samples stand in the file.
#[derive(Clone, Copy, Debug)]
struct Stored {
    order: ByteOrder,
    separate: bool,
    predict: bool,
    rows_per_strip: usize,
    packed: Option<Packer>,
}

/// How a row is packed.
type Packer = fn(&[u8]) -> Vec<u8>;

fn literals(row: &[u8]) -> Vec<u8> {
    let mut out = vec![0; packed_length(row.len())];
    pack_row(row, &mut out).unwrap();
    out
}

fn every_way(kind: Kind) -> Vec<Stored> {
    let mut ways = Vec::new();
    for order in [ByteOrder::Little, ByteOrder::Big] {
        for separate in [false, true].into_iter().take(if kind.colours == 3 { 1 } else { 2 }) {
            for predict in [false, true].into_iter().take(if kind.bits < 8 { 1 } else { 2 }) {
                for packed in [None, Some(packed as Packer), Some(literals)] {
                    let stored = |rows_per_strip| Stored { order, separate, predict, rows_per_strip, packed };
                    ways.extend([1, 2, 4, H, 9].map(stored));
                }
            }
        }
    }
    ways
}

impl Kind {
    /// The layout of such a page, but for the place of its palette.
    fn layout(self, order: ByteOrder, separate: bool) -> Layout {
        let palette = self.colours == 3;
        Layout {
            ch: if palette { 3 } else { self.samples },
            bytes: if self.bits == 16 { 2 } else { 1 },
            slots: if self.bits < 8 { 8 / self.bits } else { 1 },
            palette,
            separate,
            white: self.colours == 0,
            alpha: self.alpha,
            ..Layout::grey(W, H, order)
        }
    }

    fn strip(self, separate: bool) -> Strip {
        let channels = if separate { 1 } else { self.samples };
        let width = if self.bits == 16 { 2 } else { 1 };
        Strip { row_bytes: (W * channels * self.bits).div_ceil(8), channels, width }
    }

    /// The strips that hold these planes.
    fn strips(self, planes: &[u8], stored: Stored) -> Vec<Vec<u8>> {
        let Stored { order, separate, predict, rows_per_strip, packed } = stored;
        let strip = self.strip(separate);
        let of_plane = |plane: &[u8]| -> Vec<Vec<u8>> {
            let strips = plane.chunks(rows_per_strip * strip.row_bytes);
            let words = strips.map(|rows| forwarded(rows, strip, Coding { from: order, to: order, predict }).unwrap());
            let stored = |words: Vec<u8>| match packed {
                None => words,
                Some(pack) => words.chunks(strip.row_bytes).flat_map(pack).collect(),
            };
            words.map(stored).collect()
        };
        planes.chunks(H * strip.row_bytes).flat_map(of_plane).collect()
    }

    fn file(self, strips: &[Vec<u8>], stored: Stored) -> Vec<u8> {
        let strips: Vec<&[u8]> = strips.iter().map(|strip| &strip[..]).collect();
        let number = |flag: bool| if flag { 2 } else { 1 };
        let mut page = Page::grey(W as u32, H as u32, 0, &strips)
            .with(258, &vec![self.bits as u32; self.samples])
            .with(259, &[if stored.packed.is_some() { 32_773 } else { 1 }])
            .with(262, &[self.colours])
            .with(277, &[self.samples as u32])
            .with(278, &[stored.rows_per_strip as u32])
            .with(284, &[number(stored.separate)])
            .with(317, &[number(stored.predict)]);
        if self.colours == 3 {
            page = page.with(320, &noise(3 << self.bits).iter().map(|&v| 257 * u32::from(v) / 3).collect::<Vec<u32>>());
        }
        if self.alpha != 0 {
            page = page.with(338, &[self.alpha as u32]);
        }
        tiff::file(stored.order, &[Page::grey(1, 1, 8, &[&[7]]), page])
    }
}

/// Bytes without a pattern, always the same.
fn noise(length: usize) -> Vec<u8> {
    (0..length as u32).map(|n| (n.wrapping_mul(2_654_435_761) >> 13) as u8).collect()
}

#[test]
fn files_of_every_kind() {
    let mut files = 0;
    for kind in KINDS {
        for stored in every_way(kind) {
            check(kind, stored);
            files += 1;
        }
    }
    assert_eq!(files, 960);
}

fn check(kind: Kind, stored: Stored) {
    let case = format!("{kind:?} {stored:?}");
    let layout = kind.layout(stored.order, stored.separate);
    let derived = check_layout(&layout).unwrap();
    let planes = noise(derived.scratch_length);
    let strips = kind.strips(&planes, stored);
    let file = kind.file(&strips, stored);

    let page = read_directory(&file, 1).unwrap();
    assert_eq!((Layout { map: 0, ..page.layout }, page.derived), (layout, derived), "{case}");
    assert_eq!(
        (page.predict, page.strips, page.geometry()),
        (stored.predict, strips.len(), kind.strip(stored.separate))
    );
    assert_eq!(page.compression == Compression::PackBits, stored.packed.is_some(), "{case}");
    let places = placed(&file, 1).unwrap();
    for (k, bytes) in strips.iter().enumerate() {
        assert_eq!(strip_place(&file, 1, k).as_ref(), Ok(&places[k]), "{case}");
        assert_eq!(strip(&file, 1, k), Ok(&bytes[..]), "{case}");
    }
    assert_eq!((places.len(), strip(&file, 1, strips.len())), (strips.len(), Err(Refusal::Invalid)), "{case}");

    let mut swapped = vec![0; planes.len()];
    swap_components(&planes, layout.bytes, &mut swapped).unwrap();
    for order in [ByteOrder::Little, ByteOrder::Big] {
        let expected = if order == stored.order { &planes } else { &swapped };
        let found = samples(&file, 1, order).unwrap();
        assert!(found.bytes == *expected && found.page == page, "{case} {order:?}");
    }
    let found = picture(&file, 1).unwrap();
    assert!(found.bytes == rendered(&page.layout, &file, &planes).unwrap() && found.page == page, "{case}");
}

/// The sound strips of a file that lost its end are there; its picture and its samples are not.
#[test]
fn a_file_that_lost_its_end() {
    for packed in [None, Some(packed as Packer)] {
        let stored = Stored { order: ByteOrder::Big, separate: true, predict: true, rows_per_strip: 2, packed };
        let planes = noise(W * H * 6);
        let strips = KINDS[6].strips(&planes, stored);
        let file = KINDS[6].file(&strips, stored);
        let lost = &file[..file.len() - 1];
        for (k, bytes) in strips.iter().enumerate() {
            let expected = if k + 1 == strips.len() { Err(Refusal::Truncated) } else { Ok(&bytes[..]) };
            assert_eq!(strip(lost, 1, k), expected, "{k}");
        }
        assert_eq!(picture(lost, 1), Err(Refusal::Truncated));
        assert_eq!(samples(lost, 1, ByteOrder::Big), Err(Refusal::Truncated));
        assert_eq!(placed(lost, 1), Err(Refusal::Truncated));
        assert_eq!(picture(lost, 0).unwrap().bytes, [7]);
    }
}

/// A page of two packed rows of three grey bytes, in one strip of these bytes.
fn grey_rows(strip: &[u8]) -> Vec<u8> {
    tiff::file(ByteOrder::Little, &[Page::grey(3, 2, 8, &[strip]).with(259, &[32_773])])
}

/// Each row of a packed strip stands by itself: what passes a row's end or is left behind the last one is refused.
#[test]
fn packed_strips_that_are_not_their_rows() {
    let bytes = |strip: &[u8]| picture(&grey_rows(strip), 0).map(|picture| picture.bytes);
    assert_eq!(bytes(&[254, 7, 2, 1, 2, 3]), Ok(vec![7, 7, 7, 1, 2, 3]));
    assert_eq!(bytes(&[128, 254, 7, 128, 128, 255, 8, 0, 9]), Ok(vec![7, 7, 7, 8, 8, 9]));
    for (strip, refusal) in [
        // six bytes in one packet, as if the rows were one
        (&[251, 7][..], Refusal::Invalid),
        (&[5, 1, 2, 3, 4, 5, 6], Refusal::Invalid),
        (&[254, 7, 253, 7], Refusal::Invalid),
        (&[254, 7, 3, 1], Refusal::Invalid),
        // behind the last row
        (&[254, 7, 254, 7, 128], Refusal::Invalid),
        (&[254, 7, 254, 7, 254, 7], Refusal::Invalid),
        // too few
        (&[], Refusal::Truncated),
        (&[254, 7], Refusal::Truncated),
        (&[254, 7, 128], Refusal::Truncated),
        (&[254, 7, 2, 1, 2], Refusal::Truncated),
        (&[254, 7, 254], Refusal::Truncated),
    ] {
        assert_eq!(bytes(strip), Err(refusal), "{strip:?}");
        let file = grey_rows(strip);
        assert_eq!(placed(&file, 0), Err(refusal), "{strip:?}");
        assert_eq!(hamrisk::explain(&file, 0).unwrap_err().refusal(), refusal, "{strip:?}");
    }
}
