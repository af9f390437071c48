//! Files that are written: beside the plain reading of their rules, and read back.

use crate::lent::Lent;
use crate::numbers::check;
use crate::pictures::{good, layouts, lengths, sized};
use crate::random::Random;
use crate::{plain, plain_files, told};
use hamrisk::ByteOrder::Little;
use hamrisk::{
    advised_rows_per_strip, check_layout, explain, file_length, picture, placed, read_directory, rendered, samples,
    strip, write_file, written_file, Layout, Refusal,
};

#[rustfmt::skip]
extern "C" {
    fn hamrisk_file_length(layout: *const usize, rows_per_strip: usize, length: *mut usize) -> u32;
    fn hamrisk_write_file(layout: *const usize, rows_per_strip: usize, planes: *const u8, planes_len: usize,
                          out: *mut u8, out_len: usize, length: *mut usize) -> u32;
}

/// What the lent number holds before a call.
const CANARY: usize = usize::MAX / 13;

/// Every kind of layout that is written to a file.
fn served() -> Vec<Layout> {
    let mut kinds = good();
    kinds.retain(|l| plain_files::file_length(l, 1).is_ok());
    kinds
}

/// The header's `hamrisk_layout`.
fn numbers(l: &Layout) -> [usize; 11] {
    let [palette, separate, le, white] = [l.palette, l.separate, l.order == Little, l.white].map(usize::from);
    [l.w, l.h, l.ch, l.bytes, l.slots, palette, separate, le, white, l.alpha, l.map]
}

/// Rows per strip: mostly a good number, at times none or too many.
fn any_rows(random: &mut Random, h: usize) -> usize {
    match random.below(9) {
        0 => 0,
        1 => random.one_of(&[h + 1, h + 2, usize::MAX, 1 << 32, (1 << 32) + 1]),
        2 | 3 => h,
        4 | 5 => 1,
        _ => 1 + random.below(h.max(1)),
    }
}

/// A picture's size: rows enough for strips of many kinds.
fn sized_for_strips(random: &mut Random, l: Layout) -> Layout {
    let map = random.one_of(&[0, 7, usize::MAX]);
    Layout { h: 1 + random.below(12), map, ..sized(random, l) }
}

#[test]
fn length_of_every_kind_and_size() {
    let kinds = layouts(&[0, 1, 2, 3, 8], &[0, 1, 2, 3, 4, 5], &[0, 1, 2, 4, 8], &[0, 1, 2, 3]);
    let sizes = [(0, 1), (1, 0), (1, 1), (9, 3), (16, 5), (16_384, 7), (16_385, 1), (1, 16_385), (usize::MAX, 2)];
    for kind in kinds {
        for (w, h) in sizes {
            let l = Layout { w, h, map: w.wrapping_mul(77), ..kind };
            for rows in [0, 1, 2, h, h + 1, usize::MAX] {
                assert_eq!(told(file_length(&l, rows)), plain_files::file_length(&l, rows), "{l:?} {rows}");
            }
        }
    }
}

#[test]
fn length_at_the_limits() {
    let largest = Layout { ch: 4, alpha: 2, ..Layout::grey(16_384, 16_384, Little) };
    let apart = Layout { separate: true, ..largest };
    for l in [largest, apart, Layout { bytes: 2, ch: 1, alpha: 0, ..largest }, Layout::bilevel(16_384, 16_384, Little)]
    {
        for rows in [1, 2, 5, 8_192, 16_383, 16_384, 16_385] {
            let length = told(file_length(&l, rows));
            assert_eq!(length, plain_files::file_length(&l, rows), "{l:?} {rows}");
            assert!(length.map_or(rows > l.h, |length| length < 1 << 32), "{l:?} {rows}");
        }
    }
    assert_eq!(told(file_length(&Layout { bytes: 2, ch: 3, alpha: 0, ..largest }, 0)), Err(plain::LIMIT));
}

/// One random case; answers whether the call was done.
fn write_case(random: &mut Random, l: Layout) -> bool {
    let rows = any_rows(random, l.h);
    let planes_length = random.around(lengths(&l).0.min(20_000));
    let content = random.bytes(planes_length);
    let room = random.around(plain_files::file_length(&l, rows).unwrap_or(300));
    let expected = plain_files::write_file(&l, rows, &content, room);
    let (fields, length) = (numbers(&l), expected.clone().map(|file| vec![file.len()]));

    let planes = Lent::of(random, &content);
    let mut out = Lent::room(random, room);
    let (raw, to) = (planes.bytes().as_ptr(), out.bytes_mut().as_mut_ptr());
    // SAFETY: the pointers are those of eleven numbers, of two slices and of a number in an array.
    check(CANARY, 1, length, |length| unsafe {
        hamrisk_write_file(fields.as_ptr(), rows, raw, planes_length, to, room, length)
    });
    out.assert_outcome(expected.as_ref().map(|_| ()).map_err(|&refusal| refusal), expected.clone());

    let mut out = Lent::room(random, room);
    let answer = told(write_file(&l, rows, planes.bytes(), out.bytes_mut()));
    assert_eq!(answer, expected.as_ref().map(Vec::len).map_err(|&refusal| refusal), "{l:?} {rows}");
    out.assert_outcome(answer.map(|_| ()), expected);
    planes.assert_kept();
    answer.is_ok()
}

#[test]
fn write_every_served_kind() {
    let mut random = Random::new(60);
    let (mut done, kinds) = (0, served());
    assert_eq!(kinds.len(), 22);
    for kind in kinds {
        for _ in 0..400 {
            let l = sized_for_strips(&mut random, kind);
            done += usize::from(write_case(&mut random, l));
        }
    }
    assert!(done > 2_000, "{done} were done: too few");
}

/// Layouts that are good and not served, and layouts that are refused.
#[test]
fn write_other_kinds() {
    let mut random = Random::new(61);
    let mut kinds = layouts(&[0, 1, 2, 4, 8], &[0, 1, 2, 3, 4, 5], &[0, 1, 2, 8], &[0, 1, 2, 3]);
    kinds.retain(|l| plain_files::file_length(l, 1).is_err());
    for kind in kinds {
        let (w, h) = random.one_of(&[(0, 1), (1, 0), (9, 2), (9, 2), (9, 2), (16_385, 1), (16_384, 16_384)]);
        assert!(!write_case(&mut random, Layout { w, h, ..kind }));
    }
}

/// A flag that is neither 0 nor 1 is refused with 1 before every fault of the layout's steps 2 and 3.
#[test]
fn flags_of_the_c_calls() {
    let planes = [7; 64];
    for place in 5..9 {
        for (flag, w) in [(2, 9), (usize::MAX, 9), (2, 0), (2, 16_385)] {
            let mut fields = numbers(&Layout::grey(w, 2, Little));
            fields[place] = flag;
            let mut out = [0xC5; 300];
            // SAFETY: the pointers are those of eleven numbers and of one in an array.
            check(CANARY, 1, Err(plain::UNSUPPORTED), |length| unsafe {
                hamrisk_file_length(fields.as_ptr(), 1, length)
            });
            // SAFETY: the pointers are those of eleven numbers, of two arrays and of a number in an array.
            check(CANARY, 1, Err(plain::UNSUPPORTED), |length| unsafe {
                hamrisk_write_file(fields.as_ptr(), 1, planes.as_ptr(), 64, out.as_mut_ptr(), 300, length)
            });
            assert_eq!(out, [0xC5; 300]);
        }
    }
}

/// The number that `hamrisk_file_length` lends back.
#[test]
fn lengths_of_the_c_call() {
    let mut random = Random::new(62);
    for kind in good() {
        for _ in 0..40 {
            let l = sized_for_strips(&mut random, kind);
            let rows = any_rows(&mut random, l.h);
            let expected = plain_files::file_length(&l, rows).map(|length| vec![length]);
            // SAFETY: the pointers are those of eleven numbers and of one in an array.
            check(CANARY, 1, expected, |length| unsafe { hamrisk_file_length(numbers(&l).as_ptr(), rows, length) });
        }
    }
}

/// What the reader makes of a written file: the layout, the strips, the planes and the picture.
#[test]
fn written_files_are_read_back() {
    let mut random = Random::new(63);
    for kind in served() {
        for _ in 0..60 {
            let l = sized_for_strips(&mut random, kind);
            let rows = 1 + random.below(l.h);
            let planes = random.bytes(lengths(&l).0);
            read_back(&l, rows, &planes);
        }
    }
}

fn read_back(l: &Layout, rows: usize, planes: &[u8]) {
    let file = written_file(l, rows, planes).unwrap();
    assert_eq!(file_length(l, rows), Ok(file.len()));
    let found = read_directory(&file, 0).unwrap();
    let layout = Layout { map: 0, ..*l };
    let strips = l.h.div_ceil(rows) * found.derived.planes;
    assert_eq!((found.layout, Ok(found.derived)), (layout, check_layout(l)));
    assert_eq!((found.predict, found.strips), (false, strips), "{l:?} {rows}");
    assert_eq!(read_directory(&file, 1), Err(Refusal::Invalid));

    let places = placed(&file, 0).unwrap();
    assert!(places.windows(2).all(|pair| pair[0].end == pair[1].start), "strips that do not follow one another");
    assert_eq!(places.last().map(|place| place.end), Some(file.len()));
    let parts: Vec<&[u8]> = (0..strips).map(|k| strip(&file, 0, k).unwrap()).collect();
    assert_eq!(parts.concat(), planes, "{l:?} {rows}");
    assert_eq!(samples(&file, 0, Little).unwrap().bytes, planes);
    assert_eq!(Ok(picture(&file, 0).unwrap().bytes), rendered(l, &[], planes));

    let reading = explain(&file, 0).unwrap();
    assert_eq!((reading.layout, reading.predictor), (layout, 1));
    let cut = &file[..file.len() - 1];
    assert_eq!(read_directory(cut, 0), Err(Refusal::Truncated), "a file that lost its last byte");
}

/// Strips of 8192 bytes or a little fewer.
#[test]
fn advised_rows() {
    let mut random = Random::new(64);
    for kind in good() {
        let (w, h) = (random.one_of(&[1, 9, 100, 4_096, 8_192, 8_193]), random.one_of(&[1, 2, 40, 16_384]));
        let l = Layout { w, h, ..kind };
        let Ok(d) = plain::check_layout(&l) else {
            assert_eq!(told(advised_rows_per_strip(&l)), Err(plain::LIMIT));
            continue;
        };
        let row = d.encoded_width * d.plane_channels;
        let rows = advised_rows_per_strip(&l).unwrap();
        assert!(rows >= 1 && rows <= h && (rows == 1 || rows * row <= 8_192), "{l:?} {rows}");
        assert!(rows == h || (rows + 1) * row > 8_192, "{l:?} {rows}");
    }
    assert_eq!(advised_rows_per_strip(&Layout::grey(1, 0, Little)), Err(Refusal::Invalid));
}

/// Two columns and three rows of colour, two rows to a strip, byte for byte.
#[test]
fn the_bytes_of_a_file() {
    let planes: Vec<u8> = (1..=18).collect();
    let file = written_file(&Layout::colour(2, 3, Little), 2, &planes).unwrap();
    #[rustfmt::skip]
    let directory = [
        b'I', b'I', 42, 0, 8, 0, 0, 0,
        14, 0,
        0, 1, 3, 0, 1, 0, 0, 0, 2, 0, 0, 0,
        1, 1, 3, 0, 1, 0, 0, 0, 3, 0, 0, 0,
        2, 1, 3, 0, 3, 0, 0, 0, 182, 0, 0, 0,
        3, 1, 3, 0, 1, 0, 0, 0, 1, 0, 0, 0,
        6, 1, 3, 0, 1, 0, 0, 0, 2, 0, 0, 0,
        17, 1, 4, 0, 2, 0, 0, 0, 188, 0, 0, 0,
        21, 1, 3, 0, 1, 0, 0, 0, 3, 0, 0, 0,
        22, 1, 4, 0, 1, 0, 0, 0, 2, 0, 0, 0,
        23, 1, 4, 0, 2, 0, 0, 0, 196, 0, 0, 0,
        26, 1, 5, 0, 1, 0, 0, 0, 204, 0, 0, 0,
        27, 1, 5, 0, 1, 0, 0, 0, 212, 0, 0, 0,
        28, 1, 3, 0, 1, 0, 0, 0, 1, 0, 0, 0,
        40, 1, 3, 0, 1, 0, 0, 0, 1, 0, 0, 0,
        61, 1, 3, 0, 1, 0, 0, 0, 1, 0, 0, 0,
        0, 0, 0, 0,
        8, 0, 8, 0, 8, 0,
        220, 0, 0, 0, 232, 0, 0, 0,
        12, 0, 0, 0, 6, 0, 0, 0,
        1, 0, 0, 0, 1, 0, 0, 0,
        1, 0, 0, 0, 1, 0, 0, 0,
    ];
    assert_eq!(file, [&directory[..], &planes].concat());
}
