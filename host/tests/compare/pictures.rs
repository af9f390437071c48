//! Layouts, and pictures rendered from planes and written to them.

use crate::lent::Lent;
use crate::random::Random;
use crate::{plain, told};
use hamrisk::ByteOrder::{Big, Little};
use hamrisk::{check_layout, index, render, rendered, write_planes, written, ByteAt, Layout};

/// Every layout of these numbers, good or bad, with one row of one pixel.
pub fn layouts(all_bytes: &[usize], all_ch: &[usize], all_slots: &[usize], all_alpha: &[usize]) -> Vec<Layout> {
    let mut list = vec![Layout::grey(1, 1, Big)];
    list = with(list, all_bytes, |l, bytes| Layout { bytes, ..l });
    list = with(list, all_ch, |l, ch| Layout { ch, ..l });
    list = with(list, all_slots, |l, slots| Layout { slots, ..l });
    list = with(list, all_alpha, |l, alpha| Layout { alpha, ..l });
    list = with(list, &[false, true], |l, palette| Layout { palette, ..l });
    list = with(list, &[false, true], |l, separate| Layout { separate, ..l });
    list = with(list, &[false, true], |l, white| Layout { white, ..l });
    with(list, &[Little, Big], |l, order| Layout { order, ..l })
}

fn with<T: Copy>(list: Vec<Layout>, values: &[T], set: impl Fn(Layout, T) -> Layout) -> Vec<Layout> {
    list.into_iter().flat_map(|l| values.iter().map(|&v| set(l, v)).collect::<Vec<_>>()).collect()
}

/// Every kind of layout that the check accepts.
pub fn good() -> Vec<Layout> {
    let mut list = layouts(&[1, 2, 8], &[1, 2, 3, 4], &[1, 2, 8], &[0, 1, 2]);
    list.retain(|l| plain::check_layout(l).is_ok());
    list
}

/// A picture's size: mostly small, at times past the rows that are rendered many bytes at once.
pub fn sized(random: &mut Random, l: Layout) -> Layout {
    let w = if random.below(6) == 0 { 1 + random.below(150) } else { 1 + random.below(20) };
    Layout { w, h: 1 + random.below(4), ..l }
}

/// The lengths that a layout asks for, planes and picture; of a layout that is refused, any.
pub fn lengths(l: &Layout) -> (usize, usize) {
    plain::check_layout(l).map_or((40, 40), |d| (d.scratch_length, d.output_length))
}

#[test]
fn check_layout_of_every_kind_and_size() {
    let kinds = layouts(&[0, 1, 2, 3, 4, 7, 8, 9], &[0, 1, 2, 3, 4, 5], &[0, 1, 2, 3, 4, 7, 8, 9], &[0, 1, 2, 3]);
    let sizes = [
        (0, 1),
        (1, 0),
        (9, 3),
        (16, 2),
        (17, 1),
        (16_384, 16_384),
        (16_385, 1),
        (1, 16_385),
        (16_384, 8_192),
        (8_193, 16_384),
        (usize::MAX, usize::MAX),
        (usize::MAX, 0),
    ];
    for kind in kinds {
        for (w, h) in sizes {
            let l = Layout { w, h, map: w.wrapping_mul(77), ..kind };
            assert_eq!(told(check_layout(&l)), plain::check_layout(&l), "{l:?}");
        }
    }
    let largest = Layout { alpha: 0, ch: usize::MAX, ..Layout::grey(1, 1, Big) };
    assert_eq!(told(check_layout(&largest)), Err(plain::UNSUPPORTED));
    assert_eq!(told(check_layout(&Layout { alpha: usize::MAX, ..Layout::grey(1, 1, Big) })), Err(plain::UNSUPPORTED));
}

#[test]
fn check_layout_at_the_limits() {
    let four = Layout { ch: 4, ..Layout::grey(16_384, 16_384, Big) };
    assert_eq!(check_layout(&four).unwrap().output_length, 1 << 30);
    for (l, refusal) in [
        (Layout { bytes: 2, ..four }, plain::LIMIT),
        (Layout::grey(16_385, 1, Big), plain::LIMIT),
        (Layout::grey(1, 16_385, Big), plain::LIMIT),
        (Layout { alpha: 1, ch: 3, ..Layout::grey(16_385, 1, Big) }, plain::INVALID),
        (Layout { bytes: 3, ..Layout::grey(16_385, 0, Big) }, plain::UNSUPPORTED),
    ] {
        assert_eq!(told(check_layout(&l)), Err(refusal), "{l:?}");
        assert_eq!(told(index(&l, ByteAt(usize::MAX))), Err(refusal), "{l:?}");
    }
}

#[test]
fn index_of_every_byte() {
    for kind in good() {
        for (w, h) in [(1, 1), (9, 2), (16, 1), (3, 3)] {
            let l = Layout { w, h, map: usize::MAX, ..kind };
            let (_, length) = lengths(&l);
            for k in (0..length + 2).chain([usize::MAX]) {
                assert_eq!(told(index(&l, ByteAt(k))).map(|at| at.0), plain::index(&l, k), "{l:?} {k}");
            }
        }
    }
}

#[test]
fn index_in_large_pictures() {
    let mut random = Random::new(20);
    for kind in good() {
        for (w, h) in [(16_384, 1), (1, 16_384), (16_384, 16_384), (16_385, 1), (8_191, 16_384)] {
            let l = Layout { w, h, ..kind };
            let (_, length) = lengths(&l);
            for k in (0..20).map(|_| random.below(length)).chain([length - 1, length, length + 1]) {
                assert_eq!(told(index(&l, ByteAt(k))).map(|at| at.0), plain::index(&l, k), "{l:?} {k}");
            }
        }
    }
}

/// A file part and a map at, near and far past its end.
fn palette(random: &mut Random, l: Layout) -> (Layout, Vec<u8>) {
    let colours = plain::check_layout(&l).map_or(4, |d| d.colours);
    let map = random.below(30);
    let length = random.around(map + 6 * colours);
    let map = if random.below(12) == 0 { random.one_of(&[usize::MAX, usize::MAX - 1535, usize::MAX / 2]) } else { map };
    (Layout { map, ..l }, random.bytes(length))
}

/// One random case; answers whether the call was done.
fn render_case(random: &mut Random, l: Layout) -> bool {
    let (l, file_content) = palette(random, l);
    let (planes, picture) = lengths(&l);
    let raw_length = random.around(planes);
    let raw_content = random.bytes(raw_length);
    let (file, raw) = (Lent::of(random, &file_content), Lent::of(random, &raw_content));
    let room = random.around(picture);
    let mut out = Lent::room(random, room);
    let answer = told(render(&l, file.bytes(), raw.bytes(), out.bytes_mut()));
    out.assert_outcome(answer, plain::render(&l, &file_content, &raw_content, room));
    file.assert_kept();
    raw.assert_kept();
    answer.is_ok()
}

#[test]
fn render_every_good_kind() {
    let mut random = Random::new(21);
    let mut done = 0;
    for kind in good() {
        for _ in 0..200 {
            let l = sized(&mut random, kind);
            done += usize::from(render_case(&mut random, l));
        }
    }
    assert!(done > 5_000, "{done} were done: too few");
}

#[test]
fn render_bad_kinds() {
    let mut random = Random::new(22);
    for kind in layouts(&[0, 1, 2, 4, 8], &[0, 1, 3, 5], &[0, 1, 2, 8], &[0, 1, 3]) {
        let (w, h) = random.one_of(&[(0, 1), (1, 0), (9, 2), (9, 2), (16_385, 1), (16_384, 16_384)]);
        let l = Layout { w, h, ..kind };
        if plain::check_layout(&l).is_err() {
            assert!(!render_case(&mut random, l));
            assert!(!write_case(&mut random, l));
        }
    }
}

/// Bytes of a picture: of a bilevel one mostly 0 and 255, at times with a bad one, often in the last row.
fn picture(random: &mut Random, l: &Layout, length: usize) -> Vec<u8> {
    let mut bytes = random.bytes(length);
    if l.slots == 8 {
        bytes.iter_mut().for_each(|v| *v = if *v < 128 { 0 } else { 255 });
        if length > 0 && random.below(3) == 0 {
            let at = if random.flag() { length - 1 - random.below(l.w.clamp(1, length)) } else { random.below(length) };
            bytes[at] = random.one_of(&[1, 7, 127, 128, 254]);
        }
    }
    bytes
}

/// One random case; answers whether the call was done.
fn write_case(random: &mut Random, l: Layout) -> bool {
    let (planes_length, output) = lengths(&l);
    let length = random.around(output);
    let content = picture(random, &l, length);
    let picture = Lent::of(random, &content);
    let room = random.around(planes_length);
    let mut planes = Lent::room(random, room);
    let answer = told(write_planes(&l, picture.bytes(), planes.bytes_mut()));
    planes.assert_outcome(answer, plain::write_planes(&l, &content, room));
    picture.assert_kept();
    answer.is_ok()
}

#[test]
fn write_every_good_kind() {
    let mut random = Random::new(23);
    let mut done = 0;
    for kind in good() {
        for _ in 0..200 {
            let l = sized(&mut random, kind);
            done += usize::from(write_case(&mut random, l));
        }
    }
    assert!(done > 3_000, "{done} were done: too few");
}

#[test]
fn a_bad_byte_in_a_late_row_leaves_the_planes() {
    let mut random = Random::new(24);
    for (w, h) in [(9, 7), (8, 7), (64, 9), (1, 40)] {
        let l = Layout::bilevel(w, h, Big);
        let mut content = vec![255; w * h + 1];
        content[w * h] = 7;
        let mut planes = Lent::room(&mut random, check_layout(&l).unwrap().scratch_length);
        for at in (0..w * h).rev() {
            content[at] = 7;
            assert_eq!(told(write_planes(&l, &content, planes.bytes_mut())), Err(plain::INVALID));
            planes.assert_kept();
            content[at] = 255;
        }
        assert_eq!(
            told(write_planes(&l, &content, planes.bytes_mut())),
            Ok(()),
            "a bad byte past the picture is not read"
        );
    }
}

#[test]
fn writing_and_rendering_undo_each_other() {
    let mut random = Random::new(25);
    for kind in good().into_iter().filter(|l| !l.palette && l.bytes != 8 && l.alpha != 1) {
        for _ in 0..60 {
            let l = sized(&mut random, kind);
            let (planes_length, output) = lengths(&l);
            let mut picture = random.bytes(output);
            if l.slots == 8 {
                picture.iter_mut().for_each(|v| *v = if *v < 128 { 0 } else { 255 });
            }
            let planes = written(&l, &picture).unwrap();
            assert_eq!(rendered(&l, &[], &planes).unwrap(), picture, "{l:?}");
            let mut raw = random.bytes(planes_length);
            let again = written(&l, &rendered(&l, &[], &raw).unwrap()).unwrap();
            clear_padding(&l, &mut raw);
            assert_eq!(again, raw, "{l:?}");
        }
    }
}

/// Sets the bits past each row of a bilevel picture to 0.
fn clear_padding(l: &Layout, planes: &mut [u8]) {
    if l.slots == 8 && l.w % 8 != 0 {
        for row in planes.chunks_mut(l.w.div_ceil(8)) {
            row[l.w / 8] &= !(0xFF >> (l.w % 8));
        }
    }
}

/// The byte nearest to 255 × u / a, of two that are as near the larger; 0 beside alpha 0.
fn nearest(u: u8, a: u8) -> u8 {
    let far = |r: &u8| (u32::from(*r) * u32::from(a)).abs_diff(255 * u32::from(u));
    if a == 0 {
        0
    } else {
        (0..=255).rev().min_by_key(far).unwrap()
    }
}

/// Every colour beside every alpha that it may have been multiplied by, in rows of many pixels and of few.
#[test]
fn every_colour_beside_every_alpha() {
    let pairs: Vec<u8> = (0..=u16::MAX).flat_map(u16::to_le_bytes).collect();
    let straight: Vec<u8> = pairs.chunks(2).flat_map(|pair| [nearest(pair[0], pair[1]), pair[1]]).collect();
    let grey = Layout { ch: 2, alpha: 1, ..Layout::grey(256, 256, Big) };
    assert!(plain::render(&grey, &[], &pairs, pairs.len()).unwrap() == straight, "the reading");

    for l in good().into_iter().filter(|l| l.alpha == 1) {
        for (w, h) in [(256, 256), (4, 16_384)] {
            let l = Layout { w, h, ..l };
            let byte = |pixel: usize, c| if c == l.ch - 1 { pixel >> 8 } else { pixel + c } as u8;
            let at = |i| if l.separate { byte(i % 65_536, i / 65_536) } else { byte(i / l.ch, i % l.ch) };
            let raw: Vec<u8> = (0..l.ch * 65_536).map(at).collect();
            assert!(rendered(&l, &[], &raw).unwrap() == plain::render(&l, &[], &raw, raw.len()).unwrap(), "{l:?}");
        }
    }
}

#[test]
fn the_cases_of_the_rules() {
    assert_eq!(rendered(&Layout::bilevel(9, 1, Big), &[], &[0x80, 0x80]).unwrap(), [255, 0, 0, 0, 0, 0, 0, 0, 255]);
    let apart = Layout { separate: true, ..Layout::colour(2, 1, Big) };
    assert_eq!(rendered(&apart, &[], &[1, 2, 3, 4, 5, 6]).unwrap(), [1, 3, 5, 2, 4, 6]);
    let wide = Layout { bytes: 2, ..Layout::grey(1, 1, Little) };
    assert_eq!(rendered(&wide, &[], &[0x34, 0x12]).unwrap(), [0x12, 0x34]);
    let multiplied = Layout { ch: 2, alpha: 1, ..Layout::grey(3, 1, Big) };
    assert_eq!(rendered(&multiplied, &[], &[100, 200, 200, 100, 9, 0]).unwrap(), [128, 200, 255, 100, 0, 0]);
    let mut file = vec![0; 96];
    for i in 0..48 {
        file[2 * i + 1] = i as u8;
    }
    let indexed = Layout::indexed(3, 1, 2, 0, Little);
    assert_eq!(rendered(&indexed, &file, &[0x1A, 0x70]).unwrap(), [1, 17, 33, 10, 26, 42, 7, 23, 39]);
}
