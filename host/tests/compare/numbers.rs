//! The numbers lent to the C calls, which the Rust API keeps to itself: a refusal leaves them as they were, and a call
//! that is done writes no number beside them.

use crate::plain;
use crate::random::Random;
use hamrisk::{ByteOrder, Derived, Layout, Strip};

#[rustfmt::skip]
extern "C" {
    fn hamrisk_read_word(s: *const u8, s_len: usize, at: usize, width: usize, le: bool, value: *mut u64) -> u32;
    fn hamrisk_load(s: *const u8, s_len: usize, i: usize, wide: bool, le: bool, value: *mut u32) -> u32;
    fn hamrisk_marks(damage: *const u8, damage_len: usize, row_bytes: usize, channels: usize, width: usize, predict: bool,
                     marks: *mut u8, marks_len: usize, count: *mut usize) -> u32;
    fn hamrisk_check_layout(layout: *const usize, derived: *mut usize) -> u32;
    fn hamrisk_index(layout: *const usize, k: usize, place: *mut usize) -> u32;
}

/// Calls with a pointer to these numbers in the middle of others, which must stay; answers its status and what became of
/// them.
#[track_caller]
pub fn lend<T: Copy + PartialEq + std::fmt::Debug>(
    canary: T,
    content: &[T],
    call: impl FnOnce(*mut T) -> u32,
) -> (u32, Vec<T>) {
    let margin = [canary; 8];
    let mut numbers = [&margin, content, &margin].concat();
    let status = call(numbers[8..].as_mut_ptr());
    let (front, rest) = numbers.split_at(8);
    let (content, back) = rest.split_at(content.len());
    assert_eq!((front, back), (&margin[..], &margin[..]));
    (status, content.to_vec())
}

/// Calls with a pointer to `room` numbers in the middle of others, and checks what became of all of them.
#[track_caller]
pub fn check<T: Copy + PartialEq + std::fmt::Debug>(
    canary: T,
    room: usize,
    expected: Result<Vec<T>, u32>,
    call: impl FnOnce(*mut T) -> u32,
) {
    let mut wanted = vec![canary; room];
    let (status, numbers) = lend(canary, &wanted, call);
    match expected {
        Ok(values) => {
            assert_eq!(status, 0);
            wanted[..values.len()].copy_from_slice(&values);
        }
        Err(refusal) => assert_eq!(status, refusal),
    }
    assert_eq!(numbers, wanted);
}

fn order(le: bool) -> ByteOrder {
    if le {
        ByteOrder::Little
    } else {
        ByteOrder::Big
    }
}

#[test]
fn words() {
    let mut random = Random::new(30);
    let s = random.bytes(11);
    for _ in 0..5_000 {
        let (at, width, le, wide) = (random.below(14), random.below(10), random.flag(), random.flag());
        let at = if random.below(10) == 0 { usize::MAX - at } else { at };
        // SAFETY: the pointers are those of a slice and of a number in an array.
        check(0xA5A5_5A5A_A5A5_5A5A, 1, plain::read_word(&s, at, width, order(le)).map(|v| vec![v]), |value| unsafe {
            hamrisk_read_word(s.as_ptr(), s.len(), at, width, le, value)
        });
        // SAFETY: the pointers are those of a slice and of a number in an array.
        check(0xA5A5_5A5A, 1, plain::load(&s, at, wide, order(le)).map(|v| vec![v]), |value| unsafe {
            hamrisk_load(s.as_ptr(), s.len(), at, wide, le, value)
        });
    }
}

#[test]
fn counts() {
    let mut random = Random::new(31);
    for _ in 0..5_000 {
        let (width, channels, predict) = (random.one_of(&[1, 2, 3, 4, 8]), random.below(5), random.flag());
        let strip = Strip { row_bytes: width * channels * random.below(4), channels, width };
        let damage = {
            let length = strip.row_bytes * random.below(4);
            random.bytes(length)
        };
        let room = random.around(damage.len() / width);
        let mut marks = vec![0; room];
        let count = |marks: Vec<u8>| vec![marks.iter().filter(|&&m| m == 1).count()];
        // SAFETY: the pointers are those of two slices and of a number in an array.
        check(usize::MAX / 3, 1, plain::marks(&damage, strip, predict, room).map(count), |count| unsafe {
            let Strip { row_bytes, channels, width } = strip;
            hamrisk_marks(
                damage.as_ptr(),
                damage.len(),
                row_bytes,
                channels,
                width,
                predict,
                marks.as_mut_ptr(),
                room,
                count,
            )
        });
    }
}

#[test]
fn layouts() {
    let mut random = Random::new(32);
    for _ in 0..20_000 {
        let fields = [
            random.one_of(&[0, 1, 9, 16_384, 16_385]),
            random.one_of(&[0, 1, 2, 16_384, 16_385]),
            random.below(6),
            random.one_of(&[1, 1, 1, 2, 3, 8]),
            random.one_of(&[1, 1, 1, 2, 8]),
            flag(&mut random),
            flag(&mut random),
            flag(&mut random),
            flag(&mut random),
            random.one_of(&[0, 0, 0, 1, 2, 3]),
            random.below(9),
        ];
        let [w, h, ch, bytes, slots, palette, separate, le, white, alpha, map] = fields;
        let (palette, separate, white) = (palette != 0, separate != 0, white != 0);
        let l = Layout { w, h, ch, bytes, slots, palette, separate, order: order(le != 0), white, alpha, map };
        let k = random.below(30);
        let flagged = fields[5..9].iter().any(|&n| n > 1);
        let seven = if flagged { Err(1) } else { plain::check_layout(&l).map(seven) };
        let place = if flagged { Err(1) } else { plain::index(&l, k).map(|place| vec![place]) };
        // SAFETY: the pointers are those of eleven numbers and of seven in an array.
        check(usize::MAX / 5, 7, seven, |derived| unsafe { hamrisk_check_layout(fields.as_ptr(), derived) });
        // SAFETY: the pointers are those of eleven numbers and of one in an array.
        check(usize::MAX / 7, 1, place, |place| unsafe { hamrisk_index(fields.as_ptr(), k, place) });
    }
}

/// A flag of a layout, now and then neither 0 nor 1.
fn flag(random: &mut Random) -> usize {
    random.one_of(&[0, 0, 0, 0, 0, 0, 0, 0, 1, 1, 1, 1, 1, 1, 1, 2, usize::MAX])
}

/// What follows from a layout, in the header's order.
pub fn seven(d: Derived) -> Vec<usize> {
    vec![d.encoded_width, d.plane_channels, d.planes, d.plane_length, d.scratch_length, d.output_length, d.colours]
}
