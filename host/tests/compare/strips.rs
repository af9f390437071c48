//! Strips: geometry, conversion, forward prediction and damage marks.

use crate::lent::Lent;
use crate::plain::{self, Flags};
use crate::random::Random;
use crate::told;
use hamrisk::{check_strip, convert, forward, marks, ByteOrder, Coding, Refusal, Strip};

const CHANNELS: [usize; 8] = [0, 1, 2, 3, 4, 63, 64, 65];

pub fn coding(flags: Flags) -> Coding {
    Coding { from: flags.from, to: flags.to, predict: flags.predict }
}

fn order(random: &mut Random) -> ByteOrder {
    random.one_of(&[ByteOrder::Little, ByteOrder::Big])
}

pub fn flags(random: &mut Random) -> Flags {
    Flags { from: order(random), predict: random.below(3) > 0, to: order(random) }
}

/// A strip of `length` bytes, and the bytes that its output has room for.
#[derive(Clone, Copy)]
struct Case {
    strip: Strip,
    length: usize,
    room: usize,
}

/// A geometry and a length that are mostly served, and often a little wrong.
pub fn geometry(random: &mut Random) -> (Strip, usize) {
    let width = if random.below(5) == 0 { random.below(10) } else { random.one_of(&plain::WIDTHS) };
    let channels = if random.flag() { random.one_of(&CHANNELS) } else { 1 + random.below(5) };
    let pixels = if random.below(8) == 0 { random.below(90) } else { random.below(7) };
    let row_bytes = match random.below(10) {
        0 => 0,
        1 => random.below(40),
        2 => (channels * width * pixels).saturating_sub(1),
        _ => channels * width * pixels.max(1),
    };
    let length = match random.below(8) {
        0 => 0,
        1 => random.below(60),
        2 => (row_bytes * 2).saturating_sub(1),
        _ => row_bytes * random.below(5),
    };
    (Strip { row_bytes, channels, width }, length)
}

#[test]
fn check_strip_of_all_small_and_the_largest_numbers() {
    let sizes = [0, 1, 2, 3, 4, 6, 7, 8, 12, 24, 63, 64, 65, 126, 128, 512, 1 << 32, usize::MAX - 1, usize::MAX];
    for length in sizes {
        for row_bytes in sizes {
            for channels in CHANNELS.into_iter().chain([usize::MAX]) {
                for width in (0..10).chain([16, usize::MAX]) {
                    let strip = Strip { row_bytes, channels, width };
                    assert_eq!(
                        told(check_strip(length, strip)),
                        plain::check_strip(length, strip),
                        "{length} {strip:?}"
                    );
                }
            }
        }
    }
}

type Call = fn(&[u8], Strip, Coding, &mut [u8]) -> Result<(), Refusal>;
type PlainCall = fn(&[u8], Strip, Flags, usize) -> Result<Vec<u8>, u32>;

const TRANSFORMS: [(Call, PlainCall); 2] = [(convert, plain::convert), (forward, plain::forward)];

/// Holds `convert` or `forward` of random bytes to the plain reading; answers whether the call was done.
fn transform_case(random: &mut Random, (call, plain): (Call, PlainCall), case: Case) -> bool {
    let (strip, flags) = (case.strip, flags(random));
    let content = random.bytes(case.length);
    let raw = Lent::of(random, &content);
    let mut out = Lent::room(random, case.room);
    let answer = told(call(raw.bytes(), strip, coding(flags), out.bytes_mut()));
    out.assert_outcome(answer, plain(&content, strip, flags, case.room));
    raw.assert_kept();
    answer.is_ok()
}

/// A damage map: none, a few bytes, a run, or most.
fn damage(random: &mut Random, length: usize) -> Vec<u8> {
    let mut map = vec![0; length];
    let share = random.one_of(&[0, 1, 1, 1, 4, 100]);
    for byte in map.iter_mut() {
        if random.below(120) < share {
            *byte = random.one_of(&[1, 2, 128, 255]);
        }
    }
    if length > 0 && random.flag() {
        let from = random.below(length);
        let to = from + random.below(length - from);
        map[from..to].fill(random.one_of(&[1, 16, 255]));
    }
    map
}

/// Holds `marks` of random damage to the plain reading; answers whether the call was done.
fn marks_case(random: &mut Random, case: Case) -> bool {
    let (strip, predict) = (case.strip, random.flag());
    let content = damage(random, case.length);
    let map = Lent::of(random, &content);
    let mut out = Lent::room(random, case.room);
    let answer = told(marks(map.bytes(), strip, predict, out.bytes_mut()));
    let expected = plain::marks(&content, strip, predict, case.room);
    if let Ok(expected) = &expected {
        assert_eq!(answer, Ok(expected.iter().filter(|&&m| m == 1).count()));
    }
    out.assert_outcome(answer.map(|_| ()), expected);
    map.assert_kept();
    answer.is_ok()
}

/// Both kinds of answer must be common, or the cases say little.
#[track_caller]
pub fn assert_mixed(done: usize, cases: usize) {
    assert!((cases / 4..cases * 3 / 4).contains(&done), "{done} of {cases} were done");
}

#[test]
fn convert_and_forward_as_the_plain_reading() {
    let mut random = Random::new(10);
    for calls in TRANSFORMS {
        let done = (0..20_000).filter(|_| {
            let (strip, length) = geometry(&mut random);
            let room = random.around(length);
            transform_case(&mut random, calls, Case { strip, length, room })
        });
        assert_mixed(done.count(), 20_000);
    }
}

#[test]
fn marks_as_the_plain_reading() {
    let mut random = Random::new(11);
    let done = (0..20_000).filter(|_| {
        let (strip, length) = geometry(&mut random);
        let room = random.around(length / strip.width.max(1));
        marks_case(&mut random, Case { strip, length, room })
    });
    assert_mixed(done.count(), 20_000);
}

/// Every width and channel count at and beside the served ones, with rows, lengths and rooms that just fit and just do not.
#[test]
fn edges_of_every_geometry() {
    let mut random = Random::new(12);
    let near = |n: usize| [n.saturating_sub(1), n, n + 1];
    for (width, channels) in (0..=9).flat_map(|width| CHANNELS.map(|channels| (width, channels))) {
        let pixel = width * channels;
        for row_bytes in [0, 1, pixel.saturating_sub(1), pixel, pixel + 1, 2 * pixel, 3 * pixel] {
            let strip = Strip { row_bytes, channels, width };
            for length in near(2 * row_bytes).into_iter().chain([0]) {
                for (room, calls) in near(length).into_iter().flat_map(|room| TRANSFORMS.map(|calls| (room, calls))) {
                    transform_case(&mut random, calls, Case { strip, length, room });
                }
                for room in near(length / width.max(1)) {
                    marks_case(&mut random, Case { strip, length, room });
                }
            }
        }
    }
}

#[test]
fn forward_and_convert_undo_each_other() {
    let mut random = Random::new(12);
    for _ in 0..5_000 {
        let (width, channels) = (random.one_of(&plain::WIDTHS), 1 + random.below(64));
        let row_bytes = width * channels * (1 + random.below(6));
        let strip = Strip { row_bytes, channels, width };
        let length = row_bytes * random.below(4);
        let content = random.bytes(length);
        let coding = coding(flags(&mut random));
        for (there, back) in [(forward as Call, convert as Call), (convert, forward)] {
            let (mut between, mut again) = (vec![0; length], vec![0; length]);
            there(&content, strip, coding, &mut between).unwrap();
            back(&between, strip, coding.back(), &mut again).unwrap();
            assert_eq!(again, content, "{strip:?} {coding:?}");
        }
    }
}

/// Which samples change if bytes of a strip do.
fn changed(before: &[u8], after: &[u8], strip: Strip, coding: Coding) -> Vec<bool> {
    let samples = |raw: &[u8]| {
        let mut out = vec![0; raw.len()];
        convert(raw, strip, coding, &mut out).unwrap();
        out
    };
    let (before, after) = (samples(before), samples(after));
    before.chunks(strip.width).zip(after.chunks(strip.width)).map(|(a, b)| a != b).collect()
}

/// By trying: a sample is marked exactly if other contents of the damaged bytes change it.
#[test]
fn marks_are_what_damaged_bytes_can_change() {
    let mut random = Random::new(14);
    for _ in 0..1_500 {
        let (width, channels) = (random.one_of(&plain::WIDTHS), 1 + random.below(4));
        let strip = Strip { row_bytes: width * channels * (1 + random.below(5)), channels, width };
        let raw = {
            let length = strip.row_bytes * (1 + random.below(3));
            random.bytes(length)
        };
        let map = damage(&mut random, raw.len());
        let coding = coding(flags(&mut random));
        let mut moved = vec![false; raw.len() / width];
        let mut note = |other: &[u8]| {
            for (moved, now) in moved.iter_mut().zip(changed(&raw, other, strip, coding)) {
                *moved |= now;
            }
        };
        for at in (0..raw.len()).filter(|&at| map[at] != 0) {
            let mut other = raw.clone();
            other[at] ^= 1 << random.below(8);
            note(&other);
        }
        for _ in 0..4 {
            let fresh = random.bytes(raw.len());
            let other: Vec<u8> = (0..raw.len()).map(|at| if map[at] != 0 { fresh[at] } else { raw[at] }).collect();
            note(&other);
        }
        let (marks, count) = hamrisk::marked(&map, strip, coding.predict).unwrap();
        assert_eq!(marks.iter().map(|&m| m == 1).collect::<Vec<_>>(), moved, "{strip:?} {coding:?} {map:?}");
        assert_eq!(count, moved.iter().filter(|&&m| m).count());
    }
}

#[test]
fn the_cases_of_the_rules() {
    let strip = |row_bytes, channels, width| Strip { row_bytes, channels, width };
    let predicted = Coding { from: ByteOrder::Little, to: ByteOrder::Little, predict: true };
    assert_eq!(
        hamrisk::converted(&[10, 20, 30, 1, 2, 3], strip(6, 3, 1), predicted).unwrap(),
        [10, 20, 30, 11, 22, 33]
    );
    assert_eq!(hamrisk::converted(&[5, 251, 7, 1], strip(2, 1, 1), predicted).unwrap(), [5, 0, 7, 8]);
    assert_eq!(hamrisk::forwarded(&[5, 0, 7, 8], strip(2, 1, 1), predicted).unwrap(), [5, 251, 7, 1]);
    let mut map = [0; 16];
    map[3] = 1;
    for (channels, predict, expected, count) in [
        (1, true, [0, 1, 1, 1, 0, 0, 0, 0], 3),
        (1, false, [0, 1, 0, 0, 0, 0, 0, 0], 1),
        (2, true, [0, 1, 0, 1, 0, 0, 0, 0], 2),
    ] {
        assert_eq!(hamrisk::marked(&map, strip(8, channels, 2), predict), Ok((expected.to_vec(), count)));
    }
    assert_eq!(hamrisk::marked(&[], strip(8, 1, 2), true), Ok((vec![], 0)));
    let mut none = [];
    for (raw, geometry, refusal) in [
        (&[0; 64][..], strip(64, 65, 1), plain::UNSUPPORTED),
        (&[0; 64], strip(64, 0, 1), plain::UNSUPPORTED),
        (&[0; 7], strip(7, 1, 5), plain::UNSUPPORTED),
        (&[0; 7], strip(7, 1, 3), plain::INVALID),
        (&[0; 7], strip(6, 3, 2), plain::INVALID),
        (&[0; 64], strip(64, 64, 1), plain::OUTPUT_TOO_SMALL),
    ] {
        assert_eq!(told(convert(raw, geometry, predicted, &mut none)), Err(refusal));
    }
}
