//! Words, samples, bit reversal, swaps and copies.

use crate::lent::Lent;
use crate::random::Random;
use crate::{plain, told};
use hamrisk::{commit, load, read_word, reverse_bits, swap_components, ByteAt, ByteOrder, SampleAt};

const ORDERS: [ByteOrder; 2] = [ByteOrder::Little, ByteOrder::Big];

/// Places near either end of a buffer, and near the ends of a usize.
fn places(length: usize) -> Vec<usize> {
    let near = 0..length + 10;
    near.chain([usize::MAX / 2, usize::MAX / 2 + 1, usize::MAX - 8, usize::MAX - 1, usize::MAX]).collect()
}

#[test]
fn read_word_at_every_place() {
    let mut random = Random::new(1);
    for length in 0..20 {
        let content = random.bytes(length);
        let lent = Lent::of(&mut random, &content);
        for at in places(length) {
            for width in [0, 1, 2, 3, 4, 5, 6, 7, 8, 9, 16, usize::MAX] {
                for order in ORDERS {
                    let answer = told(read_word(lent.bytes(), ByteAt(at), width, order));
                    assert_eq!(answer, plain::read_word(&content, at, width, order), "{at} {width} {order:?}");
                }
            }
        }
        lent.assert_kept();
    }
}

#[test]
fn load_at_every_place() {
    let mut random = Random::new(2);
    for length in 0..20 {
        let content = random.bytes(length);
        let lent = Lent::of(&mut random, &content);
        for i in places(length) {
            for (wide, order) in [(false, ORDERS[0]), (false, ORDERS[1]), (true, ORDERS[0]), (true, ORDERS[1])] {
                let answer = told(load(lent.bytes(), SampleAt(i), wide, order));
                assert_eq!(answer, plain::load(&content, i, wide, order), "{i} {wide} {order:?}");
            }
        }
        lent.assert_kept();
    }
}

#[test]
fn reverse_bits_of_every_byte_and_length() {
    let mut random = Random::new(3);
    let others = (0..200).map(|length| random.bytes(length)).collect::<Vec<_>>();
    let every = (0..=24).flat_map(|length| (0..=255).map(move |byte| vec![byte; length])).collect::<Vec<_>>();
    for content in others.iter().chain(&every) {
        let mut lent = Lent::of(&mut random, content);
        reverse_bits(lent.bytes_mut());
        lent.assert_front(&plain::reverse_bits(content));
        reverse_bits(lent.bytes_mut());
        lent.assert_kept();
    }
}

#[test]
fn swap_components_of_every_width() {
    let mut random = Random::new(4);
    for case in 0..8000 {
        let width = case % 11;
        let length = if random.below(4) == 0 { random.below(60) } else { random.below(30) * width };
        let content = random.bytes(length);
        let raw = Lent::of(&mut random, &content);
        let room = random.around(length);
        let mut out = Lent::room(&mut random, room);
        let answer = told(swap_components(raw.bytes(), width, out.bytes_mut()));
        out.assert_outcome(answer, plain::swap_components(&content, width, room));
        raw.assert_kept();
    }
    assert_eq!(told(swap_components(&[], usize::MAX, &mut [])), Err(plain::UNSUPPORTED));
}

#[test]
fn commit_of_every_length() {
    let mut random = Random::new(5);
    for case in 0..3000 {
        let content = random.bytes(case % 200);
        let source = Lent::of(&mut random, &content);
        let room = random.around(content.len());
        let mut out = Lent::room(&mut random, room);
        let answer = told(commit(source.bytes(), out.bytes_mut()));
        out.assert_outcome(answer, plain::commit(&content, room));
        source.assert_kept();
    }
}
