//! PackBits rows: unpacked, packed by a plan and as literals, beside the plain reading; a million rows and plans, sound and
//! spoiled.

use crate::lent::Lent;
use crate::numbers::check;
use crate::plain::{INVALID, OUTPUT_TOO_SMALL, TRUNCATED};
use crate::random::Random;
use crate::{plain_packbits, told};
use hamrisk::{
    explain_row, pack_row, packed, packed_length, unpack_row, unpacked, write_plan, Plan, Planned, Refusal, RowFault,
};

#[rustfmt::skip]
extern "C" {
    fn hamrisk_unpack_row(packed: *const u8, packed_len: usize, row: *mut u8, row_len: usize, used: *mut usize) -> u32;
    fn hamrisk_write_plan_lists(row: *const u8, row_len: usize, kinds: *const u8, kinds_len: usize, lengths: *const u8,
                                lengths_len: usize, out: *mut u8, out_len: usize, length: *mut usize) -> u32;
    fn hamrisk_pack_row(row: *const u8, row_len: usize, out: *mut u8, out_len: usize, length: *mut usize) -> u32;
}

/// What the lent number holds before a call.
const CANARY: usize = usize::MAX / 17;

/// How often each number was answered.
#[derive(Debug, Default)]
struct Tally([usize; 6]);

impl Tally {
    fn note<T>(&mut self, answer: &Result<T, u32>) {
        self.0[answer.as_ref().err().map_or(0, |&refusal| refusal as usize)] += 1;
    }

    /// Each of these was answered in a tenth of the cases or more, and no other at all.
    #[track_caller]
    fn assert_mixed(&self, answers: &[u32]) {
        let cases: usize = self.0.iter().sum();
        for (answer, &count) in self.0.iter().enumerate() {
            let wanted = answers.contains(&(answer as u32));
            assert!(if wanted { count >= cases / 10 } else { count == 0 }, "answer {answer}: {self:?}");
        }
    }
}

/// Holds a row to the plain readings, that of the tests and that of the host, which says what is wrong.
fn unpack_case(random: &mut Random, content: &[u8], row_bytes: usize) -> Result<(Vec<u8>, usize), u32> {
    let expected = plain_packbits::unpack_row(content, row_bytes);
    let used = expected.as_ref().map(|(_, used)| *used).map_err(|&refusal| refusal);
    let row_of = || expected.as_ref().map(|(row, _)| row.clone()).map_err(|&refusal| refusal);

    let input = Lent::of(random, content);
    let mut row = Lent::room(random, row_bytes);
    let (from, to) = (input.bytes().as_ptr(), row.bytes_mut().as_mut_ptr());
    // SAFETY: the pointers are those of two slices and of a number in an array.
    check(CANARY, 1, used.map(|used| vec![used]), |used| unsafe {
        hamrisk_unpack_row(from, content.len(), to, row_bytes, used)
    });
    row.assert_outcome(used.map(|_| ()), row_of());
    if random.below(4) == 0 {
        let mut row = Lent::room(random, row_bytes);
        assert_eq!(told(unpack_row(input.bytes(), row.bytes_mut())), used);
        row.assert_outcome(used.map(|_| ()), row_of());
    }
    let explained = explain_row(input.bytes(), 0, row_bytes);
    assert_eq!(explained.map_err(|fault| fault.refusal().number()), used, "{content:?} {row_bytes}");
    input.assert_kept();
    expected
}

/// Holds the two lists of a plan to the plain reading.
fn lists_case(random: &mut Random, content: &[u8], kinds: &[u8], lengths: &[u8], room: usize) -> Result<Vec<u8>, u32> {
    let expected = plain_packbits::write_plan(content, kinds, lengths, room);
    let [row, kinds, lengths] = [content, kinds, lengths].map(|bytes| Lent::of(random, bytes));
    let mut out = Lent::room(random, room);
    let [r, k, l] = [&row, &kinds, &lengths].map(|lent| (lent.bytes().as_ptr(), lent.bytes().len()));
    let to = out.bytes_mut().as_mut_ptr();
    // SAFETY: the pointers are those of four slices and of a number in an array.
    check(
        CANARY,
        1,
        expected.as_ref().map(|packets| vec![packets.len()]).map_err(|&refusal| refusal),
        |length| unsafe { hamrisk_write_plan_lists(r.0, r.1, k.0, k.1, l.0, l.1, to, room, length) },
    );
    out.assert_outcome(expected.as_ref().map(|_| ()).map_err(|&refusal| refusal), expected.clone());
    [row, kinds, lengths].iter().for_each(Lent::assert_kept);
    expected
}

/// Holds a plan to the plain reading.
fn plan_case(random: &mut Random, content: &[u8], plan: &[(u8, u8)], room: usize) -> Result<Vec<u8>, u32> {
    let (kinds, lengths): (Vec<u8>, Vec<u8>) = plan.iter().copied().unzip();
    let expected = lists_case(random, content, &kinds, &lengths, room);
    let length = expected.as_ref().map(Vec::len).map_err(|&refusal| refusal);
    if random.below(4) == 0 && plan.iter().all(|(kind, _)| *kind < 2) {
        let packet =
            |&(kind, bytes): &(u8, u8)| if kind == 0 { Planned::Literal(bytes) } else { Planned::Repeat(bytes) };
        let plan: Plan = plan.iter().map(packet).collect();
        let mut out = Lent::room(random, room);
        assert_eq!(told(write_plan(content, &plan, out.bytes_mut())), length);
        out.assert_outcome(length.map(|_| ()), expected.clone());
        assert!(length.is_err() || length == Ok(plan.length()));
    }
    expected
}

/// Holds the literals of a row to the plain reading.
fn pack_case(random: &mut Random, content: &[u8], room: usize) -> Result<Vec<u8>, u32> {
    let expected = plain_packbits::pack_row(content, room);
    let length = expected.as_ref().map(Vec::len).map_err(|&refusal| refusal);
    let row = Lent::of(random, content);
    let mut out = Lent::room(random, room);
    let (from, to) = (row.bytes().as_ptr(), out.bytes_mut().as_mut_ptr());
    // SAFETY: the pointers are those of two slices and of a number in an array.
    check(CANARY, 1, length.map(|length| vec![length]), |length| unsafe {
        hamrisk_pack_row(from, content.len(), to, room, length)
    });
    out.assert_outcome(length.map(|_| ()), expected.clone());
    if random.below(4) == 0 {
        let mut out = Lent::room(random, room);
        assert_eq!(told(pack_row(content, out.bytes_mut())), length);
        out.assert_outcome(length.map(|_| ()), expected.clone());
    }
    row.assert_kept();
    expected
}

/// Runs of equal bytes between others; mostly few, at times several packets of 128.
fn any_row(random: &mut Random) -> Vec<u8> {
    let parts = random.below(6);
    let most = random.one_of(&[4, 4, 12, 12, 40, 300]);
    let mut row = vec![];
    for _ in 0..parts {
        let length = random.below(most);
        if random.flag() {
            row.extend(random.bytes(length));
        } else {
            row.extend(vec![random.next() as u8; length]);
        }
    }
    row
}

/// A plan that fits a row, its packets of any length.
fn any_plan(random: &mut Random, mut row: &[u8]) -> Vec<(u8, u8)> {
    let mut plan = vec![];
    let most = random.one_of(&[3, 20, 128, 128]);
    while !row.is_empty() {
        let equal = row.iter().take(128).take_while(|byte| **byte == row[0]).count();
        let (kind, longest) = if equal > 1 && random.below(4) > 0 { (1, equal) } else { (0, row.len().min(128)) };
        let length = match random.below(3) {
            0 => longest,
            _ => 1 + random.below(longest.min(most)),
        };
        plan.push((if length == 1 { 0 } else { kind }, length as u8));
        row = &row[length..];
    }
    plan
}

/// The packets of a plan, at times with packets of nothing between them.
fn any_packets(random: &mut Random, row: &[u8]) -> Vec<u8> {
    let (mut packets, mut at) = (vec![], 0);
    let nothing = random.below(4) == 0;
    for (kind, length) in any_plan(random, row) {
        let end = at + usize::from(length);
        packets.extend(plain_packbits::write_plan(&row[at..end], &[kind], &[length], usize::MAX).unwrap());
        at = end;
        while nothing && random.flag() {
            packets.push(128);
        }
    }
    packets
}

/// A place in this many, the end among them.
fn place(random: &mut Random, length: usize) -> usize {
    random.below(length + 1)
}

/// A packed row with a byte changed, taken out or put in, or cut; or none of it; at times with bytes behind it.
fn spoiled_packets(random: &mut Random, packets: &mut Vec<u8>) {
    let at = place(random, packets.len());
    let any = random.next() as u8;
    let byte = random.one_of(&[0, 1, 127, 128, 129, 254, 255, any, any]);
    match random.below(8) {
        0 => packets.truncate(at),
        1 if at < packets.len() => packets[at] = byte,
        2 if at < packets.len() => packets[at] = packets[at].wrapping_add(1),
        3 if at < packets.len() => drop(packets.remove(at)),
        4 => packets.insert(at, byte),
        5 => drop(packets.pop()),
        _ => {}
    }
    if random.below(3) == 0 {
        packets.extend(random.fewer_bytes(20));
    }
}

/// One row, packed and spoiled, to be unpacked into as many bytes, a few more or fewer.
fn any_unpack_case(random: &mut Random) -> Result<(Vec<u8>, usize), u32> {
    let row = any_row(random);
    let mut packets = any_packets(random, &row);
    spoiled_packets(random, &mut packets);
    let row_bytes = if random.below(3) == 0 { random.around(row.len()) } else { row.len() };
    unpack_case(random, &packets, row_bytes)
}

#[test]
fn spoiled_rows_as_the_plain_reading() {
    let mut random = Random::new(80);
    let mut tally = Tally::default();
    for _ in 0..400_000 {
        tally.note(&any_unpack_case(&mut random));
    }
    tally.assert_mixed(&[0, INVALID, TRUNCATED]);
}

/// Bytes that nobody packed.
#[test]
fn random_rows_as_the_plain_reading() {
    let mut random = Random::new(81);
    let mut tally = Tally::default();
    for _ in 0..200_000 {
        let most = random.one_of(&[3, 10, 200, 600]);
        let content = random.fewer_bytes(most);
        let row_bytes = random.below(most);
        tally.note(&unpack_case(&mut random, &content, row_bytes));
    }
    tally.assert_mixed(&[0, INVALID, TRUNCATED]);
}

/// A plan with a packet changed, taken out or put in, or none of it.
fn spoiled_plan(random: &mut Random, plan: &mut Vec<(u8, u8)>) {
    let at = place(random, plan.len());
    let any = random.next() as u8;
    let length = random.one_of(&[0, 1, 2, 127, 128, 129, 255, any]);
    match (random.below(9), plan.get_mut(at)) {
        (0, Some(packet)) => packet.0 ^= 1,
        (1, Some(packet)) => packet.0 = random.one_of(&[2, 3, 128, 255, any]),
        (2, Some(packet)) => packet.1 = length,
        (3, Some(packet)) => packet.1 = packet.1.wrapping_add(random.one_of(&[1, 255])),
        (4, Some(_)) => drop(plan.remove(at)),
        (5, _) => plan.insert(at, (random.below(2) as u8, length)),
        _ => {}
    }
}

#[test]
fn spoiled_plans_as_the_plain_reading() {
    let mut random = Random::new(82);
    let mut tally = Tally::default();
    for _ in 0..250_000 {
        let row = any_row(&mut random);
        let mut plan = any_plan(&mut random, &row);
        spoiled_plan(&mut random, &mut plan);
        let exact: usize = plan.iter().map(|&(kind, bytes)| if kind == 0 { 1 + usize::from(bytes) } else { 2 }).sum();
        let room = random.around(exact);
        tally.note(&plan_case(&mut random, &row, &plan, room));
    }
    tally.assert_mixed(&[0, INVALID, OUTPUT_TOO_SMALL]);
}

/// A kind without a length, or a length without a kind, behind packets that fill the row.
#[test]
fn lists_of_unequal_length() {
    let mut random = Random::new(87);
    for _ in 0..5_000 {
        let row = any_row(&mut random);
        let (kinds, lengths): (Vec<u8>, Vec<u8>) = any_plan(&mut random, &row).into_iter().unzip();
        let [more_kinds, more_lengths] = [&kinds, &lengths].map(|list| [&list[..], &[1]].concat());
        for (kinds, lengths) in [(&kinds, &more_lengths), (&more_kinds, &lengths)] {
            assert_eq!(lists_case(&mut random, &row, kinds, lengths, 2_000), Err(INVALID));
        }
    }
}

#[test]
fn literals_as_the_plain_reading() {
    let mut random = Random::new(83);
    let mut tally = Tally::default();
    for _ in 0..150_000 {
        let row = any_row(&mut random);
        let room = random.around(packed_length(row.len()));
        tally.note(&pack_case(&mut random, &row, room));
    }
    tally.assert_mixed(&[0, OUTPUT_TOO_SMALL]);
}

/// Every first byte, with rows and inputs that just fit it and just do not.
#[test]
fn every_first_byte() {
    let mut random = Random::new(84);
    let near = |n: usize| [0, n.saturating_sub(1), n, n + 1];
    for first in 0..=255 {
        let (fills, takes) = match usize::from(first) {
            n @ 0..128 => (n + 1, n + 2),
            128 => (0, 1),
            n => (257 - n, 2),
        };
        for (row_bytes, there) in near(fills).into_iter().flat_map(|row| near(takes).map(|there| (row, there))) {
            let mut content = random.bytes(there);
            if let Some(byte) = content.first_mut() {
                *byte = first;
            }
            let answer = unpack_case(&mut random, &content, row_bytes);
            if row_bytes == 0 {
                assert_eq!(answer, Ok((vec![], 0)));
            } else if there > 0 && row_bytes < fills {
                assert_eq!(answer, Err(INVALID), "{first}: a row of {row_bytes}, {there} there");
            } else if there < takes {
                assert_eq!(answer, Err(TRUNCATED), "{first}: a row of {row_bytes}, {there} there");
            }
        }
    }
}

/// Every kind and length of one packet over rows of that length, a byte shorter and a byte longer, equal or but for the last.
#[test]
fn every_planned_packet() {
    let mut random = Random::new(85);
    for (kind, length) in [0, 1, 2, 255].into_iter().flat_map(|kind| (0..=255).map(move |length| (kind, length))) {
        for bytes in [usize::from(length).saturating_sub(1), length.into(), usize::from(length) + 1] {
            let equal = vec![random.next() as u8; bytes];
            let mut other = equal.clone();
            other.iter_mut().last().into_iter().for_each(|byte| *byte ^= 64);
            for row in [equal, other] {
                for room in [0, 1, 2, bytes, bytes + 1] {
                    let answer = plan_case(&mut random, &row, &[(kind, length)], room);
                    let served = kind == 0 && (1..=128).contains(&length) || kind == 1 && (2..=128).contains(&length);
                    assert!(answer.is_err() || served, "{kind} {length}");
                }
            }
        }
    }
}

/// What is packed is unpacked to the same bytes, the next row behind it or not.
#[test]
fn packed_rows_come_back() {
    let mut random = Random::new(86);
    for case in 0..20_000 {
        let row = if case % 1_000 == 0 { random.bytes(100_000) } else { any_row(&mut random) };
        let mut literals = vec![0; packed_length(row.len())];
        assert_eq!(pack_row(&row, &mut literals), Ok(literals.len()));
        let by_plan = packed(&row);
        assert!(by_plan.len() <= literals.len(), "{row:?}");
        for mut packets in [literals, by_plan] {
            let length = packets.len();
            packets.extend(random.fewer_bytes(9));
            assert_eq!(unpacked(&packets, row.len()), Ok((row.clone(), length)));
        }
    }
}

/// The example of Apple's note on PackBits.
#[test]
fn a_known_row() {
    let packets = [0xFE, 0xAA, 2, 0x80, 0, 0x2A, 0xFD, 0xAA, 3, 0x80, 0, 0x2A, 0x22, 0xF7, 0xAA];
    let row = [&[0xAA; 3][..], &[0x80, 0, 0x2A], &[0xAA; 4], &[0x80, 0, 0x2A, 0x22], &[0xAA; 10]].concat();
    assert_eq!(unpacked(&packets, 24), Ok((row.clone(), 15)));
    assert_eq!(packed(&row), packets);
}

/// What a plan of the host's own makes of runs of each length: a repeat from three on, and of 128 at most.
#[test]
fn plans_of_runs() {
    let plan = |row: &[u8]| Plan::of(row);
    for length in 0..=400usize {
        let mut expected = Plan::default();
        expected.extend(vec![Planned::Repeat(128); length / 128]);
        match (length % 128) as u8 {
            0 => {}
            rest @ 1..=2 => expected.push(Planned::Literal(rest)),
            rest => expected.push(Planned::Repeat(rest)),
        }
        assert_eq!(plan(&vec![7; length]), expected, "{length}");
    }
    let noise: Vec<u8> = (0..300).map(|n| n as u8).collect();
    assert_eq!(plan(&noise), [128, 128, 44].map(Planned::Literal).into_iter().collect());
    assert_eq!(plan(&noise).length(), packed_length(300));
}

/// What is wrong with a row is told with its packet's place.
#[test]
fn what_is_wrong_with_a_row() {
    let packed = [9, 253, 7, 2, 1, 2];
    assert_eq!(explain_row(&packed, 1, 4), Ok(3));
    assert_eq!(explain_row(&packed, 1, 5), Err(RowFault::PastRow { at: 3, bytes: 3, left: 1 }));
    assert_eq!(explain_row(&packed, 1, 7), Err(RowFault::PacketEnd { at: 3, takes: 4, end: 6 }));
    assert_eq!(explain_row(&packed[..3], 1, 7), Err(RowFault::NoPacket { at: 3, filled: 4, row_bytes: 7 }));
    assert_eq!(explain_row(&packed, 7, 0), Ok(7));
    assert_eq!(unpacked(&packed, usize::MAX), Err(Refusal::Limit));
}
