//! Strips that arrive in pieces: beside the plain reading, beside `convert` of the whole, and from states that were spoiled.

use crate::lent::Lent;
use crate::numbers::lend;
use crate::plain::{self, Flags, INVALID, LIMIT, OUTPUT_TOO_SMALL, WIDTHS};
use crate::plain_packets::{self, Numbers, MOST, NUMBERS};
use crate::random::Random;
use crate::strips::{self, assert_mixed, coding, flags};
use hamrisk::{converted, Packets, Strip};

#[rustfmt::skip]
extern "C" {
    fn hamrisk_packets_start(row_bytes: usize, channels: usize, width: usize, le: bool, predict: bool, out_le: bool,
                             state: *mut u64) -> u32;
    fn hamrisk_packets_piece(state: *mut u64, piece: *const u8, piece_len: usize, out: *mut u8, out_len: usize,
                             written: *mut usize) -> u32;
    fn hamrisk_packets_close(state: *const u64) -> u32;
}

/// What stands around a state, and what the number of written bytes is before a call.
const CANARY: u64 = u64::MAX / 3;
const UNWRITTEN: usize = usize::MAX / 5;

/// The 80 numbers.
fn array(numbers: Vec<u64>) -> Numbers {
    numbers.try_into().unwrap()
}

/// Holds a start to the plain reading; answers its status and the state.
fn start_case(strip: Strip, flags: Flags) -> (u32, Numbers) {
    let Strip { row_bytes, channels, width } = strip;
    let [le, out_le] = [flags.from, flags.to].map(|order| order == hamrisk::ByteOrder::Little);
    // SAFETY: the pointer is that of 80 numbers in an array.
    let (status, state) = lend(CANARY, &[CANARY; NUMBERS], |state| unsafe {
        hamrisk_packets_start(row_bytes, channels, width, le, flags.predict, out_le, state)
    });
    let answer = (status, array(state));
    assert_eq!(answer, plain_packets::start(strip, flags), "{strip:?} {flags:?}");
    answer
}

/// Holds a piece to the plain reading; answers the samples and the state after it.
fn piece_case(random: &mut Random, before: &Numbers, bytes: &[u8], room: usize) -> Result<(Vec<u8>, Numbers), u32> {
    let expected = plain_packets::piece(before, bytes, room);
    let input = Lent::of(random, bytes);
    let mut out = Lent::room(random, room);
    let (_, wanted) = expected.clone().unwrap_or((vec![], *before));
    let mut status = 0;
    let (_, after) = lend(CANARY, before, |state| {
        let (piece, out) = (input.bytes(), out.bytes_mut());
        let (told, written) = lend(UNWRITTEN, &[UNWRITTEN], |written| {
            // SAFETY: the pointers are those of 80 numbers in an array, of two slices and of a number in an array.
            unsafe { hamrisk_packets_piece(state, piece.as_ptr(), piece.len(), out.as_mut_ptr(), out.len(), written) }
        });
        assert_eq!(written[0], expected.as_ref().map_or(UNWRITTEN, |(samples, _)| samples.len()));
        status = told;
        told
    });
    assert_eq!(array(after), wanted, "{before:?} {bytes:?}");
    let answer = if status == 0 { Ok(()) } else { Err(status) };
    out.assert_outcome(answer, expected.clone().map(|(samples, _)| samples));
    input.assert_kept();
    expected
}

/// Holds the closing question to the plain reading; answers whether the strip may end.
fn close_case(state: &Numbers) -> bool {
    // SAFETY: the pointer is that of 80 numbers in an array.
    let (status, after) = lend(CANARY, state, |state| unsafe { hamrisk_packets_close(state) });
    let expected = plain_packets::close(state).err().unwrap_or(0);
    assert_eq!((status, array(after)), (expected, *state));
    status == 0
}

/// Mostly a geometry that is served.
fn geometry(random: &mut Random) -> Strip {
    if random.below(30) == 0 {
        return strips::geometry(random).0;
    }
    let width = random.one_of(&WIDTHS);
    let channels = match random.below(6) {
        0 => 1 + random.below(64),
        1 => random.one_of(&[63, 64]),
        _ => 1 + random.below(4),
    };
    let most_pixels = match channels {
        5.. => 2,
        _ if random.below(30) == 0 => 120,
        _ => 9,
    };
    let pixels = 1 + random.below(most_pixels);
    Strip { row_bytes: channels * width * pixels, channels, width }
}

/// Bytes of a strip: mostly whole rows, mostly few.
fn length(random: &mut Random, row_bytes: usize) -> usize {
    let most = if random.below(40) == 0 { 3_000 } else { 160 };
    let rows = random.below(most / row_bytes.max(1) + 2).min(9);
    match random.below(5) {
        0 => random.below(most),
        1 => (row_bytes * rows).saturating_sub(1),
        _ => row_bytes * rows,
    }
}

/// Bytes of a piece where so many are left: none, one, few, or many.
fn piece_length(random: &mut Random, strip: Strip, left: usize) -> usize {
    let any = match random.below(8) {
        0 => 0,
        1 => 1,
        2 => random.below(20),
        3 => random.one_of(&[strip.width, strip.row_bytes]),
        4 => left,
        _ => random.below(left + 1),
    };
    any.min(left)
}

/// A piece with enough room; at times, and before it, one with too little.
fn taken(random: &mut Random, state: &Numbers, bytes: &[u8]) -> (Vec<u8>, Numbers) {
    let width = state[2] as usize;
    let exact = (state[6] as usize % width + bytes.len()) / width * width;
    if exact > 0 && random.below(3) == 0 {
        let room = if random.flag() { exact - 1 } else { random.below(exact) };
        assert_eq!(piece_case(random, state, bytes, room), Err(OUTPUT_TOO_SMALL));
    }
    let room = random.around(exact).max(exact);
    piece_case(random, state, bytes, room).unwrap()
}

/// Holds a strip, cut at random, to the plain readings of its pieces and of the whole; answers whether it closes.
fn strip_case(random: &mut Random) -> bool {
    let (strip, flags) = (geometry(random), flags(random));
    let (status, mut state) = start_case(strip, flags);
    if status != 0 {
        assert_eq!(piece_case(random, &state, &[1], 8), Err(INVALID));
        return close_case(&state);
    }
    let length = length(random, strip.row_bytes);
    let whole = random.bytes(length);
    let (mut came, mut samples) = (0, vec![]);
    while came < whole.len() {
        let end = came + piece_length(random, strip, whole.len() - came);
        let (written, after) = taken(random, &state, &whole[came..end]);
        samples.extend(written);
        (state, came) = (after, end);
        close_case(&state);
    }
    assert_eq!(samples, plain::samples(&whole, strip, flags), "{strip:?} {flags:?}");
    let closes = close_case(&state);
    if closes {
        assert_eq!(Ok(samples), converted(&whole, strip, coding(flags)));
    }
    closes
}

#[test]
fn strips_cut_at_random_as_the_plain_reading() {
    let mut random = Random::new(50);
    let closed = (0..100_000).filter(|_| strip_case(&mut random)).count();
    assert_mixed(closed, 100_000);
}

/// A state that a start and pieces lead to.
fn reached(random: &mut Random) -> Numbers {
    loop {
        let (status, mut state) = start_case(geometry(random), flags(random));
        if status != 0 {
            continue;
        }
        for _ in 0..random.below(3) {
            let end = random.one_of(&[9, 90]);
            let bytes = random.fewer_bytes(end);
            state = taken(random, &state, &bytes).1;
        }
        return state;
    }
}

/// Another value for a number: small, beside the old one, at an edge, or any.
fn changed(random: &mut Random, value: u64) -> u64 {
    let (any, bits) = (random.next(), 8 * random.below(8));
    match random.below(4) {
        0 => random.one_of(&[0, 1, 7, 64, 65]),
        1 => random.one_of(&[value.wrapping_add(1), value.wrapping_sub(1), value ^ 1]),
        2 => random.one_of(&[1 << bits, (1 << bits) - 1, MOST, MOST + 1, MOST - 1, u64::MAX, 1 << 63]),
        _ => random.one_of(&[any, any >> 32, any >> 48, any >> 56]),
    }
}

/// A state with one or two numbers changed, mostly of those that are used.
fn spoiled(random: &mut Random) -> Numbers {
    let mut state = reached(random);
    for _ in 0..1 + random.below(2) {
        let at = match random.below(4) {
            0 => random.below(8),
            1 => 6 + random.below(2),
            2 => 8 + random.below(state[1].clamp(1, 64) as usize),
            _ => random.below(NUMBERS),
        };
        state[at] = changed(random, state[at]);
    }
    state
}

/// Holds a piece and the closing question of any numbers to the plain reading; answers whether they are a state.
fn any_state_case(random: &mut Random, state: &Numbers) -> bool {
    let bytes = random.fewer_bytes(30);
    let told = plain_packets::piece(state, &bytes, usize::MAX);
    let room = random.around(told.as_ref().map_or(0, |(samples, _)| samples.len()));
    let answer = piece_case(random, state, &bytes, room);
    close_case(state);
    answer != Err(INVALID)
}

#[test]
fn spoiled_states_as_the_plain_reading() {
    let mut random = Random::new(51);
    let states = (0..50_000).filter(|_| {
        let state = spoiled(&mut random);
        any_state_case(&mut random, &state)
    });
    let states = states.count();
    assert!((5_000..25_000).contains(&states), "{states} of 50000 were states all the same");
}

/// Numbers that nothing leads to, but by chance.
#[test]
fn random_states_as_the_plain_reading() {
    let mut random = Random::new(52);
    for _ in 0..10_000 {
        let share = 1 + random.below(80);
        let mut state: Numbers = std::array::from_fn(|_| {
            let any = random.next();
            if random.below(80) < share {
                changed(&mut random, any)
            } else {
                0
            }
        });
        if random.flag() {
            let strip = strips::geometry(&mut random).0;
            state[..3].copy_from_slice(&[strip.row_bytes, strip.channels, strip.width].map(|n| n as u64));
        }
        any_state_case(&mut random, &state);
    }
    assert_eq!(piece_case(&mut random, &[0; NUMBERS], &[], 0), Err(INVALID));
}

/// The samples of a strip that comes in these pieces.
fn put_together(packets: &Packets, pieces: &[&[u8]]) -> Vec<u8> {
    let (mut packets, mut all) = (packets.clone(), vec![]);
    for piece in pieces {
        let mut out = vec![0; piece.len() + 7];
        let written = packets.piece(piece, &mut out).unwrap();
        all.extend(&out[..written]);
    }
    assert_eq!(packets.close(), Ok(()));
    all
}

/// Strips of two rows of two pixels, in single bytes and in three pieces with every pair of cuts.
#[test]
fn every_pair_of_cuts() {
    let mut random = Random::new(53);
    for (width, channels) in WIDTHS.into_iter().flat_map(|width| [1, 3].map(|channels| (width, channels))) {
        let strip = Strip { row_bytes: 2 * channels * width, channels, width };
        let whole = random.bytes(2 * strip.row_bytes);
        for coding in (0..4).map(|_| coding(flags(&mut random))) {
            let expected = converted(&whole, strip, coding).unwrap();
            let packets = Packets::start(strip, coding).unwrap();
            let bytes: Vec<&[u8]> = whole.chunks(1).collect();
            assert_eq!(put_together(&packets, &bytes), expected, "{strip:?} {coding:?}");
            for (from, to) in (0..=whole.len()).flat_map(|to| (0..=to).map(move |from| (from, to))) {
                let pieces = [&whole[..from], &whole[from..to], &whole[to..]];
                assert_eq!(put_together(&packets, &pieces), expected, "{strip:?} {coding:?} {from} {to}");
            }
        }
    }
}

/// Rows shorter and longer than a packet, in packets of several lengths.
#[test]
fn packets_of_large_strips() {
    let mut random = Random::new(55);
    for (width, channels) in WIDTHS.into_iter().flat_map(|width| [1, 2, 3, 4, 5, 64].map(|ch| (width, ch))) {
        for pixels in [3, 64, 2_000 / channels] {
            let strip = Strip { row_bytes: channels * width * pixels, channels, width };
            let whole = random.bytes((20_000 / strip.row_bytes + 1) * strip.row_bytes);
            let coding = coding(flags(&mut random));
            let expected = converted(&whole, strip, coding).unwrap();
            let packets = Packets::start(strip, coding).unwrap();
            for length in [13, 1_400, 4_095, 65_536] {
                let pieces: Vec<&[u8]> = whole.chunks(length).collect();
                assert!(put_together(&packets, &pieces) == expected, "{strip:?} {coding:?} {length}");
            }
        }
    }
}

/// A strip may have 1,073,741,824 bytes and not one more; that is looked at before the room.
#[test]
fn the_most_bytes_of_a_strip() {
    let mut random = Random::new(54);
    for (width, left) in WIDTHS.into_iter().flat_map(|width| (0..=20).map(move |left| (width, left))) {
        let strip = Strip { row_bytes: 2 * width, channels: 1, width };
        let mut state = start_case(strip, flags(&mut random)).1;
        state[6] = MOST - left as u64;
        for length in 0..=left + 9 {
            let bytes = random.bytes(length);
            for room in [0, length + 7] {
                let answer = piece_case(&mut random, &state, &bytes, room);
                assert_eq!(answer == Err(LIMIT), length > left, "{left} left, {length} bytes");
            }
        }
        close_case(&state);
    }
}
