//! A strip in pieces, of 65,536 and of 1,400 bytes, beside `convert` of the whole. Demanded are at least 0.7 of its speed
//! with the long pieces and 0.4 with the short ones.
use crate::{both, geometry, noise};
use hamrisk::{convert, ByteOrder, Coding, Packets, Strip};
use std::hint::black_box;

/// Bytes of a piece: what a read gives, and what a packet of a network holds.
const PIECES: [usize; 2] = [65_536, 1_400];

/// The bytes of a strip, or a little fewer.
const SIZE: usize = 1 << 20;

/// The byte orders that are read; what is written is little-endian.
const ORDERS: [ByteOrder; 2] = [ByteOrder::Little, ByteOrder::Big];

/// Converts a strip a piece at a time.
fn in_pieces(raw: &[u8], piece: usize, strip: Strip, coding: Coding, out: &mut [u8]) {
    let mut packets = Packets::start(strip, coding).unwrap();
    let mut written = 0;
    for bytes in raw.chunks(piece) {
        written += packets.piece(black_box(bytes), &mut out[written..]).unwrap();
    }
    packets.close().unwrap();
}

/// A row: bytes per nanosecond of `convert` and of the pieces, and how fast these are as a part of what it is.
fn row(strip: Strip, coding: Coding) {
    let n = SIZE / strip.row_bytes * strip.row_bytes;
    let raw = noise(n, 88172645463325252);
    let (mut a, mut b) = (vec![0; n], vec![0; n]);
    let what = geometry(strip, coding.predict, coding.from != coding.to);
    let times = PIECES.map(|piece| {
        let times = both(
            || in_pieces(&raw, piece, strip, coding, &mut a),
            || convert(black_box(&raw), strip, coding, &mut b).unwrap(),
        );
        assert!(a == b, "packets of {piece}, {what}");
        times
    });
    let rate = |seconds: f64| n as f64 / seconds / 1e9;
    let cells = times.map(|(ours, whole)| format!("{:.2} | {:.2}", rate(ours), whole / ours));
    println!("| {what} | {:.2} | {} |", rate(times[0].1), cells.join(" | "));
}

pub fn print() {
    let heads = PIECES.map(|piece| format!("pieces of {piece} | to convert"));
    println!("\n| strip of about 1 MiB | convert, bytes per ns | {} |\n|---|---|---|---|---|---|", heads.join(" | "));
    for (width, channels) in [1, 2, 3, 4, 8].into_iter().flat_map(|width| [1, 3, 4].map(|channels| (width, channels))) {
        let strip = Strip { row_bytes: 1024 * channels * width, channels, width };
        for (predict, from) in [true, false].into_iter().flat_map(|predict| ORDERS.map(|from| (predict, from))) {
            if width > 1 || from == ByteOrder::Little {
                row(strip, Coding { from, to: ByteOrder::Little, predict });
            }
        }
    }
}
