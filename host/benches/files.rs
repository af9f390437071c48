//! A file of 16 MiB written in memory, beside hand-written Rust, libtiff and memcpy.
use crate::libtiff::{Libtiff, Memory};
use crate::{both, by_hand, copy_seconds, noise, seconds};
use hamrisk::{advised_rows_per_strip, file_length, samples, write_file, ByteOrder, Layout};
use std::hint::black_box;

/// Columns and rows of the picture, grey of 8 bits.
const SIDE: usize = 4_096;

/// Seconds of our call and of hand-written Rust, whose files are the same.
fn ours_and_hand(grey: &Layout, rows: usize, planes: &[u8]) -> (f64, f64) {
    let length = file_length(grey, rows).unwrap();
    let (mut a, mut b) = (vec![0; length], vec![0; length]);
    let times = both(
        || assert!(write_file(grey, rows, black_box(planes), &mut a).is_ok()),
        || by_hand::write_grey_file(grey.w, grey.h, rows, black_box(planes), black_box(&mut b)),
    );
    assert!(a == b, "write_file, {rows} rows per strip");
    times
}

/// Seconds of libtiff, whose file has the same samples.
fn theirs(libtiff: &Libtiff, grey: &Layout, rows: usize, planes: &[u8]) -> f64 {
    let mut memory = Memory::default();
    let time = seconds(|| libtiff.write_grey_file(grey.w, grey.h, rows, black_box(planes), &mut memory));
    assert!(samples(&memory.bytes, 0, ByteOrder::Little).unwrap().bytes == planes, "libtiff's file");
    time
}

/// A row for strips as TIFF advises them and one for a single strip: the rate, and how fast ours is as a part of what the
/// others are.
pub fn print(libtiff: Option<&Libtiff>) {
    let grey = Layout::grey(SIDE, SIDE, ByteOrder::Little);
    let planes = noise(SIDE * SIDE, 7);
    println!("\n| file of 16 MiB | write_file, GB/s | to hand-written Rust | to libtiff | to memcpy |\n|---|---|---|---|---|");
    for rows in [advised_rows_per_strip(&grey).unwrap(), SIDE] {
        let (ours, hand) = ours_and_hand(&grey, rows, &planes);
        let tiff = libtiff.map(|lib| format!("{:.2}", theirs(lib, &grey, rows, &planes) / ours)).unwrap_or_default();
        let (rate, copy) = (planes.len() as f64 / ours / 1e9, copy_seconds(planes.len()) / ours);
        println!("| {rows} rows per strip | {rate:.2} | {:.2} | {tiff} | {copy:.2} |", hand / ours);
    }
}
