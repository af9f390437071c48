//! Bits reversed at short and long lengths, beside every byte worked out, a table alone and libtiff, which has a table.
use crate::libtiff::Libtiff;
use crate::{both, by_hand, noise, seconds};
use std::hint::black_box;

/// Lengths from 0 to 63, each once, in an order that looks random.
fn mixed() -> Vec<usize> {
    (0..64).map(|k| (k * 37 + 11) % 64).collect()
}

/// Reverses the front of s at each length; every byte ends up as it was.
fn at_each(lengths: &[usize], s: &mut [u8], reverse: impl Fn(&mut [u8])) {
    for &length in lengths.iter().chain(lengths) {
        reverse(black_box(&mut s[..length]));
    }
}

/// A row: nanoseconds of a call, and how fast ours is as a part of what the others are.
fn row(what: &str, lengths: &[usize], libtiff: Option<&Libtiff>) {
    let raw = noise(lengths.iter().copied().max().unwrap(), 2463534242);
    let (mut a, mut b, mut c) = (raw.clone(), raw.clone(), raw.clone());
    let (ours, bits) =
        both(|| at_each(lengths, &mut a, hamrisk::reverse_bits), || at_each(lengths, &mut b, by_hand::reverse_bits));
    let table = seconds(|| at_each(lengths, &mut c, by_hand::reverse_by_table));
    assert!(a == raw && b == raw && c == raw, "reversed twice, {what}");
    let tiff = libtiff.map(|lib| seconds(|| at_each(lengths, &mut b, |s| lib.reverse_bits(s))) / ours);
    let tiff = tiff.map(|t| format!("{t:.2}")).unwrap_or_default();
    let each = ours * 1e9 / (2 * lengths.len()) as f64;
    println!("| {what} | {each:.1} | {:.2} | {:.2} | {tiff} |", bits / ours, table / ours);
}

pub fn print(libtiff: Option<&Libtiff>) {
    println!("\n| bytes | reverse_bits, ns | to every byte worked out | to a table alone | to libtiff |\n|---|---|---|---|---|");
    for length in [1, 4, 5, 6, 7, 8, 15, 16, 31, 64, 1 << 10, (1 << 10) + 7, 1 << 16, 1 << 20, 1 << 26] {
        row(&length.to_string(), &[length], libtiff);
    }
    row("0 to 63, mixed", &mixed(), libtiff);
}
