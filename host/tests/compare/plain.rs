//! docs/RULES.md read plainly and slowly: numbers of 128 bits, one sample and one byte at a time, refusals by number in
//! the order that it gives. It shares no code or number with the library or its speed table.

use hamrisk::{ByteOrder, Derived, Layout, Strip};

pub const UNSUPPORTED: u32 = 1;
pub const INVALID: u32 = 2;
pub const TRUNCATED: u32 = 3;
pub const OUTPUT_TOO_SMALL: u32 = 4;
pub const LIMIT: u32 = 5;

/// The number of these bytes: each digit is worth 256 times the one below it.
pub fn number(digits: &[u8], order: ByteOrder) -> u128 {
    let worth = |value: u128, digit: &u8| value * 256 + u128::from(*digit);
    match order {
        ByteOrder::Big => digits.iter().fold(0, worth),
        ByteOrder::Little => digits.iter().rev().fold(0, worth),
    }
}

/// The bytes of a number.
pub fn digits(value: u128, width: usize, order: ByteOrder) -> Vec<u8> {
    let digit = |p: usize| (value / 256u128.pow(p as u32) % 256) as u8;
    match order {
        ByteOrder::Little => (0..width).map(digit).collect(),
        ByteOrder::Big => (0..width).rev().map(digit).collect(),
    }
}

/// Bytes of a word that are served.
pub const WIDTHS: [usize; 5] = [1, 2, 3, 4, 8];

pub fn read_word(s: &[u8], at: usize, width: usize, order: ByteOrder) -> Result<u64, u32> {
    if !WIDTHS.contains(&width) {
        return Err(UNSUPPORTED);
    }
    if at as u128 + width as u128 > s.len() as u128 {
        return Err(TRUNCATED);
    }
    Ok(number(&s[at..at + width], order) as u64)
}

pub fn load(s: &[u8], i: usize, wide: bool, order: ByteOrder) -> Result<u32, u32> {
    let width = if wide { 2 } else { 1 };
    if (i as u128 + 1) * width as u128 > s.len() as u128 {
        return Err(TRUNCATED);
    }
    Ok(number(&s[i * width..(i + 1) * width], order) as u32)
}

pub fn check_strip(length: usize, s: Strip) -> Result<(), u32> {
    let served = WIDTHS.contains(&s.width) && s.channels >= 1 && s.channels <= 64 && s.row_bytes != 0;
    if !served {
        Err(UNSUPPORTED)
    } else if s.row_bytes % (s.channels * s.width) != 0 || length % s.row_bytes != 0 {
        Err(INVALID)
    } else {
        Ok(())
    }
}

/// A strip's flags in the order of the header: le, predict, out_le.
#[derive(Clone, Copy, Debug)]
pub struct Flags {
    pub from: ByteOrder,
    pub predict: bool,
    pub to: ByteOrder,
}

/// Each word with the place of the one that it is predicted from, if there is one.
fn predicted_from(n: usize, s: Strip, predict: bool) -> Option<usize> {
    let in_row = n % (s.row_bytes / s.width);
    (predict && in_row >= s.channels).then(|| n - s.channels)
}

fn words(raw: &[u8], s: Strip, order: ByteOrder) -> Vec<u128> {
    (0..raw.len() / s.width).map(|n| number(&raw[n * s.width..(n + 1) * s.width], order)).collect()
}

fn stored(values: &[u128], s: Strip, order: ByteOrder) -> Vec<u8> {
    values.iter().flat_map(|&value| digits(value, s.width, order)).collect()
}

pub fn convert(raw: &[u8], s: Strip, flags: Flags, out_length: usize) -> Result<Vec<u8>, u32> {
    check_strip(raw.len(), s)?;
    if out_length < raw.len() {
        return Err(OUTPUT_TOO_SMALL);
    }
    Ok(samples(raw, s, flags))
}

/// The samples of all whole words, stored; the strip may end anywhere.
pub fn samples(raw: &[u8], s: Strip, flags: Flags) -> Vec<u8> {
    let mut samples = words(raw, s, flags.from);
    for n in 0..samples.len() {
        if let Some(before) = predicted_from(n, s, flags.predict) {
            samples[n] = (samples[n] + samples[before]) % 256u128.pow(s.width as u32);
        }
    }
    stored(&samples, s, flags.to)
}

pub fn forward(raw: &[u8], s: Strip, flags: Flags, out_length: usize) -> Result<Vec<u8>, u32> {
    check_strip(raw.len(), s)?;
    if out_length < raw.len() {
        return Err(OUTPUT_TOO_SMALL);
    }
    let modulus = 256u128.pow(s.width as u32);
    let samples = words(raw, s, flags.from);
    let less = |n: usize| predicted_from(n, s, flags.predict).map_or(0, |before| samples[before]);
    let differences: Vec<u128> = (0..samples.len()).map(|n| (samples[n] + modulus - less(n)) % modulus).collect();
    Ok(stored(&differences, s, flags.to))
}

/// A sample is marked if a byte of its own is damaged, or of any that it is the sum of.
pub fn marks(damage: &[u8], s: Strip, predict: bool, marks_length: usize) -> Result<Vec<u8>, u32> {
    check_strip(damage.len(), s)?;
    let count = damage.len() / s.width;
    if marks_length < count {
        return Err(OUTPUT_TOO_SMALL);
    }
    let own = |n: usize| damage[n * s.width..(n + 1) * s.width].iter().any(|&b| b != 0);
    let rests_on = |n: usize| std::iter::successors(Some(n), |&m| predicted_from(m, s, predict));
    Ok((0..count).map(|n| u8::from(rests_on(n).any(own))).collect())
}

pub fn reverse_bits(s: &[u8]) -> Vec<u8> {
    let reversed = |b: u8| (0..8).filter(|i| b >> i & 1 == 1).map(|i| 1u8 << (7 - i)).sum();
    s.iter().map(|&b| reversed(b)).collect()
}

pub fn swap_components(raw: &[u8], width: usize, out_length: usize) -> Result<Vec<u8>, u32> {
    if width == 0 || width > 8 {
        return Err(UNSUPPORTED);
    }
    if raw.len() % width != 0 {
        return Err(INVALID);
    }
    if out_length < raw.len() {
        return Err(OUTPUT_TOO_SMALL);
    }
    Ok((0..raw.len()).map(|k| raw[k / width * width + (width - 1 - k % width)]).collect())
}

pub fn commit(source: &[u8], out_length: usize) -> Result<Vec<u8>, u32> {
    if source.len() > out_length {
        Err(OUTPUT_TOO_SMALL)
    } else {
        Ok(source.to_vec())
    }
}

/// The clauses of upstream's `valid` over the fields that a caller gives.
fn agrees(l: &Layout) -> bool {
    let eight = l.bytes != 8 || (!l.white && !l.palette && l.alpha == 0 && l.slots == 1 && (l.ch == 1 || l.ch == 3));
    let alpha = l.alpha == 0 || (l.bytes == 1 && (l.ch == 2 || l.ch == 4) && !l.palette);
    let palette = !l.palette || (l.ch == 3 && l.bytes == 1 && !l.separate && l.alpha == 0);
    let bilevel = l.slots == 8 && l.ch == 1 && l.bytes == 1 && l.alpha == 0;
    l.w > 0 && l.h > 0 && eight && alpha && palette && (l.palette || l.slots == 1 || bilevel)
}

pub fn check_layout(l: &Layout) -> Result<Derived, u32> {
    let served = [1, 2, 8].contains(&l.bytes) && (1..5).contains(&l.ch) && [1, 2, 8].contains(&l.slots) && l.alpha < 3;
    if !served {
        return Err(UNSUPPORTED);
    }
    if !agrees(l) {
        return Err(INVALID);
    }
    if l.w > 16_384 || l.h > 16_384 || l.w * l.h * l.ch * l.bytes > 1_073_741_824 {
        return Err(LIMIT);
    }
    let encoded_width = (l.w - 1) / l.slots + 1;
    let (plane_channels, planes) = match (l.palette, l.separate) {
        (true, _) => (1, 1),
        (false, true) => (l.bytes, l.ch),
        (false, false) => (l.ch * l.bytes, 1),
    };
    let plane_length = encoded_width * l.h * plane_channels;
    Ok(Derived {
        encoded_width,
        plane_channels,
        planes,
        plane_length,
        scratch_length: plane_length * planes,
        output_length: l.w * l.h * l.ch * l.bytes,
        colours: match l.slots {
            8 => 2,
            2 => 16,
            _ => 256,
        },
    })
}

/// Where a byte of the picture stands: column, row, channel, and which byte of its channel.
#[derive(Clone, Copy)]
struct Place {
    x: usize,
    y: usize,
    c: usize,
    b: usize,
}

fn place_of(l: &Layout, k: usize) -> Place {
    let (channel, b) = (k / l.bytes, k % l.bytes);
    let (pixel, c) = (channel / l.ch, channel % l.ch);
    Place { x: pixel % l.w, y: pixel / l.w, c, b }
}

/// The byte of the planes that holds it.
fn source_of(l: &Layout, at: Place) -> usize {
    let Place { x, y, c, b } = at;
    if l.palette || l.slots == 8 {
        return y * ((l.w - 1) / l.slots + 1) + x / l.slots;
    }
    let b = if l.bytes == 2 && l.order == ByteOrder::Little { 1 - b } else { b };
    let pixel = y * l.w + x;
    if l.separate {
        (c * l.w * l.h + pixel) * l.bytes + b
    } else {
        (pixel * l.ch + c) * l.bytes + b
    }
}

pub fn index(l: &Layout, k: usize) -> Result<usize, u32> {
    if k >= check_layout(l)?.output_length {
        return Err(INVALID);
    }
    Ok(source_of(l, place_of(l, k)))
}

/// The `slots`th part of a byte, counted from its high end.
fn slot(byte: u8, x: usize, slots: usize) -> usize {
    let bits = 8 / slots;
    usize::from(byte) >> (8 - bits * (x % slots + 1)) & ((1 << bits) - 1)
}

fn rendered_byte(l: &Layout, colours: usize, file: &[u8], raw: &[u8], k: usize) -> u8 {
    let at = place_of(l, k);
    let v = raw[source_of(l, at)];
    let flipped = |v: u8| if l.white { 255 - v } else { v };
    if l.palette {
        let entry = l.map + 2 * (at.c * colours + slot(v, at.x, l.slots));
        (number(&file[entry..entry + 2], l.order) / 256) as u8
    } else if l.slots == 8 {
        flipped(if slot(v, at.x, 8) == 1 { 255 } else { 0 })
    } else if l.alpha == 0 {
        flipped(v)
    } else if at.c == l.ch - 1 {
        v
    } else {
        let a = raw[source_of(l, Place { c: l.ch - 1, ..at })];
        straight(flipped(v), a, l.alpha == 1)
    }
}

fn straight(u: u8, a: u8, multiplied: bool) -> u8 {
    match (multiplied, a) {
        (false, _) => u,
        (true, 0) => 0,
        (true, a) => {
            let (full, a) = (255 * u32::from(u), u32::from(a));
            let up = u32::from(2 * (full % a) >= a);
            (full / a + up).min(255) as u8
        }
    }
}

pub fn render(l: &Layout, file: &[u8], raw: &[u8], out_length: usize) -> Result<Vec<u8>, u32> {
    let d = check_layout(l)?;
    if l.bytes == 8 {
        return Err(UNSUPPORTED);
    }
    if l.palette && l.map as u128 + 6 * d.colours as u128 > file.len() as u128 {
        return Err(TRUNCATED);
    }
    if raw.len() < d.scratch_length {
        return Err(TRUNCATED);
    }
    if out_length < d.output_length {
        return Err(OUTPUT_TOO_SMALL);
    }
    Ok((0..d.output_length).map(|k| rendered_byte(l, d.colours, file, raw, k)).collect())
}

pub fn write_planes(l: &Layout, picture: &[u8], planes_length: usize) -> Result<Vec<u8>, u32> {
    let d = check_layout(l)?;
    if l.palette || l.bytes == 8 || l.alpha == 1 {
        return Err(UNSUPPORTED);
    }
    if picture.len() < d.output_length {
        return Err(TRUNCATED);
    }
    if planes_length < d.scratch_length {
        return Err(OUTPUT_TOO_SMALL);
    }
    let picture = &picture[..d.output_length];
    if l.slots == 8 && picture.iter().any(|v| ![0, 255].contains(v)) {
        return Err(INVALID);
    }
    let mut planes = vec![0; d.scratch_length];
    for (k, &v) in picture.iter().enumerate() {
        let at = place_of(l, k);
        let is_alpha = l.alpha != 0 && at.c == l.ch - 1;
        let v = if l.white && !is_alpha { 255 - v } else { v };
        if l.slots == 8 {
            planes[source_of(l, at)] |= if v == 255 { 128 >> (at.x % 8) } else { 0 };
        } else {
            planes[source_of(l, at)] = v;
        }
    }
    Ok(planes)
}
