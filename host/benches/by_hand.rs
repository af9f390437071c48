//! What the speed table compares with: each call as one would write it by hand in Rust, with no checks of its own.
use hamrisk::{ByteOrder, Coding, Layout, Strip};
use std::hint::black_box;

/// A word of W bytes: read, written, added and subtracted with wrapping.
pub trait Word: Copy + Default {
    const BYTES: usize;
    fn get(s: &[u8], le: bool) -> Self;
    fn put(self, s: &mut [u8], le: bool);
    fn add(self, other: Self) -> Self;
    fn sub(self, other: Self) -> Self;
}

macro_rules! word {
    ($t:ty) => {
        impl Word for $t {
            const BYTES: usize = std::mem::size_of::<$t>();
            #[inline(always)]
            fn get(s: &[u8], le: bool) -> Self {
                let b = s.try_into().unwrap();
                if le {
                    <$t>::from_le_bytes(b)
                } else {
                    <$t>::from_be_bytes(b)
                }
            }
            #[inline(always)]
            fn put(self, s: &mut [u8], le: bool) {
                s.copy_from_slice(&if le { self.to_le_bytes() } else { self.to_be_bytes() });
            }
            #[inline(always)]
            fn add(self, other: Self) -> Self {
                self.wrapping_add(other)
            }
            #[inline(always)]
            fn sub(self, other: Self) -> Self {
                self.wrapping_sub(other)
            }
        }
    };
}
word!(u8);
word!(u16);
word!(u32);
word!(u64);

/// Three bytes of a u32, whose fourth is let run over and never stored.
#[derive(Clone, Copy, Default)]
struct Three(u32);

impl Word for Three {
    const BYTES: usize = 3;
    #[inline(always)]
    fn get(s: &[u8], le: bool) -> Self {
        Three(if le { u32::from_le_bytes([s[0], s[1], s[2], 0]) } else { u32::from_be_bytes([0, s[0], s[1], s[2]]) })
    }
    #[inline(always)]
    fn put(self, s: &mut [u8], le: bool) {
        s.copy_from_slice(&if le { self.0.to_le_bytes() } else { (self.0 << 8).to_be_bytes() }[..3]);
    }
    #[inline(always)]
    fn add(self, other: Self) -> Self {
        Three(self.0.wrapping_add(other.0))
    }
    #[inline(always)]
    fn sub(self, other: Self) -> Self {
        Three(self.0.wrapping_sub(other.0))
    }
}

#[inline(always)]
fn reorder<T: Word>(raw: &[u8], le: bool, out: &mut [u8], out_le: bool) {
    if le == out_le || T::BYTES == 1 {
        out.copy_from_slice(raw);
        return;
    }
    for (i, o) in raw.chunks_exact(T::BYTES).zip(out.chunks_exact_mut(T::BYTES)) {
        T::get(i, le).put(o, out_le);
    }
}

#[inline(always)]
fn sum_row<T: Word>(raw: &[u8], channels: usize, le: bool, out: &mut [u8], out_le: bool) {
    if channels == 1 {
        let mut sum = T::default();
        for (i, o) in raw.chunks_exact(T::BYTES).zip(out.chunks_exact_mut(T::BYTES)) {
            sum = sum.add(T::get(i, le));
            sum.put(o, out_le);
        }
        return;
    }
    match channels {
        2 => sum_pixels::<T, 2>(raw, le, out, out_le),
        3 => sum_pixels::<T, 3>(raw, le, out, out_le),
        4 => sum_pixels::<T, 4>(raw, le, out, out_le),
        _ => {
            let mut sums = [T::default(); 64];
            let sums = &mut sums[..channels];
            let pixel = channels * T::BYTES;
            for (i, o) in raw.chunks_exact(pixel).zip(out.chunks_exact_mut(pixel)) {
                sum_pixel(sums, i, le, o, out_le);
            }
        }
    }
}

#[inline(always)]
fn sum_pixels<T: Word, const C: usize>(raw: &[u8], le: bool, out: &mut [u8], out_le: bool) {
    let mut sums = [T::default(); C];
    for (i, o) in raw.chunks_exact(C * T::BYTES).zip(out.chunks_exact_mut(C * T::BYTES)) {
        sum_pixel(&mut sums, i, le, o, out_le);
    }
}

#[inline(always)]
fn sum_pixel<T: Word>(sums: &mut [T], raw: &[u8], le: bool, out: &mut [u8], out_le: bool) {
    for ((sum, i), o) in sums.iter_mut().zip(raw.chunks_exact(T::BYTES)).zip(out.chunks_exact_mut(T::BYTES)) {
        *sum = sum.add(T::get(i, le));
        sum.put(o, out_le);
    }
}

#[inline(always)]
fn difference_row<T: Word>(raw: &[u8], channels: usize, le: bool, out: &mut [u8], out_le: bool) {
    let pixel = channels * T::BYTES;
    reorder::<T>(&raw[..pixel], le, &mut out[..pixel], out_le);
    let later = raw[pixel..].chunks_exact(T::BYTES);
    for ((a, b), o) in later.zip(raw.chunks_exact(T::BYTES)).zip(out[pixel..].chunks_exact_mut(T::BYTES)) {
        T::get(a, le).sub(T::get(b, le)).put(o, out_le);
    }
}

#[inline(always)]
fn rows<T: Word>(raw: &[u8], s: Strip, predict: bool, out: &mut [u8], le: bool, out_le: bool, forward: bool) {
    for (i, o) in raw.chunks_exact(s.row_bytes).zip(out.chunks_exact_mut(s.row_bytes)) {
        if !predict {
            reorder::<T>(i, le, o, out_le);
        } else if forward {
            difference_row::<T>(i, s.channels, le, o, out_le);
        } else {
            sum_row::<T>(i, s.channels, le, o, out_le);
        }
    }
}

fn ordered<T: Word>(raw: &[u8], s: Strip, c: Coding, out: &mut [u8], forward: bool) {
    use ByteOrder::{Big, Little};
    match (c.from, c.to) {
        (Little, Little) => rows::<T>(raw, s, c.predict, out, true, true, forward),
        (Little, Big) => rows::<T>(raw, s, c.predict, out, true, false, forward),
        (Big, Little) => rows::<T>(raw, s, c.predict, out, false, true, forward),
        (Big, Big) => rows::<T>(raw, s, c.predict, out, false, false, forward),
    }
}

fn transform(raw: &[u8], s: Strip, c: Coding, out: &mut [u8], forward: bool) {
    match s.width {
        1 => ordered::<u8>(raw, s, c, out, forward),
        2 => ordered::<u16>(raw, s, c, out, forward),
        3 => ordered::<Three>(raw, s, c, out, forward),
        4 => ordered::<u32>(raw, s, c, out, forward),
        _ => ordered::<u64>(raw, s, c, out, forward),
    }
}

#[inline(never)]
pub fn convert(raw: &[u8], s: Strip, c: Coding, out: &mut [u8]) {
    transform(raw, s, c, out, false)
}

#[inline(never)]
pub fn forward(raw: &[u8], s: Strip, c: Coding, out: &mut [u8]) {
    transform(raw, s, c, out, true)
}

/// Marks of a strip's samples, by the rule that follows from what a mark means: own bytes, then along the row.
#[inline(never)]
pub fn marks(damage: &[u8], s: Strip, predict: bool, marks: &mut [u8]) -> usize {
    let samples = s.row_bytes / s.width;
    let mut count = 0;
    for (d, m) in damage.chunks_exact(s.row_bytes).zip(marks.chunks_exact_mut(samples)) {
        match s.width {
            1 => own::<1>(d, m),
            2 => own::<2>(d, m),
            3 => own::<3>(d, m),
            4 => own::<4>(d, m),
            _ => own::<8>(d, m),
        }
        if predict {
            for n in s.channels..samples {
                m[n] |= m[n - s.channels];
            }
        }
        count += m.iter().map(|&m| m as usize).sum::<usize>();
    }
    count
}

#[inline(always)]
fn own<const W: usize>(damage: &[u8], marks: &mut [u8]) {
    for (d, m) in damage.chunks_exact(W).zip(marks) {
        *m = d.iter().any(|&b| b != 0) as u8;
    }
}

#[inline(never)]
pub fn reverse_bits(s: &mut [u8]) {
    for b in s {
        *b = b.reverse_bits();
    }
}

const REVERSED: [u8; 256] = {
    let mut table = [0; 256];
    let mut b = 0;
    while b < 256 {
        table[b] = (b as u8).reverse_bits();
        b += 1;
    }
    table
};

/// By a table alone, stored at each call as the toolchain stores one.
#[inline(never)]
pub fn reverse_by_table(s: &mut [u8]) {
    let mut table = REVERSED;
    black_box(&mut table);
    for b in s {
        *b = table[*b as usize];
    }
}

#[inline(always)]
fn swap_groups<const W: usize>(raw: &[u8], out: &mut [u8]) {
    for (i, o) in raw.chunks_exact(W).zip(out.chunks_exact_mut(W)) {
        let mut group: [u8; W] = i.try_into().unwrap();
        group.reverse();
        o.copy_from_slice(&group);
    }
}

#[inline(never)]
pub fn swap_components(raw: &[u8], width: usize, out: &mut [u8]) {
    match width {
        1 => out.copy_from_slice(raw),
        2 => swap_groups::<2>(raw, out),
        3 => swap_groups::<3>(raw, out),
        4 => swap_groups::<4>(raw, out),
        5 => swap_groups::<5>(raw, out),
        6 => swap_groups::<6>(raw, out),
        7 => swap_groups::<7>(raw, out),
        _ => swap_groups::<8>(raw, out),
    }
}

/// Bytes of a row of the picture, and of a row of a plane.
fn row(l: &Layout) -> usize {
    l.w * l.ch * l.bytes
}

fn plane_row(l: &Layout) -> usize {
    if l.palette || l.slots == 8 {
        (l.w - 1) / l.slots + 1
    } else if l.separate {
        l.w * l.bytes
    } else {
        row(l)
    }
}

fn is_little(l: &Layout) -> bool {
    l.order == ByteOrder::Little
}

#[inline(always)]
fn colour(v: u8, a: u8, multiplied: bool, white: bool) -> u8 {
    let u = if white { 255 - v } else { v };
    if !multiplied {
        u
    } else if a == 0 {
        0
    } else {
        ((255 * u as u32 + a as u32 / 2) / a as u32).min(255) as u8
    }
}

#[inline(always)]
fn straighten<const C: usize>(row: &mut [u8], multiplied: bool, white: bool) {
    for p in row.chunks_exact_mut(C) {
        let a = p[C - 1];
        for v in &mut p[..C - 1] {
            *v = colour(*v, a, multiplied, white);
        }
    }
}

fn finish(l: &Layout, row: &mut [u8]) {
    if l.alpha != 0 {
        match l.ch {
            2 => straighten::<2>(row, l.alpha == 1, l.white),
            _ => straighten::<4>(row, l.alpha == 1, l.white),
        }
    } else if l.white {
        for v in row {
            *v = 255 - *v;
        }
    }
}

#[inline(always)]
fn interleave<const C: usize, const B: usize>(planes: [&[u8]; C], le: bool, out: &mut [u8]) {
    for (x, p) in out.chunks_exact_mut(C * B).enumerate() {
        for c in 0..C {
            for b in 0..B {
                p[c * B + b] = planes[c][x * B + if le { B - 1 - b } else { b }];
            }
        }
    }
}

fn planar_row<const C: usize>(l: &Layout, raw: &[u8], y: usize, out: &mut [u8]) {
    let row = plane_row(l);
    let plane = l.h * row;
    let planes: [&[u8]; C] = std::array::from_fn(|c| &raw[c * plane + y * row..c * plane + y * row + row]);
    match (l.bytes, is_little(l)) {
        (1, _) => interleave::<C, 1>(planes, false, out),
        (_, true) => interleave::<C, 2>(planes, true, out),
        (_, false) => interleave::<C, 2>(planes, false, out),
    }
}

fn palette_row(l: &Layout, file: &[u8], raw: &[u8], out: &mut [u8]) {
    let bits = 8 / l.slots;
    let colours = 1usize << bits;
    let high = is_little(l) as usize;
    let mut table = [[0u8; 3]; 256];
    for (i, t) in table[..colours].iter_mut().enumerate() {
        *t = std::array::from_fn(|c| file[l.map + 2 * (c * colours + i) + high]);
    }
    for (v, o) in raw.iter().zip(out.chunks_mut(3 * l.slots)) {
        for (j, o) in o.chunks_exact_mut(3).enumerate() {
            let index = (v >> (8 - bits * (j + 1))) as usize & (colours - 1);
            o.copy_from_slice(&table[index]);
        }
    }
}

fn bilevel_row(raw: &[u8], white: bool, out: &mut [u8]) {
    let flip = if white { 255 } else { 0 };
    for (v, o) in raw.iter().zip(out.chunks_mut(8)) {
        let v = v ^ flip;
        for (j, o) in o.iter_mut().enumerate() {
            *o = 0u8.wrapping_sub(v >> (7 - j) & 1);
        }
    }
}

#[inline(never)]
pub fn render(l: &Layout, file: &[u8], raw: &[u8], out: &mut [u8]) {
    let plane = plane_row(l);
    for (y, o) in out.chunks_exact_mut(row(l)).enumerate() {
        if l.palette {
            palette_row(l, file, &raw[y * plane..(y + 1) * plane], o);
        } else if l.slots == 8 {
            bilevel_row(&raw[y * plane..(y + 1) * plane], l.white, o);
        } else {
            if l.separate {
                match l.ch {
                    1 => planar_row::<1>(l, raw, y, o),
                    2 => planar_row::<2>(l, raw, y, o),
                    3 => planar_row::<3>(l, raw, y, o),
                    _ => planar_row::<4>(l, raw, y, o),
                }
            } else if l.bytes == 2 && is_little(l) {
                swap_groups::<2>(&raw[y * plane..(y + 1) * plane], o);
            } else {
                o.copy_from_slice(&raw[y * plane..(y + 1) * plane]);
            }
            finish(l, o);
        }
    }
}

fn pack_row(picture: &[u8], white: bool, out: &mut [u8]) {
    let flip = if white { 255 } else { 0 };
    for (p, o) in picture.chunks(8).zip(out) {
        let mut v = 0;
        for (j, b) in p.iter().enumerate() {
            v |= (b ^ flip) & (128 >> j);
        }
        *o = v;
    }
}

fn split<const C: usize, const B: usize>(picture: &[u8], le: bool, c: usize, out: &mut [u8]) {
    for (p, o) in picture.chunks_exact(C * B).zip(out.chunks_exact_mut(B)) {
        for b in 0..B {
            o[b] = p[c * B + if le { B - 1 - b } else { b }];
        }
    }
}

fn split_plane<const C: usize>(l: &Layout, picture: &[u8], c: usize, out: &mut [u8]) {
    match (l.bytes, is_little(l)) {
        (1, _) => split::<C, 1>(picture, false, c, out),
        (_, true) => split::<C, 2>(picture, true, c, out),
        (_, false) => split::<C, 2>(picture, false, c, out),
    }
}

/// `false` if a bilevel byte is neither 0 nor 255.
#[inline(never)]
pub fn write_planes(l: &Layout, picture: &[u8], planes: &mut [u8]) -> bool {
    if l.slots == 8 {
        if picture.iter().any(|&v| v != 0 && v != 255) {
            return false;
        }
        for (p, o) in picture.chunks_exact(row(l)).zip(planes.chunks_exact_mut(plane_row(l))) {
            pack_row(p, l.white, o);
        }
    } else if l.separate {
        for (c, o) in planes.chunks_exact_mut(l.w * l.h * l.bytes).enumerate() {
            match l.ch {
                1 => split_plane::<1>(l, picture, c, o),
                2 => split_plane::<2>(l, picture, c, o),
                3 => split_plane::<3>(l, picture, c, o),
                _ => split_plane::<4>(l, picture, c, o),
            }
            if l.white && (l.alpha == 0 || c != l.ch - 1) {
                o.iter_mut().for_each(|v| *v = 255 - *v);
            }
        }
    } else {
        for (p, o) in picture.chunks_exact(row(l)).zip(planes.chunks_exact_mut(row(l))) {
            if l.bytes == 2 && is_little(l) {
                swap_groups::<2>(p, o)
            } else {
                o.copy_from_slice(p)
            }
            finish(l, o);
        }
    }
    true
}

/// Bytes at a place, which moves past them.
fn put<const N: usize>(out: &mut [u8], at: &mut usize, bytes: [u8; N]) {
    out[*at..*at + N].copy_from_slice(&bytes);
    *at += N;
}

fn put_long(out: &mut [u8], at: &mut usize, value: usize) {
    put(out, at, (value as u32).to_le_bytes());
}

/// Tag, type, count and last four bytes of each entry.
fn put_entries(out: &mut [u8], at: &mut usize, entries: &[(u16, u16, usize, usize)]) {
    put(out, at, (entries.len() as u16).to_le_bytes());
    for &(tag, kind, count, value) in entries {
        put(out, at, tag.to_le_bytes());
        put(out, at, kind.to_le_bytes());
        put_long(out, at, count);
        put_long(out, at, value);
    }
    put_long(out, at, 0);
}

/// The file of a grey picture of 8 bits.
#[inline(never)]
pub fn write_grey_file(w: usize, h: usize, rows_per_strip: usize, planes: &[u8], out: &mut [u8]) {
    let strips = h.div_ceil(rows_per_strip);
    let list = if strips > 1 { 4 * strips } else { 0 };
    let places = 8 + 2 + 12 * 14 + 4;
    let (lengths, resolutions) = (places + list, places + 2 * list);
    let first = resolutions + 16;
    let strip = w * rows_per_strip;
    let listed = |at: usize, value: usize| if strips > 1 { at } else { value };
    let entries = [
        (256, 3, 1, w),
        (257, 3, 1, h),
        (258, 3, 1, 8),
        (259, 3, 1, 1),
        (262, 3, 1, 1),
        (273, 4, strips, listed(places, first)),
        (277, 3, 1, 1),
        (278, 4, 1, rows_per_strip),
        (279, 4, strips, listed(lengths, strip)),
        (282, 5, 1, resolutions),
        (283, 5, 1, resolutions + 8),
        (284, 3, 1, 1),
        (296, 3, 1, 1),
        (317, 3, 1, 1),
    ];
    let mut at = 0;
    put(out, &mut at, *b"II*\0\x08\0\0\0");
    put_entries(out, &mut at, &entries);
    if strips > 1 {
        (0..strips).for_each(|k| put_long(out, &mut at, first + k * strip));
        (0..strips).for_each(|k| put_long(out, &mut at, strip.min(w * h - k * strip)));
    }
    (0..4).for_each(|_| put_long(out, &mut at, 1));
    out[at..].copy_from_slice(planes);
}
