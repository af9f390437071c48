//! Files spoiled: a byte, an entry, a count, a type, a value, an offset, a cut.

use crate::made::{Made, Page, USED};
use crate::random::Random;

/// A file with one to three things wrong, or none.
pub fn spoiled(random: &mut Random, good: &Made) -> Made {
    let mut file = good.clone();
    let times = random.one_of(&[0, 1, 1, 1, 1, 1, 1, 2, 2, 3]);
    for _ in 0..times {
        spoil(random, &mut file);
    }
    file
}

fn spoil(random: &mut Random, file: &mut Made) {
    let page = file.pages[random.below(file.pages.len())].clone();
    match random.below(22) {
        0 => spoil_header(random, file),
        1 => spoil_pointer(random, file, &page),
        2 => spoil_entries(random, file, &page),
        3 => cut(random, file, &page),
        4 => spoil_byte(random, file, 0, file.bytes.len()),
        5 => spoil_byte(random, file, page.at, 2 + 12 * page.tags.len() + 4),
        6 => remove_entry(random, file, &page),
        7 => swap_entries(random, file, &page),
        8 => add_entry(random, file, &page),
        9..=11 => spoil_list(random, file, &page),
        12 | 13 => spoil_strip(random, file, &page),
        _ => spoil_field(random, file, &page),
    }
}

/// A number at, near or far past the file's end.
fn edge(random: &mut Random, file: &Made) -> u64 {
    let length = file.bytes.len() as u64;
    let near = random.below(20) as u64;
    match random.below(8) {
        0 => near,
        1 => length,
        2 => length + near,
        3 => u64::from(u32::MAX) - near,
        4 => (1 << 31) + near,
        _ => length.saturating_sub(near),
    }
}

fn spoil_header(random: &mut Random, file: &mut Made) {
    match random.below(3) {
        0 => file.put(0, random.one_of(b"IMJ").into(), 1),
        1 => file.put(1, random.one_of(b"IM\0").into(), 1),
        _ => file.put(2, random.one_of(&[0, 41, 43, 42 << 8]), 2),
    }
}

/// The pointer to a page: none, past the end, or back to a page that was there.
fn spoil_pointer(random: &mut Random, file: &mut Made, page: &Page) {
    let back = file.pages[random.below(file.pages.len())].at as u64;
    let edge = edge(random, file);
    let pointer = random.one_of(&[0, back, back, 8, edge]);
    let last = page.at + 2 + 12 * page.tags.len();
    file.put(random.one_of(&[page.pointer, last]), pointer, 4);
}

/// A directory's count of entries.
fn spoil_entries(random: &mut Random, file: &mut Made, page: &Page) {
    let entries = page.tags.len() as u64;
    let near = [0, 1, entries + 1, entries.saturating_sub(1), 63, 64, 65, 66, 255, 65_535];
    file.put(page.at, random.one_of(&near), 2);
}

fn cut(random: &mut Random, file: &mut Made, page: &Page) {
    let end = page.at + 2 + 12 * page.tags.len() + 4;
    let near = random.below(4);
    let length = match random.below(6) {
        0 => random.below(10),
        1 => page.at + near,
        2 => end - near,
        3 => file.bytes.len() - near.min(file.bytes.len()),
        4 => file.bytes.len() + near,
        _ => random.below(file.bytes.len() + 1),
    };
    file.bytes.resize(length, 0);
}

fn spoil_byte(random: &mut Random, file: &mut Made, from: usize, length: usize) {
    let at = from + random.below(length.max(1));
    let any = random.next() & 0xFF;
    let value = random.one_of(&[0, 1, 2, 3, 4, 8, 16, 127, 128, 255, any]);
    file.put(at, value, 1);
}

/// An entry taken out; the ones after it and the next pointer move up.
fn remove_entry(random: &mut Random, file: &mut Made, page: &Page) {
    let entry = entry(random, page);
    let end = page.at + 2 + 12 * page.tags.len() + 4;
    if end <= file.bytes.len() {
        file.bytes.copy_within(entry + 12..end, entry);
        file.put(page.at, page.tags.len() as u64 - 1, 2);
    }
}

/// An entry of a used tag put in at its place; all that comes after it moves on, and the places that are said stay.
fn add_entry(random: &mut Random, file: &mut Made, page: &Page) {
    let tag = random.one_of(&USED);
    let entry = page.at + 2 + 12 * page.tags.iter().filter(|&&before| before < tag).count();
    if page.tags.contains(&tag) || entry > file.bytes.len() {
        return;
    }
    file.bytes.splice(entry..entry, [0; 12]);
    file.put(page.at, page.tags.len() as u64 + 1, 2);
    for (at, value, size) in [(0, tag, 2), (2, 3, 2), (4, 1, 4), (8, random.below(4) as u64, 2)] {
        file.put(entry + at, value, size);
    }
}

/// Two neighbours in the wrong order, or twice the same.
fn swap_entries(random: &mut Random, file: &mut Made, page: &Page) {
    let entry = entry(random, page);
    let next = entry + 12;
    if next + 12 > file.bytes.len() {
        return;
    }
    if random.flag() {
        let (first, second) = file.bytes.split_at_mut(next);
        first[entry..].swap_with_slice(&mut second[..12]);
    } else {
        file.bytes.copy_within(entry..next, next);
    }
}

/// An entry, mostly one whose tag is used.
fn entry(random: &mut Random, page: &Page) -> usize {
    let used: Vec<usize> = (0..page.tags.len()).filter(|&n| USED.contains(&page.tags[n])).collect();
    let all = used.is_empty() || random.below(8) == 0;
    page.at + 2 + 12 * if all { random.below(page.tags.len()) } else { random.one_of(&used) }
}

/// A part of an entry: its tag, type, count, value or place.
fn spoil_field(random: &mut Random, file: &mut Made, page: &Page) {
    let entry = entry(random, page);
    let count = file.get(entry + 4, 4);
    match random.below(8) {
        0 => {
            let (tag, used) = (file.get(entry, 2), random.one_of(&USED));
            file.put(entry, random.one_of(&[tag + 1, tag.saturating_sub(1), used]), 2);
        }
        1 => file.put(entry + 2, random.one_of(&[0, 1, 2, 3, 3, 4, 4, 5, 8, 16, 0x0300, 0x0400]), 2),
        2 | 3 => {
            let near = [0, 1, 2, 3, 4, count + 1, count.saturating_sub(1), 3 << 1, 3 << 4, 1 << 30, 1 << 31, u64::MAX];
            file.put(entry + 4, random.one_of(&near), 4);
        }
        4 => file.put(entry + 8, edge(random, file), 4),
        _ => {
            let value = random.one_of(&[0, 1, 2, 3, 4, 5, 7, 8, 9, 16, 17, 32, 16_384, 16_385, 32_773, 65_535]);
            file.put(entry + 8, value, random.one_of(&[2, 2, 4]));
        }
    }
}

/// Where one value of the list of a tag stands, and its bytes.
fn value_of(file: &Made, page: &Page, tag: u64, k: usize) -> Option<(usize, usize)> {
    let n = page.tags.iter().position(|&t| t == tag)?;
    let entry = page.at + 2 + 12 * n;
    let size = if file.get(entry + 2, 2) == 4 { 4 } else { 2 };
    let count = file.get(entry + 4, 4) as usize;
    let at = if count * size <= 4 { entry + 8 } else { file.get(entry + 8, 4) as usize };
    Some((at + size * (k % count.clamp(1, 1_000)), size))
}

/// A byte of a strip.
fn spoil_strip(random: &mut Random, file: &mut Made, page: &Page) {
    let k = random.below(1_000);
    let [at, length] = [273, 279].map(|tag| value_of(file, page, tag, k).map_or(0, |(at, size)| file.get(at, size)));
    spoil_byte(random, file, at as usize, length as usize);
}

/// A value of a list: of the bits of a sample, or the place or length of a strip.
fn spoil_list(random: &mut Random, file: &mut Made, page: &Page) {
    let tag = random.one_of(&[258, 273, 279]);
    let Some((place, size)) = value_of(file, page, tag, random.below(1_000)) else { return };
    let value = file.get(place, size);
    let wanted = [0, 1, 4, 8, 16, value + 1, value.saturating_sub(1), value * 2, edge(random, file)];
    file.put(place, random.one_of(&wanted), size);
}
