//! Small TIFF files for the tests.

use hamrisk::ByteOrder;

/// A page: values of its tags, and its strips, of which tags 273 and 279 are made.
#[derive(Clone)]
pub struct Page {
    tags: Vec<(u16, Vec<u32>)>,
    strips: Vec<Vec<u8>>,
}

impl Page {
    /// Grey, 0 black; a strip for each of these.
    pub fn grey(w: u32, h: u32, bits: u32, strips: &[&[u8]]) -> Page {
        let page = Page { tags: Vec::new(), strips: strips.iter().map(|strip| strip.to_vec()).collect() };
        page.with(256, &[w]).with(257, &[h]).with(258, &[bits]).with(262, &[1])
    }

    /// Another value of a tag; with none it is left out.
    pub fn with(mut self, tag: u16, values: &[u32]) -> Page {
        self.tags.retain(|(other, _)| *other != tag);
        if !values.is_empty() {
            self.tags.push((tag, values.to_vec()));
        }
        self
    }

    /// The tags in order; those of the strips, if there are any, which begin at `place`, too unless the page has its own.
    fn all_tags(&self, place: usize) -> Vec<(u16, Vec<u32>)> {
        let lengths: Vec<u32> = self.strips.iter().map(|strip| strip.len() as u32).collect();
        let starts = lengths.iter().scan(place as u32, |at, length| {
            *at += length;
            Some(*at - length)
        });
        let mut tags = vec![(273, starts.collect()), (279, lengths.clone())];
        tags.retain(|(tag, _)| !lengths.is_empty() && self.tags.iter().all(|(own, _)| own != tag));
        tags.extend(self.tags.clone());
        tags.sort();
        tags
    }
}

/// A file of these pages: each is its directory, the values that stand outside of it, and its strips.
pub fn file(order: ByteOrder, pages: &[Page]) -> Vec<u8> {
    let mut file = if order == ByteOrder::Little { b"II*\0".to_vec() } else { b"MM\0*".to_vec() };
    let mut pointer = file.len();
    file.extend([0; 4]);
    for page in pages {
        let at = file.len();
        put(&mut file, order, pointer, 4, at as u32);
        let outside: usize = page.all_tags(0).iter().map(|(tag, values)| room(*tag, values)).sum();
        let directory = 2 + 12 * page.all_tags(0).len() + 4;
        let tags = page.all_tags(at + directory + outside);
        pointer = at + directory - 4;
        file.resize(at + directory + outside, 0);
        put_tags(&mut file, order, at, &tags);
        file.extend(page.strips.concat());
    }
    file
}

/// LONG for the tags of strips, else SHORT.
fn size(tag: u16) -> usize {
    if tag == 273 || tag == 279 {
        4
    } else {
        2
    }
}

/// The bytes that values take outside of their entry.
fn room(tag: u16, values: &[u32]) -> usize {
    let bytes = values.len() * size(tag);
    if bytes > 4 {
        bytes
    } else {
        0
    }
}

fn put_tags(file: &mut [u8], order: ByteOrder, at: usize, tags: &[(u16, Vec<u32>)]) {
    put(file, order, at, 2, tags.len() as u32);
    let mut outside = at + 2 + 12 * tags.len() + 4;
    for (n, (tag, values)) in tags.iter().enumerate() {
        let entry = at + 2 + 12 * n;
        let size = size(*tag);
        put(file, order, entry, 2, u32::from(*tag));
        put(file, order, entry + 2, 2, if size == 2 { 3 } else { 4 });
        put(file, order, entry + 4, 4, values.len() as u32);
        let mut place = entry + 8;
        if room(*tag, values) > 0 {
            put(file, order, place, 4, outside as u32);
            place = outside;
            outside += values.len() * size;
        }
        for (k, value) in values.iter().enumerate() {
            put(file, order, place + k * size, size, *value);
        }
    }
}

/// Writes a number of `size` bytes at a place.
pub fn put(file: &mut [u8], order: ByteOrder, at: usize, size: usize, value: u32) {
    let bytes = value.to_le_bytes();
    for k in 0..size {
        file[at + k] = bytes[if order == ByteOrder::Little { k } else { size - 1 - k }];
    }
}
