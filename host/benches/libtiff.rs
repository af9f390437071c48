//! Debian's libtiff, found when the benchmark runs: the same operations where it has them.
use std::ffi::{c_char, c_int, c_void, CStr, CString};

extern "C" {
    fn dlopen(name: *const c_char, flags: c_int) -> *mut c_void;
    fn dlsym(library: *mut c_void, name: *const c_char) -> *mut c_void;
}

type Handle = *mut c_void;
type Bytes = unsafe extern "C" fn(Handle, *mut c_void, isize) -> isize;
type Seek = unsafe extern "C" fn(Handle, u64, c_int) -> u64;
type Close = unsafe extern "C" fn(Handle) -> c_int;
type Size = unsafe extern "C" fn(Handle) -> u64;
type Map = unsafe extern "C" fn(Handle, *mut *mut c_void, *mut u64) -> c_int;
type Unmap = unsafe extern "C" fn(Handle, *mut c_void, u64);

/// The functions of libtiff that are timed, and those that a file in memory needs.
pub struct Libtiff {
    reverse: unsafe extern "C" fn(*mut u8, isize),
    swab: [unsafe extern "C" fn(*mut u8, isize); 3],
    open: unsafe extern "C" fn(
        *const c_char,
        *const c_char,
        Handle,
        Bytes,
        Bytes,
        Seek,
        Close,
        Size,
        Map,
        Unmap,
    ) -> Handle,
    close: unsafe extern "C" fn(Handle),
    set: unsafe extern "C" fn(Handle, u32, ...) -> c_int,
    write: unsafe extern "C" fn(Handle, u32, *const u8, isize) -> isize,
    write_raw: unsafe extern "C" fn(Handle, u32, *const u8, isize) -> isize,
    read: unsafe extern "C" fn(Handle, u32, *mut u8, isize) -> isize,
    next_page: unsafe extern "C" fn(Handle) -> c_int,
    strips: unsafe extern "C" fn(Handle) -> u32,
    place: unsafe extern "C" fn(Handle, u32) -> u64,
    length: unsafe extern "C" fn(Handle, u32) -> u64,
}

/// A file in memory.
#[derive(Default)]
pub struct Memory {
    pub bytes: Vec<u8>,
    at: usize,
}

unsafe extern "C" fn read(m: Handle, to: *mut c_void, n: isize) -> isize {
    let m = &mut *(m as *mut Memory);
    let n = (n as usize).min(m.bytes.len().saturating_sub(m.at));
    std::ptr::copy_nonoverlapping(m.bytes[m.at..].as_ptr(), to as *mut u8, n);
    m.at += n;
    n as isize
}

unsafe extern "C" fn write(m: Handle, from: *mut c_void, n: isize) -> isize {
    let m = &mut *(m as *mut Memory);
    let from = std::slice::from_raw_parts(from as *const u8, n as usize);
    if m.bytes.len() < m.at {
        m.bytes.resize(m.at, 0);
    }
    // what stands there is written over, the rest comes behind it
    let (over, behind) = from.split_at(from.len().min(m.bytes.len() - m.at));
    m.bytes[m.at..m.at + over.len()].copy_from_slice(over);
    m.bytes.extend_from_slice(behind);
    m.at += from.len();
    n
}

unsafe extern "C" fn seek(m: Handle, to: u64, whence: c_int) -> u64 {
    let m = &mut *(m as *mut Memory);
    m.at = match whence {
        0 => to as usize,
        1 => m.at.wrapping_add(to as usize),
        _ => m.bytes.len().wrapping_add(to as usize),
    };
    m.at as u64
}

unsafe extern "C" fn size(m: Handle) -> u64 {
    (*(m as *mut Memory)).bytes.len() as u64
}

unsafe extern "C" fn close(_: Handle) -> c_int {
    0
}

unsafe extern "C" fn map(m: Handle, to: *mut *mut c_void, n: *mut u64) -> c_int {
    let m = &mut *(m as *mut Memory);
    (*to, *n) = (m.bytes.as_mut_ptr() as *mut c_void, m.bytes.len() as u64);
    1
}

unsafe extern "C" fn unmap(_: Handle, _: *mut c_void, _: u64) {}

/// The library's function of this name, if it has one. `F` must be its type, a pointer to a function.
unsafe fn function<F>(library: Handle, name: &CStr) -> Option<F> {
    assert_eq!(size_of::<F>(), size_of::<Handle>());
    let found = dlsym(library, name.as_ptr());
    (!found.is_null()).then(|| std::mem::transmute_copy::<Handle, F>(&found))
}

/// The compression of packed rows.
const PACKBITS: usize = 32_773;

/// A strip of one picture: `rows` rows of 1024 pixels of `channels` samples of `width` bytes, through Deflate.
#[derive(Clone, Copy)]
pub struct Picture {
    pub channels: usize,
    pub width: usize,
    pub rows: usize,
    pub predict: bool,
    /// whether the file's byte order is the other one
    pub swapped: bool,
}

impl Libtiff {
    /// libtiff, if it is installed.
    pub fn load() -> Option<Self> {
        // SAFETY: each function has the type that tiffio.h declares it with.
        unsafe {
            let library = dlopen(c"libtiff.so.6".as_ptr(), 2);
            if library.is_null() {
                return None;
            }
            let warn: unsafe extern "C" fn(Handle) -> Handle = function(library, c"TIFFSetWarningHandler")?;
            warn(std::ptr::null_mut());
            Some(Libtiff {
                reverse: function(library, c"TIFFReverseBits")?,
                swab: [
                    function(library, c"TIFFSwabArrayOfShort")?,
                    function(library, c"TIFFSwabArrayOfLong")?,
                    function(library, c"TIFFSwabArrayOfLong8")?,
                ],
                open: function(library, c"TIFFClientOpen")?,
                close: function(library, c"TIFFClose")?,
                set: function(library, c"TIFFSetField")?,
                write: function(library, c"TIFFWriteEncodedStrip")?,
                write_raw: function(library, c"TIFFWriteRawStrip")?,
                read: function(library, c"TIFFReadEncodedStrip")?,
                next_page: function(library, c"TIFFReadDirectory")?,
                strips: function(library, c"TIFFNumberOfStrips")?,
                place: function(library, c"TIFFGetStrileOffset")?,
                length: function(library, c"TIFFGetStrileByteCount")?,
            })
        }
    }

    pub fn reverse_bits(&self, s: &mut [u8]) {
        unsafe { (self.reverse)(s.as_mut_ptr(), s.len() as isize) }
    }

    /// Words of 2, 4 or 8 bytes swapped in place.
    pub fn swap(&self, s: &mut [u8], width: usize) {
        let which = width.trailing_zeros() as usize - 1;
        unsafe { (self.swab[which])(s.as_mut_ptr(), (s.len() / width) as isize) }
    }

    unsafe fn opened(&self, memory: &mut Memory, mode: &str) -> Handle {
        let mode = CString::new(mode).unwrap();
        let memory = memory as *mut Memory as Handle;
        (self.open)(c"memory".as_ptr(), mode.as_ptr(), memory, read, write, seek, close, size, map, unmap)
    }

    /// A picture as a file: every row is a sample that its differences keep, or, unpredicted, the same stream of bytes.
    fn written(&self, p: Picture) -> Memory {
        let row = 1024 * p.channels * p.width;
        let mut samples = vec![0u8; row * p.rows];
        for r in samples.chunks_exact_mut(row) {
            let kept = if p.predict { row } else { p.channels * p.width };
            r[..kept].fill(7);
        }
        let mut memory = Memory::default();
        unsafe {
            let tiff = self.opened(&mut memory, if p.swapped { "wb" } else { "wl" });
            let short = [
                (256, 1024),
                (258, 8 * p.width),
                (259, 8),
                (262, 1),
                (277, p.channels),
                (284, 1),
                (317, 1 + p.predict as usize),
            ];
            for (tag, value) in short {
                (self.set)(tiff, tag, value as c_int);
            }
            (self.set)(tiff, 257, p.rows as c_int);
            (self.set)(tiff, 278, p.rows as c_int);
            assert!((self.write)(tiff, 0, samples.as_ptr(), samples.len() as isize) > 0);
            (self.close)(tiff);
        }
        memory.at = 0;
        memory
    }

    /// The picture's strip, read: what one call does, and the bytes of the strip.
    pub fn reader(&self, p: Picture) -> impl FnMut() + '_ {
        let mut memory = Box::new(self.written(p));
        let mut out = vec![0u8; 1024 * p.channels * p.width * p.rows];
        // m: not by the file's bytes where they stand, but through libtiff's own buffer, as from a disk
        let tiff = unsafe { self.opened(&mut memory, "rm") };
        move || {
            let keep = &memory;
            let n = unsafe { (self.read)(tiff, 0, out.as_mut_ptr(), out.len() as isize) };
            assert!(n == out.len() as isize && !keep.bytes.is_empty());
        }
    }

    /// A file of a grey picture, little-endian, to be written: its tags are set.
    unsafe fn grey_file(&self, size: (usize, usize), compression: usize, rows: usize, memory: &mut Memory) -> Handle {
        memory.bytes.clear();
        memory.at = 0;
        let tiff = self.opened(memory, "wl");
        let (w, h) = size;
        for (tag, value) in
            [(256, w), (257, h), (258, 8), (259, compression), (262, 1), (277, 1), (278, rows), (284, 1)]
        {
            (self.set)(tiff, tag, value as c_int);
        }
        tiff
    }

    /// A file of a grey picture in one strip, its rows packed by libtiff.
    pub fn write_packed_file(&self, w: usize, h: usize, plane: &[u8], memory: &mut Memory) {
        unsafe {
            let tiff = self.grey_file((w, h), PACKBITS, h, memory);
            assert!((self.write)(tiff, 0, plane.as_ptr(), plane.len() as isize) > 0);
            (self.close)(tiff);
        }
    }

    /// A strip of packed rows, where it stands in memory, read: what one call does.
    pub fn unpacker(&self, w: usize, h: usize, packed: &[u8]) -> impl FnMut(&mut [u8]) + '_ {
        let mut memory = Box::new(Memory::default());
        let tiff = unsafe {
            let tiff = self.grey_file((w, h), PACKBITS, h, &mut memory);
            assert!((self.write_raw)(tiff, 0, packed.as_ptr(), packed.len() as isize) > 0);
            (self.close)(tiff);
            memory.at = 0;
            self.opened(&mut memory, "r")
        };
        move |out| {
            let keep = &memory;
            let n = unsafe { (self.read)(tiff, 0, out.as_mut_ptr(), out.len() as isize) };
            assert!(n == out.len() as isize && !keep.bytes.is_empty());
        }
    }

    /// A file of a grey picture, little-endian and not compressed, its strips handed over one by one.
    pub fn write_grey_file(&self, w: usize, h: usize, rows_per_strip: usize, planes: &[u8], memory: &mut Memory) {
        unsafe {
            let tiff = self.grey_file((w, h), 1, rows_per_strip, memory);
            for (k, strip) in planes.chunks(w * rows_per_strip).enumerate() {
                assert!((self.write)(tiff, k as u32, strip.as_ptr(), strip.len() as isize) > 0);
            }
            (self.close)(tiff);
        }
    }

    /// A file opened where it stands, and the place and length of every strip of every page: what one call does.
    pub fn places(&self, file: &[u8]) -> impl FnMut() -> Vec<(usize, usize)> + '_ {
        let mut memory = Box::new(Memory { bytes: file.to_vec(), at: 0 });
        move || unsafe {
            memory.at = 0;
            // c: the file's own strips, a large one not in parts
            let tiff = self.opened(&mut memory, "rc");
            assert!(!tiff.is_null(), "libtiff opens the file");
            let mut places = vec![];
            loop {
                let strips = 0..(self.strips)(tiff);
                places.extend(strips.map(|k| ((self.place)(tiff, k) as usize, (self.length)(tiff, k) as usize)));
                if (self.next_page)(tiff) == 0 {
                    break;
                }
            }
            (self.close)(tiff);
            places
        }
    }
}
