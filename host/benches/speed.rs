//! Each call beside hand-written Rust, libtiff where it has the same operation, and memcpy, as ratios of their speeds:
//! `cargo bench` prints the tables of docs/SPEED.md; `cargo bench -- render 65536` those of one call and size.
mod by_hand;
mod directories;
mod files;
mod libtiff;
mod packbits;
mod packbits_by_hand;
mod packets;
mod reversal;

use hamrisk::limits::MOST_SIDE;
use hamrisk::{ByteOrder, Coding, Layout, Strip};
use libtiff::{Libtiff, Picture};
use std::cell::RefCell;
use std::hint::black_box;
use std::time::Instant;

/// Seconds of one call: the best of several batches.
fn seconds(mut call: impl FnMut()) -> f64 {
    call();
    let start = Instant::now();
    call();
    let once = start.elapsed().as_secs_f64().max(1e-9);
    let turns = (0.004 / once).ceil().max(1.0) as usize;
    let batches = if once > 0.02 { 5 } else { 9 };
    let mut best = f64::MAX;
    for _ in 0..batches {
        let start = Instant::now();
        for _ in 0..turns {
            call();
        }
        best = best.min(start.elapsed().as_secs_f64() / turns as f64);
    }
    best
}

/// Seconds of two calls, timed in turns so that what else the machine does falls on both.
fn both(mut ours: impl FnMut(), mut theirs: impl FnMut()) -> (f64, f64) {
    let (mut a, mut b) = (f64::MAX, f64::MAX);
    for _ in 0..3 {
        a = a.min(seconds(&mut ours));
        b = b.min(seconds(&mut theirs));
    }
    (a, b)
}

/// What is timed: the calls whose name has this word in it, at these sizes; and what was found.
struct Run {
    only: String,
    sizes: Vec<usize>,
    libtiff: Option<Libtiff>,
    lines: RefCell<Vec<Line>>,
}

/// What one call took on about `size` bytes, and the others: seconds.
struct Line {
    what: String,
    size: usize,
    bytes: usize,
    ours: f64,
    hand: f64,
    tiff: Option<f64>,
    copy: f64,
}

impl Run {
    fn has(&self, call: &str) -> bool {
        call.contains(&self.only)
    }

    fn line(&self, what: &str, size: usize, bytes: usize, (ours, hand): (f64, f64), tiff: Option<f64>) {
        eprintln!("{what}, {bytes} bytes: {:.2} GB/s, {:.2} of hand-written", bytes as f64 / ours / 1e9, hand / ours);
        let line = Line { what: what.into(), size, bytes, ours, hand, tiff, copy: copy_seconds(bytes) };
        self.lines.borrow_mut().push(line);
    }

    /// A row for each call; in it, by size, the rate and how fast it is as a part of what the others are.
    fn print(&self) {
        let lines = self.lines.borrow();
        let sizes: Vec<String> = self.sizes.iter().map(|&n| name(n)).collect();
        let sizes = sizes.join(", ");
        println!("| call | GB/s at {sizes} | to hand-written Rust | to libtiff | to memcpy |\n|---|---|---|---|---|");
        let mut done: Vec<&str> = vec![];
        for first in lines.iter() {
            if done.contains(&first.what.as_str()) {
                continue;
            }
            done.push(&first.what);
            let cell = |value: &dyn Fn(&Line) -> Option<f64>| {
                let of = |size: &usize| lines.iter().find(|l| l.what == first.what && l.size == *size).and_then(value);
                let cells: Vec<String> = self.sizes.iter().filter_map(of).map(|x| format!("{x:.2}")).collect();
                cells.join(", ")
            };
            println!(
                "| {} | {} | {} | {} | {} |",
                first.what,
                cell(&|l| Some(l.bytes as f64 / l.ours / 1e9)),
                cell(&|l| Some(l.hand / l.ours)),
                cell(&|l| l.tiff.map(|t| t / l.ours)),
                cell(&|l| Some(l.copy / l.ours)),
            );
        }
    }
}

/// Bytes that look random.
fn noise(n: usize, mut state: u64) -> Vec<u8> {
    let mut next = || {
        state ^= state << 13;
        state ^= state >> 7;
        state ^= state << 17;
        (state >> 32) as u8
    };
    (0..n).map(|_| next()).collect()
}

fn name(n: usize) -> String {
    if n >= 1 << 20 {
        format!("{} MiB", n >> 20)
    } else {
        format!("{} KiB", n >> 10)
    }
}

fn copy_seconds(n: usize) -> f64 {
    let from = noise(n, 1);
    let mut to = vec![0; n];
    seconds(|| {
        to.copy_from_slice(black_box(&from));
        black_box(&mut to);
    })
}

fn moved(run: &Run, size: usize) {
    let raw = noise(size, 362436069);
    let (mut a, mut b) = (raw.clone(), raw.clone());
    let lib = run.libtiff.as_ref();
    if run.has("reverse_bits") {
        let times = both(|| hamrisk::reverse_bits(black_box(&mut a)), || by_hand::reverse_bits(black_box(&mut b)));
        let tiff = lib.map(|t| seconds(|| t.reverse_bits(black_box(&mut b))));
        run.line("reverse_bits", size, size, times, tiff);
    }
    if run.has("commit") {
        let ours = || hamrisk::commit(black_box(&raw), &mut a).unwrap();
        run.line("commit", size, size, both(ours, || b.copy_from_slice(black_box(&raw))), None);
    }
    for width in (1..=8).filter(|_| run.has("swap_components")) {
        let n = size / width * width;
        let times = both(
            || hamrisk::swap_components(black_box(&raw[..n]), width, &mut a[..n]).unwrap(),
            || by_hand::swap_components(black_box(&raw[..n]), width, black_box(&mut b[..n])),
        );
        assert!(a[..n] == b[..n], "swap_components {width}");
        let same = [2, 4, 8].contains(&width);
        let tiff = lib.filter(|_| same).map(|t| seconds(|| t.swap(black_box(&mut b[..n]), width)));
        run.line(&format!("swap_components, width {width}"), size, n, times, tiff);
    }
}

type Call = fn(&[u8], Strip, Coding, &mut [u8]) -> Result<(), hamrisk::Refusal>;
type Hand = fn(&[u8], Strip, Coding, &mut [u8]);

/// Rows of 1024 pixels, and short ones.
fn strips(run: &Run, size: usize) {
    if run.has("convert") {
        let strip = Strip { row_bytes: 64, channels: 1, width: 2 };
        samples(run, size, strip, "convert, rows of 64 bytes", hamrisk::convert, by_hand::convert);
    }
    for width in [1, 2, 3, 4, 8] {
        for channels in [1, 2, 3, 4] {
            let strip = Strip { row_bytes: 1024 * channels * width, channels, width };
            if run.has("convert") {
                samples(run, size, strip, "convert", hamrisk::convert, by_hand::convert);
            }
            if run.has("forward") {
                samples(run, size, strip, "forward", hamrisk::forward, by_hand::forward);
            }
            if run.has("marks") {
                marks(run, size, strip);
            }
        }
    }
}

/// A strip's geometry in words.
fn geometry(strip: Strip, predict: bool, swapped: bool) -> String {
    let Strip { width, channels, .. } = strip;
    let predicted = if predict { ", predicted" } else { "" };
    format!("width {width}, channels {channels}{predicted}{}", if swapped { ", swapped" } else { "" })
}

const PAGE: usize = 4096;

/// Bytes of a buffer that begin where a page does. A processor that tells loads from stores by their place in a page lets
/// some wait for others, so that both outputs have to stand alike to the input.
fn from_page(space: &mut [u8], n: usize) -> &mut [u8] {
    let first = space.as_ptr().align_offset(PAGE);
    &mut space[first..first + n]
}

fn samples(run: &Run, size: usize, strip: Strip, name: &str, ours: Call, hand: Hand) {
    let n = size / strip.row_bytes * strip.row_bytes;
    let mut spaces = [(); 3].map(|()| vec![0; n + PAGE]);
    let [raw, a, b] = spaces.each_mut().map(|space| from_page(space, n));
    raw.copy_from_slice(&noise(n, 88172645463325252));
    for predict in [true, false] {
        for from in [ByteOrder::Little, ByteOrder::Big] {
            let swapped = from == ByteOrder::Big;
            if (strip.width == 1 && swapped) || (name == "forward" && !predict) {
                continue;
            }
            let coding = Coding { from, to: ByteOrder::Little, predict };
            let times = both(
                || ours(black_box(raw), strip, coding, a).unwrap(),
                || hand(black_box(raw), strip, coding, black_box(b)),
            );
            let what = format!("{name}, {}", geometry(strip, predict, swapped));
            assert!(a == b, "{what}");
            run.line(&what, size, n, times, None);
        }
    }
}

fn marks(run: &Run, size: usize, strip: Strip) {
    let n = size / strip.row_bytes * strip.row_bytes;
    let scattered: Vec<u8> = noise(n, 5).iter().map(|&b| (b == 7) as u8).collect();
    let lost: Vec<u8> = (0..n).map(|k| (k % 65_536 >= 64_000) as u8).collect();
    let (mut a, mut b) = (vec![0; n / strip.width], vec![0; n / strip.width]);
    for (predict, packet, damage) in [(false, "", &scattered), (true, "", &scattered), (true, ", a lost packet", &lost)]
    {
        let (mut x, mut y) = (0, 0);
        let times = both(
            || x = hamrisk::marks(black_box(damage), strip, predict, &mut a).unwrap(),
            || y = by_hand::marks(black_box(damage), strip, predict, black_box(&mut b)),
        );
        assert!(a == b && x == y, "marks");
        run.line(&format!("marks, {}{packet}", geometry(strip, predict, false)), size, n, times, None);
    }
}

/// Each kind of layout.
fn kinds() -> Vec<(&'static str, Layout)> {
    let grey = Layout::grey(1, 1, ByteOrder::Big);
    let colour = Layout { ch: 3, ..grey };
    let apart = Layout { separate: true, ..colour };
    let little = |l: Layout| Layout { bytes: 2, order: ByteOrder::Little, ..l };
    let alpha = |l: Layout, kind| Layout { ch: l.ch + 1, alpha: kind, ..l };
    let white = |l: Layout| Layout { white: true, ..l };
    let palette = |slots| Layout { palette: true, slots, ..colour };
    vec![
        ("grey", grey),
        ("grey, white", white(grey)),
        ("grey, 2 bytes", Layout { bytes: 2, ..grey }),
        ("grey, 2 bytes, le", little(grey)),
        ("colour", colour),
        ("colour, 2 bytes, le", little(colour)),
        ("colour, apart", apart),
        ("colour, apart, white", white(apart)),
        ("colour, apart, 2 bytes", Layout { bytes: 2, ..apart }),
        ("colour, apart, 2 bytes, le", little(apart)),
        ("grey, alpha 1", alpha(grey, 1)),
        ("grey, alpha 2, white", white(alpha(grey, 2))),
        ("colour, alpha 1", alpha(colour, 1)),
        ("colour, alpha 1, apart", alpha(apart, 1)),
        ("colour, alpha 2", alpha(colour, 2)),
        ("colour, alpha 2, white", white(alpha(colour, 2))),
        ("colour, alpha 2, apart", alpha(apart, 2)),
        ("palette, slots 1", palette(1)),
        ("palette, slots 2", palette(2)),
        ("palette, slots 8", palette(8)),
        ("bilevel", Layout { slots: 8, ..grey }),
        ("bilevel, white", white(Layout { slots: 8, ..grey })),
    ]
}

/// About n bytes of picture, 1024 columns where the rows do not pass their limit.
fn sized(l: Layout, n: usize) -> Layout {
    let pixels = n / (l.ch * l.bytes);
    let w = (pixels / MOST_SIDE + 1).max(1024);
    Layout { w, h: pixels / w, ..l }
}

fn pictures(run: &Run, size: usize) {
    let file = noise(1536, 521288629);
    for (kind, l) in kinds() {
        let l = sized(l, size);
        let lengths = hamrisk::check_layout(&l).unwrap();
        let raw = noise(lengths.scratch_length, 5783321);
        let (mut a, mut b) = (vec![0; lengths.output_length], vec![0; lengths.output_length]);
        by_hand::render(&l, &file, &raw, &mut a);
        if run.has("render") {
            let times = both(
                || hamrisk::render(&l, &file, black_box(&raw), &mut b).unwrap(),
                || by_hand::render(&l, &file, black_box(&raw), black_box(&mut a)),
            );
            assert!(a == b, "render {kind}");
            run.line(&format!("render, {kind}"), size, a.len(), times, None);
        }
        if run.has("write_planes") && !l.palette && l.alpha != 1 {
            let (mut p, mut q) = (vec![0; raw.len()], vec![0; raw.len()]);
            let times = both(
                || hamrisk::write_planes(&l, black_box(&a), &mut p).unwrap(),
                || assert!(by_hand::write_planes(&l, black_box(&a), black_box(&mut q))),
            );
            assert!(p == q, "write_planes {kind}");
            run.line(&format!("write_planes, {kind}"), size, a.len(), times, None);
        }
    }
}

/// What a call costs that has next to nothing to do: the checks, the C interface and this crate's.
fn least(run: &Run) {
    let strip = Strip { row_bytes: 2, channels: 1, width: 2 };
    let coding = Coding { from: ByteOrder::Little, to: ByteOrder::Little, predict: false };
    let grey = Layout::grey(1, 1, ByteOrder::Little);
    let mut out = [0; 2];
    let mut file = [0; 199];
    println!("\n| call | ns |\n|---|---|");
    for (what, t) in [
        ("convert, nothing", seconds(|| hamrisk::convert(black_box(&[]), strip, coding, &mut out).unwrap())),
        ("swap_components, nothing", seconds(|| hamrisk::swap_components(black_box(&[]), 2, &mut out).unwrap())),
        ("marks, nothing", seconds(|| assert!(hamrisk::marks(black_box(&[]), strip, true, &mut out).is_ok()))),
        ("check_layout, one byte", seconds(|| assert!(hamrisk::check_layout(black_box(&grey)).is_ok()))),
        ("render, one byte", seconds(|| hamrisk::render(black_box(&grey), &[], &[7], &mut out).unwrap())),
        ("write_planes, one byte", seconds(|| hamrisk::write_planes(black_box(&grey), &[7], &mut out).unwrap())),
        (
            "write_file, one byte",
            seconds(|| assert!(hamrisk::write_file(black_box(&grey), 1, &[7], &mut file).is_ok())),
        ),
    ] {
        if run.has(what.split(',').next().unwrap()) {
            println!("| {what} | {:.1} |", t * 1e9);
        }
    }
}

/// libtiff reads predicted strips through Deflate; the same stream without prediction shows what its prediction alone costs.
fn predicted(run: &Run) {
    let Some(lib) = run.libtiff.as_ref().filter(|_| run.has("convert")) else { return };
    println!("\n| strip of about 1 MiB | convert, GB/s | libtiff through Deflate, GB/s | its prediction alone, GB/s | convert to the whole | to its prediction |");
    println!("|---|---|---|---|---|---|");
    for width in [1, 2, 4, 8] {
        for channels in [1, 3, 4] {
            let strip = Strip { row_bytes: 1024 * channels * width, channels, width };
            predicted_strip(lib, strip, false);
            if width > 1 {
                predicted_strip(lib, strip, true);
            }
        }
    }
}

fn predicted_strip(lib: &Libtiff, strip: Strip, swapped: bool) {
    let Strip { row_bytes, channels, width } = strip;
    let p = Picture { channels, width, rows: (1 << 20) / row_bytes, predict: true, swapped };
    let n = p.rows * row_bytes;
    let raw = noise(n, 3);
    let mut out = vec![0; n];
    let from = if swapped { ByteOrder::Big } else { ByteOrder::Little };
    let coding = Coding { from, to: ByteOrder::Little, predict: true };
    let ours = || hamrisk::convert(black_box(&raw), strip, coding, &mut out).unwrap();
    let (ours, theirs) = both(ours, lib.reader(p));
    let plain = seconds(lib.reader(Picture { predict: false, swapped: false, ..p }));
    let alone = (theirs - plain).max(1e-9);
    let rate = |t: f64| n as f64 / t / 1e9;
    print!("| {} | {:.2} | {:.2} | {:.2} ", geometry(strip, false, swapped), rate(ours), rate(theirs), rate(alone));
    println!("| {:.2} | {:.2} |", theirs / ours, alone / ours);
}

fn main() {
    let mut words = std::env::args().skip(1).filter(|w| w != "--bench");
    let only = words.next().unwrap_or_default();
    let given: Vec<usize> = words.map(|w| w.parse().expect("a size in bytes")).collect();
    let sizes = if given.is_empty() { vec![1 << 16, 1 << 20, 1 << 26] } else { given };
    let run = Run { only, sizes, libtiff: Libtiff::load(), lines: RefCell::new(vec![]) };
    for &size in &run.sizes {
        moved(&run, size);
        strips(&run, size);
        pictures(&run, size);
    }
    run.print();
    least(&run);
    predicted(&run);
    if run.has("packets") {
        packets::print();
    }
    if run.has("packbits, unpack_row, write_plan, pack_row") {
        packbits::print(run.libtiff.as_ref());
    }
    if run.has("reverse_bits") {
        reversal::print(run.libtiff.as_ref());
    }
    if run.has("read_directory, strip_places, strip_place") {
        directories::print(run.libtiff.as_ref());
    }
    if run.has("write_file") {
        files::print(run.libtiff.as_ref());
    }
}
