//! `hamrisk demo`: a shelf of depth samples, a lost packet, what a plain reader makes of it, and what the marks say.

use crate::args::Args;
use crate::failure::Failure;
use crate::{files, pictures};
use hamrisk::{forwarded, load, marked, ByteOrder, Coding, Layout, Packets, Refusal, SampleAt, Strip};
use std::fs;
use std::path::{Path, PathBuf};

/// Columns and rows of the shelf, a depth sample of two bytes at each place.
const W: usize = 72;
const H: usize = 24;

const STRIP: Strip = Strip { row_bytes: 2 * W, channels: 1, width: 2 };
const CODING: Coding = Coding { from: ByteOrder::Little, to: ByteOrder::Little, predict: true };

/// Millimetres to the back of the shelf, where it is bare; anything nearer than `FULL` is goods.
const BACK: u16 = 3000;
const FULL: u16 = 2700;

/// Boxes on the shelf: columns from, to; rows from, to; millimetres to the front of the box.
const BOXES: [(usize, usize, usize, usize, u16); 6] = [
    (3, 15, 3, 11, 1400),
    (18, 27, 5, 11, 900),
    (54, 66, 2, 11, 1900),
    (6, 24, 15, 23, 1200),
    (33, 39, 17, 23, 2300),
    (48, 69, 14, 23, 1600),
];

/// The strip travels in packets of this many bytes, and this one is lost.
const PACKET: usize = 300;
const LOST: usize = 4;

/// Columns that one letter stands for, and pixels of a picture for each sample.
const LETTER: usize = 3;
const ZOOM: usize = 8;

pub fn run(args: &Args) -> Result<(), Failure> {
    let folder = args.value("to").map_or_else(|| std::env::temp_dir().join("hamrisk-demo"), PathBuf::from);
    let story = Story::new().map_err(refused)?;
    story.write_pictures(&folder)?;
    files::print(&story.text(&folder))
}

fn refused(refusal: Refusal) -> Failure {
    Failure::refused("demo", refusal, None)
}

/// Depths as they were and as a plain reader has them, and which of these are marked.
struct Story {
    sent: Vec<u16>,
    read: Vec<u16>,
    marks: Vec<u8>,
    count: usize,
}

impl Story {
    fn new() -> Result<Story, Refusal> {
        let sent = shelf();
        let samples: Vec<u8> = sent.iter().flat_map(|depth| depth.to_le_bytes()).collect();
        let words = forwarded(&samples, STRIP, CODING)?;
        let mut damage = vec![0; words.len()];
        damage[LOST * PACKET..(LOST + 1) * PACKET].fill(1);
        let arrived = received(&words)?;
        let read = (0..W * H).map(|n| load(&arrived, SampleAt(n), true, ByteOrder::Little).map(|v| v as u16));
        let (marks, count) = marked(&damage, STRIP, CODING.predict)?;
        Ok(Story { sent, read: read.collect::<Result<_, _>>()?, marks, count })
    }

    /// How many places fit: each is told its depth as sent and as read, and whether it is marked.
    fn places(&self, fits: impl Fn(u16, u16, bool) -> bool) -> usize {
        let depths = self.sent.iter().zip(&self.read).zip(&self.marks);
        depths.filter(|((&sent, &read), &mark)| fits(sent, read, mark == 1)).count()
    }

    fn text(&self, folder: &Path) -> String {
        let wrong = self.places(|sent, read, _| sent != read);
        let filled = self.places(|sent, read, _| sent >= FULL && read < FULL);
        let hidden = self.places(|sent, read, mark| sent != read && !mark);
        let own = PACKET / STRIP.width;
        format!(
            "A shelf of {W} × {H} depth samples of 16 bits, sent predicted, in packets of {PACKET} bytes.\n\
             Packet {LOST} was lost; the reader has zeros in its place.\n\n\
             {}\n\
             #  goods    .  bare    !  beyond the back of the shelf    ?  marked\n\n\
             {own} samples were in the packet, but {wrong} came out wrong: each sample of a row rests on those before it.\n\
             {filled} bare places came out full: an order planned from this reading would leave them bare.\n\
             {} samples are marked; {hidden} came out wrong without a mark.\n\n\
             Pictures: shelf, plain and marks, each as .pgm and as .tif, in {}\n",
            self.drawing(),
            self.count,
            folder.display()
        )
    }

    /// The shelf as sent, as read, and as read with what is marked left out, beside each other.
    fn drawing(&self) -> String {
        let wide = W / LETTER;
        let mut text =
            format!("{:wide$}   {:wide$}   {:wide$}\n", "as sent", "what a plain reader has", "what the marks say");
        for y in 0..H {
            let row =
                |letter: &dyn Fn(usize) -> char| (0..wide).map(|x| letter(y * W + x * LETTER + 1)).collect::<String>();
            let sent = row(&|n| letter(self.sent[n]));
            let read = row(&|n| letter(self.read[n]));
            let told = row(&|n| if self.marks[n] == 1 { '?' } else { letter(self.read[n]) });
            text += &format!("{sent}   {read}   {told}\n");
        }
        text
    }

    fn write_pictures(&self, folder: &Path) -> Result<(), Failure> {
        fs::create_dir_all(folder).map_err(|error| Failure::file(folder, error))?;
        let shades = |depths: &[u16]| depths.iter().map(|&depth| shade(depth)).collect();
        let mut marks = self.marks.clone();
        pictures::white_where_marked(&mut marks);
        write_picture(&folder.join("shelf"), shades(&self.sent))?;
        write_picture(&folder.join("plain"), shades(&self.read))?;
        write_picture(&folder.join("marks"), marks)
    }
}

/// The samples that a receiver has who converts each packet as it comes, and zeros in place of the lost one.
fn received(words: &[u8]) -> Result<Vec<u8>, Refusal> {
    let mut packets = Packets::start(STRIP, CODING.back())?;
    let mut samples = vec![0; words.len()];
    let mut written = 0;
    for (number, packet) in words.chunks(PACKET).enumerate() {
        let came = if number == LOST { &[0; PACKET][..packet.len()] } else { packet };
        written += packets.piece(came, &mut samples[written..])?;
    }
    packets.close()?;
    Ok(samples)
}

/// The depth at each place.
fn shelf() -> Vec<u16> {
    let mut depths = vec![BACK; W * H];
    for (from, to, top, bottom, depth) in BOXES {
        for y in top..bottom {
            depths[y * W + from..y * W + to].fill(depth);
        }
    }
    depths
}

fn letter(depth: u16) -> char {
    match depth {
        ..FULL => '#',
        FULL..=BACK => '.',
        _ => '!',
    }
}

/// Near is bright; at the back and beyond it is black.
fn shade(depth: u16) -> u8 {
    255 - (u32::from(depth.min(BACK)) * 255 / u32::from(BACK)) as u8
}

/// A grey picture with `ZOOM` × `ZOOM` pixels for each place, as a PGM and as a TIFF of this name.
fn write_picture(name: &Path, places: Vec<u8>) -> Result<(), Failure> {
    let (w, h) = (W * ZOOM, H * ZOOM);
    let zoomed = |row: &[u8]| row.iter().flat_map(|&v| [v; ZOOM]).collect::<Vec<u8>>().repeat(ZOOM);
    let pixels: Vec<u8> = places.chunks(W).flat_map(zoomed).collect();
    let tiff = pictures::tiff(&Layout::grey(w, h, ByteOrder::Little), &pixels).map_err(refused)?;
    files::write(&name.with_extension("pgm"), &[pictures::header(false, w, h, 1).as_bytes(), &pixels])?;
    files::write(&name.with_extension("tif"), &[&tiff])
}
