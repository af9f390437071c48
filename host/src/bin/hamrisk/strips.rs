//! The commands over strips and plain bytes: convert, stream, forward, marks, swap, reverse.

use crate::args::Args;
use crate::failure::Failure;
use crate::progress::{Progress, LARGE, PIECE};
use crate::{faults, files, pictures};
use hamrisk::{check_strip, ByteOrder, Coding, PacketWriter, Refusal, Strip};
use std::io::{self, Write};

type Transform = fn(&[u8], Strip, Coding, &mut [u8]) -> Result<(), Refusal>;

pub fn convert(args: &Args) -> Result<(), Failure> {
    transform(args, "convert", hamrisk::convert)
}

pub fn forward(args: &Args) -> Result<(), Failure> {
    transform(args, "forward", hamrisk::forward)
}

fn transform(args: &Args, name: &'static str, call: Transform) -> Result<(), Failure> {
    let (strip, coding) = strip_and_coding(args)?;
    let raw = files::read(args.file(0))?;
    let mut out = vec![0; raw.len()];
    check_strip(raw.len(), strip)
        .and_then(|()| {
            let row = Unit { input: strip.row_bytes, output: strip.row_bytes };
            by_pieces(name, row, &raw, &mut out, |raw, out| call(raw, strip, coding, out))
        })
        .map_err(|refusal| Failure::refused(name, refusal, faults::of_strip(raw.len(), strip)))?;
    files::write(args.file(1), &[&out])
}

/// Converts what comes on standard input as it comes: the samples of each read are written before the next one.
pub fn stream(args: &Args) -> Result<(), Failure> {
    let (strip, coding) = strip_and_coding(args)?;
    let mut came = 0;
    let stopped = |error: io::Error, came| match error.downcast() {
        Ok(refusal) => Failure::refused("stream", refusal, faults::of_stream(came, strip)),
        Err(error) => files::output_failed(error),
    };
    let mut samples =
        PacketWriter::new(strip, coding, io::stdout().lock()).map_err(|refusal| stopped(refusal.into(), 0))?;
    files::read_stream(|bytes| {
        came += bytes.len();
        samples.write_all(bytes).and_then(|()| samples.flush()).map_err(|error| stopped(error, came))
    })?;
    samples.finish().map(drop).map_err(|error| stopped(error, came))
}

pub fn marks(args: &Args) -> Result<(), Failure> {
    let (strip, predict) = (strip(args)?, predict(args)?);
    let damage = files::read(args.file(0))?;
    let (mut marks, count) = marked(&damage, strip, predict)
        .map_err(|refusal| Failure::refused("marks", refusal, faults::of_strip(damage.len(), strip)))?;
    let (samples, rows) = (strip.row_bytes / strip.width, damage.len() / strip.row_bytes);
    let mut header = String::new();
    if args.has("pgm") {
        header = pictures::header(false, samples, rows, 1);
        pictures::white_where_marked(&mut marks);
    }
    files::write(args.file(1), &[header.as_bytes(), &marks])?;
    files::print_beside(args.file(1), &format!("{count} of {} samples marked\n", marks.len()))
}

fn marked(damage: &[u8], strip: Strip, predict: bool) -> Result<(Vec<u8>, usize), Refusal> {
    check_strip(damage.len(), strip)?;
    let mut marks = vec![0; damage.len() / strip.width];
    let mut count = 0;
    let row = Unit { input: strip.row_bytes, output: strip.row_bytes / strip.width };
    by_pieces("marks", row, damage, &mut marks, |damage, marks| {
        count += hamrisk::marks(damage, strip, predict, marks)?;
        Ok(())
    })?;
    Ok((marks, count))
}

pub fn swap(args: &Args) -> Result<(), Failure> {
    let width = args.number("width")?;
    let raw = files::read(args.file(0))?;
    let mut out = vec![0; raw.len()];
    let group = Unit { input: width.max(1), output: width.max(1) };
    by_pieces("swap", group, &raw, &mut out, |raw, out| hamrisk::swap_components(raw, width, out))
        .map_err(|refusal| Failure::refused("swap", refusal, faults::of_swap(raw.len(), width)))?;
    files::write(args.file(1), &[&out])
}

pub fn reverse(args: &Args) -> Result<(), Failure> {
    let mut bytes = files::read(args.file(0))?;
    let mut progress = Progress::new("reverse", bytes.len());
    for piece in bytes.chunks_mut(PIECE) {
        hamrisk::reverse_bits(piece);
        progress.advance(piece.len());
    }
    files::write(args.file(1), &[&bytes])
}

/// The bytes of input that no piece may cut, and the bytes of output that they give.
struct Unit {
    input: usize,
    output: usize,
}

/// Large work done a piece at a time, so that its progress can be shown: units do not depend on each other.
fn by_pieces(
    what: &'static str,
    unit: Unit,
    input: &[u8],
    out: &mut [u8],
    mut call: impl FnMut(&[u8], &mut [u8]) -> Result<(), Refusal>,
) -> Result<(), Refusal> {
    if input.len() <= LARGE {
        return call(input, out);
    }
    let units = (PIECE / unit.input).max(1);
    let mut progress = Progress::new(what, input.len());
    for (input, out) in input.chunks(units * unit.input).zip(out.chunks_mut(units * unit.output)) {
        call(input, out)?;
        progress.advance(input.len());
    }
    Ok(())
}

fn strip(args: &Args) -> Result<Strip, Failure> {
    Ok(Strip { row_bytes: args.number("row-bytes")?, channels: args.number("channels")?, width: args.number("width")? })
}

fn strip_and_coding(args: &Args) -> Result<(Strip, Coding), Failure> {
    let strip = strip(args)?;
    let (from, to) = (order(args, "from", strip.width)?, order(args, "to", strip.width)?);
    Ok((strip, Coding { from, to, predict: predict(args)? }))
}

/// Has to be said of samples of more than one byte, as a wrong guess would swap every one without a word.
fn order(args: &Args, name: &str, width: usize) -> Result<ByteOrder, Failure> {
    match args.order(name)? {
        Some(order) => Ok(order),
        None if width > 1 => {
            Err(args.wrong(format!("--{name} is missing: width {width} wants a byte order, le or be")))
        }
        // Samples of one byte are the same in both orders.
        None => Ok(ByteOrder::Little),
    }
}

/// Has to be said, as a wrong guess would bend every row without a word.
fn predict(args: &Args) -> Result<bool, Failure> {
    let said = args.either("predict", "no-predict")?;
    said.ok_or_else(|| args.wrong("one of --predict and --no-predict is wanted".into()))
}
