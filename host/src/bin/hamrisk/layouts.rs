//! The commands over pictures and their planes: render, planes, wrap.

use crate::args::Args;
use crate::failure::Failure;
use crate::pictures::Form;
use crate::{faults, files};
use hamrisk::{advised_rows_per_strip, rendered, written, written_file, ByteOrder, Layout};
use std::path::Path;

pub fn render(args: &Args) -> Result<(), Failure> {
    let layout = layout(args)?;
    let form = Form::asked(args.file(1), args.has("pnm"), &layout).map_err(|what| args.wrong(what.into()))?;
    let file = palette_file(args, &layout)?;
    let raw = files::read(args.file(0))?;
    let picture = rendered(&layout, &file, &raw)
        .map_err(|refusal| Failure::refused("render", refusal, faults::of_render(&layout, file.len(), raw.len())))?;
    let (header, bytes) =
        form.of_rendered(&layout, picture).map_err(|refusal| Failure::refused("render", refusal, None))?;
    files::write(args.file(1), &[header.as_bytes(), &bytes])
}

pub fn planes(args: &Args) -> Result<(), Failure> {
    let layout = layout(args)?;
    let picture = files::read(args.file(0))?;
    let planes = written(&layout, &picture)
        .map_err(|refusal| Failure::refused("planes", refusal, faults::of_planes(&layout, &picture)))?;
    files::write(args.file(1), &[&planes])
}

pub fn wrap(args: &Args) -> Result<(), Failure> {
    let layout = layout(args)?;
    // A layout that is refused is so with any number of rows.
    let advised = advised_rows_per_strip(&layout).unwrap_or(1);
    let rows = args.number_or("rows-per-strip", advised)?;
    let planes = files::read(args.file(0))?;
    let file = written_file(&layout, rows, &planes)
        .map_err(|refusal| Failure::refused("wrap", refusal, faults::of_file(&layout, rows, planes.len())))?;
    files::write(args.file(1), &[&file])
}

fn layout(args: &Args) -> Result<Layout, Failure> {
    let (bytes, palette) = (args.number_or("bytes", 1)?, args.has("palette"));
    Ok(Layout {
        w: args.number("w")?,
        h: args.number("h")?,
        ch: args.number_or("ch", 1)?,
        bytes,
        slots: args.number_or("slots", 1)?,
        palette,
        separate: args.has("separate"),
        order: order(args, bytes, palette)?,
        white: args.has("white"),
        alpha: args.number_or("alpha", 0)?,
        map: args.number_or("map", 0)?,
    })
}

/// Has to be said of channels of more than one byte and of a palette, whose colours have two, as a wrong guess would swap
/// every one without a word.
fn order(args: &Args, bytes: usize, palette: bool) -> Result<ByteOrder, Failure> {
    let missing = |what: &str| args.wrong(format!("--le or --be is missing: {what} wants a byte order"));
    match args.either("le", "be")? {
        Some(true) => Ok(ByteOrder::Little),
        Some(false) => Ok(ByteOrder::Big),
        None if bytes > 1 => Err(missing(&format!("bytes {bytes}"))),
        None if palette => Err(missing("a palette, with 2 bytes to a colour,")),
        // Channels of one byte are the same in both orders.
        None => Ok(ByteOrder::Little),
    }
}

/// The file that has the palette: wanted with one, and only then.
fn palette_file(args: &Args, layout: &Layout) -> Result<Vec<u8>, Failure> {
    match (layout.palette, args.value("file").map(Path::new)) {
        (false, None) => Ok(Vec::new()),
        (true, Some(path)) if files::is_stream(path) && files::is_stream(args.file(0)) => {
            Err(args.wrong("IN and --file are both -, and standard input can be read only once".into()))
        }
        (true, Some(path)) => files::read(path),
        (true, None) => Err(args.wrong("--palette wants --file, which has the colours".into())),
        (false, Some(_)) => Err(args.wrong("--file is for a palette; --palette is missing".into())),
    }
}
