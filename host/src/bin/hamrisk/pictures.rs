//! Pictures as TIFF, PGM, PPM and PAM files, which most viewers show.

use hamrisk::{advised_rows_per_strip, written, written_file, ByteOrder, Layout, Refusal};
use std::path::Path;

/// What a picture is written as.
#[derive(Clone, Copy)]
pub enum Form {
    /// Its bytes alone.
    Bytes,
    /// A PGM if it is grey, a PPM if it has three colours; alpha is left out.
    Pnm,
    /// A PAM, which has room for alpha.
    Pam,
    /// A TIFF, which has room for alpha.
    Tiff,
}

impl Form {
    /// What is asked for by `--pnm` or by the name of a file, or why a picture of this layout is not written as that.
    pub fn asked(out: &Path, pnm: bool, layout: &Layout) -> Result<Form, &'static str> {
        let ending = out.extension().map(|ending| ending.to_string_lossy().to_lowercase());
        match (ending.as_deref(), has_colours(layout)) {
            _ if pnm => Ok(Form::Pnm),
            (Some("pnm"), _) | (Some("pgm"), false) | (Some("ppm"), true) => Ok(Form::Pnm),
            (Some("pgm"), true) => Err("a .pgm is grey, and this picture has colours: call OUT .ppm or .pnm"),
            (Some("ppm"), false) => Err("a .ppm has colours, and this picture is grey: call OUT .pgm or .pnm"),
            (Some("pam"), _) => Ok(Form::Pam),
            (Some("tif" | "tiff"), _) if layout.alpha == 0 && [2, 4].contains(&layout.ch) => {
                Err("a .tif has two or four channels with alpha alone: call OUT .pam")
            }
            (Some("tif" | "tiff"), _) => Ok(Form::Tiff),
            // Bytes alone under such a name would be taken for a damaged file.
            (Some("bmp" | "gif" | "jpeg" | "jpg" | "pbm" | "png" | "webp"), _) => {
                Err("such a file is not written: call OUT .tif, .pgm, .ppm, .pnm or .pam to look at it")
            }
            _ => Ok(Form::Bytes),
        }
    }

    /// The header of a rendered picture, and its bytes; a TIFF is told as bytes alone.
    pub fn of_rendered(self, layout: &Layout, picture: Vec<u8>) -> Result<(String, Vec<u8>), Refusal> {
        Ok(match self {
            Form::Bytes => (String::new(), picture),
            Form::Pnm => without_alpha(layout, picture),
            Form::Pam => (pam_header(layout), picture),
            Form::Tiff => (String::new(), tiff(layout, &picture)?),
        })
    }
}

/// A TIFF file of a rendered picture.
pub fn tiff(layout: &Layout, picture: &[u8]) -> Result<Vec<u8>, Refusal> {
    let layout = layout_of_tiff(layout);
    let planes = written(&layout, picture)?;
    written_file(&layout, advised_rows_per_strip(&layout)?, &planes)
}

/// How a TIFF holds a rendered picture: planes together, 0 black, colours not multiplied by alpha; bilevel stays so.
fn layout_of_tiff(layout: &Layout) -> Layout {
    let Layout { w, h, ch, bytes, .. } = *layout;
    let slots = if layout.palette { 1 } else { layout.slots };
    let alpha = if layout.alpha == 0 { 0 } else { 2 };
    Layout { ch, bytes, slots, alpha, ..Layout::grey(w, h, ByteOrder::Little) }
}

fn has_colours(layout: &Layout) -> bool {
    layout.ch > 2
}

/// The largest value of a channel.
fn most(bytes: usize) -> usize {
    if bytes == 2 {
        65_535
    } else {
        255
    }
}

/// The header of a picture of `w` × `h` pixels: grey (PGM) or of three colours (PPM), of bytes or of two bytes each.
pub fn header(colours: bool, w: usize, h: usize, bytes: usize) -> String {
    let kind = if colours { "P6" } else { "P5" };
    format!("{kind}\n{w} {h}\n{}\n", most(bytes))
}

fn pam_header(layout: &Layout) -> String {
    let Layout { w, h, ch, bytes, .. } = *layout;
    let kind = match (ch, layout.alpha) {
        (1, _) => "TUPLTYPE GRAYSCALE\n",
        (3, _) => "TUPLTYPE RGB\n",
        (2, 1..) => "TUPLTYPE GRAYSCALE_ALPHA\n",
        (4, 1..) => "TUPLTYPE RGB_ALPHA\n",
        _ => "",
    };
    format!("P7\nWIDTH {w}\nHEIGHT {h}\nDEPTH {ch}\nMAXVAL {}\n{kind}ENDHDR\n", most(bytes))
}

/// Marks as a picture's bytes: white where a sample is marked.
pub fn white_where_marked(marks: &mut [u8]) {
    for mark in marks {
        *mark *= 255;
    }
}

/// The header and the bytes of a PGM or PPM, which has no alpha: it is left out.
fn without_alpha(layout: &Layout, picture: Vec<u8>) -> (String, Vec<u8>) {
    let Layout { w, h, ch, bytes, .. } = *layout;
    let header = header(has_colours(layout), w, h, bytes);
    let kept = if has_colours(layout) { 3 } else { 1 };
    if kept == ch {
        return (header, picture);
    }
    let pixels = picture.chunks_exact(ch * bytes);
    (header, pixels.flat_map(|pixel| &pixel[..kept * bytes]).copied().collect())
}
