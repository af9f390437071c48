//! The commands over the pages of a TIFF file: info, picture, samples.

use crate::args::Args;
use crate::facts::{self, Placed};
use crate::failure::Failure;
use crate::files;
use crate::pictures::Form;
use hamrisk::{
    check_layout, explain, explain_layout, placed, read_directory, skipped, strip_place, ByteOrder, Page, Refusal,
};
use std::io::{stderr, Write};

/// A file, and which page of it is asked for.
struct Asked {
    call: &'static str,
    file: Vec<u8>,
    page: usize,
}

impl Asked {
    fn new(args: &Args, call: &'static str) -> Result<Asked, Failure> {
        let page = args.number_or("page", 0)?;
        Ok(Asked { call, file: files::read(args.file(0))?, page })
    }

    fn found(&self) -> Result<Page, Failure> {
        read_directory(&self.file, self.page).map_err(|refusal| self.refused(refusal))
    }

    /// What the second reading of the file has of the page's directory, where that is in order.
    fn directory(&self) -> Option<Page> {
        let (layout, predictor, compression, strips) = explain_layout(&self.file, self.page).ok()?;
        let derived = check_layout(&layout).ok()?;
        Some(Page { layout, derived, predict: predictor == 2, strips, compression })
    }

    /// The strips of a page that is found.
    fn sound_strips(&self) -> Result<Vec<Placed>, Failure> {
        let strips = placed(&self.file, self.page).map_err(|refusal| self.refused(refusal))?;
        Ok(strips.into_iter().map(Ok).collect())
    }

    /// The strips of a page of which one is refused, each for itself.
    fn each_strip(&self, strips: usize) -> Vec<Placed> {
        (0..strips).map(|k| strip_place(&self.file, self.page, k)).collect()
    }

    /// The library's refusal, with what the second reading of the file names as its cause.
    fn refused(&self, refusal: Refusal) -> Failure {
        let fault = match explain(&self.file, self.page) {
            Err(fault) if fault.refusal() == refusal => fault.to_string(),
            other => facts::disagreement(other.err()),
        };
        Failure::refused(self.call, refusal, Some((refusal, fault)))
    }

    /// Says on standard error which tags are not looked at, though they give what is written another meaning.
    fn warn(&self) {
        for tag in skipped(&self.file, self.page) {
            // That it cannot be told is no reason to end with another status.
            let _ = writeln!(stderr(), "hamrisk: warning: {tag}");
        }
    }

    /// The refusal of a page that is in order, but for which there is no memory.
    fn too_large(&self, refusal: Refusal, bytes: usize) -> Failure {
        Failure::refused(self.call, refusal, Some((Refusal::Limit, format!("there is no memory for {bytes} bytes"))))
    }
}

pub fn info(args: &Args) -> Result<(), Failure> {
    let asked = Asked::new(args, "info")?;
    let found = asked.found();
    // What the directory says is still true where a strip is not sound.
    let (page, strips) = match &found {
        Ok(page) => (*page, asked.sound_strips()?),
        Err(_) => match asked.directory() {
            Some(page) => (page, asked.each_strip(page.strips)),
            None => return found.map(|_| ()),
        },
    };
    let mut text = facts::of_page(&asked.file, asked.page, &page, &strips);
    if args.has("strips") {
        text += &facts::of_strips(&asked.file, asked.page, &strips);
    }
    files::print(&text)?;
    found.map(|_| ())
}

pub fn picture(args: &Args) -> Result<(), Failure> {
    let asked = Asked::new(args, "picture")?;
    let page = asked.found()?;
    let form = Form::asked(args.file(1), args.has("pnm"), &page.layout).map_err(|what| args.wrong(what.into()))?;
    let needed = page.derived.scratch_length + page.derived.output_length;
    let picture = hamrisk::picture(&asked.file, asked.page).map_err(|refusal| asked.too_large(refusal, needed))?;
    let (header, bytes) =
        form.of_rendered(&page.layout, picture.bytes).map_err(|refusal| Failure::refused("picture", refusal, None))?;
    asked.warn();
    files::write(args.file(1), &[header.as_bytes(), &bytes])
}

pub fn samples(args: &Args) -> Result<(), Failure> {
    let asked = Asked::new(args, "samples")?;
    let page = asked.found()?;
    let order = order(args, &page)?;
    let samples = hamrisk::samples(&asked.file, asked.page, order)
        .map_err(|refusal| asked.too_large(refusal, page.derived.scratch_length))?;
    asked.warn();
    files::write(args.file(1), &[&samples.bytes])
}

/// Has to be said of samples of two bytes, as a wrong guess would swap every one without a word.
fn order(args: &Args, page: &Page) -> Result<ByteOrder, Failure> {
    match args.order("to")? {
        Some(order) => Ok(order),
        None if page.layout.bytes > 1 => {
            Err(args.wrong("--to is missing: samples of 16 bits want a byte order, le or be".into()))
        }
        // Samples of one byte are the same in both orders.
        None => Ok(ByteOrder::Little),
    }
}

#[cfg(test)]
mod tests {
    use super::*;

    /// A refusal that the second reading does not account for is told as such, with its own number.
    #[test]
    fn a_disagreement_is_a_fault_of_ours() {
        let asked = Asked { call: "picture", file: b"II*\0".to_vec(), page: 0 };
        let told = |refusal| asked.refused(refusal).to_string();
        assert!(!told(Refusal::Truncated).contains("fault of hamrisk"));
        let text = told(Refusal::Limit);
        assert!(text.starts_with("picture refused: 5 Limit: "), "{text}");
        assert!(text.contains("finds 3 Truncated: ") && text.contains("fault of hamrisk"), "{text}");
        assert_eq!(asked.refused(Refusal::Limit).status(), 5);
    }
}
