//! What is known of a page of a TIFF file, a line for each fact.

use hamrisk::limits::MOST_PAGES;
use hamrisk::{explain, explain_row, explain_strip, skipped, ByteOrder, Compression, Fault, Layout, Page, Refusal};
use std::ops::Range;

/// What became of a strip: its place, or why it is refused.
pub type Placed = Result<Range<usize>, Refusal>;

/// The facts of page `number` of a file; its strips stand or fall each for itself.
pub fn of_page(file: &[u8], number: usize, page: &Page, strips: &[Placed]) -> String {
    let l = &page.layout;
    let mut facts = vec![
        ("byte order", byte_order(l.order).into()),
        ("pages", pages(file)),
        ("page", number.to_string()),
        ("columns", l.w.to_string()),
        ("rows", l.h.to_string()),
        ("samples", samples(l).to_string()),
        ("bits", bits(l).to_string()),
        ("colours", colours(page)),
        ("planes", if l.separate { "apart" } else { "together" }.into()),
        ("alpha", alpha(l.alpha).into()),
        ("compression", compression(page.compression).into()),
        ("predictor", if page.predict { "2 (each sample less the one a pixel before it)" } else { "1 (none)" }.into()),
        ("strips", sound(strips)),
    ];
    facts.extend(rows(file, page, strips).map(|rows| ("rows of a strip", rows)));
    facts.push(("row bytes", page.geometry().row_bytes.to_string()));
    facts.push(("bytes of the samples", page.derived.scratch_length.to_string()));
    facts.push(("bytes of the picture", page.derived.output_length.to_string()));
    facts.extend(skipped(file, number).iter().map(|tag| ("not looked at", tag.to_string())));
    facts.iter().map(|(name, value)| format!("{name}: {value}\n")).collect()
}

fn byte_order(order: ByteOrder) -> &'static str {
    match order {
        ByteOrder::Little => "le (II)",
        ByteOrder::Big => "be (MM)",
    }
}

/// How many pages there are, as far as the chain of directories is sound and read.
fn pages(file: &[u8]) -> String {
    let last = MOST_PAGES - 1;
    match explain(file, last) {
        Err(Fault::NoPage { pages, .. }) => pages.to_string(),
        Err(
            fault @ (Fault::NoCount { page, .. }
            | Fault::EntryLimit { page, .. }
            | Fault::DirectoryEnd { page, .. }
            | Fault::TagOrder { page, .. }),
        ) => format!("{page}, then no more can be read ({fault})"),
        _ => format!("{MOST_PAGES} or more; only so many are read"),
    }
}

/// Samples of a pixel, as the file has them.
fn samples(l: &Layout) -> usize {
    if l.palette {
        1
    } else {
        l.ch
    }
}

fn bits(l: &Layout) -> usize {
    8 * l.bytes / l.slots
}

fn colours(page: &Page) -> String {
    let l = &page.layout;
    match (l.palette, l.ch) {
        (true, _) => format!("a palette of {} at byte {}", page.derived.colours, l.map),
        (false, 3..) => "red, green, blue".into(),
        (false, _) => format!("grey, 0 is {}", if l.white { "white" } else { "black" }),
    }
}

fn alpha(kind: usize) -> &'static str {
    match kind {
        0 => "0 (none)",
        1 => "1 (the colours are multiplied by it)",
        _ => "2 (the colours are not multiplied by it)",
    }
}

fn compression(kind: Compression) -> &'static str {
    match kind {
        Compression::None => "1 (none)",
        Compression::PackBits => "32773 (PackBits, each row on its own)",
    }
}

fn sound(strips: &[Placed]) -> String {
    match (strips.len(), strips.iter().flatten().count()) {
        (all, sound) if sound == all => all.to_string(),
        (all, 1) => format!("{all}, of which 1 is sound"),
        (all, sound) => format!("{all}, of which {sound} are sound"),
    }
}

/// The rows of each strip, where all are sound.
fn rows(file: &[u8], page: &Page, strips: &[Placed]) -> Option<String> {
    let places: Vec<&Range<usize>> = strips.iter().map(|place| place.as_ref().ok()).collect::<Option<_>>()?;
    let [first, last] = [places.first()?, places.last()?].map(|place| rows_of(file, page, place));
    Some(if first == last { first.to_string() } else { format!("{first}, the last {last}") })
}

/// The rows of a sound strip.
fn rows_of(file: &[u8], page: &Page, place: &Range<usize>) -> usize {
    let row_bytes = page.geometry().row_bytes;
    match page.compression {
        Compression::None => place.len() / row_bytes,
        Compression::PackBits => {
            let next = |at: &usize| explain_row(&file[..place.end], *at, row_bytes).ok();
            std::iter::successors(next(&place.start), next).count()
        }
    }
}

/// A line for each strip: its place and length, or what is wrong with it.
pub fn of_strips(file: &[u8], number: usize, strips: &[Placed]) -> String {
    let line = |(k, place): (usize, &Placed)| match place {
        Ok(place) => format!("strip {k}: place {}, length {}\n", place.start, place.len()),
        Err(refusal) => format!("{} ({} {refusal:?})\n", of_strip(file, number, k, *refusal), refusal.number()),
    };
    strips.iter().enumerate().map(line).collect()
}

fn of_strip(file: &[u8], number: usize, k: usize, refusal: Refusal) -> String {
    match explain_strip(file, number, k) {
        Err(fault) if fault.refusal() == refusal => fault.to_string(),
        other => format!("strip {k}: {}", disagreement(other.err())),
    }
}

/// What is said where the second reading of a file does not find the fault for which the library refuses it.
pub fn disagreement(fault: Option<Fault>) -> String {
    let found = fault.map_or("no fault".into(), |fault| {
        let refusal = fault.refusal();
        format!("{} {refusal:?}: {fault}", refusal.number())
    });
    format!(
        "the second reading of the file, which names the tag or strip, finds {found}; this is a fault of hamrisk: please report it"
    )
}
