//! The sample layer of TIFF, proved: the pages and strips of a file, words, byte swaps, bit reversal, predicted samples
//! read, all at once or as they arrive, and written, PackBits rows, damage marks, layouts, pictures rendered from planes and
//! written to them, and files of planes.
//!
//! Each call here hands the caller's slices to a function of the library in `crates/capi`, which is proved to meet its
//! promise on every input: it ends, stays within its slices, and refuses in a fixed order. A refusal writes nothing. A
//! call that is done writes the stated bytes at the front of its output and leaves the bytes past them as they were.
//! The numbers that are served stand in [`limits`]. Nothing is allocated, but for the calls that answer a `Vec`:
//! [`converted`], [`forwarded`], [`marked`], [`unpacked`], [`packed`], [`rendered`], [`written`], [`written_file`] and
//! [`placed`]; a [`Plan`]; [`explain`], which says what the refusal of a file is about; [`skipped`], which says what to be
//! wary of; and [`picture`] and [`samples`], which need no more than a file:
//!
//! ```no_run
//! let shelf = hamrisk::picture(&std::fs::read("shelf.tif")?, 0)?;
//! println!("{} × {}: {:?}", shelf.page.layout.w, shelf.page.layout.h, &shelf.bytes[..4]);
//! # Ok::<(), Box<dyn std::error::Error>>(())
//! ```
//!
//! Each step is there by itself too:
//!
//! ```
//! use hamrisk::{converted, ByteOrder, Coding, Refusal, Strip};
//!
//! // A row of three samples of two bytes, each stored as what it adds to the one before it.
//! let raw = [0x01, 0x00, 0x02, 0x00, 0xFF, 0xFF];
//! let strip = Strip { row_bytes: 6, channels: 1, width: 2 };
//! let coding = Coding { from: ByteOrder::Little, to: ByteOrder::Big, predict: true };
//! assert_eq!(converted(&raw, strip, coding)?, [0x00, 0x01, 0x00, 0x03, 0x00, 0x02]);
//! assert_eq!(converted(&raw[..5], strip, coding), Err(Refusal::Invalid));
//! # Ok::<(), Refusal>(())
//! ```
//!
//! A strip that arrives in pieces goes through [`Packets`] a piece at a time, or through a [`PacketWriter`], to which it is
//! written, as `hamrisk stream` does. Both take the same memory however long the strip is.

#![warn(missing_docs)]
#![deny(unsafe_code)]

mod advice;
#[allow(unsafe_code)]
mod ffi;
pub mod limits;
mod owned;
mod packets;
mod pages;
mod plan;
mod reading;
mod types;

pub use advice::advised_rows_per_strip;
pub use ffi::{
    check_layout, check_strip, commit, convert, file_length, forward, index, load, marks, pack_row, read_directory,
    read_word, render, reverse_bits, strip, strip_place, strip_places, swap_components, unpack_row, write_file,
    write_plan, write_planes, Packets,
};
pub use owned::{converted, forwarded, marked, packed, rendered, unpacked, written, written_file};
pub use packets::PacketWriter;
pub use pages::{picture, placed, samples, Picture, Samples};
pub use plan::{packed_length, Plan, Planned};
pub use reading::{
    explain, explain_layout, explain_row, explain_strip, skipped, Fault, LayoutFault, Reading, RowFault, Skipped,
    StripFault, TagFault,
};
pub use types::{ByteAt, ByteOrder, Coding, Compression, Derived, Layout, Page, Refusal, SampleAt, Strip};
