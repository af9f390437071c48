//! A strip written a piece at a time to a `Write`.

use crate::{Coding, Packets, Refusal, Strip};
use std::fmt;
use std::io::{self, Write};

/// The most bytes that one `write` takes.
const PIECE: usize = 8 << 10;

/// The room of their samples: the bytes of an unfinished one may stand before them.
const ROOM: usize = PIECE + 7;

/// A `Write` that takes the bytes of a strip and writes its samples to another one, each as soon as it is whole. Nothing
/// is held back but the bytes of an unfinished sample, and nothing is allocated.
///
/// A `write` hands all samples that its bytes complete to the inner writer before it returns. If it fails, it has taken
/// none of its bytes: the strip is as it was, and the same bytes may be written again. The error is
/// - a [`Refusal`], Limit, if the strip would pass 1,073,741,824 bytes; `get_ref` and `downcast` of the error give it back,
///   and the inner writer was given nothing;
/// - else that of the inner writer's `write_all`, which leaves open how many of the samples were written.
///
/// ```
/// use hamrisk::{ByteOrder, Coding, PacketWriter, Strip};
/// use std::io::Write;
///
/// let strip = Strip { row_bytes: 6, channels: 1, width: 2 };
/// let coding = Coding { from: ByteOrder::Little, to: ByteOrder::Big, predict: true };
/// let mut writer = PacketWriter::new(strip, coding, Vec::new())?;
/// for packet in [&[0x01, 0x00, 0x02][..], &[0x00, 0xFF], &[0xFF]] {
///     writer.write_all(packet)?;
/// }
/// assert_eq!(writer.finish()?, [0x00, 0x01, 0x00, 0x03, 0x00, 0x02]);
/// # Ok::<(), Box<dyn std::error::Error>>(())
/// ```
pub struct PacketWriter<W> {
    packets: Packets,
    inner: W,
    samples: [u8; ROOM],
}

impl<W: Write> PacketWriter<W> {
    /// A strip of which nothing has come, whose samples go to `inner`.
    ///
    /// Refuses: as [`check_strip`](crate::check_strip) of no bytes.
    pub fn new(strip: Strip, coding: Coding, inner: W) -> Result<PacketWriter<W>, Refusal> {
        Ok(PacketWriter { packets: Packets::start(strip, coding)?, inner, samples: [0; ROOM] })
    }

    /// Flushes the inner writer, asks whether the strip may end here, and gives the inner writer back. The error is that
    /// of the flush, or else a [`Refusal`], Invalid, if the strip ends amid a row; its whole samples are written then too.
    /// Hand `new` a `&mut` to keep the inner writer after an error.
    ///
    /// ```
    /// use hamrisk::{ByteOrder::Big, Coding, PacketWriter, Refusal, Strip};
    /// use std::io::Write;
    ///
    /// let mut samples = Vec::new();
    /// let strip = Strip { row_bytes: 4, channels: 1, width: 2 };
    /// let mut writer = PacketWriter::new(strip, Coding { from: Big, to: Big, predict: true }, &mut samples)?;
    /// writer.write_all(&[0, 1, 0])?;
    /// let error = writer.finish().unwrap_err();
    /// assert_eq!(error.downcast::<Refusal>()?, Refusal::Invalid);
    /// assert_eq!(samples, [0, 1]);
    /// # Ok::<(), Box<dyn std::error::Error>>(())
    /// ```
    pub fn finish(mut self) -> io::Result<W> {
        self.inner.flush()?;
        self.packets.close()?;
        Ok(self.inner)
    }
}

impl<W: Write> Write for PacketWriter<W> {
    fn write(&mut self, bytes: &[u8]) -> io::Result<usize> {
        let piece = &bytes[..bytes.len().min(PIECE)];
        let mut after = self.packets.clone();
        let written = after.piece(piece, &mut self.samples)?;
        self.inner.write_all(&self.samples[..written])?;
        self.packets = after;
        Ok(piece.len())
    }

    fn flush(&mut self) -> io::Result<()> {
        self.inner.flush()
    }
}

impl<W: fmt::Debug> fmt::Debug for PacketWriter<W> {
    fn fmt(&self, f: &mut fmt::Formatter) -> fmt::Result {
        f.debug_struct("PacketWriter").field("inner", &self.inner).finish_non_exhaustive()
    }
}
