//! A packed row: what is wrong with it, packet by packet.

use crate::Refusal;
use std::error::Error;

/// What is wrong with a packed row. As text it names the packet and the numbers at fault; places are counted from the first of
/// the bytes that the row stands in.
#[derive(Clone, Copy, Debug, PartialEq, Eq)]
#[allow(missing_docs)]
pub enum RowFault {
    /// The bytes end where a packet should begin.
    NoPacket { at: usize, filled: usize, row_bytes: usize },
    /// A packet has more bytes than are left of the row.
    PastRow { at: usize, bytes: usize, left: usize },
    /// The bytes end within a packet.
    PacketEnd { at: usize, takes: usize, end: usize },
}

impl RowFault {
    /// The refusal that it leads to.
    pub fn refusal(&self) -> Refusal {
        match self {
            RowFault::PastRow { .. } => Refusal::Invalid,
            RowFault::NoPacket { .. } | RowFault::PacketEnd { .. } => Refusal::Truncated,
        }
    }
}

impl Error for RowFault {}

/// Where a packed row of so many bytes ends that begins at byte `at`, or the first fault of its packets: that of
/// [`unpack_row`](crate::unpack_row) of the bytes from there.
///
/// ```
/// use hamrisk::{explain_row, RowFault};
///
/// let packed = [254, 9, 1, 7, 8];
/// assert_eq!(explain_row(&packed, 2, 2), Ok(5));
/// let fault = explain_row(&packed, 2, 1).unwrap_err();
/// assert_eq!(fault, RowFault::PastRow { at: 2, bytes: 2, left: 1 });
/// assert_eq!(fault.to_string(), "the packet at byte 2 has 2 bytes, and the row has room for 1");
/// ```
pub fn explain_row(packed: &[u8], mut at: usize, row_bytes: usize) -> Result<usize, RowFault> {
    let mut filled = 0;
    while filled < row_bytes {
        let (left, end) = (row_bytes - filled, packed.len());
        let (bytes, takes) = match packed.get(at).map(|&first| usize::from(first)) {
            None => return Err(RowFault::NoPacket { at, filled, row_bytes }),
            Some(n @ 0..128) => (n + 1, n + 2),
            Some(128) => (0, 1),
            Some(n) => (257 - n, 2),
        };
        if bytes > left {
            return Err(RowFault::PastRow { at, bytes, left });
        }
        if at + takes > end {
            return Err(RowFault::PacketEnd { at, takes, end });
        }
        filled += bytes;
        at += takes;
    }
    Ok(at)
}
