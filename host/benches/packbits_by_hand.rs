//! PackBits rows as one would write them by hand in safe Rust: with the faults found before the first byte is written, and
//! without.

/// What a packet has by its first byte: bytes of the row, and of the input.
fn sizes(first: u8) -> (usize, usize) {
    match usize::from(first) {
        n @ 0..128 => (n + 1, n + 2),
        128 => (0, 1),
        n => (257 - n, 2),
    }
}

/// The bytes that a row takes, if all of it is there and no packet passes its end.
fn used(packed: &[u8], row_bytes: usize) -> Option<usize> {
    let (mut at, mut filled) = (0, 0);
    while filled < row_bytes {
        let (bytes, takes) = sizes(*packed.get(at)?);
        filled += bytes;
        at += takes;
        if filled > row_bytes || at > packed.len() {
            return None;
        }
    }
    Some(at)
}

/// Looks at every packet, then fills the row.
pub fn unpack_row_checked(packed: &[u8], row: &mut [u8]) -> Option<usize> {
    let used = used(packed, row.len())?;
    unpack_row(packed, row)?;
    Some(used)
}

/// Fills the row as far as it can.
pub fn unpack_row(packed: &[u8], row: &mut [u8]) -> Option<usize> {
    let (mut at, mut filled) = (0, 0);
    while filled < row.len() {
        let first = *packed.get(at)?;
        let (bytes, takes) = sizes(first);
        let part = row.get_mut(filled..filled + bytes)?;
        if first < 128 {
            part.copy_from_slice(packed.get(at + 1..at + takes)?);
        } else if first > 128 {
            part.fill(*packed.get(at + 1)?);
        }
        filled += bytes;
        at += takes;
    }
    Some(at)
}

/// Whether a plan keeps the rules of a row and has room; then its packets.
pub fn write_plan_checked(row: &[u8], kinds: &[u8], lengths: &[u8], out: &mut [u8]) -> Option<usize> {
    let (mut rest, mut room) = (row, out.len());
    for (&kind, &length) in kinds.iter().zip(lengths) {
        let (own, later) = rest.split_at_checked(length.into())?;
        let (good, bytes) = match kind {
            0 => ((1..=128).contains(&length), own.len() + 1),
            1 => ((2..=128).contains(&length) && own[1..] == own[..own.len() - 1], 2),
            _ => (false, 0),
        };
        room = room.checked_sub(bytes).filter(|_| good)?;
        rest = later;
    }
    rest.is_empty().then(|| write_plan(row, kinds, lengths, out))
}

/// The packets of a plan that fits.
pub fn write_plan(row: &[u8], kinds: &[u8], lengths: &[u8], out: &mut [u8]) -> usize {
    let (mut rest, mut to) = (row, 0);
    for (&kind, &length) in kinds.iter().zip(lengths) {
        let (own, later) = rest.split_at(length.into());
        if kind == 0 {
            to = put_literal(own, out, to);
        } else {
            out[to..to + 2].copy_from_slice(&[(257 - own.len()) as u8, own[0]]);
            to += 2;
        }
        rest = later;
    }
    to
}

/// A row as repeats of three equal bytes and more, and literals, without a plan.
pub fn pack_runs(row: &[u8], out: &mut [u8]) -> usize {
    let (mut rest, mut to) = (row, 0);
    while let Some(before) = rest.windows(3).position(|next| next[0] == next[1] && next[1] == next[2]) {
        to += pack_row(&rest[..before], &mut out[to..]);
        rest = &rest[before..];
        let equal = rest.iter().take(128).take_while(|byte| **byte == rest[0]).count();
        out[to..to + 2].copy_from_slice(&[(257 - equal) as u8, rest[0]]);
        (rest, to) = (&rest[equal..], to + 2);
    }
    to + pack_row(rest, &mut out[to..])
}

/// Literals of 128 bytes and a shorter last one.
pub fn pack_row(row: &[u8], out: &mut [u8]) -> usize {
    row.chunks(128).fold(0, |to, part| put_literal(part, out, to))
}

fn put_literal(part: &[u8], out: &mut [u8], to: usize) -> usize {
    let end = to + 1 + part.len();
    out[to] = (part.len() - 1) as u8;
    out[to + 1..end].copy_from_slice(part);
    end
}
