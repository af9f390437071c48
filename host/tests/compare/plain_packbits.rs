//! PackBits rows read and written plainly and slowly, a byte at a time, from the words of docs/RULES.md. It shares no code or
//! number with the library.

use crate::plain::{INVALID, OUTPUT_TOO_SMALL, TRUNCATED};

/// The row, and how many bytes of the input it takes.
pub fn unpack_row(packed: &[u8], row_bytes: usize) -> Result<(Vec<u8>, usize), u32> {
    let byte = |at: usize| packed.get(at).copied().ok_or(TRUNCATED);
    let (mut row, mut at) = (vec![], 0);
    while row.len() < row_bytes {
        let first = usize::from(byte(at)?);
        at += 1;
        if first == 128 {
            continue;
        }
        let is_literal = first < 128;
        let count = if is_literal { first + 1 } else { 257 - first };
        if row.len() + count > row_bytes {
            return Err(INVALID);
        }
        for k in 0..count {
            row.push(byte(if is_literal { at + k } else { at })?);
        }
        at += if is_literal { count } else { 1 };
    }
    Ok((row, at))
}

/// The packets of a plan.
pub fn write_plan(row: &[u8], kinds: &[u8], lengths: &[u8], room: usize) -> Result<Vec<u8>, u32> {
    if kinds.len() != lengths.len() {
        return Err(INVALID);
    }
    let (mut rest, mut out) = (row, vec![]);
    for (&kind, &length) in kinds.iter().zip(lengths) {
        if usize::from(length) > rest.len() {
            return Err(INVALID);
        }
        let (own, later) = rest.split_at(length.into());
        match (kind, length) {
            (0, 1..=128) => {
                out.push(length - 1);
                out.extend(own);
            }
            (1, 2..=128) if own.iter().all(|byte| *byte == own[0]) => {
                out.push((257 - u16::from(length)) as u8);
                out.push(own[0]);
            }
            _ => return Err(INVALID),
        }
        rest = later;
    }
    if !rest.is_empty() {
        return Err(INVALID);
    }
    with_room(out, room)
}

/// The literals of a row.
pub fn pack_row(row: &[u8], room: usize) -> Result<Vec<u8>, u32> {
    let mut out = vec![];
    for (n, &byte) in row.iter().enumerate() {
        if n % 128 == 0 {
            let own = (row.len() - n).min(128);
            out.push(own as u8 - 1);
        }
        out.push(byte);
    }
    with_room(out, room)
}

fn with_room(out: Vec<u8>, room: usize) -> Result<Vec<u8>, u32> {
    if out.len() > room {
        Err(OUTPUT_TOO_SMALL)
    } else {
        Ok(out)
    }
}
