//! The commands over PackBits rows: pack, unpack.

use crate::args::Args;
use crate::failure::Failure;
use crate::progress::{Progress, PIECE};
use crate::{faults, files};
use hamrisk::limits::{Served, MOST_STRIP_BYTES};
use hamrisk::{pack_row, packed, packed_length, unpack_row, Refusal};

/// What the bytes of a row may be: no strip has a longer one.
pub const ROW_BYTES: Served = Served::FromTo(1, MOST_STRIP_BYTES);

pub fn pack(args: &Args) -> Result<(), Failure> {
    let row_bytes = row_bytes(args)?;
    let rows = files::read(args.file(0))?;
    if let Some(fault) = faults::of_rows(rows.len(), row_bytes) {
        return Err(Failure::refused("pack", fault.0, Some(fault)));
    }
    let mut out = Vec::new();
    let mut progress = Progress::new("pack", rows.len());
    for piece in rows.chunks((PIECE / row_bytes).max(1) * row_bytes) {
        for row in piece.chunks(row_bytes) {
            if args.has("literal") {
                put_literals(row, &mut out).map_err(|refusal| Failure::refused("pack", refusal, None))?;
            } else {
                out.extend(packed(row));
            }
        }
        progress.advance(piece.len());
    }
    files::write(args.file(1), &[&out])
}

/// Puts the literals of a row behind the rows before it.
fn put_literals(row: &[u8], out: &mut Vec<u8>) -> Result<(), Refusal> {
    let from = out.len();
    out.resize(from + packed_length(row.len()), 0);
    pack_row(row, &mut out[from..]).map(drop)
}

pub fn unpack(args: &Args) -> Result<(), Failure> {
    let row_bytes = row_bytes(args)?;
    let packed = files::read(args.file(0))?;
    let (mut row, mut out) = (vec![0; row_bytes], Vec::new());
    let mut progress = Progress::new("unpack", packed.len());
    let (mut at, mut shown) = (0, 0);
    while at < packed.len() {
        let used = unpack_row(&packed[at..], &mut row).map_err(|refusal| {
            let number = out.len() / row_bytes;
            Failure::refused("unpack", refusal, faults::of_packed_row(&packed, at, number, row_bytes))
        })?;
        out.try_reserve(row_bytes).map_err(|_| too_large(out.len() + row_bytes))?;
        out.extend_from_slice(&row);
        at += used;
        if at - shown >= PIECE {
            progress.advance(at - shown);
            shown = at;
        }
    }
    files::write(args.file(1), &[&out])
}

/// Rows that are in order, but for which there is no memory.
fn too_large(bytes: usize) -> Failure {
    let fault = (Refusal::Limit, format!("there is no memory for {bytes} bytes"));
    Failure::refused("unpack", Refusal::Limit, Some(fault))
}

fn row_bytes(args: &Args) -> Result<usize, Failure> {
    let given = args.number("row-bytes")?;
    if ROW_BYTES.has(given) {
        Ok(given)
    } else {
        Err(args.wrong(format!("--row-bytes wants {ROW_BYTES}, not {given}")))
    }
}
