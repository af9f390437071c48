//! A strip written to a `PacketWriter`: over inner writers that take little at a time, or fail.

use hamrisk::{converted, ByteOrder, Coding, PacketWriter, Refusal, Strip};
use std::io::{self, ErrorKind, Write};

const STRIP: Strip = Strip { row_bytes: 12, channels: 3, width: 2 };
const CODING: Coding = Coding { from: ByteOrder::Little, to: ByteOrder::Big, predict: true };

/// Bytes of so many rows.
fn rows(count: usize) -> Vec<u8> {
    (0..STRIP.row_bytes * count).map(|n| (n * n / 7) as u8).collect()
}

/// What came of a write: this many bytes, or this error.
type Step = Result<usize, ErrorKind>;

/// A writer that does as the steps say, from the last to the first, and then takes all.
#[derive(Default)]
struct Stubborn {
    steps: Vec<Step>,
    taken: Vec<u8>,
    flushes: usize,
}

impl Write for Stubborn {
    fn write(&mut self, bytes: &[u8]) -> io::Result<usize> {
        let step = self.steps.pop().unwrap_or(Ok(bytes.len()));
        let count = step.map_err(io::Error::from)?.min(bytes.len());
        self.taken.extend(&bytes[..count]);
        Ok(count)
    }

    fn flush(&mut self) -> io::Result<()> {
        self.flushes += 1;
        Ok(())
    }
}

/// More than one `write` takes, in pieces of each length.
#[test]
fn pieces_of_each_length() {
    let whole = rows(2_000);
    let expected = converted(&whole, STRIP, CODING).unwrap();
    for length in [1, 2, 3, 5, 12, 1_400, 8_191, 8_192, 8_193, whole.len()] {
        let mut writer = PacketWriter::new(STRIP, CODING, Vec::new()).unwrap();
        for piece in whole.chunks(length) {
            writer.write_all(piece).unwrap();
        }
        assert!(writer.finish().unwrap() == expected, "{length}");
    }
}

/// Short writes and interruptions of the inner writer cost no byte.
#[test]
fn short_writes_and_interruptions() {
    let whole = rows(20);
    let steps = (0..60).map(|n| if n % 3 == 0 { Err(ErrorKind::Interrupted) } else { Ok(1 + n % 5) }).collect();
    let mut writer = PacketWriter::new(STRIP, CODING, Stubborn { steps, ..Stubborn::default() }).unwrap();
    for piece in whole.chunks(7) {
        writer.write_all(piece).unwrap();
    }
    writer.flush().unwrap();
    let inner = writer.finish().unwrap();
    assert_eq!(inner.taken, converted(&whole, STRIP, CODING).unwrap());
    assert_eq!((inner.steps.len(), inner.flushes), (0, 2));
}

/// Each sample is handed on as soon as it is whole.
#[test]
fn samples_come_out_as_bytes_go_in() {
    let whole = rows(2);
    let expected = converted(&whole, STRIP, CODING).unwrap();
    for length in 0..=whole.len() {
        let mut samples = Vec::new();
        let mut writer = PacketWriter::new(STRIP, CODING, &mut samples).unwrap();
        for byte in &whole[..length] {
            assert_eq!(writer.write(&[*byte]).unwrap(), 1);
        }
        assert_eq!(samples, expected[..length / 2 * 2]);
    }
}

/// An error of the inner writer is told as it is, and the bytes that it befell may be written again.
#[test]
fn errors_take_no_bytes() {
    let whole = rows(2);
    let steps = vec![Err(ErrorKind::WouldBlock), Ok(0), Err(ErrorKind::StorageFull)];
    let mut writer = PacketWriter::new(STRIP, CODING, Stubborn { steps, ..Stubborn::default() }).unwrap();
    assert_eq!(writer.write(&whole[..1]).unwrap(), 1);
    for kind in [ErrorKind::StorageFull, ErrorKind::WriteZero, ErrorKind::WouldBlock] {
        let error = writer.write(&whole[1..]).unwrap_err();
        assert_eq!((error.kind(), error.downcast::<Refusal>().is_err()), (kind, true));
    }
    writer.write_all(&whole[1..]).unwrap();
    assert_eq!(writer.finish().unwrap().taken, converted(&whole, STRIP, CODING).unwrap());
}

#[test]
fn refusals() {
    let odd = Strip { width: 5, ..STRIP };
    assert_eq!(PacketWriter::new(odd, CODING, Vec::new()).unwrap_err(), Refusal::Unsupported);
    let mut inner = Stubborn::default();
    let mut writer = PacketWriter::new(STRIP, CODING, &mut inner).unwrap();
    writer.write_all(&rows(2)[..17]).unwrap();
    let Err(error) = writer.finish() else { panic!("a strip that ends amid a row is refused") };
    assert_eq!((error.kind(), error.to_string()), (ErrorKind::InvalidData, Refusal::Invalid.to_string()));
    assert_eq!(error.downcast::<Refusal>().unwrap(), Refusal::Invalid);
    assert_eq!((inner.taken, inner.flushes), (converted(&rows(2), STRIP, CODING).unwrap()[..16].to_vec(), 1));
    assert_eq!(PacketWriter::new(STRIP, CODING, Vec::new()).unwrap().finish().unwrap(), []);
}
