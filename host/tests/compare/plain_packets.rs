//! A strip in pieces read plainly and slowly, a byte at a time: what the numbers of a state say, which numbers are a state,
//! and what a piece makes of them. It shares no code or number with the library.

use crate::plain::{check_strip, digits, number, Flags, INVALID, LIMIT, OUTPUT_TOO_SMALL};
use hamrisk::{ByteOrder, Strip};

/// The numbers of a state.
pub const NUMBERS: usize = 80;

pub type Numbers = [u64; NUMBERS];

/// The most bytes of a strip.
pub const MOST: u64 = 1_073_741_824;

/// A strip that is open.
struct Open {
    strip: Strip,
    flags: Flags,
    received: u64,
    /// The bytes of the unfinished word.
    word: Vec<u8>,
    /// The last sample of each channel in the unfinished row, 0 where there is none or without prediction.
    last: [u128; 64],
}

fn order(number: u64) -> ByteOrder {
    if number == 1 {
        ByteOrder::Little
    } else {
        ByteOrder::Big
    }
}

/// Whether a start and pieces lead to these numbers.
fn is_state(numbers: &Numbers) -> bool {
    let [row_bytes, channels, width] = [0, 1, 2].map(|at| numbers[at] as usize);
    if check_strip(0, Strip { row_bytes, channels, width }).is_err() {
        return false;
    }
    let (predict, received) = (numbers[4], numbers[6]);
    let begun = received % width as u64;
    let in_row = received / width as u64 % (row_bytes / width) as u64;
    let below = |value: u64, bytes: u64| 256u64.checked_pow(bytes as u32).is_none_or(|end| value < end);
    let has_last = |j: u64| predict == 1 && j < channels as u64 && j < in_row;
    let last_fits = |j: u64| below(numbers[8 + j as usize], if has_last(j) { width as u64 } else { 0 });
    numbers[3..6].iter().all(|&flag| flag < 2)
        && received <= MOST
        && below(numbers[7], begun)
        && (0..64).all(last_fits)
        && numbers[72..].iter().all(|&unused| unused == 0)
}

impl Open {
    fn read(numbers: &Numbers) -> Result<Open, u32> {
        if !is_state(numbers) {
            return Err(INVALID);
        }
        let [row_bytes, channels, width] = [0, 1, 2].map(|at| numbers[at] as usize);
        let begun = numbers[6] as usize % width;
        Ok(Open {
            strip: Strip { row_bytes, channels, width },
            flags: Flags { from: order(numbers[3]), predict: numbers[4] == 1, to: order(numbers[5]) },
            received: numbers[6],
            word: digits(numbers[7].into(), begun, ByteOrder::Little),
            last: std::array::from_fn(|j| numbers[8 + j].into()),
        })
    }

    fn numbers(&self) -> Numbers {
        let mut numbers = started(self.strip, self.flags);
        numbers[6] = self.received;
        numbers[7] = number(&self.word, ByteOrder::Little) as u64;
        for (number, &last) in numbers[8..].iter_mut().zip(&self.last) {
            *number = last as u64;
        }
        numbers
    }

    /// Takes a byte; answers the sample that it completes, stored, or nothing.
    fn take(&mut self, byte: u8) -> Vec<u8> {
        let Strip { row_bytes, channels, width } = self.strip;
        self.word.push(byte);
        self.received += 1;
        if self.word.len() < width {
            return vec![];
        }
        let mut sample = number(&self.word, self.flags.from);
        self.word.clear();
        if self.flags.predict {
            let in_row = (self.received as usize - width) % row_bytes / width;
            let last = &mut self.last[in_row % channels];
            sample = (sample + *last) % 256u128.pow(width as u32);
            *last = sample;
        }
        if self.received % row_bytes as u64 == 0 {
            self.last = [0; 64];
        }
        digits(sample, width, self.flags.to)
    }
}

/// The state of a strip that has this geometry and of which nothing has come.
fn started(strip: Strip, flags: Flags) -> Numbers {
    let mut numbers = [0; NUMBERS];
    let [le, out_le] = [flags.from, flags.to].map(|order| u64::from(order == ByteOrder::Little));
    let Strip { row_bytes, channels, width } = strip;
    let front = [row_bytes as u64, channels as u64, width as u64, le, flags.predict.into(), out_le];
    numbers[..6].copy_from_slice(&front);
    numbers
}

/// The status, and the numbers that are left.
pub fn start(strip: Strip, flags: Flags) -> (u32, Numbers) {
    match check_strip(0, strip) {
        Ok(()) => (0, started(strip, flags)),
        Err(refusal) => (refusal, [0; NUMBERS]),
    }
}

/// The samples that are written, and the numbers after them.
pub fn piece(numbers: &Numbers, bytes: &[u8], room: usize) -> Result<(Vec<u8>, Numbers), u32> {
    let mut open = Open::read(numbers)?;
    if open.received + bytes.len() as u64 > MOST {
        return Err(LIMIT);
    }
    let samples: Vec<u8> = bytes.iter().flat_map(|&byte| open.take(byte)).collect();
    if samples.len() > room {
        return Err(OUTPUT_TOO_SMALL);
    }
    Ok((samples, open.numbers()))
}

pub fn close(numbers: &Numbers) -> Result<(), u32> {
    let open = Open::read(numbers)?;
    if open.received % open.strip.row_bytes as u64 == 0 {
        Ok(())
    } else {
        Err(INVALID)
    }
}
