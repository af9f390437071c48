//! Buffers lent to a call: each lies between two margins, and what a call may not change is checked afterwards.

use crate::random::Random;

pub struct Lent {
    all: Vec<u8>,
    before: Vec<u8>,
    from: usize,
    to: usize,
}

impl Lent {
    /// A buffer of these bytes, at any alignment, between margins of 32 to 63 bytes.
    pub fn of(random: &mut Random, content: &[u8]) -> Lent {
        let (front, back) = (32 + random.below(32), 32 + random.below(32));
        let mut all = vec![0xC5; front];
        all.extend_from_slice(content);
        all.resize(front + content.len() + back, 0x5C);
        Lent { before: all.clone(), all, from: front, to: front + content.len() }
    }

    /// A buffer of random bytes, to be written.
    pub fn room(random: &mut Random, length: usize) -> Lent {
        let content = random.bytes(length);
        Lent::of(random, &content)
    }

    pub fn bytes(&self) -> &[u8] {
        &self.all[self.from..self.to]
    }

    pub fn bytes_mut(&mut self) -> &mut [u8] {
        &mut self.all[self.from..self.to]
    }

    /// Nothing has changed, within or around.
    #[track_caller]
    pub fn assert_kept(&self) {
        assert!(self.all == self.before, "a byte that was not to be written has changed");
    }

    /// These bytes stand at the front, and nothing else has changed.
    #[track_caller]
    pub fn assert_front(&self, expected: &[u8]) {
        assert_eq!(&self.bytes()[..expected.len()], expected);
        let end = self.from + expected.len();
        assert!(self.all[..self.from] == self.before[..self.from], "a byte before the buffer has changed");
        assert!(self.all[end..] == self.before[end..], "a byte past the written ones has changed");
    }

    /// The whole outcome: the answer is the expected one, and so is the buffer, which a refusal leaves as it was.
    #[track_caller]
    pub fn assert_outcome(&self, answer: Result<(), u32>, expected: Result<Vec<u8>, u32>) {
        match expected {
            Ok(bytes) => {
                assert_eq!(answer, Ok(()));
                self.assert_front(&bytes);
            }
            Err(refusal) => {
                assert_eq!(answer, Err(refusal));
                self.assert_kept();
            }
        }
    }
}

#[test]
#[should_panic = "past the written ones"]
fn a_byte_past_the_written_ones_is_seen() {
    let mut lent = Lent::of(&mut Random::new(40), &[1, 2, 3]);
    lent.bytes_mut()[2] = 4;
    lent.assert_front(&[1, 2]);
}

#[test]
#[should_panic = "before the buffer"]
fn a_byte_before_the_buffer_is_seen() {
    let mut lent = Lent::of(&mut Random::new(41), &[1, 2, 3]);
    lent.all[lent.from - 1] = 4;
    lent.assert_front(&[1, 2]);
}

#[test]
#[should_panic = "not to be written"]
fn a_byte_past_the_buffer_is_seen() {
    let mut lent = Lent::of(&mut Random::new(42), &[1, 2, 3]);
    lent.all[lent.to] = 4;
    lent.assert_kept();
}
