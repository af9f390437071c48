//! How a row is cut into PackBits packets.

/// The most bytes of a row that a packet has.
const MOST: usize = 128;

/// A packet of a [`Plan`], and of how many bytes of the row it is.
#[derive(Clone, Copy, Debug, PartialEq, Eq, Hash)]
pub enum Planned {
    /// 1 to 128 bytes as they are.
    Literal(u8),
    /// 2 to 128 bytes that are all equal.
    Repeat(u8),
}

/// How a row is packed by [`write_plan`](crate::write_plan): its packets, one after the other. Any may be put into a plan; whether
/// they fit a row is seen when it is written.
#[derive(Clone, Debug, Default, PartialEq, Eq, Hash)]
pub struct Plan {
    /// The header's `kinds` and `lengths`, one of each for a packet.
    kinds: Vec<u8>,
    lengths: Vec<u8>,
}

impl Plan {
    /// A plan that fits this row: a repeat wherever three bytes or more are equal, and literals between them. Two equal bytes
    /// stay in a literal, where they cost no more.
    ///
    /// ```
    /// use hamrisk::{Plan, Planned};
    ///
    /// let packets = [Planned::Literal(4), Planned::Repeat(3), Planned::Literal(1)];
    /// assert!(Plan::of(&[7, 7, 8, 8, 9, 9, 9, 7]).packets().eq(packets));
    /// ```
    pub fn of(row: &[u8]) -> Plan {
        let mut plan = Plan::default();
        let mut rest = row;
        while let Some(before) = rest.windows(3).position(|next| next[0] == next[1] && next[1] == next[2]) {
            plan.push_literals(before);
            rest = &rest[before..];
            let equal = rest.iter().take(MOST).take_while(|byte| **byte == rest[0]).count();
            plan.push(Planned::Repeat(equal as u8));
            rest = &rest[equal..];
        }
        plan.push_literals(rest.len());
        plan
    }

    /// Literals of so many bytes together.
    fn push_literals(&mut self, mut bytes: usize) {
        while bytes > 0 {
            let first = bytes.min(MOST);
            self.push(Planned::Literal(first as u8));
            bytes -= first;
        }
    }

    /// Puts a packet behind the others.
    pub fn push(&mut self, packet: Planned) {
        let (kind, length) = match packet {
            Planned::Literal(bytes) => (0, bytes),
            Planned::Repeat(bytes) => (1, bytes),
        };
        self.kinds.push(kind);
        self.lengths.push(length);
    }

    /// Its packets, the first one first.
    pub fn packets(&self) -> impl Iterator<Item = Planned> + '_ {
        let packet = |(&kind, &bytes)| if kind == 0 { Planned::Literal(bytes) } else { Planned::Repeat(bytes) };
        self.kinds.iter().zip(&self.lengths).map(packet)
    }

    /// The bytes that its packets are written as: one more than its own for a literal, two for a repeat.
    pub fn length(&self) -> usize {
        let length = |packet| match packet {
            Planned::Literal(bytes) => 1 + usize::from(bytes),
            Planned::Repeat(_) => 2,
        };
        self.packets().map(length).sum()
    }

    /// What the header calls `kinds` and `lengths`; both have a byte for each packet.
    pub(crate) fn kinds_and_lengths(&self) -> (&[u8], &[u8]) {
        (&self.kinds, &self.lengths)
    }
}

impl Extend<Planned> for Plan {
    fn extend<T: IntoIterator<Item = Planned>>(&mut self, packets: T) {
        packets.into_iter().for_each(|packet| self.push(packet));
    }
}

impl FromIterator<Planned> for Plan {
    fn from_iter<T: IntoIterator<Item = Planned>>(packets: T) -> Plan {
        let mut plan = Plan::default();
        plan.extend(packets);
        plan
    }
}

/// The bytes that [`pack_row`](crate::pack_row) writes of a row of so many bytes, and the most that [`packed`](crate::packed) does:
/// one more for each 128 that it begins.
///
/// ```
/// assert_eq!([0, 1, 128, 129].map(hamrisk::packed_length), [0, 2, 129, 131]);
/// ```
pub fn packed_length(row_bytes: usize) -> usize {
    row_bytes + row_bytes.div_ceil(MOST)
}
