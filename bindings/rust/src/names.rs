//! The names of a book while it is written: each gets a number when it is first met, and its place among all at the end.

/// At most so many names stand in a book.
pub const MOST_NAMES: usize = 131_072;

/// A table has this many slots at first.
const SLOTS: usize = 64;

#[derive(Default)]
pub struct Names<'b> {
    /// In the order in which they were met, each beside its hash.
    met: Vec<(u64, &'b str)>,
    /// A name's number + 1 at the slot of its hash or the next free one behind it, 0 where a slot is free; a power of two of
    /// them, half of them free at least.
    slots: Vec<u32>,
}

impl<'b> Names<'b> {
    pub fn len(&self) -> usize {
        self.met.len()
    }

    pub fn name(&self, number: u64) -> &'b str {
        self.met[number as usize].1
    }

    /// The name's number for now, or why it is no name.
    pub fn number(&mut self, name: &'b str) -> Result<u64, String> {
        if 2 * self.met.len() >= self.slots.len() {
            self.spread((2 * self.slots.len()).max(SLOTS));
        }
        let hash = hash(name.as_bytes());
        let slot = self.slot(hash, Some(name));
        if let Some(number) = self.slots[slot].checked_sub(1) {
            return Ok(u64::from(number));
        }
        if name.is_empty() {
            return Err("an empty name".to_string());
        }
        if name.bytes().any(|byte| byte.is_ascii_control()) {
            return Err(format!("the name {name:?} has a control character"));
        }
        self.met.push((hash, name));
        self.slots[slot] = self.met.len() as u32;
        Ok(self.met.len() as u64 - 1)
    }

    /// The slot that has the name, or the first free one for its hash.
    fn slot(&self, hash: u64, name: Option<&str>) -> usize {
        let mask = self.slots.len() - 1;
        let mut slot = hash as usize & mask;
        while let Some(number) = self.slots[slot].checked_sub(1) {
            let (other, met) = self.met[number as usize];
            if other == hash && name == Some(met) {
                break;
            }
            slot = (slot + 1) & mask;
        }
        slot
    }

    /// Fills a table of so many slots anew.
    fn spread(&mut self, slots: usize) {
        self.slots.clear();
        self.slots.resize(slots, 0);
        self.met.reserve(slots / 2 - self.met.len());
        for number in 0..self.met.len() {
            let slot = self.slot(self.met[number].0, None);
            self.slots[slot] = number as u32 + 1;
        }
    }

    /// Forgets all but the first so many, the last one first: each frees the slot that it filled, which no name before it
    /// was put behind.
    pub fn truncate(&mut self, length: usize) {
        let mask = self.slots.len().saturating_sub(1);
        while self.met.len() > length {
            let mut slot = self.met[self.met.len() - 1].0 as usize & mask;
            while self.slots[slot] != self.met.len() as u32 {
                slot = (slot + 1) & mask;
            }
            self.slots[slot] = 0;
            self.met.pop();
        }
    }

    /// The bytes of all names, ascending, each ended by byte 10; and each number's place among them.
    pub fn sorted(&self) -> (Vec<u8>, Vec<u64>) {
        let mut order: Vec<(u64, usize)> = self.met.iter().map(|(_, name)| first_bytes(name)).zip(0..).collect();
        // The first bytes decide most of it.
        order.sort_unstable_by(|one, two| one.0.cmp(&two.0).then_with(|| self.met[one.1].1.cmp(self.met[two.1].1)));
        let mut bytes = Vec::with_capacity(self.met.iter().map(|(_, name)| name.len() + 1).sum());
        let mut places = vec![0; order.len()];
        for (place, (_, number)) in order.into_iter().enumerate() {
            bytes.extend_from_slice(self.met[number].1.as_bytes());
            bytes.push(b'\n');
            places[number] = place as u64;
        }
        (bytes, places)
    }
}

/// Eight bytes at a time by a multiplication. Names are no secret, and a book has a bound.
fn hash(bytes: &[u8]) -> u64 {
    let mix = |sum: u64, word: u64| (sum.rotate_left(23) ^ word).wrapping_mul(0x9e37_79b9_7f4a_7c15);
    let (words, rest) = bytes.as_chunks();
    let sum = words.iter().fold(0, |sum, word| mix(sum, u64::from_le_bytes(*word)));
    let last = rest.iter().fold(1, |last, byte| last << 8 | u64::from(*byte));
    let sum = mix(sum, last);
    sum ^ sum >> 32
}

/// The first eight bytes as a number of the same order; no name has a byte 0.
fn first_bytes(name: &str) -> u64 {
    name.bytes().chain(std::iter::repeat(0)).take(8).fold(0, |number, byte| number << 8 | u64::from(byte))
}
