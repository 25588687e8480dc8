//! Names of one kind with the numbers they stand for.

const SLOTS: usize = 512;

/// At most 256 names, found by hashing with linear probing.
pub struct Names<'a> {
    /// Position in `names` plus 1, or 0.
    slots: [u16; SLOTS],
    names: Vec<(&'a [u8], u8)>,
}

impl<'a> Names<'a> {
    pub fn new() -> Names<'a> {
        Names { slots: [0; SLOTS], names: Vec::with_capacity(SLOTS / 2) }
    }

    pub fn clear(&mut self) {
        if !self.names.is_empty() {
            self.slots.fill(0);
            self.names.clear();
        }
    }

    pub fn find(&self, name: &[u8]) -> Option<u8> {
        self.probe(name).ok()
    }

    /// Adds a name; false if it was there.
    pub fn add(&mut self, name: &'a [u8], number: u8) -> bool {
        let Err(slot) = self.probe(name) else {
            return false;
        };
        self.names.push((name, number));
        self.slots[slot] = self.names.len() as u16;
        true
    }

    /// The name's number, or the free slot where it belongs.
    fn probe(&self, name: &[u8]) -> Result<u8, usize> {
        let mut slot = hash(name) % SLOTS;
        while self.slots[slot] != 0 {
            let (other, number) = self.names[self.slots[slot] as usize - 1];
            if other == name {
                return Ok(number);
            }
            slot = (slot + 1) % SLOTS;
        }
        Err(slot)
    }
}

/// Mixes eight bytes at a time.
fn hash(name: &[u8]) -> usize {
    const K: u64 = 0x9e37_79b9_7f4a_7c15;
    let mix = |h: u64, word: u64| (h ^ word).wrapping_mul(K).rotate_left(29);
    let (words, rest) = name.as_chunks::<8>();
    let h = words.iter().fold(name.len() as u64, |h, word| mix(h, u64::from_le_bytes(*word)));
    let last = rest.iter().fold(0, |last, &b| last << 8 | u64::from(b));
    (mix(h, last).wrapping_mul(K) >> 40) as usize
}
