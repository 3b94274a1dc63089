// The generator of drawn numbers, as the gate's programs have it.

/// A generator whose state has 31 bits.
#[derive(Clone)]
pub struct Draw {
    state: u64,
}

impl Draw {
    /// The generator at its start.
    pub fn new() -> Draw {
        Draw::from_state(1)
    }

    /// The generator at this state.
    pub fn from_state(state: u64) -> Draw {
        Draw { state }
    }

    /// Takes a step; the answer is the upper sixteen bits of the state.
    pub fn sixteen_bits(&mut self) -> u16 {
        self.state = (self.state * 1103515245 + 12345) % (1 << 31);
        (self.state >> 15) as u16
    }

    /// So many bytes, two a step, the lower of them first.
    pub fn bytes(&mut self, count: usize) -> Vec<u8> {
        let steps = count.div_ceil(2);
        let mut bytes: Vec<u8> = (0..steps)
            .flat_map(|_| self.sixteen_bits().to_le_bytes())
            .collect();
        bytes.truncate(count);
        bytes
    }

    /// So many words of 32 bits, two steps a word, the lower half first.
    pub fn words(&mut self, count: usize) -> Vec<u32> {
        (0..count)
            .map(|_| self.sixteen_bits() as u32 | (self.sixteen_bits() as u32) << 16)
            .collect()
    }
}
