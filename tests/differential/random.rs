// Defines a small seeded generator (splitmix64) and the choices that the histories make with it.
// Assumes nothing.

pub struct Random(pub u64);

impl Random {
    pub fn next(&mut self) -> u64 {
        self.0 = self.0.wrapping_add(0x9e37_79b9_7f4a_7c15);
        let mut mixed = self.0;
        mixed = (mixed ^ mixed >> 30).wrapping_mul(0xbf58_476d_1ce4_e5b9);
        mixed = (mixed ^ mixed >> 27).wrapping_mul(0x94d0_49bb_1331_11eb);
        mixed ^ mixed >> 31
    }

    /// A number below `limit`, 0 if that is 0.
    pub fn below(&mut self, limit: usize) -> usize {
        if limit == 0 { 0 } else { (self.next() % limit as u64) as usize }
    }

    pub fn percent(&mut self, chance: usize) -> bool {
        self.below(100) < chance
    }

    pub fn pick<T: Copy>(&mut self, values: &[T]) -> T {
        values[self.below(values.len())]
    }

    pub fn byte(&mut self) -> u8 {
        self.next() as u8
    }

    pub fn fill(&mut self, bytes: &mut [u8]) {
        for chunk in bytes.chunks_mut(8) {
            let word = self.next().to_le_bytes();
            chunk.copy_from_slice(&word[..chunk.len()]);
        }
    }

    /// Bytes of one of several kinds: any, without zeros, all zeros, few zeros, many zeros, all ff.
    pub fn bytes(&mut self, length: usize) -> Vec<u8> {
        let kind = self.below(6);
        self.bytes_of(kind, length)
    }

    pub fn bytes_of(&mut self, kind: usize, length: usize) -> Vec<u8> {
        let mut bytes = vec![0; length];
        self.fill(&mut bytes);
        let (zeros, of) = match kind {
            0 => return bytes,
            1 => (0, 1),
            2 => return vec![0; length],
            3 => (1, 200),
            4 => (1, 3),
            _ => return vec![0xff; length],
        };
        for byte in &mut bytes {
            if *byte == 0 {
                *byte = 1;
            }
            if self.below(of) < zeros {
                *byte = 0;
            }
        }
        bytes
    }
}
