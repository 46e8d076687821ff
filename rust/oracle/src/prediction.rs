//! Stands in for the source's hasher, which is not at hand: eight bytes at a time, by turning and
//! multiplying. The row pools ask only which rows are equal, so any hasher gives the same answers.

use std::hash::Hasher;

#[derive(Clone, Copy, Debug, Default)]
pub struct PredictionFxHasher(u64);

impl Hasher for PredictionFxHasher {
    fn write(&mut self, bytes: &[u8]) {
        let (eights, rest) = bytes.as_chunks();
        let mut last = [0; 8];
        last[..rest.len()].copy_from_slice(rest);
        for &eight in eights.iter().chain((!rest.is_empty()).then_some(&last)) {
            self.write_u64(u64::from_le_bytes(eight));
        }
    }

    fn write_u64(&mut self, word: u64) {
        self.0 = (self.0.rotate_left(5) ^ word).wrapping_mul(0x517C_C1B7_2722_0A95);
    }

    fn write_usize(&mut self, word: usize) {
        self.write_u64(word as u64);
    }

    fn finish(&self) -> u64 {
        self.0
    }
}
