//! Annotations and their arguments at random.

use super::Maker;
use crate::format::kind;

/// The words that annotations know.
const WORDS: &str = "varint zigzag delta limit deprecated doc";
/// Names that differ little from such a word, are known elsewhere, or are empty.
const NEAR_WORDS: &str = " Varint varin varints zigzagg zig Delta delt limits limi deprecate \
    Deprecated docs do Doc reason type limit\0";
/// Keys of arguments; length 0 is "no key".
const KEYS: &str = " reason reasons Reason reaso max limit reason\0";
/// Numbers next to a limit of `@limit`.
const LENGTHS: [u64; 10] = [
    0,
    0,
    1,
    16_777_215,
    16_777_216,
    16_777_217,
    1 << 32,
    (1 << 32) + 1,
    1 << 63,
    u64::MAX,
];

impl Maker {
    /// Adds up to `most` annotations with their arguments.
    pub fn annotations(&mut self, most: usize) {
        for _ in 0..self.random.between(0, most) {
            let name = match self.random.below(10) {
                0..=6 => self.random.word_of(WORDS).to_vec(),
                7 | 8 => self.random.word_of(NEAR_WORDS).to_vec(),
                _ => self.pool_name(),
            };
            self.named(kind::ANNOTATION, 0, &name);
            let arguments = match name.as_slice() {
                b"limit" | b"deprecated" => *self.random.pick(&[0, 1, 1, 1, 2, 3]),
                _ => *self.random.pick(&[0, 0, 0, 1]),
            };
            (0..arguments).for_each(|_| self.argument());
        }
    }

    fn argument(&mut self) {
        let key = if self.random.chance(55) {
            b""
        } else {
            self.random.word_of(KEYS)
        };
        let sub = if self.random.chance(60) {
            self.random.below(2)
        } else {
            self.random.below(6)
        };
        let value = *self.random.pick(&LENGTHS);
        self.named(kind::ARGUMENT, sub as u8, key).value = value;
    }
}
