//! The hash of docs/replay-format.md: h = 0, then for each byte h = (h × 16777619 + byte + 1) mod
//! 4294967291.

/// 2^32 − 5.
const MODULUS: u64 = 4_294_967_291;

/// A list of bytes being hashed.
#[derive(Clone, Copy, Default)]
pub(super) struct Hash(u64);

impl Hash {
    pub(super) fn byte(&mut self, byte: u8) {
        // 2^32 is 5 modulo the modulus, so the high part counts five times. What is kept stays
        // below 2^33 and the product below 2^58; the exact remainder is taken at the end.
        let product = self.0 * 16_777_619 + u64::from(byte) + 1;
        self.0 = (product & 0xFFFF_FFFF) + 5 * (product >> 32);
    }

    pub(super) fn bytes(mut self, bytes: &[u8]) -> Hash {
        bytes.iter().for_each(|&byte| self.byte(byte));
        self
    }

    pub(super) fn value(self) -> u64 {
        self.0 % MODULUS
    }
}

pub(super) fn of_bytes(bytes: &[u8]) -> u64 {
    Hash::default().bytes(bytes).value()
}

/// Two lists of one length, in one walk: each waits for its own byte before, not for the other's.
pub(super) fn of_two(one: &[u8], other: &[u8]) -> (u64, u64) {
    assert_eq!(one.len(), other.len(), "lists of one length");
    let mut hashes = (Hash::default(), Hash::default());
    for (&a, &b) in one.iter().zip(other) {
        hashes.0.byte(a);
        hashes.1.byte(b);
    }
    (hashes.0.value(), hashes.1.value())
}

/// 16-bit numbers as two bytes each, the low byte first.
pub(super) fn of_words(words: &[u16]) -> u64 {
    let hash = |hash: Hash, word: &u16| hash.bytes(&word.to_le_bytes());
    words.iter().fold(Hash::default(), hash).value()
}

/// 32-bit numbers as four bytes each, the low byte first.
pub(super) fn of_counts(counts: &[u32]) -> u64 {
    let hash = |hash: Hash, count: &u32| hash.bytes(&count.to_le_bytes());
    counts.iter().fold(Hash::default(), hash).value()
}

/// 64-bit numbers as eight bytes each, the low byte first.
pub(super) fn of_states(states: &[i64]) -> u64 {
    let hash = |hash: Hash, state: &i64| hash.bytes(&state.to_le_bytes());
    states.iter().fold(Hash::default(), hash).value()
}
