//! Seeded numbers (splitmix64): the same seed gives the same run on every machine.

pub(super) struct Random(u64);

impl Random {
    /// The numbers of the sequence `place` under `seed`, which need none of those before it.
    pub(super) fn of_place(seed: u64, place: u64) -> Random {
        let mut random = Random(seed);
        let start = random.next() ^ place.wrapping_mul(0xD134_2543_DE82_EF95);
        Random(start)
    }

    pub(super) fn next(&mut self) -> u64 {
        self.0 = self.0.wrapping_add(0x9E37_79B9_7F4A_7C15);
        let mut mixed = self.0;
        mixed = (mixed ^ (mixed >> 30)).wrapping_mul(0xBF58_476D_1CE4_E5B9);
        mixed = (mixed ^ (mixed >> 27)).wrapping_mul(0x94D0_49BB_1331_11EB);
        mixed ^ (mixed >> 31)
    }

    /// A number below `bound`, which is not 0.
    pub(super) fn below(&mut self, bound: u64) -> u64 {
        self.next() % bound
    }

    /// A number from `low` to `high`.
    pub(super) fn between(&mut self, low: u64, high: u64) -> u64 {
        match (high - low).checked_add(1) {
            Some(span) => low + self.below(span),
            None => self.next(),
        }
    }

    /// True once in `times`.
    pub(super) fn one_in(&mut self, times: u64) -> bool {
        self.below(times) == 0
    }

    pub(super) fn truth(&mut self) -> bool {
        self.one_in(2)
    }

    pub(super) fn byte(&mut self) -> u8 {
        self.next().to_le_bytes()[7]
    }

    pub(super) fn pick<T: Copy>(&mut self, choices: &[T]) -> T {
        let place = self.below(choices.len() as u64);
        choices[usize::try_from(place).expect("a place")]
    }

    /// A number of any size: as many low bits as chance gives.
    pub(super) fn any_size(&mut self) -> u64 {
        let bits = self.below(64);
        self.next() >> bits
    }
}
