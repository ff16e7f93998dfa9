//! Stand-in for the crate `emu_core`, which docs/src does not hold: the names its files use, with
//! conversions of our own (#101). At a billion cycles a second a cycle is a nanosecond.

/// An instant or a span of device time.
#[derive(Clone, Copy, Debug, Default, PartialEq, Eq, PartialOrd, Ord, Hash)]
pub struct Cycles(pub u64);

impl Cycles {
    pub const ZERO: Cycles = Cycles(0);

    #[must_use]
    pub const fn get(self) -> u64 {
        self.0
    }
}

const NANOS_A_SECOND: u128 = 1_000_000_000;

/// The time base, in cycles a second. A start refuses 0 with 14.
#[derive(Clone, Copy, Debug, PartialEq, Eq)]
pub struct Frequency(pub u32);

impl Frequency {
    /// The cycles of a span of nanoseconds, rounded up and held at 2^64−1.
    #[must_use]
    pub fn nanos_to_cycles(self, nanos: u128) -> Cycles {
        let cycles = nanos.saturating_mul(self.0.into()).div_ceil(NANOS_A_SECOND);
        Cycles(u64::try_from(cycles).unwrap_or(u64::MAX))
    }

    /// The nanoseconds of a span of cycles, rounded down and held at 2^64−1.
    #[must_use]
    pub fn cycles_to_nanos(self, cycles: Cycles) -> u64 {
        let nanos = u128::from(cycles.0) * NANOS_A_SECOND / u128::from(self.0);
        u64::try_from(nanos).unwrap_or(u64::MAX)
    }
}

/// The level of a line.
#[derive(Clone, Copy, Debug, PartialEq, Eq)]
pub enum Level {
    Low,
    High,
}

impl Level {
    #[must_use]
    pub const fn from_bool(high: bool) -> Level {
        if high { Level::High } else { Level::Low }
    }
}
