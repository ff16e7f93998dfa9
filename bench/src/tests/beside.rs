//! The timing: the two sides in turns, the best run of each.

use std::time::Duration;

const THREAD_TIME: i32 = 3;

unsafe extern "C" {
    /// C's clock, of seconds and nanoseconds; 0 where it is told.
    fn clock_gettime(clock: i32, time: &mut [i64; 2]) -> i32;
}

/// The processor's time of this thread: what other work takes does not count.
fn spent() -> Duration {
    let mut time = [0; 2];
    assert_eq!(unsafe { clock_gettime(THREAD_TIME, &mut time) }, 0, "no clock");
    Duration::new(time[0].unsigned_abs(), u32::try_from(time[1]).expect("nanoseconds"))
}

/// How long `work` takes.
pub(super) fn timed(work: impl FnOnce()) -> Duration {
    let start = spent();
    work();
    spent() - start
}

/// The table, a row for each thing timed.
pub(super) struct Table {
    rounds: u32,
}

impl Table {
    pub(super) fn new(rounds: u32) -> Table {
        println!("| what | per | Rust, ns | Rattle, ns | Rattle / Rust |");
        println!("|---|---|---|---|---|");
        Table { rounds }
    }

    /// Runs both sides in turns and writes the best of each, for one of the `count` things that a
    /// run does.
    pub(super) fn row(
        &self,
        what: &str,
        (count, per): (usize, &str),
        mut rust: impl FnMut() -> Duration,
        mut proved: impl FnMut() -> Duration,
    ) {
        let (mut least_rust, mut least_proved) = (Duration::MAX, Duration::MAX);
        for round in 0..self.rounds {
            // Neither side is always the first.
            if round % 2 == 0 {
                least_rust = least_rust.min(rust());
                least_proved = least_proved.min(proved());
            } else {
                least_proved = least_proved.min(proved());
                least_rust = least_rust.min(rust());
            }
        }
        self.write(what, (count, per), [least_rust, least_proved]);
    }

    pub(super) fn rounds(&self) -> u32 {
        self.rounds
    }

    /// Writes a row: the times of both sides for one of the `count` things.
    pub(super) fn write(&self, what: &str, (count, per): (usize, &str), times: [Duration; 2]) {
        let [rust, proved] = times.map(|time| time.as_secs_f64() * 1e9 / count as f64);
        let ratio = proved / rust;
        println!("| {what} | {per} | {rust:.2} | {proved:.2} | {ratio:.2} |");
    }
}
