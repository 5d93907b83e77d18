//! The registrar's clock, from the system's.
use std::time::{Duration, SystemTime, UNIX_EPOCH};

use crate::{Refusal, CLOCK_MAX};

/// The time at which a registrar's clock begins.
///
/// A clock goes from 0 to [`CLOCK_MAX`], 34 years of milliseconds. Milliseconds since 1970 have been above that since
/// 2004, so a host that hands in the system's clock as it is gets [`Refusal::Clock`] from every call with a clock. Choose
/// a time shortly before the registrar first runs, and keep it as long as the cache and the key, since entries and
/// tickets carry clocks: with a later epoch calls are refused until the clock has caught up, with an earlier one entries
/// expire too soon. When the 34 years are over, begin anew: another epoch, the cache opened again, another key.
///
/// ```
/// use std::time::{Duration, SystemTime};
/// use unglassot::{Epoch, Refusal};
///
/// let epoch = Epoch::from_unix_millis(1_767_225_600_000); // 2026-01-01 00:00 UTC
/// let time = SystemTime::UNIX_EPOCH + Duration::from_secs(1_767_225_601);
/// assert_eq!(epoch.clock(time)?, 1_000);
/// assert_eq!(epoch.time(1_000)?, time);
/// # Ok::<(), Refusal>(())
/// ```
///
/// A system's clock that was set back gives [`Refusal::Clock`] from every call with a cache until it has caught up with the cache's.
#[derive(Clone, Copy, Debug, PartialEq, Eq, PartialOrd, Ord, Hash)]
pub struct Epoch {
    unix_millis: u64,
}

impl Epoch {
    /// The epoch at this time, in milliseconds since 1970: what [`unix_millis`](Epoch::unix_millis) gave, or a time of the
    /// host's choosing.
    pub const fn from_unix_millis(unix_millis: u64) -> Epoch {
        Epoch { unix_millis }
    }

    /// The epoch at this time, as for a registrar that is set up now; its whole milliseconds.
    ///
    /// Refusals: [`Refusal::Clock`] for a time before 1970.
    pub fn at(time: SystemTime) -> Result<Epoch, Refusal> {
        Ok(Epoch::from_unix_millis(millis_since(UNIX_EPOCH, time)?))
    }

    /// Milliseconds from 1970 to the epoch, to be stored beside the cache.
    pub const fn unix_millis(self) -> u64 {
        self.unix_millis
    }

    /// The registrar's clock at this time: whole milliseconds since the epoch.
    ///
    /// Refusals: [`Refusal::Clock`] for a time before the epoch, or more than [`CLOCK_MAX`] milliseconds after it.
    pub fn clock(self, time: SystemTime) -> Result<u64, Refusal> {
        match millis_since(self.start()?, time)? {
            clock if clock <= CLOCK_MAX => Ok(clock),
            _ => Err(Refusal::Clock),
        }
    }

    /// The time at which the registrar's clock is `clock`.
    ///
    /// Refusals: [`Refusal::Clock`] for a clock above [`CLOCK_MAX`], or a time that the system cannot express.
    pub fn time(self, clock: u64) -> Result<SystemTime, Refusal> {
        if clock > CLOCK_MAX {
            return Err(Refusal::Clock);
        }
        after(self.start()?, clock)
    }

    fn start(self) -> Result<SystemTime, Refusal> {
        after(UNIX_EPOCH, self.unix_millis)
    }
}

fn after(start: SystemTime, millis: u64) -> Result<SystemTime, Refusal> {
    start
        .checked_add(Duration::from_millis(millis))
        .ok_or(Refusal::Clock)
}

fn millis_since(start: SystemTime, time: SystemTime) -> Result<u64, Refusal> {
    let passed = time.duration_since(start).map_err(|_| Refusal::Clock)?;
    u64::try_from(passed.as_millis()).map_err(|_| Refusal::Clock)
}
