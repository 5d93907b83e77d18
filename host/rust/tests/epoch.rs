//! The registrar's clock from the system's.
use std::time::{Duration, SystemTime, UNIX_EPOCH};

use unglassot::{cache_len, get_ads, open, Epoch, Family, Refusal, CLOCK_MAX};

/// 2026-01-01 00:00 UTC.
const START: u64 = 1_767_225_600_000;

fn unix(millis: u64) -> SystemTime {
    UNIX_EPOCH + Duration::from_millis(millis)
}

#[test]
fn both_sides_of_its_range() {
    let epoch = Epoch::from_unix_millis(START);
    let rows = [
        (START - 1, Err(Refusal::Clock)),
        (START, Ok(0)),
        (START + 1, Ok(1)),
        (START + CLOCK_MAX, Ok(CLOCK_MAX)),
        (START + CLOCK_MAX + 1, Err(Refusal::Clock)),
    ];
    for (millis, clock) in rows {
        assert_eq!(epoch.clock(unix(millis)), clock, "{millis}");
    }
    for clock in [0, 1, CLOCK_MAX] {
        assert_eq!(epoch.time(clock), Ok(unix(START + clock)));
        assert_eq!(epoch.clock(epoch.time(clock).unwrap()), Ok(clock));
    }
    assert_eq!(epoch.time(CLOCK_MAX + 1), Err(Refusal::Clock));
    assert_eq!(epoch.time(u64::MAX), Err(Refusal::Clock));
}

#[test]
fn parts_of_a_millisecond_are_dropped() {
    let epoch = Epoch::from_unix_millis(START);
    let nearly = Duration::from_nanos(999_999);
    assert_eq!(epoch.clock(unix(START + 7) + nearly), Ok(7));
    assert_eq!(Epoch::at(unix(START) + nearly), Ok(epoch));
    assert_eq!(epoch.clock(unix(START - 1) + nearly), Err(Refusal::Clock));
}

#[test]
fn is_stored_as_a_number() {
    let epoch = Epoch::at(unix(START)).unwrap();
    assert_eq!(epoch.unix_millis(), START);
    assert_eq!(Epoch::from_unix_millis(epoch.unix_millis()), epoch);
    let before_1970 = UNIX_EPOCH - Duration::from_millis(1);
    assert_eq!(Epoch::at(before_1970), Err(Refusal::Clock));
    assert_eq!(epoch.clock(before_1970), Err(Refusal::Clock));
    let far = Epoch::from_unix_millis(u64::MAX);
    assert_eq!(far.clock(unix(START)), Err(Refusal::Clock));
    assert_eq!(far.unix_millis(), u64::MAX);
}

/// The system's clock is refused as it is, and taken from an epoch.
#[test]
fn the_system_clock_needs_one() {
    let mut cache = vec![0; cache_len(Family::V4, 1)];
    open(&mut cache, Family::V4).unwrap();
    let system = unix(START + 1_000);
    let since_1970 = system.duration_since(UNIX_EPOCH).unwrap().as_millis() as u64;
    assert_eq!(get_ads(&cache, since_1970, &[0; 32]), Err(Refusal::Clock));
    assert_eq!(
        Epoch::from_unix_millis(0).clock(system),
        Err(Refusal::Clock)
    );
    let clock = Epoch::from_unix_millis(START).clock(system).unwrap();
    assert!(get_ads(&cache, clock, &[0; 32]).unwrap().is_empty());
    // 2004-11-03 19:53:47.775 UTC was the last of 1970's
    let last = Epoch::from_unix_millis(0).time(CLOCK_MAX).unwrap();
    assert_eq!(last, UNIX_EPOCH + Duration::from_millis(1_099_511_627_775));
}
