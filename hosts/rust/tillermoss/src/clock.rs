//! The clock of a client.

use nix::time::{ClockId, clock_gettime};

/// The present moment, in milliseconds since the machine was started, by the clock that goes on while the machine sleeps: by one
/// that stands still then a client would trust a lease that has ended. If there is no such clock it is the end of all moments,
/// at which no lease runs.
pub fn now() -> u64 {
    let Ok(time) = clock_gettime(ClockId::CLOCK_BOOTTIME) else {
        return u64::MAX;
    };
    time.tv_sec().cast_unsigned().saturating_mul(1000).saturating_add(time.tv_nsec().cast_unsigned() / 1_000_000)
}

#[cfg(test)]
mod tests {
    use super::*;
    use std::fs;

    // (what the kernel says of the same clock, in seconds with two digits after the point)
    #[test]
    fn moments_are_those_since_the_start_of_the_machine() {
        let before = now();
        let text = fs::read_to_string("/proc/uptime").unwrap();
        let seconds: f64 = text.split(' ').next().unwrap().parse().unwrap();
        let apart = (seconds * 1000.0) as u64 + 20 - before;
        assert!(apart < 1000, "{apart}");
        assert!(before <= now());
    }
}
