//! The clock that a master is told. It counts no time in which the server read nothing: a server that was stopped hands on what came
//! meanwhile before a session may end for want of it. Every promise allows that, because a master's clock may be the slower one.

use std::io;
use std::time::{Duration, Instant};
use tokio::io::{AsyncReadExt, AsyncWriteExt};
use tokio::net::UnixStream;
use tokio::time::sleep_until;

/// Between two readings of what came the clock moves by so much at most. A process that runs reads more often, also where the machine is
/// busy; and a client has twelve times as long to send its next Beat: a Beat is answered three seconds before its lease ends.
const STEP: Duration = Duration::from_millis(250);

/// After so long without a reading the server was stopped, and much may have come: until that is handed on the clock stands. A reading that
/// is late by less only costs what it is late by: on a machine that other work keeps busy many are, and a clock that stood for each of them
/// would answer Beats when leases have ended by the clients' clocks.
const STOP: Duration = Duration::from_secs(1);

/// How long after a reading the next one begins.
const PACE: Duration = Duration::from_millis(50);

/// A server that saw nothing for so long was stopped.
const AWAY: Duration = Duration::from_secs(2);

/// The clock of one master. It goes with the machine's or stands, and never makes up for that: no two of its moments are further apart
/// than the machine's, else a lease would end too early.
#[derive(Debug)]
pub struct Clock {
    /// When the last reading was, and which moment.
    read: Instant,
    base: Duration,
    /// Which moment was told last.
    told: Duration,
    /// Whether the server was stopped before the last reading.
    was_stopped: bool,
    /// Whether it stands until the next one.
    stands: bool,
    /// Until when the server was there, and since when without a stop.
    seen: Instant,
    woken: Instant,
}

impl Clock {
    /// Its first moment is now.
    #[must_use]
    pub fn new(now: Instant) -> Clock {
        Clock { read: now, base: Duration::ZERO, told: Duration::ZERO, was_stopped: false, stands: false, seen: now, woken: now }
    }

    /// What had come was read; whether it was handed on, too.
    pub fn read(&mut self, now: Instant, is_handed_on: bool) {
        if now.saturating_duration_since(self.seen) > AWAY {
            self.woken = now;
        }
        self.seen = now;
        if !is_handed_on {
            return;
        }
        self.tell(now);
        // (after a stop it stands until what came is handed on. Where each reading comes as late it goes on: else it stood for good)
        let was_stopped = now.saturating_duration_since(self.read) > STOP;
        self.stands = was_stopped && !self.was_stopped;
        (self.was_stopped, self.base, self.read) = (was_stopped, self.told, now);
    }

    /// The moment that the master is told, in milliseconds.
    pub fn tell(&mut self, now: Instant) -> u64 {
        let passed = now.saturating_duration_since(self.read);
        let gone = if self.stands || passed > STOP { Duration::ZERO } else { passed.min(STEP) };
        self.told = self.told.max(self.base + gone);
        self.told.as_millis() as u64
    }

    /// How long the server was there since then, and could have heard an answer.
    #[must_use]
    pub fn attended(&self, since: Instant, now: Instant) -> Duration {
        now.min(self.seen + AWAY).saturating_duration_since(since.max(self.woken))
    }
}

/// By what a server knows that it has read what came: a byte that it sends to itself over a socket, after all that waits in others.
#[derive(Debug)]
pub struct Probe {
    stream: UnixStream,
    due: tokio::time::Instant,
    is_out: bool,
}

impl Probe {
    /// One whose byte goes out at once.
    pub fn new() -> io::Result<Probe> {
        let (stream, other) = UnixStream::pair()?;
        tokio::spawn(send_back(other));
        Ok(Probe { stream, due: tokio::time::Instant::now(), is_out: false })
    }

    /// Waits until the next byte is back. If that is given up nothing is lost.
    pub async fn is_back(&mut self) -> io::Result<()> {
        sleep_until(self.due).await;
        if !self.is_out {
            self.stream.write_all(&[0]).await?;
            self.is_out = true;
        }
        self.stream.read_exact(&mut [0]).await?;
        self.is_out = false;
        self.due = tokio::time::Instant::now() + PACE;
        Ok(())
    }
}

// (until the probe is gone)
async fn send_back(mut stream: UnixStream) {
    let mut room = [0];
    while stream.read_exact(&mut room).await.is_ok() && stream.write_all(&room).await.is_ok() {}
}

#[cfg(test)]
mod tests {
    use super::*;

    const fn ms(count: u64) -> Duration {
        Duration::from_millis(count)
    }

    // A clock that was read each 100 ms up to this moment.
    fn at(begun: Instant, moment: u64) -> Clock {
        let mut clock = Clock::new(begun);
        (1..=moment / 100).for_each(|turn| clock.read(begun + ms(turn * 100), true));
        clock
    }

    #[test]
    fn it_goes_on_while_something_is_read() {
        let begun = Instant::now();
        let mut clock = at(begun, 12_000);
        for after in [0, 1, 99, 250] {
            assert_eq!(clock.tell(begun + ms(12_000 + after)), 12_000 + after);
        }
    }

    // (stopped at 12,050, woken so much later: what was told last is told until what came is handed on)
    #[test]
    fn it_stands_while_nothing_is_read() {
        for stop in [1000, 6000, 40_000] {
            let begun = Instant::now();
            let mut clock = at(begun, 12_000);
            assert_eq!(clock.tell(begun + ms(12_050)), 12_050);
            let woken = begun + ms(12_050 + stop);
            assert_eq!(clock.tell(woken), 12_050, "{stop}");
            clock.read(woken + ms(5), true);
            assert_eq!(clock.tell(woken + ms(50)), 12_050, "{stop}");
            clock.read(woken + ms(105), true);
            assert_eq!(clock.tell(woken + ms(105)), 12_050, "{stop}");
            assert_eq!(clock.tell(woken + ms(115)), 12_060, "{stop}");
        }
    }

    // (the moment of a reading counts, also where none was told since)
    #[test]
    fn what_was_read_is_not_taken_back() {
        let begun = Instant::now();
        let mut clock = at(begun, 12_000);
        assert_eq!(clock.tell(begun + ms(50_000)), 12_000);
    }

    #[test]
    fn between_two_readings_it_moves_by_a_quarter_of_a_second_at_most() {
        let begun = Instant::now();
        let (mut clock, mut now, mut last) = (Clock::new(begun), begun, 0);
        // (told each millisecond, as where many messages come)
        for (pause, wanted) in
            [(10, 10), (249, 249), (250, 250), (251, 250), (900, 250), (900, 250), (251, 250), (3, 3), (20_000, 250), (3, 0), (3, 3)]
        {
            let before = last;
            for _ in 0..pause {
                now += ms(1);
                last = clock.tell(now);
            }
            clock.read(now, true);
            assert_eq!(last - before, wanted, "{pause}");
        }
    }

    // (as on a machine that other work keeps busy: what is told only at a late reading counts as far as one may move)
    #[test]
    fn a_late_reading_costs_what_it_is_late_by() {
        for (pause, wanted) in [(100, 1000), (250, 1000), (300, 2500 / 3), (500, 500), (1000, 250), (1001, 0)] {
            let begun = Instant::now();
            let mut clock = Clock::new(begun);
            (1..=12).for_each(|turn| clock.read(begun + ms(turn * pause), true));
            assert_eq!(clock.tell(begun + ms(12 * pause)) * 1000 / (12 * pause), wanted, "{pause}");
        }
    }

    // Whatever is read and told when: a lease that the master gives lasts at least as long by the machine's clock.
    #[test]
    fn it_never_gains_on_the_machine() {
        let begun = Instant::now();
        let (mut clock, mut now, mut told) = (Clock::new(begun), begun, Vec::new());
        let mut seed = 20_061_106_u64;
        for _ in 0..3000 {
            seed = seed.wrapping_mul(6_364_136_223_846_793_005).wrapping_add(1_442_695_040_888_963_407);
            now += ms([1, 7, 90, 240, 260, 3000][(seed >> 60) as usize % 6]);
            if (seed >> 40).is_multiple_of(3) {
                clock.read(now, (seed >> 50).is_multiple_of(4));
            } else {
                told.push((now, clock.tell(now)));
            }
        }
        let mut least = u128::MAX;
        for (now, moment) in told.iter().rev() {
            // (of all later moments the one that was least ahead of the machine's clock)
            let real = now.duration_since(begun).as_millis() + 1_000_000;
            least = least.min(real - u128::from(*moment));
            assert_eq!(least, real - u128::from(*moment), "a later moment is further ahead");
        }
        assert!(told.last().unwrap().1 > 10_000);
    }

    #[test]
    fn it_stands_while_nothing_is_handed_on() {
        let begun = Instant::now();
        let mut clock = at(begun, 1000);
        (11..60).for_each(|turn| clock.read(begun + ms(turn * 100), false));
        assert_eq!(clock.tell(begun + ms(6000)), 1000);
        clock.read(begun + ms(6000), true);
        clock.read(begun + ms(6100), true);
        assert_eq!(clock.tell(begun + ms(6170)), 1070);
    }

    #[test]
    fn a_stop_is_not_waited_through() {
        let begun = Instant::now();
        let mut clock = at(begun, 1000);
        assert_eq!(clock.attended(begun + ms(400), begun + ms(1100)), ms(700));
        let woken = begun + ms(41_000);
        assert_eq!(clock.attended(begun + ms(400), woken), ms(2600));
        clock.read(woken, false);
        assert_eq!(clock.attended(begun + ms(400), woken + ms(90)), ms(90));
    }

    #[tokio::test]
    async fn a_byte_comes_back_again_and_again() {
        let mut probe = Probe::new().unwrap();
        let begun = Instant::now();
        for _ in 0..3 {
            // (given up in the middle it goes on there)
            let _ = tokio::time::timeout(ms(1), probe.is_back()).await;
            tokio::time::timeout(ms(5000), probe.is_back()).await.unwrap().unwrap();
        }
        assert!(begun.elapsed() >= 2 * PACE);
    }
}
