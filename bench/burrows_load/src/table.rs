//! What the table says: Burrows, "The Chubby lock service" (2006), section 4.1. All counts are times a factor.

use rand::Rng;

/// Of which size the cell is, and how much is asked of it.
#[derive(Clone, Copy, Debug)]
pub struct Table {
    pub clients: usize,
    /// Handles that are held open.
    pub open: usize,
    /// Pairs of a client and a file that it caches, and how many of the files and directories are cached by anybody.
    pub entries: usize,
    pub cached: usize,
    /// Names that are cached as absent.
    pub absent: usize,
    pub locks: usize,
    pub directories: usize,
    pub files: usize,
    /// Of each kind so many a second.
    pub rates: Rates,
}

/// Messages a second, KeepAlives aside: these come by the lease.
#[derive(Clone, Copy, Debug)]
pub struct Rates {
    pub stats: f64,
    pub opens: f64,
    pub sessions: f64,
    pub reads: f64,
    pub sets: f64,
    pub acquires: f64,
    /// Not of the table: absent names that are made, or deleted again, so that cached absences are tested.
    pub makes: f64,
}

/// The table's upper bound, by which the shares of kinds are counted.
const MESSAGES: f64 = 2000.0;

impl Table {
    /// The table times a factor.
    pub fn of(factor: f64) -> Table {
        let times = |count: f64| ((count * factor).round() as usize).max(1);
        let rate = |share: f64| MESSAGES * factor * share;
        Table {
            clients: times(22_000.0).max(24),
            open: times(12_000.0),
            entries: times(230_000.0),
            cached: times(24_000.0),
            absent: times(32_000.0),
            locks: times(1_000.0),
            directories: times(8_000.0).max(4),
            files: times(22_000.0).max(16),
            rates: Rates {
                stats: rate(0.02),
                opens: rate(0.01),
                sessions: rate(0.01),
                reads: rate(0.004),
                sets: rate(0.00068),
                acquires: rate(0.000_031),
                makes: rate(0.0001),
            },
        }
    }
}

/// The bytes of a file: of 1,000 files 900 have up to 1 KB, 98 up to 10 KB, and 2 more.
pub fn file_size(random: &mut impl Rng) -> usize {
    match random.gen_range(0..1000) {
        0..900 => random.gen_range(32..=1000),
        900..998 => random.gen_range(1001..=10_000),
        _ => random.gen_range(10_001..=30_000),
    }
}
