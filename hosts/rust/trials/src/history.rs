//! Whether what was read was there.
//!
//! Each write of a file has a value of its own. A value was there from a moment between the beginning and the end of its write up to
//! such a moment of the next write. So each read returns what was there at some moment between its beginning and its end exactly
//! if the writes have such an order; and by Gibbons and Korach (1997, "Testing shared memories", section 4) that can be seen
//! from the zones. The zone of a value lies between the earliest end and the latest beginning of all that wrote and read it. It is a
//! forward zone where that end is before that beginning: then the value was there all the time between. Else it is a backward
//! zone: the value was there at some moment in it. There is such an order exactly if no read ends before the write of its value
//! begins, no two forward zones overlap, and no backward zone lies within a forward one.

use std::collections::BTreeMap;

/// A write of a file. Moments are all of one clock.
#[derive(Clone, Copy, Debug, PartialEq, Eq)]
pub struct Write {
    /// The file.
    pub file: usize,
    /// The value, which no other write of the file has.
    pub value: u64,
    /// Before this moment it wasn't asked for.
    pub begin: u64,
    /// At this moment it was done; None where nobody knows whether it was, or will be.
    pub end: Option<u64>,
}

/// A read of a file.
#[derive(Clone, Copy, Debug, PartialEq, Eq)]
pub struct Read {
    /// The file.
    pub file: usize,
    /// What was found.
    pub value: u64,
    /// The content generation that was found with it.
    pub generation: u64,
    /// Before this moment it wasn't asked for.
    pub begin: u64,
    /// At this moment the answer was there.
    pub end: u64,
}

/// All that wrote and read one value.
#[derive(Clone, Copy, Debug)]
struct Zone {
    write: Write,
    first_end: u64,
    last_begin: u64,
    is_read: bool,
}

impl Zone {
    fn of(write: Write) -> Zone {
        Zone { write, first_end: write.end.unwrap_or(u64::MAX), last_begin: write.begin, is_read: false }
    }

    fn is_forward(&self) -> bool {
        self.first_end < self.last_begin
    }
}

/// Whether each read returned a value that was there at some moment between its beginning and its end, and each generation had one
/// value.
///
/// # Errors
///
/// What can't have been.
pub fn check_history(writes: &[Write], reads: &[Read]) -> Result<(), String> {
    let zones = zones(writes, reads)?;
    check_generations(reads)?;
    let mut files: BTreeMap<usize, Vec<Zone>> = BTreeMap::new();
    for ((file, _), zone) in zones {
        // (a write that was perhaps never done, and that nobody saw, says nothing)
        if zone.is_read || zone.write.end.is_some() {
            files.entry(file).or_default().push(zone);
        }
    }
    files.values().try_for_each(|zones| check_zones(zones))
}

fn zones(writes: &[Write], reads: &[Read]) -> Result<BTreeMap<(usize, u64), Zone>, String> {
    let mut zones = BTreeMap::new();
    for write in writes {
        if zones.insert((write.file, write.value), Zone::of(*write)).is_some() {
            return Err(format!("{write:?}: written twice"));
        }
    }
    for read in reads {
        let zone = zones.get_mut(&(read.file, read.value)).ok_or_else(|| format!("{read:?}: never written"))?;
        if read.end < zone.write.begin {
            return Err(format!("{read:?}: before its write {:?}", zone.write));
        }
        zone.first_end = zone.first_end.min(read.end);
        zone.last_begin = zone.last_begin.max(read.begin);
        zone.is_read = true;
    }
    Ok(zones)
}

// One value a generation, and one generation a value.
fn check_generations(reads: &[Read]) -> Result<(), String> {
    let (mut values, mut generations) = (BTreeMap::new(), BTreeMap::new());
    for read in reads {
        let value = *values.entry((read.file, read.generation)).or_insert(read.value);
        let generation = *generations.entry((read.file, read.value)).or_insert(read.generation);
        if (value, generation) != (read.value, read.generation) {
            return Err(format!("{read:?}: this generation has {value}, this value the generation {generation}"));
        }
    }
    Ok(())
}

fn check_zones(zones: &[Zone]) -> Result<(), String> {
    let (mut forward, backward): (Vec<&Zone>, Vec<&Zone>) = zones.iter().partition(|zone| zone.is_forward());
    forward.sort_by_key(|zone| zone.first_end);
    for pair in forward.windows(2) {
        if pair[1].first_end < pair[0].last_begin {
            return Err(format!("both were there at once: {:?}, {:?}", pair[0], pair[1]));
        }
    }
    for zone in backward {
        // (forward zones don't overlap: the last one that begins before this is the only one that it may lie within)
        let before = forward.partition_point(|other| other.first_end < zone.last_begin);
        if before > 0 && zone.first_end < forward[before - 1].last_begin {
            return Err(format!("{zone:?} was there while {:?} was", forward[before - 1]));
        }
    }
    Ok(())
}

#[cfg(test)]
mod tests {
    use super::*;

    fn write(value: u64, begin: u64, end: u64) -> Write {
        Write { file: 0, value, begin, end: Some(end) }
    }

    fn lost(value: u64, begin: u64) -> Write {
        Write { file: 0, value, begin, end: None }
    }

    fn read(value: u64, begin: u64, end: u64) -> Read {
        Read { file: 0, value, generation: value, begin, end }
    }

    #[test]
    fn histories_are_told_apart() {
        let two = [write(1, 0, 1), write(2, 10, 20)];
        let rows: &[(&str, &[Write], &[Read], bool)] = &[
            ("what was written", &two, &[read(1, 2, 3), read(2, 21, 22)], true),
            ("the old value while the write lasts", &two, &[read(1, 11, 12)], true),
            ("the new value while the write lasts", &two, &[read(2, 11, 12)], true),
            ("first the old, then the new", &two, &[read(1, 11, 12), read(2, 13, 14)], true),
            ("first the new, then the old", &two, &[read(2, 11, 12), read(1, 13, 14)], false),
            ("both in two reads that overlap", &two, &[read(2, 11, 14), read(1, 12, 15)], true),
            ("the old value after the write", &two, &[read(1, 21, 22)], false),
            ("the new value before the write", &two, &[read(2, 2, 9)], false),
            ("a value that nobody wrote", &two, &[read(3, 2, 3)], false),
            ("a lost write that was done", &[write(1, 0, 1), lost(2, 10)], &[read(1, 11, 12), read(2, 99, 100)], true),
            ("a lost write that wasn't done", &[write(1, 0, 1), lost(2, 10)], &[read(1, 99, 100)], true),
            ("a lost write that was done, and undone", &[write(1, 0, 1), lost(2, 10)], &[read(2, 11, 12), read(1, 13, 14)], false),
            ("a write that nobody read", &[write(1, 0, 1), write(2, 2, 3), write(3, 4, 5)], &[read(3, 6, 7)], true),
            ("a write within a value's time", &[write(1, 0, 1), write(2, 10, 11)], &[read(1, 5, 6), read(1, 20, 21)], false),
            ("three in turn", &[write(1, 0, 1), write(2, 2, 9), write(3, 2, 9)], &[read(2, 3, 4), read(3, 5, 6)], true),
            (
                "three in turn, and back",
                &[write(1, 0, 1), write(2, 2, 9), write(3, 2, 9)],
                &[read(2, 3, 4), read(3, 5, 6), read(2, 7, 8)],
                false,
            ),
        ];
        for (what, writes, reads, wanted) in rows {
            let found = check_history(writes, reads);
            assert_eq!(found.is_ok(), *wanted, "{what}: {found:?}");
        }
    }

    #[test]
    fn files_are_apart() {
        let other = Write { file: 1, ..write(1, 0, 1) };
        assert!(check_history(&[write(1, 0, 1), write(2, 2, 3), other], &[Read { file: 1, ..read(1, 9, 10) }]).is_ok());
    }

    #[test]
    fn a_generation_has_one_value() {
        let writes = [write(1, 0, 9), write(2, 0, 9)];
        let same = Read { generation: 1, ..read(2, 3, 4) };
        let later = Read { generation: 2, ..read(1, 3, 4) };
        assert!(check_history(&writes, &[read(1, 1, 2), same]).is_err());
        assert!(check_history(&writes, &[read(1, 1, 2), later]).is_err());
    }
}
