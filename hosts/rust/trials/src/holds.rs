//! Whether a lock was held by one at a time.

/// A time in which a client held a lock for sure: from the answer that it has it on, until it asks to let it go.
#[derive(Clone, Copy, Debug, PartialEq, Eq)]
pub struct Hold {
    /// Who.
    pub client: u64,
    /// From this moment on.
    pub begin: u64,
    /// Up to this moment.
    pub end: u64,
    /// The lock's generation.
    pub generation: u64,
}

/// Whether no two held it at once, and each later hold has a later generation.
///
/// # Errors
///
/// Which two did.
pub fn check_holds(holds: &[Hold]) -> Result<(), String> {
    let mut holds = holds.to_vec();
    holds.sort_by_key(|hold| hold.begin);
    for pair in holds.windows(2) {
        if pair[1].begin < pair[0].end {
            return Err(format!("both held it: {:?}, {:?}", pair[0], pair[1]));
        }
        if pair[1].generation <= pair[0].generation {
            return Err(format!("no later generation: {:?}, {:?}", pair[0], pair[1]));
        }
    }
    Ok(())
}

#[cfg(test)]
mod tests {
    use super::*;

    fn hold(client: u64, begin: u64, end: u64, generation: u64) -> Hold {
        Hold { client, begin, end, generation }
    }

    #[test]
    fn holds_are_told_apart() {
        let rows: &[(&[Hold], bool)] = &[
            (&[], true),
            (&[hold(1, 0, 9, 1), hold(2, 9, 12, 2)], true),
            (&[hold(2, 10, 12, 2), hold(1, 0, 9, 1)], true),
            (&[hold(1, 0, 9, 1), hold(2, 8, 12, 2)], false),
            (&[hold(1, 0, 9, 1), hold(2, 3, 4, 2)], false),
            (&[hold(1, 0, 9, 2), hold(2, 10, 12, 2)], false),
        ];
        for (holds, wanted) in rows {
            assert_eq!(check_holds(holds).is_ok(), *wanted, "{holds:?}");
        }
    }
}
