//! The numbers of `include/cell_client.h`, by their names there without `CELL_CLIENT_`.

macro_rules! numbers {
    ($($name:ident = $value:literal)*) => {
        $(pub const $name: u32 = $value;)*

        #[cfg(test)]
        const ALL: &[(&str, u32)] = &[$((stringify!($name), $value)),*];
    };
}

numbers! {
    READ = 1
    WRITE = 2
    CHANGE_ACL = 4
    CONTENTS = 1
    CHILDREN = 2
    LOCK = 4
    CONFLICT = 8
    MAKES_NOTHING = 0
    MAY_MAKE = 1
    MUST_MAKE = 2
    A_FILE = 0
    A_DIRECTORY = 1
    PERMANENT = 0
    EPHEMERAL = 1
    EXCLUSIVE = 0
    SHARED = 1
    OPENED = 1
    CLOSED = 2
    HANDLE_POISONED = 3
    VIEWED = 4
    STATED = 5
    NAMES = 6
    SEQUENCER = 7
    OKAY = 8
    REFUSED = 9
    SEEN = 10
    ABSENT = 11
    EVENT = 12
    JEOPARDY = 13
    SAFE = 14
    LOST = 15
    FAIL_OVER = 1
    CONTENTS_SET = 2
    CHILD_ADDED = 3
    CHILD_REMOVED = 4
    CHILD_MODIFIED = 5
    INVALID = 6
    LOCK_TAKEN = 7
    LOCK_WANTED = 8
    EVENTS_LOST = 9
    DONE = 0
    SEND = 64
    SERVED = 65
}

#[cfg(test)]
mod tests {
    use super::*;
    use std::collections::HashMap;

    #[test]
    fn numbers_are_those_of_the_header() {
        let defined: HashMap<&str, u32> = include_str!("../../../../include/cell_client.h")
            .lines()
            .filter_map(|line| line.strip_prefix("#define CELL_CLIENT_")?.split_once(' '))
            .filter_map(|(name, value)| Some((name, value.trim_end_matches('u').parse().ok()?)))
            .collect();
        for &(name, value) in ALL {
            assert_eq!(defined.get(name), Some(&value), "CELL_CLIENT_{name}");
        }
    }
}
