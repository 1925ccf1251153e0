//! The numbers of `include/cell_server.h`, by their names there without `CELL_SERVER_`.

macro_rules! numbers {
    ($($name:ident = $value:literal)*) => {
        $(pub const $name: u32 = $value;)*

        #[cfg(test)]
        const ALL: &[(&str, u32)] = &[$((stringify!($name), $value)),*];
    };
}

numbers! {
    START = 1
    CALL = 3
    OPEN = 1
    SET = 6
    SET_ACL = 7
    DELETE = 8
    ACQUIRE = 9
    STARTED = 1
    ALIVE = 2
    REPLY = 3
    REFUSED = 4
    LINE = 1
    MESSAGE = 2
    BAD = 3
    END = 4
    MESSAGE_AT = 10
    LINE_UP = 1
    LINE_RECOVERED = 3
    LINE_STARTED = 4
    LINE_ENDED = 5
    LINE_APPLIED = 6
    LINE_GRANTED = 7
    LINE_ACKED = 8
    LINE_EXPIRED = 9
    LINE_LOCKED = 10
    LINE_FREED = 11
    LINE_LAPSED = 12
    LINE_REOPENED = 13
    LINE_REFUSED = 20
    PUT = 1
    GONE = 2
    LOAD = 1
    COMMIT = 2
    EDIT_EPOCH = 1
    EDIT_NEXT_INSTANCE = 2
    EDIT_PUT_NODE = 3
    EDIT_LOCK_GENERATION = 4
    EDIT_REMOVE_NODE = 5
    EDIT_PUT_SESSION = 6
    EDIT_PUT_LOCK = 7
    EDIT_REMOVE_LOCK = 8
    EDIT_REMOVE_SESSION = 9
    EDIT_ENDED_BELOW = 10
    DONE = 0
}

#[cfg(test)]
mod tests {
    use super::*;
    use std::collections::HashMap;

    #[test]
    fn numbers_are_those_of_the_header() {
        let defined: HashMap<&str, u32> = include_str!("../../../../include/cell_server.h")
            .lines()
            .filter_map(|line| line.strip_prefix("#define CELL_SERVER_")?.split_once(' '))
            .filter_map(|(name, value)| Some((name, value.trim_end_matches('u').parse().ok()?)))
            .collect();
        for &(name, value) in ALL {
            assert_eq!(defined.get(name), Some(&value), "CELL_SERVER_{name}");
        }
    }
}
