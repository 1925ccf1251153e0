//! The grammar of components.

/// Whether a text is a component of a name, as principals and cells are: 1 to 64 of `a-z 0-9 . _ -`, neither `.` nor `..`.
#[must_use]
pub fn is_component(text: &str) -> bool {
    let is_in = |byte: u8| byte.is_ascii_lowercase() || byte.is_ascii_digit() || b"._-".contains(&byte);
    (1..=64).contains(&text.len()) && text != "." && text != ".." && text.bytes().all(is_in)
}

/// Whether a text is the whole name of a node: `/ls` and components, with 512 bytes at most.
///
/// ```
/// assert!(host_wire::is_name("/ls/c/f") && !host_wire::is_name("/ls/c/F") && !host_wire::is_name("f"));
/// ```
#[must_use]
pub fn is_name(text: &str) -> bool {
    text.len() <= 512 && text.strip_prefix("/ls/").is_some_and(|rest| rest.split('/').all(is_component))
}

#[cfg(test)]
mod tests {
    use super::*;

    #[test]
    fn components_follow_the_grammar() {
        let long = "a".repeat(64);
        let longer = "a".repeat(65);
        let rows: &[(&str, bool)] = &[
            ("ann", true),
            ("a.b_c-9", true),
            ("...", true),
            (&long, true),
            (&longer, false),
            ("", false),
            (".", false),
            ("..", false),
            ("Ann", false),
            ("a/b", false),
            ("a\u{e9}", false),
        ];
        for (text, wanted) in rows {
            assert_eq!(is_component(text), *wanted, "{text}");
        }
    }

    #[test]
    fn names_are_told_from_other_words() {
        let long = format!("/ls/c/{}", "a".repeat(64));
        for name in ["/ls/c", "/ls/c/f", "/ls/c/d/a.b_c-9", "/ls/c/...", &long] {
            assert!(is_name(name), "{name}");
        }
        let longer = format!("{long}a");
        for word in ["", "/", "/ls", "/ls/", "/ls/c/", "/ls//f", "/ls/c/F", "/ls/c/a b", "/ls/c/..", "/ls/c/.", "/etc/c/f", &longer] {
            assert!(!is_name(word), "{word}");
        }
        let names = |count| format!("/ls{}", format!("/{}", "a".repeat(63)).repeat(count));
        assert!(is_name(&format!("{}/{}", names(7), "a".repeat(60))) && !is_name(&format!("{}/{}", names(7), "a".repeat(61))));
    }
}
