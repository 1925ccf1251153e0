//! Who shows which token.

use anyhow::{Context, Result, bail};
use host_wire::is_component;
use openssl::sha::sha256;
use std::collections::HashMap;
use std::fs;
use std::path::Path;
use std::sync::Arc;

/// The principals, by the sums of their tokens: so how long it takes to find one tells nothing of it.
#[derive(Clone, Debug, Default, PartialEq, Eq)]
pub struct Tokens(HashMap<[u8; 32], Arc<str>>);

impl Tokens {
    /// Those of a file.
    pub fn read(path: &Path) -> Result<Tokens> {
        let text = fs::read_to_string(path).with_context(|| format!("--tokens names a file that can be read: {}", path.display()))?;
        Tokens::of_text(&text).with_context(|| format!("the tokens of {}", path.display()))
    }

    fn of_text(text: &str) -> Result<Tokens> {
        let mut found = HashMap::new();
        let lines = text.lines().map(str::trim).enumerate().filter(|(_, line)| !line.is_empty() && !line.starts_with('#'));
        for (at, line) in lines {
            let read = line.split_once(char::is_whitespace).and_then(|(sum, principal)| {
                let sum: [u8; 32] = hex::decode(sum).ok()?.try_into().ok()?;
                Some((sum, principal.trim())).filter(|(_, principal)| is_component(principal))
            });
            let Some((sum, principal)) = read else {
                bail!("line {}: it is 64 hexadecimal digits, a space, and a principal", at + 1);
            };
            if found.insert(sum, principal.into()).is_some_and(|other: Arc<str>| *other != *principal) {
                bail!("line {}: the token is another's too", at + 1);
            }
        }
        Ok(Tokens(found))
    }

    /// Who shows this one.
    pub fn principal(&self, token: &str) -> Option<Arc<str>> {
        self.0.get(&sha256(token.as_bytes())).cloned()
    }
}

#[cfg(test)]
mod tests {
    use super::*;

    // (by sha256sum)
    const SECRET: &str = "2bb80d537b1da3e38bd30361aa855686bde0eacd7162fef6a25fe97bf527a25b";

    #[test]
    fn a_token_has_its_principal() {
        let tokens = Tokens::of_text(&format!("# those of today\n\n{SECRET}  ann\n")).unwrap();
        assert_eq!(tokens.principal("secret").as_deref(), Some("ann"));
        for other in ["Secret", "secret ", "", SECRET] {
            assert_eq!(tokens.principal(other), None, "{other}");
        }
    }

    #[test]
    fn other_lines_are_refused() {
        let rows = [
            SECRET.to_owned(),
            format!("{SECRET} Ann"),
            "secret ann".to_owned(),
            format!("{SECRET}00 ann"),
            format!("{SECRET} ann\n{SECRET} bob"),
        ];
        for text in rows {
            assert!(Tokens::of_text(&text).is_err(), "{text}");
        }
    }
}
