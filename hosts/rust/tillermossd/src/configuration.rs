//! The server's own options in the settings: the table `server`, with a key for each option of the command line.

use crate::options::ServerOptions;
use anyhow::{Context, Result, bail};
use clap::{Arg, ArgAction, CommandFactory};
use std::ffi::{OsStr, OsString};
use std::fs;
use std::path::{Path, PathBuf};
use toml::Value;

/// The key of the table.
pub const SERVER: &str = "server";

/// The addresses, which are words without an option's name.
const LISTEN: &str = "listen";

/// The words of the command line, after which stand those of the table `server` of the settings that it names: each key is an option,
/// with `_` for `-`, and what the command line says itself goes before. The file, where it has such a table.
pub fn complete(mut words: Vec<OsString>) -> Result<(Vec<OsString>, Option<PathBuf>)> {
    let Some(path) = value_of(&words, "settings") else {
        return Ok((words, None));
    };
    // (of a file that can't be read, or isn't TOML, the server says so once it serves)
    let table = fs::read_to_string(&path).ok().and_then(|text| text.parse::<Value>().ok());
    let Some(table) = table.as_ref().and_then(|table| table.get(SERVER)) else {
        return Ok((words, None));
    };
    let at = || format!("the table `{SERVER}` of {}", Path::new(&path).display());
    let added = words_of(&words, table).with_context(at)?;
    words.extend(added);
    Ok((words, Some(path.into())))
}

fn words_of(words: &[OsString], table: &Value) -> Result<Vec<OsString>> {
    let mut added = Vec::new();
    for (key, value) in table.as_table().context("it is no table: write [server] above its keys")? {
        let arg = argument(key).with_context(|| format!("no key is `{key}`: they are {}", keys()))?;
        let told = words_for(key, &arg, value).with_context(|| format!("the key `{key}`"))?;
        let is_said = if key == LISTEN { has_address(words) } else { is_there(words, &name(key)) };
        added.extend(told.into_iter().filter(|_| !is_said));
    }
    Ok(added)
}

fn words_for(key: &str, arg: &Arg, value: &Value) -> Result<Vec<OsString>> {
    let takes_several = matches!(arg.get_action(), ArgAction::Append) || key == LISTEN;
    let takes_value = arg.get_action().takes_values();
    let word = |value: &Value| match value {
        Value::String(text) => Ok(text.clone()),
        Value::Integer(number) => Ok(number.to_string()),
        other => bail!("a {} stands where there has to be a text or a number", other.type_str()),
    };
    let values = match value {
        Value::Boolean(is_so) if !takes_value => {
            return Ok(if *is_so { vec![format!("--{}", name(key)).into()] } else { Vec::new() });
        }
        _ if !takes_value => bail!("it is true or false"),
        Value::Array(values) if takes_several => values.iter().map(word).collect::<Result<Vec<_>>>()?,
        value => vec![word(value)?],
    };
    let written = |value: String| if key == LISTEN { value.into() } else { format!("--{}={value}", name(key)).into() };
    Ok(values.into_iter().map(written).collect())
}

fn name(key: &str) -> String {
    key.replace('_', "-")
}

// The options of the command line that have a key.
fn arguments() -> impl Iterator<Item = Arg> {
    let command = ServerOptions::command();
    let found: Vec<Arg> =
        command.get_arguments().filter(|arg| !matches!(arg.get_id().as_str(), "settings" | "help" | "version")).cloned().collect();
    found.into_iter()
}

fn argument(key: &str) -> Option<Arg> {
    arguments().find(|arg| arg.get_id().as_str() == key)
}

fn keys() -> String {
    arguments().map(|arg| arg.get_id().as_str().to_owned()).collect::<Vec<_>>().join(", ")
}

fn is_there(words: &[OsString], name: &str) -> bool {
    words.iter().any(|word| of_option(word, name).is_some())
}

// What stands after the `=` of an option of this name; empty if nothing does.
fn of_option<'a>(word: &'a OsStr, name: &str) -> Option<&'a str> {
    let rest = word.to_str()?.strip_prefix("--")?.strip_prefix(name)?;
    if rest.is_empty() { Some(rest) } else { rest.strip_prefix('=') }
}

fn value_of(words: &[OsString], name: &str) -> Option<OsString> {
    let at = words.iter().position(|word| of_option(word, name).is_some())?;
    match of_option(&words[at], name) {
        Some("") => words.get(at + 1).cloned(),
        value => value.map(OsString::from),
    }
}

// Whether a word is no option, and no value of one. A subcommand is one: then nothing of the table is added to it.
fn has_address(words: &[OsString]) -> bool {
    let takes_value = |word: &OsString| {
        let name = word.to_str().and_then(|word| word.strip_prefix("--"));
        name.is_some_and(|name| {
            arguments().any(|arg| arg.get_action().takes_values() && arg.get_long() == Some(name)) || name == "settings"
        })
    };
    let mut is_value = true;
    words.iter().any(|word| {
        let is_address = !is_value && !word.to_string_lossy().starts_with('-');
        is_value = takes_value(word);
        is_address
    })
}

#[cfg(test)]
mod tests {
    use super::*;
    use clap::Parser;
    use std::io::Write;

    // What a command line and a file say together.
    fn read(line: &str, text: &str) -> Result<ServerOptions> {
        let mut file = tempfile::NamedTempFile::new()?;
        file.write_all(text.as_bytes())?;
        let path = file.path().display().to_string();
        let words = ["tillermossd"].into_iter().chain(line.split_whitespace()).chain(["--settings", &path]).map(OsString::from);
        let (words, _) = complete(words.collect())?;
        Ok(ServerOptions::try_parse_from(words).map(|options| ServerOptions { settings: None, ..options })?)
    }

    fn plain(line: &str) -> ServerOptions {
        ServerOptions::try_parse_from(["tillermossd"].into_iter().chain(line.split_whitespace())).unwrap()
    }

    #[test]
    fn the_table_is_the_command_line() {
        let all = "[server]\nlisten = [\"unix:/s\", \"tls:h:8\"]\nstore = \"s\"\nmaster = \"m\"\nfirst = 5\ncert = \"c\"\nkey = \"k\"\n\
                   client_ca = \"a\"\ninsecure = true\nadmin = [\"unix:/a\", \"tcp:7\"]\nlog = \"json\"\ntrace = false\n";
        let line = "unix:/s tls:h:8 --store s --master m --first 5 --cert c --key k --client-ca a --insecure --admin unix:/a --admin tcp:7 --log json";
        assert_eq!(read("", all).unwrap(), plain(line));
        assert_eq!(
            read("7 --log text", all).unwrap(),
            ServerOptions { listen: plain("7 --store s").listen, log: plain("7 --store s").log, ..plain(line) }
        );
        let rows =
            "lease = 2000\n[server]\nlisten = \"7\"\nrows = \"etcd://a:1/c\"\nadvertise = \"h:7\"\nmastership = 9\netcd_ca = \"a\"\n";
        assert_eq!(read("", rows).unwrap(), plain("7 --rows etcd://a:1/c --advertise h:7 --mastership 9 --etcd-ca a"));
        assert_eq!(read("7 --store s", "lease = 2000\n").unwrap(), plain("7 --store s"));
    }

    #[test]
    fn each_option_has_its_key() {
        for arg in arguments() {
            assert!(arg.get_id() == LISTEN || arg.get_long() == Some(&name(arg.get_id().as_str())), "{arg:?}");
        }
    }

    #[test]
    fn what_is_no_option_is_told() {
        let rows = [
            ("[server]\nlissten = \"7\"\n", "no key is `lissten`: they are listen, store"),
            ("server = 7\n", "no table"),
            ("[server]\ninsecure = \"yes\"\n", "the key `insecure`: it is true or false"),
            ("[server]\nstore = [\"a\"]\n", "the key `store`: a array"),
            ("[server]\nlisten = [true]\n", "the key `listen`: a boolean"),
            ("[server]\nsettings = \"a\"\n", "no key is `settings`"),
        ];
        for (text, wanted) in rows {
            let told = format!("{:#}", read("7 --store s", text).unwrap_err());
            assert!(told.contains(wanted), "{text}: {told}");
        }
        assert!(read("", "[server]\nlisten = \"7\"\nstore = \"s\"\nrows = \"etcd://a:1/c\"\n").is_err());
    }

    // The file that the package installs: as it stands it serves, and it names each key.
    #[test]
    fn the_file_of_the_package_names_each_option() {
        let text = include_str!("../server.toml");
        let options = read("", text).unwrap();
        assert_eq!(options, plain("unix:/run/tillermoss/cell --admin unix:/run/tillermoss/admin --store /var/lib/tillermoss/cell.db"));
        let lines: Vec<&str> = text.lines().map(|line| line.trim_start_matches("# ")).collect();
        for key in arguments().map(|arg| arg.get_id().as_str().to_owned()).filter(|key| key != "help" && key != "version") {
            assert!(lines.iter().any(|line| line.starts_with(&format!("{key} = "))), "{key}");
        }
        // (each key that stands after a # is one, by its table)
        let (mut table, mut whole) = (String::new(), String::new());
        for line in lines {
            let is_table = line.starts_with('[');
            let is_key = line.split_once(" = ").is_some_and(|(key, _)| key.bytes().all(|byte| byte.is_ascii_lowercase() || byte == b'_'));
            if is_table {
                table = line.to_owned();
            }
            // (the secret is left out there)
            if is_table || (is_key && table != "[server]" && !line.starts_with("secret")) {
                whole += &format!("{line}\n");
            }
        }
        let told = crate::settings::Settings::of_text(&whole).unwrap();
        let limits = crate::settings::Limits::default();
        assert_eq!(told.limits, crate::settings::Limits { locks: Some(limits.locks(false)), ..limits });
    }
}
