//! The program's answers to its command line. (What it does with a cell is tested with its server.)

use std::ffi::{OsStr, OsString};
use std::fs::File;
use std::os::unix::ffi::OsStrExt;
use std::process::{Command, Output, Stdio};

fn run(words: &[&str]) -> Output {
    Command::new(env!("CARGO_BIN_EXE_tillermoss")).args(words).output().unwrap()
}

#[test]
fn help_and_wrong_words_are_told() {
    let help = run(&["--help"]);
    assert_eq!(help.status.code(), Some(0));
    let told = String::from_utf8(help.stdout).unwrap();
    assert!(told.starts_with("Asks a cell") && told.contains("Exit status:"), "{told}");
    for verb in ["get", "put", "ls", "mkdir", "rm", "stat", "lock", "elect", "register", "watch", "status"] {
        assert_eq!(run(&[verb, "--help"]).status.code(), Some(0), "{verb}");
        assert!(told.contains(verb), "{verb}");
    }
    assert!(String::from_utf8(run(&["--version"]).stdout).unwrap().starts_with("tillermoss "));
    for words in [&[][..], &["get"], &["lock", "f", "run"], &["put", "f", "x", "--if-generation", "many"]] {
        assert_eq!(run(words).status.code(), Some(2), "{words:?}");
    }
}

#[test]
fn words_that_are_no_text_are_refused() {
    let no_text = OsStr::from_bytes(b"\xff");
    let words = |words: &[&str]| words.iter().map(OsString::from).collect::<Vec<_>>();
    let rows = [words(&["get"]), words(&["get", "f", "--server"]), words(&["get", "f", "--as"]), words(&["-o"]), vec![]];
    for words in rows {
        let output = Command::new(env!("CARGO_BIN_EXE_tillermoss")).args(&words).arg(no_text).output().unwrap();
        assert_eq!((output.status.code(), output.stdout), (Some(2), vec![]), "{words:?}");
        assert!(!String::from_utf8(output.stderr).unwrap().contains("panicked"), "{words:?}");
    }
    for variable in ["TILLERMOSS_SERVER", "TILLERMOSS_PRINCIPAL", "TILLERMOSS_CELL"] {
        let output = Command::new(env!("CARGO_BIN_EXE_tillermoss")).args(["get", "f"]).env(variable, no_text).output().unwrap();
        assert_eq!((output.status.code(), output.stdout), (Some(2), vec![]), "{variable}");
    }
}

// (they get as far as the server, which isn't there)
#[test]
fn contents_commands_and_paths_are_any_bytes() {
    let no_text = OsStr::from_bytes(b"\xff");
    for words in [&["put", "f"][..], &["lock", "f", "--"], &["elect", "f"], &["register", "f"], &["--admin", "unix:/no/such", "backup"]] {
        let mut program = Command::new(env!("CARGO_BIN_EXE_tillermoss"));
        let output = program.args(["--server", "127.0.0.1:1"]).args(words).arg(no_text).output().unwrap();
        assert_eq!((output.status.code(), output.stdout), (Some(4), vec![]), "{words:?}");
    }
}

#[test]
fn a_server_that_is_not_there_is_told() {
    let output = run(&["--server", "127.0.0.1:1", "get", "f"]);
    assert_eq!(output.status.code(), Some(4));
    assert!(output.stdout.is_empty());
    let told = String::from_utf8(output.stderr).unwrap();
    assert!(told.starts_with("tillermoss: get /ls/c/f at 127.0.0.1:1: Connection refused"), "{told}");
}

#[test]
fn an_output_that_is_full_or_closed_is_no_panic() {
    let full = File::options().write(true).open("/dev/full").unwrap();
    let program = || Command::new(env!("CARGO_BIN_EXE_tillermoss"));
    let output = program().args(["completions", "bash"]).stdout(full).stderr(Stdio::piped()).output().unwrap();
    assert_eq!(output.status.code(), Some(6));
    assert!(String::from_utf8(output.stderr).unwrap().contains("No space left on device"));
    let mut child = program().args(["completions", "bash"]).stdout(Stdio::piped()).stderr(Stdio::piped()).spawn().unwrap();
    drop(child.stdout.take());
    let output = child.wait_with_output().unwrap();
    assert_eq!(output.status.code(), Some(141));
    assert!(output.stderr.is_empty());
}

// (who builds a client builds no parser of options)
#[test]
fn the_library_takes_no_crate_of_the_command_line() {
    let manifest = include_str!("../../tillermoss/Cargo.toml");
    for name in ["anyhow", "clap", "hex", "signal-hook"] {
        assert!(!manifest.lines().any(|line| line.starts_with(name)), "{name}");
    }
}
