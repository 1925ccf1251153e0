//! The program's answers to its command line. (That its master is started is tested with its clients.)

use std::process::{Command, Output};

fn run(words: &[&str]) -> Output {
    Command::new(env!("CARGO_BIN_EXE_tillermossd")).args(words).output().unwrap()
}

#[test]
fn help_and_wrong_words_are_told() {
    let help = run(&["--help"]);
    assert_eq!(help.status.code(), Some(0));
    assert!(String::from_utf8(help.stdout).unwrap().starts_with("Serves a cell"));
    for words in [&[][..], &["7171"], &["x", "--store", "s"]] {
        assert_eq!(run(words).status.code(), Some(2), "{words:?}");
    }
}

#[test]
fn a_master_that_does_not_start_is_told() {
    let store = std::env::temp_dir().join(format!("tillermossd-unstarted-{}", std::process::id()));
    let store = store.to_str().unwrap();
    for master in ["/no/such/program", "true"] {
        let output = run(&["0", "--store", store, "--master", master]);
        assert_eq!(output.status.code(), Some(1), "{master}");
        assert!(output.stdout.is_empty());
    }
}
