//! The command line, with a server.

use nix::sys::signal::{Signal, kill};
use nix::unistd::Pid;
use std::fs;
use std::io::{BufRead, BufReader, Lines, Write};
use std::path::Path;
use std::process::{Child, ChildStdout, Command, Stdio};
use std::thread;
use std::time::{Duration, Instant};
use tillermoss::{Client, Error, Options};
use trials::{Kill, Passing, Relay, Server, Start, folder, program};

fn command(server: &Server, words: &[&str]) -> Command {
    let mut command = Command::new(program("tillermoss"));
    command.arg("--server").arg(&server.address).args(words);
    command
}

// What it prints, and its status.
fn run(server: &Server, words: &[&str]) -> (String, Option<i32>) {
    let output = command(server, words).output().unwrap();
    (String::from_utf8(output.stdout).unwrap(), output.status.code())
}

fn start(server: &Server, words: &[&str]) -> Child {
    command(server, words).stdin(Stdio::piped()).stdout(Stdio::piped()).spawn().unwrap()
}

// A watch that watches, and the lines that it will print.
fn start_watch(server: &Server, name: &str) -> (Child, Lines<BufReader<ChildStdout>>) {
    let mut child = command(server, &["watch", name]).stdout(Stdio::piped()).stderr(Stdio::piped()).spawn().unwrap();
    let mut told = BufReader::new(child.stderr.take().unwrap()).lines();
    assert!(told.next().unwrap().unwrap().starts_with("watching /ls/c"));
    let lines = BufReader::new(child.stdout.take().unwrap()).lines();
    (child, lines)
}

const STAT: &str = "\
name /ls/c/f
kind file
life permanent
length 5
instance 4
content-generation 3
acl-generation 1
lock-generation 0
acl base base base
";

fn wait_for(path: &Path) {
    while !path.exists() {
        thread::sleep(Duration::from_millis(10));
    }
}

#[test]
fn files_are_made_read_and_deleted() {
    let folder = folder("commands");
    let mut server = Server::start(&folder.join("store.db")).unwrap();
    let rows: &[(&[&str], &str, i32)] = &[
        (&["get", "f"], "", 1),
        (&["put", "f", "hello"], "", 0),
        (&["get", "f"], "hello\n", 0),
        (&["get", "f", "--raw"], "hello", 0),
        (&["get", "-o", "json", "f"], "{\"content\":\"hello\",\"content_generation\":1,\"instance\":4,\"name\":\"/ls/c/f\"}\n", 0),
        (&["put", "f", "HELLO", "--prev"], "hello\n", 0),
        (&["put", "f", "late", "--if-generation", "1"], "", 3),
        (&["put", "f", "hello", "--if-generation", "2"], "", 0),
        (&["put", "f", "new", "--if-generation", "0"], "", 3),
        (&["stat", "f"], STAT, 0),
        (&["get", "/ls/c/f"], "hello\n", 0),
        (&["put", "f", ""], "", 0),
        (&["get", "f"], "\n", 0),
        (&["put", "d/f", "x"], "", 1),
        (&["mkdir", "d"], "", 0),
        (&["mkdir", "d"], "", 3),
        (&["put", "d/f", "x"], "", 0),
        (&["ls"], "acl\nd\nf\n", 0),
        (&["ls", "d"], "f\n", 0),
        (&["ls", "--output=json"], "{\"children\":[\"acl\",\"d\",\"f\"],\"name\":\"/ls/c\"}\n", 0),
        (&["ls", "f"], "", 3),
        (&["get", "d"], "", 3),
        (&["rm", "d"], "", 3),
        (&["rm", "d/f"], "", 0),
        (&["ls", "d"], "", 0),
        (&["rm", "d"], "", 0),
        (&["--as", "eve", "get", "f"], "", 3),
        (&["get", "f", "--as", "Eve"], "", 3),
    ];
    for (words, printed, status) in rows {
        assert_eq!(run(&server, words), ((*printed).to_owned(), Some(*status)), "{words:?}");
    }
    let mut put = start(&server, &["put", "f"]);
    put.stdin.take().unwrap().write_all(b"of the input").unwrap();
    assert!(put.wait().unwrap().success());
    assert_eq!(run(&server, &["get", "f"]), ("of the input\n".to_owned(), Some(0)));
    assert!(server.kill(Kill::InOrder).unwrap().success());
    let mut left: Vec<_> = fs::read_dir(&folder).unwrap().map(|entry| entry.unwrap().file_name()).collect();
    left.sort();
    assert_eq!(left, ["store.db", "store.db-lock", "store.db-numbers", "store.db.log"]);
    fs::remove_dir_all(folder).unwrap();
}

#[test]
fn verbs_take_several_names_and_whole_trees() {
    let folder = folder("trees");
    let server = Server::start(&folder.join("store.db")).unwrap();
    let rows: &[(&[&str], &str, i32)] = &[
        (&["mkdir", "-p", "d/e/f", "g"], "", 0),
        (&["mkdir", "--parents", "d/e/f"], "", 0),
        (&["put", "d/e/a", "one"], "", 0),
        (&["put", "b", "two"], "", 0),
        (&["mkdir", "-p", "b"], "", 3),
        (&["mkdir", "-p", "b/c"], "", 3),
        (&["get", "d/e/a", "b"], "one\ntwo\n", 0),
        (&["get", "d/e/a", "none", "b"], "one\ntwo\n", 1),
        (&["ls", "-r", "d"], "e\ne/a\ne/f\n", 0),
        (&["ls", "-r", "b"], "", 3),
        (&["ls", "d", "g", "d/e"], "/ls/c/d:\ne\n/ls/c/g:\n/ls/c/d/e:\na\nf\n", 0),
        (&["ls", "-r", "d", "--json"], "{\"children\":[\"e\",\"e/a\",\"e/f\"],\"name\":\"/ls/c/d\"}\n", 0),
        (&["rm", "d"], "", 3),
        (&["rm", "-r", "d", "b"], "", 0),
        (&["rm", "none", "g"], "", 1),
        (&["rm", "-r", "/ls/c"], "", 3),
        (&["rm", "-r", "acl"], "", 3),
        (&["ls", "-r"], "acl\nacl/base\n", 0),
        (&["stat", "F", "acl"], "", 2),
    ];
    for (words, printed, status) in rows {
        assert_eq!(run(&server, words), ((*printed).to_owned(), Some(*status)), "{words:?}");
    }
    fs::remove_dir_all(folder).unwrap();
}

#[test]
fn the_acls_of_a_node_are_read_and_changed() {
    let folder = folder("acls");
    let server = Server::start(&folder.join("store.db")).unwrap();
    let json = "{\"acl_generation\":2,\"change\":\"base\",\"name\":\"/ls/c/f\",\"read\":\"readers\",\"write\":\"base\"}\n";
    let rows: &[(&[&str], &str, i32)] = &[
        (&["put", "f", "x"], "", 0),
        (&["put", "acl/readers", "ann\nbob\neve\n"], "", 0),
        (&["acl", "get", "f"], "read base\nwrite base\nchange base\n", 0),
        (&["get", "f", "--as", "eve"], "", 3),
        (&["acl", "set", "f", "--read", "readers"], "", 0),
        (&["get", "f", "--as", "eve"], "x\n", 0),
        (&["acl", "get", "f", "--json"], json, 0),
        (&["acl", "set", "f", "--write", "readers", "--change", "readers", "--if-generation", "1"], "", 3),
        (&["acl", "set", "f", "--write", "readers", "--if-generation", "2"], "", 0),
        (&["acl", "get", "f"], "read readers\nwrite readers\nchange base\n", 0),
        (&["acl", "set", "f", "--read", "base", "--as", "eve"], "", 3),
        (&["acl", "set", "f", "--read", "R"], "", 3),
        (&["acl", "set", "f"], "", 2),
        (&["acl", "get", "g"], "", 1),
    ];
    for (words, printed, status) in rows {
        assert_eq!(run(&server, words), ((*printed).to_owned(), Some(*status)), "{words:?}");
    }
    fs::remove_dir_all(folder).unwrap();
}

// By a shell, which can close the standard input.
fn by_shell(server: &Server, line: &str) -> (String, Option<i32>) {
    let line = line.replace("tillermoss ", &format!("{} --server {} ", program("tillermoss").display(), server.address));
    let output = Command::new("sh").arg("-c").arg(line).output().unwrap();
    (String::from_utf8([output.stdout, output.stderr].concat()).unwrap(), output.status.code())
}

#[test]
fn a_content_comes_from_where_users_expect() {
    let folder = folder("inputs");
    let server = Server::start(&folder.join("store.db")).unwrap();
    let file = folder.join("content");
    fs::write(&file, "of a file\n").unwrap();
    let put = |line: &str| by_shell(&server, line);
    let done = (String::new(), Some(0));
    assert_eq!(put("echo piped | tillermoss put f -"), done);
    assert_eq!(put("tillermoss get f"), ("piped\n".to_owned(), Some(0)));
    assert_eq!(put(&format!("tillermoss put f @{}", file.display())), done);
    assert_eq!(put("tillermoss get f"), ("of a file\n".to_owned(), Some(0)));
    for line in ["tillermoss put f <&-", "tillermoss put f - <&-"] {
        let (told, status) = put(line);
        assert!(told.contains("the standard input is closed") && status == Some(6), "{line}: {told}");
    }
    let (told, status) = put("tillermoss put f @/no/such/file");
    assert!(told.contains("/no/such/file: No such file") && status == Some(6), "{told}");
    assert_eq!(put("tillermoss get f"), ("of a file\n".to_owned(), Some(0)));
    assert_eq!(put("tillermoss put f </dev/null"), done);
    assert_eq!(put("tillermoss get f --raw"), done);
    fs::remove_dir_all(folder).unwrap();
}

#[test]
fn a_put_tells_the_generation_that_it_made() {
    let folder = folder("generations");
    let server = Server::start(&folder.join("store.db")).unwrap();
    let told =
        |generation, previous: &str| format!("{{\"content_generation\":{generation},\"instance\":4,\"name\":\"/ls/c/f\"{previous}}}\n");
    let before = ",\"previous\":{\"content\":\"c\",\"content_generation\":3,\"instance\":4,\"name\":\"/ls/c/f\"}";
    let rows: &[(&[&str], String)] = &[
        (&["put", "f", "a", "--json"], told(1, "")),
        (&["put", "f", "b", "--json"], told(2, "")),
        (&["put", "f", "c", "-o", "json", "--if-generation", "2"], told(3, "")),
        (&["put", "f", "d", "--json", "--prev"], told(4, before)),
    ];
    for (words, printed) in rows {
        assert_eq!(run(&server, words), (printed.clone(), Some(0)), "{words:?}");
    }
    fs::remove_dir_all(folder).unwrap();
}

// (who waits leaves at once when its time is over, or at a signal: the next one isn't kept from the lock)
#[test]
fn a_lock_is_waited_for_no_longer_than_asked() {
    let folder = folder("timeout");
    let server = Server::start(&folder.join("store.db")).unwrap();
    let begun_file = folder.join("begun");
    let mut first = start(&server, &["lock", "l", "--", "sh", "-c", &format!("touch {}; read line", begun_file.display())]);
    wait_for(&begun_file);
    let begun = Instant::now();
    assert_eq!(run(&server, &["lock", "l", "--timeout", "1", "--", "true"]).1, Some(3));
    assert!((1000..2500).contains(&begun.elapsed().as_millis()), "{:?}", begun.elapsed());
    let waits: [&[&str]; 3] =
        [&["lock", "l", "--", "true"], &["lock", "l", "--timeout", "60", "--", "true"], &["elect", "l", "a", "--", "true"]];
    let stopped = waits.map(|words| start(&server, words));
    thread::sleep(Duration::from_millis(500));
    let waiter = start(&server, &["elect", "l", "a", "--timeout", "60", "--", "true"]);
    thread::sleep(Duration::from_millis(500));
    let begun = Instant::now();
    for mut waiting in stopped {
        signal(&waiting, Signal::SIGTERM);
        assert_eq!(waiting.wait().unwrap().code(), Some(143));
    }
    first.stdin.take().unwrap().write_all(b"go\n").unwrap();
    assert!(first.wait().unwrap().success());
    assert_eq!(waiter.wait_with_output().unwrap().status.code(), Some(0));
    assert!(begun.elapsed() < Duration::from_secs(3), "{:?}", begun.elapsed());
    fs::remove_dir_all(folder).unwrap();
}

#[test]
fn a_long_wait_says_for_whom() {
    let folder = folder("waiting");
    let admin = format!("unix:{}", folder.join("admin").display());
    let server = Start::new(&folder.join("store.db")).with(&["--admin", &admin]).start().unwrap();
    let begun = folder.join("begun");
    let holding = ["lock", "l", "--as", "bob", "--", "sh", "-c", &format!("touch {}; read line", begun.display())];
    let mut first = start(&server, &holding);
    wait_for(&begun);
    for (words, wanted) in [
        (&["lock", "l"][..], "tillermoss: lock /ls/c/l waits: for others, who hold the lock"),
        (&["--admin", &admin, "lock", "l"], "tillermoss: lock /ls/c/l waits: for client 1 (bob)\n"),
    ] {
        let words = [words, &["--", "true"]].concat();
        let waiting = command(&server, &words).stderr(Stdio::piped()).spawn().unwrap();
        thread::sleep(Duration::from_millis(3500));
        signal(&waiting, Signal::SIGTERM);
        let told = String::from_utf8(waiting.wait_with_output().unwrap().stderr).unwrap();
        assert!(told.starts_with(wanted), "{told}");
    }
    first.stdin.take().unwrap().write_all(b"go\n").unwrap();
    assert!(first.wait().unwrap().success());
    fs::remove_dir_all(folder).unwrap();
}

// How many clients at once make the files of these numbers, whose names have 64 bytes.
fn make_files(server: &Server, directory: &str, numbers: std::ops::Range<usize>) -> Result<(), Error> {
    thread::scope(|scope| {
        let makers = (0..8).map(|maker| {
            let mine = numbers.clone().skip(maker).step_by(8);
            scope.spawn(move || {
                let client = Client::connect(&Options::new(&server.address, "ann"))?;
                for number in mine {
                    let file = client.create(&format!("{directory}/{number:064}"), b"")?;
                    client.close(file)?;
                }
                client.leave()
            })
        });
        makers.collect::<Vec<_>>().into_iter().try_for_each(|maker| maker.join().unwrap())
    })
}

// What is sent to a master is a block of 1,048,576 bytes at most. A listing of 15,000 names of 64 bytes is shorter, one of 17,000 is longer.
#[test]
fn a_directory_of_any_length_is_listed() {
    let folder = folder("listing");
    let server = Server::start(&folder.join("store.db")).unwrap();
    assert_eq!(run(&server, &["mkdir", "d"]), (String::new(), Some(0)));
    let mut before = 0;
    for count in [15_000, 17_000] {
        make_files(&server, "/ls/c/d", before..count).unwrap();
        before = count;
        let begun = Instant::now();
        let (printed, status) = run(&server, &["ls", "d"]);
        println!("commands: a directory of {count} names of 64 bytes is listed in {} ms", begun.elapsed().as_millis());
        assert_eq!(status, Some(0), "{count}");
        assert!(printed.lines().eq((0..count).map(|number| format!("{number:064}"))), "{count}");
        assert_eq!(run(&server, &["get", &format!("d/{:064}", count - 1)]), ("\n".to_owned(), Some(0)));
    }
    fs::remove_dir_all(folder).unwrap();
}

#[test]
fn a_lock_is_held_by_one_command() {
    let folder = folder("locking");
    let server = Server::start(&folder.join("store.db")).unwrap();
    let (begun, second) = (folder.join("begun"), folder.join("second"));
    let [begun_text, second_text] = [&begun, &second].map(|path| path.to_str().unwrap());
    let mut first = start(&server, &["lock", "l", "--", "sh", "-c", &format!("touch {begun_text}; read line; exit 7")]);
    wait_for(&begun);
    let mut other = start(&server, &["lock", "l", "--", "touch", second_text]);
    thread::sleep(Duration::from_millis(500));
    assert!(!second.exists());
    first.stdin.take().unwrap().write_all(b"go\n").unwrap();
    assert_eq!(first.wait().unwrap().code(), Some(7));
    assert!(other.wait().unwrap().success());
    assert!(second.exists());
    let (printed, status) = run(&server, &["lock", "l", "--", "sh", "-c", "echo $TILLERMOSS_SEQUENCER"]);
    assert_eq!(status, Some(0));
    let name: String = "/ls/c/l".bytes().map(|byte| format!("{byte:02x}")).collect();
    assert!(printed.trim_end().bytes().all(|digit| digit.is_ascii_hexdigit()) && printed.contains(&name), "{printed}");
    fs::remove_dir_all(folder).unwrap();
}

// (its session is ended by a tick alone, because nobody says anything meanwhile but who waits for the lock)
#[test]
fn a_lock_of_one_that_is_killed_goes_to_the_next() {
    let folder = folder("killed");
    let (settings, begun) = (folder.join("cell.toml"), folder.join("begun"));
    fs::write(&settings, "lease = 3000\n").unwrap();
    let server = Server::start_with(&folder.join("store.db"), Some(&settings)).unwrap();
    let script = format!("touch {}; cat", begun.display());
    let mut first = start(&server, &["lock", "l", "--", "sh", "-c", &script]);
    wait_for(&begun);
    let mut other = start(&server, &["lock", "l", "--", "true"]);
    thread::sleep(Duration::from_millis(500));
    assert!(other.try_wait().unwrap().is_none());
    first.kill().unwrap();
    first.wait().unwrap();
    let killed = Instant::now();
    assert!(other.wait().unwrap().success());
    assert!(killed.elapsed() > Duration::from_millis(500), "{:?}", killed.elapsed());
    fs::remove_dir_all(folder).unwrap();
}

#[test]
fn a_watch_tells_what_happens() {
    let folder = folder("watching");
    let server = Server::start(&folder.join("store.db")).unwrap();
    assert_eq!(run(&server, &["put", "f", "first"]).1, Some(0));
    let (mut file, mut told) = start_watch(&server, "f");
    let (mut directory, mut told_above) = start_watch(&server, "/ls/c");
    for content in ["second", "third"] {
        assert_eq!(run(&server, &["put", "f", content]).1, Some(0));
        assert_eq!(told.next().unwrap().unwrap(), "PUT /ls/c/f");
        assert_eq!(told.next().unwrap().unwrap(), content);
    }
    assert_eq!(run(&server, &["put", "g", "x"]).1, Some(0));
    assert_eq!(run(&server, &["rm", "f"]).1, Some(0));
    assert_eq!(told.next().unwrap().unwrap(), "DELETE /ls/c/f");
    assert!(file.wait().unwrap().success());
    for line in ["MODIFIED /ls/c/f", "MODIFIED /ls/c/f", "ADDED /ls/c/g", "REMOVED /ls/c/f"] {
        assert_eq!(told_above.next().unwrap().unwrap(), line);
    }
    directory.kill().unwrap();
    directory.wait().unwrap();
    fs::remove_dir_all(folder).unwrap();
}

// (each error names what was done, the key, the address and the reason)
#[test]
fn errors_say_what_was_refused_and_why() {
    let folder = folder("errors");
    let server = Start::new(&folder.join("store.db")).settings("[limits]\nnodes = 4\n").start().unwrap();
    assert_eq!(run(&server, &["put", "f", "x"]).1, Some(0));
    let rows: &[(&[&str], &str, i32)] = &[
        (&["get", "g"], "get /ls/c/g at ADDRESS: NotFound: no such node\n", 1),
        (&["put", "d/f", "x"], "put /ls/c/d/f at ADDRESS: NotFound: no such directory: /ls/c/d\n", 1),
        (&["mkdir", "d/e"], "mkdir /ls/c/d/e at ADDRESS: NotFound: no such directory: /ls/c/d\n", 1),
        (&["lock", "d/l", "--", "true"], "lock /ls/c/d/l at ADDRESS: NotFound: no such directory: /ls/c/d\n", 1),
        (&["register", "d/w", "x", "--", "true"], "register /ls/c/d/w at ADDRESS: NotFound: no such directory: /ls/c/d\n", 1),
        (&["ls", "f"], "ls /ls/c/f at ADDRESS: WrongKind file: ", 3),
        (&["get", "F"], "get /ls/c/F at ADDRESS: not a name", 2),
        (&["get", "/ls/d/f"], "get /ls/d/f at ADDRESS: OtherCell: ", 3),
        (&["get", "f", "--as", "eve"], "get /ls/c/f at ADDRESS: Denied read: ", 3),
        (&["put", "f", "y", "--if-generation", "2"], "put /ls/c/f at ADDRESS: WrongGeneration 1: ", 3),
        (&["lock", "f", "--", "/no/such/program"], "lock /ls/c/f at ADDRESS: /no/such/program: ", 6),
        (&["lock", "l", "--delay", "60001", "--", "true"], "lock /ls/c/l at ADDRESS: DelayTooLong: ", 3),
        (
            &["put", "g", "x"],
            "put /ls/c/g at ADDRESS: NoRoom 4: this limit of the cell leaves no room\n\
             tillermoss: delete or release what isn't needed; who runs the cell may raise the limit\n",
            3,
        ),
    ];
    let begun = Instant::now();
    let mut put = command(&server, &["put", "large"]).stdin(Stdio::piped()).stderr(Stdio::piped()).spawn().unwrap();
    put.stdin.take().unwrap().write_all(&[b'a'; 1 << 20]).unwrap();
    let output = put.wait_with_output().unwrap();
    let told = String::from_utf8(output.stderr).unwrap();
    assert!(told.contains("TooLarge") && output.status.code() == Some(3), "{told}");
    assert!(begun.elapsed() < Duration::from_secs(5), "{:?}", begun.elapsed());
    for (words, wanted, status) in rows {
        let output = command(&server, words).output().unwrap();
        let told = String::from_utf8(output.stderr).unwrap();
        let wanted = format!("tillermoss: {}", wanted.replace("ADDRESS", &server.address.to_string()));
        assert!(told.starts_with(&wanted), "{told} is not {wanted}");
        assert_eq!((output.status.code(), output.stdout), (Some(*status), vec![]), "{words:?}");
    }
    fs::remove_dir_all(folder).unwrap();
}

#[test]
fn a_signal_goes_to_the_command_and_ends_a_wait() {
    let folder = folder("signals");
    let (settings, begun) = (folder.join("cell.toml"), folder.join("begun"));
    fs::write(&settings, "lease = 1000\n").unwrap();
    let server = Server::start_with(&folder.join("store.db"), Some(&settings)).unwrap();
    let script = format!("trap 'exit 9' TERM; touch {}; while :; do sleep 0.05; done", begun.display());
    let mut first = start(&server, &["lock", "l", "--", "sh", "-c", &script]);
    wait_for(&begun);
    assert_eq!(run(&server, &["lock", "l", "--no-wait", "--", "true"]).1, Some(3));
    let mut other = start(&server, &["lock", "l", "--", "true"]);
    thread::sleep(Duration::from_millis(500));
    signal(&other, Signal::SIGINT);
    assert_eq!(other.wait().unwrap().code(), Some(130));
    signal(&first, Signal::SIGTERM);
    assert_eq!(first.wait().unwrap().code(), Some(9));
    assert_eq!(run(&server, &["lock", "l", "--", "true"]).1, Some(0));
    fs::remove_dir_all(folder).unwrap();
}

fn signal(child: &Child, signal: Signal) {
    kill(Pid::from_raw(i32::try_from(child.id()).unwrap()), signal).unwrap();
}

// (one that stands still for longer than its lease loses its session)
#[test]
fn a_command_is_ended_where_the_session_is_lost() {
    let folder = folder("lost");
    let (settings, begun, ended) = (folder.join("cell.toml"), folder.join("begun"), folder.join("ended"));
    fs::write(&settings, "lease = 1000\n").unwrap();
    let server = Server::start_with(&folder.join("store.db"), Some(&settings)).unwrap();
    let script = format!("trap 'touch {}; exit 9' TERM; touch {}; while :; do sleep 0.05; done", ended.display(), begun.display());
    let mut first = command(&server, &["lock", "l", "--", "sh", "-c", &script]);
    let first = first.stderr(Stdio::piped()).spawn().unwrap();
    wait_for(&begun);
    signal(&first, Signal::SIGSTOP);
    assert_eq!(run(&server, &["lock", "l", "--", "true"]).1, Some(0));
    assert!(!ended.exists());
    signal(&first, Signal::SIGCONT);
    let output = first.wait_with_output().unwrap();
    let told = String::from_utf8(output.stderr).unwrap();
    assert!(told.contains("the lease has ended: the command was ended"), "{told}");
    assert_eq!(output.status.code(), Some(5));
    assert!(ended.exists());
    fs::remove_dir_all(folder).unwrap();
}

// Two who stand for one lock, the first of them over a network that is cut off while its command runs: when the first command did
// something last, and when the second one began, in milliseconds after the cut; and how the first program ended. Each command writes the time into a file, the
// first one again and again.
fn cut_off(words: &[&str], script: &str) -> (i64, i64, Option<i32>) {
    let folder = folder("cut-off");
    let (settings, stamps, second) = (folder.join("cell.toml"), folder.join("stamps"), folder.join("second"));
    fs::write(&settings, "lease = 1000\n").unwrap();
    let server = Server::start_with(&folder.join("store.db"), Some(&settings)).unwrap();
    let relay = Relay::start(server.place().parse().unwrap()).unwrap();
    let place = relay.address().to_string();
    let stamp = |file: &Path| format!("date +%s%3N >>{}", file.display());
    let script = script.replace("WORK", &format!("while :; do {}; sleep 0.02; done", stamp(&stamps)));
    let first = Command::new(program("tillermoss"))
        .args(["--server", &place])
        .args(words)
        .args(["--", "sh", "-c", &script])
        .stdin(Stdio::null())
        .stderr(Stdio::null())
        .spawn();
    let mut first = first.unwrap();
    wait_for(&stamps);
    let mut other = start(&server, &["lock", "l", "--", "sh", "-c", &stamp(&second)]);
    thread::sleep(Duration::from_millis(300));
    relay.set(Passing::Nothing);
    let cut = milliseconds(&run_plainly("date", &["+%s%3N"]));
    assert!(other.wait().unwrap().success());
    let began = milliseconds(&fs::read_to_string(&second).unwrap()) - cut;
    // (one that runs on does something meanwhile)
    thread::sleep(Duration::from_millis(500));
    let last = fs::read_to_string(&stamps).unwrap().lines().last().map(milliseconds).unwrap() - cut;
    let status = ends_within(&mut first, if last > began { Duration::ZERO } else { Duration::from_secs(10) });
    relay.set(Passing::All);
    if status.is_none() {
        signal(&first, Signal::SIGTERM);
        first.wait().unwrap();
    }
    fs::remove_dir_all(folder).unwrap();
    (last, began, status)
}

fn ends_within(child: &mut Child, most: Duration) -> Option<i32> {
    let begun = Instant::now();
    loop {
        match child.try_wait().unwrap() {
            Some(status) => return status.code(),
            None if begun.elapsed() >= most => return None,
            None => thread::sleep(Duration::from_millis(20)),
        }
    }
}

fn milliseconds(text: &str) -> i64 {
    text.trim().parse().unwrap()
}

fn run_plainly(program: &str, words: &[&str]) -> String {
    String::from_utf8(Command::new(program).args(words).output().unwrap().stdout).unwrap()
}

// The commands: one that heeds SIGTERM, one that doesn't, and one that leaves a process of its own which doesn't.
#[test]
fn a_command_that_is_cut_off_ends_before_its_successor_begins() {
    let rows: &[(&[&str], &str)] = &[
        (&["lock", "l", "--grace", "1"], "WORK"),
        (&["lock", "l", "--grace", "1"], "trap '' TERM; WORK"),
        (&["lock", "l", "--grace", "1"], "(trap '' TERM; WORK) & trap exit TERM; wait"),
        (&["elect", "l", "a", "--grace", "1"], "trap '' TERM; WORK"),
    ];
    for (words, script) in rows {
        let (last, began, status) = cut_off(words, script);
        println!("commands: cut off, {} {script:?} did something last after {last} ms; the next began after {began} ms", words[0]);
        assert!(last < began, "{words:?} {script}: {last} {began}");
        assert_eq!(status, Some(5), "{words:?} {script}");
    }
}

#[test]
fn a_command_runs_on_where_that_is_asked_for() {
    let (last, began, status) = cut_off(&["lock", "l", "--keep-running"], "WORK");
    assert!(last > began, "{last} {began}");
    assert_eq!(status, None);
}

// What a command under a lock is told: its fencing number, its lock's generation, and its sequencer.
fn numbers(server: &Server, words: &[&str]) -> (u128, u64, String) {
    let script = "echo $TILLERMOSS_FENCING_NUMBER $TILLERMOSS_LOCK_GENERATION $TILLERMOSS_SEQUENCER";
    let (printed, status) = run(server, &[words, &["--", "sh", "-c", script]].concat());
    assert_eq!(status, Some(0), "{words:?}");
    let words: Vec<_> = printed.split_whitespace().collect();
    (words[0].parse().unwrap(), words[1].parse().unwrap(), words[2].to_owned())
}

// (where the file stays the generation rises too; where it is made anew the fencing number alone. For a minute after its start a server
// lets no ephemeral file go by itself)
#[test]
fn each_holder_of_a_name_has_a_greater_number() {
    let folder = folder("fencing");
    let server = Server::start(&folder.join("store.db")).unwrap();
    let rows: &[(&[&str], u64)] = &[
        (&["lock", "l", "--ephemeral"], 1),
        (&["rm", "l"], 0),
        (&["elect", "l", "a", "--ephemeral"], 1),
        (&["rm", "l"], 0),
        (&["elect", "l", "b"], 1),
        (&["elect", "l", "c"], 2),
        (&["lock", "l"], 3),
        (&["lock", "l", "--shared", "--ephemeral"], 4),
        (&["rm", "l"], 0),
        (&["lock", "l"], 1),
    ];
    let mut before = 0;
    for (words, generation) in rows {
        if *generation == 0 {
            assert_eq!(run(&server, words).1, Some(0), "{words:?}");
            continue;
        }
        let (number, present, _) = numbers(&server, words);
        assert_eq!(present, *generation, "{words:?}");
        assert!(number > before && number % (1 << 64) == u128::from(present), "{words:?}: {number} {before}");
        before = number;
    }
    fs::remove_dir_all(folder).unwrap();
}

#[test]
fn a_sequencer_is_checked_by_whoever_has_it() {
    let folder = folder("checking");
    let server = Server::start(&folder.join("store.db")).unwrap();
    let script = format!("{} --server {} check $TILLERMOSS_SEQUENCER", program("tillermoss").display(), server.address);
    let (printed, status) = run(&server, &["lock", "l", "--", "sh", "-c", &script]);
    assert_eq!(status, Some(0));
    let wanted = "name /ls/c/l\nmode exclusive\ninstance 4\nlock-generation 1\nfencing-number 73786976294838206465\n";
    assert_eq!(printed, wanted);
    let (_, _, sequencer) = numbers(&server, &["lock", "l"]);
    assert_eq!(run(&server, &["check", &sequencer]), (String::new(), Some(3)));
    for text in ["", "0", "xy", "00", &sequencer[2..]] {
        assert_eq!(run(&server, &["check", text]), (String::new(), Some(2)), "{text}");
    }
    fs::remove_dir_all(folder).unwrap();
}

#[test]
fn one_is_elected_and_the_next_one_follows() {
    let folder = folder("electing");
    let server = Server::start(&folder.join("store.db")).unwrap();
    let mut first = start(&server, &["elect", "primary", "a"]);
    let mut told = BufReader::new(first.stdout.take().unwrap()).lines();
    assert_eq!(told.next().unwrap().unwrap(), "elected /ls/c/primary");
    assert_eq!(run(&server, &["get", "primary"]), ("a\n".to_owned(), Some(0)));
    assert_eq!(run(&server, &["elect", "primary", "b", "--no-wait"]).1, Some(3));
    let mut second = start(&server, &["elect", "primary", "b"]);
    let mut told = BufReader::new(second.stdout.take().unwrap()).lines();
    signal(&first, Signal::SIGTERM);
    assert_eq!(first.wait().unwrap().code(), Some(0));
    assert_eq!(told.next().unwrap().unwrap(), "elected /ls/c/primary");
    assert_eq!(run(&server, &["get", "primary"]), ("b\n".to_owned(), Some(0)));
    signal(&second, Signal::SIGTERM);
    assert_eq!(second.wait().unwrap().code(), Some(0));
    fs::remove_dir_all(folder).unwrap();
}

#[test]
fn a_file_is_there_while_its_command_runs() {
    let folder = folder("registering");
    let server = Server::start(&folder.join("store.db")).unwrap();
    assert_eq!(run(&server, &["mkdir", "workers"]).1, Some(0));
    let program = program("tillermoss").display().to_string();
    let address = server.address.to_string();
    let words = ["register", "workers/a", "10.0.0.1:80", "--", &program, "--server", &address, "get", "workers/a"];
    assert_eq!(run(&server, &words), ("10.0.0.1:80\n".to_owned(), Some(0)));
    assert_eq!(run(&server, &["ls", "workers"]), (String::new(), Some(0)));
    let mut first = start(&server, &["register", "workers/a", "x"]);
    let mut told = BufReader::new(first.stdout.take().unwrap()).lines();
    assert_eq!(told.next().unwrap().unwrap(), "registered /ls/c/workers/a");
    assert_eq!(run(&server, &["register", "workers/a", "y", "--no-wait"]).1, Some(3));
    let mut second = start(&server, &["register", "workers/a", "y"]);
    thread::sleep(Duration::from_millis(300));
    signal(&first, Signal::SIGINT);
    assert_eq!(first.wait().unwrap().code(), Some(0));
    let mut told = BufReader::new(second.stdout.take().unwrap()).lines();
    assert_eq!(told.next().unwrap().unwrap(), "registered /ls/c/workers/a");
    assert_eq!(run(&server, &["get", "workers/a"]), ("y\n".to_owned(), Some(0)));
    signal(&second, Signal::SIGTERM);
    assert_eq!(second.wait().unwrap().code(), Some(0));
    fs::remove_dir_all(folder).unwrap();
}

#[test]
fn a_watch_tells_in_json_what_was_there_before() {
    let folder = folder("json");
    let server = Server::start(&folder.join("store.db")).unwrap();
    assert_eq!(run(&server, &["put", "f", "first"]).1, Some(0));
    let mut child = command(&server, &["watch", "f", "--prev", "-o", "json", "--count", "1"]);
    let mut child = child.stdout(Stdio::piped()).stderr(Stdio::piped()).spawn().unwrap();
    assert!(BufReader::new(child.stderr.take().unwrap()).lines().next().unwrap().unwrap().starts_with("watching"));
    assert_eq!(run(&server, &["put", "f", "second"]).1, Some(0));
    let output = child.wait_with_output().unwrap();
    let told: serde_json::Value = serde_json::from_slice(&output.stdout).unwrap();
    let wanted = serde_json::json!({
        "event": "put", "name": "/ls/c/f", "content": "second", "content_generation": 2,
        "previous": { "content": "first", "content_generation": 1 },
    });
    assert_eq!((told, output.status.code()), (wanted, Some(0)));
    fs::remove_dir_all(folder).unwrap();
}
