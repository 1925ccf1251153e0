//! A store is served by one server at a time.

use nix::fcntl::{FcntlArg, FdFlag, fcntl};
use std::fs::{self, File, TryLockError};
use std::io::{self, ErrorKind, Write};
use std::os::fd::AsRawFd;
use std::path::Path;
use std::process;
use std::thread;
use std::time::{Duration, Instant};

/// How long a server waits for one before it that lives.
const PATIENCE: Duration = Duration::from_secs(10);

/// How long it waits for the master of one that is gone.
const LONG_PATIENCE: Duration = Duration::from_secs(60);

/// The time between two tries.
const PAUSE: Duration = Duration::from_millis(20);

/// Takes the lock of a store, in a file beside it; waits a while where another has it, such as a master whose server was killed.
/// The lock is held until the file that is given back is closed, in this process and in those that it starts from here on: so it
/// is held as long as a master lives that this server starts.
pub fn take_lock(path: &Path) -> io::Result<File> {
    let opened = File::options().create(true).truncate(false).read(true).write(true).open(path);
    let mut file = opened.map_err(|error| not_opened(path, &error))?;
    let begun = Instant::now();
    loop {
        match file.try_lock() {
            Ok(()) => break,
            Err(TryLockError::Error(error)) => return Err(error),
            Err(TryLockError::WouldBlock) if begun.elapsed() < patience(path) => thread::sleep(PAUSE),
            Err(TryLockError::WouldBlock) => {
                return Err(io::Error::new(ErrorKind::WouldBlock, format!("another server holds {}: end that one first", path.display())));
            }
        }
    }
    inherit(&file)?;
    file.set_len(0)?;
    writeln!(file, "{}", process::id())?;
    Ok(file)
}

fn not_opened(path: &Path, error: &io::Error) -> io::Error {
    let cure = match error.kind() {
        ErrorKind::NotFound => "make its folder first, for this user alone",
        ErrorKind::PermissionDenied => "start this as the user whose it is",
        _ => "it has to be a file that this user may write",
    };
    io::Error::new(error.kind(), format!("opening {}: {error}: {cure}", path.display()))
}

// The file has the number of the process of the server that took the lock.
fn patience(path: &Path) -> Duration {
    let process = fs::read_to_string(path).unwrap_or_default();
    let is_alive = Path::new("/proc").join(process.trim()).exists();
    if is_alive { PATIENCE } else { LONG_PATIENCE }
}

// Programs that are started get the descriptor too.
fn inherit(file: &File) -> io::Result<()> {
    fcntl(file.as_raw_fd(), FcntlArg::F_SETFD(FdFlag::empty()))?;
    Ok(())
}

#[cfg(test)]
mod tests {
    use super::*;
    use std::process::{Command, id};

    #[test]
    fn one_that_is_gone_is_waited_for_longer() {
        let path = std::env::temp_dir().join(format!("tillermossd-patience-{}", id()));
        for (text, wanted) in [(format!("{}\n", id()), PATIENCE), ("999999999\n".to_owned(), LONG_PATIENCE)] {
            fs::write(&path, text).unwrap();
            assert_eq!(patience(&path), wanted);
        }
    }

    #[test]
    fn a_lock_is_held_by_what_was_started_too() {
        let path = std::env::temp_dir().join(format!("tillermossd-lock-{}", id()));
        let held = take_lock(&path).unwrap();
        let mut child = Command::new("sleep").arg("60").spawn().unwrap();
        drop(held);
        let other = File::options().append(true).open(&path).unwrap();
        assert!(matches!(other.try_lock(), Err(TryLockError::WouldBlock)));
        child.kill().unwrap();
        child.wait().unwrap();
        assert!(take_lock(&path).is_ok());
    }
}
