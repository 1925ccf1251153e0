//! Two named pipes to a master: what it asks in one, what is answered in the other.

use crate::etcd::keeper::RowsKeeper;
use crate::etcd::rows::RowsAnswer;
use anyhow::{Context, Result};
use host_wire::rows::write_verdict;
use host_wire::{ANSWER_LIMIT, Blocks};
use nix::libc;
use nix::sys::stat::Mode;
use nix::unistd::mkfifo;
use std::fs::File;
use std::io::Write;
use std::os::unix::fs::OpenOptionsExt;
use std::path::Path;
use std::sync::Arc;
use std::sync::atomic::{AtomicBool, Ordering};
use std::thread::{self, JoinHandle};
use std::time::Duration;
use tempfile::TempDir;
use tracing::{debug, error};

/// How the two are called.
const ASKED: &str = "asked";
const ANSWERED: &str = "answered";

/// How often it is looked whether a keeper's thread has ended.
const PAUSE: Duration = Duration::from_millis(5);

/// The pipes of a master.
#[derive(Debug)]
pub struct MasterPipes {
    folder: TempDir,
    has_ended: Arc<AtomicBool>,
    waits_for_room: Arc<AtomicBool>,
    is_to_end: Arc<AtomicBool>,
    keeping: JoinHandle<()>,
}

impl MasterPipes {
    /// The folder in which they are.
    #[must_use]
    pub fn folder(&self) -> &Path {
        self.folder.path()
    }

    /// Whether no commit of this master is kept any more: another one has to load the rows.
    #[must_use]
    pub fn has_ended(&self) -> bool {
        self.has_ended.load(Ordering::SeqCst)
    }

    /// Whether that is so because etcd had no room: this master goes on without commits until there is some.
    #[must_use]
    pub fn waits_for_room(&self) -> bool {
        self.waits_for_room.load(Ordering::SeqCst)
    }

    /// Ends the keeper of a master that is gone, and waits for its thread: for an answer of etcd at most.
    pub fn end(self) {
        self.is_to_end.store(true, Ordering::SeqCst);
        while !self.keeping.is_finished() {
            // (it may wait for a master that opens the pipes, and none will)
            for (name, is_read) in [(ASKED, false), (ANSWERED, true)] {
                let opened = File::options().read(is_read).write(!is_read).custom_flags(libc::O_NONBLOCK).open(self.folder().join(name));
                drop(opened);
            }
            thread::sleep(PAUSE);
        }
        if self.keeping.join().is_err() {
            error!("the thread that keeps the rows has failed");
        }
    }
}

/// Makes the pipes in a folder of their own, and a thread that keeps the rows by them until the master is gone. Nothing is answered
/// after a fault: the master is told no more.
pub fn keep(mut keeper: RowsKeeper) -> Result<MasterPipes> {
    let folder = tempfile::Builder::new().prefix("tillermossd-rows-").tempdir()?;
    for name in [ASKED, ANSWERED] {
        mkfifo(&folder.path().join(name), Mode::S_IRUSR | Mode::S_IWUSR)?;
    }
    let (is_to_end, has_ended, waits_for_room) = (keeper.is_ended(), Arc::new(AtomicBool::new(false)), Arc::new(AtomicBool::new(false)));
    let (path, noted, waiting) = (folder.path().to_owned(), has_ended.clone(), waits_for_room.clone());
    let keeping = thread::spawn(move || match serve(&mut keeper, &path, &noted, &waiting) {
        // (one that goes in order is gone before all that it told is heard)
        Ok(()) => debug!("the master asks no more"),
        Err(fault) => {
            error!(reason = %format_args!("{fault:#}"), "the rows are kept no more");
            noted.store(true, Ordering::SeqCst);
        }
    });
    Ok(MasterPipes { folder, has_ended, waits_for_room, is_to_end, keeping })
}

// (after a commit that was refused a master is told of no other; the answer goes out after the note of it)
fn serve(keeper: &mut RowsKeeper, folder: &Path, has_ended: &AtomicBool, waits_for_room: &AtomicBool) -> Result<()> {
    let mut asked = File::open(folder.join(ASKED))?;
    let mut answered = File::options().write(true).open(folder.join(ANSWERED))?;
    let mut blocks = Blocks::new(ANSWER_LIMIT);
    while let Some(block) = blocks.next(&mut asked)? {
        let answer = keeper.answer(&block);
        match &answer {
            Ok(RowsAnswer::Verdict(false)) if keeper.wants_room() => waits_for_room.store(true, Ordering::SeqCst),
            Err(_) | Ok(RowsAnswer::Verdict(false)) => has_ended.store(true, Ordering::SeqCst),
            Ok(_) => {}
        }
        match answer? {
            RowsAnswer::Rows(front, rows) => {
                answered.write_all(&front)?;
                answered.write_all(&rows)?;
            }
            RowsAnswer::Verdict(is_kept) => answered.write_all(&write_verdict(is_kept).context("memory is wanting")?)?,
        }
    }
    Ok(())
}
