//! The file of the store, as the server looks at it: before a master is started, of a copy; and while one writes it, whether it is
//! still the same file.

use crate::master::numbers::Epochs;
use anyhow::{Context, Result, bail};
use nix::sys::statvfs::statvfs;
use rusqlite::{Connection, OpenFlags};
use std::fs::{self, File};
use std::io;
use std::os::unix::fs::MetadataExt;
use std::path::{Path, PathBuf};
use tempfile::TempDir;

/// The version of stores that a master carries over, which takes an epoch.
const OLD_VERSION: u64 = 1;

/// After a path's last letters: SQLite's log.
const LOG: &str = "wal";

/// How many bytes has a page of a store that the server makes.
const PAGE: u64 = 1024;

/// A database that has more bytes has a table.
const BLANK: u64 = 4096;

/// A file beside the store.
#[must_use]
pub fn beside(store: &Path, what: &str) -> PathBuf {
    let mut path = store.as_os_str().to_owned();
    path.push("-");
    path.push(what);
    PathBuf::from(path)
}

/// Whether there is a store: a file that isn't empty, and has tables. (One without them is left by a server that ended early.)
pub fn is_there(store: &Path) -> Result<bool> {
    match fs::metadata(store).map_or(0, |file| file.len()) {
        0 => Ok(false),
        length if length > BLANK => Ok(true),
        _ => {
            let folder = copy(store).with_context(|| format!("reading {}", store.display()))?;
            let tables = open(&copied(&folder))?.query_row("SELECT count(*) FROM sqlite_master", [], |row| row.get::<_, u64>(0));
            Ok(tables.map_or(true, |tables| tables > 0))
        }
    }
}

/// Makes the file of a store that isn't there: a database of small pages without tables, which its master makes. A commit writes each
/// page that it changes whole into the log, and sums it up twice: by small ones that is less. If there is a file, also an empty one,
/// or a link, or a log that was left, it makes none.
pub fn prepare(store: &Path) -> Result<()> {
    if fs::symlink_metadata(store).is_ok() || beside(store, LOG).exists() {
        return Ok(());
    }
    let folder = tempfile::Builder::new().prefix(&prefix(store)).tempdir_in(above(store))?;
    let made = copied(&folder);
    let connection = Connection::open(&made)?;
    connection.execute_batch(&format!("PRAGMA page_size = {PAGE}; VACUUM;"))?;
    connection.close().map_err(|(_, error)| error)?;
    File::open(&made)?.sync_all()?;
    fs::rename(&made, store)?;
    Ok(File::open(above(store))?.sync_all()?)
}

// How the folders of copies are named.
fn prefix(store: &Path) -> String {
    format!(".{}-copy-", store.file_name().unwrap_or_default().display())
}

fn above(store: &Path) -> &Path {
    store.parent().filter(|folder| !folder.as_os_str().is_empty()).unwrap_or(Path::new("."))
}

/// Removes the copies that a server which was killed has left. Its lock has to be held.
pub fn forget_copies(store: &Path) -> io::Result<()> {
    for entry in fs::read_dir(above(store))? {
        let entry = entry?;
        if entry.file_name().to_string_lossy().starts_with(&prefix(store)) {
            fs::remove_dir_all(entry.path())?;
        }
    }
    Ok(())
}

/// Copies the store and its log into a new folder beside it, which only this user reads. Nobody may write the store meanwhile. It
/// takes time and room as the store has bytes.
pub fn copy(store: &Path) -> io::Result<TempDir> {
    copy_into(store, store)
}

/// As `copy`, into a folder beside another path.
pub fn copy_into(store: &Path, near: &Path) -> io::Result<TempDir> {
    let folder = tempfile::Builder::new().prefix(&prefix(near)).tempdir_in(above(near))?;
    let copy = copied(&folder);
    fs::copy(store, &copy)?;
    match fs::copy(beside(store, LOG), beside(&copy, LOG)) {
        Err(error) if error.kind() != io::ErrorKind::NotFound => Err(error),
        _ => Ok(folder),
    }
}

/// The copy within its folder.
#[must_use]
pub fn copied(folder: &TempDir) -> PathBuf {
    folder.path().join("store.db")
}

/// Opens a copy by SQLite.
pub fn open(copy: &Path) -> Result<Connection> {
    Ok(Connection::open_with_flags(copy, OpenFlags::SQLITE_OPEN_READ_WRITE | OpenFlags::SQLITE_OPEN_NO_MUTEX)?)
}

/// Puts the log into the copy: then it is one file.
pub fn make_whole(connection: Connection) -> Result<()> {
    let sound: String = connection.query_row("PRAGMA integrity_check", [], |row| row.get(0))?;
    if sound != "ok" {
        bail!("SQLite finds the store damaged: {sound}");
    }
    connection.query_row("PRAGMA wal_checkpoint(TRUNCATE)", [], |_| Ok(()))?;
    connection.close().map_err(|(_, error)| error.into())
}

/// What stands at the head of a store.
#[derive(Clone, Copy, Debug, PartialEq, Eq)]
pub struct Head {
    /// The last master's epoch.
    pub epoch: u64,
    /// The highest that the next master takes.
    pub coming: u64,
    /// The secret is known to everybody: handles can be forged.
    pub has_known_secret: bool,
}

impl Head {
    /// That of an open store.
    pub fn read(connection: &Connection) -> Result<Head> {
        let read = |row: &rusqlite::Row| Ok((row.get::<_, u64>(0)?, row.get::<_, u64>(1)?, row.get::<_, Vec<u8>>(2)?));
        let (version, epoch, secret) = connection
            .query_row("SELECT version, epoch, secret FROM meta WHERE id = 1", [], read)
            .context("the store isn't that of a cell")?;
        let coming = epoch + 1 + u64::from(version == OLD_VERSION);
        Ok(Head { epoch, coming, has_known_secret: secret.iter().all(|byte| *byte == 0) })
    }

    /// The epochs that go with it, where the store is neither older nor newer than the numbers beside it.
    pub fn check(&self, noted: Option<Epochs>) -> Result<Epochs> {
        if let Some(Epochs { last, coming }) = noted {
            if self.epoch < last {
                bail!("the store is an older copy: its epoch is {}, and {last} was seen; tillermossd restore takes copies", self.epoch);
            }
            if self.epoch > coming {
                bail!(
                    "the store's epoch is {}, and its numbers know of {coming}: they are an older copy, or another program served it",
                    self.epoch
                );
            }
        }
        Ok(Epochs { last: self.epoch, coming: self.coming })
    }
}

/// Which file the store is.
#[derive(Clone, Debug, PartialEq, Eq)]
pub struct Identity {
    path: PathBuf,
    device: u64,
    inode: u64,
}

impl Identity {
    /// That of the file which is there now.
    pub fn of(path: &Path) -> io::Result<Identity> {
        let file = fs::metadata(path)?;
        Ok(Identity { path: path.to_owned(), device: file.dev(), inode: file.ino() })
    }

    /// Where it is.
    #[must_use]
    pub fn path(&self) -> &Path {
        &self.path
    }

    /// Whether its file system has less room than so many bytes; where it doesn't tell, it has more.
    #[must_use]
    pub fn is_short_of(&self, bytes: u64) -> bool {
        statvfs(&self.path).is_ok_and(|found| found.blocks_available().saturating_mul(found.fragment_size()) < bytes)
    }

    /// Why the file isn't the same any more.
    #[must_use]
    pub fn fault(&self) -> Option<String> {
        match Identity::of(&self.path) {
            Ok(now) if now == *self => None,
            Ok(_) => Some(format!("the store {} was replaced by another file", self.path.display())),
            Err(error) => Some(format!("the store {} went away: {error}", self.path.display())),
        }
    }
}

#[cfg(test)]
mod tests {
    use super::*;

    #[test]
    fn a_store_goes_with_its_numbers() {
        let head = |epoch, coming| Head { epoch, coming, has_known_secret: false };
        let rows = [
            (head(3, 4), None, Some((3, 4))),
            (head(3, 4), Some((3, 4)), Some((3, 4))),
            (head(4, 5), Some((3, 4)), Some((4, 5))),
            (head(2, 3), Some((3, 4)), None),
            (head(5, 6), Some((3, 4)), None),
        ];
        for (head, noted, wanted) in rows {
            let epochs = |(last, coming)| Epochs { last, coming };
            assert_eq!(head.check(noted.map(epochs)).ok(), wanted.map(epochs), "{head:?} {noted:?}");
        }
    }

    #[test]
    fn a_store_is_there_once_it_has_tables() {
        let folder = tempfile::tempdir().unwrap();
        let at = |name: &str| folder.path().join(name);
        prepare(&at("made")).unwrap();
        assert_eq!(fs::metadata(at("made")).unwrap().len(), PAGE);
        prepare(&at("full")).unwrap();
        open(&at("full")).unwrap().execute_batch("CREATE TABLE meta (id)").unwrap();
        // (its tables stand in its log alone)
        prepare(&at("logged")).unwrap();
        let logged = open(&at("logged")).unwrap();
        logged.execute_batch("PRAGMA journal_mode = WAL; CREATE TABLE meta (id)").unwrap();
        fs::write(at("empty"), b"").unwrap();
        fs::write(at("other"), b"no database").unwrap();
        fs::write(at("long"), [0; BLANK as usize + 1]).unwrap();
        let rows = [("none", false), ("empty", false), ("made", false), ("full", true), ("logged", true), ("other", true), ("long", true)];
        for (name, wanted) in rows {
            assert_eq!(is_there(&at(name)).unwrap(), wanted, "{name}");
        }
        prepare(&at("empty")).unwrap();
        assert_eq!(fs::metadata(at("empty")).unwrap().len(), 0);
        std::os::unix::fs::symlink(at("elsewhere"), at("link")).unwrap();
        prepare(&at("link")).unwrap();
        assert!(at("link").is_symlink() && !at("elsewhere").exists());
        let left = at("left");
        fs::write(beside(&left, LOG), b"a log").unwrap();
        prepare(&left).unwrap();
        assert!(!left.exists());
    }

    #[test]
    fn copies_that_were_left_are_removed() {
        let folder = tempfile::tempdir().unwrap();
        let (store, other) = (folder.path().join("s"), folder.path().join("t"));
        fs::write(&store, b"a").unwrap();
        fs::write(&other, b"b").unwrap();
        let left = copy(&store).unwrap().into_path();
        let kept = copy(&other).unwrap();
        forget_copies(&store).unwrap();
        assert!(!left.exists() && copied(&kept).exists());
    }

    #[test]
    fn a_file_that_is_another_is_known() {
        let folder = tempfile::tempdir().unwrap();
        let (path, other) = (folder.path().join("s"), folder.path().join("o"));
        fs::write(&path, b"a").unwrap();
        let identity = Identity::of(&path).unwrap();
        fs::write(&path, b"b").unwrap();
        assert_eq!(identity.fault(), None);
        fs::write(&other, b"b").unwrap();
        fs::rename(&other, &path).unwrap();
        assert!(identity.fault().unwrap().contains("was replaced"));
        fs::remove_file(&path).unwrap();
        assert!(identity.fault().unwrap().contains("went away"));
    }
}
