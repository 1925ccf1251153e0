//! The program of masters, as it was when the server began.

use std::env;
use std::fs::File;
use std::io::Read;
use std::os::fd::AsRawFd;
use std::os::unix::process::CommandExt;
use std::path::{Path, PathBuf};
use std::process::Command;
use std::sync::Arc;

/// How programs of this system begin.
const FORMAT: [u8; 4] = *b"\x7fELF";

/// The program, and its file, held open: where another version was put in its place since, masters of this server go on by the one that
/// it began with.
#[derive(Clone, Debug)]
pub struct Program {
    path: PathBuf,
    file: Option<Arc<File>>,
}

// Where a name without a folder is found on the path.
fn found(path: &Path) -> PathBuf {
    let on_path = env::var_os("PATH").filter(|_| path.components().count() == 1);
    let folders: Vec<PathBuf> = on_path.iter().flat_map(env::split_paths).collect();
    folders.into_iter().map(|folder| folder.join(path)).find(|program| program.is_file()).unwrap_or_else(|| path.to_owned())
}

// (a script is started by its name: who runs it would find no file)
fn hold(path: &Path) -> Option<Arc<File>> {
    let mut file = File::open(path).ok()?;
    let mut front = [0; 4];
    file.read_exact(&mut front).ok().filter(|()| front == FORMAT)?;
    Some(Arc::new(file))
}

impl Program {
    /// That of this file, or of this name on the path. (One that isn't there is told of when it is started.)
    #[must_use]
    pub fn new(path: &Path) -> Program {
        let path = found(path);
        let file = hold(&path);
        Program { path, file }
    }

    /// Where it stood when the server began.
    #[must_use]
    pub fn path(&self) -> &Path {
        &self.path
    }

    /// The command that starts it.
    #[must_use]
    pub fn command(&self) -> Command {
        let held = self.file.as_ref().map(|file| PathBuf::from(format!("/proc/self/fd/{}", file.as_raw_fd())));
        let mut command = Command::new(held.filter(|held| held.exists()).as_deref().unwrap_or(&self.path));
        command.arg0(&self.path);
        command
    }
}

#[cfg(test)]
mod tests {
    use super::*;
    use std::fs;

    #[test]
    fn what_is_put_in_its_place_is_not_started() {
        let folder = tempfile::tempdir().unwrap();
        let path = folder.path().join("program");
        fs::copy(found(Path::new("true")), &path).unwrap();
        let program = Program::new(&path);
        assert!(program.command().status().unwrap().success());
        fs::rename(&path, folder.path().join("aside")).unwrap();
        fs::copy(found(Path::new("false")), &path).unwrap();
        assert!(program.command().status().unwrap().success());
        assert!(!Program::new(&path).command().status().unwrap().success());
        fs::remove_file(folder.path().join("aside")).unwrap();
        assert!(program.command().status().unwrap().success());
    }

    #[test]
    fn a_name_is_looked_for_on_the_path() {
        assert!(found(Path::new("true")).is_absolute());
        assert_eq!(found(Path::new("./true")), Path::new("./true"));
        assert!(Program::new(Path::new("no such program")).command().status().is_err());
    }
}
