//! What the server and its master use of the machine, as the kernel tells it.

use nix::unistd::{SysconfVar, sysconf};
use std::fs;
use std::path::Path;
use std::time::{SystemTime, UNIX_EPOCH};

/// What a process uses; nothing of one that is gone.
#[derive(Clone, Copy, Debug, Default, PartialEq)]
pub struct Used {
    /// Bytes of memory that are present.
    pub memory: u64,
    /// Seconds of processors.
    pub seconds: f64,
    /// Descriptors that are open.
    pub files: u64,
    /// When it began, in seconds since 1970.
    pub started: f64,
}

impl Used {
    /// That of the process with this number, or of `self`.
    #[must_use]
    pub fn of(process: &str) -> Used {
        let folder = Path::new("/proc").join(process);
        let stat = fs::read_to_string(folder.join("stat")).unwrap_or_default();
        // (the name, which may have spaces, stands in brackets)
        let fields: Vec<u64> = stat.rsplit(')').next().unwrap_or_default().split(' ').map(|field| field.parse().unwrap_or(0)).collect();
        let field = |number: usize| fields.get(number - 2).copied().unwrap_or(0);
        let setting = |name| sysconf(name).ok().flatten().and_then(|value| u64::try_from(value).ok()).unwrap_or(1);
        let ticks = setting(SysconfVar::CLK_TCK) as f64;
        Used {
            memory: field(24) * setting(SysconfVar::PAGE_SIZE),
            seconds: (field(14) + field(15)) as f64 / ticks,
            files: fs::read_dir(folder.join("fd")).map_or(0, |files| files.count() as u64),
            started: if stat.is_empty() { 0.0 } else { start_of_the_machine() + field(22) as f64 / ticks },
        }
    }

    /// That of the server's master.
    #[must_use]
    pub fn of_master() -> Used {
        master().map(|master| Used::of(&master)).unwrap_or_default()
    }
}

/// The process of the server's master, its only child of another program.
#[must_use]
pub fn master() -> Option<String> {
    let tasks = fs::read_dir("/proc/self/task").into_iter().flatten().flatten();
    let children = tasks.filter_map(|task| fs::read_to_string(task.path().join("children")).ok()).collect::<String>();
    let program = |process: &str| fs::read_link(Path::new("/proc").join(process).join("exe")).ok();
    let own = program("self");
    // (one that has ended has no program)
    children.split_whitespace().find(|child| program(child).is_some_and(|other| Some(other) != own)).map(str::to_owned)
}

fn start_of_the_machine() -> f64 {
    let uptime = fs::read_to_string("/proc/uptime").unwrap_or_default();
    let seconds: f64 = uptime.split(' ').next().and_then(|seconds| seconds.parse().ok()).unwrap_or(0.0);
    let now = SystemTime::now().duration_since(UNIX_EPOCH).map_or(0.0, |now| now.as_secs_f64());
    now - seconds
}

#[cfg(test)]
mod tests {
    use super::*;

    #[test]
    fn a_process_uses_something() {
        let own = Used::of("self");
        assert!(own.memory > 1 << 16 && own.memory < 1 << 36, "{own:?}");
        assert!(own.files >= 3, "{own:?}");
        let now = SystemTime::now().duration_since(UNIX_EPOCH).unwrap().as_secs_f64();
        assert!((now - own.started).abs() < 3600.0, "{own:?} {now}");
        assert_eq!(Used::of("0"), Used::default());
    }
}
