//! The cell's names, each by a number, and what was written there: by it all that is read and cached is tested.

use crate::client::Step;
use crate::table::{Table, file_size};
use crate::wire::{Call, READ, READ_WRITE};
use rand::Rng;
use std::collections::HashMap;

/// So many directories stand in one of the first level.
const FANOUT: usize = 100;

/// What is known of a file or a directory. Versions count its changes from 0: so many were done for sure, and so many were asked for.
/// One client changes it at a time.
#[derive(Clone, Copy, Debug, Default)]
pub struct Record {
    pub done: u32,
    pub asked: u32,
    pub is_busy: bool,
    /// The bytes of a file; how many children a directory has besides the one that comes and goes.
    size: u32,
}

/// What a name may show: a version between these two.
#[derive(Clone, Copy, Debug, PartialEq, Eq)]
pub struct Range {
    pub from: u32,
    pub to: u32,
}

/// All names: files, after them directories, and after these names that are absent. In each directory one absent name comes and goes.
#[derive(Debug)]
pub struct Names {
    texts: Vec<String>,
    numbers: HashMap<String, u32>,
    records: Vec<Record>,
    pub files: u32,
    pub directories: u32,
    pub absent: u32,
    /// So many directories are of the first level.
    pub tops: u32,
}

impl Names {
    /// Those of a table. Nothing was written yet.
    pub fn new(table: &Table, random: &mut impl Rng) -> Names {
        let tops = table.directories.div_ceil(FANOUT);
        let directory = |at: usize| if at < tops { format!("/ls/c/t{at}") } else { format!("/ls/c/t{}/d{at}", at % tops) };
        let of_file = |file: usize| tops + file % (table.directories - tops);
        let mut texts: Vec<String> = (0..table.files).map(|file| format!("{}/f{file}", directory(of_file(file)))).collect();
        texts.extend((0..table.directories).map(directory));
        texts.extend((0..table.absent).map(|name| format!("{}/no{name}", directory(name % table.directories))));
        let mut records = vec![Record::default(); table.files + table.directories];
        for file in 0..table.files {
            records[file].size = file_size(random) as u32;
            records[table.files + of_file(file)].size += 1;
        }
        for inner in tops..table.directories {
            records[table.files + inner % tops].size += 1;
        }
        let numbers = texts.iter().enumerate().map(|(number, text)| (text.clone(), number as u32)).collect();
        let [files, directories, absent, tops] = [table.files, table.directories, table.absent, tops].map(|count| count as u32);
        Names { texts, numbers, records, files, directories, absent, tops }
    }

    pub fn text(&self, name: u32) -> &str {
        &self.texts[name as usize]
    }

    pub fn number(&self, text: &str) -> Option<u32> {
        self.numbers.get(text).copied()
    }

    pub fn is_file(&self, name: u32) -> bool {
        name < self.files
    }

    /// The directory of this number.
    pub fn directory(&self, at: u32) -> u32 {
        self.files + at
    }

    /// The absent name of this number.
    pub fn absence(&self, at: u32) -> u32 {
        self.files + self.directories + at
    }

    /// Whether it is one that comes and goes.
    pub fn comes_and_goes(&self, name: u32) -> bool {
        self.subject(name).is_some_and(|subject| subject != name)
    }

    /// Whose record tells of it: its own, or that of its directory; none of a name that is always absent.
    pub fn subject(&self, name: u32) -> Option<u32> {
        if name < self.files + self.directories {
            return Some(name);
        }
        let at = name - self.files - self.directories;
        (at < self.directories).then_some(self.files + at)
    }

    pub fn record(&self, name: u32) -> Option<&Record> {
        self.subject(name).map(|subject| &self.records[subject as usize])
    }

    fn record_mut(&mut self, name: u32) -> Option<&mut Record> {
        self.subject(name).map(|subject| &mut self.records[subject as usize])
    }

    /// The versions that may be shown from now on.
    pub fn range(&self, name: u32) -> Range {
        self.record(name).map_or(Range { from: 0, to: 0 }, |record| Range { from: record.done, to: record.asked })
    }

    /// Somebody wants to change it, where nobody does.
    pub fn take(&mut self, name: u32) -> bool {
        self.record_mut(name).is_some_and(|record| !std::mem::replace(&mut record.is_busy, true))
    }

    /// Whoever changed it doesn't any more.
    pub fn leave(&mut self, name: u32) {
        if let Some(record) = self.record_mut(name) {
            record.is_busy = false;
        }
    }

    /// A change is asked for; its version.
    pub fn ask(&mut self, name: u32) -> u32 {
        self.record_mut(name).map_or(0, |record| {
            record.asked += 1;
            record.asked
        })
    }

    /// The same of what comes and goes: one whose outcome isn't known is asked for again.
    pub fn ask_once(&mut self, name: u32) -> u32 {
        let range = self.range(name);
        if range.to > range.from { range.to } else { self.ask(name) }
    }

    /// A change was done, or was seen.
    pub fn done(&mut self, name: u32, version: u32) {
        if let Some(record) = self.record_mut(name) {
            record.done = record.done.max(version);
        }
    }

    /// Whether what was shown is of one of these versions. Of a file its version is shown; else whether what comes and goes is there.
    pub fn may_show(&self, name: u32, shown: u32, range: Range) -> bool {
        if self.is_file(name) {
            return (range.from..=range.to).contains(&shown);
        }
        range.to > range.from || shown == range.to % 2
    }

    /// The call of a step, by this handle where it wants one, with this content of a file that is made or set.
    pub fn call<'a>(&'a self, step: Step, handle: &'a [u8], content: &'a [u8]) -> Call<'a> {
        let name = step.name().unwrap_or_default();
        let text = self.text(name);
        let is_directory = (self.files..self.absence(0)).contains(&name);
        match step {
            Step::Open(_) => Call::Open(text, READ),
            Step::OpenToWrite(_) => Call::Open(text, READ_WRITE),
            Step::Make(_) if is_directory => Call::MakeDirectory(text),
            Step::Make(_) => Call::MakeFile(text, content),
            Step::Close(_) => Call::Close(handle),
            Step::Read(_) if is_directory => Call::List(handle),
            Step::Read(_) => Call::Read(handle),
            Step::Stat(_) => Call::Stat(handle),
            Step::Set(_) => Call::Set(handle, content),
            Step::Delete(_) => Call::Delete(handle),
            Step::Acquire(_) => Call::Acquire(handle),
            Step::Release(_) => Call::Release(handle),
            Step::Leave => Call::Leave,
        }
    }

    /// The content of a file of this version.
    pub fn content(&self, file: u32, version: u32) -> Vec<u8> {
        let mut content = format!("{file} {version} ").into_bytes();
        // (the least size has room for what stands there)
        content.resize(self.records[file as usize].size as usize, b'.');
        content
    }

    /// What a content shows; None where no version has it.
    pub fn version(&self, file: u32, content: &[u8]) -> Option<u32> {
        let front = content.get(..content.len().min(32))?;
        let version = std::str::from_utf8(front).ok()?.split(' ').nth(1)?.parse().ok()?;
        (self.content(file, version) == content).then_some(version)
    }

    /// What a listing shows; None where no version has it.
    pub fn presence(&self, directory: u32, children: usize) -> Option<u32> {
        let size = self.records[directory as usize].size;
        u32::try_from(children).ok()?.checked_sub(size).filter(|more| *more < 2)
    }
}

#[cfg(test)]
mod tests {
    use super::*;
    use rand::SeedableRng;
    use rand::rngs::SmallRng;

    fn names() -> Names {
        Names::new(&Table::of(0.01), &mut SmallRng::seed_from_u64(1))
    }

    #[test]
    fn each_name_has_a_number() {
        let names = names();
        for (name, text) in
            [(0, "/ls/c/t0/d1/f0"), (219, "/ls/c/t0/d62/f219"), (220, "/ls/c/t0"), (221, "/ls/c/t0/d1"), (300, "/ls/c/t0/no0")]
        {
            assert_eq!((names.text(name), names.number(text)), (text, Some(name)));
        }
        assert!(names.comes_and_goes(300) && names.comes_and_goes(379) && !names.comes_and_goes(380) && !names.comes_and_goes(220));
    }

    #[test]
    fn a_version_is_shown_while_it_may_be() {
        let mut names = names();
        assert_eq!(names.ask(5), 1);
        let meanwhile = names.range(5);
        names.done(5, 1);
        let rows =
            [(0, meanwhile, true), (1, meanwhile, true), (2, meanwhile, false), (0, names.range(5), false), (1, names.range(5), true)];
        for (shown, range, wanted) in rows {
            assert_eq!(names.may_show(5, shown, range), wanted, "{shown} {range:?}");
        }
        assert_eq!(names.version(5, &names.content(5, 1)), Some(1));
        assert_eq!(names.version(5, &names.content(6, 1)), None);
    }

    #[test]
    fn what_comes_and_goes_is_there_by_turns() {
        let mut names = names();
        let (absence, directory) = (names.absence(3), names.directory(3));
        assert_eq!(names.range(absence), Range { from: 0, to: 0 });
        assert!(names.may_show(absence, 0, names.range(absence)));
        names.ask(absence);
        assert!(names.may_show(absence, 0, names.range(absence)) && names.may_show(directory, 1, names.range(directory)));
        names.done(absence, 1);
        assert!(!names.may_show(absence, 0, names.range(absence)) && !names.may_show(directory, 0, names.range(directory)));
        let children = names.records[directory as usize].size as usize;
        for (count, wanted) in [(children, Some(0)), (children + 1, Some(1)), (children + 2, None), (children - 1, None)] {
            assert_eq!(names.presence(directory, count), wanted);
        }
    }
}
