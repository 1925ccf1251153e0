//! The numbers of clients: each is given once, also across restarts. And the epochs of masters, by which an older copy of the store
//! is known.
//!
//! They stand in a small file beside the store, which is written and synced before a number is given, a hundred numbers ahead. So
//! a number that was given, and one whose giving was cut by a crash, isn't given again. Over rows in etcd they stand beside these, and
//! are taken by compare and swap: whoever takes has read what the last one left.

use crate::etcd::Rows;
use crate::etcd::decisions::number;
use crate::etcd::gateway::{Compare, Operation};
use anyhow::{Context, Result, bail};
use siphasher::sip::SipHasher24;
use std::collections::BTreeSet;
use std::fs::{self, File};
use std::hash::Hasher;
use std::io::{ErrorKind, Write};
use std::path::{Path, PathBuf};
use tempfile::NamedTempFile;

/// After the last number of a client.
const END: u64 = 1 << 53;

/// How many numbers are written down at once.
const AHEAD: u64 = 100;

/// The first line of the file, and that of files without epochs, which earlier servers wrote.
const TITLE: &str = "tillermoss-numbers 2";
const OLD_TITLE: &str = "tillermoss-numbers 1";

/// Between which epochs a store stands that this file goes with: the last that was seen, and the one that a master takes next.
#[derive(Clone, Copy, Debug, PartialEq, Eq)]
pub struct Epochs {
    /// The last one that was seen in the store.
    pub last: u64,
    /// The highest that a master which was started since may have taken.
    pub coming: u64,
}

impl Epochs {
    /// Those by which a store of this epoch is an older copy: it was moved elsewhere.
    #[must_use]
    pub fn after(epoch: u64) -> Epochs {
        Epochs { last: epoch + 1, coming: epoch + 2 }
    }
}

/// How often it is tried to take numbers beside rows, where others have taken some meanwhile.
const TRIES: usize = 4;

/// The numbers that were taken and not given yet, and the key by which a number's token is made.
#[derive(Debug)]
pub struct Numbers {
    path: PathBuf,
    // (in etcd they stand beside the rows, and no file has them)
    beside: Option<Beside>,
    taken: Taken,
    written: u64,
    key: [u8; 16],
    epochs: Option<Epochs>,
    ended: BTreeSet<u64>,
}

/// Numbers that one write has taken: the first of them, the one after the last, and how many are given.
#[derive(Clone, Copy, Debug)]
struct Taken {
    from: u64,
    to: u64,
    given: u64,
}

/// By what a client is known that was given a number.
#[derive(Clone, Copy, Debug)]
pub struct Given {
    // (all that were given are below it)
    next: u64,
    key: [u8; 16],
}

/// Where numbers stand beside rows.
#[derive(Debug)]
struct Beside {
    rows: Rows,
    key: String,
    /// The revision that wrote them, 0 where they aren't there; None where that has to be read again.
    changed: Option<i64>,
}

impl Taken {
    fn none(next: u64) -> Taken {
        Taken { from: next, to: next, given: 0 }
    }

    // Every number that was given is below it.
    fn next(self) -> u64 {
        self.from + self.given
    }
}

impl Numbers {
    /// Those of the file; where there is none they are made anew from `first` on, or from 1 where there is no store either, and not
    /// written yet. Over a store without the file nobody knows which numbers were used with it: that is refused, unless `first`
    /// says it. A file that was used, and no store, is refused too: the store went away.
    pub fn open(path: &Path, has_store: bool, first: Option<u64>) -> Result<Numbers> {
        match fs::read_to_string(path) {
            Ok(text) => {
                let numbers = Numbers::read(path, &text).with_context(|| format!("{} isn't a file of numbers", path.display()))?;
                if !has_store && !numbers.is_new() {
                    bail!("{} is there, but not its store: put the store back, or take that file away too", path.display());
                }
                Ok(numbers)
            }
            Err(error) if error.kind() != ErrorKind::NotFound => Err(error).with_context(|| format!("reading {}", path.display())),
            Err(_) if has_store && first.is_none() => {
                bail!("the store has no {}: say by --first N from which number on none was used", path.display())
            }
            Err(_) => Ok(Numbers::from(path, first.unwrap_or(1))),
        }
    }

    /// New ones from a number on.
    #[must_use]
    pub fn from(path: &Path, first: u64) -> Numbers {
        let taken = Taken::none(first);
        Numbers { path: path.to_owned(), beside: None, taken, written: first, key: rand::random(), epochs: None, ended: BTreeSet::new() }
    }

    /// Those that stand beside rows in etcd; new ones from a number on where none do.
    pub fn beside(rows: &Rows, first: u64) -> Result<Numbers> {
        let key = format!("{}numbers", rows.prefix);
        let mut beside = Beside { rows: rows.clone(), key, changed: None };
        let path = PathBuf::from(&beside.key);
        let numbers = beside.read()?.unwrap_or_else(|| Numbers::from(&path, first));
        Ok(Numbers { beside: Some(beside), ..numbers })
    }

    fn read(path: &Path, text: &str) -> Option<Numbers> {
        let mut lines = text.lines();
        let title = lines.next()?;
        let mut value = |name: &str| lines.next()?.strip_prefix(name)?.strip_prefix(' ');
        let next = value("next")?.parse().ok().filter(|next| (1..=END).contains(next))?;
        let mut key = [0; 16];
        hex::decode_to_slice(value("key")?, &mut key).ok()?;
        let epochs = match title {
            TITLE => Some(Epochs { last: value("epoch")?.parse().ok()?, coming: value("coming")?.parse().ok()? }),
            OLD_TITLE => None,
            _ => return None,
        };
        let ended = lines.next().map_or(Some(BTreeSet::new()), |line| {
            line.strip_prefix("ended ")?.split(' ').map(|number| number.parse().ok()).collect::<Option<BTreeSet<u64>>>()
        })?;
        let taken = Taken::none(next);
        lines.next().is_none().then(|| Numbers { path: path.to_owned(), beside: None, taken, written: next, key, epochs, ended })
    }

    // No master came up, and no number was given: where the first start ended early.
    fn is_new(&self) -> bool {
        self.taken.next() == 1 && self.epochs.is_some_and(|epochs| epochs.last == 0)
    }

    /// The epochs that a store of this file has; None where no server has noted them yet.
    #[must_use]
    pub fn epochs(&self) -> Option<Epochs> {
        self.epochs
    }

    /// Notes the epochs before a master is started, or once it is up.
    pub fn note(&mut self, epochs: Epochs) -> Result<()> {
        self.write(0, epochs).map(drop)
    }

    /// Notes that another master is started, before it is: it takes the epoch after those that others may have taken.
    pub fn note_start(&mut self) -> Result<()> {
        let Epochs { last, coming } = self.epochs.unwrap_or(Epochs { last: 0, coming: 0 });
        self.note(Epochs { last, coming: coming + 1 })
    }

    /// Notes the epoch of a master that is up, which no other follows before its start is noted. So a store goes with no numbers that
    /// were written before its own start.
    pub fn note_up(&mut self, epoch: u64) -> Result<()> {
        self.note(Epochs { last: epoch, coming: epoch })
    }

    /// The clients that operators have ended, as far as that was noted.
    #[must_use]
    pub fn ended(&self) -> &BTreeSet<u64> {
        &self.ended
    }

    /// Notes which clients operators have ended.
    pub fn note_ended(&mut self, ended: BTreeSet<u64>) -> Result<()> {
        self.ended = ended;
        self.note(self.epochs.unwrap_or(Epochs { last: 0, coming: 0 }))
    }

    // Takes so many numbers more, or as many as there are, and notes the epochs.
    fn write(&mut self, more: u64, epochs: Epochs) -> Result<Taken> {
        let taken = match self.beside.take() {
            Some(mut beside) => {
                let taken = beside.write(self, more, epochs);
                self.beside = Some(beside);
                taken?
            }
            None => {
                let taken = self.more(more);
                write_file(&self.path, &self.text(taken.to, epochs))?;
                taken
            }
        };
        (self.written, self.epochs) = (taken.to, Some(epochs));
        Ok(taken)
    }

    fn more(&self, more: u64) -> Taken {
        Taken { from: self.written, to: (self.written + more).min(END), given: 0 }
    }

    fn text(&self, next: u64, epochs: Epochs) -> String {
        let front = format!("{TITLE}\nnext {next}\nkey {}\nepoch {}\ncoming {}\n", hex::encode(self.key), epochs.last, epochs.coming);
        // (a file that an earlier server understands, where nobody was ended)
        if self.ended.is_empty() {
            return front;
        }
        let ended: Vec<String> = self.ended.iter().map(u64::to_string).collect();
        format!("{front}ended {}\n", ended.join(" "))
    }

    /// The next number. Where none is left, or it can't be written down, none is given.
    pub fn allot(&mut self) -> Result<u64> {
        let Taken { from, to, given } = self.taken;
        let found = match number(from, to, given) {
            Some(found) => found,
            None if self.written >= END => bail!("no number is left"),
            None => {
                let epochs = self.epochs.unwrap_or(Epochs { last: 0, coming: 0 });
                self.taken = self.write(AHEAD, epochs).with_context(|| format!("writing {}", self.path.display()))?;
                number(self.taken.from, self.taken.to, 0).context("no number is left")?
            }
        };
        self.taken.given += 1;
        Ok(found)
    }

    /// What shows which numbers are given by now.
    #[must_use]
    pub fn given(&self) -> Given {
        Given { next: self.taken.next(), key: self.key }
    }
}

impl Given {
    /// What shows that this number was given to a client that acts for this principal.
    #[must_use]
    pub fn token(&self, number: u64, principal: &str) -> u64 {
        digest(&self.key, &[&number.to_be_bytes(), principal.as_bytes()].concat())
    }

    /// Whether this number was given, to a client that acts for this principal and got this token.
    #[must_use]
    pub fn is_token(&self, number: u64, principal: &str, token: u64) -> bool {
        (1..self.next).contains(&number) && self.token(number, principal) == token
    }
}

fn write_file(path: &Path, text: &str) -> Result<()> {
    let folder = path.parent().filter(|folder| !folder.as_os_str().is_empty()).unwrap_or(Path::new("."));
    let mut file = NamedTempFile::new_in(folder)?;
    file.write_all(text.as_bytes())?;
    file.as_file().sync_all()?;
    file.persist(path)?;
    File::open(folder)?.sync_all()?;
    Ok(())
}

impl Beside {
    // What stands there now.
    fn read(&mut self) -> Result<Option<Numbers>> {
        let found = self.rows.gateway.get(&self.key)?;
        self.changed = Some(found.as_ref().map_or(0, |pair| pair.changed));
        let Some(pair) = found else {
            return Ok(None);
        };
        let numbers = Numbers::read(Path::new(&self.key), std::str::from_utf8(&pair.value)?);
        numbers.map(Some).with_context(|| format!("{} has no numbers", self.key))
    }

    // Takes numbers over those that stand there as they were read last, by compare and swap. If the outcome got lost they are read
    // again, and others are taken: what a lost write took, sooner or later, isn't given.
    fn write(&mut self, numbers: &mut Numbers, more: u64, epochs: Epochs) -> Result<Taken> {
        for _ in 0..TRIES {
            self.rows.mastership.check()?;
            let changed = match self.changed {
                Some(changed) => changed,
                None => {
                    if let Some(read) = self.read()? {
                        (numbers.written, numbers.key) = (read.written, read.key);
                    }
                    continue;
                }
            };
            let taken = numbers.more(more);
            let deeds = [Operation::Put(self.key.clone(), numbers.text(taken.to, epochs).into_bytes())];
            let written = self.rows.gateway.change(&[Compare::Changed(&self.key, changed), self.rows.mastership.fence()], &deeds);
            self.changed = written.as_ref().ok().copied().flatten();
            match written {
                Ok(Some(_)) => return Ok(taken),
                Ok(None) => self.rows.mastership.check_key()?,
                Err(lost) => return Err(lost.into()),
            }
        }
        bail!("others take numbers meanwhile")
    }
}

fn digest(key: &[u8; 16], message: &[u8]) -> u64 {
    let mut hasher = SipHasher24::new_with_key(key);
    hasher.write(message);
    hasher.finish()
}

#[cfg(test)]
mod tests {
    use super::*;
    use crate::etcd::mastership::{Bell, Mastership, Seat};
    use crate::etcd::pretended::{Pretended, Way};
    use std::sync::Arc;
    use std::thread;
    use tempfile::TempDir;

    const KEY: &str = "000102030405060708090a0b0c0d0e0f";

    fn folder() -> (TempDir, PathBuf) {
        let folder = tempfile::tempdir().unwrap();
        let path = folder.path().join("numbers");
        (folder, path)
    }

    #[test]
    fn no_number_is_given_twice() {
        let (_folder, path) = folder();
        let mut first = Numbers::open(&path, false, None).unwrap();
        assert_eq!((first.allot().unwrap(), first.allot().unwrap()), (1, 2));
        let mut second = Numbers::open(&path, true, None).unwrap();
        assert_eq!(second.allot().unwrap(), 101);
        assert_eq!(second.given().token(1, "ann"), first.given().token(1, "ann"));
        assert_eq!(first.allot().unwrap(), 3);
    }

    #[test]
    fn a_number_that_cannot_be_written_down_is_not_given() {
        let (_folder, path) = folder();
        let mut numbers = Numbers::open(&path, false, None).unwrap();
        fs::create_dir(&path).unwrap();
        assert!(numbers.allot().is_err());
        fs::remove_dir(&path).unwrap();
        assert_eq!(numbers.allot().unwrap(), 1);
    }

    #[test]
    fn a_store_and_its_numbers_stand_together() {
        let (_folder, path) = folder();
        assert!(Numbers::open(&path, true, None).is_err());
        assert!(!path.exists());
        assert_eq!(Numbers::open(&path, true, Some(9)).unwrap().allot().unwrap(), 9);
        assert!(Numbers::open(&path, false, None).is_err());
        assert_eq!(Numbers::open(&path, true, None).unwrap().allot().unwrap(), 109);
        let (_folder, path) = folder();
        Numbers::open(&path, false, None).unwrap().note(Epochs { last: 0, coming: 1 }).unwrap();
        assert_eq!(Numbers::open(&path, false, None).unwrap().allot().unwrap(), 1);
        assert!(Numbers::open(&path, false, None).is_err());
    }

    #[test]
    fn epochs_are_kept() {
        let (_folder, path) = folder();
        let epochs = Epochs { last: 7, coming: 8 };
        let mut numbers = Numbers::open(&path, false, None).unwrap();
        numbers.note(epochs).unwrap();
        assert_eq!(numbers.allot().unwrap(), 1);
        assert_eq!(Numbers::open(&path, true, None).unwrap().epochs(), Some(epochs));
    }

    #[test]
    fn who_was_ended_is_kept() {
        let (_folder, path) = folder();
        let mut numbers = Numbers::open(&path, false, None).unwrap();
        numbers.note(Epochs { last: 0, coming: 1 }).unwrap();
        assert_eq!(numbers.allot().unwrap(), 1);
        let ended = BTreeSet::from([1, 7]);
        numbers.note_ended(ended.clone()).unwrap();
        let again = Numbers::open(&path, true, None).unwrap();
        assert_eq!((again.ended(), again.epochs()), (&ended, Some(Epochs { last: 0, coming: 1 })));
        assert_eq!(numbers.allot().unwrap(), 2);
        numbers.note_ended(BTreeSet::new()).unwrap();
        assert!(Numbers::open(&path, true, None).unwrap().ended().is_empty());
    }

    #[test]
    fn each_start_is_noted() {
        let (_folder, path) = folder();
        let mut numbers = Numbers::open(&path, false, None).unwrap();
        let noted = |numbers: &Numbers| numbers.epochs().map(|epochs| (epochs.last, epochs.coming));
        numbers.note(Epochs { last: 6, coming: 7 }).unwrap();
        numbers.note_up(7).unwrap();
        assert_eq!(noted(&numbers), Some((7, 7)));
        // (one that took its epoch, and told nobody)
        numbers.note_start().unwrap();
        numbers.note_start().unwrap();
        assert_eq!(noted(&numbers), Some((7, 9)));
        numbers.note_up(9).unwrap();
        assert_eq!(noted(&Numbers::open(&path, true, None).unwrap()), Some((9, 9)));
    }

    #[test]
    fn a_file_is_taken_exactly_in_its_form() {
        let rows = [
            (format!("{TITLE}\nnext 1\nkey {KEY}\nepoch 3\ncoming 4\n"), true),
            (format!("{TITLE}\nnext 1\nkey {KEY}\nepoch 3\ncoming 4\nended 7 9\n"), true),
            (format!("{TITLE}\nnext 1\nkey {KEY}\nepoch 3\ncoming 4\nended \n"), false),
            (format!("{TITLE}\nnext 1\nkey {KEY}\nepoch 3\ncoming 4\nended 7\nmore\n"), false),
            (format!("{OLD_TITLE}\nnext 1\nkey {KEY}\n"), true),
            (format!("{OLD_TITLE}\nnext 9007199254740992\nkey {KEY}\n"), true),
            (format!("{OLD_TITLE}\nnext 9007199254740993\nkey {KEY}\n"), false),
            (format!("{OLD_TITLE}\nnext 0\nkey {KEY}\n"), false),
            (format!("{OLD_TITLE}\nnext 1\nkey {KEY}0\n"), false),
            (format!("{OLD_TITLE}\nnext 1\nkey {KEY}\nmore\n"), false),
            (format!("{OLD_TITLE}\nnext 1\n"), false),
            (format!("{TITLE}\nnext 1\nkey {KEY}\n"), false),
            (format!("{TITLE}\nnext 1\nkey {KEY}\nepoch x\ncoming 4\n"), false),
            (format!("next 1\nkey {KEY}\n"), false),
            (String::new(), false),
        ];
        for (text, wanted) in rows {
            assert_eq!(Numbers::read(Path::new("n"), &text).is_some(), wanted, "{text}");
        }
        let mut last = Numbers::read(Path::new("n"), &format!("{OLD_TITLE}\nnext 9007199254740992\nkey {KEY}\n")).unwrap();
        assert!(last.allot().is_err());
    }

    // A write of an earlier server is on its way while others give numbers, and is done late.
    #[test]
    fn a_number_is_given_once_beside_rows() {
        let etcd = Pretended::start();
        let mastership = Mastership::wait(
            &etcd.gateway(),
            "c/",
            &Seat { address: String::new(), server: "first".to_owned() },
            60,
            None,
            &Bell::default(),
            |_| {},
        );
        let rows = Rows { gateway: etcd.gateway(), prefix: "c/".to_owned(), mastership, found: Arc::default() };
        let numbers = || Numbers::beside(&rows, 1).unwrap();
        let mut given = vec![numbers().allot().unwrap()];
        etcd.go(&[Way::Held]);
        let mut first = numbers();
        let late = thread::spawn(move || first.allot());
        etcd.wait_for_held(1);
        let mut second = numbers();
        given.extend((0..400).map(|_| second.allot().unwrap()));
        etcd.let_through();
        given.extend(late.join().unwrap());
        given.push(numbers().allot().unwrap());
        let all = given.len();
        let last = given.last().copied();
        given.sort_unstable();
        given.dedup();
        assert_eq!(given.len(), all, "{last:?} was given twice");
    }

    // The first, ninth and sixteenth of the vectors that its authors give: key 00 to 0f, messages 00, 00 01, ..
    #[test]
    fn digests_are_those_of_the_authors() {
        let key: [u8; 16] = std::array::from_fn(|at| at as u8);
        let message: Vec<u8> = (0..15).collect();
        for (length, wanted) in [(0, 0x726f_db47_dd0e_0e31), (8, 0x93f5_f579_9a93_2462), (15, 0xa129_ca61_49be_45e5)] {
            assert_eq!(digest(&key, &message[..length]), wanted, "{length}");
        }
    }

    #[test]
    fn a_token_is_of_one_number_and_principal() {
        let (_folder, path) = folder();
        let mut numbers = Numbers::open(&path, false, None).unwrap();
        let number = numbers.allot().unwrap();
        let token = numbers.given().token(number, "ann");
        let rows = [
            (number, "ann", token, true),
            (number, "bob", token, false),
            (number, "ann", token ^ 1, false),
            (number + 1, "ann", numbers.given().token(number + 1, "ann"), false),
            (0, "ann", numbers.given().token(0, "ann"), false),
        ];
        for (number, principal, token, wanted) in rows {
            assert_eq!(numbers.given().is_token(number, principal, token), wanted, "{number} {principal}");
        }
    }
}
