//! Measures one thing of one service, and prints the figure: of a cell, of etcd, or of ZooKeeper, with the same clients in threads.
//! `bench/peers` starts the services, and asks for the figures one by one.

mod cell;
mod etcd;
mod zookeeper;

use std::error::Error;
use std::sync::atomic::{AtomicBool, AtomicU32, Ordering};
use std::thread;
use std::time::{Duration, Instant};

/// What a measurement comes to.
type Measured<T> = Result<T, Box<dyn Error + Send + Sync>>;

/// The content of each file, or the value of each key.
const CONTENT: [u8; 64] = [b'a'; 64];

/// How many files each of the reading clients reads, and so many clients read.
const FILES: u32 = 2000;
const READERS: u32 = 8;

/// How many threads fill a service, so many names stand in one directory, and so many directories of a filled service are listed.
const FILLERS: u32 = 32;
const CHILDREN: u32 = 1000;
const DIRECTORIES: u32 = 100;

/// How many files each client deletes.
const DELETED: u32 = 500;

/// A service as one client with a session sees it. A name is one component or two, as `f` and `d/f`.
trait Session: Send {
    /// Makes a directory, where the service has such.
    fn make_directory(&mut self, name: &str) -> Measured<()>;
    /// Makes a file with the content.
    fn make(&mut self, name: &str) -> Measured<()>;
    /// Makes these files, as fast as that goes.
    fn make_all(&mut self, names: &[String]) -> Measured<()> {
        names.iter().try_for_each(|name| self.make(name))
    }
    /// Gets what the calls below need of the name, if anything.
    fn open(&mut self, name: &str) -> Measured<()>;
    /// Writes the content of a file that is open.
    fn set(&mut self, name: &str) -> Measured<()>;
    /// Reads a file that is open; the server answers.
    fn read(&mut self, name: &str) -> Measured<()>;
    /// Deletes a file that is open.
    fn delete(&mut self, name: &str) -> Measured<()>;
    /// How many names stand in an open directory, which this session hasn't listed before: the server answers.
    fn list(&mut self, name: &str) -> Measured<usize>;
    /// Reads a file that is open, so that `wait_told` is over when the client knows that it is no longer so.
    fn follow(&mut self, name: &str) -> Measured<()>;
    /// Waits until the client knows that what it followed was written.
    fn wait_told(&mut self) -> Measured<()>;
    /// Takes the lock of an open file, and waits for it.
    fn lock(&mut self, name: &str) -> Measured<()>;
    /// Lets it go.
    fn unlock(&mut self, name: &str) -> Measured<()>;
    /// Keeps the session. It is called each second while nothing else is asked of it.
    fn keep(&mut self) -> Measured<()>;
}

/// Where a service is.
#[derive(Clone, Copy)]
enum Service<'a> {
    Cell(&'a str),
    Etcd(&'a str),
    ZooKeeper(&'a str),
}

impl Service<'_> {
    fn session(self) -> Measured<Box<dyn Session>> {
        Ok(match self {
            Service::Cell(address) => Box::new(cell::Cell::connect(address)?),
            Service::Etcd(address) => Box::new(etcd::Etcd::connect(address)?),
            Service::ZooKeeper(address) => Box::new(zookeeper::ZooKeeper::connect(address)?),
        })
    }

    fn sessions(self, count: u32) -> Measured<Vec<Box<dyn Session>>> {
        (0..count).map(|_| self.session()).collect()
    }
}

fn main() -> Measured<()> {
    let words: Vec<_> = std::env::args().skip(1).collect();
    let [service, address, measure, count, seconds] = &words[..] else {
        return Err(
            "usage: peers cell|etcd|zookeeper ADDRESS sets|transactions|creates|deletes|lists|reads|told|locks|cached|fill|ready|first COUNT SECONDS".into()
        );
    };
    let service = match service.as_str() {
        "cell" => Service::Cell(address),
        "etcd" => Service::Etcd(address),
        "zookeeper" => Service::ZooKeeper(address),
        _ => return Err(format!("no such service: {service}").into()),
    };
    let (count, lasting) = (count.parse()?, Duration::from_secs(seconds.parse()?));
    let figure = match measure.as_str() {
        "sets" => sets(service, count, lasting)?,
        "transactions" => transactions(address, count, lasting)?,
        "creates" => creates(service, count, lasting)?,
        "deletes" => deletes(service, count)?,
        "lists" => lists(service, count, lasting)?,
        "reads" => reads(service, count)?,
        "told" => told(service, count, lasting)?,
        "locks" => locks(service, count, lasting)?,
        "cached" => cell::cached(address, count, lasting)?,
        "fill" => fill(service, count)?,
        "ready" => waited(lasting, || service.session().map(|_| ()))?,
        "first" => waited(lasting, || first(service))?,
        _ => return Err(format!("no such measure: {measure}").into()),
    };
    println!("{figure:.2}");
    Ok(())
}

// Does it with each session in a thread of its own, again and again for so long; how often a second all of them did it. (The sessions
// end after that.)
fn all_at_once<S: Send>(sessions: Vec<S>, lasting: Duration, deed: impl Fn(&mut S, u32) -> Measured<()> + Sync) -> Measured<f64> {
    let begun = Instant::now();
    let count = AtomicU32::new(0);
    let numbered = (0..).zip(sessions).collect();
    let sessions = each_by_itself(numbered, |(number, session): &mut (u32, S)| {
        while begun.elapsed() < lasting {
            deed(session, *number)?;
            count.fetch_add(1, Ordering::Relaxed);
        }
        Ok(())
    });
    let spent = begun.elapsed().as_secs_f64();
    sessions.map(|_| f64::from(count.into_inner()) / spent)
}

// Does it with each of them in a thread of its own; gives them back.
fn each_by_itself<S: Send>(some: Vec<S>, deed: impl Fn(&mut S) -> Measured<()> + Sync) -> Measured<Vec<S>> {
    thread::scope(|scope| {
        let deed = &deed;
        let each = |mut one: S| scope.spawn(move || deed(&mut one).map(|()| one));
        let doing: Vec<_> = some.into_iter().map(each).collect();
        doing.into_iter().map(|doing| doing.join().map_err(|_| "a thread failed")?).collect()
    })
}

// Writes a second, each client's to a file of its own.
fn sets(service: Service<'_>, clients: u32, lasting: Duration) -> Measured<f64> {
    let mut sessions = service.sessions(clients)?;
    // (each run has names that no other had)
    let run = std::process::id();
    for (number, session) in sessions.iter_mut().enumerate() {
        let name = format!("set{run}-{number}");
        session.make(&name)?;
        session.open(&name)?;
    }
    all_at_once(sessions, lasting, |session, number| session.set(&format!("set{run}-{number}")))
}

// Transactions a second of an etcd, each client's of keys of its own.
fn transactions(address: &str, clients: u32, lasting: Duration) -> Measured<f64> {
    let clients_there = (0..clients).map(|_| etcd::Etcd::connect(address)).collect::<Measured<Vec<_>>>()?;
    let run = std::process::id();
    all_at_once(clients_there, lasting, |etcd, number| etcd.transact(&format!("transaction{run}-{number}")))
}

// Files that are made a second, by so many clients in one directory.
fn creates(service: Service<'_>, clients: u32, lasting: Duration) -> Measured<f64> {
    let directory = format!("create{}", std::process::id());
    let mut sessions = service.sessions(clients)?;
    sessions[0].make_directory(&directory)?;
    let counting = sessions.into_iter().map(|session| (session, 0)).collect();
    all_at_once(counting, lasting, |(session, made): &mut (Box<dyn Session>, u32), number| {
        *made += 1;
        session.make(&format!("{directory}/{number}-{made}"))
    })
}

// Files of one directory that are deleted a second, by so many clients.
fn deletes(service: Service<'_>, clients: u32) -> Measured<f64> {
    let directory = format!("delete{}", std::process::id());
    let mut sessions = service.sessions(clients)?;
    sessions[0].make_directory(&directory)?;
    let names = |number: u32| (0..DELETED).map(|at| format!("{directory}/{number}-{at}")).collect::<Vec<_>>();
    let each = (0..clients).map(names).zip(sessions).collect();
    let ready = each_by_itself(each, |(names, session): &mut (Vec<String>, Box<dyn Session>)| {
        session.make_all(names)?;
        names.iter().try_for_each(|name| session.open(name))
    })?;
    let begun = Instant::now();
    let deleted = each_by_itself(ready, |(names, session)| names.iter().try_for_each(|name| session.delete(name)));
    let spent = begun.elapsed().as_secs_f64();
    deleted.map(|_| f64::from(clients * DELETED) / spent)
}

// Lists a second of directories that `fill` made, by so many clients, each of which lists each once: then others take their place.
fn lists(service: Service<'_>, clients: u32, lasting: Duration) -> Measured<f64> {
    let names: Vec<_> = (0..DIRECTORIES).map(|number| format!("fill{number}")).collect();
    let (begun, mut spent, mut rounds) = (Instant::now(), 0.0, 0);
    while begun.elapsed() < lasting || rounds == 0 {
        let sessions = service.sessions(clients)?;
        let ready = each_by_itself(sessions, |session| names.iter().try_for_each(|name| session.open(name)))?;
        let listing = Instant::now();
        let listed = each_by_itself(ready, |session| names.iter().try_for_each(|name| list_whole(session.as_mut(), name)));
        spent += listing.elapsed().as_secs_f64();
        rounds += 1;
        listed?;
    }
    Ok(f64::from(rounds * clients * DIRECTORIES) / spent)
}

fn list_whole(session: &mut dyn Session, name: &str) -> Measured<()> {
    match session.list(name)? {
        count if count == CHILDREN as usize => Ok(()),
        count => Err(format!("{name} has {count} names").into()),
    }
}

// Reads a second at the server, by so many clients beside so many sessions, which are kept and do nothing else.
fn reads(service: Service<'_>, sessions: u32) -> Measured<f64> {
    let names: Vec<_> = (0..FILES).map(|number| format!("read{sessions}-{number}")).collect();
    let mut readers = service.sessions(READERS)?;
    readers[0].make_all(&names)?;
    readers = each_by_itself(readers, |reader| names.iter().try_for_each(|name| reader.open(name)))?;
    let mut idle = service.sessions(sessions.saturating_sub(READERS))?;
    let is_over = AtomicBool::new(false);
    thread::scope(|scope| {
        let keeping = scope.spawn(|| -> Measured<()> {
            while !is_over.load(Ordering::SeqCst) {
                idle.iter_mut().try_for_each(|session| session.keep())?;
                thread::sleep(Duration::from_millis(100));
            }
            Ok(())
        });
        let begun = Instant::now();
        let read = each_by_itself(readers, |reader| names.iter().try_for_each(|name| reader.read(name)));
        let spent = begun.elapsed().as_secs_f64();
        is_over.store(true, Ordering::SeqCst);
        keeping.join().map_err(|_| "a thread failed")??;
        read.map(|_| f64::from(READERS * FILES) / spent)
    })
}

// Milliseconds from the write of a file until it is acknowledged, and each of so many clients knows that what it read is old.
fn told(service: Service<'_>, clients: u32, lasting: Duration) -> Measured<f64> {
    let mut writer = service.session()?;
    writer.make("told")?;
    writer.open("told")?;
    let mut readers = service.sessions(clients)?;
    readers.iter_mut().try_for_each(|reader| reader.open("told"))?;
    let (begun, mut spent) = (Instant::now(), Vec::new());
    while begun.elapsed() < lasting || spent.is_empty() {
        readers.iter_mut().try_for_each(|reader| reader.follow("told"))?;
        let written = Instant::now();
        writer.set("told")?;
        readers.iter_mut().try_for_each(|reader| reader.wait_told())?;
        spent.push(written.elapsed().as_secs_f64() * 1000.0);
    }
    spent.sort_by(f64::total_cmp);
    Ok(spent[spent.len() / 2])
}

// How often a second the lock of one file is taken and let go, by so many clients that want it all the time.
fn locks(service: Service<'_>, clients: u32, lasting: Duration) -> Measured<f64> {
    let name = format!("lock{clients}");
    let mut sessions = service.sessions(clients)?;
    sessions[0].make(&name)?;
    sessions.iter_mut().try_for_each(|session| session.open(&name))?;
    all_at_once(sessions, lasting, |session, _| {
        session.lock(&name)?;
        session.unlock(&name)
    })
}

// Makes so many files; how many a second.
fn fill(service: Service<'_>, count: u32) -> Measured<f64> {
    let mut first = service.session()?;
    for directory in 0..count.div_ceil(CHILDREN) {
        first.make_directory(&format!("fill{directory}"))?;
    }
    let (begun, next) = (Instant::now(), AtomicU32::new(0));
    thread::scope(|scope| {
        let filling: Vec<_> = (0..FILLERS).map(|_| scope.spawn(|| fill_some(service, count, &next))).collect();
        filling.into_iter().try_for_each(|filling| filling.join().map_err(|_| "a thread failed")?)
    })?;
    Ok(f64::from(count) / begun.elapsed().as_secs_f64())
}

fn fill_some(service: Service<'_>, count: u32, next: &AtomicU32) -> Measured<()> {
    let mut session = service.session()?;
    loop {
        let begin = next.fetch_add(100, Ordering::SeqCst);
        if begin >= count {
            return Ok(());
        }
        let names: Vec<_> = (begin..count.min(begin + 100)).map(|number| format!("fill{}/{number}", number / CHILDREN)).collect();
        session.make_all(&names)?;
    }
}

// Seconds until it can be done.
fn waited(patience: Duration, deed: impl Fn() -> Measured<()>) -> Measured<f64> {
    let begun = Instant::now();
    loop {
        match deed() {
            Err(error) if begun.elapsed() > patience => return Err(error),
            Err(_) => thread::sleep(Duration::from_millis(10)),
            Ok(()) => return Ok(begun.elapsed().as_secs_f64()),
        }
    }
}

// Reads a file that `fill` made.
fn first(service: Service<'_>) -> Measured<()> {
    let mut session = service.session()?;
    session.open("fill0/0")?;
    session.read("fill0/0")
}
