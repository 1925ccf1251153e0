// Hits of a map that readers in threads share, as a Rust program would keep a cache: the entry is looked up by its name, and lent out
// as a counted reference. The map stands behind a lock that readers share; built with the feature `packages`, also in an
// arc_swap::ArcSwap, of which a write makes a new map, and in a dashmap::DashMap.
// Usage: hit_map rwlock|arc_swap|dashmap HITS READERS [publish].
use std::collections::HashMap;
use std::hint::black_box;
use std::sync::atomic::{AtomicUsize, Ordering};
use std::sync::{Arc, RwLock};
use std::thread;
use std::time::{Duration, Instant};

const ENTRIES: usize = 4096;

type Content = Arc<[u8]>;
type Entries = HashMap<String, Content>;

trait Cache: Sync {
    fn of(entries: Entries) -> Self;
    fn hit(&self, name: &str) -> Option<Content>;
    fn write(&self, name: &str, content: Content);
}

impl Cache for RwLock<Entries> {
    fn of(entries: Entries) -> Self {
        RwLock::new(entries)
    }

    fn hit(&self, name: &str) -> Option<Content> {
        self.read().unwrap().get(name).cloned()
    }

    fn write(&self, name: &str, content: Content) {
        self.write().unwrap().insert(name.to_string(), content);
    }
}

#[cfg(feature = "packages")]
impl Cache for arc_swap::ArcSwap<Entries> {
    fn of(entries: Entries) -> Self {
        arc_swap::ArcSwap::from_pointee(entries)
    }

    fn hit(&self, name: &str) -> Option<Content> {
        self.load().get(name).cloned()
    }

    fn write(&self, name: &str, content: Content) {
        let mut entries = Entries::clone(&self.load());
        entries.insert(name.to_string(), content);
        self.store(Arc::new(entries));
    }
}

#[cfg(feature = "packages")]
impl Cache for dashmap::DashMap<String, Content> {
    fn of(entries: Entries) -> Self {
        entries.into_iter().collect()
    }

    fn hit(&self, name: &str) -> Option<Content> {
        self.get(name).map(|content| Arc::clone(&content))
    }

    fn write(&self, name: &str, content: Content) {
        self.insert(name.to_string(), content);
    }
}

fn content() -> Content {
    Arc::from(vec![0x61; 64])
}

// The nanoseconds that this thread has had a processor for.
fn busy() -> u64 {
    let said = std::fs::read_to_string("/proc/thread-self/schedstat").unwrap();
    said.split(' ').next().unwrap().parse().unwrap()
}

// How many of so many hits find a content, and how long they had a processor. Each reader begins at another name.
fn read(cache: &impl Cache, names: &[String], hits: u64, k: usize) -> (u64, u64) {
    let before = busy();
    let mut found = 0;
    let mut at = k * 1000 % names.len();
    for _ in 0..hits {
        let hit = cache.hit(black_box(&names[at]));
        at = if at + 1 < names.len() { at + 1 } else { 0 };
        if let Some(content) = hit {
            found += u64::from(black_box(&content).len() == 64);
        }
    }
    (found, busy() - before)
}

// Publishes at each millisecond from now on, until all readers are done.
fn publish(cache: &impl Cache, names: &[String], left: &AtomicUsize) -> u64 {
    let start = Instant::now();
    let mut published = 0;
    while left.load(Ordering::SeqCst) > 0 {
        cache.write(&names[published as usize % ENTRIES], content());
        published += 1;
        thread::sleep(Duration::from_millis(published).saturating_sub(start.elapsed()));
    }
    published
}

fn run<C: Cache>(hits: u64, readers: usize, publishes: bool) {
    let names: Vec<String> = (0..ENTRIES).map(|k| format!("/ls/c/f{k}")).collect();
    let cache = C::of(names.iter().map(|name| (name.clone(), content())).collect());
    let left = AtomicUsize::new(readers);
    let start = Instant::now();
    let ((found, busy), published) = thread::scope(|scope| {
        let reader = |k| {
            let (cache, names, left) = (&cache, &names, &left);
            scope.spawn(move || {
                let found = read(cache, names, hits, k);
                left.fetch_sub(1, Ordering::SeqCst);
                found
            })
        };
        let threads: Vec<_> = (0..readers).map(reader).collect();
        let published = if publishes { publish(&cache, &names, &left) } else { 0 };
        let done = threads.into_iter().map(|thread| thread.join().unwrap());
        (done.fold((0, 0), |sum, done| (sum.0 + done.0, sum.1 + done.1)), published)
    });
    let took = start.elapsed().as_nanos().max(1);
    let each = took / u128::from(hits.max(1));
    let busy = busy / (hits * readers as u64).max(1);
    let rate = u128::from(found) * 1_000_000_000 / took;
    println!("found {found}, {each} ns each in a thread, {busy} of a processor, {rate} a second, {published} published");
}

fn main() {
    let words: Vec<String> = std::env::args().collect();
    let hits: u64 = words[2].parse().expect("the number of hits");
    let readers: usize = words[3].parse().expect("the number of readers");
    let publishes = words.len() > 4;
    match words[1].as_str() {
        "rwlock" => run::<RwLock<Entries>>(hits, readers, publishes),
        #[cfg(feature = "packages")]
        "arc_swap" => run::<arc_swap::ArcSwap<Entries>>(hits, readers, publishes),
        #[cfg(feature = "packages")]
        "dashmap" => run::<dashmap::DashMap<String, Content>>(hits, readers, publishes),
        other => panic!("no such map: {other}"),
    }
}
