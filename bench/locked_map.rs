// Reads of a map behind a lock that readers share, as a Rust program would keep a cache: the entry is looked up by its
// name under the lock, and lent out as a counted reference. Usage: locked_map READS.
use std::collections::HashMap;
use std::hint::black_box;
use std::sync::{Arc, RwLock};
use std::time::Instant;

#[allow(dead_code)]
struct View {
    instance: u64,
    content_generation: u64,
    acl_generation: u64,
    acls: [String; 3],
    content: Vec<u8>,
}

type Entries = RwLock<HashMap<String, Arc<View>>>;

fn entries() -> Entries {
    let view = View {
        instance: 4,
        content_generation: 1,
        acl_generation: 1,
        acls: ["base".to_string(), "base".to_string(), "base".to_string()],
        content: vec![0x61; 64],
    };
    RwLock::new(HashMap::from([("/ls/c/f".to_string(), Arc::new(view))]))
}

fn read(entries: &Entries, name: &str) -> Option<Arc<View>> {
    entries.read().unwrap().get(name).cloned()
}

fn main() {
    let reads: u64 = std::env::args().nth(1).map_or(1000, |word| word.parse().expect("the number of reads"));
    let entries = entries();
    let start = Instant::now();
    let mut served = 0u64;
    for _ in 0..reads {
        if let Some(view) = read(black_box(&entries), black_box("/ls/c/f")) {
            served += u64::from(black_box(&view).content.len() == 64);
        }
    }
    let took = start.elapsed().as_nanos() / u128::from(reads.max(1));
    println!("served {served}, {took} ns each");
}
