//! Over which connection a client is reached.

use crate::net::outgoing::Outbox;
use std::collections::HashMap;
use std::sync::{Arc, Mutex, MutexGuard, PoisonError};

/// The connection of each client that has one.
#[derive(Debug, Default)]
pub struct Routes(Mutex<Table>);

#[derive(Debug, Default)]
struct Table {
    bound: u64,
    open: HashMap<u64, (u64, Arc<Outbox>)>,
}

impl Routes {
    fn table(&self) -> MutexGuard<'_, Table> {
        self.0.lock().unwrap_or_else(PoisonError::into_inner)
    }

    /// From here on the client is reached so, and this is what it gets first; an earlier connection of it is cut off. Gives the
    /// number of this binding. Who got that is bound, before any that connects later.
    pub fn bind(&self, client: u64, outgoing: Arc<Outbox>, first: &[u8]) -> u64 {
        let mut table = self.table();
        outgoing.send(first);
        table.bound += 1;
        let binding = table.bound;
        if let Some((_, old)) = table.open.insert(client, (binding, outgoing)) {
            old.cut("its client has a later one");
        }
        binding
    }

    /// The connection of this binding is gone; a later one of the client stays.
    pub fn unbind(&self, client: u64, binding: u64) {
        let mut table = self.table();
        if table.open.get(&client).is_some_and(|(bound, _)| *bound == binding) {
            table.open.remove(&client);
        }
    }

    /// Sends a block to all clients that have a connection.
    pub fn send_to_all(&self, block: &[u8]) {
        for (_, outgoing) in self.table().open.values() {
            outgoing.send(block);
        }
    }

    /// Cuts off the connection of a client; whether it had one.
    pub fn cut(&self, client: u64, why: &'static str) -> bool {
        let table = self.table();
        let open = table.open.get(&client);
        open.into_iter().for_each(|(_, outgoing)| outgoing.cut(why));
        open.is_some()
    }

    /// The clients of a principal that have a connection.
    pub fn of(&self, principal: &str) -> Vec<u64> {
        let table = self.table();
        table.open.iter().filter(|(_, (_, outgoing))| *outgoing.principal == *principal).map(|(client, _)| *client).collect()
    }

    /// Whether this binding is the client's present one.
    pub fn is_bound(&self, client: u64, binding: u64) -> bool {
        self.table().open.get(&client).is_some_and(|(bound, _)| *bound == binding)
    }

    /// For whom a client acts that has a connection.
    pub fn principal(&self, client: u64) -> Option<Arc<str>> {
        self.table().open.get(&client).map(|(_, outgoing)| outgoing.principal.clone())
    }

    /// Puts a message after those that wait for a client; gives its connection where that is to be woken. A client that has no
    /// connection doesn't get it, as if it were lost.
    pub fn put(&self, client: u64, message: &[u8]) -> Option<Arc<Outbox>> {
        let table = self.table();
        let (_, outgoing) = table.open.get(&client)?;
        outgoing.put(message).then(|| outgoing.clone())
    }
}

#[cfg(test)]
mod tests {
    use super::*;
    use host_wire::Blocks;
    use tokio::io::{DuplexStream, duplex};

    fn bound(routes: &Routes, client: u64, first: &[u8]) -> (u64, DuplexStream) {
        let (stream, other) = duplex(1024);
        let outgoing = Arc::new(Outbox::new(&"ann".into()));
        let binding = routes.bind(client, outgoing.clone(), first);
        tokio::spawn(async move { outgoing.write_all(other).await });
        (binding, stream)
    }

    #[tokio::test]
    async fn a_client_is_reached_over_its_newest_connection() {
        let routes = Routes::default();
        let (first, mut old) = bound(&routes, 7, b"old");
        assert_eq!(Blocks::new(9).next_of(&mut old).await.unwrap(), Some(b"old".to_vec()));
        let (second, mut new) = bound(&routes, 7, b"new");
        let mut blocks = Blocks::new(9);
        assert_eq!(blocks.next_of(&mut new).await.unwrap(), Some(b"new".to_vec()));
        assert!(!routes.is_bound(7, first));
        routes.unbind(7, first);
        assert!(routes.is_bound(7, second));
        assert!(routes.put(8, b"lost").is_none());
        let woken = routes.put(7, b"here").unwrap();
        assert!(routes.put(7, b"too").is_none());
        woken.wake();
        assert_eq!(blocks.next_of(&mut new).await.unwrap(), Some(b"here".to_vec()));
        assert_eq!(blocks.next_of(&mut new).await.unwrap(), Some(b"too".to_vec()));
        routes.send_to_all(b"all");
        assert_eq!(blocks.next_of(&mut new).await.unwrap(), Some(b"all".to_vec()));
        assert_eq!(Blocks::new(9).next_of(&mut old).await.unwrap(), None);
        routes.unbind(7, second);
        assert!(!routes.is_bound(7, second));
    }
}
