//! Which servers of a cell said that they don't know the client.

use host_wire::{Address, TurnedAway};

/// Those that said so since one took the client. A server that was replaced, and doesn't know that yet, says so of a number that its
/// successor gave: so one of several ends no session. The others have to say the same, or that it is one of these that is master.
#[derive(Debug, Default)]
pub struct Denials(Vec<Address>);

impl Denials {
    /// A server took the client.
    pub fn forget(&mut self) {
        self.0.clear();
    }

    /// One of these servers turned the client away, and told where the master is, where it said so; for which reason the client is turned
    /// away by what all have said so far.
    pub fn judge(&mut self, from: &Address, reason: TurnedAway, master: Option<&Address>, all: &[Address]) -> TurnedAway {
        let is_denial = match reason {
            TurnedAway::WrongToken => true,
            TurnedAway::NotMaster => master.is_some_and(|master| self.0.contains(master)),
            _ => return reason,
        };
        if is_denial && !self.0.contains(from) {
            self.0.push(from.clone());
        }
        if is_denial && all.iter().all(|server| self.0.contains(server)) { TurnedAway::WrongToken } else { TurnedAway::NotMaster }
    }
}

#[cfg(test)]
mod tests {
    use super::*;
    use TurnedAway::{Full, NotMaster, OtherPrincipal, WrongToken};

    #[test]
    fn one_of_several_servers_ends_nothing() {
        let address = |word: &str| word.parse::<Address>().unwrap();
        let (a, b, c) = ("a:1", "b:1", "c:1");
        type Said<'a> = (&'a str, TurnedAway, Option<&'a str>, TurnedAway);
        let rows: &[(&[&str], &[Said])] = &[
            (&[a], &[(a, WrongToken, None, WrongToken)]),
            (&[a, b], &[(a, WrongToken, None, NotMaster), (a, WrongToken, None, NotMaster), (b, WrongToken, None, WrongToken)]),
            // (the others call it master)
            (&[a, b, c], &[(a, WrongToken, None, NotMaster), (b, NotMaster, Some(a), NotMaster), (c, NotMaster, Some(a), WrongToken)]),
            // (they call another one so, or none)
            (&[a, b], &[(a, WrongToken, None, NotMaster), (b, NotMaster, Some(c), NotMaster), (b, NotMaster, None, NotMaster)]),
            (&[a, b], &[(b, NotMaster, Some(a), NotMaster), (a, WrongToken, None, NotMaster), (b, NotMaster, Some(a), WrongToken)]),
            // (what isn't said of the client's number is said for good)
            (&[a, b], &[(a, OtherPrincipal, None, OtherPrincipal), (a, Full, None, Full)]),
            // (one that isn't among those that are known)
            (&[a], &[(c, WrongToken, None, NotMaster), (a, WrongToken, None, WrongToken)]),
        ];
        for (all, said) in rows {
            let all: Vec<Address> = all.iter().map(|word| address(word)).collect();
            let mut denials = Denials::default();
            for (from, reason, master, wanted) in *said {
                let judged = denials.judge(&address(from), *reason, master.map(address).as_ref(), &all);
                assert_eq!(judged, *wanted, "{all:?}: {said:?}");
            }
        }
    }

    #[test]
    fn one_that_took_the_client_begins_anew() {
        let all = ["a:1".parse::<Address>().unwrap(), "b:1".parse().unwrap()];
        let mut denials = Denials::default();
        assert_eq!(denials.judge(&all[0], WrongToken, None, &all), NotMaster);
        denials.forget();
        assert_eq!(denials.judge(&all[1], WrongToken, None, &all), NotMaster);
    }
}
