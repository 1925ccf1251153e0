//! The names of refusals.

/// By their numbers, from 1 on.
const NAMES: &[&str] = &[
    "NoMemory",
    "BadName",
    "OtherCell",
    "BadPrincipal",
    "BadAcl",
    "NotFound",
    "Exists",
    "WrongKind",
    "NotEmpty",
    "Denied",
    "WrongGeneration",
    "TooLarge",
    "Exhausted",
    "StaleInstance",
    "StoreRefused",
    "StoreDamaged",
    "BadHandle",
    "BadSequencer",
    "NoSession",
    "BadAck",
    "Repeat",
    "Busy",
    "Held",
    "Delayed",
    "NotHolder",
    "SequencerStale",
    "DelayTooLong",
    "OldEpoch",
    "Recovering",
    "InJeopardy",
    "SessionExpired",
    "Poisoned",
    "CallOutstanding",
    "Unknown",
    "ProtocolFault",
    "UnfairClock",
    "NoSuchMessage",
    "MasterDown",
    "MasterUp",
    "WatchFull",
    "PassMissing",
    "ReceiptApart",
    "NoRoom",
];

/// The name of the refusal of this number; `other` where it has none here.
#[must_use]
pub fn refusal_name(number: u32) -> &'static str {
    let place = usize::try_from(number).ok().and_then(|number| number.checked_sub(1));
    place.and_then(|place| NAMES.get(place)).copied().unwrap_or("other")
}

#[cfg(test)]
mod tests {
    use super::*;

    #[test]
    fn names_are_those_of_the_page() {
        let page = include_str!("../../../../docs/FORMATS.md");
        let (_, table) = page.split_once("## Refusals").unwrap();
        let (table, _) = table.split_once("\n## ").unwrap();
        let cells = table.lines().map(|line| line.split('|').map(str::trim).collect::<Vec<_>>());
        let rows: Vec<(u32, String)> = cells.filter_map(|row| Some((row.get(1)?.parse().ok()?, (*row.get(2)?).to_owned()))).collect();
        assert!(rows.len() >= NAMES.len(), "{rows:?}");
        for (number, name) in &rows[..NAMES.len()] {
            assert_eq!(refusal_name(*number), name, "{number}");
        }
        assert_eq!((refusal_name(0), refusal_name(1000)), ("other", "other"));
    }
}
