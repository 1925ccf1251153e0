//! Whatever bytes come: they are read as what they are, or as nothing.

use host_wire::rows::{Question, write_verdict};
use host_wire::{Asked, Blocks, Frame, Heard, Hello, Notice, Said, TurnedAway, Welcome, framed, is_component, write_store_refused};
use proptest::collection::vec;
use proptest::prelude::*;

// Bytes that begin as messages, frames and notices do more often than any do.
fn bytes() -> impl Strategy<Value = Vec<u8>> {
    let notice = Notice { number: 7, reason: "no room".to_owned() }.write();
    let written = [write_store_refused(7, 1, 5), Frame::Tick(7).write(), write_verdict(true), Some(notice), Some(Vec::new())];
    let written: Vec<Vec<u8>> = written.into_iter().flatten().collect();
    // (frames have the number of their bytes in front, which none of those that read them is handed)
    let fronts = (0..written.len(), 0..5_usize, 0..40_usize).prop_map(move |(which, from, length)| {
        let bytes = &written[which];
        bytes.iter().copied().skip(from).take(length).collect::<Vec<u8>>()
    });
    (fronts, vec(prop_oneof![Just(0), any::<u8>()], 0..300)).prop_map(|(front, rest)| [front, rest].concat())
}

proptest! {
    #[test]
    fn any_bytes_are_read(bytes in bytes()) {
        if let Ok(hello) = Hello::read(&bytes) {
            prop_assert!(is_component(hello.principal()));
            prop_assert_eq!(hello.write(), bytes.clone());
        }
        if let Ok(welcome) = Welcome::read(&bytes) {
            prop_assert_eq!(Welcome::write(&welcome), bytes.clone());
        }
        let asked = Asked::read(&bytes);
        prop_assert!(asked.is_none_or(|asked| asked.deed().is_none_or(|deed| asked.is_from(deed.client, ""))));
        if let Some(heard) = Heard::read(&bytes) {
            prop_assert_eq!(heard.told(), heard.told());
        }
        if let Some(notice) = Notice::read(&bytes) {
            prop_assert_eq!(Notice::read(&notice.write()), Some(notice));
        }
        prop_assert!(Said::read(&bytes).is_none_or(|said| said.client > 0 && said.number > 0));
        if let Some(Question::Commit(_, edits)) = Question::read(&bytes) {
            prop_assert!(edits.len() <= bytes.len());
        }
    }

    #[test]
    fn a_hello_is_read_as_it_was_written(principal in "[a-z0-9._-]{1,64}", number in any::<Option<(u64, u64)>>()) {
        let hello = match number {
            None => Hello::New { principal: principal.clone() },
            Some((client, token)) => Hello::Again { principal: principal.clone(), client, token },
        };
        let wanted = if is_component(&principal) { Ok(hello.clone()) } else { Err(TurnedAway::BadPrincipal) };
        prop_assert_eq!(Hello::read(&hello.write()), wanted);
    }

    #[test]
    fn blocks_come_out_as_they_went_in(blocks in vec(vec(any::<u8>(), 0..100), 0..10)) {
        let stream = blocks.iter().map(|block| framed(block).unwrap()).collect::<Vec<_>>().concat();
        let (mut stream, mut reader) = (&stream[..], Blocks::new(100));
        for block in &blocks {
            prop_assert_eq!(reader.next(&mut stream).unwrap(), Some(block.clone()));
        }
        prop_assert_eq!(reader.next(&mut stream).unwrap(), None);
    }
}
