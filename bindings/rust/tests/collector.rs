//! The collector against a plain one written from document 02: any bytes, any cuts, any record, any store. And what it hands on does not depend on
//! the cuts.
mod common;

use common::*;
use xurbalenz::{
    edge::{Collector as Record, Size},
    Collector, Message, Refusal,
};

/// Bytes that are often blocks: good ones, wrong types, wrong lengths, frames with anything inside.
fn stream(rng: &mut Rng, blocks: usize) -> Vec<u8> {
    let mut all = vec![];
    for _ in 0..blocks {
        let kind = match rng.below(60) {
            0 => 0xCCBF + 9 * rng.below(2),
            _ => 0xCCC0 + *rng.pick(&[0, 1, 2, 3, 4, 4, 4, 5, 5, 6, 7, 7]),
        };
        let most = if rng.below(4) == 0 { 90 } else { 12 };
        let body = rng.below(most);
        let length = if rng.below(80) == 0 { rng.below(6) } else { 6 + body };
        all.extend((kind as u16).to_le_bytes());
        all.extend((length as u32).to_le_bytes());
        all.extend(rng.bytes(body));
    }
    all
}

/// 02's collector, plainly: all bytes since the last part, in one list, looked at from the start each time.
#[derive(Default)]
struct Plain {
    bytes: Vec<u8>,
    refused: Option<u8>,
}

impl Plain {
    /// One byte; the part that it completes, or the refusal.
    fn byte(&mut self, byte: u8, room: usize) -> Result<Option<(u8, Vec<u8>)>, u8> {
        self.bytes.push(byte);
        let (mut at, mut frame) = (0, false);
        while at + 6 <= self.bytes.len() {
            let head = &self.bytes[at..at + 6];
            let kind = u16::from_le_bytes([head[0], head[1]]);
            let length = u32::from_le_bytes([head[2], head[3], head[4], head[5]]) as usize;
            let fault = match (kind, length) {
                (0..=0xCCBF | 0xCCC8.., _) => 3,
                (_, 0..=5) => 4,
                _ if room < at + length => 13,
                _ => 0,
            };
            if fault != 0 {
                self.refused = Some(fault);
                return Err(fault);
            }
            at += length;
            let (first, last) = (!frame, kind == 0xCCC5);
            frame = frame || kind == 0xCCC4;
            if at == self.bytes.len() && (!frame || (last && !first)) {
                let call = if first && kind <= 0xCCC3 { 1 } else { 2 };
                return Ok(Some((call, std::mem::take(&mut self.bytes))));
            }
        }
        Ok(None)
    }
}

#[test]
fn as_a_plain_one() {
    let mut rng = Rng::new(31);
    let (mut calls, mut parts, mut refusals) = (0, 0, 0);
    for i in 0..3000 {
        let blocks = 1 + rng.below(12);
        let (bytes, most) = (stream(&mut rng, blocks), *rng.pick(&[1, 3, 7, 40, 1460]));
        let room = if i % 3 == 0 { rng.below(120) } else { 4096 };
        let (mut record, mut store, mut plain) = (Record::default(), vec![0xA5; room], Plain::default());
        let mut rest = bytes.as_slice();
        while !rest.is_empty() && plain.refused.is_none() {
            let given = &rest[..rest.len().min(rng.below(most + 1))];
            let took = collect(record, given, &store);
            let mut expected = (0, 0, given.len(), vec![]);
            for (n, &byte) in given.iter().enumerate() {
                match plain.byte(byte, room) {
                    Ok(None) => continue,
                    Ok(Some((call, part))) => expected = (0, call, n + 1, part),
                    Err(number) => expected = (number, 0, n + 1, vec![]),
                }
                break;
            }
            assert_eq!((took.number, took.call, took.taken, &took.store[..took.size]), (expected.0, expected.1, expected.2, expected.3.as_slice()));
            (record, store) = (took.collector, took.store);
            rest = &rest[took.taken..];
            calls += 1;
            parts += usize::from(took.call != 0);
        }
        if let Some(number) = plain.refused {
            let again = collect(record, rest, &store[..room / 2]);
            assert_eq!((again.number, again.taken), (number, 0));
            refusals += 1;
        }
    }
    assert!(parts > 3000 && refusals > 500);
    println!("{calls} hand-overs as a plain collector takes them: {parts} parts, {refusals} refusals agree");
}

#[test]
fn however_cut() {
    let mut rng = Rng::new(32);
    for _ in 0..300 {
        let bytes = stream(&mut rng, 30);
        let gathered = |sizes: &mut dyn FnMut() -> usize| {
            let (mut collector, mut rest, mut all) = (Collector::new(2000), bytes.as_slice(), vec![]);
            let mut end = Ok(());
            while !rest.is_empty() && end.is_ok() {
                let (piece, after) = rest.split_at(sizes().min(rest.len()));
                end = collector.feed(piece, |message| all.push((matches!(message, Message::Header(_)), message.bytes().to_vec())));
                rest = after;
            }
            (all, end, collector.held())
        };
        let whole = gathered(&mut || usize::MAX);
        assert_eq!(gathered(&mut || 1), whole);
        assert_eq!(gathered(&mut || 1460), whole);
        assert_eq!(gathered(&mut || rng.below(50)), whole);
    }
}

#[test]
fn any_record_and_store() {
    let mut rng = Rng::new(33);
    let mut answers = [0; 14];
    for i in 0..200_000 {
        let mut near = |n: Size| *rng.pick(&[0, 1, 5, 6, 7, 12, n, n + 1, 1 << 32, (1 << 32) - 1, 0xCCC0, 0x0000_0006_CCC1, Size::MAX]);
        let mut record =
            Record { held: near(20), end: near(30), head: near(40), refused: near(2) as u8, part: (near(2) % 6) as u8, seen: (near(3) % 8) as u8 };
        match i % 3 {
            0 => record = Record { refused: 0, head: 0, seen: 0, ..record }, // in a block, perhaps
            1 => record = Record { refused: 0, end: 0, head: 0, part: 3 * (record.part % 2), ..record }, // between blocks, perhaps
            _ => {}
        }
        let (room, n) = (rng.below(60), if i % 2 == 0 { 30 } else { rng.below(8) });
        let mut given = rng.bytes(n);
        if let Some(kind) = given.first_chunk_mut() {
            *kind = [0xC0 + (i % 8) as u8, 0xCC, (i % 40) as u8, 0, 0, 0];
        }
        let store = rng.bytes(room);
        let took = collect(record, &given, &store);
        assert_eq!(collect(record, &given, &store), took);
        answers[usize::from(took.number)] += 1;
    }
    assert!([0, 2, 3, 12].iter().all(|&n: &usize| answers[n] > 100), "{answers:?}");
    println!("200000 records and stores, each called twice, answers alike");
}

#[test]
fn a_refusal_until_the_reset() {
    let mut collector = Collector::new(100);
    assert_eq!(collector.feed(&[0xC4, 0xCC, 6, 0, 0, 0, 0xC7, 0xCC, 95, 0, 0, 0, 1], |_| unreachable!()), Err(Refusal::Room));
    assert_eq!(collector.held(), 6);
    assert_eq!(collector.feed(&[], |_| unreachable!()), Err(Refusal::Room));
    collector.reset();
    let mut rest: &[u8] = &[0xC5, 0xCC, 6, 0, 0, 0, 1, 2, 3, 4, 5, 6, 7];
    assert_eq!(collector.next(&mut rest), Ok(Some(Message::Frame(&[0xC5, 0xCC, 6, 0, 0, 0]))));
    assert_eq!((collector.next(&mut rest), rest), (Err(Refusal::Kind), [7].as_slice()));
}
