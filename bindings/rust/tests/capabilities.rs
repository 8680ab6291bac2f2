//! Capabilities and acknowledgements: any bytes are answered, what is written is read back, and what is read is written again byte for byte.
mod common;

use common::*;
use xurbalenz::{Ack, Caps, CapsEntry, Mode, Refusal};

fn caps(rng: &mut Rng) -> Caps {
    let entries = (0..rng.below(3)).map(|_| CapsEntry { flags: rng.byte(), mode: *rng.pick(&[Mode::Rlgr1, Mode::Rlgr3]) }).collect();
    Caps { flags: rng.next() as u32, entries }
}

fn ack(rng: &mut Rng) -> Ack {
    Ack {
        version: rng.below(4096) as u16,
        source: rng.next() as u16,
        share: rng.next() as u32,
        pad: rng.byte(),
        stream: rng.byte(),
        uncompressed: rng.next() as u16,
        compression: rng.byte(),
        compressed: rng.next() as u16,
        frame: rng.next() as u32,
    }
}

/// A few bytes bent, perhaps one too few or one too many.
fn bent(rng: &mut Rng, bytes: &[u8]) -> Vec<u8> {
    let mut all = bytes.to_vec();
    for _ in 0..rng.below(3) {
        let at = rng.below(all.len());
        all[at] = *rng.pick(&[0, 1, 2, 3, 4, 8, 255, all[at] ^ 1, all[at].wrapping_add(8)]);
    }
    match rng.below(6) {
        0 => all.truncate(rng.below(bytes.len())),
        1 => all.push(rng.byte()),
        _ => {}
    }
    all
}

#[test]
fn both_ways() {
    let mut rng = Rng::new(41);
    let mut taken = 0;
    for i in 0..60_000 {
        let (c, a) = (caps(&mut rng), ack(&mut rng));
        let (mut container, mut message) = (c.bytes().expect("two entries at most"), a.bytes().expect("a version of twelve bits").to_vec());
        assert_eq!((Caps::read(&container), Ack::read(&message)), (Ok(c), Ok(a)));
        if i % 4 != 0 {
            (container, message) = (bent(&mut rng, &container), bent(&mut rng, &message));
        }
        let (number, flags, n, entries) = read_caps(&container);
        if number == 0 {
            assert_eq!(write_caps(flags, n, entries, container.len()), (0, container.len(), container));
            taken += 1;
        }
        let (number, fields) = read_ack(&message);
        if number == 0 {
            assert_eq!(write_ack(fields, message.len()), (0, message.len(), message));
            taken += 1;
        }
        let count = rng.next() as u32;
        let (_, size, capability) = write_ack_cap(count, 8);
        assert_eq!((size, read_ack_cap(&capability)), (8, (0, count)));
    }
    assert!(taken > 40_000, "{taken}");
    println!("{taken} containers and messages read, some of them bent, and written again alike");
}

#[test]
fn any_bytes() {
    let mut rng = Rng::new(42);
    for _ in 0..100_000 {
        let n = rng.below(60);
        let bytes = rng.bytes(n);
        read_caps(&bytes);
        read_ack(&bytes);
        read_ack_cap(&bytes);
    }
}

#[test]
fn cut_and_longer() {
    let c = Caps { flags: 1, entries: vec![CapsEntry { flags: 2, mode: Mode::Rlgr3 }] };
    let mut bytes = c.bytes().expect("one entry");
    for n in 0..bytes.len() {
        assert_eq!(Caps::read(&bytes[..n]), Err(Refusal::Cut));
    }
    bytes.push(0);
    assert_eq!(Caps::read(&bytes), Err(Refusal::Length));
}
