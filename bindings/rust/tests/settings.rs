//! Settings that a cabinet keeps: any bytes are answered, what is written is read back, by each reader as it should be; and frames with two quantiser sets.
mod common;

use common::*;
use xurbalenz::{read_frame, write_frame, Mode, Quant, Reader, Refusal, Session, Settings, LIST};

fn quant(rng: &mut Rng) -> Quant {
    Quant([0; 10].map(|_| 6 + rng.below(10) as u8))
}

fn settings(rng: &mut Rng) -> Settings {
    let luma = quant(rng);
    let chroma = if rng.below(2) == 0 { luma } else { quant(rng) };
    Settings { luma, chroma, mode: *rng.pick(&[Mode::Rlgr1, Mode::Rlgr3]) }
}

#[test]
fn both_ways() {
    let mut rng = Rng::new(51);
    let (mut taken, mut refused) = (0, 0);
    for _ in 0..40_000 {
        let kept = settings(&mut rng);
        let mut bytes = kept.bytes().expect("good settings");
        let equal = kept.luma == kept.chroma;
        assert_eq!((bytes.len(), bytes[1]), if equal { (10, 1) } else { (15, 2) });
        assert_eq!(Settings::read(Reader::Version2, &bytes), Ok(kept));
        assert_eq!(Settings::read(Reader::Version1, &bytes), if equal { Ok(kept) } else { Err(Refusal::VersionNotTaken) });
        // a second setting counts, and bent bytes are answered alike by both readers but for the version
        if rng.below(2) == 0 {
            let last = settings(&mut rng).bytes().expect("good settings");
            bytes.extend_from_slice(&last[3..]);
        }
        for _ in 0..rng.below(3) {
            let at = rng.below(bytes.len());
            bytes[at] = *rng.pick(&[0, 1, 2, 3, 4, 255, bytes[at] ^ 1, bytes[at] ^ 16]);
        }
        if rng.below(4) == 0 {
            bytes.truncate(rng.below(bytes.len()));
        }
        let (old, new) = (read_settings(1, &bytes), read_settings(2, &bytes));
        assert!(old == new || (bytes[..3] == [0, 2, 0] && old.0 == 14));
        assert_eq!(read_settings(9, &bytes), new);
        match new {
            (0, luma, chroma, mode) => {
                let (number, size, out) = write_settings(luma, chroma, mode, 15);
                assert_eq!((number, read_settings(2, &out[..size])), (0, new));
                taken += 1;
            }
            _ => refused += 1,
        }
    }
    assert!(taken > 10_000 && refused > 10_000);
    println!("settings: {taken} taken, {refused} refused, all read back");
}

#[test]
fn refusals() {
    let (luma, chroma) = ([6; 10], [7; 10]);
    for (given, number) in [
        (&[][..], 1),
        (&[0, 1], 1),
        (&[0, 1, 0], 15),
        (&[0, 3, 0], 14),
        (&[1], 12),
        (&[3], 3),
        (&[0, 1, 0, 2], 3),
        (&[0, 1, 0, 0], 12),
        (&[0, 1, 0, 1, 0x65, 0x66, 0x77, 0x88, 0x98, 4], 7),
        (&[0, 1, 0, 1, 0x66, 0x66, 0x77, 0x88, 0x98, 2], 5),
        (&[0, 1, 0, 1, 0x66, 0x66, 0x77, 0x88, 0x98], 1),
    ] {
        assert_eq!(read_settings(2, given).0, number, "{given:?}");
    }
    assert_eq!(read_settings(0, &[0, 1, 0, 1, 0x66, 0x66, 0x77, 0x88, 0x98, 4]).0, 14);
    assert_eq!(write_settings([5; 10], chroma, 9, 0).0, 7);
    assert_eq!(write_settings(luma, [16; 10], 9, 0).0, 7);
    assert_eq!(write_settings(luma, chroma, 9, 0).0, 5);
    assert_eq!((write_settings(luma, chroma, 1, 14).0, write_settings(luma, luma, 1, 9).0), (13, 13));
    assert_eq!((write_settings(luma, chroma, 1, 15).0, write_settings(luma, luma, 1, 10).0), (0, 0));
}

#[test]
fn frames_of_two_sets() {
    let mut rng = Rng::new(52);
    for _ in 0..40 {
        let kept = settings(&mut rng);
        let (width, height) = (1 + rng.below(90), 1 + rng.below(70));
        let pixels = rng.bytes(3 * width * height);
        let frame = kept.write_frame(width, height, 3, &pixels).expect("every picture is written");
        let one = write_frame(width, height, kept.mode, kept.luma, 3, &pixels).expect("every picture is written");
        assert_eq!(frame == one, kept.luma == kept.chroma);
        let mut session = Session::of_numbers(4, width as u16, height as u16, kept.mode.number());
        let (mut picture, [mut y, mut cb, mut cr, mut scratch]) = (vec![0; width * height], [[7; LIST]; 4]);
        let shown = read_frame(&mut session, &frame, &mut picture, &mut y, &mut cb, &mut cr, &mut scratch);
        assert_eq!(shown, Ok(xurbalenz::tiles(width, height)));
    }
    let sent = Sent { width: 1, height: 1, mode: 1, quant: [6; 10], index: 0, pixels: &[1, 2, 3] };
    assert_eq!(write_frame_sets_with(sent, [5; 10], [LIST; 2], 1000).0, 7);
    assert_eq!(write_frame_sets_with(sent, [6; 10], [LIST, 4095], 1000).0, 2);
    assert_eq!(write_frame_sets_with(sent, [7; 10], [LIST; 2], 10).0, 13);
    assert_eq!(write_frame_sets_with(Sent { mode: 2, ..sent }, [5; 10], [LIST; 2], 10).0, 5);
    println!("frames of two sets: written and shown");
}
