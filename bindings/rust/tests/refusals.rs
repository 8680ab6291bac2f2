//! Every number from 1 to 13, each by an input made for it, at every call that gives it. The calls of `common` check after each what the
//! picture, the record, lists and outputs hold.
mod common;

use common::*;
use std::collections::BTreeSet;
use std::error::Error;
use xurbalenz::{Mode, Quant, Refusal, Session, HEADERS_SIZE, LIST, MAX_COMPONENT};

const FRESH: Session = Session::of_numbers(0, 0, 0, 0);
const READY: Session = Session::of_numbers(4, 100, 70, 1);

fn frame_number(message: &[u8]) -> u8 {
    frame(READY, message, &words(7000)).number
}

/// A message with one byte put to another value.
fn with(message: &[u8], at: usize, byte: u8) -> Vec<u8> {
    let mut m = message.to_vec();
    assert_ne!(m[at], byte, "nothing changed");
    m[at] = byte;
    m
}

// ---- codes that are refused

/// Full runs up to place 4,092 (k is 10 there), then a run of 1,023 zeros more and a value: no place is left for it.
fn overrun() -> Vec<u8> {
    bits(&format!("{} 1 1111111111 0 00", "0".repeat(20)))
}

/// A first value of 32,769: 16,384 ones, with kr = 1.
fn out_of_range() -> Vec<u8> {
    bits(&format!("1 0 0 {} 0 0", "1".repeat(16_384)))
}

/// A list whose code is longer than 65,535 bytes: small values press kr to 0, then one of the largest costs 8 KB.
fn long_list() -> Vec<i32> {
    (0..LIST).map(|i| if i % 41 == 40 { 32_767 } else { -1 }).collect()
}

#[test]
fn header_refusals() {
    let at = |headers| match headers {
        0..=2 => Session::of_numbers(headers, 0, 0, 0),
        3 => Session::of_numbers(3, 64, 64, 0),
        _ => Session::of_numbers(4, 64, 64, 4),
    };
    let number = |session, message: &[u8]| header(session, message).0;
    let blocks = [sync(), versions(), channels(64, 64), context(4)];
    for (i, block) in blocks.iter().enumerate() {
        let due = at(i as u8);
        assert_eq!(number(due, block), 0);
        for n in 0..block.len() {
            assert_eq!(number(due, &block[..n]), 1, "{n} bytes of header {i}"); // cut
        }
        assert_eq!(number(due, &[block, &[0][..]].concat()), 4); // bytes after it
        for wrong in [0, 5, 255] {
            assert_eq!(number(due, &with(block, 2, wrong)), 4); // blockLen
        }
        for kind in [0xBF, 0xC4, 0xC5, 0xC6, 0xC7, 0xC8] {
            assert_eq!(number(due, &with(block, 0, kind)), 3); // kind
        }
        for other in 0..=4 {
            let expected = if i == 0 || other == i as u8 { 0 } else { 12 }; // order; a sync is always due
            assert_eq!(number(at(other), block), expected, "header {i} with {other} in");
        }
        for made_up in [Session::of_numbers(i as u8, 9, 0, 0), Session::of_numbers(5, 64, 64, 1), Session::of_numbers(i as u8, 64, 64, 2)] {
            assert_eq!(number(made_up, block), if i == 0 { 0 } else { 12 });
        }
    }
    // fields
    for at_byte in 6..12 {
        assert_eq!(number(at(0), &with(&sync(), at_byte, 0x77)), 5);
    }
    for at_byte in 6..10 {
        assert_eq!(number(at(1), &with(&versions(), at_byte, 0x77)), 5);
    }
    for (width, height, expected) in [(0, 1, 5), (1, 0, 5), (4096, 2048, 0), (4097, 1, 5), (1, 2049, 5), (65_535, 65_535, 5)] {
        assert_eq!(number(at(2), &channels(width, height)), expected);
    }
    for mode in 0..16 {
        assert_eq!(number(at(3), &context(mode)), if mode == 1 || mode == 4 { 0 } else { 5 });
    }
    // the typed call says the same
    let mut session = Session::default();
    assert_eq!(xurbalenz::read_header(&mut session, &versions()), Err(Refusal::Order));
    assert_eq!(session, Session::default());
}

#[test]
fn record_refusals() {
    let good = Frame::of(1, vec![Tile::grey(0, 0)]).bytes();
    let (two, three) = (Session::of_numbers(2, 0, 0, 0), Session::of_numbers(3, 100, 70, 0));
    assert_eq!(header(two, &channels(100, 70)), (0, three));
    assert_eq!((three.columns(), three.rows(), three.words()), (2, 2, 7000));
    assert_eq!(header(three, &context(1)), (0, READY));
    let before = [(Session::of_numbers(1, 0, 0, 0), versions()), (two, channels(100, 70)), (three, context(1))];
    // columns, rows and words, each one more and one less than it should be, and a glass that is neither: no calls could have made such a record
    for (at, more) in [(6, 1), (7, 1), (8, 1), (12, 2)] {
        for by in [more, 255] {
            assert_eq!(frame(bent(READY, at, by), &good, &words(7000)).number, 12);
            for (session, block) in &before {
                assert_eq!(header(*session, block).0, 0);
                assert_eq!(header(bent(*session, at, by), block).0, 12);
            }
            // a good sync starts it over
            assert_eq!(header(bent(READY, at, by), &sync()), (0, Session::of_numbers(1, 0, 0, 0)));
        }
    }
    // the glass of 32 bits: headers are taken and a sync keeps it, and words of 16 bits are refused
    let (wide, started) = (bent(READY, 12, 1), bent(Session::of_numbers(1, 0, 0, 0), 12, 1));
    assert_eq!(header(bent(three, 12, 1), &context(1)), (0, wide));
    assert_eq!(header(wide, &sync()), (0, started));
    assert_eq!(frame(wide, &good, &words(7000)).number, 2);
    assert_eq!(frame_with(wide, &[], &words(7000), [LIST; 4]).number, 2);
    // what stands behind the glass is not judged
    let mut s = READY;
    // SAFETY: these three bytes are the record's own, and no number's.
    unsafe { std::ptr::addr_of_mut!(s).cast::<u8>().add(13).write_bytes(0xFF, 3) };
    let (mut picture, [mut y, mut cb, mut cr, mut t]) = (words(7000), [[7; LIST]; 4]);
    assert_eq!(xurbalenz::edge::read_frame(&mut s, &good, &mut picture, &mut y, &mut cb, &mut cr, &mut t), (0, 1));
    assert_eq!(s, READY);
}

#[test]
fn frame_refusals_before_the_message() {
    let good = Frame::of(1, vec![Tile::grey(0, 0)]).bytes();
    let short = words(6999);
    assert_eq!(frame(READY, &good, &words(7000)).number, 0);
    // 12 comes before 2, and both before anything of the message
    for session in [FRESH, Session::of_numbers(3, 100, 70, 0), Session::of_numbers(4, 100, 70, 2), Session::of_numbers(4, 0, 70, 1)] {
        assert_eq!(frame(session, &good, &words(7000)).number, 12);
        assert_eq!(frame_with(session, &[], &short, [0; 4]).number, 12);
    }
    for message in [&good[..], &[]] {
        assert_eq!(frame(READY, message, &short).number, 2);
        assert_eq!(frame(READY, message, &[]).number, 2);
        for list in 0..4 {
            for length in [0, 1, 4095, 4097] {
                let mut lengths = [LIST; 4];
                lengths[list] = length;
                assert_eq!(frame_with(READY, message, &words(7000), lengths).number, 2);
            }
        }
    }
}

#[test]
fn frame_refusals_of_blocks() {
    let f = Frame::of(1, vec![Tile::grey(0, 0), Tile::grey(1, 1)]);
    let good = f.bytes();
    assert_eq!(frame_number(&good), 0);
    for n in 0..good.len() {
        assert_eq!(frame_number(&good[..n]), 1, "cut to {n} bytes");
    }
    assert_eq!(frame_number(&[&good[..], &[0]].concat()), 4);
    assert_eq!(frame_number(&[&good[..], &good].concat()), 4);
    // each block in another's place, a header inside a frame
    let (begin, region, tileset, end) = (f.begin(), f.region(), f.tileset(), f.end());
    for order in [[&region, &begin, &tileset, &end], [&begin, &tileset, &region, &end], [&begin, &region, &end, &tileset]] {
        assert_eq!(frame_number(&order.map(|b| b.as_slice()).concat()), 3);
    }
    assert_eq!(frame_number(&[&begin[..], &sync(), &region, &tileset, &end].concat()), 3);
    // blockLen of a block with a fixed size, then of one with a least size
    let at_region = begin.len();
    let at_set = at_region + region.len();
    let at_end = at_set + tileset.len();
    assert_eq!(frame_number(&with(&good, 2, 15)), 4);
    assert_eq!(frame_number(&with(&good, at_region + 2, 14)), 4);
    assert_eq!(frame_number(&with(&good, at_region + 2, 24)), 4); // against its count
    assert_eq!(frame_number(&with(&good, at_region + 5, 255)), 1); // far more than there is
    assert_eq!(frame_number(&with(&good, at_set + 2, 21)), 4);
    assert_eq!(frame_number(&with(&good, at_end + 2, 9)), 4);
    assert_eq!(frame_number(&with(&good, at_set + 18, 1)), 4); // tilesDataSize
                                                               // fixed fields: codecId and channelId of all four, numRegions, region flags, type and tilesets, subtype, idx, properties, tileSize
    for at_block in [0, at_region, at_set, at_end] {
        assert_eq!(frame_number(&with(&good, at_block + 6, 2)), 5);
        assert_eq!(frame_number(&with(&good, at_block + 7, 0xFF)), 5);
    }
    let fixed = [(12, 2), (13, 1), (at_region + 8, 0), (at_set - 4, 0), (at_set - 2, 0), (at_set - 1, 1)];
    let fixed_in_set = [(8, 0), (9, 0), (10, 1), (11, 1), (12, 0x50), (13, 0x50), (13, 0x04), (15, 65)];
    for (at_byte, byte) in fixed.into_iter().chain(fixed_in_set.map(|(i, byte)| (at_set + i, byte))) {
        assert_eq!(frame_number(&with(&good, at_byte, byte)), 5, "byte {at_byte} put to {byte}");
    }
    // what is not judged: frameIdx, the region's other flags, the tileset's flags
    for (at_byte, byte) in [(8, 9), (11, 255), (at_region + 8, 255), (at_set + 12, 0x5F)] {
        assert_eq!(frame_number(&with(&good, at_byte, byte)), 0, "byte {at_byte} put to {byte}");
    }
}

#[test]
fn frame_refusals_of_counts() {
    let mut f = Frame::of(1, vec![Tile::grey(0, 0)]);
    f.rects = vec![[0, 0, 1, 1]; 256];
    assert_eq!(frame_number(&f.bytes()), 0);
    f.rects.push([0, 0, 1, 1]);
    assert_eq!(frame_number(&f.bytes()), 6);
    let mut many = Frame::of(1, vec![Tile::grey(0, 0); 2048]);
    assert_eq!(frame(READY, &many.bytes(), &words(7000)).tiles, 2048);
    many.tiles.push(Tile::grey(0, 0));
    assert_eq!(frame_number(&many.bytes()), 6);
}

#[test]
fn frame_refusals_of_tiles() {
    let tile = |t: Tile| frame_number(&Frame::of(1, vec![Tile::grey(0, 0), t]).bytes());
    let coded = |component: usize, code: Vec<u8>| {
        let mut t = Tile::grey(1, 0);
        t.codes[component] = code;
        tile(t)
    };
    assert_eq!(tile(Tile::grey(1, 1)), 0);
    // quantisers: 5 is too small in each of the ten places, also in a set that no tile uses; 16 does not fit four bits
    for at in 0..10 {
        let mut f = Frame::of(1, vec![]);
        let mut set = [0x66; 5];
        set[at / 2] = if at % 2 == 0 { 0x65 } else { 0x56 };
        f.quants.push(set);
        assert_eq!(frame_number(&f.bytes()), 7);
    }
    for component in 0..3 {
        let mut t = Tile::grey(0, 0);
        t.quants[component] = 1;
        assert_eq!(tile(t), 7);
        assert_eq!(coded(component, vec![]), 1);
        assert_eq!(coded(component, vec![0; 2]), 1);
        assert_eq!(coded(component, vec![0; 4]), 11);
        assert_eq!(coded(component, vec![0, 0, 1]), 11);
        assert_eq!(coded(component, overrun()), 10);
        assert_eq!(coded(component, out_of_range()), 9);
        // a value that is in range but not when scaled, and LL3 values that are in range but not their sum
        for (place, value) in [(0, 256), (4032, 1024)] {
            let mut list = vec![0; LIST];
            list[place] = value;
            assert_eq!(coded(component, xurbalenz::write_component(Mode::Rlgr1, &list).expect("short")), 9);
            list[place] = value - 1;
            assert_eq!(coded(component, xurbalenz::write_component(Mode::Rlgr1, &list).expect("short")), 0);
        }
        let mut list = vec![0; LIST];
        (list[4032], list[4033]) = (1000, 24);
        assert_eq!(coded(component, xurbalenz::write_component(Mode::Rlgr1, &list).expect("short")), 9);
        list[4033] = 23;
        assert_eq!(coded(component, xurbalenz::write_component(Mode::Rlgr1, &list).expect("short")), 0);
    }
    // 100 x 70: two tiles each way
    assert_eq!(tile(Tile::grey(2, 0)), 8);
    assert_eq!(tile(Tile::grey(0, 2)), 8);
    assert_eq!(tile(Tile::grey(65_535, 0)), 8);
    // a tile's own layout
    let f = Frame::of(1, vec![Tile::grey(0, 0)]);
    let (good, at) = (f.bytes(), f.begin().len() + f.region().len() + 27);
    assert_eq!(good[at], 0xC3);
    assert_eq!(frame_number(&with(&good, at, 0xC4)), 3);
    assert_eq!(frame_number(&with(&good, at + 2, 18)), 4);
    assert_eq!(frame_number(&with(&good, at + 2, 29)), 1); // more than the tileset has, though more bytes follow
    assert_eq!(frame_number(&with(&good, at + 2, 27)), 4); // against its lengths
    assert_eq!(frame_number(&with(&good, at + 13, 2)), 4);
    // one tile listed, two there
    let two = Frame::of(1, vec![Tile::grey(0, 0), Tile::grey(0, 0)]).bytes();
    assert_eq!(frame_number(&with(&two, at - 11, 1)), 4);
}

#[test]
fn the_first_fault_decides() {
    // a bad second tile keeps the first from being drawn; an earlier fault hides a later one
    let good = Frame::of(1, vec![Tile::grey(0, 0)]).bytes();
    let shown = frame(READY, &good, &words(7000));
    assert_eq!((shown.number, shown.tiles), (0, 1));
    assert_ne!(shown.picture, words(7000));
    let mut bad = Tile::grey(1, 0);
    bad.codes[2] = overrun();
    let f = Frame::of(1, vec![Tile::grey(0, 0), bad.clone()]);
    assert_eq!(frame(READY, &f.bytes(), &words(7000)), Shown { number: 10, tiles: 0, picture: words(7000), zeros: true });
    bad.codes[0] = vec![0; 4];
    assert_eq!(frame_number(&Frame::of(1, vec![bad.clone()]).bytes()), 11);
    bad.place = (9, 9);
    assert_eq!(frame_number(&Frame::of(1, vec![bad.clone()]).bytes()), 8);
    bad.quants[1] = 1;
    assert_eq!(frame_number(&Frame::of(1, vec![bad.clone()]).bytes()), 7);
    let wrong_mode = Frame::of(4, vec![bad]).bytes();
    assert_eq!(frame_number(&wrong_mode), 5);
}

#[test]
fn component_reader_refusals() {
    for mode in 0..=255 {
        let expected = if mode == 1 || mode == 4 { 0 } else { 5 };
        assert_eq!(read_component(mode, &[0; 3], LIST).0, expected);
        if expected == 5 {
            assert_eq!(read_component(mode, &[0; 65_536], 0).0, 5); // before 2 and 6
        }
    }
    for mode in [1, 4] {
        for length in [0, 1, 4095, 4097] {
            assert_eq!(read_component(mode, &[0; 65_536], length).0, 2); // before 6
        }
        assert_eq!(read_component(mode, &[0; 65_536], LIST).0, 6);
        assert_eq!(read_component(mode, &[0; 65_535], LIST).0, 11);
        assert_eq!(read_component(mode, &[], LIST).0, 1);
        assert_eq!(read_component(mode, &[0, 0], LIST).0, 1);
        assert_eq!(read_component(mode, &[0xFF; 65_535], LIST).0, 1); // ones that never end
        assert_eq!(read_component(mode, &out_of_range(), LIST).0, 9);
        assert_eq!(read_component(mode, &overrun(), LIST).0, 10);
        assert_eq!(read_component(mode, &overrun()[..4], LIST).0, 1); // read in full before it is judged
        assert_eq!(read_component(mode, &[0; 4], LIST), (11, 21, vec![0; LIST]));
        assert_eq!(read_component(mode, &[0, 0, 4], LIST), (11, 21, vec![0; LIST]));
        assert_eq!(read_component(mode, &[0, 0, 8], LIST).0, 1); // the 21st bit is 1: a run that is cut
    }
    let mut list = vec![7; LIST];
    let refused = xurbalenz::read_component(Mode::Rlgr1, &[0; 4], &mut list).unwrap_err();
    assert_eq!((refused.refusal, refused.bits), (Refusal::Tail, 21));
    assert!(refused.to_string().starts_with("11 tail: ") && refused.to_string().ends_with("(the code has 21 bits)"));
    assert_eq!(Refusal::from(refused), Refusal::Tail);
}

#[test]
fn component_writer_refusals() {
    let mut zeros = vec![0; LIST];
    for mode in [0, 2, 3, 5, 255] {
        assert_eq!(write_component(mode, &[], 0).0, 5);
    }
    for mode in [1, 4] {
        for length in [0, 1, 4095, 4097] {
            assert_eq!(write_component(mode, &vec![40_000; length], 0).0, 2); // before 9 and 13
        }
        for value in [32_768, -32_768, i32::MAX, i32::MIN] {
            for place in [0, 2000, 4095] {
                zeros[place] = value;
                assert_eq!(write_component(mode, &zeros, 0).0, 9); // before 13
                zeros[place] = 0;
            }
        }
        assert_eq!(write_component(mode, &zeros, 3), (0, 3, vec![0; 3]));
        for room in 0..3 {
            assert_eq!(write_component(mode, &zeros, room), (13, 0, vec![0xA5; room]));
        }
    }
    assert_eq!(write_component(1, &long_list(), 0).0, 6); // before 13
    assert_eq!(write_component(1, &long_list(), 2 * MAX_COMPONENT).0, 6);
    assert_eq!(xurbalenz::write_component(Mode::Rlgr1, &long_list()), Err(Refusal::TooBig));
}

#[test]
fn header_writer_refusals() {
    for (width, height) in [(0, 1), (1, 0), (4097, 1), (1, 2049), (usize::MAX, usize::MAX), (usize::MAX / 2 + 2, 1), (65_537, 65_537)] {
        assert_eq!(write_headers(width, height, 1, 0).0, 5); // before 13
        assert_eq!(xurbalenz::write_headers(width, height, Mode::Rlgr1), Err(Refusal::Field));
    }
    for mode in [0, 2, 3, 5, 255] {
        assert_eq!(write_headers(64, 64, mode, 100).0, 5);
    }
    for room in 0..HEADERS_SIZE {
        assert_eq!(write_headers(64, 64, 4, room), (13, 0, vec![0xA5; room]));
    }
    assert_eq!(write_headers(64, 64, 4, 100).0, 0);
}

#[test]
fn frame_writer_refusals() {
    let pixels = [9; 3 * 5 * 4];
    let good = Sent { width: 5, height: 4, mode: 1, quant: Quant::DEFAULT.0, index: 0, pixels: &pixels };
    assert_eq!(write_frame(good, 1000).0, 0);
    // 5 before 7 before 2 before 13
    for (width, height) in [(0, 4), (5, 0), (4097, 4), (5, 2049), (usize::MAX, usize::MAX)] {
        assert_eq!(write_frame_with(Sent { width, height, quant: [0; 10], pixels: &[], ..good }, [0; 2], 0).0, 5);
        assert_eq!(xurbalenz::write_frame(width, height, Mode::Rlgr1, Quant::DEFAULT, 0, &pixels), Err(Refusal::Field));
    }
    for mode in [0, 2, 3, 5, 255] {
        assert_eq!(write_frame(Sent { mode, ..good }, 1000).0, 5);
    }
    for at in 0..10 {
        for value in [0, 5, 16, 255] {
            let mut quant = [6; 10];
            quant[at] = value;
            assert_eq!(write_frame_with(Sent { quant, pixels: &[], ..good }, [0; 2], 0).0, 7);
        }
    }
    for length in [0, 1, 59] {
        assert_eq!(write_frame(Sent { pixels: &pixels[..length], ..good }, 0).0, 2);
    }
    assert_eq!(write_frame(Sent { pixels: &[9; 61], ..good }, 0).0, 2);
    for lengths in [[0, LIST], [LIST, 0], [4095, LIST], [LIST, 4097]] {
        assert_eq!(write_frame_with(good, lengths, 0).0, 2);
    }
    assert_eq!(write_frame(good, 0).0, 13);
    assert_eq!(xurbalenz::write_frame(5, 4, Mode::Rlgr1, Quant([5; 10]), 0, &pixels), Err(Refusal::Quant));
}

#[test]
fn every_number_has_its_word() {
    // one input for each number, through the typed calls or the edge
    let given = [
        header(FRESH, &[]).0,
        frame(READY, &[], &[]).number,
        header(FRESH, &block(0xCCC9, &[])).0,
        header(FRESH, &block(0xCCC0, &[])).0,
        read_component(0, &[], LIST).0,
        read_component(1, &[0; 65_536], LIST).0,
        write_frame(Sent { width: 1, height: 1, mode: 1, quant: [5; 10], index: 0, pixels: &[0; 3] }, 200).0,
        frame_number(&Frame::of(1, vec![Tile::grey(2, 2)]).bytes()),
        read_component(1, &out_of_range(), LIST).0,
        read_component(1, &overrun(), LIST).0,
        read_component(1, &[0; 4], LIST).0,
        header(FRESH, &context(1)).0,
        write_headers(1, 1, 1, 46).0,
    ];
    assert_eq!(given, [1, 2, 3, 4, 5, 6, 7, 8, 9, 10, 11, 12, 13]);
    let words = ["cut", "buffer", "kind", "length", "field", "too big", "quant", "place", "range", "overrun", "tail", "order", "room"];
    let refusals: Vec<Refusal> = given.iter().map(|&n| Refusal::of(n).expect("not 0")).collect();
    for (refusal, (number, word)) in refusals.iter().zip(given.iter().zip(words)) {
        assert_eq!((refusal.number(), refusal.word()), (*number, word));
        assert!(refusal.to_string().starts_with(&format!("{number} {word}: ")));
        let _: &dyn Error = refusal;
    }
    assert_eq!(refusals.iter().map(|r| r.to_string()).collect::<BTreeSet<_>>().len(), 13);
    // what no call gives still has an answer
    assert_eq!(Refusal::of(0), None);
    // those of the settings' reader have words too, and those of a list of tiles
    for (number, refusal, word) in [
        (14, Refusal::VersionNotTaken, "version not taken"),
        (15, Refusal::NoSetting, "no setting"),
        (16, Refusal::OutOfOrder, "out of order"),
        (17, Refusal::TileMissing, "tile missing"),
    ] {
        assert_eq!(Refusal::of(number), Some(refusal));
        assert_eq!((refusal.number(), refusal.word()), (number, word));
    }
    for number in 18..=255 {
        assert_eq!(Refusal::of(number), Some(Refusal::Unknown(number)));
        assert_eq!(Refusal::Unknown(number).number(), number);
    }
}
