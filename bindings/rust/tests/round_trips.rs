//! What we write, we read: components in both modes, headers, frames. Our own frame shows colours close to the given ones.
mod common;

use common::*;
use xurbalenz::{header_blocks, rgb, tiles, Mode, Quant, Refusal, Screen, Session, LIST};

const MODES: [Mode; 2] = [Mode::Rlgr1, Mode::Rlgr3];

/// Lists of many shapes: from all zeros to dense, from small values to the largest.
fn lists() -> Vec<Vec<i32>> {
    let mut rng = Rng::new(1);
    let mut all = vec![vec![0; LIST], vec![1; LIST], vec![-1; LIST]];
    for place in [0, 1, 2, 4094, 4095] {
        for value in [1, -1, 32_767, -32_767] {
            let mut list = vec![0; LIST];
            list[place] = value;
            all.push(list);
        }
    }
    for case in 0..300 {
        let (rare, size) = (1 + rng.below(1 << (case % 10)), 1 + rng.below(1 << (case % 12)));
        let mut list: Vec<i32> = (0..LIST).map(|_| if rng.below(rare) == 0 { rng.below(2 * size + 1) as i32 - size as i32 } else { 0 }).collect();
        let end = if case % 3 == 0 { rng.below(LIST) } else { LIST }; // some end in zeros
        list[end..].fill(0);
        all.push(list);
    }
    all
}

#[test]
fn components_come_back() {
    let mut done = 0;
    for list in lists() {
        for mode in MODES {
            let code = xurbalenz::write_component(mode, &list).expect("these codes are short");
            let (number, bits, back) = read_component(mode.number(), &code, LIST);
            assert_eq!((number, bits.div_ceil(8)), (0, code.len()));
            assert_eq!(back, list);
            // the room is judged to the byte, and the same bytes come out at the edge
            assert_eq!(write_component(mode.number(), &list, code.len()), (0, code.len(), code.clone()));
            assert_eq!(write_component(mode.number(), &list, code.len() - 1).0, 13);
            // whatever follows, the code's length is reported
            let longer = [&code[..], &[0x55]].concat();
            assert_eq!(read_component(mode.number(), &longer, LIST).0, 11);
            assert_eq!(read_component(mode.number(), &longer, LIST).1, bits);
            // a code is never the start of another: one byte less is cut
            assert_eq!(read_component(mode.number(), &code[..code.len() - 1], LIST).0, 1);
            done += 1;
        }
    }
    println!("{done} components written and read back");
}

#[test]
fn the_worked_component_cases() {
    let mut one = vec![0; LIST];
    for mode in MODES {
        one[0] = 0;
        assert_eq!(xurbalenz::write_component(mode, &one), Ok(vec![0, 0, 0]));
        one[0] = 1;
        assert_eq!(xurbalenz::write_component(mode, &one), Ok(vec![0x80, 0, 0, 0]));
        one[0] = -1;
        assert_eq!(xurbalenz::write_component(mode, &one), Ok(vec![0xA0, 0, 0, 0]));
    }
}

#[test]
fn headers_come_back() {
    for mode in MODES {
        for (width, height) in [(1, 1), (64, 64), (65, 63), (200, 100), (4096, 2048), (4096, 1), (1, 2048)] {
            let headers = xurbalenz::write_headers(width, height, mode).expect("an allowed size");
            assert_eq!(write_headers(width, height, mode.number(), 47), (0, 47, headers.clone()));
            assert_eq!(write_headers(width, height, mode.number(), 46).0, 13);
            let by_hand = [sync(), versions(), channels(width, height), context(mode.number())];
            assert_eq!(headers, by_hand.concat());
            assert!(header_blocks(&headers).eq(by_hand.iter().map(Vec::as_slice)));
            // from any record at all, a good sync starts the session over
            for start in [Session::default(), Session::of_numbers(4, 64, 64, 1), Session::of_numbers(250, 1, 2, 3)] {
                let mut session = start;
                for (i, block) in header_blocks(&headers).enumerate() {
                    let (number, after) = header(session, block);
                    assert_eq!((number, after.headers()), (0, i as u8 + 1));
                    session = after;
                }
                assert_eq!(session.numbers(), (4, width as u16, height as u16, mode.number()));
                assert_eq!((session.width() as usize, session.height() as usize, session.mode()), (width, height, Some(mode)));
            }
        }
    }
}

/// The largest difference of a channel, over all pixels.
fn farthest(pixels: &[u8], picture: &[u16]) -> i32 {
    let shown = picture.iter().flat_map(|&word| rgb(word));
    pixels.iter().zip(shown).map(|(&a, b)| (a as i32 - b as i32).abs()).max().unwrap_or(0)
}

/// The mean difference of a channel.
fn mean(pixels: &[u8], picture: &[u16]) -> f64 {
    let shown = picture.iter().flat_map(|&word| rgb(word));
    pixels.iter().zip(shown).map(|(&a, b)| (a as f64 - b as f64).abs()).sum::<f64>() / pixels.len() as f64
}

fn screen_with(width: usize, height: usize, mode: Mode) -> Screen {
    let mut screen = Screen::new();
    for block in header_blocks(&xurbalenz::write_headers(width, height, mode).expect("an allowed size")) {
        screen.header(block).expect("our own headers");
    }
    screen
}

#[test]
fn frames_come_back_with_close_colours() {
    let mut rng = Rng::new(2);
    let mut frames = 0;
    for (width, height) in [(1, 1), (64, 64), (65, 63), (200, 100), (2, 130), (129, 1)] {
        for mode in MODES {
            for kind in KINDS {
                let pixels = picture(kind, width, height, &mut rng);
                for quant in [Quant::FINEST, Quant::DEFAULT] {
                    let frame = xurbalenz::write_frame(width, height, mode, quant, 7, &pixels).expect("a good picture");
                    let mut screen = screen_with(width, height, mode);
                    assert_eq!(screen.frame(&frame), Ok(tiles(width, height)));
                    let (far, off) = (farthest(&pixels, screen.picture()), mean(&pixels, screen.picture()));
                    // 5-6-5 alone is off by up to 8; the finest quantisers add little more, the common ones blur noise
                    let (most_far, most_off) = match (kind, quant) {
                        (Kind::Flat | Kind::Gradient, _) => (12, 4.0),
                        (_, Quant::FINEST) => (16, 5.0),
                        _ => (48, 6.0),
                    };
                    assert!(
                        far <= most_far && off <= most_off,
                        "{kind:?} {width} x {height} {mode:?} {quant:?}: {far} at most, {off:.2} in the mean"
                    );
                    // the same at the edge, where the picture is longer than the channel
                    let session = screen.session();
                    let shown = common::frame(session, &frame, &words(width * height + 9));
                    assert_eq!((shown.number, shown.tiles), (0, tiles(width, height)));
                    assert_eq!(shown.picture[..width * height], *screen.picture());
                    frames += 1;
                }
            }
        }
    }
    println!("{frames} frames written and shown");
}

#[test]
fn frame_room_is_judged_to_the_byte() {
    let mut rng = Rng::new(3);
    let pixels = picture(Kind::Noise, 65, 63, &mut rng);
    let sent = Sent { width: 65, height: 63, mode: 4, quant: Quant::DEFAULT.0, index: 0xDEAD_BEEF, pixels: &pixels };
    let (number, size, out) = write_frame(sent, 65_536);
    assert_eq!(number, 0);
    assert_eq!(out[6..14], [1, 0, 0xEF, 0xBE, 0xAD, 0xDE, 1, 0]); // codecId, channelId, frameIdx as given, one region
    assert_eq!(write_frame(sent, size), (0, size, out[..size].to_vec()));
    for room in [0, 1, 71, 72, size - 1] {
        assert_eq!(write_frame(sent, room), (13, 0, vec![0xA5; room]));
    }
    assert_eq!(xurbalenz::write_frame(65, 63, Mode::Rlgr3, Quant::DEFAULT, 0xDEAD_BEEF, &pixels), Ok(out[..size].to_vec()));
}

#[test]
fn long_frames_are_written_too() {
    // noise with the finest quantisers: the first room that write_frame tries, a byte a pixel, is too short
    let pixels = picture(Kind::Noise, 64, 64, &mut Rng::new(4));
    let frame = xurbalenz::write_frame(64, 64, Mode::Rlgr3, Quant::FINEST, 0, &pixels).expect("a good picture");
    assert!(frame.len() > 72 + LIST, "{} bytes: not long", frame.len());
    let mut screen = screen_with(64, 64, Mode::Rlgr3);
    assert_eq!(screen.frame(&frame), Ok(1));
}

#[test]
fn the_screen_keeps_its_picture() {
    let white = [255; 3 * 70 * 40];
    let frame = xurbalenz::write_frame(70, 40, Mode::Rlgr1, Quant::DEFAULT, 0, &white).expect("a good picture");
    let mut screen = Screen::default();
    assert_eq!((screen.picture().len(), screen.frame(&frame)), (0, Err(Refusal::Order)));
    let headers = xurbalenz::write_headers(70, 40, Mode::Rlgr1).expect("an allowed size");
    for block in header_blocks(&headers) {
        assert_eq!(screen.header(block), Ok(()));
    }
    assert_eq!(screen.picture(), [0; 70 * 40]);
    assert_eq!(screen.frame(&frame), Ok(2));
    assert_eq!(screen.picture(), [0xFFFF; 70 * 40]);
    // refused: nothing changes
    let before = screen.clone();
    assert_eq!(screen.frame(&frame[..frame.len() - 1]), Err(Refusal::Cut));
    assert_eq!(screen.header(&versions()), Err(Refusal::Order));
    assert_eq!((screen.session(), screen.picture()), (before.session(), before.picture()));
    // a new session of the same size keeps the picture, also between sync and channels
    for block in header_blocks(&headers) {
        assert_eq!(screen.header(block), Ok(()));
        assert_eq!((screen.width(), screen.height(), screen.picture()), (70, 40, &[0xFFFF; 70 * 40][..]));
    }
    // another size starts black
    for block in header_blocks(&xurbalenz::write_headers(40, 70, Mode::Rlgr1).expect("an allowed size")) {
        assert_eq!(screen.header(block), Ok(()));
    }
    assert_eq!((screen.width(), screen.height(), screen.picture()), (40, 70, &[0; 70 * 40][..]));
}

#[test]
fn threads_do_not_meet() {
    let frames: Vec<_> = (0..4)
        .map(|seed| {
            let pixels = picture(Kind::Noise, 100, 70, &mut Rng::new(seed));
            xurbalenz::write_frame(100, 70, Mode::Rlgr3, Quant::DEFAULT, 0, &pixels).expect("a good picture")
        })
        .collect();
    let session = Session::of_numbers(4, 100, 70, 4);
    let alone: Vec<Shown> = frames.iter().map(|f| common::frame(session, f, &words(7000))).collect();
    std::thread::scope(|scope| {
        for (f, expected) in frames.iter().zip(&alone) {
            scope.spawn(move || {
                for _ in 0..50 {
                    assert_eq!(common::frame(session, f, &words(7000)), *expected);
                }
            });
        }
    });
}
