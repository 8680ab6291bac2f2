//! Random and damaged bytes: every call comes back with a number from 0 to 13, what is lent holds what the scope document says (checked in `common`
//! after every call, with guard words on both sides of all of it), and the same call again gives the same answer.
mod common;

use common::*;
use std::collections::BTreeMap;
use xurbalenz::{Mode, Quant, Session, LIST};

/// How often each number was given.
#[derive(Default)]
struct Tally(BTreeMap<u8, usize>);

impl Tally {
    fn count(&mut self, number: u8) {
        *self.0.entry(number).or_default() += 1;
    }

    fn total(&self) -> usize {
        self.0.values().sum()
    }

    fn say(&self, what: &str) {
        println!("{what}: {} inputs, each called twice; number: times {:?}", self.total(), self.0);
    }

    /// The damage must reach all of these, or the test tests little.
    fn reached(&self, numbers: &[u8]) {
        for number in numbers {
            assert!(self.0.contains_key(number), "no input was answered {number}: {:?}", self.0);
        }
    }
}

/// Flips, cuts, inserts, removals, overwrites, and splices with another good message, up to four of them.
fn damaged(rng: &mut Rng, good: &[u8], other: &[u8]) -> Vec<u8> {
    let mut m = good.to_vec();
    for _ in 0..1 + rng.below(4) {
        let at = rng.below(m.len() + 1);
        match rng.below(8) {
            0..=2 if at < m.len() => m[at] ^= 1 << rng.below(8),
            3 if at < m.len() => m[at] = *rng.pick(&[0, 1, 0x7F, 0x80, 0xFF]),
            4 => m.truncate(at),
            5 => {
                let n = 1 + rng.below(9);
                let fresh = rng.bytes(n);
                m.splice(at..at, fresh);
            }
            6 => {
                let end = (at + 1 + rng.below(9)).min(m.len());
                m.drain(at..end);
            }
            7 => {
                // the start of one, the rest of another from about the same place
                let from = (at + rng.below(5)).saturating_sub(2).min(other.len());
                m.truncate(at);
                m.extend_from_slice(&other[from..]);
            }
            _ => {}
        }
    }
    m
}

#[test]
fn components() {
    let mut rng = Rng::new(11);
    let mut tally = Tally::default();
    let mut good = vec![];
    for case in 0..200 {
        let (rare, size) = (1 + rng.below(1 << (case % 9)), 1 + rng.below(1 << (case % 8)));
        let list: Vec<i32> = (0..LIST).map(|_| if rng.below(rare) == 0 { rng.below(2 * size + 1) as i32 - size as i32 } else { 0 }).collect();
        for mode in [Mode::Rlgr1, Mode::Rlgr3] {
            good.push(xurbalenz::write_component(mode, &list).expect("short"));
        }
    }
    for i in 0..60_000 {
        let code = match i % 8 {
            0 => {
                let n = rng.below(3000);
                rng.bytes(n)
            }
            1 => {
                // long runs of one bit, broken here and there
                let (n, byte) = (rng.below(9000), *rng.pick(&[0, 0xFF]));
                let mut code = vec![byte; n];
                for _ in 0..rng.below(6) {
                    let at = rng.below(n + 1);
                    if at < n {
                        code[at] = rng.byte();
                    }
                }
                code
            }
            _ => {
                let (a, b) = (rng.pick(&good).clone(), rng.pick(&good));
                damaged(&mut rng, &a, b)
            }
        };
        let mode = if rng.below(50) == 0 { rng.byte() } else { *rng.pick(&[1, 4]) };
        let length = if rng.below(50) == 0 { rng.below(5000) } else { LIST };
        let answer = read_component(mode, &code, length);
        assert_eq!(read_component(mode, &code, length), answer, "the second answer differs");
        // what is done is the code of its list: the writer gives the same bytes back
        if answer.0 == 0 {
            assert_eq!(write_component(mode, &answer.2, code.len()), (0, code.len(), code));
        }
        tally.count(answer.0);
    }
    tally.say("components");
    tally.reached(&[0, 1, 2, 5, 9, 10, 11]);
}

#[test]
fn component_lists() {
    let mut rng = Rng::new(12);
    let mut tally = Tally::default();
    for i in 0..6_000 {
        let bound = 1usize << (i % 17);
        let rare = 1 + rng.below(200);
        let length = if rng.below(40) == 0 { rng.below(5000) } else { LIST };
        let mut list: Vec<i32> = (0..length).map(|_| if rng.below(rare) == 0 { rng.below(2 * bound + 1) as i32 - bound as i32 } else { 0 }).collect();
        if rng.below(30) == 0 && length > 0 {
            list[rng.below(length)] = rng.next() as i32;
        }
        let mode = if rng.below(50) == 0 { rng.byte() } else { *rng.pick(&[1, 4]) };
        let room = if rng.below(4) == 0 { rng.below(5000) } else { 65_535 };
        let answer = write_component(mode, &list, room);
        assert_eq!(write_component(mode, &list, room), answer, "the second answer differs");
        if answer.0 == 0 {
            let (number, bits, back) = read_component(mode, &answer.2[..answer.1], LIST);
            assert_eq!((number, bits.div_ceil(8), back), (0, answer.1, list));
        }
        tally.count(answer.0);
    }
    tally.say("component lists");
    tally.reached(&[0, 2, 5, 9, 13]);
}

/// Records that calls make, and records that no calls make.
fn any_session(rng: &mut Rng) -> Session {
    let (w, h) = (1 + rng.below(200) as u16, 1 + rng.below(200) as u16);
    match rng.below(8) {
        0 => Session::default(),
        1 => Session::of_numbers(1, 0, 0, 0),
        2 => Session::of_numbers(2, 0, 0, 0),
        3 => Session::of_numbers(3, w, h, 0),
        4 => Session::of_numbers(4, w, h, 1),
        5 => Session::of_numbers(4, w, h, 4),
        6 => Session::of_numbers(rng.below(6) as u8, rng.below(3) as u16, rng.below(3) as u16, rng.below(6) as u8),
        _ => Session::of_numbers(rng.byte(), rng.next() as u16, rng.next() as u16, rng.byte()),
    }
}

#[test]
fn headers() {
    let mut rng = Rng::new(13);
    let mut tally = Tally::default();
    for i in 0..60_000 {
        let (w, h) = (rng.below(5000), rng.below(2500));
        let mode = *rng.pick(&[1, 4, 1, 4, 0, 15]);
        let good = [sync(), versions(), channels(w, h), context(mode)];
        let message = match i % 4 {
            0 => rng.pick(&good).clone(),
            1 => {
                let n = rng.below(20);
                let mut m = rng.bytes(n);
                if n > 1 {
                    (m[0], m[1]) = (0xC0 + rng.below(9) as u8, 0xCC);
                }
                m
            }
            _ => {
                let (a, b) = (rng.pick(&good).clone(), rng.pick(&good).clone());
                damaged(&mut rng, &a, &b)
            }
        };
        let session = any_session(&mut rng);
        let answer = header(session, &message);
        assert_eq!(header(session, &message), answer, "the second answer differs");
        // a done header is one of the four, and the record says which
        if answer.0 == 0 {
            assert_eq!(message[0] - 0xC0 + 1, answer.1.headers());
        }
        tally.count(answer.0);
    }
    tally.say("headers");
    tally.reached(&[0, 1, 3, 4, 5, 12]);
}

/// Good frames for a channel: our writer's, and frames put together by hand with other rectangles, sets and tiles.
fn good_frames(rng: &mut Rng, width: usize, height: usize, mode: Mode) -> Vec<Vec<u8>> {
    let mut all = vec![];
    let mut codes = vec![vec![0; 3]];
    for kind in KINDS {
        let pixels = picture(kind, width, height, rng);
        for quant in [Quant::DEFAULT, Quant([15; 10])] {
            all.push(xurbalenz::write_frame(width, height, mode, quant, rng.next() as u32, &pixels).expect("a good picture"));
        }
    }
    for case in 0..30 {
        let (rare, size) = (1 + rng.below(1 << (case % 9)), 1 + rng.below(20));
        let list: Vec<i32> = (0..LIST).map(|i| if i < 4032 && rng.below(rare) == 0 { rng.below(2 * size) as i32 - size as i32 } else { 0 }).collect();
        codes.push(xurbalenz::write_component(mode, &list).expect("short"));
    }
    for _ in 0..12 {
        let mut f = Frame::of(mode.number(), vec![]);
        f.rects = (0..rng.below(4)).map(|_| [rng.below(width), rng.below(height), rng.below(2 * width), rng.below(2 * height)]).collect();
        f.quants.extend((0..rng.below(3)).map(|_| [0x66, 0x77, 0x88, 0x99, 0xA6]));
        for _ in 0..rng.below(4) {
            let place = (rng.below(width.div_ceil(64)), rng.below(height.div_ceil(64)));
            let quants = [0; 3].map(|_| rng.below(f.quants.len()) as u8);
            f.tiles.push(Tile { quants, place, codes: [0; 3].map(|_| rng.pick(&codes).clone()) });
        }
        all.push(f.bytes());
    }
    all
}

#[test]
fn frames() {
    let mut rng = Rng::new(14);
    let mut tally = Tally::default();
    let mut undamaged = 0;
    for (width, height) in [(1, 1), (64, 64), (65, 63), (100, 70), (130, 20)] {
        for mode in [Mode::Rlgr1, Mode::Rlgr3] {
            let session = Session::of_numbers(4, width as u16, height as u16, mode.number());
            let size = width * height;
            let good = good_frames(&mut rng, width, height, mode);
            for message in &good {
                let shown = frame(session, message, &words(size + 5));
                assert_eq!((shown.number, frame(session, message, &words(size + 5))), (0, shown));
                undamaged += 1;
            }
            for i in 0..6_000 {
                let (a, b) = (rng.pick(&good), rng.pick(&good));
                let message = match i % 16 {
                    0 => {
                        let n = rng.below(200);
                        rng.bytes(n)
                    }
                    // good up to a place, random from there
                    1 => {
                        let (at, n) = (rng.below(a.len()), rng.below(60));
                        [&a[..at], &rng.bytes(n)].concat()
                    }
                    _ => damaged(&mut rng, a, b),
                };
                let session = if rng.below(100) == 0 { any_session(&mut rng) } else { session };
                let length = if rng.below(100) == 0 { rng.below(2 * size) } else { size + rng.below(3) };
                let mut lengths = [LIST; 4];
                if rng.below(100) == 0 {
                    lengths[rng.below(4)] = rng.below(5000);
                }
                let before = words(length);
                let shown = frame_with(session, &message, &before, lengths);
                assert_eq!(frame_with(session, &message, &before, lengths), shown, "the second answer differs");
                tally.count(shown.number);
            }
        }
    }
    tally.say("damaged frames");
    println!("{undamaged} frames not damaged, all shown");
    tally.reached(&[0, 1, 2, 3, 4, 5, 6, 7, 8, 9, 10, 11, 12]);
}

#[test]
fn writers() {
    let mut rng = Rng::new(15);
    let mut tally = Tally::default();
    for i in 0..4_000 {
        let (width, height) = if rng.below(20) == 0 { (rng.next() as usize, rng.next() as usize) } else { (rng.below(70), rng.below(70)) };
        let mode = if rng.below(20) == 0 { rng.byte() } else { *rng.pick(&[1, 4]) };
        let room = rng.below(100);
        let answer = write_headers(width, height, mode, room);
        assert_eq!(write_headers(width, height, mode, room), answer, "the second answer differs");
        tally.count(answer.0);
        let (w, h) = (width.min(70), height.min(70));
        let mut pixels = picture(KINDS[i % 5], w, h, &mut rng);
        if rng.below(20) == 0 {
            let n = rng.below(pixels.len() + 1);
            pixels.truncate(n);
        }
        let mut quant = [0; 10].map(|_| 6 + rng.below(10) as u8);
        if rng.below(20) == 0 {
            quant[rng.below(10)] = rng.byte();
        }
        let mut lengths = [LIST; 2];
        if rng.below(20) == 0 {
            lengths[rng.below(2)] = rng.below(5000);
        }
        let sent = Sent { width, height, mode, quant, index: rng.next() as u32, pixels: &pixels };
        let room = rng.below(40_000);
        let answer = write_frame_with(sent, lengths, room);
        assert_eq!(write_frame_with(sent, lengths, room), answer, "the second answer differs");
        if answer.0 == 0 {
            let session = Session::of_numbers(4, width as u16, height as u16, mode);
            let shown = frame(session, &answer.2[..answer.1], &words(width * height));
            assert_eq!((shown.number, shown.tiles), (0, xurbalenz::tiles(width, height)));
        }
        tally.count(answer.0);
    }
    tally.say("headers and frames to write");
    tally.reached(&[0, 2, 5, 7, 13]);
}
