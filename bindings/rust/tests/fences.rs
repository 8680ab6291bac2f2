//! Nothing outside what is lent is even read: every lent part stands right before, or right behind, a page that may not be touched, so that a read
//! one element too far ends the test program. (Guard words, in the other tests, only see what is written.)
#![cfg(target_os = "linux")]
mod common;

use common::*;
use std::ffi::c_void;
use xurbalenz::{edge, Mode, Quant, Session, LIST};

// Of the C library, which std links anyway.
extern "C" {
    fn mmap(at: *mut c_void, length: usize, may: i32, flags: i32, file: i32, offset: isize) -> *mut c_void;
    fn mprotect(at: *mut c_void, length: usize, may: i32) -> i32;
    fn munmap(at: *mut c_void, length: usize) -> i32;
}

const FENCE: usize = 65_536; // a multiple of every page size in use

/// A part to lend, between two fences; it touches the one before it or the one behind it.
struct Fenced<T: Copy> {
    base: *mut u8,
    total: usize,
    part: *mut T,
    len: usize,
}

impl<T: Copy> Fenced<T> {
    fn of(words: &[T], behind: bool) -> Fenced<T> {
        let size = size_of_val(words);
        let inner = size.next_multiple_of(FENCE).max(FENCE);
        let total = inner + 2 * FENCE;
        // SAFETY: a fresh private mapping; only its inner part is opened, and the words fit there and are aligned (whole elements from an end of it).
        unsafe {
            let base = mmap(std::ptr::null_mut(), total, 0, 0x22, -1, 0) as *mut u8; // private, anonymous, closed
            assert!(base as isize != -1, "no memory");
            assert_eq!(mprotect(base.add(FENCE) as *mut c_void, inner, 3), 0); // read and write
            let part = base.add(if behind { FENCE + inner - size } else { FENCE }) as *mut T;
            std::ptr::copy_nonoverlapping(words.as_ptr(), part, words.len());
            Fenced { base, total, part, len: words.len() }
        }
    }

    fn part(&self) -> &[T] {
        // SAFETY: as made above; borrowed from self.
        unsafe { std::slice::from_raw_parts(self.part, self.len) }
    }

    fn part_mut(&mut self) -> &mut [T] {
        // SAFETY: the same, and self is borrowed whole.
        unsafe { std::slice::from_raw_parts_mut(self.part, self.len) }
    }
}

impl<T: Copy> Drop for Fenced<T> {
    fn drop(&mut self) {
        // SAFETY: the mapping made above, once.
        unsafe { munmap(self.base as *mut c_void, self.total) };
    }
}

/// A frame call in fenced memory: the number, and the picture after it.
fn fenced_frame(session: Session, message: &[u8], picture: &[u16], behind: bool) -> (u8, Vec<u16>) {
    let mut s = Fenced::of(&[session], behind);
    let m = Fenced::of(message, behind);
    let mut p = Fenced::of(picture, behind);
    let [mut y, mut cb, mut cr, mut scratch] = [0; 4].map(|_| Fenced::of(&[7; LIST], behind));
    let number = edge::read_frame(&mut s.part_mut()[0], m.part(), p.part_mut(), y.part_mut(), cb.part_mut(), cr.part_mut(), scratch.part_mut()).0;
    (number, p.part().to_vec())
}

#[test]
fn frames_and_headers() {
    let mut rng = Rng::new(21);
    let (width, height) = (70, 40);
    let mut calls = 0;
    for mode in [Mode::Rlgr1, Mode::Rlgr3] {
        let session = Session::of_numbers(4, width as u16, height as u16, mode.number());
        let pixels = picture(Kind::Check, width, height, &mut rng);
        let good = xurbalenz::write_frame(width, height, mode, Quant::DEFAULT, 0, &pixels).expect("a good picture");
        let before = words(width * height);
        for behind in [true, false] {
            // whole, cut at every place near the front and at others, damaged
            for i in 0..1200 {
                let message = match i {
                    0 => good.clone(),
                    1..=120 => good[..i - 1].to_vec(),
                    121..=500 => good[..rng.below(good.len())].to_vec(),
                    _ => {
                        let mut m = good.clone();
                        (0..=rng.below(3)).for_each(|_| m[rng.below(good.len())] ^= 1 << rng.below(8));
                        m
                    }
                };
                let shown = frame(session, &message, &before);
                assert_eq!(fenced_frame(session, &message, &before, behind), (shown.number, shown.picture));
                calls += 1;
            }
            for block in xurbalenz::header_blocks(&xurbalenz::write_headers(width, height, mode).expect("an allowed size")) {
                for n in 0..=block.len() {
                    let mut s = Fenced::of(&[Session::default()], behind);
                    let m = Fenced::of(&block[..n], behind);
                    assert_eq!(edge::read_header(&mut s.part_mut()[0], m.part()), header(Session::default(), &block[..n]).0);
                    calls += 1;
                }
            }
        }
    }
    println!("{calls} frame and header calls between fences, none read past them");
}

#[test]
fn components_and_writers() {
    let mut rng = Rng::new(22);
    let mut calls = 0;
    for i in 0..400 {
        let (rare, size) = (1 + rng.below(1 << (i % 9)), 1 + rng.below(1 << (i % 8)));
        let list: Vec<i32> = (0..LIST).map(|_| if rng.below(rare) == 0 { rng.below(2 * size + 1) as i32 - size as i32 } else { 0 }).collect();
        let behind = i % 4 < 2;
        let mode = if i % 2 == 0 { 1 } else { 4 };
        let (_, size, code) = write_component(mode, &list, 65_535);
        let from = Fenced::of(&list, behind);
        for room in [size, size - 1] {
            let mut out = Fenced::of(&vec![0xA5; room], behind);
            assert_eq!(edge::write_component(mode, from.part(), out.part_mut()), if room == size { (0, size) } else { (13, 0) });
        }
        for n in [size, size - 1, rng.below(size), rng.below(size)] {
            let c = Fenced::of(&code[..n], behind);
            let mut back = Fenced::of(&[7; LIST], behind);
            let answer = edge::read_component(mode, c.part(), back.part_mut());
            assert_eq!((answer.0, answer.1, back.part().to_vec()), read_component(mode, &code[..n], LIST));
        }
        let (width, height) = (1 + rng.below(70), 1 + rng.below(70));
        let pixels = picture(KINDS[i % 5], width, height, &mut rng);
        let sent = Sent { width, height, mode, quant: Quant::DEFAULT.0, index: 0, pixels: &pixels };
        let (_, size, frame) = write_frame(sent, 65_535);
        for room in [size, size - 1] {
            let pixels = Fenced::of(&pixels, behind);
            let quant = Fenced::of(&[Quant::DEFAULT.0], behind);
            let [mut list, mut scratch] = [0; 2].map(|_| Fenced::of(&[7; LIST], behind));
            let mut out = Fenced::of(&vec![0xA5; room], behind);
            let answer =
                edge::write_frame(width, height, mode, &quant.part()[0], 0, pixels.part(), list.part_mut(), scratch.part_mut(), out.part_mut());
            assert_eq!(answer, if room == size { (0, size) } else { (13, 0) });
            assert!(room != size || out.part() == &frame[..size]);
        }
        for room in [47, 46] {
            let mut out = Fenced::of(&vec![0xA5; room], behind);
            assert_eq!(edge::write_headers(width, height, mode, out.part_mut()), if room == 47 { (0, 47) } else { (13, 0) });
        }
        calls += 10;
    }
    println!("{calls} component and writer calls between fences, none read past them");
}

#[test]
fn hand_overs() {
    let mut rng = Rng::new(23);
    let frame = [0xC4, 0xCC, 9, 0, 0, 0, 1, 2, 3, 0xC7, 0xCC, 8, 0, 0, 0, 4, 5, 0xC5, 0xCC, 7, 0, 0, 0, 6, 0xC0];
    let mut calls = 0;
    for i in 0..4000 {
        let (behind, room) = (i % 2 == 0, *rng.pick(&[0, 5, 6, 9, 16, 17, 23, 24, 25]));
        let mut c = Fenced::of(&[edge::Collector::default()], behind);
        let mut store = Fenced::of(&vec![0xA5; room], behind);
        let (mut at, mut taken) = (0, 1);
        while at < frame.len() && 0 < taken {
            let n = 1 + rng.below(frame.len() - at);
            let given = Fenced::of(&frame[at..at + n], behind);
            let (number, call, size, took) = edge::collect(&mut c.part_mut()[0], given.part(), store.part_mut());
            let whole = number == 0 && at + took == 24;
            assert!(number == 0 || (number == 13 && room < 24));
            assert_eq!((call, size), if whole { (2, 24) } else { (0, 0) });
            assert!(number != 0 || store.part()[..size] == frame[..size]);
            (at, taken) = (at + took, took);
            calls += 1;
        }
        edge::collect_reset(&mut c.part_mut()[0]);
        assert_eq!(c.part()[0], edge::Collector::default());
    }
    println!("{calls} hand-overs between fences, none read past them");
}
