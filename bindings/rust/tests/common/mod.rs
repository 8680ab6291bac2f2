//! What the tests share: lent memory with guard words, the calls made with the sentences on memory checked, frames put together by hand,
//! pictures, and seeded numbers.
#![allow(dead_code)] // no test uses all of it

use std::fmt::Debug;
use xurbalenz::{edge, edge::Collector, Session, LIST};

// ---- seeded numbers

/// xorshift64*: the same numbers on every machine.
pub struct Rng(u64);

impl Rng {
    pub fn new(seed: u64) -> Rng {
        Rng(seed.wrapping_mul(0x9E37_79B9_7F4A_7C15) | 1)
    }

    pub fn next(&mut self) -> u64 {
        self.0 ^= self.0 >> 12;
        self.0 ^= self.0 << 25;
        self.0 ^= self.0 >> 27;
        self.0.wrapping_mul(0x2545_F491_4F6C_DD1D)
    }

    /// A number below n.
    pub fn below(&mut self, n: usize) -> usize {
        ((self.next() >> 32) as usize) % n
    }

    pub fn byte(&mut self) -> u8 {
        (self.next() >> 56) as u8
    }

    pub fn bytes(&mut self, n: usize) -> Vec<u8> {
        (0..n).map(|_| self.byte()).collect()
    }

    pub fn pick<'a, T>(&mut self, from: &'a [T]) -> &'a T {
        &from[self.below(from.len())]
    }
}

// ---- lent memory

/// What stands before and behind every lent part.
pub trait Guard: Copy + PartialEq + Debug {
    const WORD: Self;
}

impl Guard for u8 {
    const WORD: u8 = 0xC3;
}

impl Guard for u16 {
    const WORD: u16 = 0xC35A;
}

impl Guard for u32 {
    const WORD: u32 = 0xC335_A5C3;
}

impl Guard for i32 {
    const WORD: i32 = 0x4335_A5C3;
}

/// A picture's word, and the frame call for it.
pub trait Word: Guard {
    fn read(s: &mut Session, message: &[u8], picture: &mut [Self], lists: [&mut [i32]; 4]) -> (u8, usize);
}

impl Word for u16 {
    fn read(s: &mut Session, message: &[u8], picture: &mut [u16], [y, cb, cr, scratch]: [&mut [i32]; 4]) -> (u8, usize) {
        edge::read_frame(s, message, picture, y, cb, cr, scratch)
    }
}

impl Word for u32 {
    fn read(s: &mut Session, message: &[u8], picture: &mut [u32], [y, cb, cr, scratch]: [&mut [i32]; 4]) -> (u8, usize) {
        edge::read_frame_32(s, message, picture, y, cb, cr, scratch)
    }
}

const GUARDS: usize = 64;

/// A part to lend, with guard words on both sides.
pub struct Lent<T: Guard>(Vec<T>);

impl<T: Guard> Lent<T> {
    pub fn of(part: &[T]) -> Lent<T> {
        let mut all = vec![T::WORD; GUARDS];
        all.extend_from_slice(part);
        all.resize(part.len() + 2 * GUARDS, T::WORD);
        Lent(all)
    }

    pub fn filled(word: T, len: usize) -> Lent<T> {
        let mut all = vec![word; len + 2 * GUARDS];
        all[..GUARDS].fill(T::WORD);
        all[GUARDS + len..].fill(T::WORD);
        Lent(all)
    }

    pub fn part(&self) -> &[T] {
        &self.0[GUARDS..self.0.len() - GUARDS]
    }

    pub fn part_mut(&mut self) -> &mut [T] {
        let end = self.0.len() - GUARDS;
        &mut self.0[GUARDS..end]
    }

    /// The part after the call; the guard words must stand.
    pub fn taken(self) -> Vec<T> {
        let Lent(mut all) = self;
        let end = all.len() - GUARDS;
        assert_eq!(all[..GUARDS], [T::WORD; GUARDS], "a word before a lent part was changed");
        assert_eq!(all[end..], [T::WORD; GUARDS], "a word behind a lent part was changed");
        all.truncate(end);
        all.drain(..GUARDS);
        all
    }
}

/// A record with guard bytes on both sides.
#[repr(C)]
struct LentRecord<R> {
    before: [u8; 16],
    record: R,
    behind: [u8; 16],
}

impl<R> LentRecord<R> {
    fn of(record: R) -> LentRecord<R> {
        LentRecord { before: [0xC3; 16], record, behind: [0xC3; 16] }
    }

    fn taken(self) -> R {
        assert_eq!((self.before, self.behind), ([0xC3; 16], [0xC3; 16]), "a byte beside the record was changed");
        self.record
    }
}

/// The record with a byte of one of its numbers put off by so much, as a stray write leaves it.
pub fn bent(session: Session, at: usize, by: u8) -> Session {
    assert!(at < 13, "no number stands there");
    let mut s = session;
    // SAFETY: the byte is one of a number's, so it is there, and any value of it is a number.
    unsafe {
        let byte = std::ptr::addr_of_mut!(s).cast::<u8>().add(at);
        *byte = (*byte).wrapping_add(by);
    }
    s
}

fn untouched(list: &[i32]) -> bool {
    list.iter().all(|&v| v == 7)
}

fn zeros(list: &[i32]) -> bool {
    list.iter().all(|&v| v == 0)
}

fn kept<T: Guard>(lent: Lent<T>, before: &[T]) {
    assert_eq!(lent.taken(), before, "what is only read was changed");
}

// ---- the calls, with what the scope document says of memory checked after every one: lists are filled with 7, outputs with A5 before

/// The header call: the number and the record.
pub fn header(session: Session, message: &[u8]) -> (u8, Session) {
    let mut s = LentRecord::of(session);
    let m = Lent::of(message);
    let number = edge::read_header(&mut s.record, m.part());
    let after = s.taken();
    kept(m, message);
    assert!(number <= 13, "number {number}");
    // "A refused header or frame changes neither record nor picture."
    assert!(number == 0 || after == session, "refused {number}, and the record changed");
    (number, after)
}

/// What the collector's call came to.
#[derive(Clone, Debug, PartialEq)]
pub struct Collected {
    pub number: u8,
    pub call: u8,
    pub size: usize,
    pub taken: usize,
    pub collector: Collector,
    pub store: Vec<u8>,
}

/// The collector's call.
pub fn collect(collector: Collector, given: &[u8], store: &[u8]) -> Collected {
    let mut c = LentRecord::of(collector);
    let (b, mut s) = (Lent::of(given), Lent::of(store));
    let (number, call, size, taken) = edge::collect(&mut c.record, b.part(), s.part_mut());
    kept(b, given);
    let (after, left) = (c.taken(), s.taken());
    assert!(matches!(number, 0 | 2 | 3 | 4 | 12 | 13), "number {number}");
    assert!(taken <= given.len() && size <= store.len());
    match (number, call) {
        // "A call stops at the end of what it hands on"; then it is fresh
        (0, 1 | 2) => assert!(6 <= size && 0 < taken && after == Collector::default(), "handed on, and not fresh"),
        (0, 0) => assert!(size == 0 && taken == given.len(), "it waits, and did not take all"),
        // a refusal that takes nothing changes nothing; any other is kept
        (_, 0) if taken == 0 => assert!(size == 0 && (after, left.as_slice()) == (collector, store), "refused {number}, and something changed"),
        (_, 0) => assert!(size == 0 && after.refused == number && after.seen == 6, "refused {number}, and not kept"),
        _ => panic!("number {number}, call {call}"),
    }
    Collected { number, call, size, taken, collector: after, store: left }
}

/// What a frame call came to.
#[derive(Clone, Debug, PartialEq)]
pub struct Shown<W = u16> {
    pub number: u8,
    pub tiles: usize,
    pub picture: Vec<W>,
    /// Untouched, or all zeros.
    pub zeros: bool,
}

/// The frame call with work lists of these lengths.
pub fn frame_with<W: Word>(session: Session, message: &[u8], picture: &[W], lengths: [usize; 4]) -> Shown<W> {
    let mut s = LentRecord::of(session);
    let m = Lent::of(message);
    let mut p = Lent::of(picture);
    let [mut y, mut cb, mut cr, mut scratch] = lengths.map(|n| Lent::filled(7, n));
    let (number, tiles) = W::read(&mut s.record, m.part(), p.part_mut(), [&mut y, &mut cb, &mut cr, &mut scratch].map(Lent::part_mut));
    kept(m, message);
    let after = p.taken();
    let lists = [y, cb, cr, scratch].map(Lent::taken);
    assert!(number <= 13, "number {number}");
    // ".. a frame call leaves it equal"
    assert_eq!(s.taken(), session, "a frame call changed the record");
    if number != 0 {
        assert!(after == picture, "refused {number}, and the picture changed");
        assert_eq!(tiles, 0, "refused {number}, and tiles reported");
    }
    // "words past width x height are never changed"
    let (_, w, h, _) = session.numbers();
    let size = (w as usize * h as usize).min(picture.len());
    assert!(after[size..] == picture[size..], "a word past the channel changed");
    // "Work lists of a frame call are untouched on 12 and 2; after every other frame answer they hold only zeros."
    for list in &lists {
        match number {
            12 | 2 => assert!(untouched(list), "a work list was touched on {number}"),
            _ => assert!(zeros(list), "a work list is not all zeros after {number}"),
        }
    }
    Shown { number, tiles, picture: after, zeros: !matches!(number, 12 | 2) }
}

/// The frame call with good work lists.
pub fn frame(session: Session, message: &[u8], picture: &[u16]) -> Shown {
    frame_with(session, message, picture, [LIST; 4])
}

/// The component reader: number, bits, list.
pub fn read_component(mode: u8, code: &[u8], length: usize) -> (u8, usize, Vec<i32>) {
    let c = Lent::of(code);
    let mut list = Lent::filled(7, length);
    let (number, bits) = edge::read_component(mode, c.part(), list.part_mut());
    kept(c, code);
    let list = list.taken();
    // "The component reader leaves its output list untouched on 5, 2 and 6 and fills it with zeros on 1, 9, 10, 11."
    match number {
        0 => assert!(list.iter().all(|v| (-32_767..=32_767).contains(v)), "done, and a value is out of range"),
        5 | 2 | 6 => assert!(untouched(&list), "the list was touched on {number}"),
        1 | 9 | 10 | 11 => assert!(zeros(&list), "the list is not all zeros after {number}"),
        other => panic!("the component reader never gives {other}"),
    }
    // "The component reader reports the code's length in bits on 0 and 11, else 0."
    match number {
        0 => assert!(bits <= 8 * code.len() && 8 * code.len() < bits + 8, "{bits} bits of {} bytes", code.len()),
        11 => assert!(0 < bits && bits <= 8 * code.len(), "{bits} bits of {} bytes", code.len()),
        _ => assert_eq!(bits, 0),
    }
    (number, bits, list)
}

// "Writers leave their output untouched on every refusal; when done they say the length in bytes, refused 0, and bytes past it are untouched."
fn written(number: u8, size: usize, out: Lent<u8>) -> (u8, usize, Vec<u8>) {
    let out = out.taken();
    assert!(number <= 13 || matches!(number, 16 | 17), "number {number}");
    assert!(number == 0 || size == 0, "refused {number}, and a length reported");
    assert!(out[size..].iter().all(|&b| b == 0xA5), "the output past {size} bytes was touched ({number})");
    (number, size, out)
}

/// The component writer: number, length, output.
pub fn write_component(mode: u8, list: &[i32], room: usize) -> (u8, usize, Vec<u8>) {
    let l = Lent::of(list);
    let mut out = Lent::filled(0xA5, room);
    let (number, size) = edge::write_component(mode, l.part(), out.part_mut());
    kept(l, list);
    written(number, size, out)
}

/// The header writer: number, length, output.
pub fn write_headers(width: usize, height: usize, mode: u8, room: usize) -> (u8, usize, Vec<u8>) {
    let mut out = Lent::filled(0xA5, room);
    let (number, size) = edge::write_headers(width, height, mode, out.part_mut());
    written(number, size, out)
}

/// What the frame writer is given, but for memory.
#[derive(Clone, Copy)]
pub struct Sent<'a> {
    pub width: usize,
    pub height: usize,
    pub mode: u8,
    pub quant: [u8; 10],
    pub index: u32,
    pub pixels: &'a [u8],
}

/// The frame writer with work lists of these lengths: number, length, output.
pub fn write_frame_with(sent: Sent, lengths: [usize; 2], room: usize) -> (u8, usize, Vec<u8>) {
    written_frame(sent.pixels, lengths, room, |pixels, list, scratch, out| {
        edge::write_frame(sent.width, sent.height, sent.mode, &sent.quant, sent.index, pixels, list, scratch, out)
    })
}

/// The same with chroma's own quantisers.
pub fn write_frame_sets_with(sent: Sent, chroma: [u8; 10], lengths: [usize; 2], room: usize) -> (u8, usize, Vec<u8>) {
    written_frame(sent.pixels, lengths, room, |pixels, list, scratch, out| {
        edge::write_frame_sets(sent.width, sent.height, sent.mode, &sent.quant, &chroma, sent.index, pixels, list, scratch, out)
    })
}

/// A frame writer on lent memory.
fn written_frame(
    sent: &[u8],
    lengths: [usize; 2],
    room: usize,
    write: impl Fn(&[u8], &mut [i32], &mut [i32], &mut [u8]) -> (u8, usize),
) -> (u8, usize, Vec<u8>) {
    let pixels = Lent::of(sent);
    let [mut list, mut scratch] = lengths.map(|n| Lent::filled(7, n));
    let mut out = Lent::filled(0xA5, room);
    let (number, size) = write(pixels.part(), list.part_mut(), scratch.part_mut(), out.part_mut());
    kept(pixels, sent);
    // "The frame writer's work lists are untouched on 5, 7 and 2 and hold only zeros after every other answer."
    for list in [list, scratch].map(Lent::taken) {
        match number {
            5 | 7 | 2 => assert!(untouched(&list), "a work list was touched on {number}"),
            _ => assert!(zeros(&list), "a work list is not all zeros after {number}"),
        }
    }
    written(number, size, out)
}

/// The frame writer with good work lists.
pub fn write_frame(sent: Sent, room: usize) -> (u8, usize, Vec<u8>) {
    write_frame_with(sent, [LIST; 2], room)
}

// ---- what changed: a list of tiles, whoever made it, and the short frame

/// The checker: the number.
pub fn check_plan(size: (usize, usize), old: &[u8], next: &[u8], picks: &[u32]) -> u8 {
    let (o, n, p) = (Lent::of(old), Lent::of(next), Lent::of(picks));
    let number = edge::check_plan(size.0, size.1, o.part(), n.part(), p.part());
    kept(o, old);
    kept(n, next);
    kept(p, picks);
    assert!(matches!(number, 0 | 2 | 5 | 8 | 16 | 17), "number {number}");
    number
}

/// The planner, into a list of so many numbers, each 7 before: number, count, list.
pub fn make_plan(size: (usize, usize), old: &[u8], next: &[u8], room: usize) -> (u8, usize, Vec<u32>) {
    let (o, n, mut p) = (Lent::of(old), Lent::of(next), Lent::filled(7, room));
    let (number, count) = edge::make_plan(size.0, size.1, o.part(), n.part(), p.part_mut());
    kept(o, old);
    kept(n, next);
    let picks = p.taken();
    assert!(matches!(number, 0 | 2 | 5 | 13), "number {number}");
    assert!(number == 0 || count == 0, "refused {number}, and a count reported");
    assert!(picks[count..].iter().all(|&p| p == 7), "the list past {count} was touched ({number})");
    assert!(number != 0 || check_plan(size, old, next, &picks[..count]) == 0, "a list of our own is refused");
    (number, count, picks)
}

/// The short frame's writer with work lists of these lengths: number, length, output.
pub fn write_short_with(sent: Sent, chroma: [u8; 10], old: &[u8], picks: &[u32], lengths: [usize; 2], room: usize) -> (u8, usize, Vec<u8>) {
    let (o, p) = (Lent::of(old), Lent::of(picks));
    let written = written_frame(sent.pixels, lengths, room, |next, list, scratch, out| {
        edge::write_frame_short(sent.width, sent.height, sent.mode, &sent.quant, &chroma, sent.index, o.part(), next, p.part(), list, scratch, out)
    });
    kept(o, old);
    kept(p, picks);
    written
}

// ---- settings: the numbers that their reader has are 1, 3, 5, 7, 12, 14 and 15, and a refusal gives no settings

/// The reader that knows this version: the number, luma, chroma, the mode.
pub fn read_settings(newest: u8, bytes: &[u8]) -> (u8, [u8; 10], [u8; 10], u8) {
    let b = Lent::of(bytes);
    let (mut luma, mut chroma) = ([99; 10], [99; 10]);
    let (number, mode) = edge::read_settings(newest, b.part(), &mut luma, &mut chroma);
    kept(b, bytes);
    assert!(matches!(number, 0 | 1 | 3 | 5 | 7 | 12 | 14 | 15), "number {number}");
    assert!(number == 0 || (luma, chroma, mode) == ([0; 10], [0; 10], 0), "refused {number}, and settings are given");
    (number, luma, chroma, mode)
}

/// The writer.
pub fn write_settings(luma: [u8; 10], chroma: [u8; 10], mode: u8, room: usize) -> (u8, usize, Vec<u8>) {
    let mut out = Lent::filled(0xA5, room);
    let (number, size) = edge::write_settings(&luma, &chroma, mode, out.part_mut());
    written(number, size, out)
}

// ---- capabilities and acknowledgements: the numbers that their readers have are 1, 4, 5 and 6, and a refusal gives no fields

/// The container's reader: the number, captureFlags, how many entries, the entries.
pub fn read_caps(message: &[u8]) -> (u8, u32, u8, [u8; 4]) {
    let m = Lent::of(message);
    let mut entries = [7; 4];
    let (number, flags, n) = edge::read_caps(m.part(), &mut entries);
    kept(m, message);
    assert!(matches!(number, 0 | 1 | 4 | 5 | 6), "number {number}");
    assert!(number == 0 || (flags, n, entries) == (0, 0, [0; 4]), "refused {number}, and fields are given");
    (number, flags, n, entries)
}

/// Its writer.
pub fn write_caps(flags: u32, n: u8, entries: [u8; 4], room: usize) -> (u8, usize, Vec<u8>) {
    let mut out = Lent::filled(0xA5, room);
    let (number, size) = edge::write_caps(flags, n, &entries, out.part_mut());
    written(number, size, out)
}

/// The reader of the frame acknowledge capability: the number and the count.
pub fn read_ack_cap(message: &[u8]) -> (u8, u32) {
    let m = Lent::of(message);
    let (number, count) = edge::read_ack_cap(m.part());
    kept(m, message);
    assert!(matches!(number, 0 | 1 | 4 | 5) && (number == 0 || count == 0), "number {number}, count {count}");
    (number, count)
}

/// Its writer.
pub fn write_ack_cap(count: u32, room: usize) -> (u8, usize, Vec<u8>) {
    let mut out = Lent::filled(0xA5, room);
    let (number, size) = edge::write_ack_cap(count, out.part_mut());
    written(number, size, out)
}

/// The reader of the frame acknowledge message: the number and the nine fields.
pub fn read_ack(message: &[u8]) -> (u8, [u32; 9]) {
    let m = Lent::of(message);
    let mut fields = [7; 9];
    let number = edge::read_ack(m.part(), &mut fields);
    kept(m, message);
    assert!(matches!(number, 0 | 1 | 4 | 5) && (number == 0 || fields == [0; 9]), "number {number}");
    (number, fields)
}

/// Its writer, on nine fields that fit.
pub fn write_ack(fields: [u32; 9], room: usize) -> (u8, usize, Vec<u8>) {
    let mut out = Lent::filled(0xA5, room);
    let [version, source, share, pad, stream, uncompressed, compression, compressed, frame] = fields;
    let (number, size) = edge::write_ack(
        version as u16,
        source as u16,
        share,
        pad as u8,
        stream as u8,
        uncompressed as u16,
        compression as u8,
        compressed as u16,
        frame,
        out.part_mut(),
    );
    written(number, size, out)
}

// ---- messages put together by hand

fn le16(n: usize) -> [u8; 2] {
    (n as u16).to_le_bytes()
}

fn le32(n: usize) -> [u8; 4] {
    (n as u32).to_le_bytes()
}

/// A block: type, length, rest.
pub fn block(kind: u16, rest: &[u8]) -> Vec<u8> {
    [&kind.to_le_bytes()[..], &le32(6 + rest.len()), rest].concat()
}

pub fn sync() -> Vec<u8> {
    block(0xCCC0, &[0xCA, 0xAC, 0xCC, 0xCA, 0, 1])
}

pub fn versions() -> Vec<u8> {
    block(0xCCC1, &[1, 1, 0, 1])
}

pub fn channels(width: usize, height: usize) -> Vec<u8> {
    block(0xCCC2, &[&[1, 0][..], &le16(width), &le16(height)].concat())
}

pub fn context(mode: u8) -> Vec<u8> {
    let properties = 1 << 3 | 1 << 5 | (mode as usize) << 9 | 1 << 13;
    block(0xCCC3, &[&[1, 0xFF, 0, 64, 0][..], &le16(properties)].concat())
}

/// A tile: quantiser indices, place in tiles, three codes.
#[derive(Clone, Debug)]
pub struct Tile {
    pub quants: [u8; 3],
    pub place: (usize, usize),
    pub codes: [Vec<u8>; 3],
}

impl Tile {
    /// All zeros: grey.
    pub fn grey(x: usize, y: usize) -> Tile {
        Tile { quants: [0; 3], place: (x, y), codes: [vec![0; 3], vec![0; 3], vec![0; 3]] }
    }

    pub fn bytes(&self) -> Vec<u8> {
        let [y, cb, cr] = &self.codes;
        let lengths = [le16(y.len()), le16(cb.len()), le16(cr.len())].concat();
        block(0xCAC3, &[&self.quants[..], &le16(self.place.0), &le16(self.place.1), &lengths, y, cb, cr].concat())
    }
}

/// A frame, block by block.
#[derive(Clone, Debug)]
pub struct Frame {
    pub mode: u8,
    pub rects: Vec<[usize; 4]>,
    pub quants: Vec<[u8; 5]>,
    pub tiles: Vec<Tile>,
}

impl Frame {
    /// One rectangle over everything, the common quantisers, these tiles.
    pub fn of(mode: u8, tiles: Vec<Tile>) -> Frame {
        Frame { mode, rects: vec![[0, 0, 4096, 2048]], quants: vec![[0x66, 0x66, 0x77, 0x88, 0x98]], tiles }
    }

    pub fn begin(&self) -> Vec<u8> {
        block(0xCCC4, &[1, 0, 0, 0, 0, 0, 1, 0])
    }

    pub fn region(&self) -> Vec<u8> {
        let rects: Vec<u8> = self.rects.iter().flatten().flat_map(|&v| le16(v)).collect();
        block(0xCCC6, &[&[1, 0, 1][..], &le16(self.rects.len()), &rects, &[0xC1, 0xCA, 1, 0]].concat())
    }

    pub fn tileset(&self) -> Vec<u8> {
        let data: Vec<u8> = self.tiles.iter().flat_map(Tile::bytes).collect();
        let properties = 1 | 1 << 4 | 1 << 6 | (self.mode as usize) << 10 | 1 << 14;
        let counts = [&[self.quants.len() as u8, 64][..], &le16(self.tiles.len()), &le32(data.len())].concat();
        block(0xCCC7, &[&[1, 0, 0xC2, 0xCA, 0, 0][..], &le16(properties), &counts, &self.quants.concat(), &data].concat())
    }

    pub fn end(&self) -> Vec<u8> {
        block(0xCCC5, &[1, 0])
    }

    pub fn bytes(&self) -> Vec<u8> {
        [self.begin(), self.region(), self.tileset(), self.end()].concat()
    }
}

/// Bits, high bit first, from a string of 0 and 1 (blanks are for the reader); filled up with zero bits.
pub fn bits(text: &str) -> Vec<u8> {
    let all: Vec<u8> = text.bytes().filter(|b| *b != b' ').map(|b| b - b'0').collect();
    all.chunks(8).map(|eight| eight.iter().enumerate().fold(0, |byte, (i, bit)| byte | bit << (7 - i))).collect()
}

// ---- pictures

#[derive(Clone, Copy, Debug)]
pub enum Kind {
    Flat,
    Gradient,
    Check,
    Noise,
    Text,
}

pub const KINDS: [Kind; 5] = [Kind::Flat, Kind::Gradient, Kind::Check, Kind::Noise, Kind::Text];

/// Pixels, three bytes each.
pub fn picture(kind: Kind, width: usize, height: usize, rng: &mut Rng) -> Vec<u8> {
    let flat = [rng.byte(), rng.byte(), rng.byte()];
    let mut out = Vec::with_capacity(3 * width * height);
    for y in 0..height {
        for x in 0..width {
            out.extend(match kind {
                Kind::Flat => flat,
                Kind::Gradient => [(x * 255 / width) as u8, (y * 255 / height) as u8, ((x + y) * 255 / (width + height)) as u8],
                Kind::Check if (x / 8 + y / 8) % 2 == 0 => flat,
                Kind::Check => flat.map(|v| 255 - v),
                Kind::Noise => [rng.byte(), rng.byte(), rng.byte()],
                Kind::Text => [if rng.below(5) == 0 { 0 } else { 255 }; 3],
            });
        }
    }
    out
}

/// A picture of words to draw over: no two neighbours alike.
pub fn words(n: usize) -> Vec<u16> {
    (0..n).map(|i| (i * 25_173 + 13_849) as u16).collect()
}
