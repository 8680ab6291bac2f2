//! Recorded calls of an independent implementation (`bindings/vectors`, its FORMAT.md says how to read them): answer, value, record and the hash of
//! what is lent must be the same.
mod common;

use common::*;
use std::{fmt::Write, fs, path::Path};
use xurbalenz::{edge, edge::Collector, Glass, Session, LIST};

fn fnv(bytes: impl IntoIterator<Item = u8>) -> String {
    let hash = bytes.into_iter().fold(0xCBF2_9CE4_8422_2325_u64, |h, b| (h ^ b as u64).wrapping_mul(0x100_0000_01B3));
    format!("{hash:016x}")
}

fn number<T: std::str::FromStr>(word: &str) -> T {
    word.parse().unwrap_or_else(|_| panic!("{word} is no number that fits here"))
}

/// A word of items joined by commas, each once or `*`N times.
fn items<T: Clone>(word: &str, one: impl Fn(&str) -> Vec<T>) -> Vec<T> {
    let mut all = vec![];
    for item in word.split(',').filter(|_| word != "-") {
        let (item, times) = item.split_once('*').map_or((item, 1), |(item, n)| (item, number(n)));
        let part = one(item);
        (0..times).for_each(|_| all.extend_from_slice(&part));
    }
    all
}

fn bytes(word: &str) -> Vec<u8> {
    items(word, |hex| (0..hex.len() / 2).map(|i| u8::from_str_radix(&hex[2 * i..2 * i + 2], 16).expect("hex")).collect())
}

fn ten(word: &str) -> [u8; 10] {
    items(word, |v| vec![number(v)]).try_into().expect("ten quantisers")
}

fn pixels(word: &str, width: usize, length: usize) -> Vec<u8> {
    let (kind, seed) = word.split_once(':').expect("KIND:SEED");
    let width = width.max(1);
    let s: u64 = if kind == "flat" { 0 } else { number(seed) };
    let mut state = s;
    let mut step = move || {
        state = (state * 1_103_515_245 + 12_345) % (1 << 31);
        state >> 16
    };
    let flat = if kind == "flat" { bytes(seed) } else { vec![] };
    let pixel = |i: usize| (i % 3, (i / 3 % width) as u64, (i / 3 / width) as u64);
    (0..length)
        .map(|i| match (kind, pixel(i)) {
            ("flat", (c, _, _)) => flat[c],
            ("noise", _) => (step() % 256) as u8,
            ("text", _) => {
                if step() % 5 == 0 {
                    0
                } else {
                    255
                }
            }
            ("grad", (0, x, _)) => (x + s) as u8,
            ("grad", (1, _, y)) => (y + 2 * s) as u8,
            ("grad", (_, x, y)) => (x + y) as u8,
            ("check", (c, x, y)) => (s * (37 + 100 * ((x / 8 + y / 8) % 2)) + 85 * c as u64) as u8,
            _ => panic!("no such picture: {kind}"),
        })
        .collect()
}

/// The requests of document 02 that these files need.
const LANDED: [&str; 7] = ["one", "three", "four", "five", "eleven", "twelve", "beyond"];

/// What a case carries from line to line.
#[derive(Default)]
struct Case {
    session: Session,
    picture: Vec<u16>,
    wide: Vec<u32>,
    headers: Vec<u8>,
    component: Vec<u8>,
    frame: Vec<u8>,
    settings: Vec<u8>,
    collector: Collector,
    memory: Vec<u8>,
    lent: usize,
    said: Vec<u8>,
    sent: Vec<u8>,
    held: Vec<u8>,
}

/// Bytes with some of them changed: `P^XX` joined by commas.
fn flipped(mut bytes: Vec<u8>, flips: &str) -> Vec<u8> {
    for item in flips.split(',').filter(|_| flips != "-") {
        let (at, by) = item.split_once('^').expect("P^XX");
        if let Some(byte) = bytes.get_mut(number::<usize>(at)) {
            *byte ^= u8::from_str_radix(by, 16).expect("hex");
        }
    }
    bytes
}

/// The old and the new picture of a line: OLD OLDLEN NEW NEWLEN FLIPS.
fn two_pictures(width: &str, words: &[&str]) -> (Vec<u8>, Vec<u8>) {
    let [old, old_len, new, new_len, flips] = words else { panic!("two pictures") };
    (pixels(old, number(width), number(old_len)), flipped(pixels(new, number(width), number(new_len)), flips))
}

fn picks(word: &str) -> Vec<u32> {
    items(word, |v| vec![number(v)])
}

/// Two lists for three lengths: those that are not 4,096 first.
fn two_lengths(three: [&str; 3]) -> [usize; 2] {
    let mut lengths = three.map(number::<usize>);
    lengths.sort_by_key(|&n| n == LIST);
    [lengths[0], lengths[1]]
}

/// Numbers with blanks between them.
fn joined<T: ToString, const N: usize>(numbers: [T; N]) -> String {
    numbers.map(|n| n.to_string()).join(" ")
}

fn record(s: Session) -> String {
    let (headers, width, height, mode) = s.numbers();
    format!("{headers} {width} {height} {mode}")
}

impl Case {
    fn show(&mut self, message: &[u8], lengths: &[&str]) -> String {
        let lengths: Vec<usize> = lengths.iter().map(|n| number(n)).collect();
        let lengths = [lengths[0], lengths[1], lengths[2], LIST];
        let (number, tiles, zeros, hash) = if self.session.glass() == Some(Glass::Bits32) {
            let shown = frame_with(self.session, message, &self.wide, lengths);
            self.wide = shown.picture;
            (shown.number, shown.tiles, shown.zeros, fnv(self.wide.iter().flat_map(|w| w.to_le_bytes())))
        } else {
            let shown = frame_with(self.session, message, &self.picture, lengths);
            self.picture = shown.picture;
            (shown.number, shown.tiles, shown.zeros, fnv(self.picture.iter().flat_map(|w| w.to_le_bytes())))
        };
        format!("{number} {tiles} {} {} {hash}", if zeros { 'z' } else { 'u' }, record(self.session))
    }

    fn read(mode: u8, code: &[u8], length: usize) -> String {
        let (number, bits, list) = read_component(mode, code, length);
        format!("{number} {bits} {}", fnv(list.iter().flat_map(|v| v.to_le_bytes())))
    }

    fn settings(version: u8, given: &[u8]) -> String {
        let (number, luma, chroma, mode) = read_settings(version, given);
        // five bytes a set, low half first
        let packed = |set: [u8; 10]| set.chunks(2).map(|pair| format!("{:02x}", pair[0] + 16 * pair[1])).collect::<String>();
        match number {
            0 => format!("0 {} {} {mode}", packed(luma), packed(chroma)),
            _ => format!("{number} - - {mode}"),
        }
    }

    /// What the collector has, as a line ends.
    fn gathered(&self) -> String {
        format!("{} {} {}", self.collector.held, self.collector.seen, fnv(self.memory[..self.lent].iter().copied()))
    }

    fn take(&mut self, given: &[u8]) -> String {
        let took = collect(self.collector, given, &self.memory[..self.lent]);
        self.collector = took.collector;
        self.memory[..self.lent].copy_from_slice(&took.store);
        let answer = if took.number == 0 { ["w", "h", "f"][usize::from(took.call)].into() } else { took.number.to_string() };
        let part = if took.call == 0 { "-".into() } else { fnv(took.store[..took.size].iter().copied()) };
        format!("{answer} {} {} {part} {}", took.taken, took.size, self.gathered())
    }

    /// Makes the call of a line's left side; what comes out, as the right side has it.
    fn call(&mut self, words: &[&str]) -> String {
        match words {
            ["hdr", message] => {
                let (number, after) = header(self.session, &bytes(message));
                self.session = after;
                format!("{number} {}", record(after))
            }
            ["frm", message, lengths @ ..] => self.show(&bytes(message), lengths),
            ["frw", lengths @ ..] => {
                let message = self.frame.clone();
                self.show(&message, lengths)
            }
            ["rdc", mode, code, length] => Case::read(number(mode), &bytes(code), number(length)),
            ["rdw", mode] => Case::read(number(mode), &self.component, LIST),
            ["wrc", mode, list, room] => {
                let list: Vec<i32> = items(list, |v| vec![number(v)]);
                let (number, size, out) = write_component(number(mode), &list, number(room));
                self.component = out[..size].to_vec();
                format!("{number} {size} {}", fnv(out))
            }
            ["wrh", width, height, mode, room] => {
                let (number, size, out) = write_headers(number(width), number(height), number(mode), number(room));
                self.headers = out[..size].to_vec();
                format!("{number} {size} {}", fnv(out))
            }
            ["hdw"] => {
                let mut answers = String::new();
                for block in xurbalenz::header_blocks(&self.headers) {
                    let (number, after) = header(self.session, block);
                    self.session = after;
                    write!(answers, "{number} ").expect("a string takes all");
                }
                answers + &record(self.session)
            }
            ["wrf", front @ .., index, pix, length, l1, l2, l3, room] | ["wr2", front @ .., index, pix, length, l1, l2, l3, room] => {
                let [width, height, mode, sets @ ..] = front else { panic!("a size and a mode") };
                let sets: Vec<[u8; 10]> = sets.iter().map(|quant| ten(quant)).collect();
                let pixels = pixels(pix, number(width), number(length));
                let sent =
                    Sent { width: number(width), height: number(height), mode: number(mode), quant: sets[0], index: number(index), pixels: &pixels };
                let lengths = two_lengths([l1, l2, l3]);
                let (number, size, out) = match sets[..] {
                    [_] => write_frame_with(sent, lengths, number(room)),
                    [_, chroma] => write_frame_sets_with(sent, chroma, lengths, number(room)),
                    _ => panic!("one set or two"),
                };
                self.frame = out[..size].to_vec();
                let work = if matches!(number, 5 | 7 | 2) { 'u' } else { 'z' };
                format!("{number} {size} {work} {}", fnv(out))
            }
            ["chk", width, height, pictures @ .., tiles] => {
                let (old, new) = two_pictures(width, pictures);
                check_plan((number(width), number(height)), &old, &new, &picks(tiles)).to_string()
            }
            ["plan", width, height, pictures @ .., room] => {
                let (old, new) = two_pictures(width, pictures);
                let (number, count, list) = make_plan((number(width), number(height)), &old, &new, number(room));
                format!("{number} {count} {}", fnv(list.iter().flat_map(|p| p.to_le_bytes())))
            }
            ["wsf", width, height, mode, luma, chroma, index, pictures @ .., tiles, l1, l2, l3, room] => {
                let (old, new) = two_pictures(width, pictures);
                let sent =
                    Sent { width: number(width), height: number(height), mode: number(mode), quant: ten(luma), index: number(index), pixels: &new };
                let (number, size, out) = write_short_with(sent, ten(chroma), &old, &picks(tiles), two_lengths([l1, l2, l3]), number(room));
                self.frame = out[..size].to_vec();
                let work = if matches!(number, 5 | 7 | 2) { 'u' } else { 'z' };
                format!("{number} {size} {work} {}", fnv(out))
            }
            ["set", version, given] => Case::settings(number(version), &bytes(given)),
            ["setw", version] => Case::settings(number(version), &self.settings),
            ["wset", luma, chroma, mode, room] => {
                let (number, size, out) = write_settings(ten(luma), ten(chroma), number(mode), number(room));
                self.settings = out[..size].to_vec();
                format!("{number} {size} {}", fnv(out))
            }
            ["take", given] => self.take(&bytes(given)),
            ["reset"] => {
                edge::collect_reset(&mut self.collector);
                self.gathered()
            }
            ["cap", given] => {
                let (number, flags, n, entries) = read_caps(&bytes(given));
                format!("{number} {flags} {n} {}", joined(entries))
            }
            ["wcap", flags, entries, room] => {
                let all: Vec<Vec<u8>> = items(entries, |pair| vec![pair.split(':').map(number).collect()]);
                let mut two = [7; 4]; // what is past n is no field
                two.chunks_mut(2).zip(&all).for_each(|(place, pair)| place.copy_from_slice(pair));
                let (number, size, out) = write_caps(number(flags), all.len() as u8, two, number(room));
                format!("{number} {size} {}", fnv(out))
            }
            ["fac", given] => {
                let (number, count) = read_ack_cap(&bytes(given));
                format!("{number} {count}")
            }
            ["wfac", count, room] => {
                let (number, size, out) = write_ack_cap(number(count), number(room));
                format!("{number} {size} {}", fnv(out))
            }
            ["ack", given] => {
                let (number, fields) = read_ack(&bytes(given));
                format!("{number} {}", joined(fields))
            }
            ["wack", fields @ .., room] => {
                let (number, size, out) =
                    write_ack(fields.iter().map(|n| number(n)).collect::<Vec<_>>().try_into().expect("nine fields"), number(room));
                format!("{number} {size} {}", fnv(out))
            }
            ["tdf", sender, width, height, mode, message, length, room] => {
                let message = match *message {
                    "m" => self.said.clone(),
                    "w" => self.sent.clone(),
                    given => bytes(given),
                };
                let (mut list, mut out, mut told) = (vec![7; number(length)], vec![0xA5; number(room)], [9; 2]);
                let number = edge::tidy_frame(number(sender), number(width), number(height), number(mode), &message, &mut list, &mut out, &mut told);
                self.sent = out[..told[0]].to_vec();
                let work = match list.as_slice() {
                    [] => "-",
                    list if list.iter().all(|&v| v == 7) => "u",
                    list if list.iter().all(|&v| v == 0) => "z",
                    _ => "?",
                };
                format!("{number} {} {} {work} {}", told[0], told[1], fnv(out))
            }
            ["tdh", block, room] => {
                self.held.resize(38, 0);
                let mut out = vec![0xA5; number(room)];
                let (number, size) = edge::tidy_header(&mut self.held, &bytes(block), &mut out);
                format!("{number} {size} {}", fnv(out))
            }
            ["tdo", room] => {
                self.held.resize(38, 0);
                let mut out = vec![0xA5; number(room)];
                let (number, size) = edge::tidy_flush(&mut self.held, &mut out);
                format!("{number} {size} {}", fnv(out))
            }
            _ => panic!("no such call: {words:?}"),
        }
    }

    fn set(&mut self, words: &[&str]) {
        match words {
            // requests of document 02 that the case needs, and the session's glass: the panel has just these
            ["opt", requests @ ..] => assert!(requests.iter().all(|r| LANDED.contains(r)), "not landed: {requests:?}"),
            ["glass", bits] => self.session = Session::open(if *bits == "32" { Glass::Bits32 } else { Glass::Bits16 }),
            ["rec", headers, width, height, mode] => self.session = Session::of_numbers(number(headers), number(width), number(height), number(mode)),
            ["pic", length, seed, bits @ ..] => {
                let (length, seed): (u64, u64) = (number(length), number(seed));
                let words = (0..length).map(|i| (i * 25_173 + seed * 13_849 + 1) % (1 << 24));
                match bits {
                    ["32"] => self.wide = words.map(|w| w as u32).collect(),
                    _ => self.picture = words.map(|w| w as u16).collect(),
                }
            }
            ["say", message] => self.said = bytes(message),
            ["col", room] => {
                self.lent = number(room);
                self.memory = vec![0xA5; self.lent];
            }
            ["store", room] => {
                self.lent = number(room);
                self.memory.resize(self.memory.len().max(self.lent), 0xA5);
            }
            _ => panic!("no such setting: {words:?}"),
        }
    }
}

/// Runs a file: how many cases and calls.
fn run(name: &str) -> (usize, usize) {
    let path = Path::new(env!("CARGO_MANIFEST_DIR")).join("../vectors").join(name);
    let text = fs::read_to_string(&path).unwrap_or_else(|e| panic!("{}: {e}", path.display()));
    let (mut cases, mut calls, mut case) = (0, 0, Case::default());
    for (i, line) in text.lines().enumerate().filter(|(_, line)| !line.is_empty() && !line.starts_with('#')) {
        let (left, right) = line.split_once(" -> ").map_or((line, None), |(left, right)| (left, Some(right)));
        let words: Vec<&str> = left.split(' ').collect();
        match right {
            Some(_) if words[0] == "tdc" => {} // a code by itself: the panel has no such call
            Some(_) if words[0] == "tdf" && words[1].parse::<u8>().is_err() => {} // a sender that the call's byte does not hold
            Some(right) => {
                let start: String = left.chars().take(60).collect();
                assert_eq!(case.call(&words), right, "{name}, line {}: {start}", i + 1);
                calls += 1;
            }
            None if words[0] == "case" => {
                case = Case::default();
                cases += 1;
            }
            None => case.set(&words),
        }
    }
    println!("{name}: {cases} cases, {calls} calls agree");
    (cases, calls)
}

// The counts stand here so that a file that was cut is noticed.
#[test]
fn components() {
    assert_eq!(run("component.vec"), (1080, 2902));
}

#[test]
fn written_components() {
    assert_eq!(run("writer.vec"), (320, 456));
}

#[test]
fn headers() {
    assert_eq!(run("header.vec"), (576, 2492));
}

#[test]
fn frames() {
    assert_eq!(run("frame.vec"), (511, 557));
}

#[test]
fn frames_with_faults() {
    assert_eq!(run("frame_fault1.vec"), (403, 403));
    assert_eq!(run("frame_fault2.vec"), (438, 438));
    assert_eq!(run("frame_fault3.vec"), (150, 150));
}

#[test]
fn written_frames() {
    assert_eq!(run("framewriter.vec"), (67, 318));
}

#[test]
fn sessions() {
    assert_eq!(run("walk.vec"), (108, 833));
}

#[test]
fn rectangles_and_rounding() {
    assert_eq!(run("request_3_4.vec"), (32, 32));
}

#[test]
fn the_worked_sample() {
    assert_eq!(run("sample001.vec"), (21, 27));
}

#[test]
fn hand_overs() {
    assert_eq!(run("request_one.vec"), (521, 2304));
    assert_eq!(run("request_one_store.vec"), (129, 645));
}

#[test]
fn capabilities() {
    assert_eq!(run("request_twelve.vec"), (1026, 1491));
}

#[test]
fn settings() {
    assert_eq!(run("request_five.vec"), (483, 1545));
    assert_eq!(run("request_five_frames.vec"), (21, 120));
    assert_eq!(run("request_five_glass.vec"), (6, 24));
}

#[test]
fn what_changed() {
    assert_eq!(run("request_eleven.vec"), (169, 645));
    assert_eq!(run("request_eleven_frames.vec"), (19, 110));
    assert_eq!(run("request_eleven_glass.vec"), (7, 56));
    assert_eq!(run("request_eleven_glass_32.vec"), (4, 32));
}

#[test]
fn days() {
    assert_eq!(run("request_fourteen.vec"), (72, 799));
    assert_eq!(run("request_fourteen_32.vec"), (24, 249));
}

#[test]
fn tidied_frames_and_headers() {
    assert_eq!(run("beyond_tidy.vec"), (360, 1443));
}
