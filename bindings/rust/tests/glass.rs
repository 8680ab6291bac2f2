//! Recorded calls on a glass of 32 bits (`bindings/vectors`, its FORMAT.md says how to read them), with pictures of either word size: answer, tiles, work
//! lists, record and the hash of the picture must be the same.
use std::{fs, path::Path};
use xurbalenz::{edge, Glass, Session, LIST};

enum Picture {
    Narrow(Vec<u16>),
    Wide(Vec<u32>),
}

impl Picture {
    fn of(length: usize, seed: usize, bits: &str) -> Picture {
        let words = (0..length).map(|i| i * 25_173 + seed * 13_849 + 1);
        match bits {
            "16" => Picture::Narrow(words.map(|w| w as u16).collect()),
            _ => Picture::Wide(words.map(|w| (w % (1 << 24)) as u32).collect()),
        }
    }

    fn hash(&self) -> String {
        let bytes: Vec<u8> = match self {
            Picture::Narrow(words) => words.iter().flat_map(|w| w.to_le_bytes()).collect(),
            Picture::Wide(words) => words.iter().flat_map(|w| w.to_le_bytes()).collect(),
        };
        let hash = bytes.into_iter().fold(0xCBF2_9CE4_8422_2325_u64, |h, b| (h ^ b as u64).wrapping_mul(0x100_0000_01B3));
        format!("{hash:016x}")
    }
}

fn bytes(word: &str) -> Vec<u8> {
    let mut all = vec![];
    for item in word.split(',').filter(|_| word != "-") {
        let (hex, times) = item.split_once('*').map_or((item, 1), |(hex, n)| (hex, n.parse().expect("a number")));
        let part: Vec<u8> = (0..hex.len() / 2).map(|i| u8::from_str_radix(&hex[2 * i..2 * i + 2], 16).expect("hex")).collect();
        (0..times).for_each(|_| all.extend_from_slice(&part));
    }
    all
}

fn frame(session: &mut Session, message: &[u8], picture: &mut Picture, lengths: &[&str]) -> (u8, usize, &'static str) {
    let list = |n: &&str| vec![7; n.parse().expect("a number")];
    let [mut y, mut cb, mut cr]: [Vec<i32>; 3] = lengths.iter().map(list).collect::<Vec<_>>().try_into().expect("three lists");
    let mut scratch = vec![7; LIST];
    let (number, tiles) = match picture {
        Picture::Narrow(words) => edge::read_frame(session, message, words, &mut y, &mut cb, &mut cr, &mut scratch),
        Picture::Wide(words) => edge::read_frame_32(session, message, words, &mut y, &mut cb, &mut cr, &mut scratch),
    };
    let all = |n| [&y, &cb, &cr, &scratch].iter().all(|list| list.iter().all(|&v| v == n));
    (number, tiles, if all(7) { "u" } else if all(0) { "z" } else { "?" })
}

fn run(name: &str) -> (usize, usize) {
    let path = Path::new(env!("CARGO_MANIFEST_DIR")).join("../vectors").join(name);
    let text = fs::read_to_string(&path).unwrap_or_else(|e| panic!("{}: {e}", path.display()));
    let (mut cases, mut calls) = (0, 0);
    let (mut session, mut picture) = (Session::default(), Picture::of(0, 0, "16"));
    for (i, line) in text.lines().enumerate().filter(|(_, line)| !line.is_empty() && !line.starts_with('#')) {
        let (left, right) = line.split_once(" -> ").map_or((line, None), |(left, right)| (left, Some(right)));
        let number = |word: &str| word.parse().expect("a number");
        let record = |s: Session| {
            let (headers, width, height, mode) = s.numbers();
            format!("{headers} {width} {height} {mode}")
        };
        let said = match left.split(' ').collect::<Vec<_>>()[..] {
            ["case", ..] => {
                cases += 1;
                None
            }
            ["opt", ..] => None,
            ["glass", bits] => {
                session = Session::open(if bits == "32" { Glass::Bits32 } else { Glass::Bits16 });
                None
            }
            ["rec", headers, width, height, mode] => {
                let glass = session.glass().expect("a glass");
                session = Session::of_numbers(number(headers) as u8, number(width) as u16, number(height) as u16, number(mode) as u8).on(glass);
                None
            }
            ["pic", length, seed, bits] => {
                picture = Picture::of(number(length), number(seed), bits);
                None
            }
            ["hdr", message] => {
                let answer = edge::read_header(&mut session, &bytes(message));
                Some(format!("{answer} {}", record(session)))
            }
            ["frm", message, ref lengths @ ..] => {
                let (answer, tiles, work) = frame(&mut session, &bytes(message), &mut picture, lengths);
                Some(format!("{answer} {tiles} {work} {} {}", record(session), picture.hash()))
            }
            _ => panic!("{name}, line {}: no such line", i + 1),
        };
        assert_eq!(said.as_deref(), right, "{name}, line {}", i + 1);
        calls += usize::from(said.is_some());
    }
    println!("{name}: {cases} cases, {calls} calls agree");
    (cases, calls)
}

// The counts stand here so that a file that was cut is noticed.
#[test]
fn rectangles_and_rounding() {
    assert_eq!(run("request_3_4_13.vec"), (32, 64));
}

#[test]
fn days() {
    assert_eq!(run("request_fourteen_32.vec"), (24, 249));
}
