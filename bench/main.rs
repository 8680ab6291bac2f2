// The benchmark: the library's calls (libxurbalenz.a, through the crate of bindings/rust) beside plain Rust, both in one process, on the same inputs.
// First every list, code and picture is compared; then the sides take turns, and the best of N counts.
//   main N        CPU time, best of N
//   main count    each case once, inside a function mark_K, for callgrind (by name) or the qemu plugin (by the syscall before and after)
//   main stack    how deep the stack goes in each call
//   main worst N  CPU time of frames made to cost, beside the same tiles with one rectangle over all, best of N; fails above what is allowed
//   main aims     some of them once, for callgrind, as count
mod plain;
mod screens;
mod worst;
use plain::{Lists, Size, PLACES};
use screens::{HEIGHT, WIDTH};
use std::hint::black_box;
use xurbalenz::edge::{self, read_component, write_component};
use xurbalenz::{Glass, Quant, Session, HEADERS_SIZE};

extern "C" {
    fn syscall(n: i64, id: i64) -> i64;
    fn clock_gettime(clock: i32, time: *mut [i64; 2]) -> i32;
}

/// The CPU time of this thread in seconds: what else the machine does counts little.
fn now() -> f64 {
    let mut t = [0; 2];
    unsafe { clock_gettime(3, &mut t) };
    t[0] as f64 + t[1] as f64 * 1e-9
}

// ---- the library's calls, with a side's lists

fn read_frame(s: &mut Session, m: &[u8], picture: &mut [u16], l: &mut Lists) -> (u8, usize) {
    edge::read_frame(s, m, picture, &mut l.y, &mut l.cb, &mut l.cr, &mut l.sheet)
}

fn read_frame_32(s: &mut Session, m: &[u8], picture: &mut [u32], l: &mut Lists) -> (u8, usize) {
    edge::read_frame_32(s, m, picture, &mut l.y, &mut l.cb, &mut l.cr, &mut l.sheet)
}

fn write_frame_of(z: Size, pixels: &[u8], l: &mut Lists, out: &mut [u8]) -> (u8, usize) {
    edge::write_frame(z.width, z.height, z.mode, &Quant::DEFAULT.0, 1, pixels, &mut l.y, &mut l.cb, out)
}

fn write_frame(mode: u8, pixels: &[u8], l: &mut Lists, out: &mut [u8]) -> (u8, usize) {
    write_frame_of(Size { width: WIDTH, height: HEIGHT, mode }, pixels, l, out)
}

fn plain_write_frame(z: Size, pixels: &[u8], l: &mut Lists, out: &mut [u8]) -> (u8, usize) {
    plain::write_frame(z, &Quant::DEFAULT.0, 1, pixels, &mut l.y, &mut l.cb, out)
}

/// A session after our own four headers.
fn session(mode: u8) -> Session {
    session_of(Size { width: WIDTH, height: HEIGHT, mode })
}

fn session_of(z: Size) -> Session {
    let (mut s, mut out) = (Session::default(), [0; HEADERS_SIZE]);
    assert_eq!(edge::write_headers(z.width, z.height, z.mode, &mut out), (0, HEADERS_SIZE));
    for block in xurbalenz::header_blocks(&out) {
        assert_eq!(edge::read_header(&mut s, block), 0);
    }
    s
}

// ---- inputs

struct Component {
    mode: u8,
    kind: usize,
    list: Vec<i32>,
    code: Vec<u8>,
}

const KINDS: [&str; 4] = ["flat", "sparse", "dense", "text"];

fn components() -> Vec<Component> {
    let mut seed = screens::Seed(0x9e3779b97f4a7c15);
    let mut out = vec![0; 65536];
    let make = |c: usize| {
        let (kind, mode) = (c % 4, if c / 4 % 2 == 0 { 1 } else { 4 });
        let list = screens::component(kind, &mut seed);
        let size = plain::write_component(mode, &list, &mut out);
        Component { mode, kind, code: out[..size].to_vec(), list }
    };
    (0..1000).map(make).collect()
}

struct Frame {
    name: &'static str,
    mode: u8,
    pixels: Vec<u8>,
    bytes: Vec<u8>,
}

fn frames() -> Vec<Frame> {
    let (mut l, mut out, mut all) = (Lists::new(), vec![0u8; 8 << 20], Vec::new());
    for (name, pixels) in [("control", screens::control_room()), ("text", screens::text_screen())] {
        for mode in [1, 4] {
            let (number, size) = write_frame(mode, &pixels, &mut l, &mut out);
            assert_eq!(number, 0, "the frame writer refused {name}");
            all.push(Frame { name, mode, pixels: pixels.clone(), bytes: out[..size].to_vec() });
        }
    }
    all
}

/// Every answer, list, code and picture of both sides is the same, on whole inputs and on cut ones.
fn compare(cs: &[Component], fs: &[Frame]) {
    let (mut a, mut b, mut out) = (vec![7; PLACES], vec![9; PLACES], vec![0u8; 65536]);
    for c in cs {
        for room in [c.code.len(), 65535] {
            out.fill(5);
            let (number, size) = write_component(c.mode, &c.list, &mut out[..room]);
            assert!(number == 0 && out[..size] == c.code && out[size..].iter().all(|&b| b == 5), "codes differ");
        }
        assert!(write_component(c.mode, &c.list, &mut out[..c.code.len() - 1]) == (13, 0), "refusals differ");
        assert!(plain::read_component(c.mode, &c.code, &mut a).0 == 0 && a == c.list, "plain Rust does not read its own code");
        for code in [&c.code[..], &c.code[..c.code.len() / 2], &[&c.code[..], &[0]].concat()] {
            for mode in [1, 4] {
                let x = plain::read_component(mode, code, &mut a);
                let y = read_component(mode, code, &mut b);
                assert!(x == y && a == b, "components differ: {x:?} {y:?}");
            }
        }
    }
    let words = WIDTH * HEIGHT;
    let (mut p, mut q, mut r, mut l) = (vec![1u16; words + 9], vec![1u16; words + 9], vec![1u16; words + 9], Lists::new());
    for f in fs {
        let size = Size { width: WIDTH, height: HEIGHT, mode: f.mode };
        let mut s = session(f.mode);
        for m in [&f.bytes[..], &f.bytes[..f.bytes.len() - 1], &f.bytes[..f.bytes.len() / 3], &[&f.bytes[..], &[0]].concat()] {
            let x = plain::read_frame(size, m, &mut p, &mut l);
            let z = plain::read_frame_shadow(size, m, &mut r, &mut l);
            let y = read_frame(&mut s, m, &mut q, &mut l);
            assert!(x == y && x == z && p == q && p == r, "frames differ: {x:?} {y:?} {z:?}");
            p.fill(1);
            q.fill(1);
            r.fill(1);
        }
    }
    compare_glass(fs);
    compare_writers(fs);
}

/// The words of a glass of 32 bits, cut to 5-6-5, are those of a glass of 16.
fn compare_glass(fs: &[Frame]) {
    let (mut p, mut q, mut l) = (vec![1u16; WIDTH * HEIGHT], vec![1u32; WIDTH * HEIGHT], Lists::new());
    for f in fs {
        let (mut s, mut t) = (session(f.mode), session(f.mode).on(Glass::Bits32));
        let x = read_frame(&mut s, &f.bytes, &mut p, &mut l);
        let y = read_frame_32(&mut t, &f.bytes, &mut q, &mut l);
        let cut = |w: &u32| (w >> 8 & 0xF800 | w >> 5 & 0x07E0 | w >> 3 & 0x001F) as u16;
        assert!(x.0 == 0 && x == y && q.iter().map(cut).eq(p.iter().copied()), "glasses differ: {x:?} {y:?}");
    }
}

/// Both frame writers give the same bytes, whole frames and small ones with edge tiles, and the same refusals where there is no room.
fn compare_writers(fs: &[Frame]) {
    let (mut a, mut b, mut l) = (vec![3u8; 1 << 20], vec![3u8; 1 << 20], Lists::new());
    for f in fs {
        let small = [(WIDTH, HEIGHT), (1, 1), (65, 64), (100, 129), (130, 3)];
        for (width, height) in small {
            let size = Size { width, height, mode: f.mode };
            let pixels = &f.pixels[..3 * width * height];
            let x = plain_write_frame(size, pixels, &mut l, &mut a);
            let y = write_frame_of(size, pixels, &mut l, &mut b);
            assert!(x.0 == 0 && x == y && a == b, "frames written differ: {x:?} {y:?}");
            let mut c = vec![3u8; xurbalenz::frame_room(width, height)];
            let z = write_frame_of(size, pixels, &mut l, &mut c);
            assert!(x == z && c[..x.1] == a[..x.1] && c[x.1..].iter().all(|&b| b == 3), "frames written at once differ: {x:?} {z:?}");
            let x = plain_write_frame(size, pixels, &mut l, &mut a[..x.1 - 1]);
            let y = write_frame_of(size, pixels, &mut l, &mut b[..y.1 - 1]);
            assert!(x == (13, 0) && x == y && a == b, "refusals differ: {x:?} {y:?}");
        }
    }
}

// ---- cases

type Case<'a> = (String, Vec<(&'static str, Box<dyn FnMut() + 'a>)>);

fn cases<'a>(cs: &'a [Component], fs: &'a [Frame]) -> Vec<Case<'a>> {
    let mut all: Vec<Case> = Vec::new();
    let mut reading = |name: String, cs: Vec<&'a Component>| {
        let ds = cs.clone();
        let (mut a, mut b) = (vec![0; PLACES], vec![0; PLACES]);
        all.push((name, vec![
            ("plain", Box::new(move || for c in &cs { black_box(plain::read_component(c.mode, &c.code, black_box(&mut a))); })),
            ("rattle", Box::new(move || for c in &ds { black_box(read_component(c.mode, &c.code, black_box(&mut b))); })),
        ]));
    };
    reading("read 1,000 components".into(), cs.iter().collect());
    for mode in [1, 4] {
        for kind in 0..4 {
            reading(format!("read 125 components, {}, RLGR{}", KINDS[kind], if mode == 1 { 1 } else { 3 }), cs.iter().filter(|c| c.mode == mode && c.kind == kind).collect());
        }
    }
    let room = || vec![0u8; 65536];
    let (mut a, mut b, mut d, mut e) = (room(), room(), room(), room());
    all.push(("write 1,000 components".into(), vec![
        ("plain", Box::new(move || for c in cs { black_box(plain::write_component(c.mode, &c.list, black_box(&mut a))); })),
        ("rattle", Box::new(move || for c in cs { black_box(write_component(c.mode, &c.list, black_box(&mut b))); })),
        // no byte of room more than the code has, and a refusal leaves the output untouched: it is measured first
        ("plain-measured", Box::new(move || for c in cs { let _ = black_box(plain::write_component_within(c.mode, &c.list, black_box(&mut e[..c.code.len()]))); })),
        ("measured", Box::new(move || for c in cs { black_box(write_component(c.mode, &c.list, black_box(&mut d[..c.code.len()]))); })),
    ]));
    for f in fs {
        let size = Size { width: WIDTH, height: HEIGHT, mode: f.mode };
        let mut s = session(f.mode);
        let picture = || vec![0u16; WIDTH * HEIGHT];
        let (mut p, mut q, mut r, mut u) = (picture(), picture(), picture(), picture());
        let (mut k, mut l, mut n, mut v) = (Lists::new(), Lists::new(), Lists::new(), Lists::new());
        // the same frame with its rectangle of width 0: all but colour and drawing
        let mut undrawn = f.bytes.clone();
        undrawn[29..31].fill(0);
        let mut t = session(f.mode);
        all.push((format!("read frame, {} screen, RLGR{}", f.name, if f.mode == 1 { 1 } else { 3 }), vec![
            ("plain", Box::new(move || { black_box(plain::read_frame(size, &f.bytes, &mut p, &mut k)); })),
            ("rattle", Box::new(move || { black_box(read_frame(&mut s, &f.bytes, &mut q, &mut l)); })),
            ("one-pass", Box::new(move || { black_box(plain::read_frame_shadow(size, &f.bytes, &mut r, &mut n)); })),
            ("undrawn", Box::new(move || { black_box(read_frame(&mut t, &undrawn, &mut u, &mut v)); })),
        ]));
    }
    for f in fs {
        let (mut s, mut t) = (session(f.mode), session(f.mode).on(Glass::Bits32));
        let (mut p, mut q) = (vec![0u16; WIDTH * HEIGHT], vec![0u32; WIDTH * HEIGHT]);
        let (mut k, mut l) = (Lists::new(), Lists::new());
        all.push((format!("glass, {} screen, RLGR{}", f.name, if f.mode == 1 { 1 } else { 3 }), vec![
            ("16-bit", Box::new(move || { black_box(read_frame(&mut s, &f.bytes, &mut p, &mut k)); })),
            ("32-bit", Box::new(move || { black_box(read_frame_32(&mut t, &f.bytes, &mut q, &mut l)); })),
        ]));
    }
    for f in fs {
        let size = Size { width: WIDTH, height: HEIGHT, mode: f.mode };
        let room = || (Lists::new(), vec![0u8; f.bytes.len()]);
        let ((mut k, mut a), (mut l, mut b)) = (room(), room());
        let (mut n, mut c) = (Lists::new(), vec![0u8; xurbalenz::frame_room(WIDTH, HEIGHT)]);
        all.push((format!("write frame, {} screen, RLGR{}", f.name, if f.mode == 1 { 1 } else { 3 }), vec![
            ("plain", Box::new(move || { black_box(plain_write_frame(size, &f.pixels, &mut k, &mut a)); })),
            ("rattle", Box::new(move || { black_box(write_frame(f.mode, &f.pixels, &mut l, &mut b)); })),
            ("at-once", Box::new(move || { black_box(write_frame(f.mode, &f.pixels, &mut n, &mut c)); })),
        ]));
    }
    all
}

// ---- frames made to cost

/// Tiles of nothing but zeros, and those of the control screen; with each how many times the time of one rectangle is allowed.
fn kinds(fs: &[Frame]) -> [(&'static str, f64, Vec<worst::Codes>); 2] {
    [("zeros", 3.0, vec![[(); 3].map(|_| vec![0; 3])]), ("a picture", 1.5, worst::codes(&fs[0].bytes))]
}

const SIZES: [(usize, usize); 2] = [(4096, 2048), (1024, 768)];

fn worst_times(fs: &[Frame], reps: usize) {
    let (mut l, mut over) = (Lists::new(), false);
    for (kind, allowed, codes) in kinds(fs) {
        for (width, height) in SIZES {
            let size = Size { width, height, mode: 1 };
            let (mut p, mut q, mut most) = (vec![1u16; width * height + 9], vec![1u16; width * height + 9], 0.0);
            for (one_place, rule) in [false, true].iter().flat_map(|o| (0..worst::RULES.len()).map(move |r| (*o, r))) {
                let f = worst::frames(size, 2048, one_place, rule, &codes);
                let mut s = session_of(size);
                p.fill(1);
                q.fill(1);
                let x = plain::read_frame(size, &f.many, &mut p, &mut l);
                let y = read_frame(&mut s, &f.many, &mut q, &mut l);
                assert!(x == (0, 2048) && x == y && p == q, "pictures differ: {}", f.name);
                let mut best = [f64::MAX; 2];
                for _ in 0..reps {
                    for (m, b) in [&f.one, &f.many].into_iter().zip(&mut best) {
                        let t = now();
                        black_box(read_frame(&mut s, m, &mut q, &mut l));
                        *b = b.min(now() - t);
                    }
                }
                let ratio = best[1] / best[0];
                println!("worst {:.1} ms, {:.1} with one rectangle, ratio {ratio:.2}: {kind}, {width} x {height}, {}", best[1] * 1e3, best[0] * 1e3, f.name);
                most = f64::max(most, ratio);
            }
            println!("worst of all {most:.2}, {allowed:.1} allowed: {kind}, {width} x {height}");
            over |= most > allowed;
        }
    }
    assert!(!over, "a frame costs more than is allowed");
}

fn worst_cases(fs: &[Frame]) -> Vec<Case<'static>> {
    let size = Size { width: WIDTH, height: HEIGHT, mode: 1 };
    let mut all: Vec<Case> = Vec::new();
    for (kind, _, codes) in kinds(fs) {
        for rule in 0..worst::RULES.len() {
            let f = worst::frames(size, 64, true, rule, &codes);
            let sides = [("one", f.one), ("many", f.many)].map(|(side, m)| {
                let (mut s, mut p, mut l) = (session_of(size), vec![0; WIDTH * HEIGHT], Lists::new());
                let call: Box<dyn FnMut()> = Box::new(move || { black_box(read_frame(&mut s, &m, &mut p, &mut l)); });
                (side, call)
            });
            all.push((format!("64 tiles, {kind}, {}", f.name), sides.into()));
        }
    }
    all
}

// ---- marks: a function of its own for each case and side, which callgrind finds by name

macro_rules! marks {
    ($($name:ident $k:literal),*) => {
        $(#[inline(never)] #[no_mangle] pub fn $name(f: &mut dyn FnMut()) { black_box($k); f(); black_box($k); })*
        const MARKS: &[fn(&mut dyn FnMut())] = &[$($name),*];
    };
}
marks!(mark_00 0, mark_01 1, mark_02 2, mark_03 3, mark_04 4, mark_05 5, mark_06 6, mark_07 7, mark_08 8, mark_09 9, mark_10 10, mark_11 11,
    mark_12 12, mark_13 13, mark_14 14, mark_15 15, mark_16 16, mark_17 17, mark_18 18, mark_19 19, mark_20 20, mark_21 21, mark_22 22,
    mark_23 23, mark_24 24, mark_25 25, mark_26 26, mark_27 27, mark_28 28, mark_29 29, mark_30 30, mark_31 31, mark_32 32, mark_33 33,
    mark_34 34, mark_35 35, mark_36 36, mark_37 37, mark_38 38, mark_39 39, mark_40 40, mark_41 41, mark_42 42, mark_43 43, mark_44 44,
    mark_45 45, mark_46 46, mark_47 47, mark_48 48, mark_49 49, mark_50 50, mark_51 51, mark_52 52, mark_53 53, mark_54 54, mark_55 55, mark_56 56, mark_57 57);

fn count(all: &mut [Case]) {
    let mut k = 0;
    for (name, sides) in all {
        for (side, f) in sides {
            println!("mark {k:02} {side} {name}");
            unsafe { syscall(0x5eed, 2 * k as i64) };
            MARKS[k](f.as_mut());
            unsafe { syscall(0x5eed, 2 * k as i64 + 1) };
            k += 1;
        }
    }
}

// ---- the stack: painted below where we stand, then searched for what the call left

#[cfg(target_arch = "x86_64")]
#[inline(never)]
fn depth(f: &mut dyn FnMut()) -> usize {
    const DEEP: usize = 256 << 10;
    let here: usize;
    unsafe { std::arch::asm!("mov {}, rsp", out(reg) here) };
    let from = (here - DEEP) as *mut u8;
    for i in 0..DEEP {
        unsafe { from.add(i).write_volatile(0xA5) };
    }
    f();
    let mut i = 0;
    while i < DEEP && unsafe { from.add(i).read_volatile() } == 0xA5 {
        i += 1;
    }
    DEEP - i
}

#[cfg(target_arch = "x86_64")]
fn stack(cs: &[Component], fs: &[Frame]) {
    println!("stack nothing {} bytes: an empty call, which is in every figure", depth(&mut || { black_box(()); }));
    for (name, sides) in &mut cases(cs, fs) {
        for (side, f) in sides {
            f();
            println!("stack {side} {} bytes: {name}", depth(f.as_mut()));
        }
    }
}

fn times(all: &mut [Case], reps: usize) {
    for (name, sides) in all {
        let n = sides.len();
        let mut best = vec![f64::MAX; n];
        for r in 0..reps {
            for k in 0..n {
                let j = (r + k) % n;
                let t = now();
                (sides[j].1)();
                best[j] = best[j].min(now() - t);
            }
        }
        for j in 0..n {
            println!("time {} {:.3} ms, ratio {:.2}: {name}", sides[j].0, best[j] * 1e3, best[j] / best[0]);
        }
    }
}

fn main() {
    let what = std::env::args().nth(1).unwrap_or("31".into());
    let (cs, fs) = (components(), frames());
    match what.as_str() {
        "count" => return count(&mut cases(&cs, &fs)),
        "aims" => return count(&mut worst_cases(&fs)),
        "worst" => return worst_times(&fs, std::env::args().nth(2).map_or(5, |n| n.parse().expect("a number of rounds"))),
        _ => {}
    }
    compare(&cs, &fs);
    println!("equal: {} components and {} frames, whole, cut and with a byte more", cs.len(), fs.len());
    for (k, kind) in KINDS.iter().enumerate() {
        for mode in [1, 4] {
            let n: usize = cs.iter().filter(|c| c.kind == k && c.mode == mode).map(|c| c.code.len()).sum();
            println!("input 125 components, {kind}, RLGR{}: {n} bytes", if mode == 1 { 1 } else { 3 });
        }
    }
    for f in &fs {
        println!("input frame, {} screen, RLGR{}: {} bytes", f.name, if f.mode == 1 { 1 } else { 3 }, f.bytes.len());
    }
    #[cfg(target_arch = "x86_64")]
    if what == "stack" {
        return std::thread::Builder::new().stack_size(8 << 20).spawn(move || stack(&cs, &fs)).unwrap().join().unwrap();
    }
    times(&mut cases(&cs, &fs), what.parse().expect("a number of rounds"));
}
