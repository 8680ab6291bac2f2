// A plain Rust decoder and encoder of the same work, for the benchmark only: written from document 01 as one would write it in
// Rust, with a bit reader on a u64, slices of i32, no unsafe, no heap but in `read_frame_shadow`. Nothing of it is proved or taken from the crates.
// Document 01's odd step of the wavelet is the sample's (docs/DECISIONS.md, 1).

pub const TILE: usize = 64;
pub const PLACES: usize = TILE * TILE;
pub const CUT: u8 = 1;
pub const BUFFER: u8 = 2;
pub const KIND: u8 = 3;
pub const LENGTH: u8 = 4;
pub const FIELD: u8 = 5;
pub const TOO_BIG: u8 = 6;
pub const QUANT: u8 = 7;
pub const PLACE: u8 = 8;
pub const RANGE: u8 = 9;
pub const OVERRUN: u8 = 10;
pub const TAIL: u8 = 11;
pub const ROOM: u8 = 13;

// ---- bits

/// Bits of a slice, high bit first: the next ones stand at the top of `window`.
struct Bits<'a> {
    bytes: &'a [u8],
    next: usize,
    window: u64,
    have: u32,
}

impl<'a> Bits<'a> {
    fn new(bytes: &'a [u8]) -> Self {
        Bits { bytes, next: 0, window: 0, have: 0 }
    }

    /// At least 56 bits, or all that are left.
    #[inline(always)]
    fn refill(&mut self) {
        if let Some(word) = self.bytes.get(self.next..self.next + 8) {
            self.window |= u64::from_be_bytes(word.try_into().unwrap()) >> self.have;
            let taken = (63 - self.have) / 8;
            self.next += taken as usize;
            self.have += 8 * taken;
            // the bits past `have` are or-ed in again by the next refill, which changes nothing
        } else {
            while self.have < 56 && self.next < self.bytes.len() {
                self.window |= u64::from(self.bytes[self.next]) << (56 - self.have);
                self.next += 1;
                self.have += 8;
            }
        }
    }

    /// n is at most `have`, and that at most 63.
    #[inline(always)]
    fn skip(&mut self, n: u32) {
        self.window <<= n;
        self.have -= n;
    }

    #[inline(always)]
    fn bits(&mut self, n: u32) -> Result<u32, u8> {
        if self.have < n {
            self.refill();
            if self.have < n {
                return Err(CUT);
            }
        }
        if n == 0 {
            return Ok(0);
        }
        let value = (self.window >> (64 - n)) as u32;
        self.skip(n);
        Ok(value)
    }

    /// Ones up to a zero, which is taken too.
    #[inline(always)]
    fn ones(&mut self) -> Result<u32, u8> {
        let mut count = 0;
        loop {
            let run = self.window.leading_ones();
            if run < self.have {
                self.skip(run + 1);
                return Ok(count + run);
            }
            count += self.have;
            self.skip(self.have);
            self.refill();
            if self.have == 0 {
                return Err(CUT);
            }
        }
    }

    fn at(&self) -> usize {
        self.next * 8 - self.have as usize
    }
}

// ---- the component code

/// The two running parameters.
struct Adapt {
    kp: u32,
    krp: u32,
}

impl Adapt {
    #[inline(always)]
    fn golomb(&mut self, bits: &mut Bits) -> Result<u32, u8> {
        let kr = self.krp / 8;
        let run = bits.window.leading_ones();
        let (v, low) = if run + kr < bits.have {
            let low = bits.window << run << 1 >> 1 >> (63 - kr);
            bits.skip(run + 1 + kr);
            (run, low as u32)
        } else {
            (bits.ones()?, bits.bits(kr)?)
        };
        self.took(v);
        Ok((v << kr) + low)
    }

    /// A GR number that begins with v ones. (What few ones lead to is worked out before it is asked for, so that one test falls either way and not two: a guess that
    /// fails costs more than the rest. Of six forms this is the fastest in time, and not the one with the fewest instructions.)
    #[inline(always)]
    fn took(&mut self, v: u32) {
        let low = if v == 1 { self.krp } else { self.krp.saturating_sub(2) };
        self.krp = if v < 2 { low } else { (self.krp + v).min(80) };
    }

    fn up(&mut self, d: u32) {
        self.kp = (self.kp + d).min(80);
    }

    fn down(&mut self, d: u32) {
        self.kp = self.kp.saturating_sub(d);
    }
}

#[inline]
fn unfold(g: u32) -> i32 {
    (g >> 1) as i32 ^ -((g & 1) as i32)
}

#[inline(always)]
fn fill(rlgr3: bool, bits: &mut Bits, list: &mut [i32]) -> Result<(), u8> {
    let mut a = Adapt { kp: 8, krp: 8 };
    let mut i = 0;
    while i < PLACES {
        let k = a.kp / 8;
        if k > 0 {
            if bits.bits(1)? == 0 {
                i += 1 << k;
                a.up(4);
                continue;
            }
            let head = bits.bits(k + 1)?;
            let (zeros, negative) = ((head >> 1) as usize, head & 1 == 1);
            let g = a.golomb(bits)?;
            if g > 32766 {
                return Err(RANGE);
            }
            i += zeros;
            if i >= PLACES {
                return Err(OVERRUN);
            }
            let magnitude = g as i32 + 1;
            list[i] = if negative { -magnitude } else { magnitude };
            i += 1;
            a.down(6);
        } else if !rlgr3 {
            let g = a.golomb(bits)?;
            if g > 65534 {
                return Err(RANGE);
            }
            list[i] = unfold(g);
            i += 1;
            if g == 0 {
                a.up(3);
            } else {
                a.down(3);
            }
        } else {
            let g = a.golomb(bits)?;
            let first = bits.bits(32 - g.leading_zeros())?;
            if first > g || first > 65534 || g - first > 65534 {
                return Err(RANGE);
            }
            let second = g - first;
            list[i] = unfold(first);
            if i + 1 < PLACES {
                list[i + 1] = unfold(second);
            } else if second != 0 {
                return Err(OVERRUN);
            }
            i += 2;
            match (first, second) {
                (0, 0) => a.up(6),
                (0, _) | (_, 0) => {}
                _ => a.down(6),
            }
        }
    }
    Ok(())
}

/// The number, and the code's length in bits.
pub fn read_component(mode: u8, code: &[u8], list: &mut [i32]) -> (u8, usize) {
    if mode != 1 && mode != 4 {
        return (FIELD, 0);
    }
    if list.len() != PLACES {
        return (BUFFER, 0);
    }
    if code.len() > 65535 {
        return (TOO_BIG, 0);
    }
    list.fill(0);
    let mut bits = Bits::new(code);
    // a loop for each mode
    let filled = if mode == 4 { fill(true, &mut bits, list) } else { fill(false, &mut bits, list) };
    if let Err(number) = filled {
        list.fill(0);
        return (number, 0);
    }
    let at = bits.at();
    let left = (code.len() * 8 - at) as u32;
    if left >= 8 || bits.bits(left) != Ok(0) {
        list.fill(0);
        return (TAIL, at);
    }
    (0, at)
}

// ---- the component writer

/// Where the bits of a code go.
trait Sink {
    /// The n low bits of v, which has no others.
    fn put(&mut self, n: u32, v: u32);

    /// The GR number g.
    fn golomb(&mut self, kr: u32, g: u32);
}

/// Bytes in a lent list, from a place on.
struct Slot<'a> {
    out: &'a mut [u8],
    at: usize,
    acc: u64,
    n: u32,
}

impl Sink for Slot<'_> {
    #[inline(always)]
    fn put(&mut self, n: u32, v: u32) {
        self.acc = self.acc << n | u64::from(v);
        self.n += n;
        if self.n >= 32 {
            self.n -= 32;
            self.out[self.at..self.at + 4].copy_from_slice(&((self.acc >> self.n) as u32).to_be_bytes());
            self.at += 4;
        }
    }

    #[inline(always)]
    fn golomb(&mut self, kr: u32, g: u32) {
        let mut ones = g >> kr;
        while ones > 20 {
            self.put(20, (1 << 20) - 1);
            ones -= 20;
        }
        self.put(ones + 1 + kr, ((1 << ones) - 1) << (kr + 1) | g & ((1 << kr) - 1));
    }
}

impl Slot<'_> {
    /// What still waits, filled up with zeros; the place past it.
    fn end(mut self) -> usize {
        while self.n >= 8 {
            self.n -= 8;
            self.out[self.at] = (self.acc >> self.n) as u8;
            self.at += 1;
        }
        if self.n > 0 {
            self.out[self.at] = (self.acc << (8 - self.n)) as u8;
            self.at += 1;
        }
        self.at
    }
}

fn fold(x: i32) -> u32 {
    (x << 1 ^ x >> 31) as u32
}

impl Adapt {
    #[inline(always)]
    fn put(&mut self, sink: &mut impl Sink, g: u32) {
        let kr = self.krp / 8;
        sink.golomb(kr, g);
        self.took(g >> kr);
    }
}

/// The code of 4,096 numbers, each in range.
#[inline(always)]
fn code(mode: u8, list: &[i32], p: &mut impl Sink) {
    let mut a = Adapt { kp: 8, krp: 8 };
    let mut i = 0;
    while i < list.len() {
        let k = a.kp / 8;
        if k > 0 {
            let run = &list[i..list.len().min(i + (1 << k))];
            let zeros = run.iter().position(|&x| x != 0).unwrap_or(run.len());
            if zeros == run.len() {
                p.put(1, 0);
                i += 1 << k;
                a.up(4);
                continue;
            }
            let x = list[i + zeros];
            p.put(k + 2, (1 << k | zeros as u32) << 1 | u32::from(x < 0));
            a.put(p, x.unsigned_abs() - 1);
            i += zeros + 1;
            a.down(6);
        } else if mode == 1 {
            let g = fold(list[i]);
            a.put(p, g);
            i += 1;
            if g == 0 {
                a.up(3);
            } else {
                a.down(3);
            }
        } else {
            let first = fold(list[i]);
            let second = list.get(i + 1).map_or(0, |&x| fold(x));
            let g = first + second;
            a.put(p, g);
            p.put(32 - g.leading_zeros(), first);
            i += 2;
            match (first, second) {
                (0, 0) => a.up(6),
                (0, _) | (_, 0) => {}
                _ => a.down(6),
            }
        }
    }
}

/// The code in a lent list, which has room for it: how many bytes it has. Nothing is judged.
pub fn write_component(mode: u8, list: &[i32], out: &mut [u8]) -> usize {
    let mut slot = Slot { out, at: 0, acc: 0, n: 0 };
    // a loop for each mode
    if mode == 1 {
        code(1, list, &mut slot);
    } else {
        code(4, list, &mut slot);
    }
    slot.end()
}

/// The same, but measured first: nothing is written where it has no room.
pub fn write_component_within(mode: u8, list: &[i32], out: &mut [u8]) -> Result<usize, u8> {
    let mut bits = Count(0);
    code(mode, list, &mut bits);
    if out.len() < (bits.0 + 7) / 8 {
        return Err(ROOM);
    }
    Ok(write_component(mode, list, out))
}

// ---- bands

/// Where each band ends, and where in the set its quantiser stands.
const BANDS: [(usize, usize); 10] =
    [(1024, 8), (2048, 7), (3072, 9), (3328, 5), (3584, 4), (3840, 6), (3904, 2), (3968, 1), (4032, 3), (4096, 0)];

fn outside(v: i32) -> bool {
    !(-32767..=32767).contains(&v)
}

/// A component's code to its scaled coefficients.
fn coefficients(mode: u8, quant: &[u8; 10], code: &[u8], list: &mut [i32]) -> Result<(), u8> {
    match read_component(mode, code, list).0 {
        0 => {}
        number => return Err(number),
    }
    let mut sum = 0;
    for v in &mut list[4032..] {
        sum += *v;
        if outside(sum) {
            return Err(RANGE);
        }
        *v = sum;
    }
    let mut from = 0;
    let mut bad = false;
    for (to, q) in BANDS {
        let shift = quant[q] - 1;
        for v in &mut list[from..to] {
            *v <<= shift;
            bad |= outside(*v);
        }
        from = to;
    }
    if bad { Err(RANGE) } else { Ok(()) }
}

// ---- the wavelet's way back

fn even(l: i32, g: i32, h: i32) -> i32 {
    l - ((g + h + 1) >> 1)
}

fn row_back(low: &[i32], high: &[i32], out: &mut [i32]) {
    let n = low.len();
    let (high, out) = (&high[..n], &mut out[..2 * n]);
    let mut x = even(low[0], high[0], high[0]);
    for j in 0..n - 1 {
        let y = even(low[j + 1], high[j], high[j + 1]);
        out[2 * j] = x;
        out[2 * j + 1] = 2 * high[j] + (x + y) / 2;
        x = y;
    }
    out[2 * n - 2] = x;
    out[2 * n - 1] = 2 * high[n - 1] + x;
}

/// One level: four bands of n x n (HL, LH, HH, LL) become 2n x 2n numbers in their place.
fn level_back(region: &mut [i32], sheet: &mut [i32], n: usize) {
    let (w, b) = (2 * n, n * n);
    let sheet = &mut sheet[..4 * b];
    for r in 0..n {
        let (s, t) = (r * n, r * w);
        row_back(&region[3 * b + s..3 * b + s + n], &region[s..s + n], &mut sheet[t..t + w]);
        let t = (n + r) * w;
        row_back(&region[b + s..b + s + n], &region[2 * b + s..2 * b + s + n], &mut sheet[t..t + w]);
    }
    let (low, high) = sheet.split_at(2 * b);
    // the even rows, then the odd ones from their neighbours
    for r in 0..n {
        let before = r.saturating_sub(1);
        let (l, g, h) = (&low[r * w..][..w], &high[before * w..][..w], &high[r * w..][..w]);
        let out = &mut region[2 * r * w..][..w];
        for c in 0..w {
            out[c] = even(l[c], g[c], h[c]);
        }
    }
    for r in 0..n {
        let h = &high[r * w..][..w];
        let (above, rest) = region[2 * r * w..].split_at_mut(w);
        let (out, below) = rest.split_at_mut(w);
        let below = if r + 1 < n { &below[..w] } else { &above[..w] };
        for c in 0..w {
            out[c] = 2 * h[c] + (above[c] / 2 + below[c] / 2);
        }
    }
}

fn tile_back(list: &mut [i32], sheet: &mut [i32]) {
    level_back(&mut list[3840..], sheet, 8);
    level_back(&mut list[3072..], sheet, 16);
    level_back(list, sheet, 32);
}

// ---- colour

#[inline]
fn word(y: i32, cb: i32, cr: i32) -> u16 {
    let s = 65536 * (i64::from(y) + 4096) + (1 << 20);
    let (cb, cr) = (i64::from(cb), i64::from(cr));
    let r = ((s + 91916 * cr) >> 21).clamp(0, 255) as u16;
    let g = ((s - 22527 * cb - 46819 * cr) >> 21).clamp(0, 255) as u16;
    let b = ((s + 115992 * cb) >> 21).clamp(0, 255) as u16;
    (r >> 3) << 11 | (g >> 2) << 5 | b >> 3
}

// ---- the frame

#[derive(Clone, Copy)]
pub struct Size {
    pub width: usize,
    pub height: usize,
    pub mode: u8,
}

/// The four lists that a frame call is lent.
pub struct Lists {
    pub y: Vec<i32>,
    pub cb: Vec<i32>,
    pub cr: Vec<i32>,
    pub sheet: Vec<i32>,
}

impl Lists {
    pub fn new() -> Self {
        let list = || vec![0; PLACES];
        Lists { y: list(), cb: list(), cr: list(), sheet: list() }
    }

    fn clear(&mut self) {
        for list in [&mut self.y, &mut self.cb, &mut self.cr, &mut self.sheet] {
            list.fill(0);
        }
    }
}

fn le16(m: &[u8], at: usize) -> usize {
    usize::from(u16::from_le_bytes([m[at], m[at + 1]]))
}

fn le32(m: &[u8], at: usize) -> usize {
    u32::from_le_bytes([m[at], m[at + 1], m[at + 2], m[at + 3]]) as usize
}

/// The block at the front of m, and what follows it: head, kind, least size, presence.
fn block(m: &[u8], kind: usize, least: usize, fixed: bool) -> Result<(&[u8], &[u8]), u8> {
    if m.len() < 6 {
        return Err(CUT);
    }
    if le16(m, 0) != kind {
        return Err(KIND);
    }
    let size = le32(m, 2);
    if size < least || fixed && size != least {
        return Err(LENGTH);
    }
    if m.len() < size {
        return Err(CUT);
    }
    Ok(m.split_at(size))
}

fn field(good: bool) -> Result<(), u8> {
    if good { Ok(()) } else { Err(FIELD) }
}

/// What a frame without a fault in its blocks is made of; its tiles are judged one by one.
struct Frame<'a> {
    rects: &'a [u8],
    sets: &'a [u8],
    tiles: usize,
    data: &'a [u8],
    end: &'a [u8],
}

fn front(mode: u8, m: &[u8]) -> Result<Frame<'_>, u8> {
    let (begin, m) = block(m, 0xCCC4, 14, true)?;
    field(begin[6] == 1 && begin[7] == 0 && le16(begin, 12) == 1)?;
    let (region, m) = block(m, 0xCCC6, 15, false)?;
    field(region[6] == 1 && region[7] == 0 && region[8] & 1 == 1)?;
    let n = le16(region, 9);
    if n > 256 {
        return Err(TOO_BIG);
    }
    if region.len() != 15 + 8 * n {
        return Err(LENGTH);
    }
    let rects = &region[11..11 + 8 * n];
    field(le16(region, 11 + 8 * n) == 0xCAC1 && le16(region, 13 + 8 * n) == 1)?;
    let (set, end) = block(m, 0xCCC7, 22, false)?;
    field(set[6] == 1 && set[7] == 0 && le16(set, 8) == 0xCAC2 && le16(set, 10) == 0)?;
    let properties = le16(set, 12);
    field(properties & 1 == 1 && properties >> 4 & 3 == 1 && properties >> 6 & 15 == 1)?;
    field(properties >> 10 & 15 == usize::from(mode) && properties >> 14 == 1 && set[15] == 64)?;
    let q = usize::from(set[14]);
    let tiles = le16(set, 16);
    if tiles > 2048 {
        return Err(TOO_BIG);
    }
    if set.len() != 22 + 5 * q + le32(set, 18) {
        return Err(LENGTH);
    }
    let (sets, data) = set[22..].split_at(5 * q);
    if sets.iter().any(|b| !(6..=15).contains(&(b & 15)) || b >> 4 < 6) {
        return Err(QUANT);
    }
    Ok(Frame { rects, sets, tiles, data, end })
}

fn end_of(m: &[u8]) -> Result<(), u8> {
    let (end, rest) = block(m, 0xCCC5, 8, true)?;
    field(end[6] == 1 && end[7] == 0)?;
    if rest.is_empty() { Ok(()) } else { Err(LENGTH) }
}

/// A tile: its place, and for each component its quantisers and its code.
struct Tile<'a> {
    x: usize,
    y: usize,
    parts: [([u8; 10], &'a [u8]); 3],
}

fn quants(set: &[u8]) -> [u8; 10] {
    std::array::from_fn(|i| set[i / 2] >> (4 * (i % 2)) & 15)
}

fn tile<'a>(size: Size, sets: &[u8], data: &'a [u8]) -> Result<(Tile<'a>, &'a [u8]), u8> {
    let (t, rest) = block(data, 0xCAC3, 19, false)?;
    let (a, b, c) = (le16(t, 13), le16(t, 15), le16(t, 17));
    if t.len() != 19 + a + b + c {
        return Err(LENGTH);
    }
    if t[6..9].iter().any(|&q| usize::from(q) * 5 >= sets.len()) {
        return Err(QUANT);
    }
    let (x, y) = (le16(t, 9), le16(t, 11));
    if TILE * x >= size.width || TILE * y >= size.height {
        return Err(PLACE);
    }
    let set = |k: usize| quants(&sets[5 * usize::from(t[6 + k])..]);
    let codes = &t[19..];
    let parts = [(set(0), &codes[..a]), (set(1), &codes[a..a + b]), (set(2), &codes[a + b..])];
    Ok((Tile { x, y, parts }, rest))
}

/// A tile's words into the picture, where channel and rectangles hold it; no rectangles are one over the whole channel.
fn draw(size: Size, t: &Tile, rects: &[u8], lists: &Lists, picture: &mut [u16]) {
    let [wl, wh, hl, hh] = [size.width, size.width >> 8, size.height, size.height >> 8].map(|n| n as u8);
    let whole = [0, 0, 0, 0, wl, wh, hl, hh];
    let rects = if rects.is_empty() { &whole[..] } else { rects };
    let (left, top) = (TILE * t.x, TILE * t.y);
    let (right, bottom) = ((left + TILE).min(size.width), (top + TILE).min(size.height));
    let mut words = [0u16; TILE];
    for py in top..bottom {
        let s = (py - top) * TILE;
        let (y, cb, cr) = (&lists.y[s..][..TILE], &lists.cb[s..][..TILE], &lists.cr[s..][..TILE]);
        for x in 0..TILE {
            words[x] = word(y[x], cb[x], cr[x]);
        }
        for r in rects.chunks_exact(8) {
            let (x, y, w, h) = (le16(r, 0), le16(r, 2), le16(r, 4), le16(r, 6));
            let (a, b) = (x.max(left), (x + w).min(right));
            if (y..y + h).contains(&py) && a < b {
                picture[py * size.width + a..py * size.width + b].copy_from_slice(&words[a - left..b - left]);
            }
        }
    }
}

fn samples(mode: u8, t: &Tile, lists: &mut Lists) -> Result<(), u8> {
    let Lists { y, cb, cr, sheet } = lists;
    for ((quant, code), list) in t.parts.iter().zip([y, cb, cr]) {
        coefficients(mode, quant, code, list)?;
        tile_back(list, sheet);
    }
    Ok(())
}

fn check(size: Size, f: &Frame, list: &mut [i32]) -> Result<(), u8> {
    let mut data = f.data;
    for _ in 0..f.tiles {
        let (t, rest) = tile(size, f.sets, data)?;
        for (quant, code) in &t.parts {
            coefficients(size.mode, quant, code, list)?;
        }
        data = rest;
    }
    if !data.is_empty() {
        return Err(LENGTH);
    }
    end_of(f.end)
}

fn both_passes(size: Size, m: &[u8], picture: &mut [u16], lists: &mut Lists) -> Result<usize, u8> {
    let f = front(size.mode, m)?;
    check(size, &f, &mut lists.sheet)?;
    let mut data = f.data;
    for _ in 0..f.tiles {
        let (t, rest) = tile(size, f.sets, data)?;
        samples(size.mode, &t, lists)?;
        draw(size, &t, f.rects, lists, picture);
        data = rest;
    }
    Ok(f.tiles)
}

/// The frame call as the product has it: checked whole, then decoded again and drawn; no memory but what is lent.
pub fn read_frame(size: Size, m: &[u8], picture: &mut [u16], lists: &mut Lists) -> (u8, usize) {
    let answer = both_passes(size, m, picture, lists);
    lists.clear();
    match answer {
        Ok(tiles) => (0, tiles),
        Err(number) => (number, 0),
    }
}

/// The same answers in one pass: drawn into a copy of the picture, which is handed over when all is good. It needs a second picture.
pub fn read_frame_shadow(size: Size, m: &[u8], picture: &mut [u16], lists: &mut Lists) -> (u8, usize) {
    let mut shadow = picture.to_vec();
    let mut one_pass = || -> Result<usize, u8> {
        let f = front(size.mode, m)?;
        let mut data = f.data;
        for _ in 0..f.tiles {
            let (t, rest) = tile(size, f.sets, data)?;
            samples(size.mode, &t, lists)?;
            draw(size, &t, f.rects, lists, &mut shadow);
            data = rest;
        }
        if !data.is_empty() {
            return Err(LENGTH);
        }
        end_of(f.end)?;
        Ok(f.tiles)
    };
    let answer = one_pass();
    lists.clear();
    match answer {
        Ok(tiles) => {
            picture.copy_from_slice(&shadow);
            (0, tiles)
        }
        Err(number) => (number, 0),
    }
}

// ---- the frame writer: every component is loaded, sized and judged, and, where all fits, loaded again and written

/// How many bits a code has.
struct Count(usize);

impl Sink for Count {
    fn put(&mut self, n: u32, _: u32) {
        self.0 += n as usize;
    }

    fn golomb(&mut self, kr: u32, g: u32) {
        self.0 += ((g >> kr) + 1 + kr) as usize;
    }
}

/// What a component's sample weighs of R, G and B, and what is taken off.
const WEIGHTS: [[i32; 4]; 3] = [[19595, 38470, 7471, 4096], [-11071, -21736, 32807, 0], [32756, -27429, -5327, 0]];

/// The samples of component c of the tile in column tx of row ty; the last column and row stand for those past them.
fn load(size: Size, pixels: &[u8], (tx, ty): (usize, usize), c: usize, list: &mut [i32]) {
    let [r, g, b, less] = WEIGHTS[c];
    let columns = (size.width - TILE * tx).min(TILE);
    for (j, row) in list.chunks_exact_mut(TILE).enumerate() {
        let y = (TILE * ty + j).min(size.height - 1);
        let line = &pixels[3 * (y * size.width + TILE * tx)..][..3 * columns];
        let (inside, past) = row.split_at_mut(columns);
        for (v, p) in inside.iter_mut().zip(line.chunks_exact(3)) {
            *v = ((r * i32::from(p[0]) + g * i32::from(p[1]) + b * i32::from(p[2])) >> 11) - less;
        }
        past.fill(inside[columns - 1]);
    }
}

fn high(o: i32, e: i32, f: i32) -> i32 {
    (o - ((e + f) >> 1)) >> 1
}

fn row_forth(row: &[i32], low: &mut [i32], high_half: &mut [i32]) {
    let n = low.len();
    let (row, high_half) = (&row[..2 * n], &mut high_half[..n]);
    let mut g = high(row[1], row[0], row[2]);
    for j in 0..n - 1 {
        let h = high(row[2 * j + 1], row[2 * j], row[2 * j + 2]);
        low[j] = row[2 * j] + ((g + h) >> 1);
        high_half[j] = h;
        g = h;
    }
    let h = high(row[2 * n - 1], row[2 * n - 2], row[2 * n - 2]);
    low[n - 1] = row[2 * n - 2] + ((g + h) >> 1);
    high_half[n - 1] = h;
}

/// One level: 2n x 2n numbers become four bands of n x n (HL, LH, HH, LL) in their place.
fn level_forth(region: &mut [i32], sheet: &mut [i32], n: usize) {
    let (w, b) = (2 * n, n * n);
    let (low, high_rows) = sheet[..4 * b].split_at_mut(2 * b);
    // the high rows, then the low ones from their neighbours
    for r in 0..n {
        let (e, o) = (&region[2 * r * w..][..w], &region[(2 * r + 1) * w..][..w]);
        let f = if r + 1 < n { &region[(2 * r + 2) * w..][..w] } else { e };
        let out = &mut high_rows[r * w..][..w];
        for c in 0..w {
            out[c] = high(o[c], e[c], f[c]);
        }
    }
    for r in 0..n {
        let (g, h) = (&high_rows[r.saturating_sub(1) * w..][..w], &high_rows[r * w..][..w]);
        let e = &region[2 * r * w..][..w];
        let out = &mut low[r * w..][..w];
        for c in 0..w {
            out[c] = e[c] + ((g[c] + h[c]) >> 1);
        }
    }
    let (hl, rest) = region.split_at_mut(b);
    let (lh, rest) = rest.split_at_mut(b);
    let (hh, ll) = rest.split_at_mut(b);
    for r in 0..n {
        let (s, t) = (r * n, r * w);
        row_forth(&low[t..t + w], &mut ll[s..s + n], &mut hl[s..s + n]);
        row_forth(&high_rows[t..t + w], &mut lh[s..s + n], &mut hh[s..s + n]);
    }
}

fn tile_forth(list: &mut [i32], sheet: &mut [i32]) {
    level_forth(list, sheet, 32);
    level_forth(&mut list[3072..], sheet, 16);
    level_forth(&mut list[3840..], sheet, 8);
}

/// Rounded band by band, then LL3 to differences. True: a value, a sum or a difference leaves the range, as the reader judges it.
fn round(quant: &[u8; 10], list: &mut [i32]) -> bool {
    let (mut from, mut bad) = (0, false);
    for (to, q) in BANDS {
        let shift = quant[q] - 1;
        for v in &mut list[from..to] {
            *v = (*v + (1 << (shift - 1))) >> shift;
            bad |= outside(*v << shift);
        }
        from = to;
    }
    let mut last = 0;
    for v in &mut list[4032..] {
        let difference = *v - last;
        last = *v;
        *v = difference;
        bad |= outside(difference);
    }
    bad
}

/// What is written: the picture's size and mode, its quantisers and its pixels.
struct Picture<'a> {
    size: Size,
    quant: &'a [u8; 10],
    pixels: &'a [u8],
}

impl Picture<'_> {
    fn tiles(&self) -> impl Iterator<Item = (usize, usize)> {
        let (columns, rows) = (self.size.width.div_ceil(TILE), self.size.height.div_ceil(TILE));
        (0..rows).flat_map(move |y| (0..columns).map(move |x| (x, y)))
    }

    /// The list of a component; true where it is out of range.
    fn component(&self, tile: (usize, usize), c: usize, list: &mut [i32], sheet: &mut [i32]) -> bool {
        load(self.size, self.pixels, tile, c, list);
        tile_forth(list, sheet);
        round(self.quant, list)
    }

    fn measure(&self, list: &mut [i32], sheet: &mut [i32]) -> Result<usize, u8> {
        let mut total = 0;
        for tile in self.tiles() {
            total += 19;
            for c in 0..3 {
                if self.component(tile, c, list, sheet) {
                    return Err(RANGE);
                }
                let mut count = Count(0);
                code(self.size.mode, list, &mut count);
                let bytes = count.0.div_ceil(8);
                if bytes > 65535 {
                    return Err(TOO_BIG);
                }
                total += bytes;
            }
        }
        Ok(total)
    }

    /// The tiles at a place of the output, which has room for them; the place past them.
    fn write(&self, list: &mut [i32], sheet: &mut [i32], out: &mut [u8], mut at: usize) -> usize {
        for tile in self.tiles() {
            let from = at;
            at += 19;
            out[from..at].fill(0);
            put16(out, from, 0xCAC3);
            put16(out, from + 9, tile.0);
            put16(out, from + 11, tile.1);
            for c in 0..3 {
                self.component(tile, c, list, sheet);
                let mut slot = Slot { out, at, acc: 0, n: 0 };
                code(self.size.mode, list, &mut slot);
                let end = slot.end();
                put16(out, from + 13 + 2 * c, end - at);
                at = end;
            }
            put32(out, from + 2, at - from);
        }
        at
    }
}

fn put16(out: &mut [u8], at: usize, v: usize) {
    out[at..at + 2].copy_from_slice(&(v as u16).to_le_bytes());
}

fn put32(out: &mut [u8], at: usize, v: usize) {
    out[at..at + 4].copy_from_slice(&(v as u32).to_le_bytes());
}

/// All of a frame before its tiles, with so many tiles in so many bytes.
fn front_of(p: &Picture, index: u32, tiles: usize, bytes: usize) -> [u8; 64] {
    let mut m = [0; 64];
    for (at, v) in [(0, 0xCCC4), (6, 1), (12, 1), (14, 0xCCC6), (20, 1), (23, 1), (29, p.size.width), (31, p.size.height), (33, 0xCAC1), (35, 1)] {
        put16(&mut m, at, v);
    }
    let properties = 1 | 1 << 4 | 1 << 6 | usize::from(p.size.mode) << 10 | 1 << 14;
    for (at, v) in [(37, 0xCCC7), (43, 1), (45, 0xCAC2), (49, properties), (53, tiles)] {
        put16(&mut m, at, v);
    }
    for (at, v) in [(2, 14), (8, index as usize), (16, 23), (39, 27 + bytes), (55, bytes)] {
        put32(&mut m, at, v);
    }
    m[22] = 1;
    m[51] = 1;
    m[52] = 64;
    for (byte, pair) in m[59..].iter_mut().zip(p.quant.chunks_exact(2)) {
        *byte = pair[0] | pair[1] << 4;
    }
    m
}

fn both_writing_passes(p: &Picture, index: u32, list: &mut [i32], sheet: &mut [i32], out: &mut [u8]) -> Result<usize, u8> {
    let bytes = p.measure(list, sheet)?;
    if out.len() < 72 + bytes {
        return Err(ROOM);
    }
    out[..64].copy_from_slice(&front_of(p, index, p.tiles().count(), bytes));
    let at = p.write(list, sheet, out, 64);
    out[at..at + 8].copy_from_slice(&[0xC5, 0xCC, 8, 0, 0, 0, 1, 0]);
    Ok(at + 8)
}

/// The frame writer as the product has it: measured whole, then made again and written; no memory but what is lent.
pub fn write_frame(size: Size, quant: &[u8; 10], index: u32, pixels: &[u8], list: &mut [i32], sheet: &mut [i32], out: &mut [u8]) -> (u8, usize) {
    if !(1..=4096).contains(&size.width) || !(1..=2048).contains(&size.height) || size.mode != 1 && size.mode != 4 {
        return (FIELD, 0);
    }
    if quant.iter().any(|q| !(6..=15).contains(q)) {
        return (QUANT, 0);
    }
    if pixels.len() != 3 * size.width * size.height || list.len() != PLACES || sheet.len() != PLACES {
        return (BUFFER, 0);
    }
    let answer = both_writing_passes(&Picture { size, quant, pixels }, index, list, sheet, out);
    list.fill(0);
    sheet.fill(0);
    match answer {
        Ok(bytes) => (0, bytes),
        Err(number) => (number, 0),
    }
}
