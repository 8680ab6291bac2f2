// Frames made to cost: 2,048 tiles and 256 rectangles, put together by hand, each beside the same tiles with one rectangle over all.
use crate::plain::Size;

type Rect = [u16; 4];
/// The three codes of a tile.
pub type Codes = [Vec<u8>; 3];

pub struct Worst {
    pub name: String,
    pub one: Vec<u8>,
    pub many: Vec<u8>,
}

fn le16(out: &mut Vec<u8>, n: usize) {
    out.extend([n as u8, (n >> 8) as u8]);
}

fn le32(out: &mut Vec<u8>, n: usize) {
    le16(out, n & 0xFFFF);
    le16(out, n >> 16);
}

/// A block's head with codecId 1 and channelId 0.
fn head(out: &mut Vec<u8>, kind: usize, size: usize) {
    le16(out, kind);
    le32(out, size);
    out.extend([1, 0]);
}

/// A frame in RLGR1: these rectangles, and tiles at these places, which take the codes in turn.
fn frame(rects: &[Rect], places: &[(usize, usize)], codes: &[Codes]) -> Vec<u8> {
    let mut data = Vec::new();
    for (i, &(x, y)) in places.iter().enumerate() {
        let code = &codes[i % codes.len()];
        le16(&mut data, 0xCAC3);
        le32(&mut data, 19 + code.iter().map(Vec::len).sum::<usize>());
        data.extend([0, 0, 0]);
        le16(&mut data, x);
        le16(&mut data, y);
        code.iter().for_each(|c| le16(&mut data, c.len()));
        code.iter().for_each(|c| data.extend(c));
    }
    let mut out = Vec::new();
    head(&mut out, 0xCCC4, 14);
    le32(&mut out, 0);
    le16(&mut out, 1);
    head(&mut out, 0xCCC6, 15 + 8 * rects.len());
    out.push(1);
    le16(&mut out, rects.len());
    rects.iter().flatten().for_each(|&n| le16(&mut out, n as usize));
    le16(&mut out, 0xCAC1);
    le16(&mut out, 1);
    head(&mut out, 0xCCC7, 27 + data.len());
    le16(&mut out, 0xCAC2);
    le16(&mut out, 0);
    le16(&mut out, 0x4451);
    out.extend([1, 64]);
    le16(&mut out, places.len());
    le32(&mut out, data.len());
    out.extend([0x66, 0x66, 0x77, 0x88, 0x98]);
    out.extend(data);
    head(&mut out, 0xCCC5, 8);
    out
}

/// 256 rectangles on w x h, by eleven rules; most are aimed at the tiles of the first column. The last two hold no row whole, and no two of their rectangles
/// are alike.
pub const RULES: [&str; 11] = [
    "of width 0",
    "of width 1, side by side",
    "of width 1, in one tile",
    "thin rows, over all",
    "thin rows, in one tile",
    "all over all but a column",
    "left and right of a column in turn",
    "of width 0, the last over all but a column",
    "here and there in one tile",
    "each reaching a column further",
    "of width 1, each ending at another row",
];

fn rect(rule: usize, k: u16, w: u16, h: u16) -> Rect {
    match rule {
        0 => [0, 0, 0, h],
        1 => [k * (w / 256), 0, 1, h],
        2 => [k * 5 % 64, 0, 1, h],
        3 => [0, k * (h / 256), w, 1],
        4 => [0, k % 64, w, 1],
        5 => [1, 0, w, h],
        6 if k % 2 == 0 => [0, 0, 31, h],
        6 => [33, 0, w, h],
        7 if k < 255 => [0, 0, 0, h],
        7 => [1, 0, w, h],
        8 => [k * 37 % 61 + 1, k * 11 % 60, k * 7 % 50 + 1, h],
        9 => [k % 60, 0, 1 + k / 60, h],
        _ => [k * 5 % 63, 0, 1, 64 - k % 64],
    }
}

/// So many tiles, over the channel and over again or all in one place, with rectangles by a rule.
pub fn frames(size: Size, tiles: usize, one_place: bool, rule: usize, codes: &[Codes]) -> Worst {
    let (w, h) = (size.width as u16, size.height as u16);
    let cols = size.width.div_ceil(64);
    let all = if one_place { 1 } else { cols * size.height.div_ceil(64) };
    let places: Vec<_> = (0..tiles).map(|i| (i % all % cols, i % all / cols)).collect();
    let many: Vec<_> = (0..256).map(|k| rect(rule, k, w, h)).collect();
    Worst {
        name: format!("tiles {}, rectangles {}", if one_place { "in one place" } else { "over the channel" }, RULES[rule]),
        one: frame(&[[0, 0, w, h]], &places, codes),
        many: frame(&many, &places, codes),
    }
}

/// The codes of a frame's tiles, where it has one rectangle and one quantiser set.
pub fn codes(m: &[u8]) -> Vec<Codes> {
    let (mut at, mut all) = (64, Vec::new());
    let number = |at: usize| m[at] as usize + 256 * m[at + 1] as usize;
    while number(at) == 0xCAC3 {
        let mut from = at + 19;
        let mut part = |k: usize| {
            let to = from + number(at + 13 + 2 * k);
            m[std::mem::replace(&mut from, to)..to].to_vec()
        };
        all.push([part(0), part(1), part(2)]);
        at = from;
    }
    all
}
