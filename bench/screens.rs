// The benchmark's inputs, the same on every machine: 1,000 component lists and two screens of 1,024 x 768 pixels.
use crate::plain::PLACES;

pub const WIDTH: usize = 1024;
pub const HEIGHT: usize = 768;

pub struct Seed(pub u64);

impl Seed {
    pub fn next(&mut self) -> u64 {
        self.0 ^= self.0 << 13;
        self.0 ^= self.0 >> 7;
        self.0 ^= self.0 << 17;
        self.0
    }

    pub fn below(&mut self, n: u64) -> u64 {
        (self.next() >> 20) % n
    }

    /// Small numbers often, large ones seldom, either sign; none above 225, as the quantiser 6 makes of 8-bit colours. More steps: larger.
    fn around(&mut self, steps: u64) -> i32 {
        let mut m = 1;
        while m < 200 && self.below(steps + 1) != 0 {
            m += 1 + m / 8;
        }
        if self.below(2) == 0 { m as i32 } else { -(m as i32) }
    }
}

// ---- component lists

/// Flat: a few LL3 numbers. Sparse: one place in 40. Dense: nearly every place. Text: bursts in the fine bands, between runs of zeros.
pub fn component(kind: usize, seed: &mut Seed) -> Vec<i32> {
    let mut list = vec![0; PLACES];
    match kind {
        0 => {
            list[4032] = seed.around(60);
            for _ in 0..seed.below(12) {
                list[4033 + seed.below(63) as usize] = seed.around(4);
            }
        }
        1 => {
            for i in 0..PLACES {
                if seed.below(40) == 0 {
                    list[i] = seed.around(if i < 3072 { 2 } else { 6 });
                }
            }
        }
        2 => {
            for i in 0..PLACES {
                if seed.below(8) != 0 {
                    list[i] = seed.around(if i < 3072 { 6 } else { 30 });
                }
            }
        }
        _ => {
            let mut i = 0;
            while i < PLACES {
                i += seed.below(24) as usize;
                for _ in 0..4 + seed.below(12) {
                    if i < PLACES && seed.below(3) != 0 {
                        list[i] = seed.around(14);
                    }
                    i += 1;
                }
            }
        }
    }
    list
}

// ---- screens, three bytes a pixel

/// 0 to 9, A to Z: five columns of seven, low bit on top.
const GLYPHS: [[u8; 5]; 36] = [
    [0x3E, 0x51, 0x49, 0x45, 0x3E], [0x00, 0x42, 0x7F, 0x40, 0x00], [0x42, 0x61, 0x51, 0x49, 0x46], [0x21, 0x41, 0x45, 0x4B, 0x31],
    [0x18, 0x14, 0x12, 0x7F, 0x10], [0x27, 0x45, 0x45, 0x45, 0x39], [0x3C, 0x4A, 0x49, 0x49, 0x30], [0x01, 0x71, 0x09, 0x05, 0x03],
    [0x36, 0x49, 0x49, 0x49, 0x36], [0x06, 0x49, 0x49, 0x29, 0x1E], [0x7E, 0x11, 0x11, 0x11, 0x7E], [0x7F, 0x49, 0x49, 0x49, 0x36],
    [0x3E, 0x41, 0x41, 0x41, 0x22], [0x7F, 0x41, 0x41, 0x22, 0x1C], [0x7F, 0x49, 0x49, 0x49, 0x41], [0x7F, 0x09, 0x09, 0x09, 0x01],
    [0x3E, 0x41, 0x49, 0x49, 0x7A], [0x7F, 0x08, 0x08, 0x08, 0x7F], [0x00, 0x41, 0x7F, 0x41, 0x00], [0x20, 0x40, 0x41, 0x3F, 0x01],
    [0x7F, 0x08, 0x14, 0x22, 0x41], [0x7F, 0x40, 0x40, 0x40, 0x40], [0x7F, 0x02, 0x0C, 0x02, 0x7F], [0x7F, 0x04, 0x08, 0x10, 0x7F],
    [0x3E, 0x41, 0x41, 0x41, 0x3E], [0x7F, 0x09, 0x09, 0x09, 0x06], [0x3E, 0x41, 0x51, 0x21, 0x5E], [0x7F, 0x09, 0x19, 0x29, 0x46],
    [0x46, 0x49, 0x49, 0x49, 0x31], [0x01, 0x01, 0x7F, 0x01, 0x01], [0x3F, 0x40, 0x40, 0x40, 0x3F], [0x1F, 0x20, 0x40, 0x20, 0x1F],
    [0x3F, 0x40, 0x38, 0x40, 0x3F], [0x63, 0x14, 0x08, 0x14, 0x63], [0x07, 0x08, 0x70, 0x08, 0x07], [0x61, 0x51, 0x49, 0x45, 0x43],
];

type Rgb = [u8; 3];

struct Screen {
    bytes: Vec<u8>,
}

impl Screen {
    fn new(c: Rgb) -> Self {
        Screen { bytes: c.repeat(WIDTH * HEIGHT) }
    }

    fn dot(&mut self, x: i32, y: i32, c: Rgb) {
        if (0..WIDTH as i32).contains(&x) && (0..HEIGHT as i32).contains(&y) {
            let at = 3 * (y as usize * WIDTH + x as usize);
            self.bytes[at..at + 3].copy_from_slice(&c);
        }
    }

    fn area(&mut self, x: i32, y: i32, w: i32, h: i32, c: Rgb) {
        for py in y..y + h {
            for px in x..x + w {
                self.dot(px, py, c);
            }
        }
    }

    fn frame(&mut self, x: i32, y: i32, w: i32, h: i32, c: Rgb) {
        self.area(x, y, w, 2, c);
        self.area(x, y + h - 2, w, 2, c);
        self.area(x, y, 2, h, c);
        self.area(x + w - 2, y, 2, h, c);
    }

    fn line(&mut self, x0: i32, y0: i32, x1: i32, y1: i32, c: Rgb) {
        let n = (x1 - x0).abs().max((y1 - y0).abs()).max(1);
        for i in 0..=n {
            self.dot(x0 + (x1 - x0) * i / n, y0 + (y1 - y0) * i / n, c);
        }
    }

    fn text(&mut self, x: i32, y: i32, scale: i32, s: &str, c: Rgb) {
        for (i, b) in s.bytes().enumerate() {
            let glyph = match b {
                b'0'..=b'9' => GLYPHS[usize::from(b - b'0')],
                b'A'..=b'Z' => GLYPHS[usize::from(b - b'A') + 10],
                _ => [0; 5],
            };
            for (cx, column) in glyph.iter().enumerate() {
                for cy in 0..7 {
                    if column >> cy & 1 == 1 {
                        self.area(x + (6 * i as i32 + cx as i32) * scale, y + cy * scale, scale, scale, c);
                    }
                }
            }
        }
    }

    /// A round gauge: a ring, ticks all round, a needle at so many of 256 parts of a turn.
    fn gauge(&mut self, x: i32, y: i32, r: i32, part: u64, c: Rgb) {
        for py in -r..=r {
            for px in -r..=r {
                let d = px * px + py * py;
                if d <= r * r {
                    self.dot(x + px, y + py, if d >= (r - 4) * (r - 4) { c } else { [24, 28, 36] });
                }
            }
        }
        // the circle in 256 parts, by turning a vector a little each time, in whole numbers
        let (mut a, mut b) = (1i64 << 20, 0i64);
        for k in 0..256u64 {
            let to = |f: i64| (x + (a * i64::from(r) * f / 100 >> 20) as i32, y + (b * i64::from(r) * f / 100 >> 20) as i32);
            if k % 16 == 0 {
                let ((px, py), (qx, qy)) = (to(80), to(92));
                self.line(px, py, qx, qy, [200, 200, 200]);
            }
            if k == part {
                let (px, py) = to(75);
                self.line(x, y, px, py, [240, 80, 40]);
                self.line(x + 1, y, px + 1, py, [240, 80, 40]);
            }
            (a, b) = (a - b * 25736 / 1048576, b + a * 25736 / 1048576);
        }
    }
}

/// Flat areas, boxes with a title, gauges, bars, trend lines, labels.
pub fn control_room() -> Vec<u8> {
    let mut seed = Seed(0x9e3779b97f4a7c15);
    let mut s = Screen::new([40, 46, 56]);
    s.area(0, 0, WIDTH as i32, 36, [12, 60, 110]);
    s.text(12, 8, 3, "CABINET 7  WATER WORKS NORTH", [235, 240, 245]);
    s.text(860, 12, 2, "08 41 57", [235, 240, 245]);
    for i in 0..8 {
        let (x, y) = (14 + (i % 4) * 252, 50 + (i / 4) * 210);
        s.area(x, y, 240, 196, [52, 60, 72]);
        s.frame(x, y, 240, 196, [110, 120, 135]);
        s.area(x + 2, y + 2, 236, 20, [70, 82, 100]);
        s.text(x + 8, y + 5, 2, &format!("PUMP {} P{}", i + 1, 100 + seed.below(900)), [235, 240, 245]);
        s.gauge(x + 74, y + 106, 60, seed.below(256), [90, 170, 210]);
        s.text(x + 40, y + 172, 2, &format!("{} BAR", seed.below(100)), [120, 230, 120]);
        for k in 0..4 {
            let full = 20 + seed.below(100) as i32;
            s.area(x + 152 + 20 * k, y + 34, 14, 130, [24, 28, 36]);
            s.area(x + 152 + 20 * k, y + 164 - full, 14, full, if full > 100 { [230, 60, 50] } else { [80, 190, 90] });
            s.text(x + 154 + 20 * k, y + 170, 1, &format!("{}", seed.below(99)), [220, 220, 220]);
        }
    }
    s.area(14, 476, 744, 246, [16, 18, 22]);
    s.frame(14, 476, 744, 246, [110, 120, 135]);
    for k in 1..12 {
        s.line(14 + 62 * k, 478, 14 + 62 * k, 719, [44, 50, 58]);
        s.line(16, 476 + 20 * k, 755, 476 + 20 * k, [44, 50, 58]);
    }
    for (k, c) in [[250, 210, 60], [90, 200, 250], [240, 110, 90]].iter().enumerate() {
        let mut y = 540 + 60 * k as i32;
        for x in 18..754 {
            let to = (y + seed.below(7) as i32 - 3).clamp(482, 716);
            s.line(x, y, x + 1, to, *c);
            y = to;
        }
    }
    s.area(772, 476, 238, 246, [52, 60, 72]);
    s.frame(772, 476, 238, 246, [110, 120, 135]);
    for k in 0..18 {
        let c = if seed.below(4) == 0 { [250, 200, 60] } else { [200, 210, 220] };
        s.text(780, 484 + 13 * k, 1, &format!("{:02} {:02}  VALVE {}  FLOW {} LPM", seed.below(24), seed.below(60), seed.below(64), seed.below(999)), c);
    }
    s.area(0, 732, WIDTH as i32, 36, [30, 34, 42]);
    for k in 0..8 {
        s.area(14 + 126 * k, 738, 112, 24, [70, 82, 100]);
        s.text(24 + 126 * k, 743, 2, ["MENU", "PUMPS", "TREND", "ALARM", "VALVES", "USERS", "HELP", "ACK"][k as usize], [235, 240, 245]);
    }
    s.bytes
}

/// Black words on white, 76 lines.
pub fn text_screen() -> Vec<u8> {
    let mut seed = Seed(0x2545f4914f6cdd1d);
    let mut s = Screen::new([255, 255, 255]);
    for row in 0..76 {
        let mut line = String::new();
        while line.len() < 160 {
            for _ in 0..2 + seed.below(8) {
                line.push(b"ETAOINSHRDLCUMWFGYPBVKJXQZ0123456789"[seed.below(36) as usize] as char);
            }
            line.push(' ');
        }
        s.text(8, 4 + 10 * row, 1, &line[..seed.below(40) as usize + 120], [0, 0, 0]);
    }
    s.bytes
}
