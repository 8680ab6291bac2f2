//! make_streams DIR: writes two streams for `bindings/c/show_stream.c`, one good and one damaged, and beside each the rows that a `Screen` shows
//! after the same messages (5-6-5 words, low byte first, each row filled up to four bytes, as in a BMP).
use std::{env, error::Error, fs, path::Path};
use xurbalenz::{header_blocks, write_frame, write_headers, Mode, Quant, Refusal, Screen};

/// A message, and whether it goes to the header call or the frame call.
enum Message {
    Header(Vec<u8>),
    Frame(Vec<u8>),
}

use Message::{Frame, Header};

fn headers(width: usize, height: usize, mode: Mode) -> Result<Vec<Message>, Refusal> {
    Ok(header_blocks(&write_headers(width, height, mode)?).map(|b| Header(b.to_vec())).collect())
}

/// Colours that run across, with squares in them of a size that moves with the seed.
fn picture(width: usize, height: usize, seed: usize) -> Vec<u8> {
    let pixel = |x: usize, y: usize| match (x / (9 + seed) + y / (9 + seed)) % 3 {
        0 => [(x * 255 / width) as u8, (y * 255 / height) as u8, (40 * seed) as u8],
        1 => [255, (x * 255 / width) as u8, 0],
        _ => [20, 20, (y * 255 / height) as u8],
    };
    (0..width * height).flat_map(|i| pixel(i % width, i / width)).collect()
}

fn frame(width: usize, height: usize, mode: Mode, seed: usize) -> Result<Vec<u8>, Refusal> {
    write_frame(width, height, mode, Quant::DEFAULT, seed as u32, &picture(width, height, seed))
}

/// The same message with one byte changed.
fn with(message: &[u8], at: usize, change: impl Fn(u8) -> u8) -> Vec<u8> {
    let mut m = message.to_vec();
    m[at] = change(m[at]);
    m
}

/// Two sessions one after the other, three frames.
fn good() -> Result<Vec<Message>, Refusal> {
    let mut all = headers(65, 63, Mode::Rlgr1)?;
    all.push(Frame(frame(65, 63, Mode::Rlgr1, 1)?));
    all.extend(headers(200, 100, Mode::Rlgr3)?);
    all.push(Frame(frame(200, 100, Mode::Rlgr3, 2)?));
    all.push(Frame(frame(200, 100, Mode::Rlgr3, 3)?));
    Ok(all)
}

/// A session with a fault in almost every message; the lengths of the blocks stay right, so the stream can be split, but for the last.
fn damaged() -> Result<Vec<Message>, Refusal> {
    let (sync, versions) = {
        let bytes = write_headers(101, 70, Mode::Rlgr1)?;
        (bytes[..12].to_vec(), bytes[12..22].to_vec())
    };
    let (first, next) = (frame(101, 70, Mode::Rlgr1, 4)?, frame(101, 70, Mode::Rlgr1, 5)?);
    let mut all = vec![Frame(first.clone())]; // before its headers
    all.extend(headers(101, 70, Mode::Rlgr1)?);
    all.push(Frame(first));
    all.push(Header(versions)); // not due
    all.push(Header(with(&sync, 6, |b| b ^ 1))); // another magic
    all.push(Header(vec![0xC9, 0xCC, 8, 0, 0, 0, 1, 0])); // no such block
    all.push(Frame(next[14..37].to_vec())); // a region alone
    all.push(Frame(with(&next, 59, |_| 0x65))); // a quantiser of 5
    all.push(Frame(with(&next, 70, |_| 1))); // the second set, of one
    all.push(Frame(with(&next, 73, |_| 2))); // a tile outside the channel
    all.push(Frame(with(&next, 90, |b| b ^ 0x10))); // a bit of the first code
    all.push(Frame(with(&next, next.len() - 1, |_| 1))); // another channel in the frame end
    all.push(Frame(next.clone())); // good: the session stands
    all.push(Frame(next[..next.len() - 3].to_vec())); // cut, and the stream with it
    Ok(all)
}

/// Writes the stream, and the rows that are shown after it.
fn put(dir: &Path, name: &str, messages: &[Message]) -> Result<(), Box<dyn Error>> {
    let (mut stream, mut screen) = (vec![], Screen::new());
    for message in messages {
        match message {
            Header(bytes) => {
                let _ = screen.header(bytes); // a refusal changes nothing
                stream.extend_from_slice(bytes);
            }
            Frame(bytes) => {
                let _ = screen.frame(bytes);
                stream.extend_from_slice(bytes);
            }
        }
    }
    let mut rows = vec![];
    for row in screen.picture().chunks(screen.width()) {
        rows.extend(row.iter().flat_map(|word| word.to_le_bytes()));
        rows.resize(rows.len().next_multiple_of(4), 0);
    }
    fs::write(dir.join(format!("{name}.rfx")), stream)?;
    fs::write(dir.join(format!("{name}.rows")), rows)?;
    Ok(())
}

fn main() -> Result<(), Box<dyn Error>> {
    let dir = env::args_os().nth(1).ok_or("make_streams DIR")?;
    put(Path::new(&dir), "good", &good()?)?;
    put(Path::new(&dir), "damaged", &damaged()?)
}
