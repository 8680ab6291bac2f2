//! What firmware without an allocator links (`default-features = false`): frames gathered and read, on both glasses, and written, in lent memory alone. The test program
//! itself has std; the crate has not.
use xurbalenz::{
    check_plan, edge, header_blocks, make_plan_into, read_component, read_frame, read_frame_32, read_header, tiles, write_component_into,
    write_frame_into, write_frame_sets_into, write_frame_short_into, write_headers_into, Ack, Collector, Glass, Message, Mode, Quant, Reader,
    Refusal, Session, Settings, ACK_SIZE, HEADERS_SIZE, LIST, SETTINGS_SIZE,
};

const W: usize = 70;
const H: usize = 40;

fn picture(seed: usize) -> [u8; 3 * W * H] {
    std::array::from_fn(|i| ((i * i) >> seed) as u8)
}

/// The four headers and a frame, one behind the other, in a lent buffer: how many bytes.
fn stream(out: &mut [u8], pixels: &[u8]) -> Result<usize, Refusal> {
    let (mut list, mut scratch) = ([0; LIST], [0; LIST]);
    let head = write_headers_into(W, H, Mode::Rlgr3, out)?;
    let size = write_frame_into(W, H, Mode::Rlgr3, Quant::DEFAULT, 7, pixels, &mut list, &mut scratch, &mut out[head..])?;
    Ok(head + size)
}

#[test]
fn a_stream_in_pieces_on_both_glasses() -> Result<(), Refusal> {
    let (mut bytes, mut store) = ([0; 20_000], [0; 20_000]);
    let n = stream(&mut bytes, &picture(5))?;
    let (mut narrow, mut wide) = ([0_u16; W * H], [0_u32; W * H]);
    let [mut y, mut cb, mut cr, mut scratch] = [[0; LIST]; 4];
    let (mut sixteen, mut thirty_two) = (Session::open(Glass::Bits16), Session::open(Glass::Bits32));
    let mut collector = Collector::over(&mut store[..]);
    for piece in bytes[..n].chunks(1460) {
        collector.feed(piece, |message| match message {
            Message::Header(block) => {
                assert_eq!((read_header(&mut sixteen, block), read_header(&mut thirty_two, block)), (Ok(()), Ok(())));
            }
            Message::Frame(frame) => {
                assert_eq!(read_frame(&mut sixteen, frame, &mut narrow, &mut y, &mut cb, &mut cr, &mut scratch), Ok(2));
                assert_eq!(read_frame_32(&mut thirty_two, frame, &mut wide, &mut y, &mut cb, &mut cr, &mut scratch), Ok(2));
            }
        })?;
    }
    assert_eq!(collector.held(), 0);
    for (n, w) in narrow.iter().zip(wide) {
        assert_eq!(*n as u32, w >> 8 & 0xF800 | w >> 5 & 0x07E0 | w >> 3 & 0x001F);
    }
    collector.reset();
    assert_eq!(collector.feed(&[1, 2, 3, 4, 5, 6], |_| ()), Err(Refusal::Kind));
    Ok(())
}

#[test]
fn only_what_changed() -> Result<(), Refusal> {
    let (old, mut new) = (picture(5), picture(5));
    new[3 * 65] ^= 0x80; // a pixel of the second tile
    let settings = Settings { luma: Quant::DEFAULT, chroma: Quant::FINEST, mode: Mode::Rlgr1 };
    let (mut picks, mut list, mut scratch, mut full, mut short) = ([7; 2], [0; LIST], [0; LIST], [0; 20_000], [0; 20_000]);
    assert_eq!((tiles(W, H), make_plan_into(W, H, &old, &new, &mut picks)?, picks), (2, 1, [1, 7]));
    assert_eq!(check_plan(W, H, &old, &new, &picks[..1]), Ok(()));
    assert_eq!(check_plan(W, H, &old, &new, &[]), Err(Refusal::TileMissing));
    let all = write_frame_sets_into(W, H, &settings, 0, &new, &mut list, &mut scratch, &mut full)?;
    let one = write_frame_short_into(W, H, &settings, 0, &old, &new, &picks[..1], &mut list, &mut scratch, &mut short)?;
    assert!(one < all);
    let both = write_frame_short_into(W, H, &settings, 0, &old, &new, &[0, 1], &mut list, &mut scratch, &mut short)?;
    assert_eq!(short[..both], full[..all]);
    Ok(())
}

#[test]
fn the_rest() -> Result<(), Refusal> {
    let (mut code, mut list) = ([0; 10], [0; LIST]);
    list[0] = -1;
    let size = write_component_into(Mode::Rlgr1, &list, &mut code)?;
    let mut back = [7; LIST];
    assert_eq!((read_component(Mode::Rlgr1, &code[..size], &mut back).map_err(Refusal::from)?, back), (28, list));
    let mut headers = [0; HEADERS_SIZE];
    write_headers_into(W, H, Mode::Rlgr1, &mut headers)?;
    assert_eq!(header_blocks(&headers).count(), 4);
    let kept = Settings { luma: Quant::DEFAULT, chroma: Quant::FINEST, mode: Mode::Rlgr3 };
    let mut bytes = [0; SETTINGS_SIZE];
    let size = kept.write_into(&mut bytes)?;
    assert_eq!(Settings::read(Reader::Version2, &bytes[..size]), Ok(kept));
    let (ack, mut bytes) = (Ack { version: 1, frame: 7, ..Ack::default() }, [0; ACK_SIZE]);
    ack.write_into(&mut bytes)?;
    assert_eq!(Ack::read(&bytes), Ok(ack));
    assert_eq!(edge::version() as usize, 10_000 * part(0) + 100 * part(1) + part(2));
    Ok(())
}

/// A part of the crate's version.
fn part(k: usize) -> usize {
    env!("CARGO_PKG_VERSION").split('.').nth(k).and_then(|n| n.parse().ok()).expect("three numbers")
}
