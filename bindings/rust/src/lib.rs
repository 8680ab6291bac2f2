//! RemoteFX (MS-RDPRFX) pictures for the door glass of control cabinets: safe Rust over the proved library `libxurbalenz.a`.
//!
//! Any bytes may be handed to any call. A frame is drawn whole, or refused by its first fault, and after a refusal the picture and the
//! session are what they were. Nothing here panics on what comes from the wire.
//!
//! - [`Screen`] owns a session with its picture and work lists: the simplest way to show a stream.
//! - [`Collector`] gathers header blocks and frames from a network card's bytes, however these are cut, and hands each on whole.
//! - [`read_header`], [`read_frame`], [`read_frame_32`], [`read_component`] work in memory that you lend; they allocate nothing.
//! - [`write_headers`], [`write_component`], [`write_frame`] return what they wrote; `.._into` write into memory that you lend.
//! - [`Caps`], [`Ack`], [`read_ack_cap`] and [`write_ack_cap_into`] read and write what a client says it can do, and which frames it has shown.
//! - [`Settings`] are the quantisers and the mode that a cabinet keeps, from and to bytes; they write frames with luma's and chroma's own quantisers.
//! - [`make_plan`], [`check_plan`] and [`write_frame_short`] send only the tiles that changed.
//! - [`edge`] has the calls with plain numbers, as C sees them.
//!
//! The crate needs neither std nor any other crate, but `alloc` for [`Screen`], [`Caps`], a [`Collector`] that owns its store, and the writers that return a `Vec`. These
//! are the feature `alloc`, which is there unless `default-features = false` is said: firmware without an allocator links all else, in memory that it lends.
//!
//! It links `target/staticlib/libxurbalenz.a` of the repository (make it with `tools/archive`; for Arm `tools/archive --target NAME`), or the one in the folder
//! `XURBALENZ_LIB_DIR`. That archive needs `memcpy` and `memset` (on 32-bit Arm their like, and libgcc's division), 2,048 bytes of stack, and nothing else.
//!
//! ```
//! use xurbalenz::{read_component, write_component, Mode};
//!
//! // One list has one code, in both modes; what is written is read back.
//! let mut list = [0; 4096];
//! list[0] = -1;
//! let code = write_component(Mode::Rlgr1, &list)?;
//! assert_eq!(code, [0xA0, 0, 0, 0]);
//!
//! let mut back = [7; 4096];
//! assert_eq!(read_component(Mode::Rlgr1, &code, &mut back)?, 28); // bits
//! assert_eq!(back, list);
//! # Ok::<(), xurbalenz::Refusal>(())
//! ```
#![no_std]
#![warn(missing_docs)]

#[cfg(feature = "alloc")]
extern crate alloc;

mod capabilities;
mod collector;
pub mod edge;
mod plan;
mod refusal;
#[cfg(feature = "alloc")]
mod screen;
mod settings;

#[cfg(feature = "alloc")]
use alloc::{vec, vec::Vec};

pub use capabilities::{read_ack_cap, write_ack_cap_into, Ack, ACK_CAP_SIZE, ACK_SIZE};
#[cfg(feature = "alloc")]
pub use capabilities::{Caps, CapsEntry};
pub use collector::{Collector, Message, Store};
pub use plan::{check_plan, make_plan_into, write_frame_short_into};
#[cfg(feature = "alloc")]
pub use plan::{make_plan, write_frame_short};
pub use refusal::{CodeRefusal, Refusal};
#[cfg(feature = "alloc")]
pub use screen::{Screen, Word};
pub use settings::{write_frame_sets_into, Reader, Settings, SETTINGS_SIZE};

/// Numbers in every component list and work list: a tile of 64 x 64.
pub const LIST: usize = 4096;
/// The widest channel.
pub const MAX_WIDTH: usize = 4096;
/// The highest channel.
pub const MAX_HEIGHT: usize = 2048;
/// Bytes of the four header blocks.
pub const HEADERS_SIZE: usize = 47;
/// The most bytes that a component's code may have.
pub const MAX_COMPONENT: usize = 65_535;
/// Bytes of stack with which every call of the archive runs, its arguments counted in.
pub const STACK: usize = 2048;

/// The two modes of the component code.
///
/// ```
/// use xurbalenz::Mode;
/// assert_eq!((Mode::Rlgr3.number(), Mode::of(4), Mode::of(2)), (4, Some(Mode::Rlgr3), None));
/// ```
#[derive(Clone, Copy, Debug, PartialEq, Eq, Hash)]
pub enum Mode {
    /// et = 1
    Rlgr1,
    /// et = 4
    Rlgr3,
}

impl Mode {
    /// The number that stands for it in headers and in the record: 1 or 4.
    pub const fn number(self) -> u8 {
        match self {
            Mode::Rlgr1 => 1,
            Mode::Rlgr3 => 4,
        }
    }

    /// The mode of a number, if it is one of the two.
    pub const fn of(number: u8) -> Option<Mode> {
        match number {
            1 => Some(Mode::Rlgr1),
            4 => Some(Mode::Rlgr3),
            _ => None,
        }
    }
}

/// A quantiser set: ten values, each 6 (finest) to 15 (coarsest), for the bands LL3, LH3, HL3, HH3, LH2, HL2, HH2, LH1, HL1, HH1 in this order
/// (in each level LH comes before HL). A value outside is answered [`Refusal::Quant`].
///
/// ```
/// use xurbalenz::{write_frame, Mode, Quant, Refusal};
/// let (pixel, mut quant) = ([9, 99, 199], Quant::FINEST);
/// assert!(write_frame(1, 1, Mode::Rlgr1, quant, 0, &pixel).is_ok());
/// quant.0[9] = 16; // HH1
/// assert_eq!(write_frame(1, 1, Mode::Rlgr1, quant, 0, &pixel), Err(Refusal::Quant));
/// ```
#[derive(Clone, Copy, Debug, PartialEq, Eq, Hash)]
pub struct Quant(pub [u8; 10]);

impl Quant {
    /// The set that servers commonly send.
    pub const DEFAULT: Quant = Quant([6, 6, 6, 6, 7, 7, 8, 8, 8, 9]);
    /// The finest set: closest colours, longest frames.
    pub const FINEST: Quant = Quant([6; 10]);
}

impl Default for Quant {
    fn default() -> Quant {
        Quant::DEFAULT
    }
}

/// The session's record: how many headers are in, the channel's size, the mode, and what follows from the size. Fresh by `Default`; only a done
/// header changes it.
///
/// ```
/// use xurbalenz::{read_header, Session};
/// let mut session = Session::default();
/// read_header(&mut session, &[0xC0, 0xCC, 12, 0, 0, 0, 0xCA, 0xAC, 0xCC, 0xCA, 0, 1])?; // sync
/// assert_eq!(session.headers(), 1);
/// # Ok::<(), xurbalenz::Refusal>(())
/// ```
#[repr(C)]
#[derive(Clone, Copy, Debug, Default, PartialEq, Eq, Hash)]
pub struct Session {
    headers: u8,
    mode: u8,
    width: u16,
    height: u16,
    columns: u8,
    rows: u8,
    words: u32,
    glass: u8,
}

// The archive lays the record out as C does. Its calls are made together with `xurbalenz_record_16`, so that another layout does not link.
const _: () = {
    use core::mem::{align_of, offset_of, size_of};
    assert!(size_of::<Session>() == 16 && align_of::<Session>() == 4);
    assert!(offset_of!(Session, headers) == 0 && offset_of!(Session, mode) == 1 && offset_of!(Session, width) == 2);
    assert!(offset_of!(Session, height) == 4 && offset_of!(Session, columns) == 6 && offset_of!(Session, rows) == 7);
    assert!(offset_of!(Session, words) == 8 && offset_of!(Session, glass) == 12);
};

/// The size of a picture's words, which a session is opened for.
#[derive(Clone, Copy, Debug, Default, PartialEq, Eq)]
#[repr(u8)]
pub enum Glass {
    /// 5-6-5 words: [`read_frame`].
    #[default]
    Bits16 = 0,
    /// Words of three bytes, red highest: [`read_frame_32`].
    Bits32 = 1,
}

impl Session {
    /// A fresh session for a glass; a sync keeps it.
    pub const fn open(glass: Glass) -> Session {
        Session { headers: 0, mode: 0, width: 0, height: 0, columns: 0, rows: 0, words: 0, glass: glass as u8 }
    }

    /// The same record for another glass.
    pub const fn on(self, glass: Glass) -> Session {
        Session { glass: glass as u8, ..self }
    }

    /// The glass; none where the record has a number that is neither.
    pub const fn glass(self) -> Option<Glass> {
        match self.glass {
            0 => Some(Glass::Bits16),
            1 => Some(Glass::Bits32),
            _ => None,
        }
    }

    /// A record that was kept somewhere, by its four numbers; the others are worked out from them. One that no calls could have made is answered
    /// [`Refusal::Order`] wherever a record is judged; a good sync starts it over.
    ///
    /// ```
    /// use xurbalenz::{header_blocks, read_header, write_headers, Mode, Refusal, Session};
    /// let headers = write_headers(70, 40, Mode::Rlgr1)?;
    /// let blocks: Vec<&[u8]> = header_blocks(&headers).collect();
    /// let mut session = Session::of_numbers(2, 0, 0, 0); // sync and versions are in
    /// read_header(&mut session, blocks[2])?;
    /// assert_eq!(session.numbers(), (3, 70, 40, 0));
    /// let mut stray = Session::of_numbers(2, 70, 0, 0); // a width before the channels header
    /// assert_eq!(read_header(&mut stray, blocks[2]), Err(Refusal::Order));
    /// assert_eq!(read_header(&mut stray, blocks[0]), Ok(()));
    /// # Ok::<(), Refusal>(())
    /// ```
    pub const fn of_numbers(headers: u8, width: u16, height: u16, mode: u8) -> Session {
        // A size that is allowed has at most 64 columns and 32 rows.
        let (columns, rows) = (width.div_ceil(64) as u8, height.div_ceil(64) as u8);
        Session { headers, mode, width, height, columns, rows, words: width as u32 * height as u32, glass: 0 }
    }

    /// Its four numbers: headers, width, height, mode.
    pub const fn numbers(self) -> (u8, u16, u16, u8) {
        (self.headers, self.width, self.height, self.mode)
    }

    /// How many headers are in: frames are taken when it is 4.
    pub const fn headers(self) -> u8 {
        self.headers
    }

    /// The channel's width, 0 before the channels header.
    pub const fn width(self) -> u16 {
        self.width
    }

    /// The channel's height, 0 before the channels header.
    pub const fn height(self) -> u16 {
        self.height
    }

    /// Tile columns of the channel, 0 before the channels header.
    pub const fn columns(self) -> u8 {
        self.columns
    }

    /// Tile rows of the channel, 0 before the channels header.
    pub const fn rows(self) -> u8 {
        self.rows
    }

    /// Words of the channel's picture, width x height: 0 before the channels header.
    ///
    /// ```
    /// let session = xurbalenz::Session::of_numbers(3, 70, 40, 0);
    /// assert_eq!((session.columns(), session.rows(), session.words()), (2, 1, 2_800));
    /// ```
    pub const fn words(self) -> u32 {
        self.words
    }

    /// The mode, none before the context header.
    pub const fn mode(self) -> Option<Mode> {
        Mode::of(self.mode)
    }
}

// What a number says: done, or which refusal. Every number has an answer.
fn judged<T>(number: u8, value: T) -> Result<T, Refusal> {
    match Refusal::of(number) {
        None => Ok(value),
        Some(refusal) => Err(refusal),
    }
}

/// Reads one header block, which is the whole message: sync, versions, channels, context in this order; a good sync starts the session over.
///
/// Judged in this order: head of 6 bytes (`Cut`), type (`Kind`), due (`Order`), blockLen (`Length`), whole block there (`Cut`), fields in wire
/// order (`Field`), bytes after it (`Length`). Refused, the record is what it was.
///
/// ```
/// use xurbalenz::{header_blocks, read_header, write_headers, Mode, Refusal, Session};
/// let headers = write_headers(70, 40, Mode::Rlgr3)?;
/// let mut session = Session::default();
/// assert_eq!(read_header(&mut session, &headers), Err(Refusal::Length)); // one block a call
/// for block in header_blocks(&headers) {
///     read_header(&mut session, block)?;
/// }
/// assert_eq!((session.width(), session.height(), session.mode()), (70, 40, Some(Mode::Rlgr3)));
/// # Ok::<(), Refusal>(())
/// ```
pub fn read_header(session: &mut Session, message: &[u8]) -> Result<(), Refusal> {
    judged(edge::read_header(session, message), ())
}

/// Reads one frame, begin to end, which is the whole message, and draws it into the picture: how many tiles it lists.
///
/// The picture is 5-6-5 words row by row, width words a row, at least width x height of them; words past that never change. `y`, `cb`, `cr` and
/// `scratch` are work lists of 4,096 numbers each; what they hold before does not matter.
///
/// Judged in this order: a record with all four headers (`Order`), lists and picture (`Buffer`), then the blocks in wire order, then tile by
/// tile; `bindings/c/xurbalenz.h` has the order in full. Refused, the picture is what it was. The record is left equal in every case. The
/// work lists are untouched on `Order` and `Buffer`, and hold only zeros after every other answer.
///
/// ```
/// use xurbalenz::{read_frame, write_frame, Mode, Quant, Refusal, Session, LIST};
/// let white = write_frame(70, 40, Mode::Rlgr1, Quant::DEFAULT, 0, &[255; 3 * 70 * 40])?;
/// let mut session = Session::of_numbers(4, 70, 40, 1);
/// let mut picture = [0; 70 * 40];
/// let [mut y, mut cb, mut cr, mut scratch] = [[0; LIST]; 4];
/// let mut show = |message: &[u8]| read_frame(&mut session, message, &mut picture, &mut y, &mut cb, &mut cr, &mut scratch);
/// assert_eq!(show(&white[..white.len() - 1]), Err(Refusal::Cut)); // nothing is drawn
/// assert_eq!(show(&white), Ok(2)); // two tiles
/// assert_eq!(picture, [0xFFFF; 70 * 40]);
/// # Ok::<(), Refusal>(())
/// ```
pub fn read_frame(
    session: &mut Session,
    message: &[u8],
    picture: &mut [u16],
    y: &mut [i32],
    cb: &mut [i32],
    cr: &mut [i32],
    scratch: &mut [i32],
) -> Result<usize, Refusal> {
    let (number, tiles) = edge::read_frame(session, message, picture, y, cb, cr, scratch);
    judged(number, tiles)
}

/// [`read_frame`] on a glass of 32 bits: the picture's words are red x 65,536 + green x 256 + blue. Each of the two refuses a session of the other's glass
/// (`Buffer`).
///
/// ```
/// use xurbalenz::{header_blocks, read_frame_32, read_header, write_frame, write_headers, Glass, Mode, Quant, Refusal, Session, LIST};
/// let red = write_frame(1, 1, Mode::Rlgr1, Quant::DEFAULT, 0, &[255, 0, 0])?;
/// let mut session = Session::open(Glass::Bits32);
/// for block in header_blocks(&write_headers(1, 1, Mode::Rlgr1)?) {
///     read_header(&mut session, block)?;
/// }
/// let mut picture = [0];
/// let [mut y, mut cb, mut cr, mut scratch] = [[0; LIST]; 4];
/// assert_eq!(read_frame_32(&mut session, &red, &mut picture, &mut y, &mut cb, &mut cr, &mut scratch), Ok(1));
/// assert!(picture[0] >> 16 > 250);
/// # Ok::<(), Refusal>(())
/// ```
pub fn read_frame_32(
    session: &mut Session,
    message: &[u8],
    picture: &mut [u32],
    y: &mut [i32],
    cb: &mut [i32],
    cr: &mut [i32],
    scratch: &mut [i32],
) -> Result<usize, Refusal> {
    let (number, tiles) = edge::read_frame_32(session, message, picture, y, cb, cr, scratch);
    judged(number, tiles)
}

/// Reads one component's code into a list of 4,096 numbers: the code's length in bits.
///
/// Judged in this order: the list's length (`Buffer`), a code over 65,535 bytes (`TooBig`), then the code. The list is untouched on those two,
/// and holds only zeros on `Cut`, `Range`, `Overrun`, `Tail`. On `Tail` the error says the code's length too.
///
/// ```
/// use xurbalenz::{read_component, Mode, Refusal};
/// let mut list = [7; 4096];
/// let refused = read_component(Mode::Rlgr3, &[0, 0, 0, 0], &mut list).unwrap_err();
/// assert_eq!((refused.refusal, refused.bits), (Refusal::Tail, 21)); // three bytes hold the code
/// assert_eq!(list, [0; 4096]);
/// ```
pub fn read_component(mode: Mode, code: &[u8], list: &mut [i32]) -> Result<usize, CodeRefusal> {
    let (number, bits) = edge::read_component(mode.number(), code, list);
    judged(number, bits).map_err(|refusal| CodeRefusal { refusal, bits })
}

/// Writes a component's code into `out`: its length in bytes. The list has 4,096 numbers (`Buffer`) from -32,767 to 32,767 (`Range`); a code
/// over 65,535 bytes is `TooBig`, one that `out` cannot hold is `Room`. Refused, `out` is untouched; done, so are the bytes past the length.
///
/// ```
/// use xurbalenz::{write_component_into, Mode, Refusal};
/// let mut out = [7; 4];
/// assert_eq!(write_component_into(Mode::Rlgr3, &[0; 4096], &mut out), Ok(3));
/// assert_eq!(out, [0, 0, 0, 7]);
/// assert_eq!(write_component_into(Mode::Rlgr3, &[0; 4096], &mut out[..2]), Err(Refusal::Room));
/// assert_eq!(write_component_into(Mode::Rlgr3, &[40_000; 4096], &mut out), Err(Refusal::Range));
/// ```
pub fn write_component_into(mode: Mode, list: &[i32], out: &mut [u8]) -> Result<usize, Refusal> {
    let (number, size) = edge::write_component(mode.number(), list, out);
    judged(number, size)
}

/// Writes a component's code: the one code that the list has in this mode. Refused as in [`write_component_into`], but never by `Room`.
#[cfg(feature = "alloc")]
pub fn write_component(mode: Mode, list: &[i32]) -> Result<Vec<u8>, Refusal> {
    let mut out = vec![0; MAX_COMPONENT];
    let size = write_component_into(mode, list, &mut out)?;
    Ok(cut_to(out, size))
}

/// Writes the four header blocks into `out`: 47. A size that is not allowed is `Field`, fewer than 47 bytes is `Room`.
///
/// ```
/// use xurbalenz::{write_headers_into, Mode, Refusal, HEADERS_SIZE};
/// let mut out = [0; HEADERS_SIZE];
/// assert_eq!(write_headers_into(4096, 2048, Mode::Rlgr1, &mut out), Ok(47));
/// assert_eq!(write_headers_into(4097, 1, Mode::Rlgr1, &mut out), Err(Refusal::Field));
/// ```
pub fn write_headers_into(width: usize, height: usize, mode: Mode, out: &mut [u8]) -> Result<usize, Refusal> {
    let (number, size) = edge::write_headers(width, height, mode.number(), out);
    judged(number, size)
}

/// Writes the four header blocks one behind the other; [`header_blocks`] takes them apart for four header calls.
#[cfg(feature = "alloc")]
pub fn write_headers(width: usize, height: usize, mode: Mode) -> Result<Vec<u8>, Refusal> {
    let mut out = vec![0; HEADERS_SIZE];
    let size = write_headers_into(width, height, mode, &mut out)?;
    Ok(cut_to(out, size))
}

/// The blocks of what [`write_headers`] wrote, by their lengths of 12, 10, 12 and 13 bytes. Of bytes that are fewer, the blocks there are.
///
/// ```
/// let headers = xurbalenz::write_headers(70, 40, xurbalenz::Mode::Rlgr1)?;
/// let types: Vec<u8> = xurbalenz::header_blocks(&headers).map(|block| block[0]).collect();
/// assert_eq!(types, [0xC0, 0xC1, 0xC2, 0xC3]);
/// # Ok::<(), xurbalenz::Refusal>(())
/// ```
pub fn header_blocks(headers: &[u8]) -> impl Iterator<Item = &[u8]> {
    let mut rest = headers;
    [12, 10, 12, 13].into_iter().map_while(move |n| {
        let (block, after) = rest.split_at_checked(n)?;
        rest = after;
        Some(block)
    })
}

/// Tiles of a channel: 64 x 64 each, those at the far edges may hang over.
pub const fn tiles(width: usize, height: usize) -> usize {
    width.div_ceil(64).saturating_mul(height.div_ceil(64))
}

/// Bytes with which a frame of this size (within 4,096 x 2,048) always has room: 77 around the tiles, and for each a head of 19 and three
/// codes of at most 65,535. Real frames are far shorter.
///
/// ```
/// assert_eq!((xurbalenz::tiles(70, 40), xurbalenz::frame_room(70, 40)), (2, 77 + 2 * (19 + 3 * 65_535)));
/// ```
pub const fn frame_room(width: usize, height: usize) -> usize {
    tiles(width, height).saturating_mul(19 + 3 * MAX_COMPONENT).saturating_add(77)
}

/// Writes one frame over the whole channel into `out`: its length in bytes.
///
/// `pixels` are three bytes a pixel, R, G, B, row by row; `index` goes into the frame as it is; `list` and `scratch` are work lists of 4,096
/// numbers. Judged in this order: size (`Field`), quantisers (`Quant`), lengths (`Buffer`), then component by component `Range` and `TooBig`,
/// then `Room`. No picture leads to `Range` or `TooBig`; that is proved. Refused, `out` is untouched; done, so are the bytes past the length. The work lists are untouched on `Field`, `Quant` and
/// `Buffer`, and hold only zeros after every other answer.
///
/// ```
/// use xurbalenz::{write_frame_into, Mode, Quant, LIST};
/// let (mut list, mut scratch, mut out) = ([0; LIST], [0; LIST], [0; 1000]);
/// let size = write_frame_into(1, 1, Mode::Rlgr1, Quant::DEFAULT, 7, &[200, 100, 0], &mut list, &mut scratch, &mut out)?;
/// assert_eq!(out[..size], xurbalenz::write_frame(1, 1, Mode::Rlgr1, Quant::DEFAULT, 7, &[200, 100, 0])?);
/// # Ok::<(), xurbalenz::Refusal>(())
/// ```
#[allow(clippy::too_many_arguments)] // what a frame is made of, and the memory for it
pub fn write_frame_into(
    width: usize,
    height: usize,
    mode: Mode,
    quant: Quant,
    index: u32,
    pixels: &[u8],
    list: &mut [i32],
    scratch: &mut [i32],
    out: &mut [u8],
) -> Result<usize, Refusal> {
    let (number, size) = edge::write_frame(width, height, mode.number(), &quant.0, index, pixels, list, scratch, out);
    judged(number, size)
}

/// Writes one frame over the whole channel. Refused as in [`write_frame_into`], but never by `Room`.
///
/// ```
/// use xurbalenz::{write_frame, Mode, Quant, Refusal};
/// let grey = [128; 3 * 64 * 64];
/// let frame = write_frame(64, 64, Mode::Rlgr1, Quant::DEFAULT, 1, &grey)?;
/// assert_eq!(frame[..6], [0xC4, 0xCC, 14, 0, 0, 0]); // frame begin
/// assert_eq!(write_frame(64, 63, Mode::Rlgr1, Quant::DEFAULT, 1, &grey), Err(Refusal::Buffer));
/// # Ok::<(), Refusal>(())
/// ```
#[cfg(feature = "alloc")]
pub fn write_frame(width: usize, height: usize, mode: Mode, quant: Quant, index: u32, pixels: &[u8]) -> Result<Vec<u8>, Refusal> {
    let (mut list, mut scratch) = (vec![0; LIST], vec![0; LIST]);
    in_room(width, height, |out| write_frame_into(width, height, mode, quant, index, pixels, &mut list, &mut scratch, out))
}

/// Who sends: chosen by whoever installs the filter, never guessed from the bytes.
#[derive(Clone, Copy, Debug, PartialEq, Eq)]
pub enum Sender {
    /// Nothing but what the panel takes.
    Strict,
    /// FreeRDP's encoder: one byte 00 behind a code exactly where the code's bits mod 8 are 5, 6 or 7.
    FreeRdp,
    /// The encoder of MS-RDPRFX's own sample: one value -1 more, filled up, and one byte 00.
    Sample,
}

impl Sender {
    /// Its number: 0, 1 or 2.
    pub const fn number(self) -> u8 {
        match self {
            Sender::Strict => 0,
            Sender::FreeRdp => 1,
            Sender::Sample => 2,
        }
    }
}

/// Passes one frame of another sender on: the frame to hand to the panel, and how many of its codes were changed.
///
/// A frame that the panel accepts is passed on byte for byte. One whose only faults are codes that are the sender's own form of a list of numbers has these written
/// again, and shows the decoding of the same numbers. Any other is passed on as it came, to be refused by its number. It is never longer than what came. All of this
/// is proved. That the bytes are those that were sent is the link's to hold.
///
/// ```
/// use xurbalenz::{tidy_frame, write_frame, Mode, Quant, Sender};
/// let mut frame = write_frame(64, 64, Mode::Rlgr3, Quant::DEFAULT, 1, &[128; 3 * 64 * 64])?;
/// assert_eq!(tidy_frame(Sender::FreeRdp, 64, 64, Mode::Rlgr3, &frame), (frame.clone(), 0));
/// frame[12] = 2; // two regions: the panel refuses it
/// assert_eq!(tidy_frame(Sender::FreeRdp, 64, 64, Mode::Rlgr3, &frame), (frame.clone(), 0));
/// # Ok::<(), xurbalenz::Refusal>(())
/// ```
#[cfg(feature = "alloc")]
pub fn tidy_frame(sender: Sender, width: usize, height: usize, mode: Mode, frame: &[u8]) -> (Vec<u8>, usize) {
    let (mut list, mut out, mut told) = (vec![0; LIST], vec![0; frame.len()], [0; 2]);
    edge::tidy_frame(sender.number(), width, height, mode.number(), frame, &mut list, &mut out, &mut told); // sender, list and room are as asked
    out.truncate(told[0]);
    (out, told[1])
}

/// Header blocks put into the panel's order: behind a good sync versions, channels and context wait until all three are there. Nothing is lost.
///
/// ```
/// use xurbalenz::{write_headers, Mode, Tidier};
/// let blocks = write_headers(64, 64, Mode::Rlgr3)?; // sync, versions, channels, context: 12, 10, 12 and 13 bytes
/// let mut tidier = Tidier::new();
/// let mut on = tidier.header(&blocks[..12]);
/// on.extend(tidier.header(&blocks[34..])); // the context too early: it waits
/// on.extend(tidier.header(&blocks[12..22]));
/// on.extend(tidier.header(&blocks[22..34]));
/// assert_eq!((on, tidier.flush()), (blocks.to_vec(), vec![]));
/// # Ok::<(), xurbalenz::Refusal>(())
/// ```
pub struct Tidier {
    held: [u8; 38],
}

impl Default for Tidier {
    fn default() -> Self {
        Self::new()
    }
}

impl Tidier {
    /// Nothing waits.
    pub const fn new() -> Tidier {
        Tidier { held: [0; 38] }
    }

    /// One header block given: the bytes that go on now, which are none or up to four whole blocks.
    #[cfg(feature = "alloc")]
    pub fn header(&mut self, block: &[u8]) -> Vec<u8> {
        let mut out = vec![0; 35 + block.len()];
        let (_, size) = edge::tidy_header(&mut self.held, block, &mut out); // the room is as asked
        out.truncate(size);
        out
    }

    /// What waits, let go: before a frame, and at the end.
    #[cfg(feature = "alloc")]
    pub fn flush(&mut self) -> Vec<u8> {
        let mut out = vec![0; 35];
        let (_, size) = edge::tidy_flush(&mut self.held, &mut out);
        out.truncate(size);
        out
    }
}

// What a frame writer writes, in the room with which it writes at once (with less it measures the frame first). The memory comes zeroed from the system, and what is
// not written is never touched: it costs nothing, and goes back with the cut.
#[cfg(feature = "alloc")]
fn in_room(width: usize, height: usize, write: impl FnOnce(&mut [u8]) -> Result<usize, Refusal>) -> Result<Vec<u8>, Refusal> {
    // A size that is not allowed is refused before room is judged, so any room will do for it.
    let mut out = vec![0; frame_room(width.min(MAX_WIDTH), height.min(MAX_HEIGHT))];
    write(&mut out).map(|size| cut_to(out, size))
}

// What was written, and no memory behind it.
#[cfg(feature = "alloc")]
fn cut_to(mut out: Vec<u8>, size: usize) -> Vec<u8> {
    out.truncate(size);
    out.shrink_to_fit();
    out
}

/// Red, green and blue of a picture's word, 0 to 255 each: the five or six bits, with the high ones repeated below.
///
/// ```
/// assert_eq!(xurbalenz::rgb(0xFFFF), [255, 255, 255]);
/// assert_eq!(xurbalenz::rgb(16 << 11), [132, 0, 0]);
/// ```
pub const fn rgb(word: u16) -> [u8; 3] {
    let (r, g, b) = (word >> 11, word >> 5 & 63, word & 31);
    [(r << 3 | r >> 2) as u8, (g << 2 | g >> 4) as u8, (b << 3 | b >> 2) as u8]
}
