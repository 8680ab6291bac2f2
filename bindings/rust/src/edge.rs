//! The calls as the archive has them, with slices for pointers and lengths: the answer is the number (0 done, any other refused) and the
//! value that goes with it.
//!
//! Everything here is safe. A Rust slice has what the archive asks of a pointer (never null, aligned, all there, no overlap with what is
//! lent `&mut`), and for any such memory every call is proved to answer. The functions at the crate's root give the same answers as types.
//!
//! ```
//! let mut list = [7; 4096];
//! assert_eq!(xurbalenz::edge::read_component(1, &[0, 0, 0], &mut list), (0, 21));
//! assert_eq!(xurbalenz::edge::read_component(2, &[0, 0, 0], &mut list), (5, 0)); // no such mode
//! ```

use crate::Session;

/// A length, as the archive has it: 64 bits on every machine, as in the proofs. (The calls here take and give `usize`.)
#[cfg(target_pointer_width = "64")]
pub type Size = usize;
/// A length, as the archive has it: 64 bits on every machine, as in the proofs. (The calls here take and give `usize`.)
#[cfg(not(target_pointer_width = "64"))]
pub type Size = u64;

/// The archive's own functions, as in `bindings/c/xurbalenz.h`. `tools/edge` holds them, and the safe calls below, to what the archive exports.
mod archive {
    use super::{Collector, Size};
    use crate::Session;

    extern "C" {
        pub fn xurbalenz_read_header(s: *mut Session, message: *const u8, message_len: Size) -> u8;
        pub fn xurbalenz_read_frame(
            s: *mut Session,
            message: *const u8,
            message_len: Size,
            picture: *mut u16,
            picture_len: Size,
            y: *mut i32,
            y_len: Size,
            cb: *mut i32,
            cb_len: Size,
            cr: *mut i32,
            cr_len: Size,
            scratch: *mut i32,
            scratch_len: Size,
            tiles: *mut Size,
        ) -> u8;
        pub fn xurbalenz_read_frame_32(
            s: *mut Session,
            message: *const u8,
            message_len: Size,
            picture: *mut u32,
            picture_len: Size,
            y: *mut i32,
            y_len: Size,
            cb: *mut i32,
            cb_len: Size,
            cr: *mut i32,
            cr_len: Size,
            scratch: *mut i32,
            scratch_len: Size,
            tiles: *mut Size,
        ) -> u8;
        pub fn xurbalenz_read_component(mode: u8, code: *const u8, code_len: Size, list: *mut i32, list_len: Size, bits: *mut Size) -> u8;
        pub fn xurbalenz_write_component(mode: u8, list: *const i32, list_len: Size, out: *mut u8, out_len: Size, size: *mut Size) -> u8;
        pub fn xurbalenz_write_headers(width: Size, height: Size, mode: u8, out: *mut u8, out_len: Size, size: *mut Size) -> u8;
        pub fn xurbalenz_write_frame(
            width: Size,
            height: Size,
            mode: u8,
            quant: *const [u8; 10],
            index: u32,
            pixels: *const u8,
            pixels_len: Size,
            list: *mut i32,
            list_len: Size,
            scratch: *mut i32,
            scratch_len: Size,
            out: *mut u8,
            out_len: Size,
            size: *mut Size,
        ) -> u8;
        pub fn xurbalenz_collect(
            c: *mut Collector,
            bytes: *const u8,
            bytes_len: Size,
            store: *mut u8,
            store_len: Size,
            call: *mut u8,
            size: *mut Size,
            taken: *mut Size,
        ) -> u8;
        pub fn xurbalenz_collect_reset(c: *mut Collector);
        pub fn xurbalenz_record_16() -> u8;
        pub fn xurbalenz_collector_32() -> u8;
        pub fn xurbalenz_version() -> u32;
        pub fn xurbalenz_check_plan(
            width: Size,
            height: Size,
            old: *const u8,
            old_len: Size,
            next: *const u8,
            next_len: Size,
            picks: *const u32,
            picks_len: Size,
        ) -> u8;
        pub fn xurbalenz_make_plan(
            width: Size,
            height: Size,
            old: *const u8,
            old_len: Size,
            next: *const u8,
            next_len: Size,
            picks: *mut u32,
            picks_len: Size,
            count: *mut Size,
        ) -> u8;
        pub fn xurbalenz_write_frame_short(
            width: Size,
            height: Size,
            mode: u8,
            luma: *const [u8; 10],
            chroma: *const [u8; 10],
            index: u32,
            old: *const u8,
            old_len: Size,
            next: *const u8,
            next_len: Size,
            picks: *const u32,
            picks_len: Size,
            list: *mut i32,
            list_len: Size,
            scratch: *mut i32,
            scratch_len: Size,
            out: *mut u8,
            out_len: Size,
            size: *mut Size,
        ) -> u8;
        pub fn xurbalenz_count_tiles(
            width: Size,
            height: Size,
            old: *const u16,
            old_len: Size,
            next: *const u16,
            next_len: Size,
            counts: *mut u32,
            counts_len: Size,
        ) -> u8;
        pub fn xurbalenz_count_tiles_32(
            width: Size,
            height: Size,
            old: *const u32,
            old_len: Size,
            next: *const u32,
            next_len: Size,
            counts: *mut u32,
            counts_len: Size,
        ) -> u8;
        pub fn xurbalenz_next_tile(
            width: Size,
            height: Size,
            counts: *const u32,
            counts_len: Size,
            from: Size,
            tile: *mut Size,
            x: *mut Size,
            y: *mut Size,
            n: *mut u32,
        ) -> u8;
        pub fn xurbalenz_tidy_frame(
            sender: u8,
            width: Size,
            height: Size,
            mode: u8,
            message: *const u8,
            message_len: Size,
            list: *mut i32,
            list_len: Size,
            out: *mut u8,
            out_len: Size,
            told: *mut [Size; 2],
        ) -> u8;
        pub fn xurbalenz_tidy_header(
            held: *mut u8,
            held_len: Size,
            block: *const u8,
            block_len: Size,
            out: *mut u8,
            out_len: Size,
            size: *mut Size,
        ) -> u8;
        pub fn xurbalenz_tidy_flush(held: *mut u8, held_len: Size, out: *mut u8, out_len: Size, size: *mut Size) -> u8;
        pub fn xurbalenz_read_caps(message: *const u8, message_len: Size, flags: *mut u32, n: *mut u8, entries: *mut [u8; 4]) -> u8;
        pub fn xurbalenz_write_caps(flags: u32, n: u8, entries: *const [u8; 4], out: *mut u8, out_len: Size, size: *mut Size) -> u8;
        pub fn xurbalenz_read_ack_cap(message: *const u8, message_len: Size, count: *mut u32) -> u8;
        pub fn xurbalenz_write_ack_cap(count: u32, out: *mut u8, out_len: Size, size: *mut Size) -> u8;
        pub fn xurbalenz_read_ack(message: *const u8, message_len: Size, fields: *mut [u32; 9]) -> u8;
        pub fn xurbalenz_write_ack(
            version: u16,
            source: u16,
            share: u32,
            pad: u8,
            stream: u8,
            uncompressed: u16,
            compression: u8,
            compressed: u16,
            frame: u32,
            out: *mut u8,
            out_len: Size,
            size: *mut Size,
        ) -> u8;
        pub fn xurbalenz_read_settings(
            newest: u8,
            bytes: *const u8,
            bytes_len: Size,
            luma: *mut [u8; 10],
            chroma: *mut [u8; 10],
            mode: *mut u8,
        ) -> u8;
        pub fn xurbalenz_write_settings(luma: *const [u8; 10], chroma: *const [u8; 10], mode: u8, out: *mut u8, out_len: Size, size: *mut Size)
            -> u8;
        pub fn xurbalenz_write_frame_sets(
            width: Size,
            height: Size,
            mode: u8,
            luma: *const [u8; 10],
            chroma: *const [u8; 10],
            index: u32,
            pixels: *const u8,
            pixels_len: Size,
            list: *mut i32,
            list_len: Size,
            scratch: *mut i32,
            scratch_len: Size,
            out: *mut u8,
            out_len: Size,
            size: *mut Size,
        ) -> u8;
    }
}

/// What the collector keeps from call to call beside its store, as C sees it; [`crate::Collector`] has both. Fresh by `Default`.
#[repr(C)]
#[derive(Clone, Copy, Debug, Default, PartialEq, Eq, Hash)]
pub struct Collector {
    /// How many bytes of the store are gathered.
    pub held: Size,
    /// Where the block under way ends; 0 between blocks.
    pub end: Size,
    /// The bytes of a head that waits, as one number, low byte first.
    pub head: Size,
    /// The refusal that is kept; 0 when none is.
    pub refused: u8,
    /// What is gathered: 0 nothing, 1 a header block, 2 a block alone for the frame call, 3 a frame, 4 a frame, in its end block.
    pub part: u8,
    /// How many bytes of the head are there.
    pub seen: u8,
}

// The archive lays the record out as C does. Its calls are made together with `xurbalenz_collector_32`, so that another layout does not link.
const _: () = {
    use core::mem::{align_of, offset_of, size_of};
    assert!(size_of::<Size>() == 8 && size_of::<Collector>() == 32 && align_of::<Collector>() == 8);
    assert!(offset_of!(Collector, held) == 0 && offset_of!(Collector, end) == 8 && offset_of!(Collector, head) == 16);
    assert!(offset_of!(Collector, refused) == 24 && offset_of!(Collector, part) == 25 && offset_of!(Collector, seen) == 26);
};

// SAFETY, for every call below: each pointer and length come from one Rust reference or slice, so they are not null, aligned, valid for that
// many elements, and what is `&mut` overlaps nothing else. The archive has no state of its own and keeps no pointer. Its functions have no
// precondition and are proved to touch only what is lent.

// The bytes of the archive's record, by the name that carries its layout. Every call that takes the record makes this one too, so that the crate does
// not link with an archive whose record is laid out otherwise.
#[inline]
fn record_16() -> u8 {
    unsafe { archive::xurbalenz_record_16() }
}

// The same of the collector.
#[inline]
fn collector_32() -> u8 {
    unsafe { archive::xurbalenz_collector_32() }
}

/// The version of the archive, 10,000 x major + 100 x minor + patch. Where it is not the crate's, the two were not made together.
///
/// ```
/// let parts: Vec<u32> = env!("CARGO_PKG_VERSION").split('.').map(|n| n.parse().unwrap()).collect();
/// assert_eq!(xurbalenz::edge::version(), 10_000 * parts[0] + 100 * parts[1] + parts[2]);
/// ```
#[inline]
pub fn version() -> u32 {
    unsafe { archive::xurbalenz_version() }
}

/// Reads one header block: the number. Refused, the record is what it was.
#[inline]
pub fn read_header(s: &mut Session, message: &[u8]) -> u8 {
    record_16();
    unsafe { archive::xurbalenz_read_header(s, message.as_ptr(), message.len() as Size) }
}

/// Reads one frame and draws it: the number, and how many tiles it lists (0 when refused). See [`crate::read_frame`].
#[inline]
pub fn read_frame(
    s: &mut Session,
    message: &[u8],
    picture: &mut [u16],
    y: &mut [i32],
    cb: &mut [i32],
    cr: &mut [i32],
    scratch: &mut [i32],
) -> (u8, usize) {
    let mut tiles = 0;
    record_16();
    let number = unsafe {
        archive::xurbalenz_read_frame(
            s,
            message.as_ptr(),
            message.len() as Size,
            picture.as_mut_ptr(),
            picture.len() as Size,
            y.as_mut_ptr(),
            y.len() as Size,
            cb.as_mut_ptr(),
            cb.len() as Size,
            cr.as_mut_ptr(),
            cr.len() as Size,
            scratch.as_mut_ptr(),
            scratch.len() as Size,
            &mut tiles,
        )
    };
    (number, tiles as usize)
}

/// The same into a picture of 32-bit words. See [`crate::read_frame_32`].
#[inline]
pub fn read_frame_32(
    s: &mut Session,
    message: &[u8],
    picture: &mut [u32],
    y: &mut [i32],
    cb: &mut [i32],
    cr: &mut [i32],
    scratch: &mut [i32],
) -> (u8, usize) {
    let mut tiles = 0;
    record_16();
    let number = unsafe {
        archive::xurbalenz_read_frame_32(
            s,
            message.as_ptr(),
            message.len() as Size,
            picture.as_mut_ptr(),
            picture.len() as Size,
            y.as_mut_ptr(),
            y.len() as Size,
            cb.as_mut_ptr(),
            cb.len() as Size,
            cr.as_mut_ptr(),
            cr.len() as Size,
            scratch.as_mut_ptr(),
            scratch.len() as Size,
            &mut tiles,
        )
    };
    (number, tiles as usize)
}

/// Reads one component's code: the number, and the code's length in bits (on 0 and 11, else 0). See [`crate::read_component`].
#[inline]
pub fn read_component(mode: u8, code: &[u8], list: &mut [i32]) -> (u8, usize) {
    let mut bits = 0;
    let number =
        unsafe { archive::xurbalenz_read_component(mode, code.as_ptr(), code.len() as Size, list.as_mut_ptr(), list.len() as Size, &mut bits) };
    (number, bits as usize)
}

/// Writes one component's code: the number, and the bytes written (0 when refused). See [`crate::write_component_into`].
#[inline]
pub fn write_component(mode: u8, list: &[i32], out: &mut [u8]) -> (u8, usize) {
    let mut size = 0;
    let number =
        unsafe { archive::xurbalenz_write_component(mode, list.as_ptr(), list.len() as Size, out.as_mut_ptr(), out.len() as Size, &mut size) };
    (number, size as usize)
}

/// Writes the four header blocks: the number, and the bytes written (0 when refused). See [`crate::write_headers_into`].
#[inline]
pub fn write_headers(width: usize, height: usize, mode: u8, out: &mut [u8]) -> (u8, usize) {
    let mut size = 0;
    let number = unsafe { archive::xurbalenz_write_headers(width as Size, height as Size, mode, out.as_mut_ptr(), out.len() as Size, &mut size) };
    (number, size as usize)
}

/// Writes one frame: the number, and the bytes written (0 when refused). See [`crate::write_frame_into`].
#[allow(clippy::too_many_arguments)] // the archive's own list
#[inline]
pub fn write_frame(
    width: usize,
    height: usize,
    mode: u8,
    quant: &[u8; 10],
    index: u32,
    pixels: &[u8],
    list: &mut [i32],
    scratch: &mut [i32],
    out: &mut [u8],
) -> (u8, usize) {
    let mut size = 0;
    let number = unsafe {
        archive::xurbalenz_write_frame(
            width as Size,
            height as Size,
            mode,
            quant,
            index,
            pixels.as_ptr(),
            pixels.len() as Size,
            list.as_mut_ptr(),
            list.len() as Size,
            scratch.as_mut_ptr(),
            scratch.len() as Size,
            out.as_mut_ptr(),
            out.len() as Size,
            &mut size,
        )
    };
    (number, size as usize)
}

/// Judges a list of the tiles that are to be sent: the number. Tiles are numbered row by row from 0; 16 is a list that does not rise, 8 a number that
/// no tile has, 17 a tile that differs and is not listed.
///
/// ```
/// use xurbalenz::edge::{check_plan, make_plan};
/// let (old, new) = ([9; 3 * 65], [[9; 3 * 64].as_slice(), &[8; 3]].concat()); // 65 pixels in a row: two tiles, and the second differs
/// assert_eq!([&[][..], &[1], &[0, 1], &[1, 1], &[2]].map(|picks| check_plan(65, 1, &old, &new, picks)), [17, 0, 0, 16, 8]);
/// let mut picks = [7; 2];
/// assert_eq!((make_plan(65, 1, &old, &new, &mut picks), picks), ((0, 1), [1, 7]));
/// ```
#[inline]
pub fn check_plan(width: usize, height: usize, old: &[u8], next: &[u8], picks: &[u32]) -> u8 {
    unsafe {
        archive::xurbalenz_check_plan(
            width as Size,
            height as Size,
            old.as_ptr(),
            old.len() as Size,
            next.as_ptr(),
            next.len() as Size,
            picks.as_ptr(),
            picks.len() as Size,
        )
    }
}

/// Lists the tiles that differ: the number, and how many there are (0 when refused). It is the shortest list that [`check_plan`] takes.
#[inline]
pub fn make_plan(width: usize, height: usize, old: &[u8], next: &[u8], picks: &mut [u32]) -> (u8, usize) {
    let mut count = 0;
    let number = unsafe {
        archive::xurbalenz_make_plan(
            width as Size,
            height as Size,
            old.as_ptr(),
            old.len() as Size,
            next.as_ptr(),
            next.len() as Size,
            picks.as_mut_ptr(),
            picks.len() as Size,
            &mut count,
        )
    };
    (number, count as usize)
}

/// Writes one frame of the listed tiles of the new picture: the number, and the bytes written (0 when refused). A glass that shows what a full frame of
/// the old picture gives then shows what a full frame of the new one would give, with the same quantisers, mode and session.
///
/// ```
/// use xurbalenz::{edge::write_frame_short, Quant};
/// let (mut list, mut scratch, mut out) = ([0; 4096], [0; 4096], [0; 100]);
/// let Quant(q) = Quant::DEFAULT;
/// assert_eq!(write_frame_short(1, 1, 1, &q, &q, 0, &[9; 3], &[9; 3], &[], &mut list, &mut scratch, &mut out), (0, 72)); // nothing changed
/// assert_eq!(write_frame_short(1, 1, 1, &q, &q, 0, &[9; 3], &[8; 3], &[], &mut list, &mut scratch, &mut out), (17, 0));
/// ```
#[allow(clippy::too_many_arguments)] // the archive's own list
#[inline]
pub fn write_frame_short(
    width: usize,
    height: usize,
    mode: u8,
    luma: &[u8; 10],
    chroma: &[u8; 10],
    index: u32,
    old: &[u8],
    next: &[u8],
    picks: &[u32],
    list: &mut [i32],
    scratch: &mut [i32],
    out: &mut [u8],
) -> (u8, usize) {
    let mut size = 0;
    let number = unsafe {
        archive::xurbalenz_write_frame_short(
            width as Size,
            height as Size,
            mode,
            luma,
            chroma,
            index,
            old.as_ptr(),
            old.len() as Size,
            next.as_ptr(),
            next.len() as Size,
            picks.as_ptr(),
            picks.len() as Size,
            list.as_mut_ptr(),
            list.len() as Size,
            scratch.as_mut_ptr(),
            scratch.len() as Size,
            out.as_mut_ptr(),
            out.len() as Size,
            &mut size,
        )
    };
    (number, size as usize)
}

/// Passes one frame of another sender on (0 strict, 1 FreeRDP, 2 the encoder of MS-RDPRFX's own sample): the number; `told` is how many bytes to hand on and how
/// many of its codes were changed (both 0 when refused). A frame that the panel accepts goes on byte for byte; one whose only faults are codes that are this
/// sender's own form of a list goes on mended; any other as it came.
///
/// ```
/// use xurbalenz::edge::tidy_frame;
/// let (mut list, mut out, mut told) = ([7; 4096], [0; 3], [9; 2]);
/// assert_eq!((tidy_frame(1, 64, 64, 4, &[1, 2, 3], &mut list, &mut out, &mut told), out, told), (0, [1, 2, 3], [3, 0])); // no frame: as it came
/// assert_eq!((tidy_frame(1, 64, 64, 4, &[1, 2, 3], &mut list, &mut out[..2], &mut told), told), (13, [0, 0]));
/// assert_eq!(tidy_frame(3, 64, 64, 4, &[1, 2, 3], &mut list, &mut out, &mut told), 5); // no sender
/// ```
#[inline]
#[allow(clippy::too_many_arguments)]
pub fn tidy_frame(sender: u8, width: usize, height: usize, mode: u8, message: &[u8], list: &mut [i32], out: &mut [u8], told: &mut [usize; 2]) -> u8 {
    let (answer, told) = (told, &mut [0; 2]);
    let number = unsafe {
        archive::xurbalenz_tidy_frame(
            sender,
            width as Size,
            height as Size,
            mode,
            message.as_ptr(),
            message.len() as Size,
            list.as_mut_ptr(),
            list.len() as Size,
            out.as_mut_ptr(),
            out.len() as Size,
            told,
        )
    };
    *answer = [told[0] as usize, told[1] as usize];
    number
}

/// Gives a header block to the order of the headers: the number, and how many bytes of `out` go on (0 when refused). `held` is 38 bytes, all zeros at first. See
/// [`crate::Tidier`].
///
/// ```
/// use xurbalenz::edge::tidy_header;
/// let (mut held, mut out) = ([0; 38], [0; 38]);
/// assert_eq!((tidy_header(&mut held, &[1, 2, 3], &mut out), &out[..3]), ((0, 3), &[1, 2, 3][..])); // no header: it goes on
/// assert_eq!(tidy_header(&mut held, &[1, 2, 3, 4], &mut out), (13, 0));
/// ```
#[inline]
pub fn tidy_header(held: &mut [u8], block: &[u8], out: &mut [u8]) -> (u8, usize) {
    let mut size = 0;
    let number = unsafe {
        archive::xurbalenz_tidy_header(held.as_mut_ptr(), held.len() as Size, block.as_ptr(), block.len() as Size, out.as_mut_ptr(), out.len() as Size, &mut size)
    };
    (number, size as usize)
}

/// Lets go what waits: the number, and how many bytes of `out` go on (0 when refused).
#[inline]
pub fn tidy_flush(held: &mut [u8], out: &mut [u8]) -> (u8, usize) {
    let mut size = 0;
    let number = unsafe { archive::xurbalenz_tidy_flush(held.as_mut_ptr(), held.len() as Size, out.as_mut_ptr(), out.len() as Size, &mut size) };
    (number, size as usize)
}

/// Counts, tile by tile, the words in which two pictures of one size differ: the number. Counts past the last tile are 0; refused, all are as they were.
///
/// ```
/// use xurbalenz::edge::{count_tiles, count_tiles_32, next_tile};
/// let (old, new, mut counts) = ([7; 66], [[7; 64].as_slice(), &[8, 7]].concat(), [9; 2]); // 66 pixels in a row: two tiles, and a word of the second differs
/// assert_eq!((count_tiles(66, 1, &old, &new, &mut counts), counts), (0, [0, 1]));
/// assert_eq!(next_tile(66, 1, &counts, 0), (0, 1, 1, 0, 1)); // tile 1, in column 1 of row 0, one word
/// assert_eq!(next_tile(66, 1, &counts, 2), (0, 0, 0, 0, 0)); // none
/// assert_eq!(count_tiles_32(66, 1, &[7; 66], &[7; 66], &mut counts[..1]), 13);
/// ```
#[inline]
pub fn count_tiles(width: usize, height: usize, old: &[u16], next: &[u16], counts: &mut [u32]) -> u8 {
    unsafe {
        archive::xurbalenz_count_tiles(width as Size, height as Size, old.as_ptr(), old.len() as Size, next.as_ptr(), next.len() as Size, counts.as_mut_ptr(), counts.len() as Size)
    }
}

/// The same for words of 32 bits.
#[inline]
pub fn count_tiles_32(width: usize, height: usize, old: &[u32], next: &[u32], counts: &mut [u32]) -> u8 {
    unsafe {
        archive::xurbalenz_count_tiles_32(width as Size, height as Size, old.as_ptr(), old.len() as Size, next.as_ptr(), next.len() as Size, counts.as_mut_ptr(), counts.len() as Size)
    }
}

/// The first tile with a count above 0, from tile `from` on: the number; the tile's; its column and row; its count, which is 0 where there is none.
#[inline]
pub fn next_tile(width: usize, height: usize, counts: &[u32], from: usize) -> (u8, usize, usize, usize, u32) {
    let mut tile = 0;
    let mut x = 0;
    let mut y = 0;
    let mut n = 0;
    let number = unsafe { archive::xurbalenz_next_tile(width as Size, height as Size, counts.as_ptr(), counts.len() as Size, from as Size, &mut tile, &mut x, &mut y, &mut n) };
    (number, tile as usize, x as usize, y as usize, n)
}

/// Takes bytes of the stream, up to the end of the first message that is whole: the number; to which call the message goes (1 to the header call,
/// 2 to the frame call, 0 none); how many of the store's first bytes it has; how many bytes were taken. See [`crate::Collector`].
///
/// ```
/// use xurbalenz::edge::{collect, collect_reset, Collector};
/// let (mut c, mut store) = (Collector::default(), [0; 100]);
/// assert_eq!(collect(&mut c, &[0xC0, 0xCC, 7, 0], &mut store), (0, 0, 0, 4)); // waits
/// assert_eq!(collect(&mut c, &[0, 0, 99, 1, 2], &mut store), (0, 1, 7, 3)); // a block for the header call
/// assert_eq!((store[6], c), (99, Collector::default()));
/// assert_eq!(collect(&mut c, &[1, 2, 0, 0, 0, 0], &mut store), (3, 0, 0, 6)); // no such type
/// collect_reset(&mut c);
/// assert_eq!(c, Collector::default());
/// ```
#[inline]
pub fn collect(c: &mut Collector, bytes: &[u8], store: &mut [u8]) -> (u8, u8, usize, usize) {
    let (mut call, mut size, mut taken) = (0, 0, 0);
    collector_32();
    let number = unsafe {
        archive::xurbalenz_collect(c, bytes.as_ptr(), bytes.len() as Size, store.as_mut_ptr(), store.len() as Size, &mut call, &mut size, &mut taken)
    };
    (number, call, size as usize, taken as usize)
}

/// Makes the collector fresh: what was gathered is thrown away, and a refusal forgotten.
#[inline]
pub fn collect_reset(c: &mut Collector) {
    collector_32();
    unsafe { archive::xurbalenz_collect_reset(c) }
}

/// Reads a client capability container: the number, captureFlags, how many entries there are; into `entries` go flags and entropyBits of the first and
/// of the second, 0 0 where there is none. All is 0 when refused. See [`crate::Caps`].
#[inline]
pub fn read_caps(message: &[u8], entries: &mut [u8; 4]) -> (u8, u32, u8) {
    let (mut flags, mut n) = (0, 0);
    let number = unsafe { archive::xurbalenz_read_caps(message.as_ptr(), message.len() as Size, &mut flags, &mut n, entries) };
    (number, flags, n)
}

/// Writes a client capability container: the number, and the bytes written (0 when refused). What stands past `n` entries is ignored.
#[inline]
pub fn write_caps(flags: u32, n: u8, entries: &[u8; 4], out: &mut [u8]) -> (u8, usize) {
    let mut size = 0;
    let number = unsafe { archive::xurbalenz_write_caps(flags, n, entries, out.as_mut_ptr(), out.len() as Size, &mut size) };
    (number, size as usize)
}

/// Reads a frame acknowledge capability: the number, and maxUnacknowledgedFrameCount (0 when refused).
#[inline]
pub fn read_ack_cap(message: &[u8]) -> (u8, u32) {
    let mut count = 0;
    let number = unsafe { archive::xurbalenz_read_ack_cap(message.as_ptr(), message.len() as Size, &mut count) };
    (number, count)
}

/// Writes a frame acknowledge capability: the number, and the bytes written (0 when refused).
#[inline]
pub fn write_ack_cap(count: u32, out: &mut [u8]) -> (u8, usize) {
    let mut size = 0;
    let number = unsafe { archive::xurbalenz_write_ack_cap(count, out.as_mut_ptr(), out.len() as Size, &mut size) };
    (number, size as usize)
}

/// Reads a frame acknowledge message from its shareDataHeader on: the number; into `fields` go its nine numbers in wire order, all 0 when refused. See
/// [`crate::Ack`].
#[inline]
pub fn read_ack(message: &[u8], fields: &mut [u32; 9]) -> u8 {
    unsafe { archive::xurbalenz_read_ack(message.as_ptr(), message.len() as Size, fields) }
}

/// Writes a frame acknowledge message: the number, and the bytes written (0 when refused).
#[allow(clippy::too_many_arguments)] // the archive's own list
#[inline]
pub fn write_ack(
    version: u16,
    source: u16,
    share: u32,
    pad: u8,
    stream: u8,
    uncompressed: u16,
    compression: u8,
    compressed: u16,
    frame: u32,
    out: &mut [u8],
) -> (u8, usize) {
    let mut size = 0;
    let number = unsafe {
        archive::xurbalenz_write_ack(
            version,
            source,
            share,
            pad,
            stream,
            uncompressed,
            compression,
            compressed,
            frame,
            out.as_mut_ptr(),
            out.len() as Size,
            &mut size,
        )
    };
    (number, size as usize)
}

/// Reads settings, for a reader that knows versions up to `newest` (1 or 2): the number and the mode; into `luma` and `chroma` go the quantisers. All is 0
/// when refused. See [`crate::Settings`].
#[inline]
pub fn read_settings(newest: u8, bytes: &[u8], luma: &mut [u8; 10], chroma: &mut [u8; 10]) -> (u8, u8) {
    let mut mode = 0;
    let number = unsafe { archive::xurbalenz_read_settings(newest, bytes.as_ptr(), bytes.len() as Size, luma, chroma, &mut mode) };
    (number, mode)
}

/// Writes settings: the number, and the bytes written (0 when refused). See [`crate::Settings`].
#[inline]
pub fn write_settings(luma: &[u8; 10], chroma: &[u8; 10], mode: u8, out: &mut [u8]) -> (u8, usize) {
    let mut size = 0;
    let number = unsafe { archive::xurbalenz_write_settings(luma, chroma, mode, out.as_mut_ptr(), out.len() as Size, &mut size) };
    (number, size as usize)
}

/// Writes one frame with luma's and chroma's quantisers: the number, and the bytes written (0 when refused). See [`crate::write_frame_sets_into`].
#[allow(clippy::too_many_arguments)] // the archive's own list
#[inline]
pub fn write_frame_sets(
    width: usize,
    height: usize,
    mode: u8,
    luma: &[u8; 10],
    chroma: &[u8; 10],
    index: u32,
    pixels: &[u8],
    list: &mut [i32],
    scratch: &mut [i32],
    out: &mut [u8],
) -> (u8, usize) {
    let mut size = 0;
    let number = unsafe {
        archive::xurbalenz_write_frame_sets(
            width as Size,
            height as Size,
            mode,
            luma,
            chroma,
            index,
            pixels.as_ptr(),
            pixels.len() as Size,
            list.as_mut_ptr(),
            list.len() as Size,
            scratch.as_mut_ptr(),
            scratch.len() as Size,
            out.as_mut_ptr(),
            out.len() as Size,
            &mut size,
        )
    };
    (number, size as usize)
}
