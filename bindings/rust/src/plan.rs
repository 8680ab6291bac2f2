//! Sending only what changed: which tiles of two pictures differ, a list of tiles judged, and a short frame.
//!
//! Tiles are numbered row by row from 0: there are [`tiles`](crate::tiles) of them. Both pictures are of one size, three bytes a pixel, R, G, B, row by row.

use crate::{edge, judged, Refusal, Settings};
#[cfg(feature = "alloc")]
use crate::{in_room, LIST, MAX_HEIGHT, MAX_WIDTH};
#[cfg(feature = "alloc")]
use alloc::{vec, vec::Vec};

/// Judges a list of the tiles that are to be sent, whoever made it. In this order: size (`Field`), either picture's length (`Buffer`), then over the whole list: a
/// number that is not above the one before it (`OutOfOrder`), one that no tile has (`Place`), a tile that differs and is not listed (`TileMissing`).
///
/// ```
/// use xurbalenz::{check_plan, Refusal};
/// let (old, new) = ([9; 3 * 65], [[9; 3 * 64].as_slice(), &[8; 3]].concat()); // 65 pixels in a row: two tiles, and the second differs
/// assert_eq!(check_plan(65, 1, &old, &new, &[1]), Ok(()));
/// assert_eq!(check_plan(65, 1, &old, &new, &[0]), Err(Refusal::TileMissing));
/// assert_eq!(check_plan(65, 1, &old, &new, &[1, 0]), Err(Refusal::OutOfOrder));
/// assert_eq!(check_plan(65, 1, &old, &new, &[1, 2]), Err(Refusal::Place));
/// ```
pub fn check_plan(width: usize, height: usize, old: &[u8], next: &[u8], picks: &[u32]) -> Result<(), Refusal> {
    judged(edge::check_plan(width, height, old, next, picks), ())
}

/// Lists the tiles that differ in `picks`: how many there are. It is the shortest list that [`check_plan`] takes. A list of [`tiles`](crate::tiles) numbers always has
/// room, else `Room`; refused, `picks` is untouched; done, so are the numbers past those listed.
///
/// ```
/// use xurbalenz::{make_plan_into, Refusal};
/// let (old, new, mut picks) = ([9; 3 * 65], [8; 3 * 65], [7; 3]);
/// assert_eq!((make_plan_into(65, 1, &old, &new, &mut picks), picks), (Ok(2), [0, 1, 7]));
/// assert_eq!(make_plan_into(65, 1, &old, &new, &mut picks[..1]), Err(Refusal::Room));
/// ```
pub fn make_plan_into(width: usize, height: usize, old: &[u8], next: &[u8], picks: &mut [u32]) -> Result<usize, Refusal> {
    let (number, count) = edge::make_plan(width, height, old, next, picks);
    judged(number, count)
}

/// The tiles that differ. Refused as in [`make_plan_into`], but never by `Room`.
///
/// ```
/// use xurbalenz::{make_plan, Refusal};
/// assert_eq!(make_plan(65, 1, &[9; 3 * 65], &[9; 3 * 65]), Ok(vec![]));
/// assert_eq!(make_plan(65, 1, &[9; 3 * 65], &[9; 3 * 64]), Err(Refusal::Buffer));
/// ```
#[cfg(feature = "alloc")]
pub fn make_plan(width: usize, height: usize, old: &[u8], next: &[u8]) -> Result<Vec<u32>, Refusal> {
    // a size that is not allowed is refused before room is judged
    let mut picks = vec![0; crate::tiles(width.min(MAX_WIDTH), height.min(MAX_HEIGHT))];
    let count = make_plan_into(width, height, old, next, &mut picks)?;
    picks.truncate(count);
    Ok(picks)
}

/// Writes one frame of the listed tiles of the new picture into `out`: its length in bytes. On a glass that shows what a full frame of the old picture gives, it leaves
/// what a full frame of the new one would give, with the same settings and session.
///
/// Judged in this order: size (`Field`), quantisers (`Quant`), the pictures' and lists' lengths (`Buffer`), the list of tiles as [`check_plan`] does, then `Room`. Refused,
/// `out` is untouched; done, so are the bytes past the length. The work lists are untouched on the first three, and hold only zeros after every other answer.
///
/// ```
/// use xurbalenz::{write_frame_short_into, Mode, Quant, Refusal, Settings, LIST};
/// let settings = Settings { luma: Quant::DEFAULT, chroma: Quant::DEFAULT, mode: Mode::Rlgr1 };
/// let (mut list, mut scratch, mut out) = ([0; LIST], [0; LIST], [0; 100]);
/// let mut short = |new: [u8; 3]| write_frame_short_into(1, 1, &settings, 0, &[9; 3], &new, &[], &mut list, &mut scratch, &mut out);
/// assert_eq!(short([9; 3]), Ok(72)); // nothing changed
/// assert_eq!(short([8; 3]), Err(Refusal::TileMissing));
/// ```
#[allow(clippy::too_many_arguments)] // what a frame is made of, and the memory for it
pub fn write_frame_short_into(
    width: usize,
    height: usize,
    settings: &Settings,
    index: u32,
    old: &[u8],
    next: &[u8],
    picks: &[u32],
    list: &mut [i32],
    scratch: &mut [i32],
    out: &mut [u8],
) -> Result<usize, Refusal> {
    let Settings { luma, chroma, mode } = settings;
    let (number, size) = edge::write_frame_short(width, height, mode.number(), &luma.0, &chroma.0, index, old, next, picks, list, scratch, out);
    judged(number, size)
}

/// Writes one frame of the listed tiles of the new picture. Refused as in [`write_frame_short_into`], but never by `Room`.
///
/// ```
/// use xurbalenz::{make_plan, write_frame, write_frame_short, Mode, Quant, Screen, Settings};
/// let settings = Settings { luma: Quant::DEFAULT, chroma: Quant::DEFAULT, mode: Mode::Rlgr1 };
/// let (old, mut new) = ([200; 3 * 70 * 40], [200; 3 * 70 * 40]);
/// new[3 * 65] = 100; // a pixel of the second tile
/// let mut screen = Screen::new();
/// for block in xurbalenz::header_blocks(&xurbalenz::write_headers(70, 40, Mode::Rlgr1)?) {
///     screen.header(block)?;
/// }
/// screen.frame(&write_frame(70, 40, Mode::Rlgr1, Quant::DEFAULT, 0, &old)?)?;
/// let short = write_frame_short(70, 40, &settings, 1, &old, &new, &make_plan(70, 40, &old, &new)?)?;
/// assert_eq!(screen.frame(&short), Ok(1)); // one tile
/// let shown = screen.picture().to_vec();
/// screen.frame(&write_frame(70, 40, Mode::Rlgr1, Quant::DEFAULT, 2, &new)?)?;
/// assert_eq!(screen.picture(), shown);
/// # Ok::<(), xurbalenz::Refusal>(())
/// ```
#[cfg(feature = "alloc")]
pub fn write_frame_short(
    width: usize,
    height: usize,
    settings: &Settings,
    index: u32,
    old: &[u8],
    next: &[u8],
    picks: &[u32],
) -> Result<Vec<u8>, Refusal> {
    let (mut list, mut scratch) = (vec![0; LIST], vec![0; LIST]);
    in_room(width, height, |out| write_frame_short_into(width, height, settings, index, old, next, picks, &mut list, &mut scratch, out))
}
