//! Settings that a cabinet keeps over a service visit, and frames written with luma's and chroma's own quantisers.

#[cfg(feature = "alloc")]
use crate::{cut_to, in_room, LIST};
use crate::{edge, judged, Mode, Quant, Refusal};
#[cfg(feature = "alloc")]
use alloc::{vec, vec::Vec};

/// An output of this size always has room for settings.
pub const SETTINGS_SIZE: usize = 15;

/// The newest version of settings that a reader knows.
#[derive(Clone, Copy, Debug, PartialEq, Eq, Hash)]
pub enum Reader {
    /// Takes version 1, which has one quantiser set.
    Version1,
    /// Takes version 1 and version 2, which has two.
    Version2,
}

/// The frame writer's quantisers and mode, as records of bytes.
///
/// ```
/// use xurbalenz::{Mode, Quant, Reader, Refusal, Settings};
/// let mut kept = Settings { luma: Quant::DEFAULT, chroma: Quant::DEFAULT, mode: Mode::Rlgr3 };
/// let bytes = kept.bytes()?;
/// assert_eq!(bytes, [0, 1, 0, 1, 0x66, 0x66, 0x77, 0x88, 0x98, 4]); // version 1, one set
/// assert_eq!(Settings::read(Reader::Version1, &bytes), Ok(kept));
/// kept.chroma = Quant([7; 10]);
/// let bytes = kept.bytes()?; // two sets are version 2
/// assert_eq!((bytes.len(), Settings::read(Reader::Version2, &bytes)), (15, Ok(kept)));
/// assert_eq!(Settings::read(Reader::Version1, &bytes), Err(Refusal::VersionNotTaken));
/// assert_eq!(Settings::read(Reader::Version2, &bytes[..3]), Err(Refusal::NoSetting));
/// assert_eq!(Settings::read(Reader::Version2, &[]), Err(Refusal::Cut));
/// # Ok::<(), Refusal>(())
/// ```
#[derive(Clone, Copy, Debug, PartialEq, Eq, Hash)]
pub struct Settings {
    /// The quantisers of Y.
    pub luma: Quant,
    /// Those of Cb and Cr.
    pub chroma: Quant,
    /// The mode of the component code.
    pub mode: Mode,
}

impl Settings {
    /// Reads the records of a store: a version, then settings, of which the last counts. Record by record, each in full before the next: kind (`Kind`), place
    /// (`Order`: the version first, and once), presence (`Cut`, and for an empty store), then its bytes: version (`VersionNotTaken`), quantisers (`Quant`), mode
    /// (`Field`). At the end the version alone is `NoSetting`.
    pub fn read(reader: Reader, bytes: &[u8]) -> Result<Settings, Refusal> {
        let (mut luma, mut chroma) = ([0; 10], [0; 10]);
        let newest = match reader {
            Reader::Version1 => 1,
            Reader::Version2 => 2,
        };
        let (number, mode) = edge::read_settings(newest, bytes, &mut luma, &mut chroma);
        judged(number, ())?;
        // settings that were taken have one of the two modes
        let mode = Mode::of(mode).ok_or(Refusal::Field)?;
        Ok(Settings { luma: Quant(luma), chroma: Quant(chroma), mode })
    }

    /// Writes them into `out`: 10 bytes where luma and chroma are equal, else 15. A bad quantiser is `Quant`, a shorter `out` is `Room`; refused, `out` is
    /// untouched.
    ///
    /// ```
    /// use xurbalenz::{Mode, Quant, Refusal, Settings, SETTINGS_SIZE};
    /// let (settings, mut out) = (Settings { luma: Quant::FINEST, chroma: Quant::DEFAULT, mode: Mode::Rlgr1 }, [7; SETTINGS_SIZE]);
    /// assert_eq!(settings.write_into(&mut out[..14]), Err(Refusal::Room));
    /// assert_eq!((out, settings.write_into(&mut out)), ([7; 15], Ok(15)));
    /// assert_eq!(Settings { chroma: Quant([5; 10]), ..settings }.write_into(&mut out), Err(Refusal::Quant));
    /// ```
    pub fn write_into(&self, out: &mut [u8]) -> Result<usize, Refusal> {
        let (number, size) = edge::write_settings(&self.luma.0, &self.chroma.0, self.mode.number(), out);
        judged(number, size)
    }

    /// Their bytes.
    #[cfg(feature = "alloc")]
    pub fn bytes(&self) -> Result<Vec<u8>, Refusal> {
        let mut out = vec![0; SETTINGS_SIZE];
        let size = self.write_into(&mut out)?;
        Ok(cut_to(out, size))
    }

    /// Writes one frame with these settings. Refused as in [`write_frame_sets_into`], but never by `Room`.
    ///
    /// ```
    /// use xurbalenz::{write_frame, Mode, Quant, Settings};
    /// let pixels = [200; 3 * 70 * 40];
    /// let one = Settings { luma: Quant::DEFAULT, chroma: Quant::DEFAULT, mode: Mode::Rlgr1 };
    /// assert_eq!(one.write_frame(70, 40, 0, &pixels), write_frame(70, 40, Mode::Rlgr1, Quant::DEFAULT, 0, &pixels));
    /// let two = Settings { chroma: Quant::FINEST, ..one };
    /// assert!(two.write_frame(70, 40, 0, &pixels)?.len() > one.write_frame(70, 40, 0, &pixels)?.len());
    /// # Ok::<(), xurbalenz::Refusal>(())
    /// ```
    #[cfg(feature = "alloc")]
    pub fn write_frame(&self, width: usize, height: usize, index: u32, pixels: &[u8]) -> Result<Vec<u8>, Refusal> {
        let (mut list, mut scratch) = (vec![0; LIST], vec![0; LIST]);
        in_room(width, height, |out| write_frame_sets_into(width, height, self, index, pixels, &mut list, &mut scratch, out))
    }
}

/// Writes one frame over the whole channel into `out`, Y by luma's quantisers, Cb and Cr by chroma's: its length in bytes. Where the two are equal it is
/// [`crate::write_frame_into`], byte for byte; else the frame carries two sets. Judged and left as there; `Quant` is a quantiser of either.
///
/// ```
/// use xurbalenz::{write_frame_sets_into, Mode, Quant, Refusal, Settings, LIST};
/// let settings = Settings { luma: Quant::FINEST, chroma: Quant::DEFAULT, mode: Mode::Rlgr3 };
/// let (mut list, mut scratch, mut out) = ([0; LIST], [0; LIST], [0; 1000]);
/// let size = write_frame_sets_into(1, 1, &settings, 7, &[200, 100, 0], &mut list, &mut scratch, &mut out)?;
/// assert_eq!(out[..size], settings.write_frame(1, 1, 7, &[200, 100, 0])?);
/// let bad = Settings { chroma: Quant([16; 10]), ..settings };
/// assert_eq!(bad.write_frame(1, 1, 7, &[200, 100, 0]), Err(Refusal::Quant));
/// # Ok::<(), Refusal>(())
/// ```
#[allow(clippy::too_many_arguments)] // what a frame is made of, and the memory for it
pub fn write_frame_sets_into(
    width: usize,
    height: usize,
    settings: &Settings,
    index: u32,
    pixels: &[u8],
    list: &mut [i32],
    scratch: &mut [i32],
    out: &mut [u8],
) -> Result<usize, Refusal> {
    let Settings { luma, chroma, mode } = settings;
    let (number, size) = edge::write_frame_sets(width, height, mode.number(), &luma.0, &chroma.0, index, pixels, list, scratch, out);
    judged(number, size)
}
