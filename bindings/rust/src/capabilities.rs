//! What a client can do, and which frames it has shown: the capability container, the frame acknowledge capability and the frame acknowledge message.

#[cfg(feature = "alloc")]
use crate::Mode;
use crate::{edge, judged, Refusal};
#[cfg(feature = "alloc")]
use alloc::{vec, vec::Vec};

/// Bytes of a frame acknowledge capability.
pub const ACK_CAP_SIZE: usize = 8;
/// Bytes of a frame acknowledge message, from its shareDataHeader on.
pub const ACK_SIZE: usize = 22;

/// An entry of a capability container: a set of codec properties that a decoder supports.
#[cfg(feature = "alloc")]
#[derive(Clone, Copy, Debug, PartialEq, Eq, Hash)]
pub struct CapsEntry {
    /// Kept and not judged. 2 (CODEC_MODE) says: image mode only.
    pub flags: u8,
    /// The entropy code.
    pub mode: Mode,
}

/// A client capability container: what is read and written again from its fields comes out the same, flags that nobody judges included.
///
/// ```
/// use xurbalenz::{Caps, CapsEntry, Mode, Refusal};
/// let both = [Mode::Rlgr1, Mode::Rlgr3].map(|mode| CapsEntry { flags: 0, mode });
/// let caps = Caps { flags: 1, entries: both.to_vec() };
/// let mut bytes = caps.bytes()?;
/// assert_eq!((bytes.len(), Caps::read(&bytes)?), (49, caps));
/// assert_eq!(Caps::read(&bytes[..48]), Err(Refusal::Cut));
/// bytes[33] = 9; // the first entry's version
/// assert_eq!(Caps::read(&bytes), Err(Refusal::Field));
/// let many = Caps { flags: 0, entries: vec![both[0]; 3] };
/// assert_eq!(many.bytes(), Err(Refusal::TooBig)); // at most two
/// # Ok::<(), Refusal>(())
/// ```
#[cfg(feature = "alloc")]
#[derive(Clone, Debug, PartialEq, Eq, Hash)]
pub struct Caps {
    /// captureFlags, kept and not judged. 1 says: RemoteFX may be mixed with other codecs.
    pub flags: u32,
    /// At most two.
    pub entries: Vec<CapsEntry>,
}

#[cfg(feature = "alloc")]
impl Caps {
    /// Reads a container, which is the whole message. Field by field: bytes that are not there are `Cut`, a fixed field that differs `Field`, a length that
    /// disagrees and bytes after the last entry `Length`, more than two entries `TooBig`.
    pub fn read(message: &[u8]) -> Result<Caps, Refusal> {
        let mut entries = [0; 4];
        let (number, flags, n) = edge::read_caps(message, &mut entries);
        // an entry that was taken has one of the two modes
        let entry = |pair: &[u8]| Mode::of(pair[1]).map(|mode| CapsEntry { flags: pair[0], mode });
        judged(number, Caps { flags, entries: entries.chunks(2).take(n.into()).filter_map(entry).collect() })
    }

    /// Writes it into `out`: 33 bytes and 8 for each entry. More than two entries are `TooBig`, a shorter `out` is `Room`; refused, `out` is untouched.
    pub fn write_into(&self, out: &mut [u8]) -> Result<usize, Refusal> {
        let mut entries = [0; 4];
        for (pair, entry) in entries.chunks_mut(2).zip(&self.entries) {
            pair.copy_from_slice(&[entry.flags, entry.mode.number()]);
        }
        let n = u8::try_from(self.entries.len()).unwrap_or(u8::MAX);
        let (number, size) = edge::write_caps(self.flags, n, &entries, out);
        judged(number, size)
    }

    /// Its bytes.
    pub fn bytes(&self) -> Result<Vec<u8>, Refusal> {
        let mut out = vec![0; 33 + 8 * self.entries.len()];
        self.write_into(&mut out)?;
        Ok(out)
    }
}

/// Reads a frame acknowledge capability, which is the whole message: how many frames may be unacknowledged.
///
/// ```
/// use xurbalenz::{read_ack_cap, write_ack_cap_into, Refusal, ACK_CAP_SIZE};
/// let mut bytes = [0; ACK_CAP_SIZE];
/// assert_eq!(write_ack_cap_into(2, &mut bytes), Ok(8));
/// assert_eq!((bytes, read_ack_cap(&bytes)), ([0x1E, 0, 8, 0, 2, 0, 0, 0], Ok(2)));
/// assert_eq!(write_ack_cap_into(2, &mut bytes[..7]), Err(Refusal::Room));
/// ```
pub fn read_ack_cap(message: &[u8]) -> Result<u32, Refusal> {
    let (number, count) = edge::read_ack_cap(message);
    judged(number, count)
}

/// Writes a frame acknowledge capability into `out`: 8 bytes, else `Room`.
pub fn write_ack_cap_into(count: u32, out: &mut [u8]) -> Result<usize, Refusal> {
    let (number, size) = edge::write_ack_cap(count, out);
    judged(number, size)
}

/// A frame acknowledge message, from its shareDataHeader on. The headers in front are the link's. Only `version` has a limit, 4,095 (`Field`); the other
/// fields are any, and kept.
///
/// ```
/// use xurbalenz::{Ack, Refusal};
/// let ack = Ack { version: 1, source: 1007, share: 0x103EA, stream: 1, uncompressed: 8, frame: 7, ..Ack::default() };
/// let bytes = ack.bytes()?;
/// assert_eq!((bytes[..4].to_vec(), bytes[14]), (vec![22, 0, 0x17, 0], 0x38));
/// assert_eq!(Ack::read(&bytes), Ok(ack));
/// assert_eq!(Ack { version: 4096, ..ack }.bytes(), Err(Refusal::Field));
/// # Ok::<(), Refusal>(())
/// ```
#[derive(Clone, Copy, Debug, Default, PartialEq, Eq, Hash)]
pub struct Ack {
    /// The upper twelve bits of pduType.
    pub version: u16,
    /// pduSource
    pub source: u16,
    /// shareId
    pub share: u32,
    /// pad1
    pub pad: u8,
    /// streamId
    pub stream: u8,
    /// uncompressedLength
    pub uncompressed: u16,
    /// compressedType
    pub compression: u8,
    /// compressedLength
    pub compressed: u16,
    /// frameID: the frame that was shown.
    pub frame: u32,
}

impl Ack {
    /// Reads a message, which is these 22 bytes and nothing else.
    pub fn read(message: &[u8]) -> Result<Ack, Refusal> {
        let mut fields = [0; 9];
        let number = edge::read_ack(message, &mut fields);
        let [version, source, share, pad, stream, uncompressed, compression, compressed, frame] = fields;
        // each number fits the field that it was read from
        let ack = Ack {
            version: version as u16,
            source: source as u16,
            share,
            pad: pad as u8,
            stream: stream as u8,
            uncompressed: uncompressed as u16,
            compression: compression as u8,
            compressed: compressed as u16,
            frame,
        };
        judged(number, ack)
    }

    /// Writes it into `out`: 22 bytes. Refused, `out` is untouched.
    pub fn write_into(&self, out: &mut [u8]) -> Result<usize, Refusal> {
        let Ack { version, source, share, pad, stream, uncompressed, compression, compressed, frame } = *self;
        let (number, size) = edge::write_ack(version, source, share, pad, stream, uncompressed, compression, compressed, frame, out);
        judged(number, size)
    }

    /// Its bytes.
    pub fn bytes(&self) -> Result<[u8; ACK_SIZE], Refusal> {
        let mut out = [0; ACK_SIZE];
        self.write_into(&mut out)?;
        Ok(out)
    }
}
