//! Header blocks and frames from a network card's bytes, however these are cut.

#[cfg(feature = "alloc")]
use alloc::{boxed::Box, vec};

use crate::{edge, judged, Refusal};

/// A message that is whole, and the call that it is for. It stands in the collector's store until the next byte is given.
#[derive(Clone, Copy, Debug, PartialEq, Eq, Hash)]
pub enum Message<'a> {
    /// One header block: for [`read_header`](crate::read_header).
    Header(&'a [u8]),
    /// One frame, begin to end, or a block of one that came alone: for [`read_frame`](crate::read_frame).
    Frame(&'a [u8]),
}

impl<'a> Message<'a> {
    /// Its bytes.
    pub const fn bytes(self) -> &'a [u8] {
        match self {
            Message::Header(bytes) | Message::Frame(bytes) => bytes,
        }
    }
}

/// Gathers header blocks and frames from bytes as they come, any number at a time, and hands each on whole.
///
/// What is handed on, and the state at the end, do not depend on how the bytes are cut. Outside a frame any block but a begin is handed on
/// alone, and inside one every block is gathered until the end block; [`Screen::message`](crate::Screen::message) then judges the message as if
/// it had come in one piece.
///
/// A block's head is judged when its sixth byte is there: a type that is none (`Kind`), a length under 6 (`Length`), a block that the store
/// has no room for (`Room`). Nobody knows then where the next block begins: every call answers the same until [`reset`](Collector::reset).
///
/// **A link that starts anew needs a reset**, else what was gathered of the old one stays in front of the new bytes.
///
/// ```
/// use xurbalenz::{write_frame, write_headers, Collector, Mode, Quant, Refusal, Screen};
///
/// let mut stream = write_headers(70, 40, Mode::Rlgr3)?;
/// stream.extend(write_frame(70, 40, Mode::Rlgr3, Quant::DEFAULT, 0, &[255; 3 * 70 * 40])?);
///
/// let (mut collector, mut screen) = (Collector::new(1 << 20), Screen::new());
/// for piece in stream.chunks(1460) {
///     collector.feed(piece, |message| screen.message(message).expect("a good stream"))?;
/// }
/// assert_eq!(screen.picture(), [0xFFFF; 70 * 40]);
/// # Ok::<(), Refusal>(())
/// ```
///
/// Without an allocator the store is lent ([`over`](Collector::over)); with the feature `alloc` a collector may own it ([`new`](Collector::new)).
#[derive(Clone, Debug)]
pub struct Collector<S = Store> {
    record: edge::Collector,
    store: S,
}

/// A collector's store where nothing else is said.
#[cfg(feature = "alloc")]
pub type Store = Box<[u8]>;
/// A collector's store where nothing else is said.
#[cfg(not(feature = "alloc"))]
pub type Store = &'static mut [u8];

#[cfg(feature = "alloc")]
impl Collector {
    /// A fresh collector with a store of so many bytes: the longest frame that it can gather.
    pub fn new(room: usize) -> Collector {
        Collector::over(vec![0; room].into_boxed_slice())
    }
}

impl<S: AsMut<[u8]>> Collector<S> {
    /// A fresh collector over a store, whose length is that of the longest frame that it can gather.
    ///
    /// ```
    /// use xurbalenz::{Collector, Message, Refusal};
    /// let mut store = [0; 10];
    /// let mut collector = Collector::over(&mut store[..]);
    /// let mut rest: &[u8] = &[0xC0, 0xCC, 6, 0, 0, 0, 0xC7, 0xCC, 11, 0, 0, 0];
    /// assert_eq!(collector.next(&mut rest), Ok(Some(Message::Header(&[0xC0, 0xCC, 6, 0, 0, 0]))));
    /// assert_eq!(collector.next(&mut rest), Err(Refusal::Room));
    /// ```
    pub const fn over(store: S) -> Collector<S> {
        let record = edge::Collector { held: 0, end: 0, head: 0, refused: 0, part: 0, seen: 0 };
        Collector { record, store }
    }

    /// Takes all the bytes, and hands each message that they complete to `each`. On a refusal the bytes behind the refused head are not taken.
    ///
    /// ```
    /// use xurbalenz::{Collector, Message, Refusal};
    /// let (mut collector, mut seen) = (Collector::new(10), vec![]);
    /// let bytes = [0xC1, 0xCC, 7, 0, 0, 0, 99, 0xC5, 0xCC, 6, 0, 0, 0, 0xC0];
    /// collector.feed(&bytes[..3], |_| unreachable!("nothing is whole yet"))?;
    /// collector.feed(&bytes[3..], |message| seen.push(message.bytes().to_vec()))?;
    /// assert_eq!(seen, [&bytes[..7], &bytes[7..13]]);
    /// assert_eq!(collector.held(), 0); // one byte of a head waits beside the store
    /// # Ok::<(), Refusal>(())
    /// ```
    pub fn feed(&mut self, bytes: &[u8], mut each: impl FnMut(Message<'_>)) -> Result<(), Refusal> {
        let mut rest = bytes;
        while let Some(message) = self.next(&mut rest)? {
            each(message);
        }
        Ok(())
    }

    /// Takes bytes up to the end of the first message that they complete, and leaves the rest in `bytes`; none when all are taken and more are
    /// needed. For those who want to stop between two messages.
    ///
    /// ```
    /// use xurbalenz::{Collector, Message, Refusal};
    /// let mut collector = Collector::new(100);
    /// let mut rest: &[u8] = &[0xC0, 0xCC, 6, 0, 0, 0, 0xC7, 0xCC, 6, 0, 0, 0, 0xC4];
    /// assert_eq!(collector.next(&mut rest)?, Some(Message::Header(&[0xC0, 0xCC, 6, 0, 0, 0])));
    /// assert_eq!(collector.next(&mut rest)?, Some(Message::Frame(&[0xC7, 0xCC, 6, 0, 0, 0])));
    /// assert_eq!(collector.next(&mut rest)?, None);
    /// assert!(rest.is_empty());
    /// # Ok::<(), Refusal>(())
    /// ```
    pub fn next(&mut self, bytes: &mut &[u8]) -> Result<Option<Message<'_>>, Refusal> {
        let store = self.store.as_mut();
        let (number, call, size, taken) = edge::collect(&mut self.record, bytes, store);
        *bytes = bytes.get(taken..).unwrap_or_default();
        let message = store.get(..size).unwrap_or_default();
        judged(
            number,
            match call {
                1 => Some(Message::Header(message)),
                2 => Some(Message::Frame(message)),
                _ => None,
            },
        )
    }

    /// Throws away what was gathered, and forgets a refusal: the next byte is the first of a block.
    ///
    /// ```
    /// use xurbalenz::{Collector, Refusal};
    /// let mut collector = Collector::new(100);
    /// assert_eq!(collector.feed(&[1, 2, 3, 4, 5, 6], |_| ()), Err(Refusal::Kind));
    /// assert_eq!(collector.feed(&[0xC0], |_| ()), Err(Refusal::Kind)); // until
    /// collector.reset();
    /// assert_eq!(collector.feed(&[0xC0], |_| ()), Ok(()));
    /// ```
    pub fn reset(&mut self) {
        edge::collect_reset(&mut self.record);
    }

    /// How many bytes of the store are gathered; a head that is not complete waits beside it and is not counted.
    pub fn held(&self) -> usize {
        self.record.held as usize // no more than the store has
    }
}
