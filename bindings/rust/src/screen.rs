//! A session with its picture and work lists, owned in one place.

use alloc::{boxed::Box, vec, vec::Vec};

use crate::{read_frame, read_frame_32, read_header, Glass, Message, Refusal, Session, LIST};

mod sealed {
    use crate::{Glass, Refusal, Session};

    pub trait Word: Copy + Default {
        const GLASS: Glass;
        fn frame(session: &mut Session, message: &[u8], picture: &mut [Self], lists: [&mut [i32]; 4]) -> Result<usize, Refusal>;
    }
}

/// A picture's word: `u16` or `u32`.
pub trait Word: sealed::Word {}
impl Word for u16 {}
impl Word for u32 {}

impl sealed::Word for u16 {
    const GLASS: Glass = Glass::Bits16;
    fn frame(session: &mut Session, message: &[u8], picture: &mut [u16], [y, cb, cr, scratch]: [&mut [i32]; 4]) -> Result<usize, Refusal> {
        read_frame(session, message, picture, y, cb, cr, scratch)
    }
}

impl sealed::Word for u32 {
    const GLASS: Glass = Glass::Bits32;
    fn frame(session: &mut Session, message: &[u8], picture: &mut [u32], [y, cb, cr, scratch]: [&mut [i32]; 4]) -> Result<usize, Refusal> {
        read_frame_32(session, message, picture, y, cb, cr, scratch)
    }
}

/// A session, the picture it draws into, and the work lists that frames need.
///
/// The picture gets its size from the channels header: width x height words, black at first. A header that starts the session over keeps the
/// picture, and channels of the same size keep it too; another size starts black. A refusal changes nothing.
///
/// ```
/// use xurbalenz::{write_frame, write_headers, Mode, Quant, Refusal, Screen};
///
/// let red = [255, 0, 0].repeat(70 * 40);
/// let headers = write_headers(70, 40, Mode::Rlgr3)?;
/// let frame = write_frame(70, 40, Mode::Rlgr3, Quant::DEFAULT, 0, &red)?;
///
/// let mut screen = Screen::new();
/// assert_eq!(screen.frame(&frame), Err(Refusal::Order)); // no headers yet
/// for block in xurbalenz::header_blocks(&headers) {
///     screen.header(block)?;
/// }
/// assert_eq!(screen.frame(&frame), Ok(2)); // two tiles
/// assert_eq!((screen.width(), screen.height()), (70, 40));
/// assert_eq!(screen.picture()[0], 31 << 11); // 5-6-5 red
/// # Ok::<(), Refusal>(())
/// ```
#[derive(Clone, Debug)]
pub struct Screen<W = u16> {
    session: Session,
    picture: Vec<W>,
    width: usize,
    height: usize,
    y: Box<[i32]>,
    cb: Box<[i32]>,
    cr: Box<[i32]>,
    scratch: Box<[i32]>,
}

impl Screen {
    /// A fresh session with no picture yet.
    pub fn new() -> Screen {
        Screen::open()
    }
}

impl Screen<u32> {
    /// The same with a picture of 32-bit words: red x 65,536 + green x 256 + blue.
    pub fn new_32() -> Screen<u32> {
        Screen::open()
    }
}

impl<W: Word> Screen<W> {
    fn open() -> Screen<W> {
        let list = || vec![0; LIST].into_boxed_slice();
        Screen { session: Session::open(W::GLASS), picture: Vec::new(), width: 0, height: 0, y: list(), cb: list(), cr: list(), scratch: list() }
    }

    /// Reads one header block: see [`read_header`].
    pub fn header(&mut self, message: &[u8]) -> Result<(), Refusal> {
        read_header(&mut self.session, message)?;
        if self.session.headers() == 3 {
            self.fit(self.session.width().into(), self.session.height().into());
        }
        Ok(())
    }

    // A picture of the channel's size; kept if it has that size already.
    fn fit(&mut self, width: usize, height: usize) {
        if (width, height) != (self.width, self.height) {
            self.picture = vec![W::default(); width * height];
            (self.width, self.height) = (width, height);
        }
    }

    /// Reads one frame and draws it: how many tiles it lists. See [`read_frame`] and [`read_frame_32`].
    pub fn frame(&mut self, message: &[u8]) -> Result<usize, Refusal> {
        W::frame(&mut self.session, message, &mut self.picture, [&mut self.y, &mut self.cb, &mut self.cr, &mut self.scratch])
    }

    /// Reads a message that a [`Collector`](crate::Collector) handed on, by the call that it is for.
    pub fn message(&mut self, message: Message<'_>) -> Result<(), Refusal> {
        match message {
            Message::Header(block) => self.header(block),
            Message::Frame(frame) => self.frame(frame).map(|_| ()),
        }
    }

    /// The picture: words (5-6-5 where they have 16 bits) row by row, [`width`](Screen::width) words a row.
    pub fn picture(&self) -> &[W] {
        &self.picture
    }

    /// The picture's width; 0 before the first channels header.
    pub fn width(&self) -> usize {
        self.width
    }

    /// The picture's height; 0 before the first channels header.
    pub fn height(&self) -> usize {
        self.height
    }

    /// The session's record.
    pub fn session(&self) -> Session {
        self.session
    }
}

impl Default for Screen {
    fn default() -> Screen {
        Screen::new()
    }
}
