//! The bands of a pack.
use crate::sys::{self, PieceRecord};
use crate::Error;

/// The content of a packet line of a pack.
#[derive(Clone, Copy, Debug, PartialEq, Eq)]
pub enum Piece<'a> {
    /// Bytes of the pack.
    Content(&'a [u8]),
    /// A progress message.
    Progress(&'a [u8]),
    /// An error message of the server. git stops at it. The pack may continue after it.
    Error(&'a [u8]),
}

/// The packet lines of a pack. After an error there are no more.
pub struct Pieces<'a> {
    answer: &'a [u8],
    next: usize,
    ended: bool,
}

/// The packet lines of a pack that begins at this offset of a response, up to the end of the pack (gitprotocol-pack, "Packfile
/// Data"). If the response is incomplete, the last item is the error [`Kind::Incomplete`](crate::Kind::Incomplete).
/// [`Pieces::place`] is then the offset at which to continue once more bytes were received.
pub fn pieces(answer: &[u8], from: usize) -> Pieces<'_> {
    Pieces { answer, next: from, ended: false }
}

impl Pieces<'_> {
    /// The offset after the packet lines read so far. At the end of the pack, the offset after that.
    pub fn place(&self) -> usize {
        self.next
    }
}

impl<'a> Iterator for Pieces<'a> {
    type Item = Result<Piece<'a>, Error>;

    fn next(&mut self) -> Option<Self::Item> {
        if self.ended {
            return None;
        }
        let mut piece = PieceRecord::default();
        // SAFETY: the answer is a whole slice. No other pointer leads to the record.
        let code = unsafe { sys::gixp_piece(self.answer.as_ptr(), self.answer.len(), self.next, &mut piece) };
        self.ended = code != sys::OK || piece.band == 0;
        if code != sys::OK {
            return Some(Err(Error::with_words(code, piece.text.of(self.answer))));
        }
        self.next = piece.next;
        let text = piece.text.of(self.answer);
        match piece.band {
            1 => Some(Ok(Piece::Content(text))),
            2 => Some(Ok(Piece::Progress(text))),
            3 => Some(Ok(Piece::Error(text))),
            _ => None,
        }
    }
}
