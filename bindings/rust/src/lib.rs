//! The client side of git's fetch protocol: slices in, values out. Each function of the library below is proved. No state is kept
//! between calls, and nothing is sent or received: the caller does this, by sockets, pipes or HTTP.
//!
//! Every safe call is defined for all arguments. What an export requires holds for slices by their type, and is checked otherwise.
#![forbid(unsafe_op_in_unsafe_fn)]

mod error;
mod maps;
mod pieces;
mod refs;
mod session;
mod sys;

pub use error::{Error, Kind};
pub use maps::{map, prefixes, Mapping, Mappings};
pub use pieces::{pieces, Piece, Pieces};
pub use refs::{advertised, refs, Ref, Refs};
pub use session::{without_service, Pack, Session, Step};

/// An object id, as its 20 bytes.
#[derive(Clone, Copy, Debug, Default, PartialEq, Eq, Hash, PartialOrd, Ord)]
pub struct Id(pub [u8; 20]);

impl Id {
    /// Parses 40 hexadecimal digits.
    pub fn from_hex(text: &[u8]) -> Option<Id> {
        let digit = |b: u8| char::from(b).to_digit(16).map(|d| d as u8);
        let mut bytes = [0; 20];
        if text.len() != 40 {
            return None;
        }
        for (byte, pair) in bytes.iter_mut().zip(text.chunks(2)) {
            *byte = digit(pair[0])? << 4 | digit(pair[1])?;
        }
        Some(Id(bytes))
    }
}

impl std::fmt::Display for Id {
    fn fmt(&self, f: &mut std::fmt::Formatter<'_>) -> std::fmt::Result {
        self.0.iter().try_for_each(|byte| write!(f, "{byte:02x}"))
    }
}
