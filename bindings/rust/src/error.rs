//! The error of all calls.
use crate::sys;
use std::fmt;

/// The kinds of errors, by the numbers of `include/gixp.h`.
#[derive(Clone, Copy, Debug, PartialEq, Eq, Hash)]
#[non_exhaustive]
pub enum Kind {
    /// An offset or a length doesn't match the bytes.
    BadPlace,
    /// An allocation failed.
    NoMemory,
    /// The response is incomplete.
    Incomplete,
    /// The length of a packet line is invalid.
    Malformed,
    /// The server sent an error. [`Error::words`] returns its message.
    Server,
    /// A packet without a payload is out of place.
    Unexpected,
    /// The band of a packet line is unknown.
    UnknownBand,
    /// A ref line is malformed.
    BadRef,
    /// A refspec is invalid.
    BadSpec,
    /// The handshake failed.
    Handshake,
    /// The refs couldn't be listed, or their mappings conflict.
    Refs,
    /// The fetch failed.
    Fetch,
    /// There are no responses, or more responses than requests.
    Answers,
    /// The server lacks filters, which the session needs.
    NoFilters,
    /// The filter or the limit of the history is invalid.
    BadLimit,
    /// An unknown number.
    Other,
}

/// The error of all calls.
#[derive(Clone, PartialEq, Eq)]
pub struct Error {
    code: u32,
    words: Vec<u8>,
}

impl Error {
    pub(crate) fn with_words(code: u32, words: &[u8]) -> Error {
        Error { code, words: words.to_vec() }
    }

    /// The number, as in `include/gixp.h`.
    pub fn code(&self) -> u32 {
        self.code
    }

    /// The server's message, empty if there is none.
    pub fn words(&self) -> &[u8] {
        &self.words
    }

    pub fn kind(&self) -> Kind {
        match self.code {
            3 => Kind::BadPlace,
            4 => Kind::NoMemory,
            10 => Kind::Incomplete,
            11..=14 => Kind::Malformed,
            15 => Kind::Server,
            16 => Kind::Unexpected,
            17 => Kind::UnknownBand,
            20..=29 => Kind::BadRef,
            30 | 31 => Kind::Answers,
            32..=39 => Kind::BadSpec,
            40..=49 => Kind::Handshake,
            50..=59 => Kind::Refs,
            60..=69 => Kind::Fetch,
            70 => Kind::NoFilters,
            80..=89 => Kind::BadLimit,
            _ => Kind::Other,
        }
    }

    fn text(&self) -> String {
        let mut text = [0; 128];
        let mut len = 0;
        // SAFETY: the buffer has the length that is passed. No other pointer leads to it or to the length.
        let code = unsafe { sys::gixp_error_text(self.code, text.as_mut_ptr(), text.len(), &mut len) };
        match text.get(..len) {
            Some(text) if code == sys::OK => String::from_utf8_lossy(text).into_owned(),
            _ => String::new(),
        }
    }
}

impl fmt::Display for Error {
    fn fmt(&self, f: &mut fmt::Formatter<'_>) -> fmt::Result {
        f.write_str(&self.text())?;
        if !self.words.is_empty() {
            write!(f, ": {}", String::from_utf8_lossy(&self.words))?;
        }
        Ok(())
    }
}

impl fmt::Debug for Error {
    fn fmt(&self, f: &mut fmt::Formatter<'_>) -> fmt::Result {
        write!(f, "{:?}({}): {self}", self.kind(), self.code)
    }
}

impl std::error::Error for Error {}
