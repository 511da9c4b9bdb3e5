//! The refs of a response.
use crate::sys::{self, Found, RefRecord};
use crate::{Error, Id};

/// A ref of a server. Its texts borrow the response.
#[derive(Clone, Copy, Debug, PartialEq, Eq, Hash)]
pub enum Ref<'a> {
    /// A ref to an object.
    Direct { name: &'a [u8], object: Id },
    /// A ref to a tag, with its peeled object.
    Peeled { name: &'a [u8], tag: Id, object: Id },
    /// A symbolic ref. Its object may be a tag.
    Symbolic { name: &'a [u8], target: &'a [u8], tag: Option<Id>, object: Id },
    /// A symbolic ref whose target is unborn.
    Unborn { name: &'a [u8], target: &'a [u8] },
}

impl<'a> Ref<'a> {
    /// Its full name.
    pub fn name(&self) -> &'a [u8] {
        match *self {
            Ref::Direct { name, .. } | Ref::Peeled { name, .. } | Ref::Symbolic { name, .. } | Ref::Unborn { name, .. } => name,
        }
    }

    /// The object of the ref. For a tag, the tag itself.
    pub fn id(&self) -> Option<Id> {
        match *self {
            Ref::Direct { object, .. } => Some(object),
            Ref::Peeled { tag, .. } => Some(tag),
            Ref::Symbolic { tag, object, .. } => Some(tag.unwrap_or(object)),
            Ref::Unborn { .. } => None,
        }
    }

    fn new(answer: &'a [u8], r: &RefRecord) -> Ref<'a> {
        let (name, target, object, tag) = (r.name.of(answer), r.target.of(answer), Id(r.object), Id(r.tag));
        match r.kind {
            1 => Ref::Direct { name, object },
            2 => Ref::Peeled { name, tag, object },
            3 => Ref::Symbolic { name, target, tag: None, object },
            4 => Ref::Symbolic { name, target, tag: Some(tag), object },
            _ => Ref::Unborn { name, target },
        }
    }
}

// The number of records per call. They fit into the processor's cache.
const ROOM: usize = 128;

type Reader = unsafe extern "C" fn(*const u8, usize, usize, *mut RefRecord, usize, *mut Found) -> u32;

/// The refs of a response, in order. After an error there are no more.
pub struct Refs<'a> {
    reader: Reader,
    answer: &'a [u8],
    next: usize,
    code: u32,
    words: sys::Span,
    records: [RefRecord; ROOM],
    at: usize,
    count: usize,
}

/// The refs of a version 2 `ls-refs` response (gitprotocol-v2, "ls-refs"). If the response can't be read completely, the last item
/// is an error. It is [`Kind::Incomplete`](crate::Kind::Incomplete) if the response is incomplete.
pub fn refs(answer: &[u8]) -> Refs<'_> {
    Refs::new(sys::gixp_refs, answer)
}

/// The refs of a version 0 or 1 reference advertisement (gitprotocol-pack, "Reference Discovery"): one per ref line, a tag with the
/// id of its peeled line. Errors are as of [`refs`].
pub fn advertised(answer: &[u8]) -> Refs<'_> {
    Refs::new(sys::gixp_advertised, answer)
}

impl<'a> Refs<'a> {
    fn new(reader: Reader, answer: &'a [u8]) -> Refs<'a> {
        Refs {
            reader,
            answer,
            next: 0,
            code: sys::MORE,
            words: sys::Span::default(),
            records: [RefRecord::default(); ROOM],
            at: 0,
            count: 0,
        }
    }

    /// The number of bytes read. After the last ref these are all bytes up to the stop.
    pub fn place(&self) -> usize {
        self.next
    }

    fn read(&mut self) {
        let mut found = Found::default();
        // SAFETY: answer and records are whole slices. The records and `found` belong only to this call.
        self.code = unsafe {
            (self.reader)(
                self.answer.as_ptr(),
                self.answer.len(),
                self.next,
                self.records.as_mut_ptr(),
                ROOM,
                &mut found,
            )
        };
        (self.next, self.words, self.at, self.count) = (found.next, found.words, 0, found.count);
    }
}

impl<'a> Iterator for Refs<'a> {
    type Item = Result<Ref<'a>, Error>;

    fn next(&mut self) -> Option<Self::Item> {
        while self.at == self.count && self.code == sys::MORE {
            self.read();
        }
        if self.at < self.count {
            self.at += 1;
            return Some(Ok(Ref::new(self.answer, &self.records[self.at - 1])));
        }
        match std::mem::replace(&mut self.code, sys::OK) {
            sys::OK => None,
            code => Some(Err(Error::with_words(code, self.words.of(self.answer)))),
        }
    }
}
