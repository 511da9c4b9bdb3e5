//! A session, one request after another.
use crate::sys::{self, StepRecord, SessionInput};
use crate::{Error, Id};
use std::collections::BTreeSet;

/// The caller's next action.
#[derive(Clone, Debug, PartialEq, Eq)]
pub enum Step {
    /// Send these bytes. The server's reply is the next response.
    Request(Vec<u8>),
    /// Take the pack from the last response.
    Pack(Pack),
    /// Nothing: there is nothing to request.
    Nothing,
}

/// A pack in the last response, and the shallow boundary after it.
#[derive(Clone, Debug, Default, PartialEq, Eq)]
pub struct Pack {
    /// The offset of the pack in the last response: see [`pieces`](crate::pieces()).
    pub place: usize,
    /// The shallow boundary after the server's shallow updates. Store it in place of the session's, unless `is_unasked` is true.
    pub boundary: Vec<Id>,
    /// Whether the server changed the boundary though the session has no limit of the history, as a server does whose own repository is
    /// shallow. In a repository that has objects such a boundary hides history: git rejects these refs, unless `--update-shallow` is set.
    pub is_unasked: bool,
}

/// A fetch, as the responses so far. The first one is the server's advertisement for `git-upload-pack`.
///
/// Each step is computed from all responses, so a session may be stored, copied or dropped at any time.
#[derive(Clone, Debug, Default)]
pub struct Session {
    answers: Vec<u8>,
    ends: Vec<usize>,
    specs: Vec<u8>,
    haves: Vec<u8>,
    boundary: Vec<u8>,
    filter: Vec<u8>,
    excluded: Vec<u8>,
    since: Option<i64>,
    depth: u32,
    is_relative: bool,
}

impl Session {
    /// A fetch with these refspecs.
    pub fn new<S: AsRef<[u8]>>(specs: impl IntoIterator<Item = S>) -> Session {
        let mut session = Session::default();
        for spec in specs {
            session.specs.extend_from_slice(spec.as_ref());
            session.specs.push(b'\n');
        }
        session
    }

    /// Adds an object that exists locally. It is offered as a have, after those before it, and never requested.
    pub fn have(&mut self, id: Id) -> &mut Session {
        self.haves.extend_from_slice(&id.0);
        self
    }

    /// Adds a commit of the local repository's shallow boundary.
    pub fn shallow(&mut self, id: Id) -> &mut Session {
        self.boundary.extend_from_slice(&id.0);
        self
    }

    /// Requests this number of commits of each ref (`git fetch --depth`). 0, the default, leaves the boundary unchanged.
    ///
    /// A session has one limit of the history: `depth`, `deepen`, or `since` with `exclude`. If there are several, the last in this
    /// order counts.
    pub fn depth(&mut self, depth: u32) -> &mut Session {
        (self.depth, self.is_relative) = (depth, false);
        self
    }

    /// Requests this number of commits more than there are now (`git fetch --deepen`).
    pub fn deepen(&mut self, depth: u32) -> &mut Session {
        (self.depth, self.is_relative) = (depth, true);
        self
    }

    /// Requests the commits since this time, in seconds since 1970-01-01 00:00:00 UTC (`git fetch --shallow-since`).
    pub fn since(&mut self, seconds: i64) -> &mut Session {
        self.since = Some(seconds);
        self
    }

    /// Leaves out the commits that this ref of the server reaches (`git fetch --shallow-exclude`).
    pub fn exclude(&mut self, name: impl AsRef<[u8]>) -> &mut Session {
        self.excluded.extend_from_slice(name.as_ref());
        self.excluded.push(b'\n');
        self
    }

    /// Lets the server leave out objects, for example by `blob:none` (git-rev-list, `--filter`). If it offers no filters, the error is
    /// [`Kind::NoFilters`](crate::Kind::NoFilters), and nothing is requested.
    pub fn filter(&mut self, filter: impl AsRef<[u8]>) -> &mut Session {
        self.filter = filter.as_ref().to_vec();
        self
    }

    // The number of the limit.
    fn limit(&self) -> u32 {
        match (self.since, self.excluded.is_empty()) {
            (Some(_), true) => 2,
            (None, false) => 3,
            (Some(_), false) => 4,
            (None, true) => u32::from(self.is_relative),
        }
    }

    // The pack at this offset of all responses, with the ids of the boundary after it.
    fn pack(&self, place: usize, ids: &[u8]) -> Pack {
        let is_limited = self.limit() != 0 || self.depth != 0;
        let is_changed = ids.chunks_exact(20).collect::<BTreeSet<_>>() != self.boundary.chunks_exact(20).collect();
        Pack {
            place: place - (self.answers.len() - self.last().len()),
            boundary: ids.chunks_exact(20).map(|id| Id(id.try_into().unwrap_or_default())).collect(),
            is_unasked: !is_limited && is_changed,
        }
    }

    /// Adds the server's advertisement, or the response to the last request.
    pub fn answer(&mut self, bytes: &[u8]) -> &mut Session {
        self.answers.extend_from_slice(bytes);
        self.ends.push(self.answers.len());
        self
    }

    /// Adds more bytes of the last response, if it arrives in parts.
    pub fn more(&mut self, bytes: &[u8]) -> &mut Session {
        let _ = self.ends.pop();
        self.answer(bytes)
    }

    /// The number of responses.
    pub fn count(&self) -> usize {
        self.ends.len()
    }

    /// The response with this index.
    pub fn nth(&self, number: usize) -> Option<&[u8]> {
        let start = number.checked_sub(1).map_or(0, |before| self.ends.get(before).copied().unwrap_or(0));
        Some(&self.answers[start..*self.ends.get(number)?])
    }

    /// The last response.
    pub fn last(&self) -> &[u8] {
        self.ends.len().checked_sub(1).and_then(|last| self.nth(last)).unwrap_or(&[])
    }

    /// The caller's next action. The last response may be incomplete if it reaches to the pack. Otherwise the error is
    /// [`Kind::Incomplete`](crate::Kind::Incomplete).
    pub fn step(&self) -> Result<Step, Error> {
        // There is room for a want of each ref in the responses and for a have of each id, so one call is mostly enough.
        let mut request = vec![0; 4096 + self.answers.len() + 3 * self.haves.len()];
        let input = SessionInput {
            specs: self.specs.as_ptr(),
            specs_len: self.specs.len(),
            haves: self.haves.as_ptr(),
            haves_len: self.haves.len(),
            boundary: self.boundary.as_ptr(),
            boundary_len: self.boundary.len(),
            filter: self.filter.as_ptr(),
            filter_len: self.filter.len(),
            excluded: self.excluded.as_ptr(),
            excluded_len: self.excluded.len(),
            since: self.since.unwrap_or(0),
            depth: self.depth,
            limit: self.limit(),
        };
        loop {
            let mut step = StepRecord::default();
            // SAFETY: all are whole slices, also those of the input. The request and `step` belong only to this call.
            let code = unsafe {
                sys::gixp_next(
                    self.answers.as_ptr(),
                    self.answers.len(),
                    self.ends.as_ptr(),
                    self.ends.len(),
                    &input,
                    request.as_mut_ptr(),
                    request.len(),
                    &mut step,
                )
            };
            if code == sys::NO_ROOM {
                request = vec![0; step.length];
                continue;
            }
            if code != sys::OK {
                return Err(Error::with_words(code, request.get(..step.length).unwrap_or(&[])));
            }
            request.truncate(step.length);
            return Ok(match step.kind {
                1 => Step::Request(request),
                2 => Step::Pack(self.pack(step.place, &request)),
                _ => Step::Nothing,
            });
        }
    }
}

/// The first response without the lines that a server over HTTP sends before it: `# service=git-upload-pack` and a flush packet
/// (gitprotocol-http, "Smart Server Response").
pub fn without_service(answer: &[u8]) -> &[u8] {
    let len = answer.get(..4).and_then(|digits| std::str::from_utf8(digits).ok());
    match len.and_then(|digits| usize::from_str_radix(digits, 16).ok()) {
        Some(len) if len >= 4 && answer[4..].starts_with(b"# service=") && answer.get(len..len + 4) == Some(b"0000") => &answer[len + 4..],
        _ => answer,
    }
}
