//! The mappings of refs by refspecs.
use crate::sys::{self, Mapped, MappingRecord, RefRecord, Span};
use crate::Error;

/// The mappings of refs by refspecs.
#[derive(Clone, Debug, Default, PartialEq, Eq)]
pub struct Mappings {
    /// The mappings: first those of object ids, then ordered by refspec and by ref. No two have the same source and local name.
    pub mappings: Vec<Mapping>,
    /// The local names of removed mappings. They aren't `HEAD` and don't begin with `refs/`.
    pub removed: Vec<Vec<u8>>,
    /// The local names with two different sources. If there are any, nothing is mapped.
    pub conflicts: Vec<Vec<u8>>,
}

/// A mapping.
#[derive(Clone, Debug, PartialEq, Eq)]
pub struct Mapping {
    /// The index of the name in the argument, `None` if the refspec names an object.
    pub item: Option<usize>,
    /// The index of the refspec.
    pub spec: usize,
    /// The local name. It isn't checked: the server chose the part that replaces the asterisk of a pattern.
    pub local: Option<Vec<u8>>,
}

fn lines<S: AsRef<[u8]>>(specs: impl IntoIterator<Item = S>) -> Vec<u8> {
    let mut text = Vec::new();
    for spec in specs {
        text.extend_from_slice(spec.as_ref());
        text.push(b'\n');
    }
    text
}

/// Maps refs with these full names by refspecs (git-fetch, "<refspec>").
pub fn map<N: AsRef<[u8]>, S: AsRef<[u8]>>(
    names: impl IntoIterator<Item = N>,
    specs: impl IntoIterator<Item = S>,
) -> Result<Mappings, Error> {
    let (mut text, mut records) = (Vec::new(), Vec::new());
    for name in names {
        let name = name.as_ref();
        records.push(RefRecord { name: Span { at: text.len(), len: name.len() }, ..RefRecord::default() });
        text.extend_from_slice(name);
    }
    let specs = lines(specs);
    let mut found = vec![MappingRecord::default(); records.len() + 8];
    let mut locals = vec![0; text.len() + 64];
    loop {
        let mut counts = Mapped::default();
        // SAFETY: all are whole slices. Those that are written, and `counts`, belong only to this call.
        let code = unsafe {
            sys::gixp_map(
                text.as_ptr(),
                text.len(),
                records.as_ptr(),
                records.len(),
                specs.as_ptr(),
                specs.len(),
                found.as_mut_ptr(),
                found.len(),
                locals.as_mut_ptr(),
                locals.len(),
                &mut counts,
            )
        };
        match code {
            sys::NO_ROOM => {
                found = vec![MappingRecord::default(); counts.mappings + counts.fixes];
                locals = vec![0; counts.names];
            }
            sys::OK | sys::CONFLICT => {
                let (first, removed) = found[..counts.mappings + counts.fixes].split_at(counts.mappings);
                let local = |r: &MappingRecord| r.local.of(&locals).to_vec();
                let mut all = Mappings { removed: removed.iter().map(local).collect(), ..Mappings::default() };
                if code == sys::CONFLICT {
                    all.conflicts = first.iter().map(local).collect();
                } else {
                    all.mappings = first
                        .iter()
                        .map(|r| Mapping {
                            item: (r.item < records.len()).then_some(r.item),
                            spec: r.spec,
                            local: (r.has_local == 1).then(|| local(r)),
                        })
                        .collect();
                }
                return Ok(all);
            }
            code => return Err(Error::with_words(code, b"")),
        }
    }
}

/// The ref prefixes of these refspecs (gitprotocol-v2, `ref-prefix`).
pub fn prefixes<S: AsRef<[u8]>>(specs: impl IntoIterator<Item = S>) -> Result<Vec<Vec<u8>>, Error> {
    let specs = lines(specs);
    let mut text = vec![0; 256];
    loop {
        let mut len = 0;
        // SAFETY: both are whole slices. The text and `len` belong only to this call.
        let code = unsafe { sys::gixp_prefixes(specs.as_ptr(), specs.len(), text.as_mut_ptr(), text.len(), &mut len) };
        match code {
            sys::NO_ROOM => text = vec![0; len],
            sys::OK => return Ok(text[..len].split_inclusive(|b| *b == b'\n').map(|line| line[..line.len() - 1].to_vec()).collect()),
            code => return Err(Error::with_words(code, b"")),
        }
    }
}
