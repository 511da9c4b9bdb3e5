//! The declarations of `include/gixp.h`.
#[repr(C)]
#[derive(Clone, Copy, Default)]
pub(crate) struct Span {
    pub at: usize,
    pub len: usize,
}

impl Span {
    /// The text. The contract of the library guarantees that it is within the bytes.
    pub(crate) fn of(self, bytes: &[u8]) -> &[u8] {
        &bytes[self.at..][..self.len]
    }
}

#[repr(C)]
#[derive(Clone, Copy, Default)]
pub(crate) struct RefRecord {
    pub kind: u32,
    pub object: [u8; 20],
    pub tag: [u8; 20],
    pub name: Span,
    pub target: Span,
}

#[repr(C)]
#[derive(Default)]
pub(crate) struct Found {
    pub count: usize,
    pub next: usize,
    pub words: Span,
}

#[repr(C)]
#[derive(Default)]
pub(crate) struct PieceRecord {
    pub band: u32,
    pub text: Span,
    pub next: usize,
}

#[repr(C)]
pub(crate) struct SessionInput {
    pub specs: *const u8,
    pub specs_len: usize,
    pub haves: *const u8,
    pub haves_len: usize,
    pub boundary: *const u8,
    pub boundary_len: usize,
    pub filter: *const u8,
    pub filter_len: usize,
    pub excluded: *const u8,
    pub excluded_len: usize,
    pub since: i64,
    pub depth: u32,
    pub limit: u32,
}

#[repr(C)]
#[derive(Default)]
pub(crate) struct StepRecord {
    pub kind: u32,
    pub length: usize,
    pub place: usize,
}

#[repr(C)]
#[derive(Clone, Copy, Default)]
pub(crate) struct MappingRecord {
    pub item: usize,
    pub spec: usize,
    pub has_local: u32,
    pub local: Span,
}

#[repr(C)]
#[derive(Default)]
pub(crate) struct Mapped {
    pub mappings: usize,
    pub fixes: usize,
    pub names: usize,
}

pub(crate) const OK: u32 = 0;
pub(crate) const MORE: u32 = 1;
pub(crate) const NO_ROOM: u32 = 2;
pub(crate) const CONFLICT: u32 = 51;

extern "C" {
    pub(crate) fn gixp_refs(
        answer: *const u8,
        answer_len: usize,
        from: usize,
        records: *mut RefRecord,
        records_len: usize,
        found: *mut Found,
    ) -> u32;
    pub(crate) fn gixp_advertised(
        answer: *const u8,
        answer_len: usize,
        from: usize,
        records: *mut RefRecord,
        records_len: usize,
        found: *mut Found,
    ) -> u32;
    pub(crate) fn gixp_piece(
        answer: *const u8,
        answer_len: usize,
        from: usize,
        piece: *mut PieceRecord,
    ) -> u32;
    pub(crate) fn gixp_next(
        answers: *const u8,
        answers_len: usize,
        ends: *const usize,
        ends_len: usize,
        input: *const SessionInput,
        request: *mut u8,
        request_len: usize,
        step: *mut StepRecord,
    ) -> u32;
    pub(crate) fn gixp_map(
        answer: *const u8,
        answer_len: usize,
        refs: *const RefRecord,
        refs_len: usize,
        specs: *const u8,
        specs_len: usize,
        mappings: *mut MappingRecord,
        mappings_len: usize,
        names: *mut u8,
        names_len: usize,
        counts: *mut Mapped,
    ) -> u32;
    pub(crate) fn gixp_prefixes(
        specs: *const u8,
        specs_len: usize,
        buffer: *mut u8,
        buffer_len: usize,
        len: *mut usize,
    ) -> u32;
    pub(crate) fn gixp_error_text(code: u32, buffer: *mut u8, buffer_len: usize, len: *mut usize) -> u32;
}
