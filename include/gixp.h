/* The client side of git's fetch protocol for programs in C: bytes in, numbers out.
 *
 * No call keeps state between calls, and none reads or writes a file, a socket or a global variable. Buffers belong to the caller. No
 * pointer may be null, even with the length 0. Memory that a call writes may not be reachable by another pointer of the same call. All
 * other input may be untrusted. Each call returns a number. `gixp_error_text` returns its text.
 *
 * Calls allocate by the program's malloc, realloc and free. They may run concurrently, in any thread.
 */
#ifndef GIXP_H
#define GIXP_H

#include <stddef.h>
#include <stdint.h>

#ifdef __cplusplus
extern "C" {
#endif

/* The results of calls. Numbers from 10 on are errors in a response, a refspec or a session. */
enum {
    GIXP_OK = 0,              /* everything was read */
    GIXP_MORE = 1,            /* the next call continues */
    GIXP_NO_ROOM = 2,         /* a buffer is too small: the required size is written, and nothing else is changed */
    GIXP_BAD_PLACE = 3,       /* an offset or a length doesn't match the bytes: nothing is changed */
    GIXP_NO_MEMORY = 4,       /* an allocation failed */
    GIXP_INCOMPLETE = 10,     /* the response is incomplete: call again with more of it */
    GIXP_BAD_HEX = 11,        /* the length of a packet line isn't hexadecimal */
    GIXP_TOO_LONG = 12,
    GIXP_NO_PAYLOAD = 13,
    GIXP_TOO_SHORT = 14,
    GIXP_SERVER = 15,         /* the server sent an error message */
    GIXP_UNEXPECTED = 16,     /* a packet without a payload is out of place */
    GIXP_UNKNOWN_BAND = 17,
    GIXP_BAD_ID = 20,         /* a ref line has an invalid object id */
    GIXP_BAD_LINE = 21,       /* a ref line is malformed, or ends in white space outside ASCII, which git allows in names */
    GIXP_BAD_ATTRIBUTE = 22,
    GIXP_BAD_UNBORN = 23,
    GIXP_BAD_PEELED = 24,     /* an advertisement: a peeled line doesn't follow the ref line of its name */
    GIXP_BAD_SYMREF = 25,
    GIXP_NO_ANSWER = 30,      /* a session without a response */
    GIXP_TOO_MANY_ANSWERS = 31,
    GIXP_BAD_SPEC = 32,       /* 32 to 39: a refspec is invalid */
    GIXP_BAD_HANDSHAKE = 40,  /* 40 to 49: the first response can't be read */
    GIXP_NO_CAPABILITIES = 46, /* the first ref line of an advertisement has no NUL */
    GIXP_VERSION_TWO = 47,    /* the server speaks version 2, and lists its refs only for `ls-refs` */
    GIXP_UNKNOWN_VERSION = 48,
    GIXP_BAD_REFS = 50,       /* 50 to 59: the refs or their mappings have an error */
    GIXP_CONFLICT = 51,       /* two refs map to one local name */
    GIXP_UNTERMINATED_REFS = 53, /* a list of refs doesn't end with a flush packet: refs may be missing */
    GIXP_BAD_FETCH = 60,      /* 60 to 79: the fetch failed */
    GIXP_NO_FEATURE = 63,     /* the server lacks what a limit or a boundary needs: the fetch isn't requested */
    GIXP_NO_FILTERS = 70,     /* there is a filter, and the server offers none: nothing is requested */
    GIXP_BAD_FILTER = 80,     /* 80 to 89: an argument of a session is invalid. 80: the filter isn't UTF-8 */
    GIXP_BAD_NAME = 81,       /* an excluded ref has an invalid name */
    GIXP_BAD_LIMIT = 82       /* there is no such limit of the history */
};

/* A text, by its offset in the bytes that the caller passed, and its length. */
typedef struct gixp_span {
    size_t at;
    size_t len;
} gixp_span;

/* Kinds of refs. */
enum {
    GIXP_DIRECT = 1,          /* a ref to an object */
    GIXP_PEELED = 2,          /* a ref to a tag, with the peeled object */
    GIXP_SYMBOLIC = 3,        /* a symbolic ref whose target is a ref to an object */
    GIXP_SYMBOLIC_TAG = 4,    /* a symbolic ref whose target is a ref to a tag */
    GIXP_UNBORN = 5           /* a symbolic ref whose target is unborn */
};

/* A ref. Ids have 20 bytes. A missing id is zeros. */
typedef struct gixp_ref {
    uint32_t kind;
    uint8_t object[20];
    uint8_t tag[20];
    gixp_span name;
    gixp_span target;
} gixp_ref;

/* The result of gixp_refs or gixp_advertised. */
typedef struct gixp_found {
    size_t count;             /* the number of records written; with GIXP_NO_ROOM, the number needed at least */
    size_t next;              /* the offset after what was read, or of the error */
    gixp_span words;          /* with GIXP_SERVER, the server's message */
} gixp_found;

/* Reads refs of a version 2 `ls-refs` response from an offset on, until the records are full. GIXP_OK: the response's stop was read, and
 * `next` is after it. GIXP_MORE: call again with `next`. Any other number is an error at `next`, and the records have the refs before
 * it. */
uint32_t gixp_refs(const uint8_t *answer, size_t answer_len, size_t from, gixp_ref *records, size_t records_len, gixp_found *found);

/* Reads refs of a version 0 or 1 advertisement from an offset on, at first from 0, until the records are full. `answer` begins with the
 * server's first packet line. A tag has one record for its ref line and its peeled line. Shallow lines and the line of an empty
 * repository have none. Results are as of gixp_refs, but an error may be after `next`, since a ref line is read only when the next line
 * is known. */
uint32_t gixp_advertised(const uint8_t *answer, size_t answer_len, size_t from, gixp_ref *records, size_t records_len,
                         gixp_found *found);

/* A packet line of a pack. */
typedef struct gixp_piece_record {
    uint32_t band;            /* 0 the end of the pack, 1 bytes of the pack, 2 a progress message, 3 an error message */
    gixp_span text;
    size_t next;              /* the offset after it */
} gixp_piece_record;

/* The packet line at an offset of a response, after the sections. */
uint32_t gixp_piece(const uint8_t *answer, size_t answer_len, size_t from, gixp_piece_record *piece);

/* A mapping, a removed mapping, or a conflict. */
typedef struct gixp_mapping {
    size_t item;              /* the index of the ref; if the source is an object id, the number of refs; of a conflict, the number of
                                 mappings with this local name */
    size_t spec;              /* the index of the refspec; of a removed mapping or a conflict, the number of refspecs */
    uint32_t has_local;       /* 1 if there is a local name, otherwise 0 */
    gixp_span local;          /* the local name, in the buffer of names */
} gixp_mapping;

/* The sizes of the result. */
typedef struct gixp_mapped {
    size_t mappings;          /* the number of mappings, or of conflicts */
    size_t fixes;             /* the number of removed mappings, after the others: their local name isn't a ref's */
    size_t names;             /* the length of all local names together, in bytes */
} gixp_mapped;

/* Maps refs by refspecs, one per line. A source that is `@` alone means `HEAD`, also in the other calls. The names of the refs are
 * spans of `answer`. GIXP_OK: the records have the mappings, and the buffer has the local names. GIXP_CONFLICT: the records are
 * conflicts. GIXP_NO_ROOM: `counts` has the required sizes of both buffers. */
uint32_t gixp_map(const uint8_t *answer, size_t answer_len, const gixp_ref *refs, size_t refs_len, const uint8_t *specs,
                  size_t specs_len, gixp_mapping *mappings, size_t mappings_len, uint8_t *names, size_t names_len,
                  gixp_mapped *counts);

/* The ref prefixes of refspecs, one per line, each followed by an LF. */
uint32_t gixp_prefixes(const uint8_t *specs, size_t specs_len, uint8_t *buffer, size_t buffer_len, size_t *len);

/* Limits of the history. */
enum {
    GIXP_DEPTH = 0,           /* `depth` commits from each ref; a depth of 0 leaves the boundary unchanged */
    GIXP_DEEPEN = 1,          /* `depth` commits more than there are now */
    GIXP_SINCE = 2,           /* the commits since `since` */
    GIXP_EXCLUDE = 3,         /* the commits that no ref in `excluded` reaches */
    GIXP_SINCE_EXCLUDE = 4    /* the commits since `since` that no ref in `excluded` reaches */
};

/* The arguments of a session. The refspecs and the excluded refs are one per line. If each refspec names an object by its id, a server
 * of version 2 isn't asked for its refs. Ids have 20 bytes each. `haves` are objects that exist locally. They are offered in this order,
 * and never requested. `boundary` is the local repository's shallow boundary. `filter` says which objects the server leaves out, as
 * `git rev-list --filter`. If it is empty, there is none. `since` is a time in seconds since 1970-01-01 00:00:00 UTC. The limit says
 * which of the last four fields count. */
typedef struct gixp_session_input {
    const uint8_t *specs;
    size_t specs_len;
    const uint8_t *haves;
    size_t haves_len;
    const uint8_t *boundary;
    size_t boundary_len;
    const uint8_t *filter;
    size_t filter_len;
    const uint8_t *excluded;
    size_t excluded_len;
    int64_t since;
    uint32_t depth;
    uint32_t limit;
} gixp_session_input;

/* The caller's next action. */
typedef struct gixp_step {
    uint32_t kind;            /* 0 nothing to request, 1 send the request, 2 take the pack */
    size_t length;            /* the length of the request, of the boundary after the pack, or of the server's message */
    size_t place;             /* the offset of the pack in the responses */
} gixp_step;

/* The caller's next action, from the server's responses so far: first its advertisement for `git-upload-pack`, then the response to each
 * request that this call wrote. `answers` has them one after another, and `ends` the offset at which each ends. The last response may be
 * incomplete if it reaches to the pack. For a shorter one the result is GIXP_INCOMPLETE. But for the response to a fetch under version 0
 * or 1, which may end without a pack, it is GIXP_BAD_FETCH + 1.
 *
 * `request` receives the request. With a pack it receives the ids of the shallow boundary after it: store them in place of `boundary` if
 * the session has a limit, or if the repository has no objects yet. A server whose own repository is shallow changes the boundary even
 * without a limit. In a repository with objects such a boundary hides history: git rejects these refs, unless `--update-shallow` is set.
 *
 * With GIXP_NO_ROOM, `length` is the size that `request` needs. With GIXP_SERVER, it is the length of the server's message, and
 * `request` has the message if it is large enough. */
uint32_t gixp_next(const uint8_t *answers, size_t answers_len, const size_t *ends, size_t ends_len, const gixp_session_input *input,
                   uint8_t *request, size_t request_len, gixp_step *step);

/* The text of a number that a call returned, in ASCII, without a NUL. */
uint32_t gixp_error_text(uint32_t code, uint8_t *buffer, size_t buffer_len, size_t *len);

#ifdef __cplusplus
}
#endif

#endif
