/* Calls each export with buffers of exactly the length that is passed, so that valgrind reports each access beyond them. Built with
 * `--wrap=malloc` and `--wrap=realloc`, so that each allocation can be made to fail in turn. */
#include <assert.h>
#include <stdio.h>
#include <stdlib.h>
#include <string.h>

#include "gixp.h"

static long allowed = -1; /* the number of allocations before one fails; -1: none fails */

void *__real_malloc(size_t size);
void *__real_realloc(void *old, size_t size);

static int refused(void)
{
    return allowed >= 0 && allowed-- == 0;
}

void *__wrap_malloc(size_t size)
{
    return refused() ? NULL : __real_malloc(size);
}

void *__wrap_realloc(void *old, size_t size)
{
    return refused() ? NULL : __real_realloc(old, size);
}

static int passed, failed;

#define CHECK(what) ((what) ? (void)passed++ : (void)(failed++, printf("line %d: %s\n", __LINE__, #what)))

/* A copy in memory that ends with the text. */
static uint8_t *copy(const char *text, size_t len)
{
    uint8_t *bytes = __real_malloc(len ? len : 1);
    memcpy(bytes, text, len);
    return bytes;
}

#define ID "0123456789012345678901234567890123456789"
static const char LISTED[] = "0032" ID " HEAD\n" "003d" ID " refs/heads/main\n" "0000";

static int is_text(const uint8_t *bytes, gixp_span span, const char *text)
{
    return span.len == strlen(text) && memcmp(bytes + span.at, text, span.len) == 0;
}

static void refs(void)
{
    size_t len = strlen(LISTED);
    uint8_t *answer = copy(LISTED, len);
    gixp_ref *records = __real_malloc(2 * sizeof *records);
    gixp_found found = {7, 7, {7, 7}};
    CHECK(gixp_refs(answer, len, len + 1, records, 2, &found) == GIXP_BAD_PLACE && found.count == 7 && found.next == 7);
    CHECK(gixp_refs(answer, len, 0, records, 0, &found) == GIXP_NO_ROOM && found.count == 1 && found.next == 7);
    CHECK(gixp_refs(answer, len, 0, records, 1, &found) == GIXP_MORE && found.count == 1 && found.next == 50);
    CHECK(records[0].kind == GIXP_DIRECT && is_text(answer, records[0].name, "HEAD") && records[0].object[0] == 0x01);
    CHECK(gixp_refs(answer, len, found.next, records, 2, &found) == GIXP_OK && found.count == 1 && found.next == len);
    CHECK(is_text(answer, records[0].name, "refs/heads/main"));
    for (size_t cut = 0; cut < len; cut++) {
        uint8_t *part = copy(LISTED, cut);
        CHECK(gixp_refs(part, cut, 0, records, 2, &found) == (cut < 111 ? GIXP_INCOMPLETE : GIXP_MORE));
        free(part);
    }
    free(answer);
    answer = copy("", 0);
    CHECK(gixp_refs(answer, 0, 0, records, 2, &found) == GIXP_INCOMPLETE && found.count == 0 && found.next == 0);
    CHECK(gixp_refs(answer, 0, 1, records, 2, &found) == GIXP_BAD_PLACE);
    free(answer);
    static const struct { const char *text; uint32_t code; } rows[] = {
        {"zzzz", GIXP_BAD_HEX}, {"fff1", GIXP_TOO_LONG}, {"0004", GIXP_NO_PAYLOAD}, {"0003", GIXP_TOO_SHORT}, {"000aERR no", GIXP_SERVER},
        {"0002", GIXP_UNEXPECTED}, {"00", GIXP_INCOMPLETE}, {"0008x y\n", GIXP_BAD_ID}, {"0006a\n", GIXP_BAD_LINE},
        {"0033" ID " a b:c\n", GIXP_BAD_ATTRIBUTE}, {"000dunborn a\n", GIXP_BAD_UNBORN}, {"0001", GIXP_OK},
        {"0031" ID " a\xc2\xa0\n", GIXP_BAD_LINE},
    };
    for (size_t i = 0; i < sizeof rows / sizeof *rows; i++) {
        uint8_t *bytes = copy(rows[i].text, strlen(rows[i].text));
        CHECK(gixp_refs(bytes, strlen(rows[i].text), 0, records, 2, &found) == rows[i].code && found.count == 0);
        CHECK((found.words.len == 2) == (rows[i].code == GIXP_SERVER));
        free(bytes);
    }
    free(records);
}

#define OTHER "89abcdef0123456789abcdef0123456789abcdef"
#define CAPS "symref=HEAD:refs/heads/main agent=git/2"

/* An advertisement of version 1. */
static const char FIRST[] = "000eversion 1\n" "005a" ID " HEAD\0" CAPS "\n" "003d" ID " refs/heads/main\n"
                            "003a" OTHER " refs/tags/v1\n" "003d" ID " refs/tags/v1^{}\n" "0035shallow " OTHER "\n" "0000";

static uint32_t advertised(const char *text, size_t len, size_t from, gixp_ref *records, size_t room, gixp_found *found)
{
    uint8_t *answer = copy(text, len);
    uint32_t code = gixp_advertised(answer, len, from, records, room, found);
    free(answer);
    return code;
}

static void advertisements(void)
{
    size_t len = sizeof FIRST - 1, from = 0;
    const uint8_t *answer = (const uint8_t *)FIRST;
    gixp_ref *records = __real_malloc(3 * sizeof *records);
    gixp_found found = {7, 7, {7, 7}};
    CHECK(advertised(FIRST, len, len + 1, records, 3, &found) == GIXP_BAD_PLACE && found.count == 7 && found.next == 7);
    CHECK(advertised(FIRST, len, 0, records, 0, &found) == GIXP_NO_ROOM && found.count == 1 && found.next == 7);
    CHECK(advertised(FIRST, len, 0, records, 3, &found) == GIXP_MORE && found.count == 3);
    CHECK(records[0].kind == GIXP_SYMBOLIC && is_text(answer, records[0].name, "HEAD"));
    CHECK(is_text(answer, records[0].target, "refs/heads/main") && records[0].object[0] == 0x01);
    CHECK(records[1].kind == GIXP_DIRECT && is_text(answer, records[1].name, "refs/heads/main"));
    CHECK(records[2].kind == GIXP_PEELED && is_text(answer, records[2].name, "refs/tags/v1"));
    CHECK(records[2].tag[0] == 0x89 && records[2].object[0] == 0x01);
    CHECK(advertised(FIRST, len, found.next, records, 3, &found) == GIXP_OK && found.count == 0 && found.next == len);
    /* one at a time */
    for (int i = 0; i < 3; i++, from = found.next)
        CHECK(advertised(FIRST, len, from, records, 1, &found) == GIXP_MORE && found.count == 1);
    CHECK(is_text(answer, records[0].name, "refs/tags/v1"));
    CHECK(advertised(FIRST, len, from, records, 1, &found) == GIXP_OK && found.count == 0);
    for (size_t cut = 0; cut < len; cut++)
        CHECK(advertised(FIRST, cut, 0, records, 3, &found) == (found.count < 3 ? GIXP_INCOMPLETE : GIXP_MORE));
    static const struct { const char *text; size_t len; uint32_t code; } rows[] = {
        {"zzzz", 4, GIXP_BAD_HEX}, {"fff1", 4, GIXP_TOO_LONG}, {"0004", 4, GIXP_NO_PAYLOAD}, {"0003", 4, GIXP_TOO_SHORT},
        {"000aERR no", 10, GIXP_SERVER}, {"0001", 4, GIXP_UNEXPECTED}, {"00", 2, GIXP_INCOMPLETE}, {"", 0, GIXP_INCOMPLETE},
        {"0006a\n", 6, GIXP_NO_CAPABILITIES}, {"000eversion 2\n", 14, GIXP_VERSION_TWO}, {"000eversion 3\n", 14, GIXP_UNKNOWN_VERSION},
        {"000ax y\0a\n", 10, GIXP_BAD_ID}, {"0007a\0\n", 7, GIXP_BAD_LINE}, {"0032" ID " H^{}\0", 50, GIXP_BAD_PEELED},
        {"0037" ID " H\0symref=H\n", 55, GIXP_BAD_SYMREF}, {"0000", 4, GIXP_OK}, {"0031" ID " H\xc2\xa0\0", 49, GIXP_BAD_LINE},
    };
    for (size_t i = 0; i < sizeof rows / sizeof *rows; i++) {
        CHECK(advertised(rows[i].text, rows[i].len, 0, records, 3, &found) == rows[i].code && found.count == 0);
        CHECK((found.words.len == 2) == (rows[i].code == GIXP_SERVER));
    }
    allowed = 0;
    CHECK(advertised(FIRST, len, 0, records, 3, &found) == GIXP_NO_MEMORY && found.count == 0 && found.next == 0);
    allowed = -1;
    free(records);
}

static void pieces(void)
{
    static const char text[] = "0009\001PACK" "000a\002half\n" "0005\001" "000b\003wrong\n" "0005\004";
    size_t len = sizeof text - 1;
    uint8_t *answer = copy(text, len);
    gixp_piece_record piece;
    CHECK(gixp_piece(answer, len, 0, &piece) == GIXP_OK && piece.band == 1 && is_text(answer, piece.text, "PACK"));
    CHECK(gixp_piece(answer, len, piece.next, &piece) == GIXP_OK && piece.band == 2 && is_text(answer, piece.text, "half"));
    CHECK(gixp_piece(answer, len, piece.next, &piece) == GIXP_OK && piece.band == 1 && piece.text.len == 0);
    CHECK(gixp_piece(answer, len, piece.next, &piece) == GIXP_OK && piece.band == 3 && is_text(answer, piece.text, "wrong"));
    CHECK(gixp_piece(answer, len, piece.next, &piece) == GIXP_UNKNOWN_BAND);
    CHECK(gixp_piece(answer, len, len, &piece) == GIXP_INCOMPLETE);
    CHECK(gixp_piece(answer, len, len + 1, &piece) == GIXP_BAD_PLACE);
    free(answer);
}

static void texts(void)
{
    size_t len = 0;
    uint8_t *none = copy("", 0);
    CHECK(gixp_error_text(GIXP_SERVER, none, 0, &len) == GIXP_NO_ROOM && len > 0);
    uint8_t *text = __real_malloc(len);
    CHECK(gixp_error_text(GIXP_SERVER, text, len, &len) == GIXP_OK && memcmp(text, "the server", 10) == 0);
    free(text);
    free(none);
}

static const char NAMES[] = "refs/heads/mainHEAD";

static uint32_t mapped(const char *specs, size_t name_len, gixp_mapping *maps, size_t maps_len, uint8_t *names, size_t names_len,
                       gixp_mapped *counts)
{
    uint8_t *text = copy(NAMES, strlen(NAMES)), *lines = copy(specs, strlen(specs));
    gixp_ref *refs = __real_malloc(2 * sizeof *refs);
    memset(refs, 0, 2 * sizeof *refs);
    refs[0].name = (gixp_span){0, 15};
    refs[1].name = (gixp_span){15, name_len};
    uint32_t code = gixp_map(text, strlen(NAMES), refs, 2, lines, strlen(specs), maps, maps_len, names, names_len, counts);
    free(refs);
    free(lines);
    free(text);
    return code;
}

static void maps(void)
{
    static const char specs[] = "refs/heads/*:refs/remotes/o/*\n\nHEAD\n";
    gixp_mapping *records = __real_malloc(2 * sizeof *records), none;
    uint8_t *names = __real_malloc(19), *empty = copy("", 0);
    gixp_mapped counts = {7, 7, 7};
    CHECK(mapped(specs, 5, records, 2, names, 19, &counts) == GIXP_BAD_PLACE && counts.mappings == 7);
    CHECK(mapped(specs, (size_t)-1, records, 2, names, 19, &counts) == GIXP_BAD_PLACE && counts.names == 7);
    CHECK(mapped(specs, 4, &none, 0, empty, 0, &counts) == GIXP_NO_ROOM && counts.mappings == 2 && counts.names == 19);
    CHECK(mapped(specs, 4, records, 2, names, 18, &counts) == GIXP_NO_ROOM && counts.fixes == 0);
    CHECK(mapped(specs, 4, records, 1, names, 19, &counts) == GIXP_NO_ROOM);
    CHECK(mapped(specs, 4, records, 2, names, 19, &counts) == GIXP_OK && counts.mappings == 2);
    CHECK(records[0].item == 0 && records[0].spec == 0 && records[0].has_local == 1);
    CHECK(is_text(names, records[0].local, "refs/remotes/o/main"));
    CHECK(records[1].item == 1 && records[1].spec == 1 && records[1].has_local == 0 && records[1].local.len == 0);
    CHECK(mapped("", 4, &none, 0, empty, 0, &counts) == GIXP_OK && counts.mappings == 0);
    CHECK(mapped("a:b:c", 4, records, 2, names, 19, &counts) >= GIXP_BAD_SPEC && counts.mappings == 0);
    CHECK(mapped("HEAD:refs/x\nrefs/heads/main:refs/x", 4, records, 2, names, 19, &counts) == GIXP_CONFLICT && counts.mappings == 1);
    CHECK(records[0].item == 2 && is_text(names, records[0].local, "refs/x"));
    /* a local name without slashes means a branch; that of a pattern is unchanged, and its mapping is removed if it isn't a ref's name */
    CHECK(mapped("refs/heads/main:x", 4, records, 2, names, 19, &counts) == GIXP_OK && counts.mappings == 1 && counts.fixes == 0);
    CHECK(records[0].has_local == 1 && is_text(names, records[0].local, "refs/heads/x"));
    CHECK(mapped("refs/heads/*:x/*", 4, records, 2, names, 19, &counts) == GIXP_OK && counts.mappings == 0 && counts.fixes == 1);
    CHECK(records[0].has_local == 1 && is_text(names, records[0].local, "x/main"));
    uint32_t code = GIXP_NO_MEMORY;
    long tried = 0;
    for (; code == GIXP_NO_MEMORY && tried < 1000; tried++) {
        allowed = tried;
        counts.mappings = 7;
        code = mapped(specs, 4, records, 2, names, 19, &counts);
        CHECK(code != GIXP_NO_MEMORY || counts.mappings == 7);
        if (allowed >= 0)
            break;
    }
    allowed = -1;
    CHECK(code == GIXP_OK && tried > 0);
    free(empty);
    free(names);
    free(records);
}

static void prefixes(void)
{
    static const char specs[] = "refs/heads/*:refs/remotes/o/*";
    uint8_t *text = copy(specs, strlen(specs)), *room = __real_malloc(12), *empty = copy("", 0);
    size_t len = 7;
    CHECK(gixp_prefixes(text, strlen(specs), empty, 0, &len) == GIXP_NO_ROOM && len == 12);
    CHECK(gixp_prefixes(text, strlen(specs), room, 11, &len) == GIXP_NO_ROOM && len == 12);
    CHECK(gixp_prefixes(text, strlen(specs), room, 12, &len) == GIXP_OK && memcmp(room, "refs/heads/\n", 12) == 0);
    CHECK(gixp_prefixes(empty, 0, empty, 0, &len) == GIXP_OK && len == 0);
    uint8_t *head = copy("+@:refs/x", 9);
    CHECK(gixp_prefixes(head, 9, room, 12, &len) == GIXP_OK && len == 5 && memcmp(room, "HEAD\n", 5) == 0);
    free(head);
    uint32_t code = GIXP_NO_MEMORY;
    long tried = 0;
    for (; code == GIXP_NO_MEMORY && tried < 1000; tried++) {
        allowed = tried;
        len = 7;
        code = gixp_prefixes(text, strlen(specs), room, 12, &len);
        CHECK(code != GIXP_NO_MEMORY || len == 7);
        if (allowed >= 0)
            break;
    }
    allowed = -1;
    CHECK(code == GIXP_OK && tried > 0);
    free(empty);
    free(room);
    free(text);
}

static const char GREETING[] = "000eversion 2\n0013ls-refs=unborn\n0012fetch=shallow\n0000";
static const char SPEC[] = "refs/heads/*:refs/remotes/origin/*";

/* The step after these responses. */
static uint32_t next(const char *answers, const size_t *ends, size_t count, uint8_t *request, size_t room, gixp_step *step)
{
    size_t len = count ? ends[count - 1] : 0;
    uint8_t *bytes = copy(answers, len), *none = copy("", 0), *spec = copy(SPEC, strlen(SPEC));
    gixp_session_input input = {spec, strlen(SPEC), none, 0, none, 0, none, 0, none, 0, 0, 0, GIXP_DEPTH};
    uint32_t code = gixp_next(bytes, len, ends, count, &input, request, room, step);
    free(spec);
    free(none);
    free(bytes);
    return code;
}

static void session(void)
{
    char answers[512];
    size_t ends[2];
    gixp_step step = {9, 9, 9};
    uint8_t *room = __real_malloc(4096), *few = __real_malloc(10);
    ends[0] = strlen(GREETING);
    ends[1] = ends[0] + strlen(LISTED);
    snprintf(answers, sizeof answers, "%s%s", GREETING, LISTED);
    CHECK(next(answers, ends, 0, room, 4096, &step) == GIXP_NO_ANSWER);
    CHECK(next(answers, ends, 1, few, 10, &step) == GIXP_NO_ROOM && step.kind == 9 && step.length > 10);
    size_t needed = step.length;
    CHECK(next(answers, ends, 1, room, needed, &step) == GIXP_OK && step.kind == 1 && step.length == needed);
    CHECK(memcmp(room, "0014command=ls-refs\n", 20) == 0);
    CHECK(next(answers, ends, 2, room, 4096, &step) == GIXP_OK && step.kind == 1 && memcmp(room, "0012command=fetch\n", 18) == 0);
    answers[ends[1] - 1] = '1';
    CHECK(next(answers, ends, 2, room, 4096, &step) == GIXP_UNTERMINATED_REFS);
    answers[ends[1] - 1] = '0';
    for (ends[1]--; ends[1] >= ends[0]; ends[1]--)
        CHECK(next(answers, ends, 2, room, 4096, &step) == GIXP_INCOMPLETE);
    /* a name that ends in white space outside ASCII, and one before ASCII blanks */
    snprintf(answers, sizeof answers, "%s%s", GREETING, "003c" ID " refs/heads/x\xc2\xa0\n" "0000");
    ends[1] = strlen(answers);
    CHECK(next(answers, ends, 2, room, 4096, &step) == GIXP_BAD_LINE && step.length == 0);
    snprintf(answers, sizeof answers, "%s%s", GREETING, "003c" ID " refs/heads/x \t\n" "0000");
    CHECK(next(answers, ends, 2, room, 4096, &step) == GIXP_OK && step.kind == 1 && memcmp(room, "0012command=fetch\n", 18) == 0);
    snprintf(answers, sizeof answers, "%s%s", GREETING, LISTED);
    size_t len = strlen(SPEC);
    uint8_t *bytes = copy(GREETING, ends[0]), *spec = copy(SPEC, len), *ids = copy(LISTED, 40), *empty = copy("", 0);
    static const size_t wrong[][2] = {{19, 0}, {21, 20}, {20, 1}, {0, 39}};
    for (size_t i = 0; i < sizeof wrong / sizeof *wrong; i++)
    {
        gixp_session_input input = {spec, len, ids, wrong[i][0], ids, wrong[i][1], ids, 0, ids, 0, 0, 0, GIXP_DEPTH};
        CHECK(gixp_next(bytes, ends[0], ends, 1, &input, room, 4096, &step) == GIXP_BAD_PLACE && step.length == 0);
    }
    gixp_session_input some = {spec, len, ids, 40, ids, 20, empty, 0, empty, 0, 0, 3, GIXP_DEPTH};
    gixp_session_input none = {spec, len, empty, 0, empty, 0, empty, 0, empty, 0, 0, 0, GIXP_DEPTH};
    CHECK(gixp_next(bytes, ends[0], ends, 1, &some, empty, 0, &step) == GIXP_NO_ROOM && step.length == needed);
    CHECK(gixp_next(empty, 0, ends, 0, &none, room, 4096, &step) == GIXP_NO_ANSWER);
    free(empty);
    free(ids);
    free(spec);
    free(bytes);
    ends[1] = ends[0] - 1;
    CHECK(next(answers, ends, 2, room, 4096, &step) == GIXP_BAD_PLACE);
    ends[1] = ends[0] + strlen(LISTED);
    /* each allocation fails in turn: the call fails, or it succeeds with a smaller allocation and the same step */
    uint32_t code = GIXP_NO_MEMORY;
    long tried = 0, failures = 0;
    for (; tried < 1000; tried++) {
        allowed = tried;
        code = next(answers, ends, 2, room, 4096, &step);
        if (allowed >= 0)
            break;
        CHECK(code == GIXP_NO_MEMORY || (code == GIXP_OK && step.kind == 1 && memcmp(room, "0012command=fetch\n", 18) == 0));
        failures += code == GIXP_NO_MEMORY;
    }
    allowed = -1;
    CHECK(code == GIXP_OK && tried < 1000 && failures > 10);
    free(few);
    free(room);
}

static const char FILTERS[] = "000eversion 2\n0013ls-refs=unborn\n0019fetch=shallow filter\n0000";
static const char LACKING[] = "000eversion 2\n000cls-refs\n000afetch\n0000";
#define NEW "1111111111111111111111111111111111111111"
#define OLD "3031323334353637383930313233343536373839"

/* The step of a session whose texts are these. `ids` has the boundary: OLD, as 20 bytes. */
static uint32_t limited(const char *greeting, const char *more, const char *filter, const char *excluded, const int64_t limit[3],
                        uint8_t *request, size_t room, gixp_step *step)
{
    char answers[1024];
    size_t ends[3], count = 2;
    snprintf(answers, sizeof answers, "%s%s%s", greeting, LISTED, more);
    ends[0] = strlen(greeting);
    ends[1] = ends[0] + strlen(LISTED);
    ends[2] = strlen(answers);
    count += ends[2] > ends[1];
    uint8_t *bytes = copy(answers, ends[2]), *spec = copy(SPEC, strlen(SPEC)), *none = copy("", 0), *ids = copy("01234567890123456789", 20);
    uint8_t *text = copy(filter, strlen(filter)), *names = copy(excluded, strlen(excluded));
    gixp_session_input input = {spec,   strlen(SPEC), none,  0, ids, 20, text, strlen(filter), names, strlen(excluded), limit[1],
                                (uint32_t)limit[2], (uint32_t)limit[0]};
    uint32_t code = gixp_next(bytes, ends[count - 1], ends, count, &input, request, room, step);
    free(names);
    free(text);
    free(ids);
    free(none);
    free(spec);
    free(bytes);
    return code;
}

static int has(const uint8_t *request, size_t len, const char *line)
{
    size_t size = strlen(line);
    for (size_t at = 0; at + size <= len; at++)
        if (memcmp(request + at, line, size) == 0)
            return 1;
    return 0;
}

static void limits(void)
{
    static const struct { int64_t limit[3]; const char *filter, *excluded, *first, *second; } rows[] = {
        {{GIXP_DEPTH, 9, 3}, "", "x", "000ddeepen 3\n", "shallow " OLD},
        {{GIXP_DEEPEN, 9, 3}, "", "x", "000ddeepen 3\n", "0014deepen-relative\n"},
        {{GIXP_SINCE, -9, 3}, "", "x", "0014deepen-since -9\n", "0035shallow " OLD "\n"},
        {{GIXP_EXCLUDE, 9, 3}, "", "x\nrefs/y", "0011deepen-not x\n", "0016deepen-not refs/y\n"},
        {{GIXP_SINCE_EXCLUDE, 9, 3}, "", "x\n", "0013deepen-since 9\n", "0011deepen-not x\n"},
        {{GIXP_DEPTH, 9, 0}, "blob:none", "", "0015filter blob:none\n", "want"},
    };
    uint8_t *room = __real_malloc(4096), *few = __real_malloc(10);
    gixp_step step = {9, 9, 9};
    for (size_t i = 0; i < sizeof rows / sizeof *rows; i++) {
        CHECK(limited(FILTERS, "", rows[i].filter, rows[i].excluded, rows[i].limit, room, 4096, &step) == GIXP_OK && step.kind == 1);
        CHECK(has(room, step.length, rows[i].first) && has(room, step.length, rows[i].second));
        uint32_t code = *rows[i].filter ? GIXP_NO_FILTERS : GIXP_NO_FEATURE;
        CHECK(limited(LACKING, "", rows[i].filter, rows[i].excluded, rows[i].limit, room, 4096, &step) == code && step.length == 0);
    }
    static const int64_t none[3] = {GIXP_DEPTH, 0, 0}, one[3] = {GIXP_DEPTH, 0, 1}, unknown[3] = {5, 0, 0}, not[3] = {GIXP_EXCLUDE, 0, 0};
    CHECK(limited(FILTERS, "", "\xff", "", none, room, 4096, &step) == GIXP_BAD_FILTER);
    CHECK(limited(FILTERS, "", "", "a..b", not, room, 4096, &step) == GIXP_BAD_NAME);
    CHECK(limited(FILTERS, "", "", "a..b", none, room, 4096, &step) == GIXP_OK);
    CHECK(limited(FILTERS, "", "", "", unknown, room, 4096, &step) == GIXP_BAD_LIMIT);
    static const char pack[] = "0010shallow-info0034shallow " NEW "0036unshallow " OLD "0001000dpackfile\n";
    memset(room, 0, 40);
    step = (gixp_step){9, 9, 9};
    CHECK(limited(FILTERS, pack, "", "", one, few, 10, &step) == GIXP_NO_ROOM && step.kind == 9 && step.length == 20 && step.place == 9);
    CHECK(limited(FILTERS, pack, "", "", one, room, 20, &step) == GIXP_OK && step.kind == 2 && step.length == 20);
    CHECK(step.place == strlen(FILTERS) + strlen(LISTED) + strlen(pack) && room[0] == 0x11 && room[19] == 0x11 && room[20] == 0);
    CHECK(limited(FILTERS, "000dpackfile\n", "", "", one, room, 4096, &step) == GIXP_OK && memcmp(room, "01234567890123456789", 20) == 0);
    uint32_t code = GIXP_NO_MEMORY;
    long tried = 0;
    for (; tried < 1000; tried++) {
        allowed = tried;
        step.length = 9;
        code = limited(FILTERS, pack, "tree:0", "x", one, room, 4096, &step);
        if (allowed >= 0)
            break;
        CHECK(code == GIXP_NO_MEMORY ? step.length == 0 : code == GIXP_OK && step.length == 20);
    }
    allowed = -1;
    CHECK(code == GIXP_OK && tried > 10);
    free(few);
    free(room);
}

int main(void)
{
    refs();
    advertisements();
    pieces();
    texts();
    maps();
    prefixes();
    session();
    limits();
    printf("%d passed, %d failed\n", passed, failed);
    return failed != 0;
}
