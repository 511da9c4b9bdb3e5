/* refs FILE: the refs of a version 2 `ls-refs` answer, a line each, written once all of them are read. */
#include <fcntl.h>
#include <stdio.h>
#include <stdlib.h>
#include <string.h>
#include <unistd.h>

static unsigned char window[65520];
static size_t start, end;
static signed char value[256];
static char *text;
static size_t length, room;

static void refuse(void) { exit(1); }

/* Reads until so many bytes are there. */
static void fill(int file, size_t count) {
    while (end - start < count) {
        memmove(window, window + start, end - start);
        end -= start;
        start = 0;
        ssize_t more = read(file, window + end, sizeof window - end);
        if (more <= 0) refuse();
        end += (size_t)more;
    }
}

static void read_id(const unsigned char *digits, size_t count, unsigned char *id) {
    int bad = 0;
    if (count != 40) refuse();
    for (int at = 0; at < 20; at++) {
        int high = value[digits[2 * at]], low = value[digits[2 * at + 1]];
        bad |= high | low;
        id[at] = (unsigned char)(high << 4 | low);
    }
    if (bad < 0) refuse();
}

static void put(const void *bytes, size_t count) {
    memcpy(text + length, bytes, count);
    length += count;
}

static void put_id(const unsigned char *id) {
    static const char digits[] = "0123456789abcdef";
    for (int at = 0; at < 20; at++) {
        text[length++] = digits[id[at] >> 4];
        text[length++] = digits[id[at] & 15];
    }
}

static void put_line(unsigned char *line, size_t size) {
    unsigned char id[20], peeled[20], *target = NULL;
    size_t target_size = 0;
    int is_peeled = 0;
    while (size && (line[size - 1] == '\n' || line[size - 1] == ' ')) size--;
    unsigned char *last = line + size, *blank = memchr(line, ' ', size);
    if (!blank) refuse();
    read_id(line, (size_t)(blank - line), id);
    unsigned char *name = blank + 1, *after = memchr(name, ' ', (size_t)(last - name));
    size_t name_size = (size_t)((after ? after : last) - name);
    if (!name_size) refuse();
    while (after) {
        unsigned char *word = after + 1;
        after = memchr(word, ' ', (size_t)(last - word));
        size_t count = (size_t)((after ? after : last) - word);
        if (count > 7 && !memcmp(word, "peeled:", 7)) {
            read_id(word + 7, count - 7, peeled);
            is_peeled = 1;
        } else if (count > 14 && !memcmp(word, "symref-target:", 14)) {
            target = word + 14;
            target_size = count - 14;
        } else {
            refuse();
        }
    }
    while (length + 160 + name_size + target_size > room) {
        room = room ? 2 * room : 65536;
        if (!(text = realloc(text, room))) exit(3);
    }
    put_id(id);
    put(" ", 1);
    put(name, name_size);
    if (target) {
        put(" symref-target:", 15);
        put(target, target_size);
    }
    if (is_peeled) {
        put(" peeled:", 8);
        put_id(peeled);
    }
    put("\n", 1);
}

int main(int count, char **words) {
    int file = count == 2 ? open(words[1], O_RDONLY) : -1;
    if (file < 0) return 2;
    memset(value, -1, sizeof value);
    for (signed char digit = 0; digit < 10; digit++) value['0' + digit] = digit;
    for (signed char digit = 0; digit < 6; digit++) value['a' + digit] = value['A' + digit] = 10 + digit;
    for (;;) {
        size_t size = 0;
        fill(file, 4);
        for (int at = 0; at < 4; at++) {
            int digit = value[window[start + at]];
            if (digit < 0) refuse();
            size = size * 16 + (size_t)digit;
        }
        if (size == 0) break;
        if (size < 5) refuse();
        fill(file, size);
        put_line(window + start + 4, size - 4);
        start += size;
    }
    for (size_t at = 0; at < length;) {
        ssize_t done = write(1, text + at, length - at);
        if (done <= 0) return 4;
        at += (size_t)done;
    }
    return 0;
}
