/*
 * What the header adds to the calls: version, limits, texts; and orbendash_whose, orbendash_mark
 * and orbendash_copy. Prints nothing and returns 0, or stops at the first that is wrong. What is
 * expected was written from the rules.
 */
#include "orbendash.h"

#include <stdio.h>
#include <stdlib.h>
#include <string.h>

/* The limits can be asked by the preprocessor. */
#if ORBENDASH_BYTES != 65536 || ORBENDASH_FIELDS != 512 || ORBENDASH_ENTRIES != 64 ||              \
    ORBENDASH_ENTRY_BYTES != 255 || ORBENDASH_COMMENTS != 16 || ORBENDASH_INSTANCES != 50 ||       \
    ORBENDASH_LIST_BYTES != 16384
#error "a limit is another one"
#endif

static uint8_t body[ORBENDASH_BYTES + 1];
static uint8_t list[ORBENDASH_LIST_BYTES + 2];
static uint8_t out[ORBENDASH_BYTES];

enum { UNTOUCHED = 170 };

static void expect(const char *what, int right) {
    if (!right) {
        fprintf(stderr, "wrong: %s\n", what);
        exit(1);
    }
}

static void whose(const char *own, const char *text, unsigned number, unsigned answer, size_t place) {
    orbendash_whose_answer a = orbendash_whose((const uint8_t *)own, strlen(own),
                                               (const uint8_t *)text, strlen(text));
    expect(text, a.number == number && a.whose == answer && a.place == place);
}

/* Whether all bytes lent from a place on are as they were. */
static int untouched(size_t from) {
    while (from < sizeof out && out[from] == UNTOUCHED)
        from++;
    return from == sizeof out;
}

/* What mark answers, and what it writes into so many bytes: the marks, or nothing. */
static void mark(const char *own, const void *block, size_t length, size_t room, unsigned number,
                 size_t place, const char *marks, size_t written) {
    memset(out, UNTOUCHED, sizeof out);
    orbendash_mark_answer a = orbendash_mark((const uint8_t *)block, length, (const uint8_t *)own,
                                             strlen(own), out, room);
    expect("mark", a.number == number && a.place == place && a.written == written);
    expect("marks", memcmp(out, marks, written) == 0 && untouched(written));
}

/* What copy answers where it is refused: all counts are 0, and nothing is written. */
static void copy_refused(const char *own, const void *block, size_t length, const char *marks,
                         size_t count, size_t room, unsigned number, size_t place) {
    memset(out, UNTOUCHED, sizeof out);
    orbendash_copy_answer a = orbendash_copy((const uint8_t *)block, length, (const uint8_t *)own,
                                             strlen(own), (const uint8_t *)marks, count, out, room);
    expect("copy", a.number == number && a.place == place);
    expect("counts", a.kept == 0 && a.removed == 0 && a.fields == 0 && untouched(0));
}

/* What copy writes where it is not. */
static void copy(const char *own, const char *block, const char *marks, size_t count, size_t room,
                 const char *rest, size_t fields) {
    size_t length = strlen(block), kept = strlen(rest);
    memset(out, UNTOUCHED, sizeof out);
    orbendash_copy_answer a =
        orbendash_copy((const uint8_t *)block, length, (const uint8_t *)own, strlen(own),
                       (const uint8_t *)marks, count, out, room);
    expect("copied", a.number == 0 && a.place == 0 && a.fields == fields);
    expect("kept", a.kept == kept && a.removed == length - kept);
    expect("rest", memcmp(out, rest, kept) == 0 && untouched(kept));
}

/* Both steps: each number, the bytes written, and marks that are damaged. */
static void steps(void) {
    const char *own = "a.example\n", *other = "b.example\n";
    const char *ours = "Authentication-Results: A.example; none\r\n";
    const char *block = "From: x\r\n"
                        "Authentication-Results: a.example; none\r\n"
                        "Authentication-Results: b.example; none\r\n"
                        "authentication-results :/\r\n";
    const char *rest = "From: x\r\nAuthentication-Results: b.example; none\r\n";
    const char *right = "\0\1\0\1";
    size_t length = strlen(block), kept = strlen(rest);
    static uint8_t many[4 * (ORBENDASH_FIELDS + 1)];
    static char zeros[ORBENDASH_FIELDS + 1];

    /* 0, with the room that it needs and with more; the empty block has no marks. */
    mark(own, block, length, 4, 0, 0, right, 4);
    mark(own, block, length, sizeof out, 0, 0, right, 4);
    mark("", block, length, 4, 0, 0, "\0\0\0\1", 4);
    mark(other, block, length, 4, 0, 0, "\0\0\1\1", 4);
    mark(own, "", 0, 0, 0, 0, "", 0);
    copy(own, block, right, 4, kept, rest, 2);
    copy(own, block, right, 4, sizeof out, rest, 2);
    copy(own, "", "", 0, 0, "", 0);
    copy(own, ours, "\1", 1, 0, "", 1);

    /* 6: one byte too few. */
    mark(own, block, length, 3, 6, 4, "", 0);
    copy_refused(own, block, length, right, 4, kept - 1, 6, kept);

    /* 13, before 6: other marks, of another list, one fewer, one more, none, as digits. */
    static const char *const damaged[] = {"\1\1\0\1", "\0\0\0\1", "\0\1\1\1", "\0\1\0\0",
                                          "\0\2\0\1", "\1\0\1\0", "0101",     "\0\377\0\1"};
    for (size_t i = 0; i < sizeof damaged / sizeof *damaged; i++)
        copy_refused(own, block, length, damaged[i], 4, sizeof out, 13, 0);
    copy_refused(own, block, length, damaged[0], 4, 0, 13, 0);
    copy_refused(other, block, length, right, 4, sizeof out, 13, 0);
    copy_refused(own, block, length, right, 3, sizeof out, 13, 0);
    copy_refused(own, block, length, "\0\1\0\1\0", 5, sizeof out, 13, 0);
    copy_refused(own, block, length, right, 0, sizeof out, 13, 0);
    copy_refused(own, "", 0, right, 1, sizeof out, 13, 0);

    /* 2, 3, 5 and 1, before 13 and 6. */
    mark(own, "From: x\nA:\r\n", 12, 0, 2, 7, "", 0);
    copy_refused(own, "From: x\nA:\r\n", 12, right, 4, 0, 2, 7);
    mark(own, "From: x\r\n\r\n", 11, 0, 3, 9, "", 0);
    copy_refused(own, "From: x\r\n\r\n", 11, right, 4, 0, 3, 9);
    mark("a\n\n", "\n", 1, 0, 5, 2, "", 0);
    copy_refused("a\n\n", "\n", 1, right, 4, 0, 5, 2);
    mark("a\n\n", body, sizeof body, 0, 1, 0, "", 0);
    copy_refused("a\n\n", body, sizeof body, right, 4, 0, 1, 0);

    /* 512 fields are marked, and a 513th is 4, whatever the marks are. */
    for (size_t i = 0; i <= ORBENDASH_FIELDS; i++)
        memcpy(many + 4 * i, "A:\r\n", 4);
    mark(own, many, 4 * ORBENDASH_FIELDS, ORBENDASH_FIELDS, 0, 0, zeros, ORBENDASH_FIELDS);
    mark(own, many, 4 * ORBENDASH_FIELDS, ORBENDASH_FIELDS - 1, 6, ORBENDASH_FIELDS, "", 0);
    mark(own, many, sizeof many, sizeof out, 4, 4 * ORBENDASH_FIELDS, "", 0);
    copy_refused(own, many, sizeof many, zeros, sizeof zeros, sizeof out, 4, 4 * ORBENDASH_FIELDS);
    copy_refused(own, many, 4 * ORBENDASH_FIELDS, zeros, sizeof zeros, sizeof out, 13, 0);
    copy_refused(own, many, 4 * ORBENDASH_FIELDS, zeros, ORBENDASH_FIELDS, 2047, 6, 2048);
}

int main(void) {
    expect("version", orbendash_version() == ORBENDASH_VERSION_NUMBER);
    expect("report room", ORBENDASH_REPORT_ROOM(ORBENDASH_BYTES) == 196612);

    /* Every number has a text of its own; one that no call gives, as 12, says so. */
    for (unsigned a = 0; a <= ORBENDASH_OTHER_MARKS; a++) {
        expect("text", strlen(orbendash_text(a)) > 3);
        for (unsigned b = 0; b < a; b++)
            expect("texts", strcmp(orbendash_text(a), orbendash_text(b)) != 0);
    }
    expect("no number", orbendash_text(12) == orbendash_text(255));
    expect("13", strcmp(orbendash_text(13), "the marks aren't those of this block and list") == 0);
    steps();

    const char *own = "a.example\nxn--bcher-kva.example\n";
    whose(own, " A.Example; none", 0, ORBENDASH_OURS, 0);
    whose(own, " (c) \"a.example\" rubbish", 0, ORBENDASH_OURS, 0);
    whose(own, "b\303\274cher.example", 0, ORBENDASH_OURS, 0);
    whose("b\303\274cher.example\n", "xn--bcher-kva.EXAMPLE;", 0, ORBENDASH_OURS, 0);
    whose(own, " b.example; none", 0, ORBENDASH_ANOTHERS, 0);
    whose(own, "a.example.", 0, ORBENDASH_ANOTHERS, 0);
    whose("", "a.example", 0, ORBENDASH_ANOTHERS, 0);
    whose(own, "", 0, ORBENDASH_NOT_READABLE, 0);
    whose(own, " ;none", 0, ORBENDASH_NOT_READABLE, 0);
    whose(own, " a.example/x; none", 0, ORBENDASH_NOT_READABLE, 0);
    whose("a\n\n", "a", 5, 0, 2);
    whose("a", "", 5, 0, 0);

    /* 65,536 bytes are read, one more is 1, before 5; 64 entries of 255 bytes, and a 65th. */
    memset(body, 'x', sizeof body);
    memset(list, 'x', sizeof list);
    for (size_t entry = 1; entry <= ORBENDASH_ENTRIES; entry++)
        list[entry * (ORBENDASH_ENTRY_BYTES + 1) - 1] = '\n';
    list[sizeof list - 1] = '\n';
    orbendash_whose_answer a = orbendash_whose(list, ORBENDASH_LIST_BYTES, body, ORBENDASH_BYTES);
    expect("limit", a.number == 0 && a.whose == ORBENDASH_ANOTHERS);
    a = orbendash_whose(list, ORBENDASH_LIST_BYTES, body, ORBENDASH_ENTRY_BYTES);
    expect("longest entry", a.number == 0 && a.whose == ORBENDASH_OURS);
    a = orbendash_whose(list, sizeof list, body, ORBENDASH_BYTES);
    expect("65th entry", a.number == 5 && a.whose == 0 && a.place == ORBENDASH_LIST_BYTES);
    a = orbendash_whose(list, sizeof list, body, sizeof body);
    expect("too long", a.number == 1 && a.whose == 0 && a.place == 0);
    return 0;
}
