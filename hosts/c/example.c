/*
 * Strips a header block, with a log line for each field before it is removed, reports what is left,
 * judges its ARC chain, and writes a field of our own that says what became of it.
 *
 *   cc -o example example.c $(pkg-config --cflags --libs orbendash)
 *   ./example BLOCK IDENTIFIER...
 *
 * or, before the library is installed, from the repository's root,
 *
 *   cc -o example hosts/c/example.c target/staticlib/liborbendash.a
 *
 * BLOCK is a file with a header block: lines ended by CRLF, without the empty line after it.
 * The identifiers are our own, as mx.example.com; our field has the first. One with international
 * labels may be given in UTF-8 or with its A-labels, as xn--bcher-kva.example: either strips the
 * fields of both.
 */
#include "orbendash.h"

#include <stdio.h>
#include <string.h>
#include <strings.h>

/* One byte more than a block may have, so that a longer file is refused and not cut. */
static uint8_t block[ORBENDASH_BYTES + 1];
static uint8_t kept[ORBENDASH_BYTES];
static uint8_t marks[ORBENDASH_FIELDS];
static uint8_t report[ORBENDASH_REPORT_ROOM(ORBENDASH_BYTES)];
static uint8_t list[ORBENDASH_LIST_BYTES];
static uint8_t verdicts[ORBENDASH_INSTANCES];
static uint8_t lines[3 * ORBENDASH_LIST_BYTES + 32];
static uint8_t body[ORBENDASH_BYTES];

static int refused(const char *call, unsigned number, size_t place) {
    fprintf(stderr, "%s: %u: %s, at %zu\n", call, number, orbendash_text(number), place);
    return (int)number;
}

static int is_named(const uint8_t *from, const orbendash_field_answer *field, const char *name) {
    size_t length = field->name_end - field->start;
    return length == strlen(name) &&
           strncasecmp((const char *)from + field->start, name, length) == 0;
}

/* Prints the first bytes of a field that is to be removed. They are a stranger's: no control byte
   may reach the terminal. A byte outside 32 to 126, and the backslash, is \x and two hex digits. */
static void log_field(size_t number, const uint8_t *from, size_t length) {
    enum { SHOWN = 60 };
    printf("removing field %zu: ", number);
    for (size_t i = 0; i < length && i < SHOWN; i++)
        printf(from[i] >= 32 && from[i] < 127 && from[i] != '\\' ? "%c" : "\\x%02x", from[i]);
    printf(length > SHOWN ? "...\n" : "\n");
}

/* Writes our own field from two report lines: an identifier from our list, which is no longer
   than that, and the status of the chain. In a text of a report a byte outside 33 to 126, and %,
   is % and two hex digits. */
static int write_field(const char *identifier, const char *status) {
    char *to = (char *)lines;
    size_t length = (size_t)sprintf(to, "id\t");
    for (const char *from = identifier; *from != 0; from++) {
        uint8_t byte = (uint8_t)*from;
        int plain = byte > 32 && byte < 127 && byte != '%';
        length += (size_t)sprintf(to + length, plain ? "%c" : "%%%02X", byte);
    }
    length += (size_t)sprintf(to + length, "\nm\tarc\t%s\n", status);
    orbendash_write_answer answer = orbendash_write(lines, length, body, sizeof body);
    if (answer.number != ORBENDASH_DONE)
        return refused("write", answer.number, answer.place);
    printf("Authentication-Results:");
    fwrite(body, 1, answer.written, stdout);
    printf("\r\n");
    return 0;
}

int main(int count, char **words) {
    if (orbendash_version() != ORBENDASH_VERSION_NUMBER) {
        fprintf(stderr, "the library is not of the header's version, %s\n", ORBENDASH_VERSION);
        return 70;
    }
    if (count < 2) {
        fprintf(stderr, "usage: %s BLOCK IDENTIFIER...\n", words[0]);
        return 64;
    }
    FILE *file = fopen(words[1], "rb");
    if (file == NULL) {
        perror(words[1]);
        return 66;
    }
    size_t length = fread(block, 1, sizeof block, file);
    if (ferror(file)) { /* a block that was cut short must not look like a whole one */
        perror(words[1]);
        fclose(file);
        return 74;
    }
    fclose(file);

    /* Each entry of the list is ended by LF. */
    size_t list_length = 0;
    for (int word = 2; word < count; word++) {
        size_t entry = strlen(words[word]);
        if (entry >= sizeof list - list_length) {
            fprintf(stderr, "too many identifiers\n");
            return 64;
        }
        memcpy(list + list_length, words[word], entry);
        list_length += entry;
        list[list_length++] = '\n';
    }

    /* First which fields go; each is logged while it is still there. The block is sound, or it
       would have been refused: the walk gives all its fields, as many as there are marks. */
    orbendash_mark_answer mark =
        orbendash_mark(block, length, list, list_length, marks, sizeof marks);
    if (mark.number != ORBENDASH_DONE)
        return refused("mark", mark.number, mark.place);
    size_t place = 0;
    for (size_t number = 1; number <= mark.written; number++) {
        orbendash_field_answer field = orbendash_next_field(block, length, place);
        place = field.end;
        if (marks[number - 1] == 1)
            log_field(number, block + field.start, field.end - 2 - field.start);
    }

    /* Then the rest is copied. */
    orbendash_copy_answer strip = orbendash_copy(block, length, list, list_length, marks,
                                                 mark.written, kept, sizeof kept);
    if (strip.number != ORBENDASH_DONE)
        return refused("copy", strip.number, strip.place);
    printf("stripped: %zu fields, %zu bytes removed, %zu bytes kept\n", strip.fields,
           strip.removed, strip.kept);

    /* What is left of a sound block is sound: the walk gives all its fields. */
    size_t seals = 0;
    place = 0;
    for (size_t number = 1;; number++) {
        orbendash_field_answer field = orbendash_next_field(kept, strip.kept, place);
        if (!field.found)
            break;
        place = field.end;
        seals += is_named(kept, &field, "ARC-Seal") ? 1 : 0;
        if (!is_named(kept, &field, "Authentication-Results"))
            continue;
        const uint8_t *field_body = kept + field.body_start;
        size_t body_length = field.end - 2 - field.body_start;
        orbendash_whose_answer owner = orbendash_whose(list, list_length, field_body, body_length);
        if (owner.number != ORBENDASH_DONE)
            return refused("whose", owner.number, owner.place);
        static const char *const owners[] = {"ours", "another's", "unreadable"};
        orbendash_report_answer answer =
            orbendash_report(field_body, body_length, report, sizeof report);
        printf("field %zu, %s: %s, %zu results ignored\n", number, owners[owner.whose],
               orbendash_text(answer.number), answer.ignored);
        fwrite(report, 1, answer.written, stdout);
    }

    /* A gateway has verified the signatures; here all of them are taken to be good. A chain
       with more seals than instances can be is never built, and its verdicts aren't read. */
    if (seals > ORBENDASH_INSTANCES)
        seals = ORBENDASH_INSTANCES;
    memset(verdicts, 3, seals);
    orbendash_judge_answer chain = orbendash_judge(kept, strip.kept, verdicts, seals);
    if (chain.number != ORBENDASH_DONE)
        return refused("judge", chain.number, chain.place);
    static const char *const outcomes[] = {"none", "failed", "built"};
    static const char *const statuses[] = {"none", "pass", "fail"};
    printf("ARC: outcome %s", outcomes[chain.outcome]);
    if (chain.outcome == ORBENDASH_CHAIN_FAILED) {
        printf(" for reason %c", " abcde"[chain.reason]);
        if (chain.field != 0)
            printf(" at field %zu", chain.field);
    }
    if (chain.outcome == ORBENDASH_CHAIN_BUILT)
        printf(" with %zu instances", chain.instances);
    printf(", status %s", statuses[chain.status]);
    if (chain.has_oldest_pass)
        printf(", oldest-pass %zu", chain.oldest_pass);
    printf("\n");

    int wrote = count > 2 ? write_field(words[2], statuses[chain.status]) : ORBENDASH_DONE;
    if (wrote != ORBENDASH_DONE)
        return wrote;
    if (fflush(stdout) != 0 || ferror(stdout)) {
        perror("standard output");
        return 74;
    }
    return 0;
}
