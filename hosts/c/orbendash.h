/*
 * Orbendash: Authentication-Results and ARC header fields for mail gateways, on x86-64 Linux.
 *
 * Seven calls, each on bytes that the caller owns: mark the forged fields of a header block, copy
 * the block without them, ask whose field a body is, report one body, write one from its report,
 * judge the ARC chain of a block, and walk a block's fields. Link with liborbendash.a (pkg-config:
 * orbendash); C99 or C++. The manual page is orbendash(3).
 *
 * Any bytes may be handed in. Every call ends, keeps nothing, and answers with a struct by
 * value; an answer that is dropped is warned of. A header block has no empty line after it, and
 * its lines end with CRLF.
 *
 * A pointer and the length after it are one piece of memory. Hand in a pointer to something
 * also where the length is 0. An output must not overlap an input.
 */
#ifndef ORBENDASH_H
#define ORBENDASH_H

#include <stddef.h>
#include <stdint.h>

#if defined(__GNUC__) && !(defined(__x86_64__) && defined(__linux__) && !defined(__ILP32__))
#error "liborbendash.a is for x86-64 Linux, with 64-bit pointers"
#endif

#ifdef __GNUC__
#define ORBENDASH_CHECKED __attribute__((warn_unused_result))
#else
#define ORBENDASH_CHECKED
#endif

#ifdef __cplusplus
extern "C" {
#endif

/* ---- Version ---- */

#define ORBENDASH_VERSION_MAJOR 0
#define ORBENDASH_VERSION_MINOR 1
#define ORBENDASH_VERSION_PATCH 0
#define ORBENDASH_VERSION "0.1.0"

/* One number, which is greater for a later version. */
#define ORBENDASH_VERSION_NUMBER                                                                   \
    (10000 * ORBENDASH_VERSION_MAJOR + 100 * ORBENDASH_VERSION_MINOR + ORBENDASH_VERSION_PATCH)

/* That number of the library that was linked. Where it isn't ORBENDASH_VERSION_NUMBER, this
   header is another version's. */
ORBENDASH_CHECKED uint32_t orbendash_version(void);

/* ---- Limits ---- */

/* There is none on the results in a field. */
#define ORBENDASH_BYTES 65536     /* the most bytes of a block or a body */
#define ORBENDASH_FIELDS 512      /* the most fields of a block */
#define ORBENDASH_ENTRIES 64      /* the most entries of the own list */
#define ORBENDASH_ENTRY_BYTES 255 /* the most bytes of one, without its LF */
#define ORBENDASH_COMMENTS 16     /* how deep comments may be nested */
#define ORBENDASH_INSTANCES 50    /* the highest instance of an ARC chain */

/* The most bytes of a good list, LFs included. */
#define ORBENDASH_LIST_BYTES (ORBENDASH_ENTRIES * (ORBENDASH_ENTRY_BYTES + 1))

/* A room that the report of a body of so many bytes always fits. */
#define ORBENDASH_REPORT_ROOM(body_length) (3 * (size_t)(body_length) + 4)

/* ---- Numbers ---- */

/*
 * Answer numbers. All but 0 and 8 are refusals: nothing is written, and in the struct all but
 * number and place are 0. On every answer the bytes of the output past those written stay as
 * they were.
 */
enum {
    /* Done. Place 0. */
    ORBENDASH_DONE = 0,
    /* The block or body is over ORBENDASH_BYTES bytes, or the body to be written would be. Place
       0. */
    ORBENDASH_TOO_LONG = 1,
    /* A CR without LF, an LF without CR, or a last line without CRLF. Place: that byte; for an
       unfinished line the block's length. */
    ORBENDASH_BAD_LINE_END = 2,
    /* An empty line, a first line that starts with space or tab, or a field that lacks its name
       or colon. Place: start of the line. */
    ORBENDASH_BAD_LINE = 3,
    /* A field more than ORBENDASH_FIELDS. Place: its start. */
    ORBENDASH_TOO_MANY_FIELDS = 4,
    /* A bad own list: an entry that is empty, over ORBENDASH_ENTRY_BYTES bytes, without its LF,
       one more than ORBENDASH_ENTRIES, or with a byte that is neither 33 to 126 nor part of valid
       UTF-8. Place: start of the first bad entry. */
    ORBENDASH_BAD_LIST = 5,
    /* The output is shorter than all that would be written. Place: the bytes needed. */
    ORBENDASH_NO_ROOM = 6,
    /* The identifier can't be read. One that isn't quoted may have any bytes from 128 up. Place
       0. */
    ORBENDASH_BAD_IDENTIFIER = 7,
    /* The header version isn't 1; the id and v lines are written. Place 0. */
    ORBENDASH_OTHER_VERSION = 8,
    /* The body isn't well-formed. Place 0. */
    ORBENDASH_BAD_BODY = 9,
    /* The verdicts don't fit the chain. Place 0. */
    ORBENDASH_BAD_VERDICTS = 10,
    /* No well-formed body without ignored results has these lines as its report. Place: the
       first line, from 1, up to which they can begin no such report; where they only stop too
       early, one more than their count. */
    ORBENDASH_BAD_LINES = 11,
    /* The marks aren't exactly the bytes that orbendash_mark writes for this block and list. Place
       0. */
    ORBENDASH_OTHER_MARKS = 13
};

/* What a number says, in words for a log. */
static inline const char *orbendash_text(unsigned number) {
    switch (number) {
    case ORBENDASH_DONE:
        return "done";
    case ORBENDASH_TOO_LONG:
        return "more than 65,536 bytes";
    case ORBENDASH_BAD_LINE_END:
        return "a CR without LF, an LF without CR, or a last line without CRLF";
    case ORBENDASH_BAD_LINE:
        return "an empty line, a first line that starts with space or tab, or a field without "
               "name or colon";
    case ORBENDASH_TOO_MANY_FIELDS:
        return "a 513th field";
    case ORBENDASH_BAD_LIST:
        return "a bad entry of the own list";
    case ORBENDASH_NO_ROOM:
        return "the output is too short";
    case ORBENDASH_BAD_IDENTIFIER:
        return "the identifier can't be read";
    case ORBENDASH_OTHER_VERSION:
        return "the header version isn't 1";
    case ORBENDASH_BAD_BODY:
        return "the body isn't well-formed";
    case ORBENDASH_BAD_VERDICTS:
        return "the verdicts don't fit the chain";
    case ORBENDASH_BAD_LINES:
        return "no body has that report";
    case ORBENDASH_OTHER_MARKS:
        return "the marks aren't those of this block and list";
    default:
        return "no answer of this library";
    }
}

/* ---- Strip, in two steps ---- */

typedef struct {
    uint8_t number; /* 0 to 6 */
    size_t place;   /* see the numbers */
    size_t written; /* bytes written, one for each field of the block */
} orbendash_mark_answer;

/*
 * The first step, which removes nothing: writes to out a byte for each field of a header block, in
 * order, 1 if the field goes, else 0. It goes if it is named Authentication-Results and its
 * identifier is on our own list or can't be read. So a host can log what it is about to remove:
 * orbendash_next_field gives the fields in the same order. An output of ORBENDASH_FIELDS bytes is
 * always long enough.
 *
 * The list holds our identifiers, each ended by LF: at most ORBENDASH_ENTRIES, each of 1 to
 * ORBENDASH_ENTRY_BYTES bytes, which are 33 to 126 or UTF-8 from 128 up. It may be empty.
 *
 * Identifiers compare by their labels, which are parted by dots. A label that starts with xn--,
 * in either case, stands for the U-label that it decodes to by Punycode (RFC 3492), once; one
 * that doesn't decode, or decodes to a surrogate or to a number above 10FFFF hex, stands for
 * itself. Then ASCII case doesn't count. So the entry xn--bcher-kva.example and the same with a u
 * umlaut in UTF-8 mark the same fields, whichever of the two a field has. Nothing else is made
 * equal: no other case, no normalisation.
 *
 * It needs up to 84 KiB of stack.
 *
 * The first of these that applies is the number: 1 the block is too long; 5 a bad list; 2, 3 or
 * 4 a bad block; 6 no room; 0 done.
 */
ORBENDASH_CHECKED orbendash_mark_answer
orbendash_mark(const uint8_t *block, size_t block_length, const uint8_t *list, size_t list_length,
               uint8_t *out, size_t out_length);

typedef struct {
    uint8_t number; /* 0 to 6, or 13 */
    size_t place;   /* see the numbers */
    size_t kept;    /* bytes kept, which are the bytes written */
    size_t removed; /* bytes removed; kept + removed is the block's length */
    size_t fields;  /* fields removed */
} orbendash_copy_answer;

/*
 * The second step: copies the block to out without the fields that go; every other byte is kept, in
 * order. The marks are the bytes that orbendash_mark wrote for this block and list, as many as it
 * wrote. They aren't trusted: the call finds them again, and refuses any others, so that no field
 * is removed by marks of another block or list. An output as long as the block is always long
 * enough.
 *
 * It needs up to 88 KiB of stack.
 *
 * The first of these that applies is the number: 1 the block is too long; 5 a bad list; 2, 3 or
 * 4 a bad block; 13 other marks; 6 no room; 0 done.
 */
ORBENDASH_CHECKED orbendash_copy_answer
orbendash_copy(const uint8_t *block, size_t block_length, const uint8_t *list, size_t list_length,
               const uint8_t *marks, size_t marks_length, uint8_t *out, size_t out_length);

/* ---- Whose ---- */

/* Whose a field is, by its identifier. */
enum {
    ORBENDASH_OURS = 0,        /* it is on our own list: stripping removes the field */
    ORBENDASH_ANOTHERS = 1,    /* it is not: stripping keeps the field */
    ORBENDASH_NOT_READABLE = 2 /* it can't be read: stripping removes the field */
};

typedef struct {
    uint8_t number; /* 0, 1 or 5 */
    uint8_t whose;  /* see above; 0 with a refusal */
    size_t place;   /* see the numbers */
} orbendash_whose_answer;

/*
 * Says whose an Authentication-Results field is, from our own list and its body. The body runs
 * from after the field's colon to before its last CRLF; behind the identifier nothing of it is
 * read. List and comparison are those of orbendash_mark, which marks with 1 exactly the fields of
 * that name whose answer here isn't ORBENDASH_ANOTHERS.
 *
 * It needs up to 84 KiB of stack.
 *
 * The first of these that applies is the number: 1 the body is too long; 5 a bad list; 0 done.
 */
ORBENDASH_CHECKED orbendash_whose_answer
orbendash_whose(const uint8_t *list, size_t list_length, const uint8_t *body, size_t body_length);

/* ---- Report ---- */

typedef struct {
    uint8_t number; /* 0, 1, 6, 7, 8 or 9 */
    size_t place;   /* see the numbers */
    size_t written; /* bytes written */
    size_t ignored; /* well-formed results that the report leaves out; 0 with number 8 */
} orbendash_report_answer;

/*
 * Writes the report of one Authentication-Results body to out. The body runs from after the
 * field's colon to before its last CRLF.
 *
 * The report's lines end with LF, its columns are parted by one tab:
 *
 *   id  text                            the identifier, as it stands: no label is decoded
 *   none                                the field says that nothing was done
 *   m   method  result                  a result
 *   r   text                            its reason, if it has one
 *   p   ptype  property  kind  text     each of its properties; the kind of value is
 *                                       t token, q quoted, m mailbox or a at-domain
 *   v   number                          with number 8 only, after the id line
 *
 * In texts the bytes outside 33 to 126 and the percent sign are % and two upper-case hex
 * digits. Methods, results, ptypes and properties are in lower case. A result is ignored, and
 * counted, if its method version isn't 1, or if the method, its result or a ptype isn't known.
 * An output of ORBENDASH_REPORT_ROOM(body_length) bytes, three times the body and 4, is always
 * long enough.
 *
 * The first of these that applies is the number: 1 the body is too long; 7 a bad identifier; 9
 * a bad body; 6 no room; 8 another header version; 0 done. After a header version other than 1
 * nothing is read, so a bad body is 8 or 6 then.
 */
ORBENDASH_CHECKED orbendash_report_answer
orbendash_report(const uint8_t *body, size_t body_length, uint8_t *out, size_t out_length);

/* ---- Write ---- */

typedef struct {
    uint8_t number; /* 0, 1, 6 or 11 */
    size_t place;   /* see the numbers */
    size_t written; /* bytes written */
} orbendash_write_answer;

/*
 * Writes the body of an Authentication-Results field of our own to out, from report lines. A
 * field is the name, a colon, the body and CRLF.
 *
 * The lines are as orbendash_report writes them: id, then none alone, or one or more m, each
 * followed by an r if the result has a reason and by a p for each property. Each ends with LF,
 * also the last. Methods, results, ptypes and properties are known ones in lower case (a
 * property may be any keyword), texts are coded as in a report, and a v line is refused. The
 * lines may be of any length.
 *
 * The body starts with one space. "; " stands before none and before each result, one space
 * before each reason and property, and there is no other space and no folding. Identifier,
 * reason and the local part of a mailbox are bare where they can be, else quoted strings; in
 * these only the quote and the backslash are escaped. The body's report is these very lines,
 * with an ignored count of zero.
 *
 * An output of ORBENDASH_BYTES bytes is always long enough; number 6 tells how many this body
 * needs.
 *
 * The first of these that applies is the number: 11 no body has that report; 1 the body would be
 * too long; 6 no room; 0 done.
 */
ORBENDASH_CHECKED orbendash_write_answer
orbendash_write(const uint8_t *lines, size_t lines_length, uint8_t *out, size_t out_length);

/* ---- Judge ---- */

/* Outcomes. */
enum {
    ORBENDASH_CHAIN_NONE = 0,   /* the block has no ARC fields */
    ORBENDASH_CHAIN_FAILED = 1, /* the chain is broken; the reason says how */
    ORBENDASH_CHAIN_BUILT = 2   /* the chain stands */
};

/* Reasons of a failed chain, the first that applies; 0 for the other outcomes. */
enum {
    ORBENDASH_UNREADABLE = 1, /* (a) a field can't be read; field names the first */
    ORBENDASH_REPEATED = 2,   /* (b) a kind comes twice at one instance; field names the first
                                     field that repeats one */
    ORBENDASH_MISSING = 3,    /* (c) a kind is missing at an instance up to the highest */
    ORBENDASH_CV_FAIL = 4,    /* (d) the seal at the highest instance has cv fail */
    ORBENDASH_CV_ORDER = 5    /* (e) the seal at 1 isn't cv none, or a later one isn't cv pass */
};

/* Statuses. */
enum {
    ORBENDASH_STATUS_NONE = 0, /* no chain */
    ORBENDASH_STATUS_PASS = 1, /* built, all seals good, and the newest signature good */
    ORBENDASH_STATUS_FAIL = 2  /* any other */
};

typedef struct {
    uint8_t number;          /* 0 to 4 or 10 */
    uint8_t outcome;         /* see the outcomes */
    uint8_t reason;          /* see the reasons */
    uint8_t status;          /* see the statuses */
    uint8_t has_oldest_pass; /* 1 if the status is pass, and oldest_pass says something */
    size_t place;            /* see the numbers */
    size_t field;            /* with reason 1 or 2 the field's number among all fields of the
                                block, from 1; else 0 */
    size_t instances;        /* the highest instance if the chain is built, else 0 */
    size_t oldest_pass;      /* 0 if all signatures are good, else one more than the highest
                                instance with a bad one */
} orbendash_judge_answer;

/*
 * Judges the ARC chain of a header block from the verdicts on its signatures.
 *
 * Verdicts are read only if the chain is built. They are then one byte for each instance from
 * 1: 2 if its ARC-Seal is good, plus 1 if its ARC-Message-Signature is good. A chain that is
 * built has as many instances as the block has ARC-Seal fields.
 *
 * It needs 4 KiB of stack where no field has more than 32 tags, and up to 132 KiB for one with
 * thousands.
 *
 * The first of these that applies is the number: 1 the block is too long; 2, 3 or 4 a bad
 * block; 10 bad verdicts, of another count or with a byte over 3; 0 done.
 */
ORBENDASH_CHECKED orbendash_judge_answer
orbendash_judge(const uint8_t *block, size_t block_length, const uint8_t *verdicts,
                size_t verdicts_length);

/* ---- Walk ---- */

typedef struct {
    uint8_t number;    /* 0 to 4 */
    uint8_t found;     /* 1 if a field is given; else 0, and so are the four offsets */
    size_t place;      /* see the numbers; 0 with a field */
    size_t start;      /* where the field starts */
    size_t name_end;   /* where its name ends */
    size_t body_start; /* where its body starts, after the colon; it ends at end - 2 */
    size_t end;        /* where the field ends, its last CRLF included */
} orbendash_field_answer;

/*
 * Gives the first field of a header block that starts at place or later. Begin with place 0 and
 * go on with the end of the field given. Any place will do; each call reads the block from its
 * front to the end of the field it gives.
 *
 * Number 0 with found 1: a field. Number 0 with found 0: there are no more, and the block is
 * sound. 1: the block is too long. 2, 3 or 4: there are no more before the bad line.
 */
ORBENDASH_CHECKED orbendash_field_answer
orbendash_next_field(const uint8_t *block, size_t block_length, size_t place);

#ifdef __cplusplus
}
#endif

#endif
