/*
 * What the calls need of the stack, on inputs that take the deepest way that is known, is no more
 * than orbendash.h and the documents say. Each call runs in a thread whose stack was filled with
 * one byte before; what is other afterwards was used. Prints the bytes of each call.
 */
#include "orbendash.h"
#include <pthread.h>
#include <stdio.h>
#include <stdlib.h>
#include <string.h>

enum { STACK = 1 << 20, FILL = 0xa5, KIB = 1024 };

static uint8_t text[ORBENDASH_BYTES], out[4 * ORBENDASH_BYTES], marks[ORBENDASH_FIELDS], verdict;
static size_t length, fields;
static const char *const list = "xn--bcher-kva.example\nmx.example.com\n";

#define DATA(s) ((const uint8_t *)(s))

static int nothing(void) {
    return 0;
}

static int mark(void) {
    return (int)orbendash_mark(text, length, DATA(list), strlen(list), marks, sizeof marks).number;
}

/* It is handed what mark wrote before. */
static int copy(void) {
    return (int)orbendash_copy(text, length, DATA(list), strlen(list), marks, fields, out,
                               sizeof out)
        .number;
}

static int whose(void) {
    return (int)orbendash_whose(DATA(list), strlen(list), text, length).number;
}

static int report(void) {
    return (int)orbendash_report(text, length, out, sizeof out).number;
}

static int write_lines(void) {
    return (int)orbendash_write(text, length, out, sizeof out).number;
}

static int judge(void) {
    return (int)orbendash_judge(text, length, &verdict, 1).number;
}

static int next_field(void) {
    return (int)orbendash_next_field(text, length, 0).number;
}

struct task {
    int (*call)(void);
    int number;
};

static void *run(void *given) {
    struct task *task = given;
    task->number = task->call();
    return NULL;
}

/* The bytes of a stack that a call uses, with what a thread needs by itself. */
static size_t used(int (*call)(void), int expected) {
    uint8_t *stack = aligned_alloc(4096, STACK);
    struct task task = {call, -1};
    pthread_attr_t how;
    pthread_t thread;
    size_t clean = 0;
    if (stack == NULL)
        exit(1);
    memset(stack, FILL, STACK);
    if (pthread_attr_init(&how) != 0 || pthread_attr_setstack(&how, stack, STACK) != 0 ||
        pthread_create(&thread, &how, run, &task) != 0 || pthread_join(thread, NULL) != 0)
        exit(1);
    if (task.number != expected) {
        printf("a call answers %d, and not %d\n", task.number, expected);
        exit(1);
    }
    while (clean < STACK && stack[clean] == FILL)
        clean++;
    free(stack);
    return STACK - clean;
}

static int wrong;

static void try(const char *name, int (*call)(void), int expected, size_t kib) {
    size_t mine = used(nothing, 0), all = used(call, expected), bytes = all > mine ? all - mine : 0;
    printf("%s: %zu bytes of %zu KiB\n", name, bytes, kib);
    if (bytes > kib * KIB) {
        printf("%s needs more of the stack than orbendash.h says\n", name);
        wrong = 1;
    }
}

static void set(const char *some) {
    length = strlen(some);
    memcpy(text, some, length);
}

static void add(const char *some, int times) {
    size_t size = strlen(some);
    while (times-- > 0) {
        memcpy(text + length, some, size);
        length += size;
    }
}

#define NAME "\"xn--bcher-kva.xn--bcher-kvb.example\\.\""
#define SEAL "ARC-Seal: i=1; a=rsa-sha256; cv=none; d=b.example; s=k; b=AA"
#define SIGNATURE "ARC-Message-Signature: i=1; a=rsa-sha256; d=b.example; s=k; h=from; bh=AA; b=AA\r\n"
#define RESULTS "ARC-Authentication-Results: i=1; b.example; none\r\n"

int main(void) {
    int i;
    set("Authentication-Results: " NAME "; none\r\n");
    fields = 1;
    try("mark", mark, 0, 84);
    try("copy", copy, 0, 88);
    add("A: b\r\n", 511);
    fields = 512;
    try("mark, all fields", mark, 0, 84);
    try("copy, all fields", copy, 0, 88);
    set("Authentication-Results: \"");
    add("xn--bcher-kva.", 2000);
    add("\"; none\r\n", 1);
    fields = 1;
    try("mark, a long name", mark, 0, 84);
    try("copy, a long name", copy, 0, 88);
    set(" " NAME "; none");
    try("whose", whose, 0, 84);
    set(" ");
    add("(", 16);
    add(")", 16);
    add("a", 1);
    add(" ((((((((((((((((x))))))))))))))))", 1);
    add("; spf=pass reason=\"a b\" smtp.mailfrom=\"a b\"@b.example", 100);
    try("report", report, 0, 4);
    set("id\ta%20b\n");
    for (i = 0; i < 100; i++)
        add("m\tspf\tpass\nr\ta%20b\np\tsmtp\tmailfrom\tm\ta%20b@b.example\n", 1);
    try("write", write_lines, 0, 4);
    verdict = 3;
    set(SEAL "\r\n" SIGNATURE RESULTS);
    try("judge, few tags", judge, 0, 4);
    set(SEAL);
    for (i = 0; i < 6000; i++) {
        char tag[16];
        sprintf(tag, "; x%d=", i);
        add(tag, 1);
    }
    add("\r\n" SIGNATURE RESULTS, 1);
    try("judge, many tags", judge, 0, 132);
    try("next_field", next_field, 0, 4);
    return wrong;
}
