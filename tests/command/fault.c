/*
 * Preloaded into the command's program: one of its calls fails, or moves a single byte.
 *
 * FAULT=CALL:N:HOW in the environment names the call (open, read, write or close), which of them
 * from 1, and an error number, or "short". FAULT_MARK names a file that is made when it happens, so
 * that a test knows when N is past the last call. Other programs are left alone.
 */
#define _GNU_SOURCE
#include <errno.h>
#include <fcntl.h>
#include <stdarg.h>
#include <stdlib.h>
#include <string.h>
#include <sys/syscall.h>
#include <unistd.h>

enum { GO_ON = 0, SHORT = -1 };

/* What is to become of this call: an error number, SHORT, or GO_ON. */
static int fault(const char *call) {
    static unsigned long calls;
    const char *asked = getenv("FAULT");
    size_t name = strlen(call);
    if (asked == NULL || strcmp(program_invocation_short_name, "orbendash") != 0)
        return GO_ON;
    if (strncmp(asked, call, name) != 0 || asked[name] != ':')
        return GO_ON;
    char *how;
    if (strtoul(asked + name + 1, &how, 10) != ++calls)
        return GO_ON;
    const char *mark = getenv("FAULT_MARK");
    if (mark != NULL)
        syscall(SYS_close, syscall(SYS_open, mark, O_WRONLY | O_CREAT, 0600));
    return strcmp(how, ":short") == 0 ? SHORT : atoi(how + 1);
}

ssize_t read(int file, void *to, size_t size) {
    int how = fault("read");
    if (how > GO_ON) {
        errno = how;
        return -1;
    }
    return syscall(SYS_read, file, to, how == SHORT && size > 1 ? 1 : size);
}

ssize_t write(int file, const void *from, size_t size) {
    int how = fault("write");
    if (how > GO_ON) {
        errno = how;
        return -1;
    }
    return syscall(SYS_write, file, from, how == SHORT && size > 1 ? 1 : size);
}

int open(const char *path, int flags, ...) {
    int how = fault("open");
    if (how > GO_ON) {
        errno = how;
        return -1;
    }
    va_list rest;
    va_start(rest, flags);
    unsigned mode = va_arg(rest, unsigned);
    va_end(rest);
    return (int)syscall(SYS_open, path, flags, mode);
}

/* The standard library's own writes of the last resort go by this name. */
ssize_t __write(int file, const void *from, size_t size);
ssize_t __write(int file, const void *from, size_t size) { return write(file, from, size); }

/* An open by this name counts as open too. */
int openat(int folder, const char *path, int flags, ...) {
    int how = fault("open");
    if (how > GO_ON) {
        errno = how;
        return -1;
    }
    va_list rest;
    va_start(rest, flags);
    unsigned mode = va_arg(rest, unsigned);
    va_end(rest);
    return (int)syscall(SYS_openat, folder, path, flags, mode);
}

int close(int file) {
    int how = fault("close");
    syscall(SYS_close, file);
    if (how > GO_ON) {
        errno = how;
        return -1;
    }
    return 0;
}
