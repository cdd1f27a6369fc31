/*
 * Runs a command whose standard input delivers the bytes of a file and then goes wrong.
 *
 *   input reset FILE COMMAND [WORD..]   then the connection is reset: one read fails, and only one
 *   input later FILE COMMAND [WORD..]   then nothing comes for the moment: reads fail (EAGAIN), since
 *                                       the descriptor doesn't wait
 */
#define _GNU_SOURCE
#include <fcntl.h>
#include <stdio.h>
#include <string.h>
#include <sys/socket.h>
#include <unistd.h>

int main(int count, char **words) {
    static char bytes[4096];
    int ends[2];
    if (count < 4 || socketpair(AF_UNIX, SOCK_STREAM, 0, ends) != 0)
        return 1;
    FILE *file = fopen(words[2], "rb");
    if (file == NULL)
        return 1;
    size_t length = fread(bytes, 1, sizeof bytes, file);
    fclose(file);
    if (write(ends[1], bytes, length) != (ssize_t)length)
        return 1;
    if (strcmp(words[1], "reset") == 0) {
        /* A peer that closes with something unread resets the connection. */
        if (write(ends[0], "x", 1) != 1 || close(ends[1]) != 0)
            return 1;
    } else if (fcntl(ends[0], F_SETFL, O_NONBLOCK) != 0) {
        return 1;
    }
    if (dup2(ends[0], 0) != 0)
        return 1;
    execvp(words[3], words + 3);
    return 1;
}
