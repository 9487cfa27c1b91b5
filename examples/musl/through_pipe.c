// What a pipe takes and gives at the edges of its room, with both ends in one program: each call's answer on a line of its own.
#define _GNU_SOURCE
#include <errno.h>
#include <fcntl.h>
#include <signal.h>
#include <stdio.h>
#include <string.h>
#include <sys/stat.h>
#include <unistd.h>

static char bytes[70000];

static void tell(const char *what, long answer)
{
    if (answer < 0)
        printf("%s: %s\n", what, strerror(errno));
    else
        printf("%s: %ld\n", what, answer);
}

int main(void)
{
    int ends[2], more[2];
    struct stat status;

    signal(SIGPIPE, SIG_IGN);
    memset(bytes, 'x', sizeof bytes);
    tell("another flag", pipe2(ends, O_APPEND));
    tell("pipe", pipe2(ends, O_NONBLOCK));
    printf("ends: %d %d\n", ends[0], ends[1]);
    tell("read of none", read(ends[0], bytes, 1));
    tell("read of no bytes", read(ends[0], bytes, 0));
    tell("write of more than fits", write(ends[1], bytes, 70000));
    tell("write to a full one", write(ends[1], bytes, 1));
    tell("write of no bytes", write(ends[1], bytes, 0));
    tell("read of a page", read(ends[0], bytes, 4096));
    tell("write of a byte more than a page", write(ends[1], bytes, 4097));
    tell("write to a full one", write(ends[1], bytes, 4096));
    tell("read of all", read(ends[0], bytes, sizeof bytes));
    tell("write", write(ends[1], "abc", 3));
    tell("read in part", read(ends[0], bytes, 2));
    tell("read of the rest", read(ends[0], bytes, 9));
    printf("byte: %c\n", bytes[0]);
    tell("read from the wrong end", read(ends[1], bytes, 1));
    tell("write to the wrong end", write(ends[0], bytes, 1));
    tell("seek", lseek(ends[0], 0, SEEK_CUR));
    tell("read at an offset", pread(ends[0], bytes, 1, 0));
    tell("cut", ftruncate(ends[1], 0));
    tell("status", fstat(ends[0], &status));
    printf("pipe: %d, mode %o, size %ld\n", S_ISFIFO(status.st_mode), status.st_mode & 0777, (long)status.st_size);
    tell("flags", fcntl(ends[1], F_GETFL) & (O_ACCMODE | O_NONBLOCK));

    tell("write before the end", write(ends[1], "end", 3));
    tell("duplicate", dup(ends[1]));
    close(ends[1]);
    tell("close of the duplicate", close(5));
    tell("read", read(ends[0], bytes, 9));
    tell("read of the end", read(ends[0], bytes, 9));

    tell("another pipe", pipe2(more, O_CLOEXEC));
    printf("ends: %d %d\n", more[0], more[1]);
    tell("close on execve", fcntl(more[0], F_GETFD));
    close(more[0]);
    tell("write of no bytes to no reader", write(more[1], bytes, 0));
    return 0;
}
