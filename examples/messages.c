#define _GNU_SOURCE
#include "messages.h"

#include <errno.h>
#include <fcntl.h>
#include <stdarg.h>
#include <stddef.h>
#include <stdio.h>
#include <string.h>
#include <time.h>
#include <unistd.h>

#include "text.h"

static const char *name = "";

/* A stream that the caller closed is opened the wrong way round, so that using it fails. */
static void open_standard_streams(void)
{
    static const int wrong_way[3] = { O_WRONLY, O_RDONLY, O_RDONLY };
    for (int fd = 0; fd < 3; fd++)
        if (fcntl(fd, F_GETFD) == -1 && errno == EBADF && open("/dev/null", wrong_way[fd]) != fd)
            _exit(1);
}

void called_as(const char *argv0)
{
    const char *slash = argv0 != NULL ? strrchr(argv0, '/') : NULL;
    name = argv0 == NULL ? "" : slash != NULL ? slash + 1 : argv0;
    open_standard_streams();
}

const char *own_name(void)
{
    return name;
}

void complain(const char *format, ...)
{
    va_list list;
    fflush(stdout); /* in order, where both go to one place */
    fprintf(stderr, "%s: ", name);
    va_start(list, format);
    vfprintf(stderr, format, list);
    va_end(list);
    fputc('\n', stderr);
}

bool output_written(void)
{
    errno = 0;
    bool failed_before = ferror(stdout) != 0;
    if (fflush(stdout) == 0 && !failed_before)
        return true;
    complain("standard output cannot be written%s%s", errno != 0 ? ": " : "", errno != 0 ? strerror(errno) : "");
    return false;
}

uint64_t now_ns(void)
{
    struct timespec t;
    clock_gettime(CLOCK_MONOTONIC, &t);
    return (uint64_t)t.tv_sec * 1000000000u + (uint64_t)t.tv_nsec;
}

/* ---- progress ---- */

enum { SECOND = 1000000000, CALLS_A_LOOK = 256 };

static uint64_t next_word;
static unsigned calls;

void progress_begin(void)
{
    next_word = now_ns() + SECOND;
    calls = 0;
}

static bool is_time_for_a_word(void)
{
    uint64_t now = now_ns();
    if (now < next_word)
        return false;
    next_word = now + SECOND;
    return true;
}

void progress_in(const char *what, uint64_t done, const char *one, const char *more)
{
    if (is_time_for_a_word())
        complain("%s: %llu %s", what, (unsigned long long)done, plural(done, one, more));
}

void progress(const char *what, uint64_t done, uint64_t of)
{
    if (calls++ % CALLS_A_LOOK != 0 || !is_time_for_a_word())
        return;
    if (of != 0)
        complain("%s: %llu of %llu %s", what, (unsigned long long)done, (unsigned long long)of, plural(of, "record", "records"));
    else
        complain("%s: %llu %s", what, (unsigned long long)done, plural(done, "record", "records"));
}
