#define _GNU_SOURCE
#include "program.h"

#include <errno.h>
#include <fcntl.h>
#include <signal.h>
#include <stdlib.h>
#include <sys/wait.h>
#include <time.h>
#include <unistd.h>

static void close_if_open(int *fd)
{
    if (*fd >= 0)
        close(*fd);
    *fd = -1;
}

/* The child: waits for the word, becomes the program, or tells why it cannot. */
static _Noreturn void become(int go, int failed, char *const argv[])
{
    char byte;
    if (read(go, &byte, 1) != 1)
        _exit(126); /* the recorder ended first */
    execvp(argv[0], argv);
    int why = errno;
    if (write(failed, &why, sizeof why) != (ssize_t)sizeof why)
        _exit(126);
    _exit(127);
}

bool program_prepare(struct program *program, char *const argv[])
{
    int go[2], failed[2]; /* both ends close at the exec */
    *program = PROGRAM_NONE;
    if (pipe2(go, O_CLOEXEC) != 0)
        return false;
    if (pipe2(failed, O_CLOEXEC) != 0) {
        close(go[0]);
        close(go[1]);
        return false;
    }
    pid_t pid = fork();
    if (pid == 0) {
        close(go[1]);
        become(go[0], failed[1], argv);
    }
    close(go[0]);
    close(failed[1]);
    program->go = go[1];
    program->failed = failed[0];
    if (pid > 0) {
        program->pid = pid;
        return true;
    }
    program_stop(program);
    return false;
}

bool program_go(struct program *program)
{
    int why = 0;
    bool told = write(program->go, "g", 1) == 1;
    close_if_open(&program->go);
    ssize_t bytes;
    do
        bytes = read(program->failed, &why, sizeof why); /* the end of file: it runs */
    while (bytes < 0 && errno == EINTR);
    close_if_open(&program->failed);
    if (told && bytes == 0)
        return true;
    errno = bytes == (ssize_t)sizeof why ? why : EIO;
    return false;
}

bool program_ended(struct program *program, int *status)
{
    if (program->pid == 0)
        return true;
    pid_t pid = waitpid(program->pid, status, WNOHANG);
    if (pid == 0 || (pid < 0 && errno == EINTR))
        return false;
    program->pid = 0;
    return true;
}

void program_stop(struct program *program)
{
    enum { NAPS = 200 };
    const struct timespec nap = { 0, 10000000 };
    int status, error = errno;
    close_if_open(&program->go); /* if it has not started, it ends by itself */
    close_if_open(&program->failed);
    if (program->pid != 0)
        kill(program->pid, SIGTERM);
    for (int i = 0; i < NAPS && !program_ended(program, &status); i++)
        nanosleep(&nap, NULL);
    if (program->pid != 0) {
        kill(program->pid, SIGKILL);
        while (waitpid(program->pid, &status, 0) < 0 && errno == EINTR)
            ;
        program->pid = 0;
    }
    errno = error;
}
