/*
 * A program that is started for a recording: it waits until the events are
 * open, so that nothing of it is missed.
 */
#ifndef EXAMPLES_PROGRAM_H
#define EXAMPLES_PROGRAM_H

#include <stdbool.h>
#include <sys/types.h>

struct program {
    pid_t pid;  /* 0: none */
    int go;     /* a byte written here lets it start; -1 */
    int failed; /* read from here: why it did not start, or the end; -1 */
};

/* No program yet. */
#define PROGRAM_NONE ((struct program){ .pid = 0, .go = -1, .failed = -1 })

/* It stands before its exec. False: there is no process for it, errno says why. */
bool program_prepare(struct program *program, char *const argv[]);
/* Lets it run. False: it did not start, errno says why. */
bool program_go(struct program *program);
/* True once it has ended; status as waitpid gives it. */
bool program_ended(struct program *program, int *status);
/* Ends it if it still runs: asked first, after two seconds by force. */
void program_stop(struct program *program);

#endif
