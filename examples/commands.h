/*
 * The commands, for a program of several: late is report_command alone,
 * controller record_command. argv[0] is the name that usage and messages show,
 * "late" or "ollskuvan report"; what stands before its last '/' is left out.
 * Each returns the exit status: one of those below.
 */
#ifndef EXAMPLES_COMMANDS_H
#define EXAMPLES_COMMANDS_H

enum {
    STATUS_DONE = 0,
    STATUS_FAILED = 1,
    STATUS_USAGE = 2,          /* the arguments are wrong */
    STATUS_KERNEL_SAYS_NO = 3, /* the kernel does not allow perf events: nothing can be recorded here */
};

/* Why a step ran late, from saved rings or live. */
int report_command(int argc, char **argv);

/* A controller's reading loop over live rings, which are saved if wanted. */
int record_command(int argc, char **argv);

#endif
