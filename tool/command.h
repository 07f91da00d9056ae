/*
 * What the commands of the program share. A command is one file with one
 * function, declared here, and a row in main.c.
 */
#ifndef TOOL_COMMAND_H
#define TOOL_COMMAND_H

#include <stdbool.h>

#include "commands.h" /* report, record, and the exit statuses */

/* A command gets "ollskuvan dump", its own name, and the words after it, and
 * returns the exit status; complain of messages.h tells what is wrong. */
int dump_command(int argc, char **argv);
int journal_command(int argc, char **argv);
int replay_command(int argc, char **argv);
int explain_command(int argc, char **argv);
int settings_command(int argc, char **argv);
int salvage_command(int argc, char **argv);
int compare_command(int argc, char **argv);

/* A word of the command line that begins with "-". */
struct flag {
    const char *name;
    bool *given;
};

/* What a command takes. */
struct takes {
    const char *usage;        /* printed for --help, and in short for wrong usage */
    const struct flag *flags; /* up to one without a name; a null pointer for none */
    int least, most;          /* how many other words */
};

/* Notes the flags and moves the other words to argv[1] and on; "-" is one of
 * them, and "--" ends the flags. Returns how many there are. Below 0 the command
 * is done, and *status is its exit status: help was printed, or what is wrong. */
int take_words(int argc, char **argv, const struct takes *takes, int *status);

/* Before take_words: takes "OPTION VALUE" out of the words, wherever it stands
 * before "--". Without it *value stays as it is; given twice the last one counts.
 * False: its value is missing, which is said, and *status is the exit status. */
bool take_option(int *argc, char **argv, const char *option, const char **value, const char *usage, int *status);

/* Called last: the status, or STATUS_FAILED if the output could not be written,
 * which is said. */
int finished(int status);

#endif
