/*
 * ollskuvan: the program for people, over the exports of libollskuvan.a.
 */
#include <stdio.h>
#include <string.h>

#include "command.h"
#include "messages.h"
#include "ollskuvan.h"

struct command {
    char *name; /* as it calls itself */
    int (*run)(int argc, char **argv);
    const char *purpose;
};

static char program[] = "ollskuvan", help[] = "--help";
#define NAMED(WORD) ((char[]){ "ollskuvan " WORD })

static const struct command commands[] = {
    { NAMED("dump"), dump_command, "every record of an image as text, with all its fields by name" },
    { NAMED("journal"), journal_command, "a line of hex digits for each record of an image, as ringdump prints it" },
    { NAMED("replay"), replay_command, "a recorded trace, played again over a ring of its own" },
    { NAMED("report"), report_command, "why a thread ran late, from images or live" },
    { NAMED("record"), record_command, "live rings of this kernel, read or saved as images" },
    { NAMED("settings"), settings_command, "what a store of settings holds, and a new one of it" },
    { NAMED("salvage"), salvage_command, "what is sound of a stream of records that has holes" },
    { NAMED("compare"), compare_command, "where two images first differ, by record and field" },
    { NAMED("explain"), explain_command, "what the number of a stop or a refusal means" },
};
enum { COMMANDS = sizeof commands / sizeof commands[0] };

/* The word of the command line that a command is called by. */
static const char *word_of(const struct command *command)
{
    return command->name + sizeof program;
}

static void print_help(FILE *out)
{
    fputs("usage: ollskuvan COMMAND ..\n"
          "Reads rings of Linux perf events: images, as ollskuvan record saves them, and live ones.\n\n", out);
    for (int i = 0; i < COMMANDS; i++)
        fprintf(out, "  %-8s %s\n", word_of(&commands[i]), commands[i].purpose);
    fputs("\n'ollskuvan COMMAND --help' and 'man ollskuvan' tell more; --version tells the version.\n"
          "Exit status: 0; 1 if something failed or a ring was not read to its end; 2 for wrong usage;\n"
          "3 if this kernel does not allow perf events. Of compare: 0 alike, 1 different, 2 trouble.\n", out);
}

static int other_word(const char *word)
{
    if (strcmp(word, "--help") == 0 || strcmp(word, "-h") == 0) {
        print_help(stdout);
        return finished(STATUS_DONE);
    }
    if (strcmp(word, "--version") == 0) {
        puts("ollskuvan " OLLSKUVAN_VERSION);
        return finished(STATUS_DONE);
    }
    complain("%s%s", word[0] == '\0' ? "which command?" : "no such command: ", word);
    print_help(stderr);
    return STATUS_USAGE;
}

static int run(int argc, char **argv)
{
    const char *word = argc > 1 ? argv[1] : "";
    for (int i = 0; i < COMMANDS; i++)
        if (strcmp(word, word_of(&commands[i])) == 0) {
            argv[1] = commands[i].name;
            called_as(argv[1]);
            if (argc > 2 && strcmp(argv[2], "-h") == 0)
                argv[2] = help;
            return commands[i].run(argc - 1, argv + 1);
        }
    return other_word(word);
}

int main(int argc, char **argv)
{
    called_as(program);
    return run(argc, argv);
}
