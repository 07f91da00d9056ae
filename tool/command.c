#include "command.h"

#include <stdio.h>
#include <string.h>

#include "messages.h"

int finished(int status)
{
    return output_written() ? status : STATUS_FAILED;
}

static bool note_flag(const struct flag *flag, const char *word)
{
    for (; flag != NULL && flag->name != NULL; flag++)
        if (strcmp(flag->name, word) == 0) {
            *flag->given = true;
            return true;
        }
    return false;
}

/* What is wrong, the first line of the usage, and where the rest stands. */
static int wrong(const char *what, const char *word, const char *usage, int *status)
{
    complain("%s%s", what, word);
    fprintf(stderr, "%.*s\ntry '%s --help'\n", (int)strcspn(usage, "\n"), usage, own_name());
    *status = STATUS_USAGE;
    return -1;
}

int take_words(int argc, char **argv, const struct takes *takes, int *status)
{
    int count = 0;
    bool flags = true;
    for (int i = 1; i < argc; i++) {
        const char *word = argv[i];
        if (!flags || word[0] != '-' || word[1] == '\0') {
            argv[++count] = argv[i];
        } else if (strcmp(word, "--") == 0) {
            flags = false;
        } else if (strcmp(word, "--help") == 0 || strcmp(word, "-h") == 0) {
            fputs(takes->usage, stdout);
            *status = finished(STATUS_DONE);
            return -1;
        } else if (!note_flag(takes->flags, word)) {
            return wrong("unknown option ", word, takes->usage, status);
        }
    }
    if (count >= takes->least && count <= takes->most)
        return count;
    return wrong(count < takes->least ? "too few words" : "too many words", "", takes->usage, status);
}

bool take_option(int *argc, char **argv, const char *option, const char **value, const char *usage, int *status)
{
    int kept = 1, i = 1;
    while (i < *argc && strcmp(argv[i], "--") != 0) {
        if (strcmp(argv[i], option) != 0) {
            argv[kept++] = argv[i++];
            continue;
        }
        if (i + 1 == *argc)
            return wrong("a value is wanted behind ", option, usage, status) == 0;
        *value = argv[i + 1];
        i += 2;
    }
    while (i < *argc)
        argv[kept++] = argv[i++];
    *argc = kept;
    return true;
}
