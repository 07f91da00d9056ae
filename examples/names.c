#define _GNU_SOURCE
#include "names.h"

#include <ctype.h>
#include <dirent.h>
#include <errno.h>
#include <stdio.h>
#include <stdlib.h>
#include <string.h>

#include "file.h"
#include "memory.h"
#include "why.h"

static void add(struct names *names, const struct named *named)
{
    names->list = grown(names->list, names->count, &names->room, sizeof *names->list);
    names->list[names->count++] = *named;
}

void names_free(struct names *names)
{
    free(names->list);
    *names = (struct names){ 0 };
}

/* ---- /proc ---- */

static void add_thread(struct names *names, const char *pid, const char *tid, bool at_end)
{
    char path[600];
    struct named named = { .pid = (uint32_t)strtoul(pid, NULL, 10), .tid = (uint32_t)strtoul(tid, NULL, 10), .at_end = at_end };
    if (snprintf(path, sizeof path, "/proc/%s/task/%s/comm", pid, tid) >= (int)sizeof path)
        return;
    FILE *file = fopen(path, "r");
    if (file == NULL)
        return; /* it has ended */
    size_t length = fread(named.name, 1, sizeof named.name, file);
    fclose(file);
    if (length == 0 || named.name[length - 1] != '\n')
        return; /* longer than its room */
    named.name[length - 1] = '\0';
    add(names, &named);
}

static void add_process(struct names *names, const char *pid, bool at_end)
{
    char path[300];
    struct dirent *entry;
    if (snprintf(path, sizeof path, "/proc/%s/task", pid) >= (int)sizeof path)
        return;
    DIR *threads = opendir(path);
    if (threads == NULL)
        return;
    while ((entry = readdir(threads)) != NULL)
        if (isdigit((unsigned char)entry->d_name[0]))
            add_thread(names, pid, entry->d_name, at_end);
    closedir(threads);
}

void names_from_proc(struct names *names, bool at_end)
{
    struct dirent *entry;
    DIR *all = opendir("/proc");
    if (all == NULL)
        return; /* names will be missing, and shown as numbers */
    while ((entry = readdir(all)) != NULL)
        if (isdigit((unsigned char)entry->d_name[0]))
            add_process(names, entry->d_name, at_end);
    closedir(all);
}

/* ---- files ---- */

static void print_names(FILE *out, const void *what)
{
    const struct names *names = what;
    char plain[4 * NAMED_ROOM];
    for (size_t i = 0; i < names->count; i++) {
        const struct named *n = &names->list[i];
        plain_text(plain, sizeof plain, n->name, sizeof plain - 1);
        fprintf(out, "%s %u %u %s\n", n->at_end ? "end" : "begin", n->pid, n->tid, plain);
    }
}

bool names_save(const struct names *names, const char *path, char why[WHY_ROOM])
{
    return file_print(path, print_names, names, why);
}

static bool add_line(struct names *names, char *line)
{
    struct named named = { 0 };
    char when[8];
    int used = 0;
    line[strcspn(line, "\n")] = '\0';
    if (sscanf(line, "%7s %u %u%n", when, &named.pid, &named.tid, &used) != 3 || line[used] != ' ')
        return false;
    named.at_end = strcmp(when, "end") == 0;
    if ((!named.at_end && strcmp(when, "begin") != 0) || !from_plain_text(named.name, sizeof named.name, line + used + 1))
        return false;
    add(names, &named);
    return true;
}

bool names_load(struct names *names, const char *path, char why[WHY_ROOM])
{
    char line[160];
    bool good = true;
    FILE *file = fopen(path, "r");
    if (file == NULL)
        return refuse(why, "%s", strerror(errno));
    errno = 0;
    while (good && fgets(line, sizeof line, file) != NULL)
        good = add_line(names, line);
    int error = errno;
    bool read = ferror(file) == 0;
    fclose(file);
    if (!read)
        return refuse(why, "it cannot be read: %s", strerror(error));
    return good || refuse(why, "no file of names: its lines are 'begin PID TID NAME' or 'end PID TID NAME'");
}
