/*
 * Stores in files, as examples/settings.c keeps them: the program ends, or a call
 * fails, at each step of a writing, and what can be read afterwards is the old
 * store or the new one, whole. And what is wrong with a store, of files that are
 * named, under the sanitizers.
 *
 *   stores cut FOLDER       every step; FOLDER must be empty
 *   stores show FILE..      loads each
 *
 * It is linked with --wrap for the calls below.
 */
#define _GNU_SOURCE
#include <dirent.h>
#include <errno.h>
#include <stdarg.h>
#include <stdio.h>
#include <stdlib.h>
#include <string.h>
#include <sys/stat.h>
#include <sys/types.h>
#include <sys/wait.h>
#include <unistd.h>

#include "settings.h"

/* ---- the steps of a writing ---- */

enum { STEPS = 64, ENDED = 9 };
static enum { PLAIN, END, FAIL, SLOW } manner;
static int step, at; /* at which it ends or fails */
static char steps[STEPS + 1];

/* True: this step fails. */
static bool fails(char letter)
{
    if (step < STEPS)
        steps[step] = letter;
    step++;
    if (step != at || manner == PLAIN || manner == SLOW)
        return false;
    if (manner == END)
        _exit(ENDED);
    errno = EIO;
    return true;
}

ssize_t __real_write(int fd, const void *bytes, size_t count);
ssize_t __wrap_write(int fd, const void *bytes, size_t count);
int __real_fsync(int fd);
int __wrap_fsync(int fd);
int __real_rename(const char *from, const char *to);
int __wrap_rename(const char *from, const char *to);
int __real_fchmod(int fd, mode_t mode);
int __wrap_fchmod(int fd, mode_t mode);
int __real_close(int fd);
int __wrap_close(int fd);

ssize_t __wrap_write(int fd, const void *bytes, size_t count)
{
    if (fails('w'))
        return -1;
    return __real_write(fd, bytes, manner == SLOW && count > 50 ? 50 : count);
}

int __wrap_fsync(int fd)
{
    struct stat what;
    bool folder = fstat(fd, &what) == 0 && S_ISDIR(what.st_mode);
    return fails(folder ? 'f' : 's') ? -1 : __real_fsync(fd);
}

int __wrap_rename(const char *from, const char *to)
{
    return fails('r') ? -1 : __real_rename(from, to);
}

int __wrap_fchmod(int fd, mode_t mode)
{
    return fails('m') ? -1 : __real_fchmod(fd, mode);
}

int __wrap_close(int fd)
{
    bool failed = fails('c');
    int done = __real_close(fd);
    return failed ? -1 : done;
}

/* ---- what is there afterwards ---- */

static int wrongs;

static void wrong(const char *format, ...) __attribute__((format(printf, 1, 2)));
static void wrong(const char *format, ...)
{
    va_list list;
    va_start(list, format);
    printf("WRONG: stores: ");
    vprintf(format, list);
    printf("\n");
    va_end(list);
    wrongs++;
}

static struct settings some_settings(uint32_t budget, size_t count)
{
    struct settings s = { .count = count, .ring_length = 4096, .edition = 4, .budget = budget };
    for (size_t i = 0; i < count; i++)
        s.events[i] = (struct ollskuvan_event){ .identifier = i + budget, .sample_type = OLLSKUVAN_BIT_IDENTIFIER, .sample_id_all = 1 };
    return s;
}

static size_t files_in(const char *folder)
{
    size_t count = 0;
    DIR *all = opendir(folder);
    for (struct dirent *one; all != NULL && (one = readdir(all)) != NULL;)
        count += one->d_name[0] != '.';
    if (all != NULL)
        closedir(all);
    return count;
}

static void clear(const char *folder)
{
    char path[1024];
    DIR *all = opendir(folder);
    for (struct dirent *one; all != NULL && (one = readdir(all)) != NULL;)
        if (one->d_name[0] != '.') {
            snprintf(path, sizeof path, "%s/%s", folder, one->d_name);
            unlink(path);
        }
    if (all != NULL)
        closedir(all);
}

/* A writing of the new store over the old one in a process of its own; its exit status. */
static int write_in_child(const char *path, const struct settings *new, int how, int which)
{
    char why[WHY_ROOM];
    int status;
    fflush(stdout);
    pid_t pid = fork();
    if (pid == 0) {
        manner = how;
        at = which;
        step = 0;
        bool saved = settings_save(path, new, why);
        _exit(saved ? 0 : 1);
    }
    return pid > 0 && waitpid(pid, &status, 0) == pid && WIFEXITED(status) ? WEXITSTATUS(status) : -1;
}

static void cut_once(const char *folder, const char *path, int how, int which, int *ended)
{
    const struct settings old = some_settings(7, 3), new = some_settings(1000, OLLSKUVAN_EVENTS_MAX);
    struct settings now;
    char why[WHY_ROOM];
    clear(folder);
    manner = PLAIN;
    if (!settings_save(path, &old, why))
        wrong("%s", why);
    *ended = write_in_child(path, &new, how, which);
    if (settings_load(path, &now, why) != SETTINGS_READ)
        wrong("after step %d: %s", which, why);
    else if (!settings_equal(&now, &old) && !settings_equal(&now, &new))
        wrong("after step %d the store is neither the old one nor the new one", which);
    else if (*ended == 0 && !settings_equal(&now, &new))
        wrong("after step %d it is said to be written, and is not", which);
    if (how == FAIL && files_in(folder) != 1)
        wrong("after step %d failed there are %zu files", which, files_in(folder));
}

static int cut(const char *folder)
{
    char path[1024], why[WHY_ROOM];
    int ended, ends = 0, failures = 0;
    snprintf(path, sizeof path, "%s/kept", folder);
    for (int how = END; how <= FAIL; how++)
        for (int which = 1; which <= STEPS; which++) {
            cut_once(folder, path, how, which, &ended);
            if (ended == 0)
                break; /* there is no such step */
            ends += ended == ENDED;
            failures += ended == 1;
        }
    cut_once(folder, path, SLOW, 0, &ended);
    if (ended != 0)
        wrong("a writing in small pieces fails");
    /* the order: all is on the disk before the name is changed, and then the folder */
    const struct settings new = some_settings(1000, 1);
    manner = PLAIN;
    step = 0;
    memset(steps, 0, sizeof steps);
    if (!settings_save(path, &new, why) || strcmp(steps, "mwscrfc") != 0)
        wrong("the steps of a writing are %s", steps);
    if (ends != 7 || failures != 6)
        wrong("%d ends and %d failures were tried", ends, failures);
    if (wrongs == 0)
        printf("stores: a writing ended at each of %d steps and failed at %d: the old store or the new one is there, whole\n", ends, failures);
    return wrongs != 0;
}

static int show(int count, char **paths)
{
    static struct settings settings;
    char why[WHY_ROOM];
    int read = 0;
    for (int i = 0; i < count; i++)
        read += settings_load(paths[i], &settings, why) == SETTINGS_READ;
    printf("stores: %d files loaded, %d of them read\n", count, read);
    return 0;
}

int main(int argc, char **argv)
{
    if (argc == 3 && strcmp(argv[1], "cut") == 0)
        return cut(argv[2]);
    if (argc > 2 && strcmp(argv[1], "show") == 0)
        return show(argc - 2, argv + 2);
    return 2;
}
