#define _GNU_SOURCE
#include "file.h"

#include <errno.h>
#include <fcntl.h>
#include <libgen.h>
#include <stdlib.h>
#include <string.h>
#include <sys/stat.h>
#include <unistd.h>

#include "why.h"

enum { PATH_ROOM = 4096, FIRST_ROOM = 65536 };

/* ---- reading ---- */

/* Room for more, up to the most; false: no memory. */
static bool grow(struct file *file, size_t *room, size_t most)
{
    size_t wanted = *room != 0 ? 2 * *room : FIRST_ROOM;
    wanted = wanted < most ? wanted : most;
    uint8_t *more = realloc(file->bytes, wanted);
    if (more == NULL)
        return false;
    file->bytes = more;
    *room = wanted;
    return true;
}

static bool read_all(struct file *file, FILE *from, size_t most, char why[WHY_ROOM])
{
    size_t room = 0, got;
    do {
        if (file->length == room && !grow(file, &room, most))
            return refuse(why, "out of memory");
        errno = 0;
        got = fread(file->bytes + file->length, 1, room - file->length, from);
        file->length += got;
    } while (got != 0 && file->length < most);
    if (ferror(from) == 0)
        return true;
    return errno != 0 ? refuse(why, "it cannot be read: %s", strerror(errno)) : refuse(why, "it cannot be read");
}

bool file_read(struct file *file, const char *path, size_t most, char why[WHY_ROOM])
{
    bool standard = strcmp(path, "-") == 0;
    FILE *from = standard ? stdin : fopen(path, "rb");
    *file = (struct file){ .missing = from == NULL && errno == ENOENT };
    if (from == NULL)
        return refuse(why, "%s", strerror(errno));
    bool done = read_all(file, from, most, why);
    if (!standard)
        fclose(from);
    if (!done) {
        free(file->bytes);
        *file = (struct file){ 0 };
    }
    return done;
}

/* ---- writing ---- */

static bool write_all(int fd, const uint8_t *bytes, size_t length)
{
    while (length > 0) {
        ssize_t written = write(fd, bytes, length);
        if (written < 0 && errno == EINTR)
            continue;
        if (written <= 0)
            return false;
        bytes += written;
        length -= (size_t)written;
    }
    return true;
}

/* The folder's own entry is on the disk too. */
static bool sync_folder(const char *path)
{
    char folder[PATH_ROOM];
    snprintf(folder, sizeof folder, "%s", path);
    int fd = open(dirname(folder), O_RDONLY | O_DIRECTORY | O_CLOEXEC);
    if (fd < 0)
        return false;
    bool done = fsync(fd) == 0 || errno == EINVAL; /* a file system that has nothing to sync says EINVAL */
    int error = errno;
    close(fd);
    errno = error;
    return done;
}

/* Where it stands: behind a link, the file that the link names. And what the new one may be read and written by. */
static bool find_place(const char *path, char place[PATH_ROOM], mode_t *mode, char why[WHY_ROOM])
{
    struct stat there;
    char *real = realpath(path, NULL);
    bool fits = strlen(real != NULL ? real : path) < PATH_ROOM - sizeof ".new-XXXXXX";
    if (fits)
        strcpy(place, real != NULL ? real : path);
    free(real);
    if (!fits)
        return refuse(why, "%s", strerror(ENAMETOOLONG));
    mode_t mask = umask(0);
    umask(mask);
    *mode = 0666 & ~mask;
    if (stat(place, &there) == 0)
        *mode = there.st_mode & 0777;
    else if (errno != ENOENT)
        return refuse(why, "%s", strerror(errno));
    return true;
}

/* The new file's descriptor, or below 0. */
static int open_beside(const char place[PATH_ROOM], char new[PATH_ROOM], char why[WHY_ROOM])
{
    memcpy(new, place, strlen(place) + 1);
    strcat(new, ".new-XXXXXX");
    int fd = mkstemp(new);
    if (fd < 0)
        refuse(why, "no new file beside it: %s", strerror(errno));
    return fd;
}

/* All of it is on the disk before the name is changed. */
static bool write_new(const char *new, int fd, mode_t mode, const uint8_t *bytes, size_t length, const char *place, char why[WHY_ROOM])
{
    bool written = fchmod(fd, mode) == 0 && write_all(fd, bytes, length) && fsync(fd) == 0;
    int error = errno;
    if (close(fd) != 0 && written) {
        written = false;
        error = errno;
    }
    if (!written)
        return refuse(why, "it cannot be written: %s; nothing was replaced", strerror(error));
    if (rename(new, place) != 0)
        return refuse(why, "it cannot be replaced: %s; nothing was", strerror(errno));
    return true;
}

static bool write_other(const char *path, const void *bytes, size_t length, char why[WHY_ROOM])
{
    int fd = open(path, O_WRONLY | O_CLOEXEC);
    if (fd < 0)
        return refuse(why, "%s", strerror(errno));
    bool written = write_all(fd, bytes, length);
    int error = errno;
    if (close(fd) != 0 && written) {
        written = false;
        error = errno;
    }
    return written || refuse(why, "it cannot be written: %s", strerror(error));
}

bool file_is_other(const char *path)
{
    struct stat there;
    return stat(path, &there) == 0 && !S_ISREG(there.st_mode);
}

bool file_replace(const char *path, const void *bytes, size_t length, char why[WHY_ROOM])
{
    char place[PATH_ROOM], new[PATH_ROOM];
    mode_t mode = 0;
    if (file_is_other(path))
        return write_other(path, bytes, length, why);
    if (!find_place(path, place, &mode, why))
        return false;
    int fd = open_beside(place, new, why);
    if (fd < 0)
        return false;
    if (!write_new(new, fd, mode, bytes, length, place, why)) {
        unlink(new);
        return false;
    }
    return sync_folder(place) || refuse(why, "it was replaced, but its folder is not known to be on the disk: %s", strerror(errno));
}

bool file_print(const char *path, void (*print)(FILE *out, const void *what), const void *what, char why[WHY_ROOM])
{
    char *text = NULL;
    size_t length = 0;
    FILE *out = open_memstream(&text, &length);
    if (out == NULL)
        return refuse(why, "out of memory");
    print(out, what);
    bool printed = ferror(out) == 0;
    printed = fclose(out) == 0 && printed;
    bool done = printed ? file_replace(path, text, length, why) : refuse(why, "out of memory");
    free(text);
    return done;
}

bool file_replaceable(const char *path, char why[WHY_ROOM])
{
    char place[PATH_ROOM], new[PATH_ROOM];
    struct stat there;
    mode_t mode = 0;
    if (stat(path, &there) == 0 && S_ISDIR(there.st_mode))
        return refuse(why, "%s", strerror(EISDIR));
    if (file_is_other(path))
        return access(path, W_OK) == 0 || refuse(why, "%s", strerror(errno));
    if (!find_place(path, place, &mode, why))
        return false;
    int fd = open_beside(place, new, why);
    if (fd < 0)
        return false;
    close(fd);
    unlink(new);
    return true;
}
