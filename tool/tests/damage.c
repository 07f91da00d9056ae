/*
 * Damaged images through dump and journal, thousands in one run, for the
 * sanitizers: bytes of the header or the ring changed, sizes and counts put to
 * numbers at the edges, files cut short or made longer.
 *
 *   damage COUNT FILE IMAGE..      FILE holds each damaged image in turn
 */
#include <inttypes.h>
#include <stdio.h>
#include <stdlib.h>
#include <string.h>

#include "command.h"
#include "image.h"

static uint64_t some(uint64_t below)
{
    static uint64_t state = 1181783497276652981u;
    state ^= state << 13;
    state ^= state >> 7;
    state ^= state << 17;
    return state % below;
}

/* Seldom a byte of the first 50, since most of those end the reading at once. */
static void change(uint8_t *bytes, size_t length)
{
    static const uint8_t edges[] = { 0, 1, 4, 7, 8, 9, 20, 21, 64, 127, 128, 248, 254, 255 };
    size_t at = (size_t)some(length);
    if (at < IMAGE_HEADER && some(40) != 0)
        at += IMAGE_HEADER;
    if (some(40) == 0)
        at = (size_t)some(IMAGE_HEADER);
    if (at < length)
        bytes[at] = some(2) == 0 ? edges[some(sizeof edges)] : (uint8_t)some(256);
}

/* Returns the length of the damaged image. */
static size_t damage(const struct image *image, uint8_t *bytes)
{
    size_t length = image->present;
    memcpy(bytes, image->bytes, length);
    if (some(16) == 0)
        return (size_t)some(length + 64);
    for (uint64_t i = some(12) + 1; i > 0; i--)
        change(bytes, length);
    if (some(4) == 0) /* another edition, so that records are refused */
        bytes[48] = (uint8_t)some(5);
    if (some(4) == 0) /* other attributes, so that fields stand elsewhere */
        bytes[16 + some(33)] ^= (uint8_t)(1u << some(8));
    return length;
}

static bool save(const char *path, const uint8_t *bytes, size_t length)
{
    FILE *file = fopen(path, "wb");
    bool written = file != NULL && fwrite(bytes, 1, length, file) == length;
    return file != NULL && fclose(file) == 0 && written;
}

/* Every answer must be an exit status of the command; 2 would be ours. */
static bool status_is_known(int status)
{
    return status == STATUS_DONE || status == STATUS_FAILED;
}

static bool try_commands(char *path)
{
    static char name[] = "damage", all[] = "--all";
    char *dump[] = { name, path, NULL }, *dump_all[] = { name, all, path, NULL }, *journal[] = { name, path, NULL };
    return status_is_known(dump_command(2, dump)) && status_is_known(dump_command(3, dump_all)) &&
        status_is_known(journal_command(2, journal));
}

int main(int argc, char **argv)
{
    static uint8_t bytes[IMAGE_HEADER + OLLSKUVAN_RING_MAX + 64];
    unsigned long count = argc > 3 ? strtoul(argv[1], NULL, 10) : 0;
    if (count == 0 || freopen("/dev/null", "w", stdout) == NULL)
        return 2;
    for (unsigned long i = 0; i < count; i++) {
        struct image image;
        if (!image_read(&image, argv[3 + i % (unsigned)(argc - 3)]))
            return 1;
        bool done = save(argv[2], bytes, damage(&image, bytes)) && try_commands(argv[2]);
        image_free(&image);
        if (!done)
            return 1;
    }
    return 0;
}
