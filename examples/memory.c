#include "memory.h"

#include <stdlib.h>

#include "commands.h"
#include "messages.h"

void *must(void *memory)
{
    if (memory == NULL) {
        complain("out of memory");
        exit(STATUS_FAILED);
    }
    return memory;
}

void *grown(void *list, size_t count, size_t *room, size_t size)
{
    if (count < *room)
        return list;
    *room = *room == 0 ? 64 : 2 * *room;
    return must(realloc(list, *room * size));
}
