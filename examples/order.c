#include "order.h"

size_t first_not(size_t count, bool (*holds)(const void *context, size_t place), const void *context)
{
    size_t low = 0, high = count;
    while (low < high) {
        size_t middle = low + (high - low) / 2;
        if (holds(context, middle))
            low = middle + 1;
        else
            high = middle;
    }
    return low;
}
