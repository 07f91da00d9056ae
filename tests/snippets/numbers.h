/* Each stop and each answer of include/ollskuvan.h, brought about by a call: what it said, in rising order. */
#ifndef SNIPPETS_NUMBERS_H
#define SNIPPETS_NUMBERS_H

#include <stddef.h>
#include <stdint.h>

enum { NUMBERS_MOST = 32 };

size_t each_stop(uint32_t got[NUMBERS_MOST]);    /* of drains and walks */
size_t each_refusal(uint32_t got[NUMBERS_MOST]); /* of records, from the journal */
size_t each_call(uint32_t got[NUMBERS_MOST]);    /* of check, read, write, copy_name and the two of a store */
size_t each_store(uint32_t got[NUMBERS_MOST]);   /* of read_store, replay and salvage */

#endif
