/*
 * The texts of libollskuvan_words.a over all numbers: none is a null pointer or
 * empty where it may not be, and no two words of a type have one name.
 */
#include <stdbool.h>
#include <stdio.h>
#include <string.h>

#include "ollskuvan.h"

enum { NUMBERS = 70000 };

static bool is(const char *what, const char *got, const char *due)
{
    if (strcmp(got, due) == 0)
        return true;
    printf("WRONG: %s is '%s', not '%s'\n", what, got, due);
    return false;
}

/* How many words have a name; -1: two have the same. */
static int named_words(uint64_t type)
{
    int named = 0;
    for (uint32_t word = 0; word < OLLSKUVAN_FIELDS + 9; word++) {
        const char *name = ollskuvan_word_name(type, word);
        named += *name != '\0';
        for (uint32_t other = 0; other < word && *name != '\0'; other++)
            if (!strcmp(name, ollskuvan_word_name(type, other)))
                return printf("WRONG: two words of type %d are called '%s'\n", (int)type, name), -1;
    }
    return named;
}

/* A type that has a name has words, at least those of the header; the others have none. */
static bool words_are_right(void)
{
    bool right = true;
    for (uint64_t type = 0; type < NUMBERS; type++) {
        bool known = strcmp(ollskuvan_type_name(type), "unknown type") != 0;
        int named = named_words(type);
        right = right && (known ? named >= 3 : named == 0);
    }
    return right && named_words(UINT64_MAX) == 0 && named_words((UINT64_C(1) << 32) + 9) == 0;
}

static bool numbers_are_told(void)
{
    bool right = true;
    for (uint32_t number = 0; number < NUMBERS; number++)
        right = right && *ollskuvan_stop_text(number) != '\0' && *ollskuvan_refusal_text(number) != '\0' &&
            *ollskuvan_type_name(number) != '\0';
    return right;
}

static bool samples_are_right(void)
{
    return is("word 4 of SAMPLE", ollskuvan_word_name(9, OLLSKUVAN_SAMPLE_IP), "ip") &
        is("word 53 of COMM", ollskuvan_word_name(3, OLLSKUVAN_TRAILER_CPU), "trailer cpu") &
        is("word 53 of SAMPLE", ollskuvan_word_name(9, OLLSKUVAN_TRAILER_CPU), "") &
        is("word 0 of SWITCH", ollskuvan_word_name(14, OLLSKUVAN_TYPE), "type") &
        is("word 3 of SWITCH", ollskuvan_word_name(14, 3), "") & is("type 20", ollskuvan_type_name(20), "TEXT_POKE") &
        is("type 2^32 + 9", ollskuvan_type_name((UINT64_C(1) << 32) + 9), "unknown type") &
        is("stop 0", ollskuvan_stop_text(0), "nothing to take") &
        is("answer 0", ollskuvan_refusal_text(0), "accepted") &
        is("word 25 of SAMPLE", ollskuvan_word_name(9, OLLSKUVAN_SAMPLE_HW_INDEX), "hardware index") &
        is("refusal 25", ollskuvan_refusal_text(25), "a branch bit that the edition doesn't know") &
        is("word 7 of COMM", ollskuvan_word_name(3, OLLSKUVAN_COMM_NAME_FLAG), "name flag") &
        is("refusal 43", ollskuvan_refusal_text(43), "the value has a name's flag set") &
        is("answer 44", ollskuvan_refusal_text(44), "accepted, with stale bytes after the name") &
        is("stop 99", ollskuvan_stop_text(99), "unknown answer") &
        is("stop 11", ollskuvan_stop_text(11), "the table of events is not allowed") &
        is("stop 13", ollskuvan_stop_text(13), "the oldest record is overwritten in part") &
        is("stop 20, which is none", ollskuvan_stop_text(20), ollskuvan_refusal_text(20)) &
        is("refusal 8, which is none", ollskuvan_refusal_text(8), ollskuvan_stop_text(8));
}

int main(void)
{
    return words_are_right() & numbers_are_told() & samples_are_right() ? 0 : 1;
}
