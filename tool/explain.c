/*
 * ollskuvan explain: the numbers of stops and refusals in words.
 */
#include <inttypes.h>
#include <stdio.h>
#include <stdlib.h>
#include <string.h>

#include "command.h"
#include "messages.h"
#include "ollskuvan.h"
#include "ollskuvan_words.h"

static bool all;
static const struct flag flags[] = { { "--all", &all }, { NULL, NULL } };
static const struct takes takes = {
    "usage: ollskuvan explain NUMBER.. | --all\n"
    "Says in words why a call stopped, what a record was answered, or why a record, a name, a value, a table\n"
    "of events, a store of settings, a trace or a salvage was refused.\n"
    "  --all   every number that is used\n",
    flags, 0, 99,
};

/* What the short text leaves out. */
static const struct {
    uint32_t number;
    const char *text;
} notes[] = {
    { OLLSKUVAN_STOP_RING_LENGTH, "It is a power of two from 64 to 1,048,576 bytes." },
    { OLLSKUVAN_STOP_SCRATCH, "A scratch as long as the ring, or of 65,528 bytes, is long enough for any record." },
    { OLLSKUVAN_STOP_DISTANCE,
        "No later call can go on: the image is damaged, head and tail are of another ring, or the ring\n"
        "    was written backward, and is walked, not drained." },
    { OLLSKUVAN_STOP_ALIGNMENT,
        "No later call can go on: the image is damaged, or head and tail are of another ring." },
    { OLLSKUVAN_STOP_SIZE, "A drain cannot go on from there: what lies between tail and head is no record." },
    { OLLSKUVAN_STOP_PAST_HEAD, "A drain cannot go on from there. A record must be as long as its size says." },
    { OLLSKUVAN_STOP_BUDGET, "The next call goes on from the new tail." },
    { OLLSKUVAN_STOP_JOURNAL, "Fewer than 16 bytes are left. The next call goes on from the new tail." },
    { OLLSKUVAN_STOP_TABLE,
        "It has 1 to 1,024 events, no two with the same identifier, each with sample bit 16 and\n"
        "    sample_id_all." },
    { OLLSKUVAN_STOP_OVERWRITTEN,
        "A walk of a backward ring ends so where the ring has gone round: newer records took the place of\n"
        "    its end. All that can be read was taken." },
    { OLLSKUVAN_REFUSED_NAME_ROOM, "The name and one zero are copied whole or not at all." },
    { OLLSKUVAN_REFUSED_TYPE, "Edition 1 knows types 1 to 9, edition 2 types 1 to 15, edition 3 types 1 to 20, edition 4 types 1 to 21." },
    { OLLSKUVAN_REFUSED_SAMPLE_TYPE,
        "Edition 1 knows sample bits 0 to 15, edition 2 0 to 18, editions 3 and 4 0 to 24. It is the\n"
        "    answer to every SAMPLE then, and to all other records if sample_id_all is set." },
    { OLLSKUVAN_REFUSED_READ_FORMAT,
        "Bits 0 to 3 are known, in edition 4 bit 4 too, the lost counts. A READ is answered so, and a\n"
        "    SAMPLE with sample bit 4." },
    { OLLSKUVAN_REFUSED_BUILD_ID, "An MMAP2 with misc bit 14, in edition 1 or 2." },
    { OLLSKUVAN_REFUSED_WEIGHTS, "A SAMPLE where sample bits 14 and 24 are both set." },
    { OLLSKUVAN_REFUSED_BRANCH_TYPE,
        "A SAMPLE with sample bit 11 where branch bit 17 is set, the hardware index, in edition 1 or 2;\n"
        "    or a branch bit from 19 up, in any." },
    { OLLSKUVAN_REFUSED_IDENTIFIER,
        "It is the first word after the header in a SAMPLE, the last word in any other record." },
    { OLLSKUVAN_REFUSED_NO_IDENTIFIER, "Its size is below 16 where a table of events is given." },
    { OLLSKUVAN_REFUSED_SHORT,
        "Or the trailer does. A count is too great, or the attributes are not those of the event. With\n"
        "    branch bit 17 it may be a SAMPLE without a branch stack: the kernel writes no index there." },
    { OLLSKUVAN_REFUSED_LEFT_OVER, "Mostly the attributes are not those of the event." },
    { OLLSKUVAN_REFUSED_INNER,
        "Raw size plus 4, stack size and aux size are multiples of 8; the filled length is at\n"
        "    most the stack size; a build id has at most 20 bytes." },
    { OLLSKUVAN_REFUSED_NAME,
        "The first zero must be among the last 8 bytes before the trailer or the record's end." },
    { OLLSKUVAN_REFUSED_ROOM,
        "The buffer is too short, or there are fewer words than OLLSKUVAN_FIELDS, or fewer rows than a store\n"
        "    has events." },
    { OLLSKUVAN_REFUSED_PLACE, "Of a name in its record, or of a list or name in the source of a writing." },
    { OLLSKUVAN_REFUSED_VALUE, "ollskuvan.h says how a value is built from nothing." },
    { OLLSKUVAN_REFUSED_DIRTY_VALUE,
        "It was read from a record with stale bytes after its name. With that word set to 0 it can be written,\n"
        "    without these bytes." },
    { OLLSKUVAN_DIRTY_NAME,
        "Of record check alone, in place of 0: the record is sound, and a byte after its name's zero, before the\n"
        "    trailer or the record's end, is not zero. A drain and the readers answer 0." },
    { OLLSKUVAN_REFUSED_VERSION, "This build reads versions 1 and 2. A newer program wrote the store, or it is damaged." },
    { OLLSKUVAN_REFUSED_ENTRY,
        "A length is below 6, passes the end or is not that of its kind, or the last entry, which has the\n"
        "    ring's length, is missing: a store that is damaged, or no store. In a trace: the same of an entry;\n"
        "    kind 16 offers a record, and kind 17, of length 10, drains." },
    { OLLSKUVAN_REFUSED_DEPARTURE,
        "A kind or an index out of turn; a ring length that is no power of two from 64 to 1,048,576; or an\n"
        "    edition that this build does not know. In a trace: an entry of a store. The replay ends before it." },
    { OLLSKUVAN_REFUSED_OFFER,
        "It has fewer than 8 bytes, or its size is below 8, no multiple of 8, or not its length. The replay ends\n"
        "    before it." },
    { OLLSKUVAN_REFUSED_SALVAGE_ROOM,
        "Of salvage alone, and before anything is written. A buffer as long as the stream holds what is kept." },
};

static void print_note(uint32_t number)
{
    for (size_t i = 0; i < sizeof notes / sizeof notes[0]; i++)
        if (notes[i].number == number)
            printf("    %s\n", notes[i].text);
}

/* What is no refusal: the record is accepted. */
static bool is_accepted(uint32_t number)
{
    return number == OLLSKUVAN_OK || number == OLLSKUVAN_DIRTY_NAME;
}

static void print_answer(const struct ollskuvan_answer *answer)
{
    if (answer->stop != NULL)
        printf("stop %" PRIu32 ": %s\n", answer->number, answer->stop);
    if (answer->refusal != NULL)
        printf("%s %" PRIu32 ": %s\n", is_accepted(answer->number) ? "answer" : "refusal", answer->number, answer->refusal);
    print_note(answer->number);
}

static bool print_number(unsigned long long number)
{
    for (size_t i = 0; i < ollskuvan_answers_count; i++)
        if (ollskuvan_answers[i].number == number) {
            print_answer(&ollskuvan_answers[i]);
            return true;
        }
    return false;
}

/* Why a number tells nothing. 10 was a stop that no ring could give, and was taken away. */
static void complain_unknown(const char *number)
{
    if (strtoull(number, NULL, 10) == 10)
        complain("10 is no stop or refusal any more: it could never be given, and is never used again");
    else
        complain("no stop or refusal has the number %s", number);
}

/* Up to nine digits and nothing else. */
static bool is_number(const char *word)
{
    size_t digits = strspn(word, "0123456789");
    return digits >= 1 && digits <= 9 && word[digits] == '\0';
}

static int explain(int count, char **words)
{
    int status = STATUS_DONE;
    for (int i = 0; i < count; i++) {
        if (!is_number(words[i])) {
            complain("a number is wanted, not %s", words[i]);
            return STATUS_USAGE;
        }
        if (!print_number(strtoull(words[i], NULL, 10))) {
            complain_unknown(words[i]);
            status = STATUS_FAILED;
        }
    }
    return status;
}

int explain_command(int argc, char **argv)
{
    int status, count = take_words(argc, argv, &takes, &status);
    if (count < 0)
        return status;
    if (all == (count > 0)) {
        complain("a NUMBER or --all is wanted");
        return STATUS_USAGE;
    }
    for (size_t i = 0; all && i < ollskuvan_answers_count; i++)
        print_answer(&ollskuvan_answers[i]);
    return finished(explain(count, argv + 1));
}
