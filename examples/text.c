#include "text.h"

#include <ctype.h>
#include <string.h>

/* ---- signs ---- */

static bool is_plain(unsigned char sign)
{
    return sign >= 0x20 && sign < 0x7f && sign != '\\' && sign != '\'';
}

bool plain_text(char *out, size_t room, const char *text, size_t most)
{
    size_t length = 0;
    out[0] = '\0';
    if (most > room - 1)
        most = room - 1;
    for (const unsigned char *at = (const unsigned char *)text; *at != '\0'; at++) {
        if (length + (is_plain(*at) ? 1 : 4) > most) {
            out[0] = '\0';
            return false;
        }
        length += (size_t)sprintf(out + length, is_plain(*at) ? "%c" : "\\x%02x", *at); /* most leaves room for the zero */
    }
    return true;
}

/* One sign, and how many bytes stood for it; 0: none does. */
static size_t sign_at(const char *plain, char *sign)
{
    unsigned value;
    int used = 0;
    *sign = *plain;
    if (*plain != '\\')
        return 1;
    if (plain[1] == 'x' && isxdigit((unsigned char)plain[2]) && sscanf(plain + 2, "%2x%n", &value, &used) == 1 && used == 2 && value != 0) {
        *sign = (char)value;
        return 4;
    }
    return 0;
}

bool from_plain_text(char *out, size_t room, const char *plain)
{
    size_t length = 0, used;
    for (; *plain != '\0'; plain += used) {
        used = sign_at(plain, out + length);
        if (used == 0 || ++length == room)
            return false;
    }
    out[length] = '\0';
    return true;
}

/* ---- threads, times, counts ---- */

const char *who_in_words(char out[WHO_ROOM], const struct whom *whom)
{
    char name[40];
    if (!whom->known)
        snprintf(out, WHO_ROOM, "-");
    else if (whom->tid == TID_ENDED)
        snprintf(out, WHO_ROOM, "(ended)");
    else if (whom->tid == 0)
        snprintf(out, WHO_ROOM, "idle");
    else if (whom->name == NULL)
        snprintf(out, WHO_ROOM, "%u/%u", whom->pid, whom->tid);
    else if (plain_text(name, sizeof name, whom->name, 30))
        snprintf(out, WHO_ROOM, "'%s' %u/%u", name, whom->pid, whom->tid);
    else
        snprintf(out, WHO_ROOM, "(odd name) %u/%u", whom->pid, whom->tid);
    return out;
}

const char *ms_in_words(char out[MS_ROOM], uint64_t ns)
{
    snprintf(out, MS_ROOM, "%llu.%03llu", (unsigned long long)(ns / 1000000), (unsigned long long)(ns / 1000 % 1000));
    return out;
}

const char *short_ms(char out[MS_ROOM], uint64_t ns)
{
    if (ns < 1000000)
        return ms_in_words(out, ns);
    snprintf(out, MS_ROOM, "%llu.%llu", (unsigned long long)(ns / 1000000), (unsigned long long)(ns / 100000 % 10));
    return out;
}

const char *plural(uint64_t count, const char *one, const char *more)
{
    return count == 1 ? one : more;
}

/* ---- sentences ---- */

/* A quote that begins a name stands after a blank; the names themselves hold none (plain_text). */
static bool begins_name(const char *sentence, size_t at)
{
    return sentence[at] == '\'' && (at == 0 || sentence[at - 1] == ' ' || sentence[at - 1] == '(');
}

size_t first_line_of(const char *sentence, size_t columns)
{
    const size_t length = strlen(sentence);
    size_t last_blank = 0;
    bool quoted = false;
    if (length <= columns)
        return length;
    for (size_t at = 0; at < length && (at <= columns || last_blank == 0); at++) {
        quoted = quoted ? sentence[at] != '\'' : begins_name(sentence, at);
        if (sentence[at] == ' ' && !quoted)
            last_blank = at;
    }
    return last_blank != 0 ? last_blank : length; /* one long word stays whole */
}

void print_sentence(FILE *out, size_t columns, size_t indent, const char *sentence)
{
    for (size_t in = indent; *sentence != '\0'; in = indent + 2) {
        size_t length = first_line_of(sentence, columns - in);
        fprintf(out, "%*s%.*s\n", (int)in, "", (int)length, sentence);
        sentence += length;
        sentence += strspn(sentence, " ");
    }
}
