#define _XOPEN_SOURCE 700
#include "writer.h"

#include <inttypes.h>
#include <stdlib.h>
#include <string.h>
#include <sys/ioctl.h>
#include <unistd.h>

#include "characters.h"

static size_t columns_of(int terminal)
{
    struct winsize size;

    return ioctl(terminal, TIOCGWINSZ, &size) == 0 ? size.ws_col : 0;
}

static bool wants_colour(void)
{
    const char *const no_colour = getenv("NO_COLOR"), *const term = getenv("TERM");

    return (no_colour == NULL || *no_colour == '\0') && (term == NULL || strcmp(term, "dumb") != 0);
}

writer writer_to(FILE *to)
{
    const bool is_terminal = isatty(fileno(to));

    return (writer){to, is_terminal && wants_colour(), is_terminal ? columns_of(fileno(to)) : 0};
}

void write_colour(const writer *w, enum colour colour)
{
    static const char *const codes[] = {[PLAIN] = "0", [STRONG] = "1", [REFUSED] = "1;31", [SOUND] = "1;32",
                                        [CARET] = "1;32", [KIND] = "36", [DATA] = "33"};

    if (w->coloured)
        fprintf(w->to, "\033[%sm", codes[colour]);
}

void write_span(const writer *w, span s)
{
    for (size_t at = 0; at < s.length;) {
        const character c = character_at(s.bytes + at, s.length - at);
        const shown seen = character_shown(c);

        fwrite(seen.bytes, 1, seen.length, w->to);
        at += c.length;
    }
}

span span_of(const char *words)
{
    return (span){(const uint8_t *)words, strlen(words)};
}

bool span_is(span s, span other)
{
    return s.length == other.length && (s.length == 0 || memcmp(s.bytes, other.bytes, s.length) == 0);
}

void write_words(const writer *w, const char *words)
{
    write_span(w, span_of(words));
}

void write_coloured(const writer *w, enum colour colour, const char *words)
{
    write_colour(w, colour);
    write_words(w, words);
    write_colour(w, PLAIN);
}

void write_count(const writer *w, uint64_t n, const char *one, const char *more)
{
    fprintf(w->to, "%" PRIu64 " %s", n, n == 1 ? one : more);
}
