#include "place.h"

#include <string.h>

#include "characters.h"
#include "vogieburn.h"

enum {
    /* Columns from one stop of the tabulator to the next. */
    TAB = 8,
    /* Columns of a line that are shown where there is no terminal: all that a draft's line can have, since no byte takes more than a
     * tab, and enough of a table's. */
    WIDEST = TAB * VOGIEBURN_DRAFT_LIMIT,
};

bool has_mark(span text)
{
    return text.length >= 3 && memcmp(text.bytes, "\xEF\xBB\xBF", 3) == 0;
}

position position_first(span text)
{
    const size_t first = has_mark(text) ? 3 : 0;

    return (position){text, first, 1, 1, first};
}

position position_on(position from, size_t place)
{
    position p = from;

    while (p.place < place && p.place < p.text.length) {
        const character c = character_at(p.text.bytes + p.place, p.text.length - p.place);

        p.place += c.length;
        p.column++;
        if (c.is_character && c.number == '\n') {
            p.line++;
            p.column = 1;
            p.begin = p.place;
        }
    }
    return p;
}

position position_of(span text, size_t place)
{
    return position_on(position_first(text), place);
}

span line_of(const position *p)
{
    const uint8_t *const begin = p->text.bytes + p->begin;
    const size_t rest = p->text.length - p->begin;
    const uint8_t *const end = rest > 0 ? memchr(begin, '\n', rest) : NULL;
    size_t length = end != NULL ? (size_t)(end - begin) : rest;

    if (end != NULL && length > 0 && begin[length - 1] == '\r')
        length--;
    return (span){begin, length};
}

void write_place(const writer *w, const char *file, const position *p)
{
    write_colour(w, STRONG);
    write_words(w, file);
    fprintf(w->to, ":%zu:%zu: ", p->line, p->column);
    write_colour(w, PLAIN);
}

/* ---- the excerpt */

/* What of a line has been gone through: so many bytes, which take so many columns. */
typedef struct {
    size_t bytes, columns;
} reached;

/* The next character of a line as it is shown; a tab is blanks up to the next stop. */
static shown next_shown(span line, reached *r)
{
    const character c = character_at(line.bytes + r->bytes, line.length - r->bytes);
    shown s = character_shown(c);

    if (c.is_character && c.number == '\t') {
        s.length = s.width = TAB - r->columns % TAB;
        memset(s.bytes, ' ', s.length);
    }
    r->bytes += c.length;
    r->columns += s.width;
    return s;
}

/* The column under which the caret stands. A mark that combines with what stands before it is pointed at there. */
static size_t caret_column(span line, size_t place)
{
    reached r = {0, 0};
    size_t column;

    while (r.bytes < place && r.bytes < line.length)
        next_shown(line, &r);
    column = r.columns;
    if (r.bytes < line.length && next_shown(line, &r).width == 0 && column > 0)
        column--;
    return column;
}

/* The columns of a line that are shown: `from`, up to `to`. */
typedef struct {
    size_t from, to;
} window;

static window window_of(const writer *w, size_t caret)
{
    const size_t columns = w->columns > 0 ? w->columns : WIDEST;
    const size_t from = caret < columns ? 0 : caret - columns / 2;

    return (window){from, from + columns};
}

static void write_blanks(const writer *w, size_t count)
{
    fprintf(w->to, "%*s", (int)count, "");
}

/* A character that stands across the window's edge leaves blanks, so that those behind it keep their columns. */
static void write_within(const writer *w, window seen, span line)
{
    reached r = {0, 0};

    while (r.bytes < line.length && r.columns < seen.to) {
        const shown s = next_shown(line, &r);

        if (r.columns > seen.to || r.columns < seen.from)
            continue;
        if (r.columns - s.width >= seen.from)
            fwrite(s.bytes, 1, s.length, w->to);
        else
            write_blanks(w, r.columns - seen.from);
    }
    fputc('\n', w->to);
}

void write_excerpt(const writer *w, const position *p)
{
    const span line = line_of(p);
    const size_t caret = caret_column(line, p->place - p->begin);
    const window seen = window_of(w, caret);

    write_within(w, seen, line);
    write_blanks(w, caret - seen.from);
    write_coloured(w, CARET, "^");
    fputc('\n', w->to);
}
