#include "table.h"

#include <string.h>

#include "characters.h"
#include "place.h"

/* A table's text that is being gone through, line by line. */
typedef struct {
    table *t;
    table_fault *fault;
    const uint8_t *bytes;
    size_t at;   /* the byte reached */
    size_t end;  /* the byte behind the line, its LF or CR LF left out */
    size_t line; /* the line's number */
} scanner;

/* Tells the fault, which has to do with an earlier line. Answers false. */
static bool expected_since(scanner *s, size_t place, const char *what, size_t line)
{
    *s->fault = (table_fault){place, what, line};
    return false;
}

static bool expected(scanner *s, size_t place, const char *what)
{
    return expected_since(s, place, what, 0);
}

static span between(const scanner *s, size_t from, size_t to)
{
    return (span){s->bytes + from, to - from};
}

/* ---- what stands in a line */

static bool is_among(uint8_t byte, const char *bytes)
{
    return byte != '\0' && strchr(bytes, byte) != NULL;
}

static void pass_blanks(scanner *s)
{
    while (s->at < s->end && is_among(s->bytes[s->at], " \t"))
        s->at++;
}

/* Passes blanks. Answers whether only a remark follows in the line, or nothing. */
static bool line_ends(scanner *s)
{
    pass_blanks(s);
    return s->at == s->end || s->bytes[s->at] == '#';
}

static bool arrow_at(const scanner *s, size_t at)
{
    return s->end - at >= 2 && s->bytes[at] == '-' && s->bytes[at + 1] == '>';
}

/* Whether an arrow stands in what is left of the line, remarks left out. */
static bool has_arrow(const scanner *s)
{
    for (size_t at = s->at; at < s->end && s->bytes[at] != '#'; at++)
        if (arrow_at(s, at))
            return true;
    return false;
}

/* A byte of a draft's word, as document 01 has it; the colon behind a name is one too. */
static bool in_word(uint8_t byte)
{
    return byte > ' ' && byte <= '~' && !is_among(byte, "()[],%;#\"{}");
}

/* Passes a word of a draft; a closing curly is one by itself. */
static void pass_word(scanner *s)
{
    if (s->at < s->end && s->bytes[s->at] == '}') {
        s->at++;
        s->at += s->at < s->end && s->bytes[s->at] == ':';
        return;
    }
    while (s->at < s->end && in_word(s->bytes[s->at]))
        s->at++;
}

/* The word of a kind is of letters, digits, _ and -, and of any character above US-ASCII that can be shown. How many bytes its
 * character at `at` has; 0 if it has none there. */
static size_t kind_character(const scanner *s, size_t at)
{
    const character c = character_at(s->bytes + at, s->end - at);

    if (!c.is_character || arrow_at(s, at))
        return 0;
    if (c.number < 0x80)
        return is_among((uint8_t)c.number, "ABCDEFGHIJKLMNOPQRSTUVWXYZabcdefghijklmnopqrstuvwxyz0123456789_-");
    return character_shown(c).bytes[0] != '\\' ? c.length : 0;
}

static span kind_word(scanner *s)
{
    const size_t from = s->at;
    size_t length;

    while (s->at < s->end && (length = kind_character(s, s->at)) > 0)
        s->at += length;
    return between(s, from, s->at);
}

static bool is_digit(uint8_t byte)
{
    return byte >= '0' && byte <= '9';
}

/* ---- kinds */

/* The number that a word of digits stands for; KINDS if it has another byte or the number is greater. */
static unsigned kind_of_digits(span word)
{
    unsigned number = word.length > 0 ? 0 : KINDS;

    for (size_t i = 0; i < word.length && number < KINDS; i++)
        number = is_digit(word.bytes[i]) ? number * 10 + (word.bytes[i] - '0') : KINDS;
    return number < KINDS ? number : KINDS;
}

/* The kind that a word names; KINDS if it names none. */
static unsigned kind_named(const table *t, span word)
{
    unsigned kind = 0;

    if (word.length == 0)
        return KINDS;
    while (kind < KINDS && !span_is(t->kinds[kind], word))
        kind++;
    return kind < KINDS ? kind : kind_of_digits(word);
}

static bool parse_kind(scanner *s, const char *what, uint8_t *kind)
{
    const size_t from = s->at;
    const unsigned found = kind_named(s->t, kind_word(s));

    if (found == KINDS)
        return expected(s, from, what);
    *kind = (uint8_t)found;
    return true;
}

/* ---- an operation */

/* A kind, or a kind in brackets. */
static bool parse_item(scanner *s, uint8_t *item)
{
    if (s->bytes[s->at] != '[')
        return parse_kind(s, "a kind, '[' or '->'; a kind is number, string, a name from the kinds line, or 0 to 15", item);
    s->at++;
    pass_blanks(s);
    if (!parse_kind(s, "a kind behind '['; it is number, string, a name from the kinds line, or 0 to 15", item))
        return false;
    pass_blanks(s);
    if (s->at == s->end || s->bytes[s->at] != ']')
        return expected(s, s->at, "']' behind the kind of an array");
    s->at++;
    *item = VOGIEBURN_ARRAY_OF(*item);
    return true;
}

static bool parse_takes(scanner *s, uint8_t *takes, size_t *count)
{
    for (*count = 0; !line_ends(s) && !arrow_at(s, s->at); ++*count)
        if (*count == VOGIEBURN_TAKES_LIMIT)
            return expected(s, s->at, "'->': an operation takes at most 8 items");
        else if (!parse_item(s, &takes[*count]))
            return false;
    if (line_ends(s))
        return expected(s, s->at, "'->' behind the items that are taken");
    s->at += 2;
    return true;
}

static bool parse_gives(scanner *s, uint8_t *gives, size_t *count)
{
    for (*count = 0; !line_ends(s); ++*count)
        if (*count == VOGIEBURN_GIVES_LIMIT)
            return expected(s, s->at, "the end of the line: an operation gives at most 8 kinds");
        else if (!parse_kind(s, "a kind, or the end of the line; what is given is no array", &gives[*count]))
            return false;
    return true;
}

size_t table_find(const table *t, span name)
{
    size_t i = 0;

    while (i < t->count && !span_is((span){t->operations[i].name, t->operations[i].name_len}, name))
        i++;
    return i;
}

/* A name that the table can have beside those it has. */
static bool is_new(scanner *s, size_t place, span name)
{
    const size_t same = table_find(s->t, name);

    if (name.length > VOGIEBURN_OPERATION_NAME_LIMIT)
        return expected(s, place + VOGIEBURN_OPERATION_NAME_LIMIT, "':': a name has at most 255 bytes");
    if (same < s->t->count)
        return expected_since(s, place, "another name: this one stands", position_of(s->t->text, s->t->places[same]).line);
    if (s->t->count == VOGIEBURN_OPERATIONS_LIMIT)
        return expected(s, place, "no more lines: a table has at most 256 operations");
    return true;
}

static bool parse_operation(scanner *s, size_t place, span name)
{
    uint8_t takes[VOGIEBURN_TAKES_LIMIT], gives[VOGIEBURN_GIVES_LIMIT];
    size_t takes_len, gives_len;

    if (!is_new(s, place, name) || !parse_takes(s, takes, &takes_len) || !parse_gives(s, gives, &gives_len))
        return false;
    s->t->places[s->t->count] = place;
    return vogieburn_operation_make(&s->t->operations[s->t->count++], name.bytes, name.length, takes, takes_len, gives, gives_len);
}

/* ---- the line that names kinds */

static bool parse_kind_name(scanner *s, unsigned kind)
{
    const size_t from = s->at;
    const span name = kind_word(s);

    if (kind == KINDS)
        return expected(s, from, "the end of the line: there are 14 kinds to name, 2 to 15");
    if (name.length == 0 || is_digit(name.bytes[0]) || name.bytes[0] == '-')
        return expected(s, from, "a kind's name: a letter, then letters, digits, _ and -");
    if (kind_named(s->t, name) < KINDS)
        return expected(s, from, "another name: a kind has this one already");
    s->t->kinds[kind] = name;
    return true;
}

static bool parse_kinds(scanner *s, size_t place)
{
    unsigned kind = VOGIEBURN_CELL_HOUSE;

    if (s->t->kinds_line > 0)
        return expected_since(s, place, "an operation: kinds are named", s->t->kinds_line);
    s->t->kinds_line = s->line;
    while (!line_ends(s))
        if (!parse_kind_name(s, kind++))
            return false;
    return kind > VOGIEBURN_CELL_HOUSE || expected(s, s->at, "names for the kinds from 2 on, or '->' for an operation");
}

/* ---- lines */

static bool parse_line(scanner *s)
{
    size_t from, end;

    if (line_ends(s))
        return true;
    from = s->at;
    pass_word(s);
    end = s->at;
    if (end == from || is_digit(s->bytes[from]) || is_among(s->bytes[from], "+-?@=:"))
        return expected(s, from, "an operation's name: visible US-ASCII, none of ()[],%;#\"{}, and first no + - ? @ = : or digit");
    if (s->bytes[end - 1] != ':')
        return expected(s, end, "':' right behind the name");
    if (span_is(between(s, from, end), span_of("kinds:")) && !has_arrow(s))
        return parse_kinds(s, from);
    return parse_operation(s, from, between(s, from, end - 1));
}

/* The line from `at` on. Answers where the next one begins. */
static size_t line_at(scanner *s, size_t at)
{
    const position p = {.text = s->t->text, .place = at, .begin = at};
    const span line = line_of(&p);

    s->line++;
    s->at = at;
    s->end = at + line.length;
    at = s->end + (s->end < p.text.length && s->bytes[s->end] == '\r');
    return at + (at < p.text.length);
}

bool table_parse(table *t, span text, table_fault *fault)
{
    scanner s = {.t = t, .fault = fault, .bytes = text.bytes};

    *t = (table){.text = text};
    t->kinds[VOGIEBURN_CELL_NUMBER] = span_of("number");
    t->kinds[VOGIEBURN_CELL_STRING] = span_of("string");
    for (size_t at = has_mark(text) ? 3 : 0; at < text.length;) {
        at = line_at(&s, at);
        if (!parse_line(&s))
            return false;
    }
    return true;
}

/* ---- for people */

void write_table_fault(const writer *w, const char *file, span text, const table_fault *fault)
{
    const position p = position_of(text, fault->place);

    write_place(w, file, &p);
    fprintf(w->to, "expected %s", fault->expected);
    if (fault->line > 0)
        fprintf(w->to, " on line %zu already", fault->line);
    fputc('\n', w->to);
    write_excerpt(w, &p);
}

static void write_kind(const writer *w, const table *t, unsigned kind)
{
    if (t->kinds[kind].length > 0)
        write_span(w, t->kinds[kind]);
    else
        fprintf(w->to, "%u", kind);
}

void write_item(const writer *w, const table *t, unsigned item)
{
    if (item < KINDS) {
        write_kind(w, t, item);
        return;
    }
    fputc('[', w->to);
    write_kind(w, t, item - KINDS);
    fputc(']', w->to);
}
