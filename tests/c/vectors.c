/* Holds the library, called from C, against files of vectors.
 *
 *     vectors [--spoil N] FILE...
 *
 * Each line of a FILE is `case => answer`, as tests/vectors/README.md says. Every case of reading and of checking is called with the
 * room that the line gives, as calls.h says; a check's buffers are held against what reading the same draft leaves. The tables that
 * checks name stand in tables.txt beside the FILE. Every case of tail is called at its place, and a case of step as often as the line
 * says, each time at the place that was reached. Lines of runs are left out, since a run is no call. A line that does not hold is
 * named; the last line counts: 'N passed, M failed'.
 *
 * With --spoil one thing is damaged after each call, so that every line has to fail: the N of enum spoiled.
 */
#include <stdbool.h>
#include <stdio.h>
#include <stdlib.h>
#include <string.h>

#include "calls.h"
#include "lent.h"

/* The most room that a line may ask for. */
enum { ROOM = 1000000 };

/* ---- a line's words; each function moves `at` past what it found */

static void skip_spaces(const char **at)
{
    while (**at == ' ')
        ++*at;
}

static bool word(const char **at, const char *wanted)
{
    skip_spaces(at);
    if (strncmp(*at, wanted, strlen(wanted)) != 0)
        return false;
    *at += strlen(wanted);
    return true;
}

static bool number(const char **at, uint64_t *n)
{
    skip_spaces(at);
    if (**at < '0' || **at > '9')
        return false;
    for (*n = 0; **at >= '0' && **at <= '9'; ++*at)
        *n = *n * 10 + (uint64_t)(**at - '0');
    return true;
}

static bool length(const char **at, size_t *n)
{
    uint64_t wide;

    if (!number(at, &wide) || wide > ROOM)
        return false;
    *n = (size_t)wide;
    return true;
}

static bool number32(const char **at, uint32_t *n)
{
    uint64_t wide;

    if (!number(at, &wide) || wide > UINT32_MAX)
        return false;
    *n = (uint32_t)wide;
    return true;
}

static int hex_digit(char c)
{
    static const char digits[] = "0123456789abcdef";
    const char *found = c != '\0' ? strchr(digits, c) : NULL;

    return found != NULL ? (int)(found - digits) : -1;
}

/* Bytes in hex, or `-` for none. `bytes` has room for half the line. */
static bool octets(const char **at, uint8_t *bytes, size_t *len)
{
    *len = 0;
    if (word(at, "-"))
        return true;
    while (hex_digit(**at) >= 0) {
        const int high = hex_digit((*at)[0]), low = hex_digit((*at)[1]);

        if (low < 0)
            return false;
        bytes[(*len)++] = (uint8_t)(high * 16 + low);
        *at += 2;
    }
    return *len > 0;
}

/* `kind:place:text length:data length:count`; the text begins at `text_at`. */
static bool entity(const char **at, uint64_t text_at, vogieburn_entity *e)
{
    e->text_at = (uint32_t)text_at;
    return number32(at, &e->kind) && word(at, ":") && number32(at, &e->place) && word(at, ":") && number32(at, &e->text_len) &&
           word(at, ":") && number32(at, &e->data_len) && word(at, ":") && number32(at, &e->count);
}

static bool entities(const char **at, vector *v)
{
    uint64_t text_at = 0;

    for (v->rows_len = 0; !word(at, "|"); v->rows_len++) {
        vogieburn_entity *e = &v->rows[v->rows_len];

        if (!entity(at, text_at, e))
            return false;
        text_at += (uint64_t)e->text_len + e->data_len;
    }
    return true;
}

/* `number,place,after,sort,prefix,data` of a step from `place`. The place reached is the byte after a token, but behind `|;` and behind
 * a refusal it is the place that was handed over. */
static bool token(const char **at, uint64_t place, vogieburn_token *t)
{
    uint64_t *const told[] = {&t->number, &t->place, &t->after, &t->sort, &t->prefix, &t->length};

    for (size_t i = 0; i < sizeof told / sizeof *told; i++)
        if ((i > 0 && !word(at, ",")) || !number(at, told[i]))
            return false;
    t->next = t->number == 0 && t->sort != VOGIEBURN_SORT_LAST ? t->after : place;
    return true;
}

/* As many answers as there are steps, of which there is at least one. */
static bool tokens(const char **at, walk *w)
{
    uint64_t place = w->place;

    for (size_t i = 0; i < w->tokens_len; i++) {
        if (!token(at, place, &w->tokens[i]))
            return false;
        place = w->tokens[i].next;
    }
    return w->tokens_len > 0;
}

/* ---- lines */

/* The draft, and the room for its entities and its text. */
static bool draft_and_room(const char **at, uint8_t *draft, vector *v)
{
    v->draft = draft;
    return octets(at, draft, &v->draft_len) && length(at, &v->list_room) && length(at, &v->text_room);
}

/* The numbers that both calls answer; those that a line does not tell are 0. */
static bool numbers(const char **at, vogieburn_answer *a)
{
    return number(at, &a->number) && number(at, &a->place) && number(at, &a->entities) && number(at, &a->text) &&
           number(at, &a->consumed);
}

/* What a line of reading says to be held, which has to fit the room that it gives. */
static bool held_rows(const char **at, vector *v)
{
    v->rows = room(strlen(*at) * sizeof *v->rows);
    v->held = room(strlen(*at));
    return word(at, "|") && entities(at, v) && octets(at, v->held, &v->held_len) && v->rows_len <= v->list_room &&
           v->held_len <= v->text_room;
}

static bool reading_holds(const char *at, uint8_t *draft, vector *v)
{
    if (draft_and_room(&at, draft, v) && word(&at, "=> R ") && numbers(&at, &v->answer) && held_rows(&at, v) && *at == '\0')
        return holds(v);
    return wrong("cannot be read");
}

/* The line of tables.txt, beside the file of vectors, that begins with `label`, or NULL. It is for free() to take back. */
static char *line_of_table(const char *path, const char *label)
{
    const char *slash = strrchr(path, '/');
    const int folder = slash != NULL ? (int)(slash - path) + 1 : 0;
    char beside[4096], *line = NULL;
    bool found = false;
    size_t size = 0;
    FILE *file;

    snprintf(beside, sizeof beside, "%.*stables.txt", folder, path);
    file = fopen(beside, "r");
    while (!found && file != NULL && getline(&line, &size, file) >= 0)
        found = strncmp(line, label, strlen(label)) == 0;
    if (file != NULL)
        fclose(file);
    if (!found) {
        free(line);
        line = NULL;
    }
    return line;
}

/* The bytes of the table that is named here, or NULL. They are for free() to take back. */
static uint8_t *table_named(const char *path, const char **at, size_t *len)
{
    char label[40], *line;
    uint8_t *table = NULL;
    int name_len;

    skip_spaces(at);
    name_len = (int)strcspn(*at, " ");
    snprintf(label, sizeof label, "%.*s ", name_len, *at);
    *at += name_len;
    line = line_of_table(path, label);
    if (line != NULL) {
        const char *bytes = line + strlen(label);

        table = room(strlen(line));
        if (!octets(&bytes, table, len) || *bytes != '\n') {
            free(table);
            table = NULL;
        }
    }
    free(line);
    return table;
}

static bool check_holds(const char *path, const char *at, uint8_t *draft, vector *v)
{
    uint8_t *table = NULL;
    bool good = false;

    v->checks = true;
    if (draft_and_room(&at, draft, v) && (table = table_named(path, &at, &v->table_len)) != NULL && word(&at, "=> C ") &&
        numbers(&at, &v->answer) && number(&at, &v->answer.steps) && number(&at, &v->answer.cells) && *at == '\0') {
        v->table = table;
        hold_reading(v);
        good = holds(v);
    } else {
        wrong("cannot be read, or its table is not there");
    }
    free(table);
    return good;
}

static bool draft_and_place(const char **at, uint8_t *draft, walk *w)
{
    w->draft = draft;
    return octets(at, draft, &w->draft_len) && number(at, &w->place);
}

static bool tail_line_holds(const char *at, uint8_t *draft)
{
    walk w = {0};

    if (draft_and_place(&at, draft, &w) && word(&at, "=> T ") && number(&at, &w.tail.number) && number(&at, &w.tail.yes) &&
        number(&at, &w.tail.place) && *at == '\0')
        return tail_holds(&w);
    return wrong("cannot be read");
}

static bool step_line_holds(const char *at, uint8_t *draft)
{
    walk w = {0};
    bool good = false;

    if (draft_and_place(&at, draft, &w) && length(&at, &w.tokens_len) && word(&at, "=> S ")) {
        w.tokens = room(w.tokens_len * sizeof *w.tokens);
        good = tokens(&at, &w) && *at == '\0';
    }
    good = good ? steps_hold(&w) : wrong("cannot be read");
    free(w.tokens);
    return good;
}

/* Holds one line. */
static bool line_holds(const char *path, const char *line)
{
    uint8_t *draft = room(strlen(line));
    vector v = {0};
    bool good;

    if (word(&line, "C "))
        good = check_holds(path, line, draft, &v);
    else if (word(&line, "R "))
        good = reading_holds(line, draft, &v);
    else if (word(&line, "T "))
        good = tail_line_holds(line, draft);
    else
        good = word(&line, "S ") ? step_line_holds(line, draft) : wrong("cannot be read");
    free(draft);
    free(v.rows);
    free(v.held);
    return good;
}

/* ---- files */

typedef struct {
    size_t passed, failed;
} counts;

static bool is_of_a_run(const char *line)
{
    return strncmp(line, "G ", 2) == 0;
}

/* Holds the lines of one file; a file without any fails. */
static void hold_file(const char *path, counts *n)
{
    FILE *file = fopen(path, "r");
    const size_t before = n->passed + n->failed;
    size_t size = 0, line_number = 0;
    char *line = NULL;

    now_held("%s", path);
    while (file != NULL && getline(&line, &size, file) >= 0) {
        now_held("%s:%zu", path, ++line_number);
        line[strcspn(line, "\n")] = '\0';
        if (line[0] == '\0' || is_of_a_run(line))
            continue;
        if (line_holds(path, line))
            n->passed++;
        else
            n->failed++;
    }
    free(line);
    if (file != NULL)
        fclose(file);
    if (n->passed + n->failed == before) {
        wrong("no line of a call");
        n->failed++;
    }
}

int main(int argc, char **argv)
{
    counts n = {0, 0};
    int first = 1;

    if (argc > 2 && strcmp(argv[1], "--spoil") == 0) {
        spoil_with((enum spoiled)atoi(argv[2]));
        first = 3;
    }
    if (first >= argc) {
        fputs("usage: vectors [--spoil N] FILE...\n", stderr);
        return 2;
    }
    for (int i = first; i < argc; i++)
        hold_file(argv[i], &n);
    printf("%zu passed, %zu failed\n", n.passed, n.failed);
    return n.failed > 0 ? 1 : 0;
}
