/* Tries the viewer's parts on drafts and tables drawn by lot, in one process, so that a sanitizer sees every step of them.
 *
 *     trial                 all of it; the last line is 'N passed, M failed'
 *     trial --few           a tenth of it
 *     trial --write FOLDER  writes drafts to FOLDER/0.draft and on, for the tests that run the viewer itself
 *
 * What is written is looked at as well: it is UTF-8, and of control characters it has only LF, and ESC where it is coloured.
 */
#define _XOPEN_SOURCE 700
#include <stdlib.h>
#include <string.h>

#include "characters.h"
#include "draft.h"
#include "json.h"
#include "listing.h"
#include "place.h"
#include "refusal.h"
#include "samples.h"
#include "show.h"

enum { WRITTEN = 200 };

/* How many of each there are. */
static size_t readings = 20000, checks = 10000, damages = 10000;

static sample s;
static draft seen;
static table under;
static size_t passed, failed;

/* Bytes in memory of their own, so that the sanitizer meets whoever looks past them. */
static span alone(const uint8_t *bytes, size_t length)
{
    uint8_t *const copy = malloc(length + (length == 0));

    if (copy == NULL)
        abort();
    memcpy(copy, bytes, length);
    return (span){copy, length};
}

static void let_go(span s)
{
    free((void *)s.bytes);
}

/* ---- what is told */

/* Whether all is well so far with what is being tried. */
static bool well = true;

static void hold(bool held, const char *what, uint64_t number)
{
    if (held || !well)
        return;
    well = false;
    printf("FAILED: %s, sample %lu\n", what, (unsigned long)number);
}

static void tell(const char *what, size_t count)
{
    if (well)
        printf("ok: %zu %s\n", count, what);
    passed += well;
    failed += !well;
    well = true;
}

/* ---- what is written */

/* Whether a terminal may get these bytes. */
static bool is_clean(const char *bytes, size_t length, bool coloured)
{
    for (size_t at = 0; at < length;) {
        const character c = character_at((const uint8_t *)bytes + at, length - at);
        const bool is_control = c.number < 0x20 || (c.number >= 0x7F && c.number < 0xA0);

        if (!c.is_character || c.length > 4 || (is_control && c.number != '\n' && !(coloured && c.number == 0x1B)))
            return false;
        at += c.length;
    }
    return true;
}

/* Text that is written to memory. */
typedef struct {
    char *bytes;
    size_t length;
    writer w;
} page;

/* Plain, coloured, and on terminals of several widths. */
static void page_open(page *p, uint64_t number)
{
    static const size_t columns[] = {0, 80, 0, 7, 1, 200};

    p->w = (writer){open_memstream(&p->bytes, &p->length), number % 3 == 1, columns[number % 6]};
    if (p->w.to == NULL)
        abort();
}

static void page_close(page *p, uint64_t number)
{
    fclose(p->w.to);
    hold(is_clean(p->bytes, p->length, p->w.coloured), "what was written is not clean", number);
    free(p->bytes);
}

static size_t lines_of(const page *p)
{
    size_t lines = 0;

    fflush(p->w.to);
    for (size_t i = 0; i < p->length; i++)
        lines += p->bytes[i] == '\n';
    return lines;
}

/* ---- drafts */

static void try_listing(uint64_t number)
{
    page p;

    page_open(&p, 0);
    write_listing(&p.w, &seen);
    hold(lines_of(&p) == seen.answer.entities + 1, "a listing has a line for each entity and one more", number);
    page_close(&p, number);
}

/* The line and the caret at every place that an answer names, and at the draft's end. */
static void try_places(uint64_t number)
{
    const size_t places[] = {seen.answer.place, seen.answer.consumed, seen.length, seen.length + 1};
    const span text = alone(seen.bytes, seen.length);
    page p;

    page_open(&p, number);
    for (size_t i = 0; i < sizeof places / sizeof *places; i++) {
        const position at = position_of(text, places[i]);

        write_excerpt(&p.w, &at);
    }
    page_close(&p, number);
    let_go(text);
}

/* All that the viewer can say of a draft. */
static void try_draft(const table *t, uint64_t number)
{
    page p;

    seen.file = "a\x1B\xFF.draft";
    seen.table_file = "b\x7F.table";
    seen.under = t;
    seen.length = s.draft_len < sizeof seen.bytes ? s.draft_len : sizeof seen.bytes;
    memcpy(seen.bytes, s.draft, seen.length);
    draft_read(&seen, ROOM);
    hold(seen.answer.number != VOGIEBURN_LIST_FULL && seen.answer.number != VOGIEBURN_TEXT_FULL, "there is room", number);
    try_listing(number);
    try_places(number);
    page_open(&p, number);
    write_json(&p.w, &seen);
    if (seen.answer.number != 0) {
        write_refusal(&p.w, &seen);
    } else {
        write_draft(&p.w, &seen);
        write_remarks(&p.w, &seen);
    }
    page_close(&p, number);
}

static void try_readings(void)
{
    for (uint64_t i = 0; i < readings; i++) {
        sample_reading(i, &s);
        try_draft(NULL, i);
    }
    tell("drafts were read and shown", readings);
}

/* ---- tables */

/* Whether a draft can have the name for an operation. */
static bool is_operation(const vogieburn_operation *o)
{
    uint8_t bytes[VOGIEBURN_OPERATION_NAME_LIMIT + 3], text[VOGIEBURN_OPERATION_NAME_LIMIT];
    vogieburn_entity list[3];
    vogieburn_answer a;

    memcpy(bytes, o->name, o->name_len);
    memcpy(bytes + o->name_len, " |;", 3);
    a = vogieburn_read(bytes, o->name_len + 3u, (uint32_t *)list, 3 * VOGIEBURN_NUMBERS, text, sizeof text);
    return a.number == 0 && a.entities == 2 && list[0].kind == VOGIEBURN_OPERATION && list[0].text_len == o->name_len;
}

static bool are_operations(void)
{
    bool all = true;

    for (size_t i = 0; i < s.count; i++)
        all = all && is_operation(&s.operations[i]);
    return all;
}

/* The table's text is parsed, and stays where it is until the next one is. A fault is told as it would be. */
static bool parsed(uint64_t number)
{
    static span text;
    table_fault fault;
    page p;

    let_go(text);
    text = alone(s.text, s.text_len);
    if (table_parse(&under, text, &fault))
        return true;
    hold(fault.place <= text.length, "a fault stands in the text", number);
    page_open(&p, number);
    write_table_fault(&p.w, "c\x9B.table", text, &fault);
    page_close(&p, number);
    return false;
}

/* The text of a table gives that table, if its names can stand in a draft, and else none; and the draft is shown under it. */
static bool try_check(uint64_t number)
{
    const bool is_table = parsed(number);

    hold(is_table == are_operations(), "a text is a table where its names are operations", number);
    if (!is_table)
        return false;
    hold(under.count == s.count && memcmp(under.operations, s.operations, s.count * sizeof *s.operations) == 0,
         "a text gives the table that it was made of", number);
    try_draft(&under, number);
    return true;
}

static void try_checks(void)
{
    size_t tables = 0;

    for (uint64_t i = 0; i < checks; i++) {
        sample_check(i, &s);
        tables += try_check(i);
    }
    hold(tables > checks / 2, "most texts are tables", tables);
    tell("tables were parsed and drafts shown under them", checks);
}

/* The library takes every table that the parser makes. */
static bool is_sound(void)
{
    seen.under = &under;
    seen.length = 2;
    memcpy(seen.bytes, "|;", 2);
    draft_read(&seen, ROOM);
    return seen.answer.number == 0;
}

static void try_damaged(void)
{
    size_t damaged = 0, refused = 0;

    for (uint64_t i = 0; damaged < damages; i++) {
        sample_check(i, &s);
        if (!sample_damage(i, &s))
            continue;
        damaged++;
        if (parsed(i))
            hold(is_sound(), "a damaged text gives a sound table or none", i);
        else
            refused++;
    }
    hold(refused > damages / 4 && refused < damages, "some damaged texts are tables and some not", refused);
    tell("damaged tables were parsed", damages);
}

/* ---- widths */

/* Narrow, combining, wide and unseen ones. */
static const uint32_t numbers[] = {'a', 0xE9, 0x301, 0x20DD, 0x4E00, 0xFF21, 0xAC00, 0x1F600, 0x7F, 0x85, 0x202E, 0x200B};

enum { NUMBERS = sizeof numbers / sizeof *numbers };

static void tell_widths(size_t *widths)
{
    for (size_t i = 0; i < NUMBERS; i++)
        widths[i] = character_shown((character){numbers[i], 1, true}).width;
}

/* Without a locale the same characters are wide, combining and unseen. */
static void try_widths(void)
{
    size_t without[NUMBERS], with[NUMBERS];

    tell_widths(without);
    characters_begin();
    tell_widths(with);
    for (size_t i = 0; i < NUMBERS; i++)
        hold(without[i] == with[i], "widths with and without a locale", numbers[i]);
    tell("characters are as wide without a locale as with one", NUMBERS);
}

/* ---- drafts for other tests */

static void write_drafts(const char *folder)
{
    char name[4096];

    for (uint64_t i = 0; i < WRITTEN; i++) {
        FILE *to;

        snprintf(name, sizeof name, "%s/%lu.draft", folder, (unsigned long)i);
        to = fopen(name, "wb");
        sample_reading(i, &s);
        if (to == NULL || fwrite(s.draft, 1, s.draft_len, to) != s.draft_len || fclose(to) != 0)
            exit(2);
    }
}

int main(int argc, char **argv)
{
    if (argc == 3 && strcmp(argv[1], "--write") == 0) {
        write_drafts(argv[2]);
        return 0;
    }
    if (argc == 2 && strcmp(argv[1], "--few") == 0) {
        readings /= 10;
        checks /= 10;
        damages /= 10;
    }
    try_widths();
    try_readings();
    try_checks();
    try_damaged();
    printf("%zu passed, %zu failed\n", passed, failed);
    return failed > 0;
}
