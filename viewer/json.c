#include "json.h"

#include <inttypes.h>

#include "characters.h"
#include "place.h"
#include "refusal.h"

/* ---- strings */

static void write_unit(const writer *w, uint32_t unit)
{
    fprintf(w->to, "\\u%04" PRIX32, unit);
}

/* A character of a string, as JSON has it: beyond US-ASCII in units of UTF-16. A byte that is no character is U+FFFD. */
static void write_character(const writer *w, character c)
{
    const uint32_t number = c.is_character ? c.number : 0xFFFD;

    if (number == '"' || number == '\\')
        fprintf(w->to, "\\%c", (char)number);
    else if (number >= ' ' && number <= '~')
        fputc((int)number, w->to);
    else if (number < 0x10000)
        write_unit(w, number);
    else {
        write_unit(w, 0xD800 + ((number - 0x10000) >> 10));
        write_unit(w, 0xDC00 + (number & 0x3FF));
    }
}

/* Writes a string. Answers whether it is just the bytes of the span in UTF-8. */
static bool write_string(const writer *w, span s)
{
    bool exact = true;

    fputc('"', w->to);
    for (size_t at = 0; at < s.length;) {
        const character c = character_at(s.bytes + at, s.length - at);

        write_character(w, c);
        exact = exact && c.is_character && c.length <= 4;
        at += c.length;
    }
    fputc('"', w->to);
    return exact;
}

static void write_hex(const writer *w, span s)
{
    for (size_t i = 0; i < s.length; i++)
        fprintf(w->to, "%02x", s.bytes[i]);
}

/* ---- members; each but the first of an object has a comma before it */

static void member_string(const writer *w, const char *key, span s)
{
    fprintf(w->to, ",\"%s\":", key);
    if (!write_string(w, s)) {
        fprintf(w->to, ",\"%s_hex\":\"", key);
        write_hex(w, s);
        fputc('"', w->to);
    }
}

static void member_number(const writer *w, const char *key, uint64_t n)
{
    fprintf(w->to, ",\"%s\":%" PRIu64, key, n);
}

/* The place, and the same for people. */
static void members_place(const writer *w, const position *p, uint64_t place)
{
    member_number(w, "place", place);
    member_number(w, "line", p->line);
    member_number(w, "column", p->column);
}

/* ---- entities */

static void write_entity(const writer *w, const draft *d, const vogieburn_entity *e, const position *p)
{
    fprintf(w->to, "{\"kind\":%" PRIu32, e->kind);
    member_string(w, "words", span_of(kind_words(e->kind)));
    members_place(w, p, e->place);
    member_string(w, "text", text_of(d, e));
    if (is_string(e))
        member_string(w, "data", data_of(d, e));
    if (e->kind == VOGIEBURN_ARRAY)
        member_number(w, "count", e->count);
    fputc('}', w->to);
}

static void member_entities(const writer *w, const draft *d)
{
    position p = position_first(draft_span(d));

    fputs(",\"entities\":[", w->to);
    for (size_t i = 0; i < d->answer.entities; i++) {
        fputs(i > 0 ? ",\n  " : "\n  ", w->to);
        p = position_on(p, d->list[i].place);
        write_entity(w, d, &d->list[i], &p);
    }
    fputc(']', w->to);
}

/* ---- the table */

/* A list of items or of kinds, each in the table's words. */
static void member_items(const writer *w, const table *t, const char *key, const uint8_t *items, size_t count)
{
    fprintf(w->to, ",\"%s\":[", key);
    for (size_t i = 0; i < count; i++) {
        const span name = t->kinds[items[i] % KINDS];
        const bool is_array = items[i] >= KINDS;

        fprintf(w->to, "%s{\"kind\":%u,\"array\":%s", i > 0 ? "," : "", items[i] % KINDS, is_array ? "true" : "false");
        if (name.length > 0)
            member_string(w, "name", name);
        fputc('}', w->to);
    }
    fputc(']', w->to);
}

static void write_operation(const writer *w, const table *t, size_t i, const position *p)
{
    const vogieburn_operation *const o = &t->operations[i];

    fprintf(w->to, "{\"line\":%zu", p->line);
    member_string(w, "name", (span){o->name, o->name_len});
    member_items(w, t, "takes", o->takes, o->takes_len);
    member_items(w, t, "gives", o->gives, o->gives_len);
    fputc('}', w->to);
}

static void member_table(const writer *w, const draft *d)
{
    position p = position_first(d->under->text);

    member_string(w, "table", span_of(d->table_file));
    fputs(",\"operations\":[", w->to);
    for (size_t i = 0; i < d->under->count; i++) {
        fputs(i > 0 ? ",\n  " : "\n  ", w->to);
        p = position_on(p, d->under->places[i]);
        write_operation(w, d->under, i, &p);
    }
    fputc(']', w->to);
}

/* ---- answers */

static void member_answer(const writer *w, const vogieburn_answer *a)
{
    fprintf(w->to, ",\n \"answer\":{\"number\":%" PRIu64, a->number);
    member_number(w, "place", a->place);
    member_number(w, "entities", a->entities);
    member_number(w, "text", a->text);
    member_number(w, "consumed", a->consumed);
    member_number(w, "steps", a->steps);
    member_number(w, "cells", a->cells);
    fputc('}', w->to);
}

static void member_refusal(const writer *w, const draft *d)
{
    const refusal r = refusal_of(d);

    fprintf(w->to, ",\n \"refusal\":{\"number\":%" PRIu64, r.number);
    member_string(w, "words", span_of(vogieburn_refusal_words(r.number)));
    members_place(w, &r.at, d->answer.place);
    member_string(w, "source", line_of(&r.at));
    if (r.entity != NULL) {
        member_number(w, "entity", d->answer.steps);
        member_string(w, "text", text_of(d, r.entity));
    }
    if (r.operation != NULL) {
        member_string(w, "operation", (span){r.operation->name, r.operation->name_len});
        member_items(w, d->under, "takes", r.operation->takes, r.operation->takes_len);
        member_number(w, "table_line", r.line.line);
    }
    if (r.note != NULL) {
        fprintf(w->to, ",\"note\":{\"words\":\"%s\"", r.note);
        members_place(w, &r.noted, r.noted.place);
        fputc('}', w->to);
    }
    fputc('}', w->to);
}

static void member_tail(const writer *w, const draft *d)
{
    const vogieburn_tail_answer tail = vogieburn_tail(d->bytes, d->length, d->answer.consumed);
    const position p = position_of(draft_span(d), tail.place);

    fprintf(w->to, ",\n \"tail\":{\"yes\":%s", tail.yes ? "true" : "false");
    if (!tail.yes)
        members_place(w, &p, tail.place);
    fputc('}', w->to);
}

void write_json(const writer *w, const draft *d)
{
    const char *const verdict = d->answer.number != 0 ? "refused" : d->under != NULL ? "sound" : "read";

    fprintf(w->to, "{\"version\":\"%s\",\"verdict\":\"%s\"", VOGIEBURN_VERSION, verdict);
    member_string(w, "draft", span_of(d->file));
    member_answer(w, &d->answer);
    if (d->answer.number != 0)
        member_refusal(w, d);
    else
        member_tail(w, d);
    fputs(",\n ", w->to);
    fputs("\"checked\":", w->to);
    fputs(d->under != NULL ? "true" : "false", w->to);
    if (d->under != NULL)
        member_table(w, d);
    member_entities(w, d);
    fputs("}\n", w->to);
}
