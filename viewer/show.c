#include "show.h"

#include <inttypes.h>
#include <string.h>

#include "outline.h"
#include "place.h"

/* Blanks for each group, element, array or metacommand that is open. */
enum { INDENT = 2 };

typedef struct {
    const writer *w;
    const draft *d;
    size_t depth;
    group groups[ROOM];
} view;

static void write_indent(const view *v)
{
    fprintf(v->w->to, "%*s", (int)(INDENT * v->depth), "");
}

/* ---- strings */

static size_t lines_of(span data)
{
    size_t lines = 1;

    for (size_t i = 0; i < data.length; i++)
        lines += data.bytes[i] == '\n';
    return lines;
}

/* Data of several lines, each below the other. */
static void write_lines(const view *v, span data)
{
    for (size_t at = 0, lines = lines_of(data); lines > 0; lines--) {
        const position p = {.text = data, .begin = at};
        const size_t length = line_of(&p).length;

        fputc('\n', v->w->to);
        write_indent(v);
        fprintf(v->w->to, "%*s| ", INDENT, "");
        write_colour(v->w, DATA);
        write_span(v->w, (span){data.bytes + at, length});
        write_colour(v->w, PLAIN);
        at += length + 1;
    }
}

static void write_data(const view *v, const vogieburn_entity *e)
{
    const bool is_quoted = e->kind == VOGIEBURN_QUOTED || e->kind == VOGIEBURN_METACOMMAND_QUOTED;
    const span data = data_of(v->d, e);
    const size_t lines = lines_of(data);

    if (lines > 1) {
        fprintf(v->w->to, ", %zu lines", lines);
        write_lines(v, data);
        return;
    }
    write_colour(v->w, DATA);
    fputs(is_quoted ? " \"" : " {", v->w->to);
    write_span(v->w, data);
    fputs(is_quoted ? "\"" : "}", v->w->to);
    write_colour(v->w, PLAIN);
}

/* ---- entities */

/* The words for what is inside a metacommand leave that out, since it is indented. */
static const char *words_inside(const vogieburn_entity *e)
{
    switch (e->kind) {
    case VOGIEBURN_METACOMMAND_TOKEN: return "token";
    case VOGIEBURN_METACOMMAND_QUOTED: return kind_words(VOGIEBURN_QUOTED);
    case VOGIEBURN_METACOMMAND_CURLY: return kind_words(VOGIEBURN_CURLY);
    default: return kind_words(e->kind);
    }
}

static void write_string(const view *v, const vogieburn_entity *e)
{
    if (e->text_len > 0) {
        fputs(" with prefix ", v->w->to);
        write_span(v->w, text_of(v->d, e));
    }
    write_data(v, e);
}

/* An entity that neither opens nor closes anything. */
static void write_entity(const view *v, const vogieburn_entity *e)
{
    write_coloured(v->w, KIND, words_inside(e));
    if (is_string(e)) {
        write_string(v, e);
    } else if (e->kind == VOGIEBURN_ARRAY) {
        fprintf(v->w->to, " of %" PRIu32, e->count);
    } else if (e->text_len > 0 || sign_of(e) != '\0') {
        fputc(' ', v->w->to);
        write_span(v->w, text_of(v->d, e));
    }
    fputc('\n', v->w->to);
}

static void write_opening(view *v, const char *words)
{
    write_indent(v);
    write_coloured(v->w, KIND, words);
    fputc('\n', v->w->to);
    v->depth++;
}

/* Before the first element of an array comes the array. */
static void write_array(view *v, uint32_t count)
{
    write_indent(v);
    write_coloured(v->w, KIND, kind_words(VOGIEBURN_ARRAY));
    fprintf(v->w->to, " of %" PRIu32 "\n", count);
    v->depth++;
}

/* A group, or an element. One that holds at most one entity takes one line. Answers how many entities were written. */
static size_t write_group(view *v, size_t i)
{
    const vogieburn_entity *const e = &v->d->list[i];
    const group *const g = &v->groups[i];

    if (g->array > 0)
        write_array(v, g->array);
    write_indent(v);
    write_coloured(v->w, KIND, g->element > 0 ? "element" : "group");
    if (g->element > 0)
        fprintf(v->w->to, " %" PRIu32, g->element);
    if (e[1].kind == VOGIEBURN_END_GROUP) {
        fputs(": empty\n", v->w->to);
        return 2;
    }
    if (e[1].kind != VOGIEBURN_BEGIN_GROUP && e[2].kind == VOGIEBURN_END_GROUP) {
        fputs(": ", v->w->to);
        write_entity(v, &e[1]);
        return 3;
    }
    fputc('\n', v->w->to);
    v->depth++;
    return 1;
}

/* Answers how many entities were written. */
static size_t write_next(view *v, size_t i)
{
    const vogieburn_entity *const e = &v->d->list[i];

    switch (e->kind) {
    case VOGIEBURN_BEGIN_GROUP: return write_group(v, i);
    case VOGIEBURN_BEGIN_METACOMMAND: write_opening(v, "metacommand"); break;
    case VOGIEBURN_END_METACOMMAND:
    case VOGIEBURN_END_GROUP: v->depth--; break;
    case VOGIEBURN_ARRAY:
        if (e->count > 0) {
            v->depth--;
            break;
        }
        /* fall through */
    default:
        write_indent(v);
        write_entity(v, e);
    }
    return 1;
}

static void write_ending(const writer *w, const draft *d)
{
    write_coloured(w, SOUND, d->under != NULL ? "sound" : "read");
    fputs(": ", w->to);
    write_count(w, d->answer.entities, "entity, ", "entities, ");
    if (d->under != NULL) {
        write_count(w, d->answer.steps, "step, ", "steps, ");
        write_count(w, d->answer.cells, "cell remains\n", "cells remain\n");
    } else {
        write_count(w, d->answer.text, "byte of text, ", "bytes of text, ");
        write_count(w, d->answer.consumed, "byte consumed\n", "bytes consumed\n");
    }
}

void write_draft(const writer *w, const draft *d)
{
    static view v;

    v.w = w;
    v.d = d;
    v.depth = 0;
    outline(d, v.groups);
    for (size_t i = 0; i < d->answer.entities;)
        i += write_next(&v, i);
    write_ending(w, d);
}

void write_remarks(const writer *w, const draft *d)
{
    const vogieburn_tail_answer tail = vogieburn_tail(d->bytes, d->length, d->answer.consumed);
    const position p = position_of(draft_span(d), tail.place);

    if (tail.yes) {
        fputs("remarks: none, only whitespace follows the |;\n", w->to);
        return;
    }
    write_place(w, d->file, &p);
    fputs("remarks: more than whitespace follows the |;\n", w->to);
    write_excerpt(w, &p);
}
