#include "refusal.h"

#include <inttypes.h>
#include <string.h>

#include "nearest.h"

/* ---- what has to do with a refusal */

static bool defines(const vogieburn_entity *e)
{
    return e->kind == VOGIEBURN_DEFINE_VARIABLE || e->kind == VOGIEBURN_DEFINE_CONSTANT;
}

/* The entity before another one that defines its name; null if there is none. */
static const vogieburn_entity *definition_of(const draft *d, const vogieburn_entity *user)
{
    for (const vogieburn_entity *e = d->list; e < user; e++)
        if (defines(e) && span_is(text_of(d, e), text_of(d, user)))
            return e;
    return NULL;
}

/* What of so many entities begins something and is not ended by another kind of entity: the innermost; null if there is none. */
static const vogieburn_entity *open_among(const draft *d, size_t count, uint32_t begin, uint32_t end)
{
    size_t ended = 0;

    for (size_t i = count; i > 0; i--)
        if (d->list[i - 1].kind == end)
            ended++;
        else if (d->list[i - 1].kind == begin && ended-- == 0)
            return &d->list[i - 1];
    return NULL;
}

static const vogieburn_entity *open_group(const draft *d, size_t count)
{
    return open_among(d, count, VOGIEBURN_BEGIN_GROUP, VOGIEBURN_END_GROUP);
}

static const vogieburn_entity *open_metacommand(const draft *d)
{
    return open_among(d, d->answer.entities, VOGIEBURN_BEGIN_METACOMMAND, VOGIEBURN_END_METACOMMAND);
}

/* The first place from another on that is neither whitespace nor a comment; the draft's length if there is none. */
static size_t past_comments(const draft *d, size_t place)
{
    vogieburn_tail_answer tail = vogieburn_tail(d->bytes, d->length, place);

    while (!tail.yes && d->bytes[tail.place] == '#') {
        const uint8_t *const end = memchr(d->bytes + tail.place, '\n', d->length - tail.place);

        if (end == NULL)
            return d->length;
        tail = vogieburn_tail(d->bytes, d->length, (size_t)(end - d->bytes) + 1);
    }
    return tail.yes ? d->length : tail.place;
}

/* Where the token begins that reading could not end; the draft's length if there is none. It is stepped to from the last entity, since
 * what stands between its token and this one brought no entity. */
static size_t unended(const draft *d)
{
    const size_t first = position_first(draft_span(d)).place;
    vogieburn_token token = {.next = d->answer.entities > 0 ? d->list[d->answer.entities - 1].place : first};

    do
        token = vogieburn_step(d->bytes, d->length, token.next);
    while (token.number == 0 && token.sort != VOGIEBURN_SORT_LAST);
    return past_comments(d, token.next);
}

static void note_place(const draft *d, refusal *r, size_t place, const char *words)
{
    r->note = words;
    r->noted = position_of(draft_span(d), place);
}

static void note_entity(const draft *d, refusal *r, const vogieburn_entity *e, const char *words)
{
    if (e != NULL)
        note_place(d, r, e->place, words);
}

static const char group_begins[] = "the group or element begins here", metacommand_begins[] = "the metacommand begins here";

/* Reading came to an end inside something: a token, a metacommand or a group. */
static void note_unended(const draft *d, refusal *r)
{
    const size_t token = unended(d);

    if (token < d->length)
        note_place(d, r, token, "the token or string that is not ended begins here");
    else if (open_metacommand(d) != NULL)
        note_entity(d, r, open_metacommand(d), metacommand_begins);
    else
        note_entity(d, r, open_group(d, d->answer.entities), group_begins);
}

static void find_note(const draft *d, refusal *r)
{
    switch (r->number) {
    case VOGIEBURN_DRAFT_ENDS:
    case VOGIEBURN_STRING_TOO_LONG: note_unended(d, r); break;
    case VOGIEBURN_METACOMMAND_INSIDE:
    case VOGIEBURN_END_IN_METACOMMAND: note_entity(d, r, open_metacommand(d), metacommand_begins); break;
    case VOGIEBURN_END_IN_GROUP: note_entity(d, r, open_group(d, d->answer.entities), group_begins); break;
    case VOGIEBURN_NOT_ONE_CELL: note_entity(d, r, open_group(d, d->answer.steps), group_begins); break;
    case VOGIEBURN_WRONG_KIND:
        if (r->entity->kind == VOGIEBURN_PUT)
            note_entity(d, r, definition_of(d, r->entity), "the name has its kind from here");
        break;
    case VOGIEBURN_NAME_DEFINED:
    case VOGIEBURN_PUT_TO_CONSTANT: note_entity(d, r, definition_of(d, r->entity), "the name is defined here"); break;
    default: break;
    }
}

static bool is_of_taking(uint64_t number)
{
    return number == VOGIEBURN_TOO_FEW_CELLS || number == VOGIEBURN_WRONG_KIND || number == VOGIEBURN_NO_ARRAY;
}

/* The operation that was refused, or where it is unknown the one that was meant, perhaps. */
static void find_operation(const draft *d, refusal *r)
{
    const span name = text_of(d, r->entity);
    const size_t found = r->number == VOGIEBURN_UNKNOWN_OPERATION ? table_nearest(d->under, name) : table_find(d->under, name);

    if (found < d->under->count) {
        r->operation = &d->under->operations[found];
        r->line = position_of(d->under->text, d->under->places[found]);
    }
}

refusal refusal_of(const draft *d)
{
    const bool checked = d->answer.number >= VOGIEBURN_UNKNOWN_OPERATION && d->answer.number <= VOGIEBURN_TOO_MANY_NAMES;
    refusal r = {.number = d->answer.number, .at = position_of(draft_span(d), d->answer.place)};

    if (checked)
        r.entity = &d->list[d->answer.steps];
    if (checked && r.entity->kind == VOGIEBURN_OPERATION)
        find_operation(d, &r);
    find_note(d, &r);
    return r;
}

/* ---- in words */

static void write_name(const writer *w, const draft *d, const vogieburn_entity *e)
{
    fputs("'", w->to);
    write_span(w, text_of(d, e));
    fputs("'", w->to);
}

/* The refused entity as it stands in the draft. */
static void write_token(const writer *w, const draft *d, const vogieburn_entity *e)
{
    if (sign_of(e) != '\0')
        fputc(sign_of(e), w->to);
    write_span(w, text_of(d, e));
}

static void write_first_line(const writer *w, const draft *d, const refusal *r)
{
    const bool is_named = r->number == VOGIEBURN_UNKNOWN_OPERATION || r->number == VOGIEBURN_NAME_DEFINED ||
                          r->number == VOGIEBURN_NAME_NOT_DEFINED || r->number == VOGIEBURN_PUT_TO_CONSTANT;

    write_place(w, d->file, &r->at);
    write_colour(w, REFUSED);
    fprintf(w->to, "refused %" PRIu64 ": ", r->number);
    write_colour(w, PLAIN);
    fputs(vogieburn_refusal_words(r->number), w->to);
    if (is_named) {
        fputs(": ", w->to);
        write_name(w, d, r->entity);
    }
    fputc('\n', w->to);
}

static void note_nearest(const writer *w, const draft *d, const refusal *r)
{
    write_place(w, d->table_file, &r->line);
    fputs("note: did you mean '", w->to);
    write_span(w, (span){r->operation->name, r->operation->name_len});
    fputs("'?\n", w->to);
}

/* `TABLE:LINE:COLUMN: note: bind takes [number], top first`. */
static void note_operation(const writer *w, const draft *d, const refusal *r)
{
    write_place(w, d->table_file, &r->line);
    fputs("note: ", w->to);
    write_token(w, d, r->entity);
    fputs(" takes", w->to);
    for (size_t i = 0; i < r->operation->takes_len; i++) {
        fputc(' ', w->to);
        write_item(w, d->under, r->operation->takes[i]);
    }
    fputs(r->operation->takes_len > 1 ? ", top first\n" : "\n", w->to);
}

/* What fits ?, @ and :, which the table knows nothing of. */
static void note_sign(const writer *w, const draft *d, const refusal *r)
{
    write_place(w, d->file, &r->at);
    fputs("note: ", w->to);
    write_token(w, d, r->entity);
    fputs(r->entity->kind == VOGIEBURN_PUT ? " takes one cell, of the kind that the name has\n" : " takes one cell, of any kind\n",
          w->to);
}

void write_refusal(const writer *w, const draft *d)
{
    const refusal r = refusal_of(d);

    write_first_line(w, d, &r);
    write_excerpt(w, &r.at);
    if (r.number == VOGIEBURN_UNKNOWN_OPERATION && r.operation != NULL)
        note_nearest(w, d, &r);
    if (is_of_taking(r.number) && r.operation != NULL)
        note_operation(w, d, &r);
    if (is_of_taking(r.number) && r.operation == NULL)
        note_sign(w, d, &r);
    if (r.note != NULL) {
        write_place(w, d->file, &r.noted);
        fprintf(w->to, "note: %s\n", r.note);
    }
}
