/* vogieburn-view: shows a draft before it is woven, or where and why it is refused. vogieburn-view(1) says how it is used. */
#include <errno.h>
#include <string.h>

#include "characters.h"
#include "draft.h"
#include "input.h"
#include "json.h"
#include "listing.h"
#include "options.h"
#include "refusal.h"
#include "show.h"

/* The exit statuses. */
enum { FINE = 0, DRAFT_REFUSED = 1, NOT_READ = 2 };

static draft drawn;
static table under;
static uint8_t table_text[TABLE_LIMIT + 1];

/* Says why a file is of no use. Answers false. */
static bool no_use(const writer *errors, const char *file, const char *why)
{
    write_words(errors, "vogieburn-view: ");
    write_words(errors, input_name(file));
    write_words(errors, ": ");
    write_words(errors, why);
    fputc('\n', errors->to);
    return false;
}

static bool read_table(const writer *errors, const char *file)
{
    span text = {table_text, 0};
    table_fault fault;

    if (!input_read(file, table_text, sizeof table_text, &text.length))
        return no_use(errors, file, strerror(errno));
    if (text.length > TABLE_LIMIT)
        return no_use(errors, file, "over 1,048,576 bytes, which is too long for a table");
    if (!table_parse(&under, text, &fault)) {
        write_table_fault(errors, input_name(file), text, &fault);
        return false;
    }
    drawn.under = &under;
    drawn.table_file = input_name(file);
    return true;
}

static bool read_inputs(const writer *errors, const options *o)
{
    if (o->table != NULL && !read_table(errors, o->table))
        return false;
    drawn.file = input_name(o->draft);
    return input_read(o->draft, drawn.bytes, sizeof drawn.bytes, &drawn.length) || no_use(errors, o->draft, strerror(errno));
}

static void show(const writer *w, const options *o)
{
    if (drawn.answer.number != 0) {
        write_refusal(w, &drawn);
        return;
    }
    write_draft(w, &drawn);
    if (o->remarks)
        write_remarks(w, &drawn);
}

static int view(const writer *w, const writer *errors, const options *o)
{
    if (!read_inputs(errors, o))
        return NOT_READ;
    draft_read(&drawn, o->request == LIST ? LISTING_ROOM : ROOM);
    switch (o->request) {
    case LIST: write_listing(w, &drawn); break;
    case JSON: write_json(w, &drawn); break;
    default: show(w, o);
    }
    return drawn.answer.number != 0 ? DRAFT_REFUSED : FINE;
}

static int answer(const writer *w, const writer *errors, const options *o)
{
    switch (o->request) {
    case HELP: write_help(w); return FINE;
    case VERSION: fputs("vogieburn-view " VOGIEBURN_VERSION "\n", w->to); return FINE;
    default: return view(w, errors, o);
    }
}

int main(int argc, char **argv)
{
    const writer w = writer_to(stdout), errors = writer_to(stderr);
    options o;
    int status;

    characters_begin();
    if (!options_parse(&errors, argc, argv, &o))
        return NOT_READ;
    status = answer(&w, &errors, &o);
    if (fflush(stdout) != 0 || ferror(stdout)) {
        no_use(&errors, "standard output", strerror(errno));
        return NOT_READ;
    }
    return status;
}
