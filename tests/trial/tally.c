#include "tally.h"

#include <inttypes.h>
#include <signal.h>
#include <stdio.h>
#include <stdlib.h>
#include <time.h>

#include "compare.h"
#include "shrink.h"
#include "tell.h"

/* A line of progress comes after so many drafts. */
enum { PROGRESS = 2000000 };

/* An answer that refuses nothing says one of at most so many things. */
enum { SUCCESSES = 4 };

/* Each sort of call, how many were made, how often each answer of theirs was met, and how they are told. */
static struct {
    const char *calls_name, *success_names[SUCCESSES], *refusal_name;
    uint64_t calls, successes[SUCCESSES], refusals[LAST_REFUSAL + 1];
} sorts[SORTS] = {
    [READING] = {.calls_name = "readings", .success_names = {"read"}, .refusal_name = "refused"},
    [CHECK] = {.calls_name = "checks", .success_names = {"checked"}, .refusal_name = "check refused"},
    [TAIL] = {.calls_name = "tails", .success_names = {"tail no", "tail yes"}, .refusal_name = "tail refused"},
    [STEP] = {.calls_name = "steps",
              .success_names = {"step simple", "step quoted", "step curly", "step last"},
              .refusal_name = "step refused"},
};

static uint64_t the_seed, drafts;
static bool telling; /* each call */
static const call *being_made;

/* The part that is being made, what there was before it, and the draft that is being made. */
static struct {
    const char *name;
    uint64_t drafts, calls[SORTS], index;
    time_t began;
} part = {.name = ""};

/* What the part was made of: most often calls of one sort. */
static void tell_part(void)
{
    printf("trial: %s: %" PRIu64 " drafts", part.name, drafts - part.drafts);
    for (size_t i = 0; i < SORTS; i++)
        if (sorts[i].calls > part.calls[i])
            printf(", %" PRIu64 " %s", sorts[i].calls - part.calls[i], sorts[i].calls_name);
    printf(", %.0f s\n", difftime(time(NULL), part.began));
}

void begin_part(const char *name)
{
    if (part.name[0] != '\0')
        tell_part();
    fflush(stdout);
    part.name = name;
    part.drafts = drafts;
    for (size_t i = 0; i < SORTS; i++)
        part.calls[i] = sorts[i].calls;
    part.began = time(NULL);
}

void begin_draft(uint64_t index)
{
    part.index = index;
    drafts++;
    if ((drafts - part.drafts) % PROGRESS == 0) {
        printf("trial: %s: %" PRIu64 " drafts so far\n", part.name, drafts - part.drafts);
        fflush(stdout);
    }
}

/* ---- a mismatch, or a stop */

static void tell_place(const char *what)
{
    printf("trial: %s: seed %" PRIu64 ", part '%s', draft %" PRIu64 "\n", what, the_seed, part.name, part.index);
}

/* Ends the program. Only a check has a table. */
static void end_at_mismatch(const draft *d, const table *t, const call *c, const verdict *v)
{
    static mismatch m;

    m.sort = c->sort;
    m.draft = *d;
    if (t != NULL)
        m.table = *t;
    m.list_len = c->list_len;
    m.text_len = c->text_len;
    m.place = c->place;
    m.v = *v;
    tell_place("mismatch");
    tell_mismatch("as found", &m);
    shrink(&m);
    tell_mismatch("shrunk", &m);
    exit(1);
}

/* A page was touched by whoever was called, and not while something was being printed. Once it is told the program goes on at the
 * same instruction, and is stopped. */
static void tell_stop(int signal, siginfo_t *info, void *context)
{
    (void)signal;
    (void)context;
    tell_place("stopped");
    if (being_made != NULL)
        tell_call("as found", being_made);
    printf("difference: %s\n", stopped_at(info->si_addr));
    fflush(stdout);
}

void begin_tally(uint64_t seed)
{
    struct sigaction told = {.sa_flags = SA_SIGINFO | (int)SA_RESETHAND};

    told.sa_sigaction = tell_stop;
    if (sigaction(SIGSEGV, &told, NULL) != 0)
        perror("trial: sigaction");
    the_seed = seed;
    printf("trial: seed %" PRIu64 "\n", seed);
}

/* ---- a call */

/* What an answer says that refuses nothing: of a tail whether only whitespace follows, and of a step which sort of token. */
static size_t success_of(enum sort sort, const any_answer *a)
{
    switch (sort) {
    case TAIL: return (size_t)a->tail.yes;
    case STEP: return (size_t)a->token.sort;
    default: return 0;
    }
}

void tell_calls(void)
{
    telling = true;
}

static any_answer hold_call(const draft *d, const table *t, const call *c)
{
    verdict v;

    sorts[c->sort].calls++;
    being_made = c;
    if (!same(c, &v))
        end_at_mismatch(d, t, c, &v);
    being_made = NULL;
    if (telling) {
        tell_call("drawn", c);
        tell_answer("answer", c->sort, &v.archive);
    }
    if (v.archive.numbers[0] == 0)
        sorts[c->sort].successes[success_of(c->sort, &v.archive)]++;
    else
        sorts[c->sort].refusals[v.archive.numbers[0]]++;
    return v.archive;
}

vogieburn_answer hold(const draft *d, const table *t, size_t list_len, size_t text_len)
{
    call c = {.draft = d->bytes, .draft_len = d->len, .list_len = list_len, .text_len = text_len};

    if (t != NULL) {
        c.sort = CHECK;
        c.table = t->bytes;
        c.table_len = t->len;
    }
    return hold_call(d, t, &c).reading;
}

any_answer hold_place(enum sort sort, const draft *d, uint64_t place)
{
    const call c = {.sort = sort, .draft = d->bytes, .draft_len = d->len, .place = place};

    return hold_call(d, NULL, &c);
}

/* Tells how often an answer was met, and whether it was met at all. */
static bool tell_met(const char *answer, uint64_t met)
{
    printf("%s: %" PRIu64 "\n", answer, met);
    if (met == 0)
        printf("trial: '%s' was never met, so nothing is shown of it\n", answer);
    return met > 0;
}

/* Tells the answers of one sort of call. */
static bool tell_sort(enum sort sort)
{
    bool all = true;

    for (size_t i = 0; i < SUCCESSES && sorts[sort].success_names[i] != NULL; i++)
        all = tell_met(sorts[sort].success_names[i], sorts[sort].successes[i]) && all;
    for (size_t i = 1; i <= LAST_REFUSAL; i++)
        if (is_number_of(sort, i)) {
            char name[40];

            snprintf(name, sizeof name, "%s %zu", sorts[sort].refusal_name, i);
            all = tell_met(name, sorts[sort].refusals[i]) && all;
        }
    return all;
}

bool tell_tally(void)
{
    bool all = true;

    for (enum sort sort = READING; sort < SORTS; sort++)
        if (sorts[sort].calls > 0)
            all = tell_sort(sort) && all;
    printf("trial: ");
    for (enum sort sort = READING; sort < SORTS; sort++)
        printf("%" PRIu64 " %s, ", sorts[sort].calls, sorts[sort].calls_name);
    printf("seed %" PRIu64 "\n", the_seed);
    printf("trial: %" PRIu64 " drafts, %s\n", drafts, all ? "no mismatch" : "not every answer was met");
    return all;
}
