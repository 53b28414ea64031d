/* Holds the library against the peer, a second reader that was written apart from it.
 *
 *     trial [--readings] [--checks] [--tails] [--steps] [--seed N] [--random N] [--short] [--spoil N] [--touch N]
 *     trial [--readings | --checks | --tails | --steps] [--seed N] --repeat INDEX
 *
 * Both read every draft, or check it against a table, with the same room and into buffers with the same bytes in them, or are asked
 * for a tail or a step at the same place of it. Their answers are compared number by number, and all that was lent byte by byte, with
 * a guard on one side of each buffer; on the other side is a page that stops the program if it is touched. At a mismatch the trial
 * stops: it tells the call as it was found, and shrunk. It also fails if one of the answers that a call has was never met.
 *
 * --readings, --checks, --tails and --steps leave out all calls that are not named. --random says how many random drafts there are of
 * each. --short takes a part of each kind of draft, always the same. --repeat takes one random draft alone, and tells it. With --spoil
 * one thing is damaged after each call, and with --touch a page is touched, so that the trial has to fail: compare.h says what N
 * stands for.
 */
#include <stdio.h>
#include <stdlib.h>
#include <string.h>

#include "compare.h"
#include "parts.h"
#include "tally.h"

/* Random drafts for each sort of call, in the short form and in the whole. */
static const struct {
    uint64_t in_short, in_whole;
} randoms[SORTS] = {[READING] = {100000, 2000000}, [CHECK] = {20000, 500000}, [TAIL] = {10000, 200000}, [STEP] = {5000, 100000}};

typedef struct {
    uint64_t n;
    bool given;
} option;

typedef struct {
    option seed, random, repeat, spoil, touch;
    bool short_form, named[SORTS];
} options;

/* The word `name`. */
static bool plain(char **words, const char *name, bool *given)
{
    if (strcmp(*words, name) != 0)
        return false;
    *given = true;
    return true;
}

/* The word `name` and a number behind it; moves `words` to the number. */
static bool numbered(char ***words, const char *name, option *o)
{
    const char *digits = (*words)[1];
    char *end;

    if (strcmp(**words, name) != 0 || digits == NULL || *digits < '0' || *digits > '9')
        return false;
    o->n = strtoull(digits, &end, 10);
    o->given = true;
    ++*words;
    return *end == '\0';
}

/* The word of a sort of call. */
static bool sort_named(char **words, options *o)
{
    static const char *const names[SORTS] = {"--readings", "--checks", "--tails", "--steps"};

    for (size_t i = 0; i < SORTS; i++)
        if (plain(words, names[i], &o->named[i]))
            return true;
    return false;
}

static bool parsed(char **words, options *o)
{
    for (; *words != NULL; words++)
        if (!sort_named(words, o) && !plain(words, "--short", &o->short_form) && !numbered(&words, "--seed", &o->seed) &&
            !numbered(&words, "--random", &o->random) && !numbered(&words, "--repeat", &o->repeat) &&
            !numbered(&words, "--spoil", &o->spoil) && !numbered(&words, "--touch", &o->touch))
            return false;
    return o->spoil.n <= SPOILED && o->touch.n <= TOUCHED;
}

static uint64_t randoms_of(const options *o, enum sort sort)
{
    if (o->random.given)
        return o->random.n;
    return o->short_form ? randoms[sort].in_short : randoms[sort].in_whole;
}

static void try_readings(const options *o)
{
    try_every_draft(o->short_form);
    try_limits(READING, NULL);
    try_random_drafts(o->seed.n, randoms_of(o, READING));
}

/* At the limits of reading, `ab` is an operation that neither takes nor gives. */
static void try_checks(const options *o)
{
    static table t;

    put_operation(&t, (operation){PIECE("ab"), PIECE(""), PIECE("")});
    try_every_check(o->short_form);
    try_limits(CHECK, &t);
    try_tables();
    try_cells();
    try_random_checks(o->seed.n, randoms_of(o, CHECK));
}

static void try_tails(const options *o)
{
    try_every_tail(o->short_form);
    try_limits(TAIL, NULL);
    try_random_tails(o->seed.n, randoms_of(o, TAIL));
}

static void try_steps(const options *o)
{
    try_every_step(o->short_form);
    try_limits(STEP, NULL);
    try_random_steps(o->seed.n, randoms_of(o, STEP));
}

/* The first sort that was named; readings, if none was. */
static enum sort first_named(const options *o)
{
    enum sort sort = READING;

    while (sort < SORTS && !o->named[sort])
        sort++;
    return sort < SORTS ? sort : READING;
}

static void try_sorts(const options *o)
{
    static void (*const tries[SORTS])(const options *) = {try_readings, try_checks, try_tails, try_steps};
    const bool all = !o->named[first_named(o)];

    for (size_t i = 0; i < SORTS; i++)
        if (all || o->named[i])
            tries[i](o);
}

int main(int argc, char **argv)
{
    options o = {.seed = {20250101, false}};

    (void)argc;
    if (!parsed(argv + 1, &o)) {
        fputs("usage: trial [--readings] [--checks] [--tails] [--steps] [--seed N] [--random N] [--short] [--spoil N] [--touch N]"
              " [--repeat INDEX]\n",
              stderr);
        return 2;
    }
    begin_tally(o.seed.n);
    spoil_with(o.spoil.n);
    touch_with(o.touch.n);
    if (o.repeat.given) {
        repeat_random(o.seed.n, o.repeat.n, first_named(&o));
        return 0;
    }
    try_sorts(&o);
    begin_part("");
    return tell_tally() ? 0 : 1;
}
