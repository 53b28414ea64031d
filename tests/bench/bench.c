/* Measures reading: what a byte of a draft costs the library and the yardstick, fast.c.
 *
 *     bench [COUNTS]
 *     bench --kinds
 *     bench --draft KIND SIZE
 *     bench --once READER
 *
 * First each reader reads each draft, and both have to succeed and to leave the same. Then both read the drafts of a kind in one process,
 * by turns, into the same buffers, which nobody clears; the best of many rounds counts. A kind that does not keep its bar is measured
 * again, up to twice, since on a busy machine even the best of many rounds may be a bad one. The exit status is 1 where the bar is
 * not kept or the readers differ.
 *
 * COUNTS is a file of instruction counts, a line `KIND SIZE READER COUNT` for each, of the first draft of a kind and size. --kinds tells
 * the kinds and sizes, a line for each, and --draft writes such a draft. With --once the draft on standard input is read by one call, of
 * the reader a, the archive, or f, fast.c, or with n by no call: the difference in what is executed is what the call executes. The words
 * are one letter each, since what a program executes before its first line depends on how long its words are.
 */
#include <stdio.h>

#include "alike.h"
#include "turns.h"
#include "verdict.h"

enum { ROUNDS = 4, REPEATS = 2, PLACES = 8 };

/* The drafts of one kind and size, one right behind the other. */
typedef struct {
    size_t at[DRAFTS + 1]; /* where each begins, and where the last one ends */
    uint8_t bytes[BYTES];
} pile;

static pile piles[SIZES]; /* of the kind at hand */
static costs all[KINDS];

/* ---- the calls of both */

typedef vogieburn_answer archive_reader(const uint8_t *, size_t, uint32_t *, size_t, uint8_t *, size_t);
typedef fast_answer fast_reader(const uint8_t *, size_t, fast_entity *, size_t, uint8_t *, size_t);

/* Each reader stands in the program in several places, and the best one counts: where code lies makes it faster or slower, most of
 * all under an emulator, to which a jump from one page to another is dear. */
archive_reader archive_1, archive_2, archive_3, archive_4, archive_5, archive_6, archive_7, archive_8;
fast_reader fast_1, fast_2, fast_3, fast_4, fast_5, fast_6, fast_7, fast_8;

static archive_reader *const archive[PLACES] = {archive_1, archive_2, archive_3, archive_4,
                                                archive_5, archive_6, archive_7, archive_8};
static fast_reader *const fast[PLACES] = {fast_1, fast_2, fast_3, fast_4, fast_5, fast_6, fast_7, fast_8};

static vogieburn_answer by_archive(size_t place, const uint8_t *bytes, size_t len, buffers *b)
{
    return archive[place](bytes, len, b->list, VOGIEBURN_NUMBERS * ROOM, b->text, sizeof b->text);
}

static fast_answer by_fast(size_t place, const uint8_t *bytes, size_t len, buffers *b)
{
    return fast[place](bytes, len, (fast_entity *)(void *)b->list, ROOM, b->text, sizeof b->text);
}

/* ---- before anything is timed */

/* What is wrong with a draft or with the answers to it, or NULL. */
static const char *wrong(const draft *d, size_t place)
{
    static buffers one, other;
    const vogieburn_answer a = by_archive(place, d->bytes, d->len, &one);
    const fast_answer f = by_fast(place, d->bytes, d->len, &other);

    return a.number == 0 && a.consumed == d->len ? difference(&a, &one, &f, &other) : "it is not read to its end";
}

/* Whether a kind has drafts of the size that was asked for, and the readers agree on each. */
static bool agree(size_t of, size_t at)
{
    static draft d;

    for (size_t i = 0; i < sizes[at].drafts; i++) {
        const char *what = make_draft(&d, of, at, i) ? wrong(&d, i % PLACES) : "it is not of its size";

        if (what != NULL) {
            fprintf(stderr, "bench: %s, %s bytes, draft %zu: %s\n", kinds[of].name, sizes[at].name, i, what);
            return false;
        }
    }
    return true;
}

static bool agree_on_all(void)
{
    for (size_t of = 0; of < KINDS; of++)
        for (size_t at = 0; at < SIZES; at++)
            if (has_size(of, at) && !agree(of, at))
                return false;
    return true;
}

/* ---- times */

static void make_pile(pile *p, size_t of, size_t at)
{
    static draft d;

    for (size_t i = 0; i < sizes[at].drafts; i++) {
        make_draft(&d, of, at, i);
        memcpy(p->bytes + p->at[i], d.bytes, d.len);
        p->at[i + 1] = p->at[i] + d.len;
    }
}

/* Reads all drafts of a size; a turn is one of each size, reader and place. */
static void read_pile(size_t which)
{
    static buffers b;
    const size_t at = which / PLACES / SIDES, side = which / PLACES % SIDES, place = which % PLACES;
    const pile *p = &piles[at];

    if (side == ARCHIVE)
        for (size_t i = 0; i < sizes[at].drafts; i++)
            by_archive(place, p->bytes + p->at[i], p->at[i + 1] - p->at[i], &b);
    else
        for (size_t i = 0; i < sizes[at].drafts; i++)
            by_fast(place, p->bytes + p->at[i], p->at[i + 1] - p->at[i], &b);
}

/* Times each size of a kind with both readers, and keeps what is better than before. */
static void measure(size_t of)
{
    const size_t turns = (has_size(of, KIB_16) ? SIZES : 1) * SIDES * PLACES;
    double best[SIZES * SIDES * PLACES];

    best_of_turns(read_pile, turns, ROUNDS, best);
    for (size_t which = 0; which < turns; which++) {
        const size_t at = which / PLACES / SIDES, side = which / PLACES % SIDES;
        const double time = best[which] / (double)piles[at].at[sizes[at].drafts];
        double *kept = &all[of].at[at].time[side];

        if (*kept == 0 || time < *kept)
            *kept = time;
    }
}

static void measure_all(void)
{
    for (size_t of = 0; of < KINDS; of++) {
        for (size_t at = 0; at < SIZES; at++)
            if (has_size(of, at))
                make_pile(&piles[at], of, at);
        for (size_t again = 0; again == 0 || (again <= REPEATS && !keeps_bar(&all[of], of)); again++)
            measure(of);
    }
}

/* ---- words of the command line, and the file of counts */

static bool find_kind_and_size(const char *kind_word, const char *size_word, size_t *of, size_t *at)
{
    for (*of = 0; *of < KINDS && strcmp(kind_word, kinds[*of].word) != 0;)
        ++*of;
    for (*at = 0; *at < SIZES && strcmp(size_word, sizes[*at].word) != 0;)
        ++*at;
    return *of < KINDS && *at < SIZES && has_size(*of, *at);
}

static bool read_counts(const char *path)
{
    static draft d;
    FILE *file = fopen(path, "r");
    char words[3][20];
    size_t of, at;
    double count;
    int found = 0;

    if (file == NULL)
        return false;
    while ((found = fscanf(file, "%19s %19s %19s %lf", words[0], words[1], words[2], &count)) == 4) {
        const size_t side = strcmp(words[2], "archive") == 0 ? ARCHIVE : FAST;

        if (!find_kind_and_size(words[0], words[1], &of, &at) || (side == FAST && strcmp(words[2], "fast") != 0))
            break;
        make_draft(&d, of, at, 0);
        all[of].at[at].count[side] = count / (double)d.len;
    }
    fclose(file);
    return found == EOF;
}

static int tell_kinds(void)
{
    for (size_t of = 0; of < KINDS; of++)
        for (size_t at = 0; at < SIZES; at++)
            if (has_size(of, at))
                printf("%s %s\n", kinds[of].word, sizes[at].word);
    return 0;
}

static int write_draft(const char *kind_word, const char *size_word)
{
    static draft d;
    size_t of, at;

    if (!find_kind_and_size(kind_word, size_word, &of, &at))
        return 2;
    make_draft(&d, of, at, 0);
    return fwrite(d.bytes, 1, d.len, stdout) == d.len ? 0 : 1;
}

static int once(const char *reader_word)
{
    static draft d;
    static buffers b;

    d.len = fread(d.bytes, 1, sizeof d.bytes, stdin);
    switch (reader_word[0]) {
    case 'n':
        return 0;
    case 'a':
        return by_archive(0, d.bytes, d.len, &b).number == 0 ? 0 : 1;
    case 'f':
        return by_fast(0, d.bytes, d.len, &b).number == 0 ? 0 : 1;
    default:
        return 2;
    }
}

int main(int argc, char **argv)
{
    if (argc == 2 && strcmp(argv[1], "--kinds") == 0)
        return tell_kinds();
    if (argc == 4 && strcmp(argv[1], "--draft") == 0)
        return write_draft(argv[2], argv[3]);
    if (argc == 3 && strcmp(argv[1], "--once") == 0)
        return once(argv[2]);
    if (argc > 2 || (argc == 2 && !read_counts(argv[1]))) {
        fputs("usage: bench [COUNTS], or bench --kinds, or bench --draft KIND SIZE, or bench --once READER\n", stderr);
        return 2;
    }
    if (!agree_on_all())
        return 1;
    measure_all();
    tell_costs(all);
    tell_growth(all);
    return tell_verdict(all) ? 0 : 1;
}
