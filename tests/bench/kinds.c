#include "kinds.h"

/* What counts most is what weavers write: for that 1.0 is wanted. */
#define MIXED_BAR 1.1
#define BAR 1.5

const kind kinds[KINDS] = {
    {"mixed", "a weaver's mixed draft", put_mixed, MIXED_BAR, 0},
    {"cr-lf", "the mixed draft with CR LF", put_mixed_cr_lf, BAR, 0},
    {"words", "words", put_word, BAR, 0},
    {"one-letter", "one-letter words", put_one_letter, BAR, 0},
    {"numbers", "numbers in arrays", put_numbers, BAR, 0},
    {"empty", "empty arrays", put_empty_array, BAR, 0},
    {"strings", "strings in arrays", put_strings, BAR, 0},
    {"ascii", "long ASCII strings", put_long_string, BAR, 0},
    {"wide", "strings above US-ASCII", put_wide_string, BAR, 0},
    {"short", "short strings", put_short_string, BAR, 0},
    {"escapes", "escapes", put_escapes, BAR, 0},
    {"nested", "curly strings nested", put_nested, BAR, 0},
    {"pairs", "surrogate pairs", put_pairs, BAR, 0},
    {"comments", "comments", put_comment, BAR, 0},
    {"wide-comments", "comments above US-ASCII", put_wide_comment, BAR, 0},
    {"metacommands", "metacommands", put_metacommand, BAR, 0},
    {"groups", "deep groups", put_groups, BAR, 0},
    {"tabs", "tabs", put_tabbed, BAR, 0},
    {"pictures", "pictures in strings", put_picture, BAR, 0},
    {"indented", "indented words", put_indented, BAR, 0},
    {"operators", "signs as words", put_operator, BAR, 0},
    {"names", "short names with their signs", put_signed_name, BAR, 0},
    {"prefixed", "strings with a prefix", put_prefixed, BAR, 0},
    {"accented", "letters of two bytes in strings", put_accented, BAR, 0},
    {"short-comments", "short comments", put_short_comment, BAR, 0},
    {"compound", "names with `_` in them", put_compound, BAR, 0},
    {"dashes", "signs of three bytes in strings", put_dashes, BAR, 0},
    {"lines", "CR LF and letters of two bytes in strings", put_lines, BAR, 0},
    {"accented-comments", "letters of two bytes in comments", put_accented_comment, BAR, 0},
    {"dashed-comments", "signs of three bytes in comments", put_dashed_comment, BAR, 0},
    {"capitals", "words in capitals", put_capitals, BAR, 0},
    {"data", "brackets and `_` in curly strings", put_data, BAR, 0},
    {"signs", "words of several signs", put_signs, BAR, 0},
    {"sums", "letters and signs by turns", put_sum, BAR, 0},
    {"one-sign", "words with a sign in them", put_one_sign, BAR, 0},
    {"one-pair", "a surrogate pair among letters", put_one_pair, BAR, 0},
    {"foreign-comments", "letters of three bytes and pictures in comments", put_foreign_comment, BAR, 0},
    {"23", "a draft of 23 bytes", put_23_bytes, BAR, 23},
};

const size sizes[SIZES] = {
    {"small", "under 64", 3, 63, DRAFTS},
    {"1024", "1024", 1024 - 32, 1024, BYTES / 1024},
    {"4096", "4096", 4096 - 32, 4096, BYTES / 4096},
    {"16384", "16384", 16384 - 32, 16384, BYTES / 16384},
};

bool has_size(size_t of, size_t at)
{
    return kinds[of].bytes == 0 || at == SMALL;
}

bool make_draft(draft *d, size_t of, size_t at, size_t index)
{
    enum { SEED = 20250101, TRIES = 200 };
    static const piece last = PIECE("|;");
    const size_t wanted = at == SMALL ? 1 : SIZE_MAX;
    making m = {d, lots_for(SEED + at, of * DRAFTS + index), index, 0, 0};
    size_t tries = 0;

    d->len = 0;
    while (m.units < wanted && tries < TRIES) {
        const size_t before = d->len;

        m.room = sizes[at].most - last.len - before;
        kinds[of].put(&m);
        if (d->len - before <= m.room) {
            m.units++;
        } else {
            d->len = before;
            tries++;
        }
    }
    put(d, last);
    if (kinds[of].bytes > 0)
        return d->len == kinds[of].bytes;
    return sizes[at].least <= d->len && d->len <= sizes[at].most;
}
