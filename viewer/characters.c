#define _XOPEN_SOURCE 700
#include "characters.h"

#include <langinfo.h>
#include <locale.h>
#include <stdio.h>
#include <string.h>
#include <wchar.h>

#define COUNT(array) (sizeof array / sizeof *array)

/* Whether wcwidth knows the characters of Unicode. */
static bool in_locale;

void characters_begin(void)
{
    static const char *const locales[] = {"", "C.UTF-8", "C.utf8"};

    for (size_t i = 0; i < COUNT(locales) && !in_locale; i++)
        in_locale = setlocale(LC_CTYPE, locales[i]) != NULL && strcmp(nl_langinfo(CODESET), "UTF-8") == 0;
}

/* ---- from bytes to characters */

/* How many bytes a sequence has that begins so; 0 if none does. */
static size_t sequence_length(uint8_t first)
{
    if (first < 0x80)
        return 1;
    if (first < 0xC2 || first > 0xF4)
        return 0;
    return first < 0xE0 ? 2 : first < 0xF0 ? 3 : 4;
}

static const character none = {0, 0, false};

/* The number that a sequence codes, a surrogate's too. */
static character sequence_at(const uint8_t *bytes, size_t length)
{
    static const uint32_t least[] = {0, 0, 0x80, 0x800, 0x10000};
    const size_t wanted = length > 0 ? sequence_length(bytes[0]) : 0;
    uint32_t number;

    if (wanted == 0 || wanted > length)
        return none;
    number = wanted == 1 ? bytes[0] : bytes[0] & (0x7Fu >> wanted);
    for (size_t i = 1; i < wanted; i++) {
        if ((bytes[i] & 0xC0) != 0x80)
            return none;
        number = number << 6 | (bytes[i] & 0x3F);
    }
    return number < least[wanted] || number > 0x10FFFF ? none : (character){number, wanted, true};
}

static bool is_high(character c)
{
    return c.is_character && c.number >= 0xD800 && c.number < 0xDC00;
}

static bool is_low(character c)
{
    return c.is_character && c.number >= 0xDC00 && c.number < 0xE000;
}

character character_at(const uint8_t *bytes, size_t length)
{
    const character alone = {bytes[0], 1, false}, first = sequence_at(bytes, length);

    if (is_high(first)) {
        const character second = sequence_at(bytes + first.length, length - first.length);

        if (is_low(second))
            return (character){0x10000 + ((first.number - 0xD800) << 10) + (second.number - 0xDC00), 6, true};
    }
    return first.is_character && !is_high(first) && !is_low(first) ? first : alone;
}

size_t character_encode(uint32_t number, char *to)
{
    const size_t length = number < 0x80 ? 1 : number < 0x800 ? 2 : number < 0x10000 ? 3 : 4;
    static const unsigned marks[] = {0, 0, 0xC0, 0xE0, 0xF0};

    for (size_t i = length; i > 1; i--) {
        to[i - 1] = (char)(0x80 | (number & 0x3F));
        number >>= 6;
    }
    to[0] = (char)(marks[length] | number);
    return length;
}

/* ---- widths */

typedef struct {
    uint32_t first, last;
} range;

static bool among(const range *ranges, size_t count, uint32_t number)
{
    for (size_t i = 0; i < count; i++)
        if (number >= ranges[i].first && number <= ranges[i].last)
            return true;
    return false;
}

/* Controls, and marks that are not seen or turn the order of what stands around them. */
static bool is_unseen(uint32_t number)
{
    static const range unseen[] = {{0, 0x1F},         {0x7F, 0x9F},     {0x61C, 0x61C},     {0x180E, 0x180E},
                                   {0x200B, 0x200F},  {0x2028, 0x202E}, {0x2060, 0x206F},   {0xFEFF, 0xFEFF},
                                   {0xFFF9, 0xFFFB},  {0xFFFE, 0xFFFF}, {0xE0000, 0xE0FFF}};

    return among(unseen, COUNT(unseen), number);
}

/* The widths of the most used characters, for a machine without a locale for UTF-8. */
static int width_by_range(uint32_t number)
{
    static const range combining[] = {{0x300, 0x36F},   {0x483, 0x489},   {0x591, 0x5BD},   {0x64B, 0x65F},
                                      {0x1AB0, 0x1AFF}, {0x1DC0, 0x1DFF}, {0x20D0, 0x20FF}, {0x302A, 0x302D},
                                      {0x3099, 0x309A}, {0xFE00, 0xFE0F}, {0xFE20, 0xFE2F}};
    static const range wide[] = {{0x1100, 0x115F}, {0x2E80, 0x303E}, {0x3041, 0xA4CF},   {0xAC00, 0xD7A3},   {0xF900, 0xFAFF},
                                 {0xFE30, 0xFE6F}, {0xFF00, 0xFF60}, {0xFFE0, 0xFFE6},   {0x1F300, 0x1F64F}, {0x1F680, 0x1F6FF},
                                 {0x1F900, 0x1F9FF}, {0x20000, 0x3FFFD}};

    if (among(combining, COUNT(combining), number))
        return 0;
    return among(wide, COUNT(wide), number) ? 2 : 1;
}

/* Columns of a terminal; negative for what is not to be shown as it is. */
static int width_of(uint32_t number)
{
    if (is_unseen(number))
        return -1;
    return in_locale ? wcwidth((wchar_t)number) : width_by_range(number);
}

shown character_shown(character c)
{
    const int width = c.is_character ? width_of(c.number) : -1;
    const bool is_byte = !c.is_character || c.number < 0x80;
    shown s;

    if (width < 0) {
        s.length = (size_t)snprintf(s.bytes, sizeof s.bytes, is_byte ? "\\x%02X" : "\\u{%X}", (unsigned)c.number);
        s.width = s.length;
    } else {
        s.length = character_encode(c.number, s.bytes);
        s.width = (size_t)width;
    }
    return s;
}
