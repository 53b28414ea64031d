/* Characters as a person sees them: bytes that are none, and characters that no terminal may get as they are, stand as escapes. */
#ifndef VIEWER_CHARACTERS_H
#define VIEWER_CHARACTERS_H

#include <stdbool.h>
#include <stddef.h>
#include <stdint.h>

/* What stands at a place. */
typedef struct {
    uint32_t number;   /* the character's number in Unicode, or the byte that is no character */
    size_t length;     /* how many bytes */
    bool is_character; /* and not a byte that belongs to none */
} character;

/* The character at the first of `length` bytes, of which there is one at least. A surrogate pair coded in six bytes is one character,
 * as document 01 has it; a byte with which no character begins is alone. */
character character_at(const uint8_t *bytes, size_t length);

/* The character's bytes in UTF-8, of which there are at most four. Answers how many. */
size_t character_encode(uint32_t number, char *to);

/* One character as it is shown, and how many columns of a terminal it takes. */
typedef struct {
    char bytes[16];
    size_t length;
    size_t width;
} shown;

/* Itself, or `\x1B` for a byte, or `\u{202E}` for a character that is not to be seen. */
shown character_shown(character c);

/* Has widths told by the user's locale, or by C.UTF-8 where that one is not for UTF-8. Where neither is there a few ranges tell them. */
void characters_begin(void);

#endif
