/* Vogieburn: a proved reader of Shastina texts, and a check of them against a table of operations. Beside these it tells whether
 * only whitespace follows in a draft, and one token of a draft after the other.
 *
 * The library has no state. It allocates nothing, keeps no pointer past a call, writes to no file and calls nothing of the
 * host's, so any number of threads may call it at once, each with a list and a text buffer of its own. The same draft, the same
 * room, the same table and the same place always give the same answer.
 *
 *     vogieburn_entity list[2000];
 *     uint8_t text[16384];
 *     vogieburn_answer answer = vogieburn_read(draft, draft_len, (uint32_t *)list, 2000 * VOGIEBURN_NUMBERS,
 *                                              text, sizeof text);
 *     if (answer.number != 0)
 *         printf("refused %" PRIu64 " at byte %" PRIu64 "\n", answer.number, answer.place);
 *     for (uint64_t i = 0; i < answer.entities; i++)
 *         show(list[i].kind, vogieburn_text(&list[i], text), list[i].text_len);
 *
 * Link with -lvogieburn. The archive is for x86-64 Linux.
 */
#ifndef VOGIEBURN_H
#define VOGIEBURN_H

#include <stddef.h>
#include <stdint.h>

#ifdef __cplusplus
extern "C" {
#endif

/* Which library this is: the version of the header, of the archive beside it, of pkg-config's file and of the viewer. */
#define VOGIEBURN_VERSION "0.2.0"

/* A draft of more bytes is refused with VOGIEBURN_DRAFT_TOO_LONG. */
#define VOGIEBURN_DRAFT_LIMIT 16384

/* How many operations a table holds at most, how many bytes the name of one has, how many items one takes, and how many kinds it
 * gives. */
#define VOGIEBURN_OPERATIONS_LIMIT 256
#define VOGIEBURN_OPERATION_NAME_LIMIT 255
#define VOGIEBURN_TAKES_LIMIT 8
#define VOGIEBURN_GIVES_LIMIT 8

/* How many cells, hidden ones counted, and how many names there are at most during a check. */
#define VOGIEBURN_CELLS_LIMIT 1024
#define VOGIEBURN_NAMES_LIMIT 128

/* How many 32-bit numbers of the list an entity takes, and how many bytes of the table an operation. */
#define VOGIEBURN_NUMBERS 6
#define VOGIEBURN_OPERATION_BYTES 274

/* What an entity is. Its text is a string's prefix, a name without its sign, or a whole token, as said here; the kinds of which
 * nothing is said have none. Only strings have data, and only an array a count. */
enum vogieburn_kind {
    VOGIEBURN_BEGIN_METACOMMAND = 1,
    VOGIEBURN_END_METACOMMAND = 2,
    VOGIEBURN_METACOMMAND_TOKEN = 3,  /* text: the token */
    VOGIEBURN_METACOMMAND_QUOTED = 4, /* text: the prefix; data */
    VOGIEBURN_METACOMMAND_CURLY = 5,  /* text: the prefix; data */
    VOGIEBURN_BEGIN_GROUP = 6,
    VOGIEBURN_END_GROUP = 7,
    VOGIEBURN_ARRAY = 8,              /* count: how many elements */
    VOGIEBURN_NUMBER = 9,             /* text: the token, which begins with + - or a digit */
    VOGIEBURN_QUOTED = 10,            /* text: the prefix; data */
    VOGIEBURN_CURLY = 11,             /* text: the prefix; data */
    VOGIEBURN_DEFINE_VARIABLE = 12,   /* text: the name behind the ? */
    VOGIEBURN_DEFINE_CONSTANT = 13,   /* text: the name behind the @ */
    VOGIEBURN_GET = 14,               /* text: the name behind the = */
    VOGIEBURN_PUT = 15,               /* text: the name behind the : */
    VOGIEBURN_OPERATION = 16,         /* text: the token */
    VOGIEBURN_END = 17                /* |; */
};

/* What a cell is, as an operation of the table says it. The kinds from VOGIEBURN_CELL_HOUSE to VOGIEBURN_CELL_LAST are the house's
 * own. */
enum vogieburn_cell { VOGIEBURN_CELL_NUMBER = 0, VOGIEBURN_CELL_STRING = 1, VOGIEBURN_CELL_HOUSE = 2, VOGIEBURN_CELL_LAST = 15 };

/* What a token is, as vogieburn_step tells it. */
enum vogieburn_sort {
    VOGIEBURN_SORT_SIMPLE = 0,
    VOGIEBURN_SORT_QUOTED = 1, /* a quoted string, with its prefix */
    VOGIEBURN_SORT_CURLY = 2,  /* a curly string, with its prefix */
    VOGIEBURN_SORT_LAST = 3    /* |; */
};

/* A taken item that is no single cell: an array's count, and below it as many cells of the kind. */
#define VOGIEBURN_ARRAY_OF(kind) (VOGIEBURN_CELL_LAST + 1 + (kind))

/* Why a draft was refused, and which byte of it answer.place then names. A place is a byte's index in the draft as it was handed
 * over, counted from 0; a byte order mark counts three. "The token" is the first byte of the token being handled, and "the
 * entity" that of the token which brought the entity being checked. Only a check gives those from VOGIEBURN_TABLE_UNSOUND on, but
 * for VOGIEBURN_PLACE_PAST_DRAFT, which only a tail gives. A step gives none behind VOGIEBURN_STRING_TOO_LONG. */
enum vogieburn_refusal {
    VOGIEBURN_DRAFT_TOO_LONG = 1,      /* over 16,384 bytes; place 0 */
    VOGIEBURN_MALFORMED = 2,           /* not UTF-8; the first byte of the sequence */
    VOGIEBURN_UNPAIRED_SURROGATE = 3,  /* a surrogate without its other half; the first byte of the sequence */
    VOGIEBURN_NUL = 4,                 /* a nul; that byte */
    VOGIEBURN_CR_WITHOUT_LF = 5,       /* a CR with no LF behind it; that byte */
    VOGIEBURN_ILLEGAL_CHARACTER = 6,   /* outside comments and strings only 21 to 7E hex, HT, SP and LF; it */
    VOGIEBURN_DRAFT_ENDS = 7,          /* the draft ends before its |; is read; its length */
    VOGIEBURN_TOKEN_TOO_LONG = 8,      /* a simple token or a prefix over 255 bytes; the 256th */
    VOGIEBURN_STRING_TOO_LONG = 9,     /* string data over 4,096 clean bytes; the character that crosses */
    VOGIEBURN_METACOMMAND_INSIDE = 10, /* % inside a metacommand; the token */
    VOGIEBURN_SEMICOLON_OUTSIDE = 11,  /* ; outside a metacommand; the token */
    VOGIEBURN_END_IN_METACOMMAND = 12, /* |; in a metacommand; the token */
    VOGIEBURN_END_IN_GROUP = 13,       /* |; with a group or an array open; the token */
    VOGIEBURN_STRAY_PARENTHESIS = 14,  /* ) with no group to close here; the token */
    VOGIEBURN_STRAY_COMMA = 15,        /* , with no array's element to end here; the token */
    VOGIEBURN_STRAY_BRACKET = 16,      /* ] with no array to close here; the token */
    VOGIEBURN_TOO_MANY_GROUPS = 17,    /* over 64 groups open, those of elements counted; the token */
    VOGIEBURN_LIST_FULL = 18,          /* the token's entities do not fit the list; the token */
    VOGIEBURN_TEXT_FULL = 19,          /* their text and data do not fit the text buffer; the token */
    VOGIEBURN_TABLE_UNSOUND = 20,      /* the table breaks its rules; place 0 */
    VOGIEBURN_UNKNOWN_OPERATION = 21,  /* the table has no operation of this name; the entity */
    VOGIEBURN_TOO_FEW_CELLS = 22,      /* fewer cells in sight than are taken; the entity */
    VOGIEBURN_WRONG_KIND = 23,         /* a cell of another kind than is taken; the entity */
    VOGIEBURN_NO_ARRAY = 24,           /* an array is wanted, and on top is a plain number; the entity */
    VOGIEBURN_NAME_DEFINED = 25,       /* ? or @ with a name defined before; the entity */
    VOGIEBURN_NAME_NOT_DEFINED = 26,   /* = or : with a name not defined; the entity */
    VOGIEBURN_PUT_TO_CONSTANT = 27,    /* : with a name defined by @; the entity */
    VOGIEBURN_NOT_ONE_CELL = 28,       /* a group, or an array's element, ends without exactly one cell in sight; the entity */
    VOGIEBURN_TOO_MANY_CELLS = 29,     /* over 1,024 cells, hidden ones counted; the entity */
    VOGIEBURN_TOO_MANY_NAMES = 30,     /* over 128 names; the entity */
    VOGIEBURN_PLACE_PAST_DRAFT = 31    /* a tail from a place past the draft; place 0 */
};

/* One entity of the list: six 32-bit numbers, with nothing between them. */
typedef struct {
    uint32_t kind;     /* an enum vogieburn_kind */
    uint32_t place;    /* the first byte of its token in the draft */
    uint32_t text_at;  /* where its text begins in the text buffer */
    uint32_t text_len; /* how many bytes of text */
    uint32_t data_len; /* how many bytes of string data; they stand right behind the text */
    uint32_t count;    /* of an array: its elements; else 0 */
} vogieburn_entity;

/* The answer of a call, a reading or a check. A number that an answer has no use for is 0. */
typedef struct {
    uint64_t number;   /* 0 for success, or an enum vogieburn_refusal */
    uint64_t place;    /* of a refusal: its place in the draft */
    uint64_t entities; /* how many entities the list holds */
    uint64_t text;     /* how many bytes the text buffer holds */
    uint64_t consumed; /* of success: the index of the byte after |; */
    uint64_t steps;    /* of a check, once the draft is read: how many entities it handled; the refused one is not counted */
    uint64_t cells;    /* of a check's success: how many cells remain */
} vogieburn_answer;

/* The answer of a tail. */
typedef struct {
    uint64_t number; /* 0, or VOGIEBURN_DRAFT_TOO_LONG or VOGIEBURN_PLACE_PAST_DRAFT */
    uint64_t yes;    /* 1 if only whitespace follows; else 0 */
    uint64_t place;  /* if something else follows: its first byte; else 0 */
} vogieburn_tail_answer;

/* The answer of a step: a token, or a refusal. */
typedef struct {
    uint64_t number; /* 0 for a token, or an enum vogieburn_refusal */
    uint64_t place;  /* of a token: its first byte; of a refusal: its place in the draft */
    uint64_t after;  /* of a token: the index of the byte after it, which for a string is the byte after what closes it */
    uint64_t sort;   /* of a token: an enum vogieburn_sort */
    uint64_t prefix; /* of a string: how many bytes its prefix has; of a simple token: how many bytes it has itself; of |; 0 */
    uint64_t length; /* of a string: how many bytes its data has when clean, as vogieburn_read writes it; else 0 */
    uint64_t next;   /* the place reached, for the next call: the byte after a token; but after |; or a refusal the place that was
                        handed over, so that the next call answers the same again */
} vogieburn_token;

/* One operation of a table, byte for byte; vogieburn_operation_make fills it. Bytes behind the name, behind the items and behind
 * the kinds are 0. An array of at most 256 of these, each with another name, is a sound table. */
typedef struct {
    uint8_t name_len;                             /* 1 to 255 */
    uint8_t name[VOGIEBURN_OPERATION_NAME_LIMIT]; /* any bytes */
    uint8_t takes_len;                            /* 0 to 8 */
    uint8_t takes[VOGIEBURN_TAKES_LIMIT];         /* the items, top first: an enum vogieburn_cell, or VOGIEBURN_ARRAY_OF one */
    uint8_t gives_len;                            /* 0 to 8 */
    uint8_t gives[VOGIEBURN_GIVES_LIMIT];         /* the kinds, the last left on top: an enum vogieburn_cell each */
} vogieburn_operation;

#ifdef __cplusplus
#define VOGIEBURN_ASSERT static_assert
#else
#define VOGIEBURN_ASSERT _Static_assert
#endif

VOGIEBURN_ASSERT(sizeof(vogieburn_entity) == VOGIEBURN_NUMBERS * sizeof(uint32_t), "an entity is six numbers");
VOGIEBURN_ASSERT(sizeof(vogieburn_answer) == 7 * sizeof(uint64_t), "an answer is seven numbers");
VOGIEBURN_ASSERT(sizeof(vogieburn_tail_answer) == 3 * sizeof(uint64_t), "the answer of a tail is three numbers");
VOGIEBURN_ASSERT(sizeof(vogieburn_token) == 7 * sizeof(uint64_t), "the answer of a step is seven numbers");
VOGIEBURN_ASSERT(sizeof(vogieburn_operation) == VOGIEBURN_OPERATION_BYTES, "an operation is 274 bytes");

#undef VOGIEBURN_ASSERT

/* Reads a draft into a list of entities and a buffer of clean text, both lent by the caller.
 *
 * draft, draft_len   the draft's bytes, and how many there are. They are not changed. Any bytes and any length get an answer.
 * list, list_len     where entities go, and how many 32-bit numbers there is room for: six to an entity. Room for a part of an
 *                    entity is left alone.
 * text, text_len     where text and string data go, and how many bytes there is room for. Text, then data, entity by entity, with
 *                    nothing between them and no nul behind them.
 *
 * Reading stops at the draft's last token, |;. What follows it is never looked at, but counts for the draft's length.
 *
 * Afterwards the first answer.entities entities of the list and the first answer.text bytes of the text buffer are what was
 * read; past those every number and byte is as it was. After a refusal they are what came before that place: the entities of
 * each token that was handled, and none of the token at which reading stopped. After VOGIEBURN_DRAFT_TOO_LONG nothing is
 * written. The buffers stay the caller's in every case.
 *
 * Nothing checks the arguments. The caller sees to it that
 * - each pointer leads to as many bytes or numbers as its length says, in memory that may be read, and for list and text written;
 * - list is aligned as a uint32_t is;
 * - the draft, the list and the text buffer do not overlap, and nothing else reads or writes them during the call (a draft may
 *   be read by others).
 * Where a length is 0 its pointer may be null. The macro of the same name, below, sees to that; the function itself, reached
 * through a pointer to it or by its name in parentheses, takes no null pointer. */
vogieburn_answer vogieburn_read(const uint8_t *draft, size_t draft_len, uint32_t *list, size_t list_len, uint8_t *text,
                                size_t text_len);

/* Reads a draft as vogieburn_read does, and checks what was read against a table of operations: that its operations are known,
 * that each finds the cells which it takes, that names are defined once and before they are used, and that each group and each
 * element of an array leaves exactly one cell.
 *
 * draft, list, text  as for vogieburn_read.
 * table, table_len   the table's bytes, and how many there are: 274 to an operation, as vogieburn_operation lays them out, at most
 *                    256 operations in any order, no two with the same name. They are not changed. Any bytes and any length
 *                    get an answer: what is no sound table is refused. An empty table is sound, and knows no operation.
 *
 *     vogieburn_operation table[1];
 *     const uint8_t takes[] = {VOGIEBURN_ARRAY_OF(VOGIEBURN_CELL_NUMBER)};
 *     if (!vogieburn_operation_make(&table[0], "bind", 4, takes, sizeof takes, NULL, 0))
 *         return;
 *     vogieburn_answer answer = vogieburn_check(draft, draft_len, (uint32_t *)list, 2000 * VOGIEBURN_NUMBERS,
 *                                               text, sizeof text, (const uint8_t *)table, sizeof table);
 *
 * The table is judged first, then the draft is read, and only when it was read to its end are its entities checked, one after
 * the other. So, of all that is wrong, the answer tells
 * - VOGIEBURN_TABLE_UNSOUND first, and then nothing is written;
 * - then VOGIEBURN_DRAFT_TOO_LONG, with nothing written, and the other refusals of reading, with the answer and the buffers that
 *   vogieburn_read leaves;
 * - then the first refusal from VOGIEBURN_UNKNOWN_OPERATION on. The buffers hold the whole reading, as they do after success, and
 *   answer.steps tells how many entities were handled: the refused one is the next of the list.
 * Cells may remain at the end, and answer.cells tells how many. Past what is held every number and byte is as it was.
 *
 * The caller sees to the same as for vogieburn_read, and the table is lent as the draft is: the two are only read and may overlap
 * each other, but neither may overlap the list or the text buffer. */
vogieburn_answer vogieburn_check(const uint8_t *draft, size_t draft_len, uint32_t *list, size_t list_len, uint8_t *text,
                                 size_t text_len, const uint8_t *table, size_t table_len);

/* Tells whether only whitespace follows in a draft from a place on. At the answer.consumed of a reading or a check that is whether
 * nothing more stands behind |;.
 *
 * draft, draft_len   as for vogieburn_read.
 * place              from which byte on; draft_len, behind the last byte, is a place too, and nothing follows there.
 *
 * Whitespace is HT, SP, LF, and CR with LF right behind it. Nothing else is: no comment, no byte order mark, no other CR, and no
 * byte at which reading would refuse the draft.
 *
 * The answer's number is VOGIEBURN_DRAFT_TOO_LONG, whatever the place; or else VOGIEBURN_PLACE_PAST_DRAFT for a place greater than
 * draft_len; or else 0. Then yes is 1 if only whitespace follows, and if not yes is 0 and answer.place the first byte that is none.
 * A number that an answer has no use for is 0.
 *
 * Nothing is written. The caller sees to the same as for vogieburn_read, as far as it goes for a draft. */
vogieburn_tail_answer vogieburn_tail(const uint8_t *draft, size_t draft_len, uint64_t place);

/* Tells the token of a draft from a place on, as reading uses tokens: whitespace and comments before it are passed over. What tokens
 * mean to each other, in metacommands, groups and arrays, is nothing to a step.
 *
 * draft, draft_len   as for vogieburn_read.
 * place              from which byte on: 0, or the answer.next of the step before, or any other number. A place past the draft is
 *                    its end, so that VOGIEBURN_DRAFT_ENDS is the answer. At place 0 a byte order mark is passed over; at any other
 *                    place it is a character, which is legal in comments and strings alone.
 *
 *     vogieburn_token token = {0};
 *     do {
 *         token = vogieburn_step(draft, draft_len, token.next);
 *         if (token.number == 0)
 *             show(token.sort, draft + token.place, token.after - token.place);
 *     } while (token.number == 0 && token.sort != VOGIEBURN_SORT_LAST);
 *
 * The answer is a token, or a refusal from VOGIEBURN_DRAFT_TOO_LONG to VOGIEBURN_STRING_TOO_LONG with its place. A number that an
 * answer has no use for is 0. In both cases answer.next is the place to hand over next. After a token it is answer.after. Behind |;
 * and behind a refusal there is no token: answer.next is then the place that was handed over, and a step from there gives the same
 * answer, as often as it is called.
 *
 * Nothing is written, and nothing is kept: a step looks at the draft anew. The caller sees to the same as for vogieburn_read, as far
 * as it goes for a draft. */
vogieburn_token vogieburn_step(const uint8_t *draft, size_t draft_len, uint64_t place);

/* An address for each length of 0. Nothing is read or written there. */
static inline void *vogieburn_nowhere(void)
{
    static uint32_t nowhere;

    return &nowhere;
}

/* A lent pointer, which may be null where its length is 0, and its length. */
#define VOGIEBURN_LENT(type, lent) lent##_len > 0 ? lent : (type *)vogieburn_nowhere(), lent##_len

/* The calls, with null pointers for lengths of 0. */
static inline vogieburn_answer vogieburn_read_lent(const uint8_t *draft, size_t draft_len, uint32_t *list, size_t list_len,
                                                   uint8_t *text, size_t text_len)
{
    return vogieburn_read(VOGIEBURN_LENT(const uint8_t, draft), VOGIEBURN_LENT(uint32_t, list), VOGIEBURN_LENT(uint8_t, text));
}

static inline vogieburn_answer vogieburn_check_lent(const uint8_t *draft, size_t draft_len, uint32_t *list, size_t list_len,
                                                    uint8_t *text, size_t text_len, const uint8_t *table, size_t table_len)
{
    return vogieburn_check(VOGIEBURN_LENT(const uint8_t, draft), VOGIEBURN_LENT(uint32_t, list), VOGIEBURN_LENT(uint8_t, text),
                           VOGIEBURN_LENT(const uint8_t, table));
}

static inline vogieburn_tail_answer vogieburn_tail_lent(const uint8_t *draft, size_t draft_len, uint64_t place)
{
    return vogieburn_tail(VOGIEBURN_LENT(const uint8_t, draft), place);
}

static inline vogieburn_token vogieburn_step_lent(const uint8_t *draft, size_t draft_len, uint64_t place)
{
    return vogieburn_step(VOGIEBURN_LENT(const uint8_t, draft), place);
}

#undef VOGIEBURN_LENT

#define vogieburn_read(draft, draft_len, list, list_len, text, text_len) \
    vogieburn_read_lent(draft, draft_len, list, list_len, text, text_len)

#define vogieburn_check(draft, draft_len, list, list_len, text, text_len, table, table_len) \
    vogieburn_check_lent(draft, draft_len, list, list_len, text, text_len, table, table_len)

#define vogieburn_tail(draft, draft_len, place) vogieburn_tail_lent(draft, draft_len, place)

#define vogieburn_step(draft, draft_len, place) vogieburn_step_lent(draft, draft_len, place)

/* Fills one part of an operation: bytes, and zeros behind them. Answers whether they fit, each below `bound`. */
static inline int vogieburn_operation_part(uint8_t *to, size_t room, unsigned bound, const uint8_t *from, size_t from_len)
{
    for (size_t i = 0; i < room; i++) {
        to[i] = (uint8_t)(i < from_len ? from[i] : 0);
        if (to[i] >= bound)
            return 0;
    }
    return from_len <= room;
}

/* Fills one operation of a table: its name, of 1 to 255 bytes; at most 8 items that it takes, top first, each 0 to 31; and at most 8
 * kinds that it gives, the last left on top, each 0 to 15. Answers 1; or 0, and the operation is as it was, where they break these
 * rules. Where a length is 0 its pointer may be null. That no other operation of the table has the name is for the check to see. */
static inline int vogieburn_operation_make(vogieburn_operation *operation, const void *name, size_t name_len, const uint8_t *takes,
                                           size_t takes_len, const uint8_t *gives, size_t gives_len)
{
    const unsigned kinds = VOGIEBURN_CELL_LAST + 1;
    vogieburn_operation made;

    if (name_len == 0 || !vogieburn_operation_part(made.name, sizeof made.name, 256, (const uint8_t *)name, name_len) ||
        !vogieburn_operation_part(made.takes, sizeof made.takes, 2 * kinds, takes, takes_len) ||
        !vogieburn_operation_part(made.gives, sizeof made.gives, kinds, gives, gives_len))
        return 0;
    made.name_len = (uint8_t)name_len;
    made.takes_len = (uint8_t)takes_len;
    made.gives_len = (uint8_t)gives_len;
    *operation = made;
    return 1;
}

/* A number of refusal in words, for people: what was met, as document 01 says it. They are US-ASCII and never null; 0 and the numbers
 * that no answer has are told as such. */
static inline const char *vogieburn_refusal_words(uint64_t number)
{
    static const char *const words[] = {
        "not refused",
        "draft over 16,384 bytes",
        "malformed bytes, which are not UTF-8",
        "unpaired surrogate",
        "nul",
        "CR without LF",
        "illegal character outside comment and string",
        "draft ends before its |; is read",
        "simple token or prefix over 255 bytes",
        "string data over 4,096 clean bytes",
        "% inside a metacommand",
        "; outside a metacommand",
        "|; in a metacommand",
        "|; with a group or array open",
        ") with no group to close here",
        ", with no array element to end here",
        "] with no array to close here",
        "over 64 groups open, inserted ones counted",
        "next entity does not fit the list",
        "text and data do not fit the text buffer",
        "table breaks its rules",
        "operation unknown",
        "too few cells in sight",
        "wrong kind of cell",
        "array wanted, plain number on top",
        "name defined before",
        "name not defined",
        "put to a constant",
        "group ends without exactly one cell",
        "over 1,024 cells, hidden ones counted",
        "over 128 names",
        "place past the draft",
    };

    return number < sizeof words / sizeof *words ? words[number] : "no number of refusal";
}

/* An entity's text, text_len bytes, in the text buffer that it was read into. */
static inline const uint8_t *vogieburn_text(const vogieburn_entity *entity, const uint8_t *text)
{
    return text + entity->text_at;
}

/* An entity's string data, data_len bytes. */
static inline const uint8_t *vogieburn_data(const vogieburn_entity *entity, const uint8_t *text)
{
    return text + entity->text_at + entity->text_len;
}

#ifdef __cplusplus
}
#endif

#endif
