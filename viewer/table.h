/* Tables of operations as a person writes them (vogieburn-table(5)), and as the library takes them. */
#ifndef VIEWER_TABLE_H
#define VIEWER_TABLE_H

#include "vogieburn.h"
#include "writer.h"

enum {
    KINDS = VOGIEBURN_CELL_LAST + 1,
    TABLE_LIMIT = 1 << 20, /* bytes of a table's text, which is far more than the longest names need */
};

typedef struct {
    span text; /* the names below stand in it */
    size_t count;
    vogieburn_operation operations[VOGIEBURN_OPERATIONS_LIMIT];
    size_t places[VOGIEBURN_OPERATIONS_LIMIT]; /* where each operation's name stands in the text */
    span kinds[KINDS];                         /* the name of each kind; empty if it has none */
    size_t kinds_line;                         /* the number of the line that names kinds; 0 if there is none */
} table;

/* What is wrong with a table's text. */
typedef struct {
    size_t place;         /* the byte at which something else was expected */
    const char *expected; /* what was expected there */
    size_t line;          /* the number of an earlier line that the words speak of; 0 if they speak of none */
} table_fault;

/* Makes a table of its text, which has to stay where it is for as long as the table is used. Answers whether the text is a table; if not,
 * the fault is the first one. */
bool table_parse(table *t, span text, table_fault *fault);

/* `FILE:LINE:COLUMN: expected ...`, the line, and a caret. */
void write_table_fault(const writer *w, const char *file, span text, const table_fault *fault);

/* The operation of that name; `count` of the table if there is none. */
size_t table_find(const table *t, span name);

/* A kind by its name, if it has one, or by its number; an item that is an array in brackets. */
void write_item(const writer *w, const table *t, unsigned item);

#endif
