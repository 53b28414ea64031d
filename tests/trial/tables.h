/* Tables drawn by lot, and tables that break a rule. */
#ifndef TRIAL_TABLES_H
#define TRIAL_TABLES_H

#include "lots.h"
#include "table.h"

/* A sound table: most often of a few operations, and now and then of 256. */
void draw_table(lots *l, table *t);

/* The rules of a table, in the order of docs/LAYOUT.md. */
enum rule {
    WHOLE_OPERATIONS,
    AT_MOST_256,
    A_NAME,
    ZEROS_BEHIND_NAME,
    AT_MOST_8_ITEMS,
    ITEMS_BELOW_32,
    ZEROS_BEHIND_ITEMS,
    AT_MOST_8_KINDS,
    KINDS_BELOW_16,
    ZEROS_BEHIND_KINDS,
    NO_NAME_TWICE,
    RULES
};

/* Breaks one rule of a sound table, in one of the ways there are. */
void break_rule(lots *l, table *t, enum rule broken);

#endif
