/* The words behind the viewer's name. */
#ifndef VIEWER_OPTIONS_H
#define VIEWER_OPTIONS_H

#include "writer.h"

/* What the viewer is asked for. Behind a wish for help or the version no word is looked at. */
enum request { SHOW, LIST, JSON, HELP, VERSION };

typedef struct {
    const char *draft; /* the file, or - for standard input */
    const char *table; /* the same; null if there is none */
    enum request request;
    bool remarks;
} options;

/* Takes the words apart. Answers whether they are good; if not it has said on `w` what is wrong. */
bool options_parse(const writer *w, int argc, char **argv, options *o);

void write_help(const writer *w);

#endif
