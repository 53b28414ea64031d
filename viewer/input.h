/* Files, and standard input, which the word - stands for. */
#ifndef VIEWER_INPUT_H
#define VIEWER_INPUT_H

#include "writer.h"

bool is_standard_input(const char *file);

/* How a file is named in what is said of it. */
const char *input_name(const char *file);

/* Reads a file as far as there is room, and tells how many bytes that were. Answers whether it could be read; if not errno says why. */
bool input_read(const char *file, uint8_t *to, size_t room, size_t *length);

#endif
