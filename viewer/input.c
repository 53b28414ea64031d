#include "input.h"

#include <errno.h>
#include <string.h>

bool is_standard_input(const char *file)
{
    return strcmp(file, "-") == 0;
}

const char *input_name(const char *file)
{
    return is_standard_input(file) ? "<stdin>" : file;
}

static bool read_stream(FILE *from, uint8_t *to, size_t room, size_t *length)
{
    *length = fread(to, 1, room, from);
    return !ferror(from);
}

bool input_read(const char *file, uint8_t *to, size_t room, size_t *length)
{
    FILE *from;
    bool is_read;
    int why;

    if (is_standard_input(file))
        return read_stream(stdin, to, room, length);
    from = fopen(file, "rb");
    if (from == NULL)
        return false;
    is_read = read_stream(from, to, room, length);
    why = errno;
    fclose(from);
    errno = why;
    return is_read;
}
