#include "draft.h"

span draft_span(const draft *d)
{
    return (span){d->bytes, d->length};
}

void draft_read(draft *d, size_t room)
{
    uint32_t *const list = (uint32_t *)d->list;

    if (d->under == NULL)
        d->answer = vogieburn_read(d->bytes, d->length, list, room * VOGIEBURN_NUMBERS, d->text, sizeof d->text);
    else
        d->answer = vogieburn_check(d->bytes, d->length, list, room * VOGIEBURN_NUMBERS, d->text, sizeof d->text,
                                    (const uint8_t *)d->under->operations, d->under->count * VOGIEBURN_OPERATION_BYTES);
}

span text_of(const draft *d, const vogieburn_entity *e)
{
    return (span){vogieburn_text(e, d->text), e->text_len};
}

span data_of(const draft *d, const vogieburn_entity *e)
{
    return (span){vogieburn_data(e, d->text), e->data_len};
}

bool is_string(const vogieburn_entity *e)
{
    return e->kind == VOGIEBURN_METACOMMAND_QUOTED || e->kind == VOGIEBURN_METACOMMAND_CURLY || e->kind == VOGIEBURN_QUOTED ||
           e->kind == VOGIEBURN_CURLY;
}

const char *kind_words(uint32_t kind)
{
    static const char *const words[] = {[VOGIEBURN_BEGIN_METACOMMAND] = "begin metacommand",
                                        [VOGIEBURN_END_METACOMMAND] = "end metacommand",
                                        [VOGIEBURN_METACOMMAND_TOKEN] = "metacommand token",
                                        [VOGIEBURN_METACOMMAND_QUOTED] = "metacommand quoted string",
                                        [VOGIEBURN_METACOMMAND_CURLY] = "metacommand curly string",
                                        [VOGIEBURN_BEGIN_GROUP] = "begin group",
                                        [VOGIEBURN_END_GROUP] = "end group",
                                        [VOGIEBURN_ARRAY] = "array",
                                        [VOGIEBURN_NUMBER] = "number",
                                        [VOGIEBURN_QUOTED] = "quoted string",
                                        [VOGIEBURN_CURLY] = "curly string",
                                        [VOGIEBURN_DEFINE_VARIABLE] = "define variable",
                                        [VOGIEBURN_DEFINE_CONSTANT] = "define constant",
                                        [VOGIEBURN_GET] = "get",
                                        [VOGIEBURN_PUT] = "put",
                                        [VOGIEBURN_OPERATION] = "operation",
                                        [VOGIEBURN_END] = "end"};

    return words[kind];
}

char sign_of(const vogieburn_entity *e)
{
    switch (e->kind) {
    case VOGIEBURN_DEFINE_VARIABLE: return '?';
    case VOGIEBURN_DEFINE_CONSTANT: return '@';
    case VOGIEBURN_GET: return '=';
    case VOGIEBURN_PUT: return ':';
    default: return '\0';
    }
}
