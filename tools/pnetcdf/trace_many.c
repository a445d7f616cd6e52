/* Puts and gets of several variables by one call. */
#include "trace.h"

#include <stdlib.h>

static Access member(const Many *many, int k)
{
    Access access = {.name = many->name, .direction = many->direction, .form = many->form, .ncid = many->ncid, .varid = many->varids[k],
                     .buffer = many->buffers == NULL ? NULL : many->buffers[k], .type = many->type, .bufcount = -1};
    access.start = many->starts == NULL ? NULL : many->starts[k];
    access.count = many->counts == NULL ? NULL : many->counts[k];
    access.stride = many->strides == NULL ? NULL : many->strides[k];
    access.imap = many->imaps == NULL ? NULL : many->imaps[k];
    if (many->bufcounts != NULL && many->types != NULL) {
        access.flexible = true;
        access.type = many->types[k];
        access.bufcount = many->bufcounts[k];
    }
    return access;
}

Memory *begin_many(const Many *many)
{
    size_t count = many->count > 0 && many->varids != NULL ? (size_t)many->count : 0;
    begin_call(many->ncid, many->name);
    Memory *memories = line_open() ? calloc(count + 1, sizeof *memories) : NULL;
    if (memories != NULL) {
        say(",\"members\":[");
        for (size_t k = 0; k < count; k++) {
            Access access = member(many, (int)k);
            say(k == 0 ? "{\"var\":%d" : ",{\"var\":%d", access.varid);
            access_fields(&access, &memories[k]);
            say("}");
        }
        say("]");
    }
    call_made();
    return memories;
}

int end_many(const Many *many, Memory *memories, int code)
{
    bool filled = many->direction == GET && (code == NC_NOERR || code == NC_ERANGE) && line_open();
    call_answered();
    if (filled && memories != NULL)
        say(",\"members\":[");
    for (int k = 0; memories != NULL && k < many->count; k++) {
        long long at = filled ? store_memory(&memories[k]) : -1;
        if (at >= 0)
            say("%s[%lld,%lld]", k == 0 ? "" : ",", at, (long long)memories[k].length);
        else if (filled)
            say(k == 0 ? "null" : ",null");
        free_memory(&memories[k]);
    }
    if (filled && memories != NULL)
        say("]");
    free(memories);
    return end_call(code);
}
