/* What the program says and how it ends. See say.h. */
#include "say.h"
#include <errno.h>
#include <stdarg.h>
#include <string.h>

enum status say(enum status status, const char *format, ...)
{
    va_list given;
    fputs(PROGRAM ": ", stderr);
    va_start(given, format);
    vfprintf(stderr, format, given);
    va_end(given);
    fputc('\n', stderr);
    return status;
}

static int is_standard(const char *name)
{
    return name == NULL || strcmp(name, "-") == 0;
}

FILE *output_open(const char *name)
{
    FILE *out = is_standard(name) ? stdout : fopen(name, "wb");
    if (out == NULL)
        say(STATUS_TROUBLE, "%s: %s", name, strerror(errno));
    return out;
}

enum status output_close(FILE *out, const char *name)
{
    int failed = ferror(out);
    failed |= fclose(out) != 0;
    if (!failed)
        return STATUS_YES;
    return say(STATUS_TROUBLE, "%s could not be written: what is there is not all", is_standard(name) ? "standard output" : name);
}
