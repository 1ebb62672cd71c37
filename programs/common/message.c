#include "message.h"

#include <errno.h>
#include <stdarg.h>
#include <stdio.h>
#include <stdlib.h>
#include <string.h>

void fail(const char *format, ...)
{
    va_list arguments;
    fflush(stdout);
    fprintf(stderr, "%s: ", program_name);
    va_start(arguments, format);
    vfprintf(stderr, format, arguments);
    va_end(arguments);
    fputc('\n', stderr);
    exit(2);
}

bool because(char *why, const char *format, ...)
{
    va_list arguments;
    va_start(arguments, format);
    vsnprintf(why, WHY_BYTES, format, arguments);
    va_end(arguments);
    return false;
}

const char *refusal_words(unsigned refusal)
{
    static const char *const words[] = {
        "good",
        "memory is not 65,536 bytes",
        "the image has the wrong length",
        "a field of the image is beyond its values",
        "the card is over 4,096 bytes",
        "no command",
        "the operands are cut short",
        "an operand is beyond its values",
        "the report is too short",
        "a setting of the winder is beyond its values, or there are fewer places than ticks",
    };
    return refusal < sizeof words / sizeof *words ? words[refusal] : "unknown";
}

static int output_error; /* of the first flush that failed, or 0 */

void flush_output(void)
{
    if (fflush(stdout) != 0 && output_error == 0)
        output_error = errno;
}

void end_output(void)
{
    flush_output();
    if (output_error != 0 || ferror(stdout))
        fail("standard output can't be written: %s", output_error != 0 ? strerror(output_error) : "a part of it was refused");
}
