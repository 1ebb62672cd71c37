#include "origin.h"

#include "file.h"

#include <stdlib.h>
#include <string.h>

static const char *kind_of(const struct origin *origin) { return ends_in(origin->file, ".machine") ? "machine" : "card"; }

/* A name, in which no byte ends the line. */
static void print_name(const char *name)
{
    for (; *name != '\0'; name++)
        putchar((unsigned char)*name < ' ' || *name == 0x7F ? '?' : *name);
}

void print_origin(const struct origin *origin)
{
    printf("%s: ", kind_of(origin));
    print_name(origin->file);
    putchar('\n');
    for (int k = 0; k < origin->loads->count; k++) {
        printf("words: ");
        print_name(origin->loads->files[k].file);
        printf(" at %04Xh\n", origin->loads->files[k].address);
    }
}

void print_input(const struct origin *origin)
{
    char text[RANGE_BYTES];
    if (origin->has_input)
        printf("input: %s\n", range_text(&origin->input, text));
}

/* The bytes of the character that a text begins with, 0 where they are no UTF-8 or none that XML takes. */
static size_t character_bytes(const char *text)
{
    static const unsigned long least[] = {0, ' ', 0x80, 0x800, 0x10000};
    unsigned char first = (unsigned char)text[0];
    size_t length = first < 0x80 ? 1 : first < 0xC0 ? 0 : first < 0xE0 ? 2 : first < 0xF0 ? 3 : first < 0xF8 ? 4 : 0;
    unsigned long code = length < 2 ? first : first & (0x7Fu >> length);
    for (size_t k = 1; k < length; k++) {
        if (((unsigned char)text[k] & 0xC0) != 0x80)
            return 0;
        code = code << 6 | ((unsigned char)text[k] & 0x3F);
    }
    bool good = code >= least[length] && code != 0x7F && (code < 0xD800 || code > 0xDFFF) && code != 0xFFFE && code != 0xFFFF;
    return good && code <= 0x10FFFF ? length : 0;
}

/* A text as XML, cut where there is no more room; answers the room that is left, in characters. */
static unsigned write_escaped(FILE *file, const char *text, unsigned room)
{
    while (*text != '\0' && room > 0) {
        size_t length = character_bytes(text);
        const char *escaped = *text == '&' ? "&amp;" : *text == '<' ? "&lt;" : *text == '>' ? "&gt;" : NULL;
        if (length == 0)
            escaped = "?";
        if (--room == 0 && text[length == 0 ? 1 : length] != '\0')
            escaped = "...";
        if (escaped != NULL)
            fputs(escaped, file);
        else
            fwrite(text, 1, length, file);
        text += length == 0 ? 1 : length;
    }
    return room;
}

void write_origin(FILE *file, const struct origin *origin, unsigned most)
{
    char text[RANGE_BYTES + 16];
    unsigned room = write_escaped(file, kind_of(origin), most);
    room = write_escaped(file, ": ", room);
    room = write_escaped(file, origin->file, room);
    for (int k = 0; k < origin->loads->count; k++) {
        room = write_escaped(file, "; words: ", room);
        room = write_escaped(file, origin->loads->files[k].file, room);
        snprintf(text, sizeof text, " at %04Xh", origin->loads->files[k].address);
        room = write_escaped(file, text, room);
    }
    if (origin->has_input) {
        snprintf(text, sizeof text, "; input: %lu", (unsigned long)origin->input.first);
        write_escaped(file, text, room);
    }
}
