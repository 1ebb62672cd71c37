#define _POSIX_C_SOURCE 200809L

#include "file.h"

#include "number.h"

#include <errno.h>
#include <limits.h>
#include <string.h>
#include <sys/stat.h>

#ifndef PATH_MAX
#define PATH_MAX 4096
#endif

/* Answers false, with what the system says of an error. */
static bool because_of(int error, const char *name, char *why) { return because(why, "%s: %s", name, strerror(error)); }

/* Opens a file, or answers NULL. */
static FILE *open_named(const char *name, const char *mode, char *why)
{
    FILE *file = fopen(name, mode);
    if (file == NULL)
        because_of(errno, name, why);
    return file;
}

/* Closes a file that was read. False if reading failed. */
static bool end_reading(FILE *file, const char *name, char *why)
{
    bool read = !ferror(file);
    int error = errno;
    fclose(file);
    return read || because_of(error, name, why);
}

/* The first `room` bytes of a file. */
static bool read_bytes(const char *name, uint8_t *bytes, size_t room, size_t *length, char *why)
{
    FILE *file = open_named(name, "rb", why);
    if (file == NULL)
        return false;
    *length = fread(bytes, 1, room, file);
    return end_reading(file, name, why);
}

/* A text being read: the line that it is at. */
struct text {
    FILE *file;
    unsigned line;
};

/* The next token, its length, its front part in `token`; 0 at the end. */
static size_t next_token(struct text *text, char *token, size_t room)
{
    size_t length = 0;
    for (;;) {
        int c = getc(text->file);
        if (c == '#')
            while (c != '\n' && c != EOF)
                c = getc(text->file);
        bool blank = c == EOF || c == ' ' || c == '\t' || c == '\r' || c == '\n';
        if (blank && length > 0) {
            ungetc(c, text->file);
            return length;
        }
        if (c == EOF)
            return 0;
        if (c == '\n')
            text->line++;
        if (!blank && length + 1 < room) {
            token[length] = c > ' ' && c < 0x7F ? (char)c : '?';
            token[length + 1] = '\0';
        }
        length += !blank;
    }
}

/* The bytes of a text, up to one more than a card may have. */
static bool read_text(const char *name, struct card *card, char *why)
{
    struct text text = {open_named(name, "rb", why), 1};
    char token[20];
    size_t length;
    if (text.file == NULL)
        return false;
    card->length = 0;
    while (card->length < sizeof card->bytes && (length = next_token(&text, token, sizeof token)) > 0)
        if (!hexadecimal_byte(token, &card->bytes[card->length++])) {
            fclose(text.file);
            return because(why, "%s:%u: %s%s is no byte", name, text.line, token, length < sizeof token ? "" : "...");
        }
    return end_reading(text.file, name, why);
}

#define COMMAND_MOST 5 /* the bytes of the longest command */

/* Whether the library takes the card; if not, why, with the bytes of the bad command. */
static bool test_card(const char *name, const struct card *card, char *why)
{
    uint64_t answer = card_test(card);
    unsigned refusal = TAC_REFUSAL(answer);
    size_t place = TAC_PLACE(answer);
    char command[sizeof ":" + 3 * COMMAND_MOST] = "";
    if (refusal == TAC_GOOD)
        return true;
    if (refusal >= TAC_CARD_UNKNOWN && refusal <= TAC_CARD_BEYOND) {
        size_t used = (size_t)snprintf(command, sizeof command, ":");
        for (size_t k = place; k < card->length && k < place + COMMAND_MOST; k++)
            used += (size_t)snprintf(command + used, sizeof command - used, " %02X", card->bytes[k]);
    }
    return because(why, "%s: refused %u %u: %s%s", name, refusal, (unsigned)place, refusal_words(refusal), command);
}

static bool open_machine(const char *name, struct machine *machine, char *why)
{
    static uint8_t bytes[TAC_IMAGE_BYTES + TAC_MEMORY_BYTES + 1];
    size_t length;
    if (!read_bytes(name, bytes, sizeof bytes, &length, why))
        return false;
    if (length != TAC_IMAGE_BYTES + TAC_MEMORY_BYTES)
        return because(why, "%s: not %d bytes: a machine is an image of %d bytes and %d bytes of memory", name,
                       TAC_IMAGE_BYTES + TAC_MEMORY_BYTES, TAC_IMAGE_BYTES, TAC_MEMORY_BYTES);
    memcpy(machine->image, bytes, TAC_IMAGE_BYTES);
    memcpy(machine->memory, bytes + TAC_IMAGE_BYTES, TAC_MEMORY_BYTES);
    unsigned refusal = TAC_REFUSAL(machine_test(machine));
    return refusal == TAC_GOOD || because(why, "%s: refused %u: %s", name, refusal, refusal_words(refusal));
}

bool ends_in(const char *name, const char *ending)
{
    const char *dot = strrchr(name, '.');
    return dot != NULL && strcmp(dot, ending) == 0;
}

/* The folder of a file, as stat has it, and the file's name in it. */
static bool folder_of(const char *name, struct stat *folder, const char **last)
{
    char path[PATH_MAX];
    const char *slash = strrchr(name, '/');
    size_t length = slash == NULL ? 0 : (size_t)(slash - name) + 1;
    if (length >= sizeof path)
        return false;
    memcpy(path, name, length);
    path[length] = '\0';
    *last = name + length;
    return stat(length == 0 ? "." : path, folder) == 0;
}

bool same_file(const char *one, const char *other)
{
    struct stat first, second;
    const char *last = one, *other_last = other;
    bool there = stat(one, &first) == 0, other_there = stat(other, &second) == 0;
    if (there != other_there)
        return false;
    if (!there && (!folder_of(one, &first, &last) || !folder_of(other, &second, &other_last)))
        return strcmp(one, other) == 0;
    return first.st_dev == second.st_dev && first.st_ino == second.st_ino && (there || strcmp(last, other_last) == 0);
}

enum opened open_file(const char *name, struct machine *machine, struct card *card, char *why)
{
    bool read;
    if (ends_in(name, ".machine"))
        return open_machine(name, machine, why) ? OPENED_MACHINE : OPENED_NOTHING;
    if (ends_in(name, ".card"))
        read = read_bytes(name, card->bytes, sizeof card->bytes, &card->length, why);
    else if (ends_in(name, ".hex"))
        read = read_text(name, card, why);
    else
        read = because(why, "%s: the name ends in none of .card, .hex and .machine", name);
    return read && test_card(name, card, why) ? OPENED_CARD : OPENED_NOTHING;
}

bool load_words(const char *name, unsigned address, struct machine *machine, char *why)
{
    static uint8_t bytes[TAC_MEMORY_BYTES + 1];
    size_t room = TAC_MEMORY_BYTES - address, length;
    if (ends_in(name, ".card") || ends_in(name, ".hex"))
        return because(why, "%s: it is a card, and no bare words", name);
    if (ends_in(name, ".machine"))
        return because(why, "%s: it is a machine, and no bare words", name);
    if (!read_bytes(name, bytes, room + 1, &length, why))
        return false;
    if (length > room)
        return because(why, "%s: over %lu bytes: it does not fit from %04Xh on", name, (unsigned long)room, address);
    if (address % 2 != 0)
        return because(why, "%s: words at an odd address", name);
    if (length == 0)
        return because(why, "%s: no word", name);
    if (length % 2 != 0)
        return because(why, "%s: the last word is cut short", name);
    memcpy(machine->memory + address, bytes, length);
    return true;
}

bool test_writing(const char *name, char *why)
{
    struct stat entry;
    bool there = lstat(name, &entry) == 0;
    if (there && (stat(name, &entry) != 0 || (!S_ISREG(entry.st_mode) && !S_ISDIR(entry.st_mode))))
        return true;
    FILE *file = open_named(name, "ab", why);
    if (file == NULL)
        return false;
    fclose(file);
    if (!there)
        remove(name);
    return true;
}

bool write_file(const char *name, void (*write)(FILE *file, const void *what), const void *what, char *why)
{
    FILE *file = open_named(name, "wb", why);
    if (file == NULL)
        return false;
    write(file, what);
    bool written = !ferror(file);
    int error = errno;
    if (fclose(file) != 0) {
        error = written ? errno : error;
        written = false;
    }
    return written || because(why, "%s: %s; the file is cut short", name, strerror(error));
}

static void write_machine(FILE *file, const void *what)
{
    const struct machine *machine = what;
    fwrite(machine->image, 1, TAC_IMAGE_BYTES, file);
    fwrite(machine->memory, 1, TAC_MEMORY_BYTES, file);
}

bool test_machine_name(const char *name, char *why)
{
    return ends_in(name, ".machine") || because(why, "%s: the name has to end in .machine", name);
}

bool save_machine(const char *name, const struct machine *machine, char *why) { return write_file(name, write_machine, machine, why); }
