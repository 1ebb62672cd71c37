#include "disassemble.h"

#include <stddef.h>
#include <stdio.h>

/* What stands in the Rd field. */
enum field { UNUSED, REGISTER, CONDITION };

/* An instruction with modes: its byte in mode 0, and a bit for each allowed mode. */
struct moded {
    unsigned byte;
    const char *name;
    unsigned modes;
    enum field rd;
};

static const struct moded moded[] = {
    {0x08, "LD", 0xFF, REGISTER},   {0x10, "ST", 0xCB, REGISTER},   {0x18, "ADD", 0xFF, REGISTER},  {0x20, "SUB", 0xFF, REGISTER},
    {0x28, "CMP", 0xFF, REGISTER},  {0x30, "AND", 0xFF, REGISTER},  {0x38, "OR", 0xFF, REGISTER},   {0x40, "XOR", 0xFF, REGISTER},
    {0x48, "ADDS", 0xFF, REGISTER}, {0x50, "MUL", 0xFF, REGISTER},  {0x58, "DIV", 0xFF, REGISTER},  {0x60, "MOD", 0xFF, REGISTER},
    {0x80, "SHLA", 0xFF, REGISTER}, {0x88, "SHLL", 0xFF, REGISTER}, {0x90, "SHRA", 0xFF, REGISTER}, {0x98, "SHRL", 0xFF, REGISTER},
    {0xA0, "", 0x03, CONDITION},    {0xA8, "CALL", 0x03, UNUSED},   {0xB0, "IN", 0x41, REGISTER},   {0xB8, "OUT", 0x41, REGISTER},
};

/* An instruction of a single byte, and what follows Rd. */
struct single {
    unsigned byte;
    const char *name;
    enum field rd;
    const char *behind;
};

static const struct single singles[] = {
    {0x00, "NO", UNUSED, ""},  {0x14, "LD", REGISTER, ",FLAG"}, {0xC0, "PUSH", REGISTER, ""}, {0xC4, "POP", REGISTER, ""},
    {0xD0, "RET", UNUSED, ""}, {0xD4, "RETI", UNUSED, ""},      {0xF0, "SVC", UNUSED, ""},    {0xFF, "HALT", UNUSED, ""},
};

/* By the condition in Rd. */
static const char *const jumps[16] = {"JZ",  "JC",  "JM",  "JO",  "JGT", "JGE", "JLE", "JLT",
                                      "JNZ", "JNC", "JNM", "JNO", "JHI", NULL,  "JLS", "JMP"};

/* By the number in a register field. PC stands in the last field alone: the address of the following instruction. */
#define PC 15
static const char *const registers[16] = {"G0", "G1", "G2", "G3",  "G4",  "G5", "G6", "G7",
                                          "G8", "G9", "G10", "G11", "FP", "SP", "USP", "PC"};

/* Signed, -8 to 7: 16 less where the uppermost bit is set. */
static int four_bits(unsigned field) { return (int)field - (int)(field / 8 * 16); }

/* Writes the operand of a mode. Answers the instruction's words. */
static int write_operand(char *text, size_t room, unsigned mode, unsigned last, long second)
{
    const char *rx = registers[last];
    char word[8] = "????";
    if (second >= 0)
        snprintf(word, sizeof word, "%04lXh", second & 0xFFFF);
    switch (mode) {
    case 0: snprintf(text, room, "%s", word); return 2;
    case 1: snprintf(text, room, "%s,%s", word, rx); return 2;
    case 2: snprintf(text, room, "#%s", word); return 2;
    case 3: snprintf(text, room, "%d,FP", 2 * four_bits(last)); return 1;
    case 4: snprintf(text, room, "%s", rx); return 1;
    case 5: snprintf(text, room, "#%d", four_bits(last)); return 1;
    case 6: snprintf(text, room, "%%%s", rx); return 1;
    default: snprintf(text, room, "@%s", rx); return 1;
    }
}

static struct instruction undefined(void)
{
    struct instruction none = {0, ""};
    return none;
}

static struct instruction with_mode(const struct moded *row, unsigned first, long second)
{
    struct instruction result = undefined();
    char operand[16] = "";
    unsigned rd = first >> 4 & 15;
    const char *name = row->rd == CONDITION ? jumps[rd] : row->name;
    if (name == NULL || (row->rd == REGISTER && rd == PC))
        return result;
    result.words = write_operand(operand, sizeof operand, first >> 8 & 7, first & 15, second);
    if (row->rd == REGISTER)
        snprintf(result.text, sizeof result.text, "%s %s,%s", name, registers[rd], operand);
    else
        snprintf(result.text, sizeof result.text, "%s %s", name, operand);
    return result;
}

static struct instruction without_mode(const struct single *row, unsigned first)
{
    struct instruction result = undefined();
    unsigned rd = first >> 4 & 15;
    if (row->rd == REGISTER && rd == PC)
        return result;
    result.words = 1;
    if (row->rd == REGISTER)
        snprintf(result.text, sizeof result.text, "%s %s%s", row->name, registers[rd], row->behind);
    else
        snprintf(result.text, sizeof result.text, "%s", row->name);
    return result;
}

struct instruction disassemble(unsigned first, long second)
{
    unsigned byte = first >> 8 & 0xFF;
    for (size_t k = 0; k < sizeof singles / sizeof *singles; k++)
        if (singles[k].byte == byte)
            return without_mode(&singles[k], first);
    for (size_t k = 0; k < sizeof moded / sizeof *moded; k++)
        if (moded[k].byte == (byte & 0xF8) && (moded[k].modes >> (byte & 7) & 1) != 0)
            return with_mode(&moded[k], first, second);
    return undefined();
}
