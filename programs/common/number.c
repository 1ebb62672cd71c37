#include "number.h"

#include <stdlib.h>
#include <string.h>

#define HEXADECIMAL "0123456789ABCDEFabcdef"
#define DECIMAL "0123456789"

bool hexadecimal_number(const char *text, unsigned long most, unsigned long *number)
{
    if (text[0] == '0' && (text[1] == 'x' || text[1] == 'X'))
        text += 2;
    size_t length = strspn(text, HEXADECIMAL);
    const char *behind = text + length;
    if (length == 0 || length > 8 || (strcmp(behind, "") != 0 && strcmp(behind, "h") != 0 && strcmp(behind, "H") != 0))
        return false;
    *number = strtoul(text, NULL, 16);
    return *number <= most;
}

bool decimal_number(const char *text, unsigned long most, unsigned long *number)
{
    size_t length = strspn(text, DECIMAL);
    if (length == 0 || length > 9 || text[length] != '\0')
        return false;
    *number = strtoul(text, NULL, 10);
    return *number <= most;
}

const char *leading_number(const char *text, unsigned long *number)
{
    char *behind;
    if (strspn(text, DECIMAL) == 0)
        return NULL;
    *number = strtoul(text, &behind, 10);
    return behind;
}

bool hexadecimal_byte(const char *text, uint8_t *byte)
{
    if (strspn(text, HEXADECIMAL) != 2 || text[2] != '\0')
        return false;
    *byte = (uint8_t)strtoul(text, NULL, 16);
    return true;
}
