/* Numbers in text. */
#ifndef COMMON_NUMBER_H
#define COMMON_NUMBER_H

#include <stdbool.h>
#include <stdint.h>

/* A hexadecimal number up to `most`; 0x before it and h behind it are allowed. */
bool hexadecimal_number(const char *text, unsigned long most, unsigned long *number);

/* A decimal number up to `most`, which is at most 999,999,999. */
bool decimal_number(const char *text, unsigned long most, unsigned long *number);

/* The decimal number that a text begins with, the largest of its type where it is beyond that. Answers what is behind it, or NULL where the
 * text begins with none. */
const char *leading_number(const char *text, unsigned long *number);

/* A byte in two hexadecimal digits, and nothing else. */
bool hexadecimal_byte(const char *text, uint8_t *byte);

#endif
