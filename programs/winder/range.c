#include "range.h"

#include "message.h"
#include "number.h"

#include <stdio.h>
#include <string.h>

bool take_range(const char *text, uint32_t low, uint32_t high, struct range *range, char *why)
{
    unsigned long first = 0, last, by = 1;
    const char *behind = leading_number(text, &first);
    last = first;
    if (behind != NULL && *behind == '-')
        behind = leading_number(behind + 1, &last);
    if (behind != NULL && *behind == ':' && strchr(text, '-') != NULL)
        behind = leading_number(behind + 1, &by);
    if (behind == NULL || *behind != '\0')
        return because(why, "%s is none of N, A-B and A-B:STEP, %lu-%lu", text, (unsigned long)low, (unsigned long)high);
    if (first < low || first > high || last < low || last > high)
        return because(why, "%s is beyond %lu-%lu", text, (unsigned long)low, (unsigned long)high);
    if (first > last)
        return because(why, "%s: the first is over the last", text);
    if (by == 0)
        return because(why, "%s: a step of 0", text);
    if (by > last - first)
        by = last - first + 1;
    *range = (struct range){(uint32_t)first, (uint32_t)last, (uint32_t)by};
    return true;
}

const char *range_text(const struct range *range, char *text)
{
    unsigned long first = range->first, last = range->last, by = range->by;
    if (first == last)
        snprintf(text, RANGE_BYTES, "%lu", first);
    else if (by == 1)
        snprintf(text, RANGE_BYTES, "%lu-%lu", first, last);
    else
        snprintf(text, RANGE_BYTES, "%lu-%lu:%lu", first, last, by);
    return text;
}

uint32_t range_count(const struct range *range) { return (range->last - range->first) / range->by + 1; }
