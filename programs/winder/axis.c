#include "axis.h"

uint32_t axis_step(uint32_t length, uint32_t marks)
{
    static const uint32_t factors[] = {1, 2, 5};
    for (uint32_t power = 1;; power *= 10)
        for (int k = 0; k < 3; k++)
            if (length / (power * factors[k]) <= marks)
                return power * factors[k];
}
