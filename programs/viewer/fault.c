/* The fault record in words: what the violation address, the cause bits, the missed page and the TLB as it stands tell, and no more. The
 * record does not say which access was refused, so the rights named are those that the serving entry does not give. */
#include "fault.h"

#include "look.h"

#include <stdio.h>
#include <string.h>

/* The rights that an entry does not give, as "read, write or execute"; empty if it gives all. */
static void missing_rights(uint32_t entry, char *text, size_t room)
{
    static const struct {
        uint32_t bit;
        const char *name;
    } rights[] = {{TAC_TLB_READ, "read"}, {TAC_TLB_WRITE, "write"}, {TAC_TLB_EXECUTE, "execute"}};
    const char *names[3];
    int count = 0;
    for (int k = 0; k < 3; k++)
        if ((entry & rights[k].bit) == 0)
            names[count++] = rights[k].name;
    if (count == 3)
        snprintf(text, room, "%s, %s or %s", names[0], names[1], names[2]);
    else
        snprintf(text, room, "%s%s%s", count > 0 ? names[0] : "", count > 1 ? " or " : "", count > 1 ? names[1] : "");
}

static void right_words(const struct machine *machine, unsigned address, char *text, size_t room)
{
    char missing[32];
    int k = machine_serving(machine, address);
    if (k < 0) {
        snprintf(text, room, "no right at %04Xh, and no entry for it now", address);
        return;
    }
    missing_rights(machine_entry(machine, k), missing, sizeof missing);
    if (missing[0] == '\0')
        snprintf(text, room, "no right at %04Xh, and entry %d gives all now", address, k);
    else
        snprintf(text, room, "no %s right at %04Xh, entry %d", missing, address, k);
}

/* There is a cause. */
static void violation_words(const struct machine *machine, struct fault fault, char *text, size_t room)
{
    if (fault.cause == TAC_CAUSE_ODD)
        snprintf(text, room, "odd address %04Xh", fault.violation);
    else if (fault.cause == TAC_CAUSE_RIGHT)
        right_words(machine, fault.violation, text, room);
    else if (fault.violation % 2 != 0)
        snprintf(text, room, "odd address or no right at %04Xh, both causes are set", fault.violation);
    else { /* an even address is no odd one: that was before */
        right_words(machine, fault.violation, text, room);
        size_t used = strlen(text);
        snprintf(text + used, room - used, "; an odd address before");
    }
}

void entry_words(const struct machine *machine, unsigned number, char *text, size_t room)
{
    static const char *const words[] = {"division by zero", "privilege", "undefined instruction", "SVC"};
    struct fault fault = machine_fault(machine);
    int used = snprintf(text, room, "%u: ", number);
    text += used;
    room -= (size_t)used;
    if (number < TAC_TIMERS)
        snprintf(text, room, "interrupt, the line of Timer%u", number);
    else if (number < TAC_NUMBER_MISS)
        snprintf(text, room, "interrupt");
    else if (number == TAC_NUMBER_MISS)
        snprintf(text, room, "no entry for page %02Xh", fault.missed);
    else if (number == TAC_NUMBER_VIOLATION)
        violation_words(machine, fault, text, room);
    else
        snprintf(text, room, "%s", number <= TAC_NUMBER_SVC ? words[number - TAC_NUMBER_DIVISION] : "unknown");
}

void cause_words(const struct machine *machine, struct fault fault, char *text, size_t room)
{
    if (fault.cause == 0) {
        snprintf(text, room, "no cause, violation address %04Xh", fault.violation);
        return;
    }
    int used = snprintf(text, room, "cause %u, ", fault.cause);
    violation_words(machine, fault, text + used, room - (size_t)used);
}
