/* LD and ST with a four-bit operand take one path through the library's machine code, whichever of the sixteen values the operand has.
 *
 * Each call is stepped through by the processor's trap flag, and the addresses of its instructions are taken down. */
#define _GNU_SOURCE
#include "tac.h"

#include <signal.h>
#include <stdio.h>
#include <string.h>

#if defined(__linux__) && defined(__x86_64__)
#include <ucontext.h>

enum { CODE = 0x1000, DATA = 0x2000, FP = DATA + 0x80, VALUES = 16, LONGEST = 1 << 16 };

struct path {
    unsigned long length;
    long long at[LONGEST];
};

static struct path first, other, *path;
static uint8_t memory[TAC_MEMORY_BYTES], image[TAC_IMAGE_BYTES], report[TAC_REPORT_BYTES];

static void on_trap(int number, siginfo_t *info, void *context)
{
    (void)number;
    (void)info;
    if (path->length < LONGEST)
        path->at[path->length++] = ((ucontext_t *)context)->uc_mcontext.gregs[REG_RIP];
}

/* The trap flag, bit 8, set and cleared. The flags are pushed below the red zone of the function that these are compiled into. */
static inline void trap_on(void)
{
    __asm__ volatile("subq $128, %%rsp\n\tpushfq\n\torq $256, (%%rsp)\n\tpopfq\n\taddq $128, %%rsp" ::: "memory", "cc");
}

static inline void trap_off(void)
{
    __asm__ volatile("subq $128, %%rsp\n\tpushfq\n\tandq $-257, (%%rsp)\n\tpopfq\n\taddq $128, %%rsp" ::: "memory", "cc");
}

static void put_word(uint8_t *at, unsigned value)
{
    at[0] = (uint8_t)(value >> 8);
    at[1] = (uint8_t)value;
}

/* Where an instruction is carried out: by a run's first step, which is the machine's own, or behind it in the fast loop; in kernel mode or,
 * behind the MMU, in user mode. */
struct place {
    const char *name;
    unsigned before; /* instructions NO before it */
    int user;
};

/* Makes a machine with this word at PC, or behind the instructions NO there. In user mode CODE may be executed, and DATA read and written;
 * both are marked already, or the fast loop would leave them to the step. */
static void set(unsigned word, const struct place *place)
{
    enum {
        CODE_BITS = TAC_TLB_VALID | TAC_TLB_REFERENCED | TAC_TLB_EXECUTE,
        DATA_BITS = TAC_TLB_VALID | TAC_TLB_REFERENCED | TAC_TLB_DIRTY | TAC_TLB_READ | TAC_TLB_WRITE
    };
    static const uint8_t entries[] = {CODE >> 8, CODE_BITS >> 8, CODE >> 8, DATA >> 8, DATA_BITS >> 8, DATA >> 8};
    memset(memory, 0, sizeof memory);
    memset(image, 0, sizeof image);
    put_word(memory + CODE + 2 * place->before, word);
    put_word(image + TAC_IMAGE_PC, CODE);
    put_word(image + TAC_IMAGE_FP, FP);
    put_word(image + TAC_IMAGE_FLAG, place->user ? 0 : TAC_FLAG_P);
    image[TAC_IMAGE_MMU] = (uint8_t)place->user;
    memcpy(image + TAC_IMAGE_TLB, entries, sizeof entries);
}

static uint64_t run(const struct place *place)
{
    return tac_run(memory, sizeof memory, image, sizeof image, (uint16_t)(place->before + 1), report, sizeof report);
}

/* The path of a run that ends with this word. It is run once before: a first call can go through the loader. */
static int trace_run(struct path *into, unsigned word, const struct place *place)
{
    set(word, place);
    run(place);
    set(word, place);
    into->length = 0;
    path = into;
    trap_on();
    uint64_t answer = run(place);
    trap_off();
    return TAC_REFUSAL(answer) == TAC_GOOD && report[TAC_REPORT_ENDING] == TAC_ENDING_SPENT && into->length > 0 && into->length < LONGEST;
}

/* A path has instructions of trace_run in it. By this pointer every call is of one copy of them. */
static int (*volatile trace)(struct path *into, unsigned word, const struct place *place) = trace_run;

static int same(const struct path *a, const struct path *b)
{
    return a->length == b->length && memcmp(a->at, b->at, a->length * sizeof *a->at) == 0;
}

static int fail(const char *what, unsigned word, const struct place *place)
{
    printf("path: %s: word %04X, %s\n", what, word, place->name);
    return 1;
}

/* The sixteen words of an instruction. */
static int try_all(unsigned word, const struct place *place)
{
    if (!trace(&first, word, place))
        return fail("no whole path of a good run", word, place);
    for (unsigned field = 1; field < VALUES; field++) {
        if (!trace(&other, word + field, place))
            return fail("no whole path of a good run", word + field, place);
        if (!same(&first, &other))
            return fail("another path than that of field 0", word + field, place);
    }
    return 0;
}

/* That a fork would be seen: the last field of LD in mode 4 is a register, and USP is not read as G0 is. */
static int try_fork(const struct place *place)
{
    if (!trace(&first, 0x0C00, place))
        return fail("no whole path of a good run", 0x0C00, place);
    if (!trace(&other, 0x0C0E, place))
        return fail("no whole path of a good run", 0x0C0E, place);
    return same(&first, &other) ? fail("no fork", 0x0C0E, place) : 0;
}

int main(void)
{
    static const unsigned words[] = {0x0D00, 0x0B00, 0x1300}; /* LD in mode 5, LD and ST in mode 3 */
    static const struct place places[] = {
        {"kernel, the step", 0, 0}, {"kernel, the fast loop", 1, 0}, {"user, the step", 0, 1}, {"user, the fast loop", 1, 1}};
    const struct sigaction action = {.sa_sigaction = on_trap, .sa_flags = SA_SIGINFO};
    sigaction(SIGTRAP, &action, NULL);
    trace(&first, words[0], &places[0]);
    if (first.length == 0) {
        puts("path: not tried, this machine does not stop at each instruction");
        return 0;
    }
    for (size_t p = 0; p < sizeof places / sizeof *places; p++) {
        if (try_fork(&places[p]) != 0)
            return 1;
        for (size_t w = 0; w < sizeof words / sizeof *words; w++)
            if (try_all(words[w], &places[p]) != 0)
                return 1;
    }
    puts("path: LD and ST take one for all sixteen values of a four-bit operand");
    return 0;
}
#else
int main(void)
{
    puts("path: not tried, this is no x86-64 under Linux");
    return 0;
}
#endif
