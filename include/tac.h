/* The TaC emulator: runs and bench cards, views of a machine, looks at its fault record, simulations of a winder and the load of its motor,
 * in buffers that the caller lends.
 *
 * A machine is TAC_MEMORY_BYTES of memory and a state image of TAC_IMAGE_BYTES. Numbers in buffers stand upper byte first.
 *
 * What a caller owes: the buffers of one call do not overlap, each has the length that is passed with it, and nothing else writes to them
 * during the call. Lengths, contents and numbers may be anything: a call tests them first, in the order of the refusals.
 *
 * Null pointers: a pointer may be null where its length is 0. Nothing is read or written through it, and the call answers as for any other
 * buffer of no bytes: memory gives refusal 1, the image 2, the report 8 unless it is that of a card without runs, the places 9; a card is
 * the empty one and records are the empty run, which are good. A null pointer with another length is the caller's error. This is tested on
 * the built library and not proved.
 *
 * A call keeps nothing for later calls, uses its buffers and some kilobytes of stack, and calls nothing but memcpy and memset, which the
 * program has to have. Calls on separate buffers may run at the same time. Every call ends: a run after at most TAC_ALLOWANCE steps, a card
 * after at most TAC_CARD_STEPS, which take some seconds, a simulation after at most TAC_WIND_STEPS in each of at most TAC_WIND_TICKS ticks,
 * which take from some seconds to some minutes, and a search for the busiest window in a time that goes by the number of the records.
 */
#ifndef TAC_H
#define TAC_H

#include <stddef.h>
#include <stdint.h>

#ifdef __cplusplus
extern "C" {
#endif

/* The version of this interface. MAJOR goes up where a caller has to change, as for another size of the image; MINOR with a new call. */
#define TAC_VERSION_MAJOR 2
#define TAC_VERSION_MINOR 1

#define TAC_MEMORY_BYTES 65536
#define TAC_IMAGE_BYTES 84
#define TAC_REPORT_BYTES 12
#define TAC_CARD_BYTES 4096                                         /* at most */
#define TAC_CARD_RUNS (TAC_CARD_BYTES / 3)                          /* at most, of 3 bytes each: 1,365 */
#define TAC_CARD_REPORT_BYTES (TAC_CARD_RUNS * TAC_REPORT_BYTES)    /* enough for every card: 16,380 */
#define TAC_ALLOWANCE 65535                                         /* at most */
#define TAC_CARD_STEPS ((uint32_t)TAC_CARD_RUNS * TAC_ALLOWANCE)    /* at most: 89,455,275 */

/* A simulation of a winder: its settings are from 1 to these. */
#define TAC_WIND_TURNS 999     /* the label's maximum turns */
#define TAC_WIND_NOTCHES 64    /* notches per turn */
#define TAC_WIND_RUNDOWN 64    /* ticks from one notch that the train takes to the next */
#define TAC_WIND_TICKS 65535
#define TAC_WIND_STEPS 65535   /* steps in a tick */

#define TAC_WIND_PLACE_BYTES 2 /* a place of a simulation: the notches standing after a tick, a word */

/* The load of a motor, over windows of consecutive tick records. */
#define TAC_WINDOW_RECORDS 4096 /* at most; at least 1 */
#define TAC_RECORD_ON 1         /* a record is a byte: this one if the motor was on, any other if it was off */

/* The bits of the output and of the input byte that a winder uses. */
enum {
    TAC_OUTPUT_MOTOR = 0x01,  /* the motor winds a notch */
    TAC_INPUT_LABEL = 0x01    /* the whole turns standing have reached the label */
};

/* Offsets in a state image. */
enum {
    TAC_IMAGE_G0 = 0,          /* 13 words: G0 to G11 and FP */
    TAC_IMAGE_FP = 24,
    TAC_IMAGE_SSP = 26,        /* word */
    TAC_IMAGE_USP = 28,        /* word */
    TAC_IMAGE_PC = 30,         /* word */
    TAC_IMAGE_FLAG = 32,       /* word of TAC_FLAG bits */
    TAC_IMAGE_PENDING = 34,    /* word: bit n is interrupt n, 0 to 9 */
    TAC_IMAGE_INPUT = 36,      /* byte */
    TAC_IMAGE_OUTPUT = 37,     /* byte */
    TAC_IMAGE_MMU = 38,        /* byte: 0 off, 1 on */
    TAC_IMAGE_CONDITION = 39,  /* byte: a TAC_CONDITION */
    TAC_IMAGE_VIOLATION = 40,  /* word: violation address */
    TAC_IMAGE_CAUSE = 42,      /* byte of TAC_CAUSE bits */
    TAC_IMAGE_MISSED = 43,     /* byte: missed page */
    TAC_IMAGE_TLB = 44,        /* TAC_TLB_ENTRIES of TAC_TLB_ENTRY_BYTES each */
    TAC_IMAGE_TIMER0 = 68,     /* TAC_TIMERS of TAC_TIMER_BYTES each */
    TAC_IMAGE_TIMER1 = 76
};

/* FLAG: 0000 0000 EPI0 VCSZ. */
enum {
    TAC_FLAG_E = 0x80,  /* interrupts on */
    TAC_FLAG_P = 0x40,  /* privileged: kernel mode */
    TAC_FLAG_I = 0x20,  /* I/O privilege */
    TAC_FLAG_V = 0x08,  /* overflow */
    TAC_FLAG_C = 0x04,  /* carry */
    TAC_FLAG_S = 0x02,  /* sign */
    TAC_FLAG_Z = 0x01   /* zero */
};

enum { TAC_CONDITION_RUNNING = 0, TAC_CONDITION_HALTED = 1, TAC_CONDITION_LOST = 2 };

/* Causes of a violation, added up until IN of A4h clears them. */
enum {
    TAC_CAUSE_RIGHT = 1,  /* a right is not given */
    TAC_CAUSE_ODD = 2     /* a word at an odd address */
};

/* A TLB entry is a number of 24 bits: the page, these bits, the frame. Bits 14 and 13 are 0. */
#define TAC_TLB_ENTRIES 8
#define TAC_TLB_ENTRY_BYTES 3
enum {
    TAC_TLB_PAGE_SHIFT = 16,
    TAC_TLB_VALID = 0x8000,
    TAC_TLB_REFERENCED = 0x1000,
    TAC_TLB_DIRTY = 0x0800,
    TAC_TLB_READ = 0x0400,
    TAC_TLB_WRITE = 0x0200,
    TAC_TLB_EXECUTE = 0x0100,
    TAC_TLB_FRAME = 0x00FF
};

/* A timer is four words, at these offsets from TAC_IMAGE_TIMER0 or TAC_IMAGE_TIMER1. It counts the milliseconds that a card lets pass
 * (TAC_COMMAND_TIME), and no others. */
#define TAC_TIMERS 2
#define TAC_TIMER_BYTES 8
#define TAC_TIMER_COUNT 0    /* word: below the period; 0 if that is 0 */
#define TAC_TIMER_PERIOD 2   /* word: the count that fires, and returns to 0; a period of 0 never fires */
#define TAC_TIMER_CONTROL 4  /* word of TAC_CONTROL bits, the others 0 */
#define TAC_TIMER_FIRED 6    /* word: 0, or 1 from firing until IN of 02h (Timer0) or 06h (Timer1) clears it */

enum {
    TAC_CONTROL_INTERRUPT = 0x8000,  /* firing raises line 0 (Timer0) or 1 (Timer1) */
    TAC_CONTROL_START = 0x0001       /* the timer counts */
};

/* Offsets in the report of a run. */
enum {
    TAC_REPORT_ENDING = 0,  /* byte: a TAC_ENDING */
    TAC_REPORT_NUMBER = 1,  /* byte: the number entered, or TAC_NUMBER_NONE */
    TAC_REPORT_STEPS = 2,   /* word */
    TAC_REPORT_STATES = 4,  /* four bytes */
    TAC_REPORT_PC = 8,      /* word: the saved one if entered */
    TAC_REPORT_FLAG = 10    /* word: the saved one if entered */
};

/* How a run ends. */
enum {
    TAC_ENDING_SPENT = 0,    /* its allowance is used up */
    TAC_ENDING_ENTERED = 1,  /* its last step entered the kernel */
    TAC_ENDING_HALTED = 2,
    TAC_ENDING_LOST = 3      /* the kernel could not be entered: SSP was odd */
};

/* Numbers entered: 0 to 9 are the interrupts, 0 and 1 those of Timer0 and Timer1. */
enum {
    TAC_NUMBER_MISS = 10,       /* no TLB entry has the page */
    TAC_NUMBER_VIOLATION = 11,  /* an odd address, or a right that is not given */
    TAC_NUMBER_DIVISION = 12,   /* a zero divisor */
    TAC_NUMBER_PRIVILEGE = 13,
    TAC_NUMBER_UNDEFINED = 14,  /* an undefined instruction */
    TAC_NUMBER_SVC = 15,
    TAC_NUMBER_NONE = 0xFF
};

/* Commands of a bench card, with their operands. */
enum {
    TAC_COMMAND_BYTE = 1,      /* address (2), byte */
    TAC_COMMAND_REGISTER = 2,  /* 0 to 11 G0 to G11, 12 FP, 13 SSP, 14 USP, 15 PC; value (2) */
    TAC_COMMAND_LINES = 3,     /* lines added to pending (2), input byte */
    TAC_COMMAND_RUN = 4,       /* allowance (2) */
    TAC_COMMAND_ENTRY = 5,     /* TLB entry 0 to 7, its bits (3) */
    TAC_COMMAND_MMU = 6,       /* 0 or 1 */
    TAC_COMMAND_FLAG = 7,      /* FLAG (2) */
    TAC_COMMAND_TIME = 8       /* milliseconds (2) that pass for each timer that is started, whatever the machine's condition */
};

/* Refusals. A call that is refused leaves every buffer as it was. */
enum {
    TAC_GOOD = 0,
    TAC_MEMORY_LENGTH = 1,  /* memory is not TAC_MEMORY_BYTES */
    TAC_IMAGE_LENGTH = 2,   /* the image is not TAC_IMAGE_BYTES */
    TAC_IMAGE_FIELD = 3,    /* FLAG, pending, MMU, condition, cause, a TLB entry's zeros or a timer, started or not, are beyond their values */
    TAC_CARD_LENGTH = 4,    /* the card is over TAC_CARD_BYTES */
    TAC_CARD_UNKNOWN = 5,   /* the first bad command: an unknown byte */
    TAC_CARD_SHORT = 6,     /* its operands are cut short */
    TAC_CARD_BEYOND = 7,    /* its operand is beyond its values */
    TAC_REPORT_LENGTH = 8,  /* the report is too short */
    TAC_WIND_SETTING = 9,   /* a setting of the winder is beyond its values, or there are fewer places than ticks */
    TAC_WINDOW_WIDTH = 10   /* the width of a window is 0 or above TAC_WINDOW_RECORDS */
};

/* The parts of an answer: a refusal × 2^32 + P; where nothing is refused, the number of report bytes filled; from tac_fault the fault
 * record: cause × 2^24 + missed page × 2^16 + violation address; from tac_wind the first tick over the label, or 0; from
 * tac_busiest the records on. Test TAC_REFUSAL first: a refused look has 0 in all parts of the record, a refused simulation 0 as if no tick
 * were over, a refused search 0 as if the motor had rested. */
#define TAC_REFUSAL(answer) ((unsigned)((answer) >> 32))
#define TAC_PLACE(answer) ((uint32_t)(answer))
#define TAC_FILLED(answer) ((uint32_t)(answer))
#define TAC_FAULT_CAUSE(answer) ((unsigned)((answer) >> 24 & 0xFF)) /* of TAC_CAUSE bits */
#define TAC_FAULT_MISSED(answer) ((unsigned)((answer) >> 16 & 0xFF))
#define TAC_FAULT_VIOLATION(answer) ((unsigned)((answer) & 0xFFFF))
#define TAC_FIRST_OVER(answer) ((uint32_t)(answer))
#define TAC_RECORDS_ON(answer) ((uint32_t)(answer))

/* A run of at most `allowance` steps. Memory and image are those after it; its 12 bytes stand at the front of the report, and the bytes
 * behind them are kept. Refusals 1, 2, 3 and 8. */
uint64_t tac_run(uint8_t *memory, size_t memory_len, uint8_t *image, size_t image_len, uint16_t allowance, uint8_t *report,
                 size_t report_len);

/* A bench card: its commands one after the other. The card is tested whole before the first of them acts. Each run writes 12 bytes, one
 * behind the other; the bytes behind them are kept. Refusals 1 to 8; P is the position of the first bad command for 5, 6 and 7, else 0. */
uint64_t tac_card(uint8_t *memory, size_t memory_len, uint8_t *image, size_t image_len, const uint8_t *card, size_t card_len, uint8_t *report,
                  size_t report_len);

/* A view of a machine: the report that a run of no step would write. Memory and image are only read. Refusals 1, 2, 3 and 8. */
uint64_t tac_view(const uint8_t *memory, size_t memory_len, const uint8_t *image, size_t image_len, uint8_t *report, size_t report_len);

/* A look at the fault record: cause, missed page and violation address, whether the machine is running, halted or lost. The image is only
 * read, and IN of A4h still finds the cause. Refusals 2 and 3. */
uint64_t tac_fault(const uint8_t *image, size_t image_len);

/* A simulation of a winder with this machine, from a barrel on which no notch stands. In each tick the machine does `steps` steps, going on
 * through kernel entries, or fewer where it halts or is lost; found so it does none, and the ticks go on. No time passes for the timers, so
 * none fires. Then TAC_OUTPUT_MOTOR of the output byte, if set, winds one notch; then, on each `rundown`-th tick, counted from 1, the train
 * takes one, if any is left. TAC_INPUT_LABEL of the input byte is clear in the first tick, and in each other one set exactly if standing /
 * notches has reached `turns`; the image is left with it by the same rule, and the other bits are kept. The places get the notches standing
 * after each tick, a word each; the bytes behind them are kept. It gives the first tick, counted from 1, with more standing than turns ×
 * notches, or 0 for none. Refusals 1, 2, 3 and 9. */
uint64_t tac_wind(uint8_t *memory, size_t memory_len, uint8_t *image, size_t image_len, uint32_t turns, uint32_t notches, uint32_t rundown,
                  uint32_t ticks, uint32_t steps, uint8_t *places, size_t places_len);

/* The busiest window of a run of tick records: of all windows of `width` consecutive records the most that are TAC_RECORD_ON. A run shorter
 * than the width is a single window, and an empty one gives 0. The records are only read, and may be of any length. Refusal 10. */
uint64_t tac_busiest(const uint8_t *records, size_t records_len, uint32_t width);

#ifdef __cplusplus
}
#endif

#endif
