/*
 * The executive on a Cortex-M3.
 *
 *   the clock   SysTick, every granule, is the tick
 *   a call      SVC: the task hands over the record of the call
 *   the switch  both handlers put r4 to r11 on the stack of the task that they interrupted, take a step, and
 *               return on the stack of the task that the answer names
 *
 * SVC and SysTick have one priority, the lowest. So neither interrupts the other, and one step at a time is taken:
 * that is all that the library asks for. Interrupts of higher priority may come at any time, and must not call.
 */
#include "kernel.h"
#include "console.h"

#define REGISTER(address) (*(volatile uint32_t *)(address))
#define SYSTICK_CONTROL REGISTER(0xE000E010u)
#define SYSTICK_RELOAD REGISTER(0xE000E014u)
#define SYSTICK_COUNT REGISTER(0xE000E018u)
#define SVC_PRIORITY REGISTER(0xE000ED1Cu)     /* in its highest byte */
#define SYSTICK_PRIORITY REGISTER(0xE000ED20u) /* in its highest byte */
#define LOWEST 0xFF000000u

enum { CLOCKS_A_MS = 25000, START_WITH_INTERRUPT = 7, STATUS_SAFE = 3 };

/* The frame that the processor puts on a stack when it takes an interrupt, and ours below it. */
enum { R4_TO_R11 = 0, R0 = 8, R1 = 9, R2 = 10, LR = 13, PC = 14, STATUS = 15, FRAME_WORDS = 16 };
#define THUMB 0x01000000u
#define GUARD 0x5AFE57ACu

/* Context 0 is the idle loop's: the executive names task 0 as active when it is idle. */
enum { IDLE = 0, CONTEXTS = KERNEL_TASKS + 1 };

struct context {
    uint32_t *sp;     /* its stack's top, while it is not running */
    uint32_t is_new;  /* its run has not begun yet */
    uint32_t start;   /* its run's scheduled start */
    uint32_t skipped; /* the starts that were passed over before it */
};

static const struct program *program;
static uint8_t image[QUERMANIC_IMAGE_LENGTH];
static uint32_t stacks[CONTEXTS][STACK_WORDS] __attribute__((aligned(8)));
static struct context contexts[CONTEXTS];
static uint32_t running;
static volatile uint32_t clock; /* the low half of the table's: one word, which a task can read at any time */

_Noreturn void kernel_stop(const char *why) {
    program->safe(why);
    stop(STATUS_SAFE);
}

uint32_t kernel_clock(void) { return clock; }

uint32_t kernel_start_of(uint8_t task) { return contexts[task].start; }

uint32_t kernel_skipped_of(uint8_t task) { return contexts[task].skipped; }

/* A call without a record: the check is made by the handler, since a task's stack has no room for it. */
uint32_t kernel_check(void) { return kernel_call(0, 0, 0); }

static void returned(void) { kernel_stop("a task returned from its run"); }

/* Makes a context anew: its next run begins at the task's entry. */
static void renew(uint32_t k) {
    uint32_t *frame = &stacks[k][STACK_WORDS - FRAME_WORDS];
    uint32_t i;

    for (i = 0; i < FRAME_WORDS; i++) {
        frame[i] = 0;
    }
    frame[LR] = (uint32_t)returned;
    frame[PC] = k == IDLE ? 0 : (uint32_t)program->entry[k - 1] & ~1u;
    frame[STATUS] = THUMB;
    stacks[k][0] = GUARD;
    contexts[k].sp = frame;
    contexts[k].is_new = 1;
}

#ifdef KERNEL_RECORDS
/* Says bytes in hex behind an @: what is said so, from the configuration on, is an input of the bench. */
static void note(const uint8_t *bytes, quermanic_length length) {
    static const char digits[] = "0123456789ABCDEF";
    char text[3 * QUERMANIC_LONGEST_CONFIGURATION + 3], *to = put_text(text, "@");
    uint32_t i;

    for (i = 0; i < length && i < QUERMANIC_LONGEST_CONFIGURATION; i++) {
        *to++ = ' ';
        *to++ = digits[bytes[i] >> 4];
        *to++ = digits[bytes[i] & 15];
    }
    put_text(to, "\n");
    say(text);
}
#else
static inline void note(const uint8_t *bytes, quermanic_length length) {
    (void)bytes;
    (void)length;
}
#endif

/* Takes a step. A table that is not well formed, and a tick that is refused for whatever reason, stop the program. */
static uint32_t step(const uint8_t *record, quermanic_length length, uint8_t *answer) {
    uint32_t number;

    note(record, length);
    number = quermanic_step(image, sizeof image, record, length, answer, QUERMANIC_ANSWER_LENGTH);
    if (number == QUERMANIC_NOT_WELL_FORMED) {
        kernel_stop("the table is damaged");
    }
    if (number != QUERMANIC_ACCEPTED && record[0] == QUERMANIC_KIND_TICK) {
        kernel_stop("a tick was refused");
    }
    clock = (uint32_t)quermanic_clock_of(image);
    return number;
}

/* The stack to return on: that of the task that the answer names. A run that begins gets its argument. */
static uint32_t *switch_to(const uint8_t *answer) {
    struct context *next;

    if (stacks[running][0] != GUARD) {
        kernel_stop("a task's stack was too small");
    }
    running = answer[QUERMANIC_ANSWER_ACTIVE];
    if (running >= CONTEXTS) {
        kernel_stop("the active task has no stack");
    }
    next = &contexts[running];
    if (next->is_new) {
        next->is_new = 0;
        next->start = (uint32_t)quermanic_start_of(image, (uint8_t)running);
        next->sp[R0] = quermanic_argument_of(answer);
    }
    return next->sp;
}

/* A call: r0 is the record, r1 its length, r2 where the answer goes; r0 is to be the number. 00, 01 end the run. Without
 * a record it asks for the check, and the caller goes on. */
__attribute__((used)) static uint32_t *take_call(uint32_t *sp) {
    const uint8_t *record = (const uint8_t *)sp[R0];
    const uint8_t kind = record == 0 ? 0 : record[0];
    uint8_t answer[QUERMANIC_ANSWER_LENGTH]; /* not the task's own: its stack may be made anew before the switch */
    uint32_t number, i;

    if (record == 0) {
        sp[R0] = quermanic_check(image, sizeof image);
        return sp;
    }
    contexts[running].sp = sp;
    number = step(record, sp[R1], answer);
    if (number == QUERMANIC_ACCEPTED && (kind == QUERMANIC_KIND_TERMINATE || kind == QUERMANIC_KIND_RESTART)) {
        renew(running);
        contexts[running].skipped = (uint32_t)quermanic_skipped_of(answer);
    } else {
        for (i = 0; i < sizeof answer; i++) {
            ((uint8_t *)sp[R2])[i] = answer[i];
        }
        sp[R0] = number;
    }
    return switch_to(answer);
}

__attribute__((used)) static uint32_t *take_tick(uint32_t *sp) {
    uint8_t record[QUERMANIC_LONGEST_RECORD];
    uint8_t answer[QUERMANIC_ANSWER_LENGTH];

    contexts[running].sp = sp;
    program->on_tick(image);
    (void)step(record, quermanic_put_tick(record), answer);
    return switch_to(answer);
}

/* A handler: what the processor has not put on the task's stack goes there, and comes from that of the next task. */
#define HANDLER(name, function)                  \
    __attribute__((naked)) void name(void) {     \
        __asm__ volatile("mrs r0, psp\n"         \
                         "stmdb r0!, {r4-r11}\n" \
                         "push {r3, lr}\n"       \
                         "bl " #function "\n"    \
                         "pop {r3, lr}\n"        \
                         "ldmia r0!, {r4-r11}\n" \
                         "msr psp, r0\n"         \
                         "bx lr\n");             \
    }
HANDLER(on_svc, take_call)
HANDLER(on_systick, take_tick)

uint32_t kernel_call(const uint8_t *record, quermanic_length length, uint8_t *answer) {
    register uint32_t r0 __asm__("r0") = (uint32_t)record;
    register uint32_t r1 __asm__("r1") = (uint32_t)length;
    register uint32_t r2 __asm__("r2") = (uint32_t)answer;

    __asm__ volatile("svc 0" : "+r"(r0) : "r"(r1), "r"(r2) : "memory");
    return r0;
}

_Noreturn void kernel_run(const struct program *given) {
    uint32_t k;

    program = given;
    for (k = 0; k < CONTEXTS; k++) {
        renew(k);
    }
    if (quermanic_fresh(program->config, program->config_length, image, sizeof image) != QUERMANIC_ACCEPTED) {
        kernel_stop("the configuration is none");
    }
    note(program->config, program->config_length);
    __asm__ volatile("cpsid i" ::: "memory"); /* no tick before the idle loop stands on its own stack */
    SVC_PRIORITY = LOWEST;
    SYSTICK_PRIORITY = LOWEST;
    SYSTICK_RELOAD = CLOCKS_A_MS * program->granule - 1;
    SYSTICK_COUNT = 0;
    SYSTICK_CONTROL = START_WITH_INTERRUPT;
    /* From here on this is the idle loop, on a stack of its own. The first tick brings the first task. */
    running = IDLE;
    contexts[IDLE].is_new = 0;
    __asm__ volatile("msr psp, %0\n"
                     "movs r0, #2\n"
                     "msr control, r0\n"
                     "isb\n"
                     "cpsie i\n"
                     "1: wfi\n"
                     "b 1b\n" ::"r"(&stacks[IDLE][STACK_WORDS])
                     : "r0", "memory");
    __builtin_unreachable();
}
