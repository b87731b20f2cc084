/*
 * How many bytes of stack a call takes. Each call runs on a stack of its own that was painted before it; what an empty
 * function leaves of the paint is taken off. It prints the most that each call took, and fails above 1 KB.
 */
#define _XOPEN_SOURCE 700
#include "tpu_sm.h"

#include <stdio.h>
#include <string.h>
#include <ucontext.h>

enum { STACK = 16384, ALLOWED = 1024, PAINT = 0xA5, TICKS = 4096, STATES = 20000 };

static unsigned char stack[STACK];
static ucontext_t outside, inside;
static uint16_t state[TPU_SM_STATE_WORDS], pins[TICKS];
static uint16_t address, value;
static uint32_t n;

static void nothing(void) {}
static void do_read(void) { (void)tpu_sm_read(state, TPU_SM_STATE_WORDS, address); }
static void do_write(void) { (void)tpu_sm_write(state, TPU_SM_STATE_WORDS, address, value); }
static void do_advance(void) { (void)tpu_sm_advance(state, TPU_SM_STATE_WORDS, n, pins, TICKS); }
static void do_line(void) { (void)tpu_sm_interrupt_line(state, TPU_SM_STATE_WORDS); }
static void do_reset(void) { (void)tpu_sm_reset(state, TPU_SM_STATE_WORDS); }

/* The bytes from the deepest one touched to the top. */
static size_t depth(void (*call)(void)) {
    size_t at = 0;
    memset(stack, PAINT, sizeof stack);
    getcontext(&inside);
    inside.uc_stack.ss_sp = stack;
    inside.uc_stack.ss_size = sizeof stack;
    inside.uc_link = &outside;
    makecontext(&inside, call, 0);
    swapcontext(&outside, &inside);
    while (at < sizeof stack && stack[at] == PAINT) at++;
    return sizeof stack - at;
}

static uint32_t seed = 1;

static uint16_t any(void) {
    seed = seed * 1664525u + 1013904223u;
    return (uint16_t)(seed >> 16);
}

/* Four motors of two channels, at rest. */
static uint16_t motors[TPU_SM_STATE_WORDS];

static int put(uint16_t a, unsigned v) { return tpu_sm_write(motors, TPU_SM_STATE_WORDS, a, (uint16_t)v) == TPU_SM_TAKEN; }

static int set_up(void) {
    unsigned c;
    int good = tpu_sm_reset(motors, TPU_SM_STATE_WORDS) == TPU_SM_TAKEN;
    good &= put(TPU_SM_CFSR(0), 0xDDDD) & put(TPU_SM_CFSR(4), 0xDDDD) & put(TPU_SM_CPR(0), 0x5555);
    for (c = 0; c < 8; c++) good &= put(TPU_SM_CHANNEL_CONTROL(c), TPU_SM_FORCE_LOW);
    good &= put(TPU_SM_HSRR(0), 0xAAAA);
    good &= tpu_sm_advance(motors, TPU_SM_STATE_WORDS, 8, pins, TICKS) == TPU_SM_TAKEN;
    for (c = 0; c < 8; c += 2) {
        good &= put(TPU_SM_DESIRED_POSITION(c), 9) & put(TPU_SM_COUNT_AND_RATE(c), 1);
        good &= put(TPU_SM_TOP_AND_LAST(c), TPU_SM_HALVES(3, c + 1)) & put(TPU_SM_STEP_CNTL1(c), 400);
    }
    return good;
}

/* That board, and the word that asks all four to step. */
static void at_rest(void) {
    memcpy(state, motors, sizeof state);
    address = TPU_SM_HSRR(0);
    value = 0x3333;
}

int main(void) {
    const struct {
        const char *name;
        void (*call)(void);
    } calls[] = {{"reset", do_reset}, {"read", do_read}, {"write", do_write}, {"advance", do_advance}, {"line", do_line}};
    size_t empty, most = 0;
    unsigned i, k, w;

    if (!set_up()) {
        printf("stack: the motors could not be set up\n");
        return 1;
    }
    /* the first calls bind the C library's functions, which takes more stack than any call */
    at_rest();
    n = 1;
    if (tpu_sm_write(state, TPU_SM_STATE_WORDS, address, value) != TPU_SM_TAKEN) {
        printf("stack: the requests were not taken\n");
        return 1;
    }
    for (k = 0; k < 5; k++) (void)depth(calls[k].call);
    empty = depth(nothing);

    for (k = 0; k < 5; k++) {
        size_t taken, deepest = 0;
        for (i = 0; i < STATES; i++) {
            if (i % 2 == 0) {
                at_rest();
                if (k == 3) do_write();
            } else {
                for (w = 0; w < TPU_SM_STATE_WORDS; w++) state[w] = any();
                address = (uint16_t)(0xE00 + any() % 0x200 / 2 * 2);
                value = any();
            }
            n = i % 64 ? i % 64 : TICKS;
            taken = depth(calls[k].call) - empty;
            if (taken > deepest) deepest = taken;
        }
        printf("%s %s %lu", k ? "," : "stack:", calls[k].name, (unsigned long)deepest);
        if (deepest > most) most = deepest;
    }
    printf(" bytes at most, in %d states each\n", STATES);
    if (most > ALLOWED) {
        printf("stack: %lu bytes, and %d are allowed\n", (unsigned long)most, ALLOWED);
        return 1;
    }
    return 0;
}
