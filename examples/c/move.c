/* A motor on channels 4 and 5 is set up, sent from 0 to 10, and waited for. */
#include <stdio.h>
#include <stdlib.h>

#include "tpu_sm.h"

enum { PRIMARY = 4, SECOND = 5, TOP_RATE = 3, TARGET = 10, SLICE = 100 };

static uint16_t state[TPU_SM_STATE_WORDS];

/* A write that this program is sure of. */
static void put(uint16_t address, uint16_t value)
{
    uint16_t answer = tpu_sm_write(state, TPU_SM_STATE_WORDS, address, value);
    if (answer != TPU_SM_TAKEN) {
        printf("write of %04X to %03X: refused, %u\n", value, address, answer);
        exit(1);
    }
}

static uint16_t get(uint16_t address)
{
    uint32_t result = tpu_sm_read(state, TPU_SM_STATE_WORDS, address);
    if (TPU_SM_ANSWER(result) != TPU_SM_TAKEN) {
        printf("read of %03X: refused, %u\n", address, TPU_SM_ANSWER(result));
        exit(1);
    }
    return TPU_SM_WORD(result);
}

/* Ticks pass; each change of the pins is printed. Returns the tick after them. */
static unsigned pass(unsigned tick, unsigned ticks)
{
    static uint16_t before = 0;
    uint16_t pins[SLICE];
    if (tpu_sm_advance(state, TPU_SM_STATE_WORDS, ticks, pins, SLICE) != TPU_SM_TAKEN)
        exit(1);
    for (unsigned i = 0; i < ticks; i++) {
        if (pins[i] != before)
            printf("  tick %4u: pins %04X\n", tick + i + 1, pins[i]);
        before = pins[i];
    }
    return tick + ticks;
}

/* A pattern for the pin, and a CHANNEL_CONTROL that forces it to the pattern's first level. */
static void set_up_channel(uint16_t channel, uint16_t pattern)
{
    put(TPU_SM_PIN_CONTROL(channel), pattern);
    put(TPU_SM_CHANNEL_CONTROL(channel), TPU_SM_FORCE(pattern));
}

static void set_up(void)
{
    put(TPU_SM_CFSR(PRIMARY), TPU_SM_FUNCTION(PRIMARY, TPU_SM_STEPPER_MOTOR) | TPU_SM_FUNCTION(SECOND, TPU_SM_STEPPER_MOTOR));
    put(TPU_SM_CPR(PRIMARY), TPU_SM_PRIORITY(PRIMARY, TPU_SM_HIGH) | TPU_SM_PRIORITY(SECOND, TPU_SM_HIGH));
    set_up_channel(PRIMARY, 0xCCCC);
    set_up_channel(SECOND, 0x3333);
    put(TPU_SM_HSRR(PRIMARY), TPU_SM_REQUEST(PRIMARY, TPU_SM_INITIALISE) | TPU_SM_REQUEST(SECOND, TPU_SM_INITIALISE));
}

static void aim(uint16_t target)
{
    put(TPU_SM_CURRENT_POSITION(PRIMARY), 0);
    put(TPU_SM_DESIRED_POSITION(PRIMARY), target);
    put(TPU_SM_COUNT_AND_RATE(PRIMARY), TPU_SM_HALVES(0, 1));
    put(TPU_SM_TOP_AND_LAST(PRIMARY), TPU_SM_HALVES(TOP_RATE, SECOND));
    put(TPU_SM_STEP_CNTL0(PRIMARY), 20);
    put(TPU_SM_STEP_CNTL1(PRIMARY), 440);
    put(TPU_SM_CIER, TPU_SM_BIT(PRIMARY));
    put(TPU_SM_HSRR(PRIMARY), TPU_SM_REQUEST(PRIMARY, TPU_SM_STEP));
}

int main(void)
{
    unsigned tick = 0;

    tpu_sm_reset(state, TPU_SM_STATE_WORDS);
    puts("initialise channels 4 and 5");
    set_up();
    /* A tick for each channel. */
    pass(0, 2);
    printf("CISR %04X\n", get(TPU_SM_CISR));
    put(TPU_SM_CISR, 0);

    puts("step from 0 to 10; ticks from here on");
    aim(TARGET);
    tick = pass(tick, SLICE);
    uint16_t answer = tpu_sm_write(state, TPU_SM_STATE_WORDS, TPU_SM_TOP_AND_LAST(PRIMARY), TPU_SM_HALVES(4, SECOND));
    printf("another top rate on the way: refused, %u\n", answer);

    while (!tpu_sm_interrupt_line(state, TPU_SM_STATE_WORDS))
        tick = pass(tick, SLICE);
    printf("interrupt by tick %u: CISR %04X, position %u\n", tick, get(TPU_SM_CISR), get(TPU_SM_CURRENT_POSITION(PRIMARY)));

    put(TPU_SM_CISR, (uint16_t)~TPU_SM_BIT(PRIMARY));
    printf("cleared: interrupt line %u\n", tpu_sm_interrupt_line(state, TPU_SM_STATE_WORDS));
    return 0;
}
