/* The calls for C at their edges: lengths, refusals, and which lent words change. Says nothing unless a check fails. */
#include <stdio.h>
#include <string.h>

#include "tpu_sm.h"

enum { WORDS = TPU_SM_STATE_WORDS, GUARD = 4, LIST = 8, FILL = 0xA5A5 };

/* Where the flags and times of the channels, the slot, the starts of the levels, the numbers of lateness and the
   times for which matches that have happened were set stand among the words: see crates/pack. */
enum { FLAGS = 143, TIMES = 159, SLOT = 175, HIGH = 176, MIDDLE = 177, LOW = 178, LATE = 179, SET_TIMES = 195 };

static int failures = 0;

#define CHECK(condition) check((condition), #condition, __LINE__)

static void check(int holds, const char *condition, int line)
{
    if (holds)
        return;
    printf("tests/c/boundary.c:%d: not so: %s\n", line, condition);
    failures++;
}

/* Lists to lend, with words around them that no call may touch. */
static uint16_t room[GUARD + WORDS + 1 + GUARD], *const state = room + GUARD;
static uint16_t pin_room[GUARD + LIST + GUARD], *const pins = pin_room + GUARD;
static uint16_t room_before[GUARD + WORDS + 1 + GUARD], pin_room_before[GUARD + LIST + GUARD];

static void fill(uint16_t *words, size_t count)
{
    for (size_t i = 0; i < count; i++)
        words[i] = FILL;
}

/* All lists as they would be at the start: the state after reset, the rest filled. */
static void begin(void)
{
    fill(room, GUARD + WORDS + 1 + GUARD);
    fill(pin_room, GUARD + LIST + GUARD);
    CHECK(tpu_sm_reset(state, WORDS) == TPU_SM_TAKEN);
}

static void keep(void)
{
    memcpy(room_before, room, sizeof room);
    memcpy(pin_room_before, pin_room, sizeof pin_room);
}

/* No word has changed since `keep`. */
static int same(void)
{
    return !memcmp(room_before, room, sizeof room) && !memcmp(pin_room_before, pin_room, sizeof pin_room);
}

static int is_filled(const uint16_t *words, size_t count)
{
    for (size_t i = 0; i < count; i++)
        if (words[i] != FILL)
            return 0;
    return 1;
}

static int guards_stand(void)
{
    return is_filled(room, GUARD) && is_filled(state + WORDS, 1 + GUARD) && is_filled(pin_room, GUARD)
        && is_filled(pins + LIST, GUARD);
}

static uint16_t put(uint16_t address, uint16_t value)
{
    return tpu_sm_write(state, WORDS, address, value);
}

static uint16_t get(uint16_t address)
{
    return TPU_SM_WORD(tpu_sm_read(state, WORDS, address));
}

static void reset_is_all_zeros(void)
{
    CHECK(tpu_sm_state_words() == WORDS);
    begin();
    for (size_t i = 0; i < WORDS; i++)
        CHECK(state[i] == 0);
    CHECK(guards_stand());
}

/* Every call is lent too few words, one too few, or one too many. */
static void wrong_lengths(void)
{
    static const size_t lengths[] = {0, 1, WORDS - 1, WORDS + 1};
    begin();
    fill(state, WORDS);
    keep();
    for (size_t i = 0; i < sizeof lengths / sizeof lengths[0]; i++) {
        size_t n = lengths[i];
        CHECK(tpu_sm_reset(state, n) == TPU_SM_WRONG_LENGTH);
        CHECK(tpu_sm_read(state, n, TPU_SM_CIER) == (uint32_t)TPU_SM_WRONG_LENGTH << 16);
        CHECK(tpu_sm_write(state, n, TPU_SM_CIER, 1) == TPU_SM_WRONG_LENGTH);
        CHECK(tpu_sm_advance(state, n, 1, pins, LIST) == TPU_SM_WRONG_LENGTH);
        CHECK(tpu_sm_interrupt_line(state, n) == TPU_SM_WRONG_LENGTH);
        CHECK(same());
    }
}

static void read_packing(void)
{
    begin();
    CHECK(put(TPU_SM_CIER, 0xFFFF) == TPU_SM_TAKEN);
    CHECK(tpu_sm_read(state, WORDS, TPU_SM_CIER) == 0x0000FFFF);
    CHECK(tpu_sm_read(state, WORDS, TPU_SM_CISR) == 0);
    CHECK(tpu_sm_read(state, WORDS, TPU_SM_CIER + 1) == 0x00010000);
    CHECK(tpu_sm_read(state, WORDS, 0x0000) == 0x00010000);
    CHECK(TPU_SM_ANSWER(0x0064ABCDu) == TPU_SM_WRONG_LENGTH && TPU_SM_WORD(0x0064ABCDu) == 0xABCD);
    CHECK(guards_stand());
}

/* The addresses that the macros name, and a word that channel 13 lacks. */
static void addresses(void)
{
    begin();
    CHECK(TPU_SM_CFSR(0) == TPU_SM_CFSR3 && TPU_SM_CFSR(15) == TPU_SM_CFSR0);
    CHECK(TPU_SM_HSRR(7) == TPU_SM_HSRR1 && TPU_SM_HSRR(8) == TPU_SM_HSRR0);
    CHECK(TPU_SM_CPR(0) == TPU_SM_CPR1 && TPU_SM_CPR(15) == TPU_SM_CPR0);
    CHECK(TPU_SM_LATE(0) == 0xE40 && TPU_SM_LATE(15) == 0xE5E);
    CHECK(TPU_SM_PARAMETER(4, 5) == 0xF4A && TPU_SM_PARAMETER(15, 7) == 0xFFE);
    CHECK(put(TPU_SM_PARAMETER(15, 7), 0x1234) == TPU_SM_TAKEN && get(TPU_SM_PARAMETER(15, 7)) == 0x1234);
    CHECK(put(TPU_SM_PARAMETER(13, 7), 0x1234) == TPU_SM_TAKEN && get(TPU_SM_PARAMETER(13, 7)) == 0);
}

/* A motor on channels 4 and 5, initialised with these CHANNEL_CONTROL and at rest, that may be sent to 2 with two steps of
   130 counts. */
static void motor_by(uint16_t first, uint16_t second)
{
    begin();
    CHECK(put(TPU_SM_CFSR(4), TPU_SM_FUNCTION(4, 13) | TPU_SM_FUNCTION(5, 13)) == TPU_SM_TAKEN);
    CHECK(put(TPU_SM_CPR(4), TPU_SM_PRIORITY(4, 1) | TPU_SM_PRIORITY(5, 3)) == TPU_SM_TAKEN);
    CHECK(put(TPU_SM_PIN_CONTROL(4), 0xCCCC) == TPU_SM_TAKEN);
    CHECK(put(TPU_SM_CHANNEL_CONTROL(4), first) == TPU_SM_TAKEN);
    CHECK(put(TPU_SM_CHANNEL_CONTROL(5), second) == TPU_SM_TAKEN);
    CHECK(put(TPU_SM_HSRR(4), TPU_SM_REQUEST(4, TPU_SM_INITIALISE) | TPU_SM_REQUEST(5, TPU_SM_INITIALISE)) == TPU_SM_TAKEN);
    CHECK(tpu_sm_advance(state, WORDS, 2, pins, LIST) == TPU_SM_TAKEN && pins[1] == TPU_SM_BIT(4));
    CHECK(put(TPU_SM_DESIRED_POSITION(4), 2) == TPU_SM_TAKEN);
    CHECK(put(TPU_SM_COUNT_AND_RATE(4), TPU_SM_HALVES(0, 1)) == TPU_SM_TAKEN);
    CHECK(put(TPU_SM_TOP_AND_LAST(4), TPU_SM_HALVES(3, 5)) == TPU_SM_TAKEN);
    CHECK(put(TPU_SM_STEP_CNTL0(4), 1) == TPU_SM_TAKEN);
    CHECK(put(TPU_SM_STEP_CNTL1(4), 132) == TPU_SM_TAKEN);
    CHECK(guards_stand());
}

/* That motor by TCR1, where a count is a tick. */
static void motor(void)
{
    motor_by(TPU_SM_FORCE(0xCCCC), TPU_SM_FORCE(0));
}

static void refused(uint16_t address, uint16_t value, uint16_t answer)
{
    keep();
    CHECK(put(address, value) == answer);
    CHECK(same());
}

/* Every number of the gate, by one write too many or one word too bad; a refused call changes nothing. */
static void refusals(void)
{
    const uint16_t step = TPU_SM_REQUEST(4, TPU_SM_STEP);
    motor();
    refused(0xE0B, 0, TPU_SM_NO_SUCH_ADDRESS);
    refused(TPU_SM_LATE(4), 0, TPU_SM_NO_SUCH_ADDRESS);
    refused(TPU_SM_HSRR(0), TPU_SM_REQUEST(0, TPU_SM_INITIALISE), TPU_SM_NOT_A_STEPPER);
    refused(TPU_SM_HSRR(4), TPU_SM_REQUEST(4, TPU_SM_INITIALISE), TPU_SM_BAD_CONTROL);
    put(TPU_SM_TOP_AND_LAST(4), TPU_SM_HALVES(3, 4));
    refused(TPU_SM_HSRR(4), step, TPU_SM_BAD_SPAN);
    put(TPU_SM_TOP_AND_LAST(4), TPU_SM_HALVES(3, 6));
    refused(TPU_SM_HSRR(4), step, TPU_SM_GROUP_NOT_READY);
    put(TPU_SM_TOP_AND_LAST(4), TPU_SM_HALVES(3, 5));
    put(TPU_SM_COUNT_AND_RATE(4), TPU_SM_HALVES(1, 1));
    refused(TPU_SM_HSRR(4), step, TPU_SM_BAD_PATTERN);
    put(TPU_SM_COUNT_AND_RATE(4), TPU_SM_HALVES(0, 1));
    put(TPU_SM_STEP_CNTL1(4), 4);
    put(TPU_SM_DESIRED_POSITION(4), 0xFFFD);
    refused(TPU_SM_HSRR(4), step, TPU_SM_BAD_RAMP);
    put(TPU_SM_STEP_CNTL1(4), 131);
    refused(TPU_SM_HSRR(4), step, TPU_SM_TOO_QUICK);
    put(TPU_SM_STEP_CNTL1(4), 132);
    refused(TPU_SM_HSRR(4), step, TPU_SM_TARGET_TOO_FAR);
    put(TPU_SM_DESIRED_POSITION(4), 2);
    CHECK(put(TPU_SM_HSRR(4), step) == TPU_SM_TAKEN);
    refused(TPU_SM_TOP_AND_LAST(4), 0, TPU_SM_BUSY);
}

/* An advance fills the first n words of its list; a refused one fills none and lets no time pass. */
static void advances(void)
{
    static uint16_t longest[TPU_SM_MAX_TICKS + 1];
    begin();
    keep();
    CHECK(tpu_sm_advance(state, WORDS, LIST + 1, pins, LIST) == TPU_SM_ADVANCE_TOO_LONG);
    CHECK(tpu_sm_advance(state, WORDS, TPU_SM_MAX_TICKS + 1, longest, TPU_SM_MAX_TICKS + 1) == TPU_SM_ADVANCE_TOO_LONG);
    CHECK(tpu_sm_advance(state, WORDS, 0xFFFFFFFF, pins, LIST) == TPU_SM_ADVANCE_TOO_LONG);
    CHECK(tpu_sm_advance(state, WORDS, 0, pins, 0) == TPU_SM_TAKEN);
    CHECK(same());
    CHECK(tpu_sm_advance(state, WORDS, 3, pins, LIST) == TPU_SM_TAKEN);
    CHECK(pins[0] == 0 && pins[1] == 0 && pins[2] == 0 && is_filled(pins + 3, LIST - 3));
    CHECK(tpu_sm_advance(state, WORDS, TPU_SM_MAX_TICKS, longest, TPU_SM_MAX_TICKS) == TPU_SM_TAKEN);
    CHECK(guards_stand());
}

/* Two steps to the arrival in the tick after so many, the interrupt line up with it, and down again. */
static void move_and_interrupt(uint32_t ticks)
{
    enum { LONG_LIST = 2100 };
    uint16_t long_list[LONG_LIST];
    put(TPU_SM_CISR, 0);
    put(TPU_SM_CIER, TPU_SM_BIT(4));
    CHECK(put(TPU_SM_HSRR(4), TPU_SM_REQUEST(4, TPU_SM_STEP)) == TPU_SM_TAKEN);
    CHECK(tpu_sm_advance(state, WORDS, ticks, long_list, LONG_LIST) == TPU_SM_TAKEN);
    CHECK(tpu_sm_interrupt_line(state, WORDS) == 0);
    CHECK(tpu_sm_advance(state, WORDS, 1, long_list, LONG_LIST) == TPU_SM_TAKEN);
    CHECK(tpu_sm_interrupt_line(state, WORDS) == 1);
    CHECK(get(TPU_SM_CURRENT_POSITION(4)) == 2 && get(TPU_SM_CISR) == TPU_SM_BIT(4));
    CHECK(put(TPU_SM_CISR, 0) == TPU_SM_TAKEN);
    CHECK(tpu_sm_interrupt_line(state, WORDS) == 0);
}

static void moves(void)
{
    motor();
    move_and_interrupt(260);
}

/* By TCR2, which comes to 260 in tick 2080 since reset; the request comes after tick 2. A group of both kinds is refused. */
static void winders(void)
{
    motor_by(TPU_SM_SLOW(0xCCCC), TPU_SM_SLOW(0));
    move_and_interrupt(2077);
    motor_by(TPU_SM_SLOW_HIGH, TPU_SM_FORCE_LOW);
    refused(TPU_SM_HSRR(4), TPU_SM_REQUEST(4, TPU_SM_STEP), TPU_SM_GROUP_NOT_READY);
}

/* The words of the slots: two services of the motor's set-up, 4 at the low level and 5 at the high one. The first tick looks
   for a high channel, the second hands its slot over to the low level. */
static void slots(void)
{
    motor();
    CHECK(state[SLOT] == 2 && state[HIGH] == 6 && state[MIDDLE] == 0 && state[LOW] == 5);
    CHECK(tpu_sm_advance(state, WORDS, LIST, pins, LIST) == TPU_SM_TAKEN);
    CHECK(state[SLOT] == 3 && state[HIGH] == 6 && state[MIDDLE] == 0 && state[LOW] == 5);
    CHECK(tpu_sm_advance(state, WORDS, 4, pins, LIST) == TPU_SM_TAKEN && state[SLOT] == 0);
    CHECK(guards_stand());
}

static void pass(uint32_t ticks)
{
    uint16_t list[TPU_SM_MAX_TICKS];
    CHECK(tpu_sm_advance(state, WORDS, ticks, list, TPU_SM_MAX_TICKS) == TPU_SM_TAKEN);
}

/* The match of tick 133, set in tick 3, waits for 20 ticks without a priority. The next one, the arrival, is served
   at once. */
static void lateness(void)
{
    motor();
    CHECK(put(TPU_SM_HSRR(4), TPU_SM_REQUEST(4, TPU_SM_STEP)) == TPU_SM_TAKEN);
    pass(1);
    CHECK(put(TPU_SM_CPR(4), TPU_SM_PRIORITY(4, TPU_SM_DISABLED)) == TPU_SM_TAKEN);
    pass(149);
    CHECK(get(TPU_SM_LATE(4)) == 0 && state[TIMES + 4] == 133 && state[SET_TIMES + 4] == 133);
    CHECK(put(TPU_SM_CPR(4), TPU_SM_PRIORITY(4, TPU_SM_ENABLED)) == TPU_SM_TAKEN);
    pass(1);
    CHECK(get(TPU_SM_LATE(4)) == 20 && state[LATE + 4] == 20 && state[TIMES + 4] == 263);
    refused(TPU_SM_LATE(4), 0, TPU_SM_NO_SUCH_ADDRESS);
    refused(TPU_SM_LATE(15), 0xFFFF, TPU_SM_NO_SUCH_ADDRESS);
    CHECK(tpu_sm_read(state, WORDS, TPU_SM_LATE(4)) == 20 && get(TPU_SM_LATE(5)) == 0);
    CHECK(tpu_sm_read(state, WORDS, TPU_SM_LATE(4) + 1) == 0x00010000);
    CHECK(tpu_sm_read(state, WORDS, TPU_SM_LATE(16)) == 0x00010000);
    pass(110);
    CHECK(get(TPU_SM_LATE(4)) == 0 && get(TPU_SM_CURRENT_POSITION(4)) == 2);
    CHECK(put(TPU_SM_CURRENT_POSITION(4), 2) == TPU_SM_TAKEN);
    CHECK(guards_stand());
}

/* A copy of the words goes on as the words do. */
static void copies(void)
{
    uint16_t copy[WORDS], list[LIST];
    motor();
    put(TPU_SM_HSRR(4), TPU_SM_REQUEST(4, TPU_SM_STEP));
    tpu_sm_advance(state, WORDS, 3, pins, LIST);
    memcpy(copy, state, sizeof copy);
    CHECK(tpu_sm_advance(state, WORDS, LIST, pins, LIST) == TPU_SM_TAKEN);
    CHECK(tpu_sm_advance(copy, WORDS, LIST, list, LIST) == TPU_SM_TAKEN);
    CHECK(!memcmp(copy, state, sizeof copy) && !memcmp(list, pins, sizeof list));
}

/* Words that no history gives: a refused call keeps them, and so does a taken one with bits of the flags that mean nothing and
   with times of phases without one. A tick brings the slot below 7, and leaves the start of a level that it does not serve.
   Any number of lateness is one. */
static void odd_words(void)
{
    begin();
    state[FLAGS + 3] = 0xFFE0;
    state[TIMES + 3] = 0x1234;
    state[SLOT] = 0xFFFF;
    state[LOW] = 0xABCD;
    state[LATE + 3] = 0xFEDC;
    state[SET_TIMES + 3] = 0x1234;
    refused(0xE0B, 0, TPU_SM_NO_SUCH_ADDRESS);
    CHECK(put(TPU_SM_CIER, 0) == TPU_SM_TAKEN);
    CHECK(state[FLAGS + 3] == 0xFFE0 && state[TIMES + 3] == 0x1234 && state[SET_TIMES + 3] == 0x1234);
    CHECK(state[SLOT] == 0xFFFF && state[LOW] == 0xABCD);
    CHECK(tpu_sm_advance(state, WORDS, 1, pins, LIST) == TPU_SM_TAKEN);
    CHECK(state[SLOT] == 2 && state[LOW] == 0xABCD && state[FLAGS + 3] == 0xFFE0 && state[TIMES + 3] == 0x1234);
    CHECK(state[LATE + 3] == 0xFEDC && get(TPU_SM_LATE(3)) == 0xFEDC);
    CHECK(guards_stand());
}

int main(void)
{
    reset_is_all_zeros();
    wrong_lengths();
    read_packing();
    addresses();
    refusals();
    advances();
    moves();
    winders();
    slots();
    lateness();
    copies();
    odd_words();
    return failures != 0;
}
