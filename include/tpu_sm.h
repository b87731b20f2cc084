/*
 * The Stepper Motor timer unit, for C and C++. Link target/staticlib/libtpu_c.a.
 *
 * The unit keeps nothing between calls. Its state is TPU_SM_STATE_WORDS words that the caller owns and lends to each
 * call; reset makes them all 0. Copy them to keep a state, lend the copy to go on from it. Every content of the words is
 * answered, but only what the calls leave there is a state of the unit's history. Bits and times that mean nothing at the
 * moment stay as they are, so two states that behave alike may differ in words.
 *
 * A list is lent as a pointer and a count of words. The pointer is valid for that many words, and not null even where
 * they are 0; the two lists of one call do not overlap. All else is checked by the call: a count other than
 * TPU_SM_STATE_WORDS is answered TPU_SM_WRONG_LENGTH, and any call that is not taken changes no word.
 */
#ifndef TPU_SM_H
#define TPU_SM_H

#include <stddef.h>
#include <stdint.h>

#ifdef __cplusplus
extern "C" {
#endif

/* How many words hold a state. */
#define TPU_SM_STATE_WORDS 211

/* The same number, as the archive has it. */
uint32_t tpu_sm_state_words(void);

/* The words hold the state after reset. */
uint16_t tpu_sm_reset(uint16_t *state, size_t state_words);

/* The word at an address: see TPU_SM_ANSWER and TPU_SM_WORD. */
uint32_t tpu_sm_read(const uint16_t *state, size_t state_words, uint16_t address);

/* A word is written to an address. */
uint16_t tpu_sm_write(uint16_t *state, size_t state_words, uint16_t address, uint16_t value);

/* n ticks pass. The pin word after each goes to the first n words of the list; bit c is the level of pin c. */
uint16_t tpu_sm_advance(uint16_t *state, size_t state_words, uint32_t n, uint16_t *pins, size_t pin_words);

/* 1 where some bit is set both in CIER and in CISR, else 0. */
uint16_t tpu_sm_interrupt_line(const uint16_t *state, size_t state_words);

/* What a read returns: its answer, and the word, which is 0 where the read is not taken. */
#define TPU_SM_ANSWER(result) ((uint16_t)((uint32_t)(result) >> 16))
#define TPU_SM_WORD(result) ((uint16_t)((uint32_t)(result) & 0xFFFFu))

/* ---- answers */

#define TPU_SM_TAKEN 0
/* the address is odd, or no register and no parameter word is there, or the write is to a TPU_SM_LATE */
#define TPU_SM_NO_SUCH_ADDRESS 1
/* the channel is bound to a motor that runs, or has a request that is not served yet */
#define TPU_SM_BUSY 2
/* the channel of a request has another function than 13 */
#define TPU_SM_NOT_A_STEPPER 3
/* CHANNEL_CONTROL does not suit PIN_CONTROL for an initialise */
#define TPU_SM_BAD_CONTROL 4
/* N is not 1 to 14, the last channel is not one to seven above the primary, or another bit of that word is set */
#define TPU_SM_BAD_SPAN 5
/* a channel of the group has another function, is not initialised, is bound, has a request, or goes by another timer than
   the primary */
#define TPU_SM_GROUP_NOT_READY 6
/* the next rate is not 1, another bit of that word is set, or a pattern is not turned by MOD_CNT */
#define TPU_SM_BAD_PATTERN 7
/* the step at rate N would take less than 1 count of the group's timer, or that at rate 1 more than 0x7FFF */
#define TPU_SM_BAD_RAMP 8
/* the target is above 0xFFFF - N */
#define TPU_SM_TARGET_TOO_FAR 9
/* more than TPU_SM_MAX_TICKS ticks, or more than the list has words */
#define TPU_SM_ADVANCE_TOO_LONG 10
/* the step at rate N would take less than 128 counts of the group's timer: asked after TPU_SM_BAD_RAMP */
#define TPU_SM_TOO_QUICK 14
/* the state was not lent as TPU_SM_STATE_WORDS words */
#define TPU_SM_WRONG_LENGTH 100

#define TPU_SM_MAX_TICKS 4096

/* ---- registers; a channel is 0 to 15 */

#define TPU_SM_CIER 0xE0Au
#define TPU_SM_CFSR0 0xE0Cu
#define TPU_SM_CFSR1 0xE0Eu
#define TPU_SM_CFSR2 0xE10u
#define TPU_SM_CFSR3 0xE12u
#define TPU_SM_HSQR0 0xE14u
#define TPU_SM_HSQR1 0xE16u
#define TPU_SM_HSRR0 0xE18u
#define TPU_SM_HSRR1 0xE1Au
#define TPU_SM_CPR0 0xE1Cu
#define TPU_SM_CPR1 0xE1Eu
#define TPU_SM_CISR 0xE20u

/* How late the channel was, read only: the counts of its group's timer from the match time to the latest match service,
   modulo 65,536; 0 after reset. */
#define TPU_SM_LATE(channel) ((uint16_t)(0xE40u + 2u * (unsigned)(channel)))

/* The register that has a channel's function, request or priority. */
#define TPU_SM_CFSR(channel) ((uint16_t)(TPU_SM_CFSR3 - 2u * ((unsigned)(channel) / 4u)))
#define TPU_SM_HSRR(channel) ((uint16_t)(TPU_SM_HSRR1 - 2u * ((unsigned)(channel) / 8u)))
#define TPU_SM_CPR(channel) ((uint16_t)(TPU_SM_CPR1 - 2u * ((unsigned)(channel) / 8u)))

/* The channel's bit in CIER, CISR or a pin word, and its field in those registers; fields are joined by |. */
#define TPU_SM_BIT(channel) ((uint16_t)(1u << (unsigned)(channel)))
#define TPU_SM_FUNCTION(channel, function) ((uint16_t)((unsigned)(function) << 4u * ((unsigned)(channel) % 4u)))
#define TPU_SM_REQUEST(channel, request) ((uint16_t)((unsigned)(request) << 2u * ((unsigned)(channel) % 8u)))
#define TPU_SM_PRIORITY(channel, priority) ((uint16_t)((unsigned)(priority) << 2u * ((unsigned)(channel) % 8u)))

/* the function Stepper Motor; the two requests; the priorities, of which 0 stops the services. One channel is served a tick:
   of seven ticks four look for a high one first, two for a middle one and one for a low one, and a tick that finds none serves
   the highest priority with one waiting. A channel whose priority stays waits for 112 ticks at most. */
#define TPU_SM_STEPPER_MOTOR 13
#define TPU_SM_INITIALISE 2
#define TPU_SM_STEP 3
#define TPU_SM_DISABLED 0
#define TPU_SM_LOW 1
#define TPU_SM_MIDDLE 2
#define TPU_SM_HIGH 3
/* where it does not matter which */
#define TPU_SM_ENABLED TPU_SM_LOW

/* ---- parameter words; the words are 0 to 5, and 0 to 7 for channels 14 and 15 */

#define TPU_SM_PARAMETER(channel, word) ((uint16_t)(0xF00u + 16u * (unsigned)(channel) + 2u * (unsigned)(word)))

#define TPU_SM_CHANNEL_CONTROL(channel) TPU_SM_PARAMETER(channel, 0)
#define TPU_SM_PIN_CONTROL(channel) TPU_SM_PARAMETER(channel, 1)
#define TPU_SM_CURRENT_POSITION(primary) TPU_SM_PARAMETER(primary, 2)
#define TPU_SM_DESIRED_POSITION(primary) TPU_SM_PARAMETER(primary, 3)
/* MOD_CNT and NEXT_STEP_RATE, in one word */
#define TPU_SM_COUNT_AND_RATE(primary) TPU_SM_PARAMETER(primary, 4)
/* STEP_RATE_CNT, which is N, and LAST_SEC_CHAN, in one word */
#define TPU_SM_TOP_AND_LAST(primary) TPU_SM_PARAMETER(primary, 5)
/* the ramp stands in the channel after the primary: a step at rate r takes STEP_CNTL1 - STEP_CNTL0 * (1 + r) counts of the
   group's timer, which are ticks for TCR1 and eight ticks each for TCR2 */
#define TPU_SM_STEP_CNTL0(primary) TPU_SM_PARAMETER((primary) + 1, 2)
#define TPU_SM_STEP_CNTL1(primary) TPU_SM_PARAMETER((primary) + 1, 3)

/* Those two words from their halves, and the halves out of them. */
#define TPU_SM_HALVES(high, low) ((uint16_t)((unsigned)(high) << 8 | (unsigned)(low)))
#define TPU_SM_HIGH_HALF(word) ((uint16_t)((word) >> 8 & 15u))
#define TPU_SM_LOW_HALF(word) ((uint16_t)((word)&15u))

/* CHANNEL_CONTROL before an initialise: the pin is forced high where bit 15 of PIN_CONTROL is 1, else low. */
#define TPU_SM_FORCE_HIGH 0x0081u
#define TPU_SM_FORCE_LOW 0x0082u
#define TPU_SM_FORCE(pin_control) ((uint16_t)((pin_control)&0x8000u ? TPU_SM_FORCE_HIGH : TPU_SM_FORCE_LOW))
/* The same for a channel that goes by TCR2 instead of TCR1. A group has channels of one timer. */
#define TPU_SM_SLOW_HIGH 0x00E1u
#define TPU_SM_SLOW_LOW 0x00E2u
#define TPU_SM_SLOW(pin_control) ((uint16_t)((pin_control)&0x8000u ? TPU_SM_SLOW_HIGH : TPU_SM_SLOW_LOW))

#ifdef __cplusplus
}
#endif

#endif
