/* A sequential Monte Carlo test that is saved as bytes after every draw: its two calls. docs/SAVED.md has their exact rules and the layout of the
   bytes, docs/RULES.md those of the plan, the test and the refusals. */
#ifndef VIMORAKE_H
#define VIMORAKE_H

#include <stddef.h>
#include <stdint.h>

#ifdef __cplusplus
extern "C" {
#endif

/* What a call returns: an answer, 100 or more, of which all but VIMORAKE_OPEN end the test; */
#define VIMORAKE_OPEN 100u
#define VIMORAKE_BUCKET(number) (100u + (number)) /* decided for the bucket of this number, from 1 to at most 16, in the plan's order */
#define VIMORAKE_CROSSED 120u
#define VIMORAKE_WIDE 130u
#define VIMORAKE_SPENT 140u

/* or a refusal, under 100: the first that applies, in the order plan, saved form, draw, ended, spoiled, room. */
#define VIMORAKE_REFUSED_COUNTS 1u      /* the plan: the number of thresholds or of buckets out of range */
#define VIMORAKE_REFUSED_THRESHOLD 2u   /* the plan: a threshold out of range, or not above the one before */
#define VIMORAKE_REFUSED_ALLOWANCE 3u   /* the plan: an allowance out of range */
#define VIMORAKE_REFUSED_HORIZON 4u     /* the plan: the delay or the horizon out of range */
#define VIMORAKE_REFUSED_BUCKET 5u      /* the plan: the ends of a bucket */
#define VIMORAKE_REFUSED_GAP 6u         /* the plan: some p in no bucket */
#define VIMORAKE_REFUSED_PLAN_FORM 7u   /* the plan: too few bytes, a wrong offset or a wrong length */
#define VIMORAKE_REFUSED_DRAW 9u        /* the draw is neither 0 nor 1 */
#define VIMORAKE_REFUSED_ENDED 10u      /* the saved test has ended */
#define VIMORAKE_REFUSED_SPOILED 11u    /* the saved test is spoiled: a number in it that no test of this plan can have */
#define VIMORAKE_REFUSED_ROOM 12u       /* fewer bytes lent than the new form has */
#define VIMORAKE_REFUSED_CLOSE 14u      /* the plan: a threshold less than 100 millionths above the one before */
#define VIMORAKE_REFUSED_SAVED_FORM 15u /* the saved bytes: a count, offset, size or length that does not fit, an unknown mark, or
                                           open boundaries with fewer than 1 or more than 769 masses;
                                           also a form of an earlier layout */

#define VIMORAKE_LARGEST_PLAN 264u   /* bytes of the longest plan */
#define VIMORAKE_LARGEST_FORM 61904u /* bytes of the longest saved form: with so many lent, nothing is refused for room */

/* Begins a test. Returns VIMORAKE_OPEN or a refusal. */
uint32_t vimorake_begin(const uint8_t *plan, size_t plan_size, uint8_t *lent, size_t lent_size);

/* Takes one draw, 0 or 1, to the saved test, under the plan that it was begun with. saved_size is exactly the length of its form. Returns the answer
   after the draw, or a refusal: then the draw was not taken. */
uint32_t vimorake_draw(const uint8_t *plan, size_t plan_size, const uint8_t *saved, size_t saved_size, uint32_t draw, uint8_t *lent,
                       size_t lent_size);

/* Of both calls:
   - The form of the test stands at the start of the lent bytes; bytes after it keep their contents. On a refusal no lent byte changes.
   - The lent bytes may overlap neither the saved bytes nor the plan's. Two buffers, lent in turn, are enough.
   - Any bytes, any sizes and any draw may be handed in. Each pointer leads to as many bytes as its size says, at any alignment; none is null.
   - They keep no state and use no heap, and may run side by side on different lent bytes.
   - They need some 7,000 bytes of stack (on x86-64 a draw's own frame has 6,632). */

static inline uint32_t vimorake_number_at(const uint8_t *form, size_t offset) { /* of 4 bytes, little-endian */
    return (uint32_t)form[offset] | (uint32_t)form[offset + 1] << 8 | (uint32_t)form[offset + 2] << 16 | (uint32_t)form[offset + 3] << 24;
}

/* From the first 24 bytes of a form: its whole length, the draws taken, the ones among them. No form is judged here. */
static inline uint32_t vimorake_length(const uint8_t *form) { return vimorake_number_at(form, 8); }
static inline uint32_t vimorake_taken(const uint8_t *form) { return vimorake_number_at(form, 12); }
static inline uint32_t vimorake_ones(const uint8_t *form) { return vimorake_number_at(form, 16); }

#ifdef __cplusplus
}
#endif

#endif
