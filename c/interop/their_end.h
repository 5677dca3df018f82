/* The end of another stack in this process, with SAPI 0 and a fixed TEI. A program has one such
 * end; osmocom_end.c and misdn_end.c implement it. */
#ifndef THEIR_END_H
#define THEIR_END_H

#include <stdbool.h>
#include <stddef.h>
#include <stdint.h>

enum their_primitive { THEIR_OTHER, THEIR_DATA, THEIR_ESTABLISHED, THEIR_RELEASED, THEIR_ERROR };

struct their_calls {
	void (*write)(const uint8_t *frame, size_t length);
	void (*deliver)(enum their_primitive primitive, const uint8_t *octets, size_t length);
};

extern const char their_name[];

/* Whether a release by this end is tried. */
extern const bool they_can_release;

/* Creates the end, in place of the last one. T203 is in milliseconds, up to 2000000. */
void their_end(bool network, uint8_t tei, uint8_t k, int t203, const struct their_calls *calls);

void their_take(const uint8_t *frame, size_t length);

/* Requests of layer 3. */
void their_establish(void);
void their_release(void);
void their_give(const uint8_t *message, size_t length);

/* The milliseconds until a timer is due, at most `most`. */
int their_wait(int most);

/* Expires the timers that are due. */
void their_tick(void);

/* Moves the clock of the end. The first call, with 0, replaces the system's clock. */
void their_clock(uint64_t milliseconds);

#endif
