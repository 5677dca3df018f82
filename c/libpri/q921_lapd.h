/* SPDX-License-Identifier: GPL-2.0-only
 *
 * Shared by the files that replace libpri's q921.c. They include libpri's internal headers and
 * become a part of libpri.so, so they are under libpri's terms, the GNU General Public License,
 * version 2. They copy no code of libpri. */
#ifndef Q921_LAPD_H
#define Q921_LAPD_H

#include "compat.h"
#include "libpri.h"
#include "pri_internal.h"
#include "pri_q921.h"
#include "pri_q931.h"

#include <lapd.h>
#include <stdbool.h>
#include <stddef.h>
#include <stdint.h>

/* libpri.so does not export these functions. */
#pragma GCC visibility push(hidden)

/* A D channel, with its side. */
struct channel {
	struct pri *ctrl;
	lapd_side side;
	uint8_t n200, k;        /* of the side */
	unsigned int event;     /* libpri's number of the scheduled event, or 0 */
	uint64_t due;           /* when it is due */
	bool is_created;        /* the side exists */
	bool is_delivering;     /* its primitives are being fetched */
	bool is_up;             /* point to point: the program has received DCHAN_UP */
	bool has_next_event;    /* another event waits for the program */
	bool loses_tei;         /* terminal: its TEI is lost */
	bool drops_tei;         /* terminal: it drops its TEI by itself */
	bool loses_links;       /* network: TEIs were removed, their links are to be destroyed */
};

/* The channel of a struct pri, or NULL if q921_start has not made one. */
struct channel *channel_of(const struct pri *ctrl);

/* The link with this TEI, or NULL. Only a network on a bus has several links. */
struct q921_link *link_of(struct pri *ctrl, int tei);

/* Reads the state of the side's link. Returns false if the side has none, as that of a terminal
 * without a TEI. */
bool get_state(struct channel *channel, const struct q921_link *link, lapd_link_state *state);

/* The TEI of a link for calls of liblapd. libpri marks a lost TEI by a negative number; a user side
 * then accepts any TEI in requests, and has no link in lapd_side_state. */
uint8_t address(const struct q921_link *link);

/* Milliseconds of a monotonic clock. */
uint64_t clock_now(void);

/* Adds a copy of a message to the end of a link's queue. Returns NULL if memory is exhausted. */
struct q921_frame *queue_message(struct q921_link *link, const void *message, int length);

/* Submits waiting messages to the side until it accepts no more, and returns its last code. A
 * message that is too long is reported and dropped. */
lapd_result submit_messages(struct channel *channel, struct q921_link *link);

/* Frees the oldest `count` messages of a link's queue. */
void free_messages(struct q921_link *link, unsigned int count);

/* The name of a state of Q.921, 1 to 8. */
const char *state_name(int state);

/* Changes the state that libpri shows, and prints the change if PRI_DEBUG_Q921_STATE is set. */
void set_state(struct q921_link *link, int state);

#pragma GCC visibility pop

#endif
