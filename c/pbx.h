/* A span of pbx.c: one end of an interface, and the span that its messages are passed to. */
#ifndef PBX_H
#define PBX_H

#include "example.h"

#include <stdbool.h>

#define MOST_TEIS 127

/* A message from the link of a TEI that the other span has no room for. */
struct message {
	bool is_kept;
	size_t length;
	uint8_t octets[LAPD_MOST_MESSAGE];
};

struct span {
	lapd_side side;
	lapd_line *line;
	struct span *other; /* where its messages are sent */
	unsigned number;    /* from 1 */
	bool is_network;
	bool is_bus;        /* the network side of basic access */
	bool is_traced;     /* frames are printed */
	uint8_t terminal;   /* of a bus: the one that sent a message last; LAPD_GROUP_TEI: none */
	uint64_t again;     /* when the link is established again */
	bool is_ending;
	size_t releasing;   /* at the end: links that are not released yet */
	uint8_t unchecked[MOST_TEIS];
	size_t unchecked_count;
	struct message kept[MOST_TEIS];
};

/* Reports a call that failed. */
void note(const struct span *span, const char *call, lapd_result code);

/* Reads the TEIs that the network side of a bus held before a restart. Returns their number. */
size_t saved_teis(const struct span *span, uint8_t *teis);

/* Takes what has arrived, and expires the timers that are due. */
void serve(struct span *span);

/* Sends the frames of the calls so far, and takes what they report. */
void settle(struct span *span);

/* Sets what a span waits for. Returns the longest time to wait in milliseconds, or -1. */
int prepare(const struct span *span, struct pollfd *wait);

/* Releases the links of a span, so that their peers need not wait for timers. */
void release(struct span *span);

#endif
