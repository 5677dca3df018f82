/* SPDX-License-Identifier: GPL-2.0-only
 *
 * The message queue of a link (tx_queue). It holds a copy of each message until the side reports it
 * as acknowledged or dropped. Messages that the side does not accept yet, such as those submitted
 * while layer 3 establishes the link, wait there as Q921_TX_FRAME_NEVER_SENT. See q921_lapd.h for
 * the terms. */
#include "q921_lapd.h"

#include <stdlib.h>
#include <string.h>

#define I_HEADER 4 /* octets of address and control field before a message */

struct q921_frame *queue_message(struct q921_link *link, const void *message, int length)
{
	struct q921_frame *frame = calloc(1, sizeof *frame + (size_t)length);
	struct q921_frame **place = &link->tx_queue;

	if (!frame)
		return NULL;
	frame->len = length + I_HEADER;
	memcpy(frame->h.data, message, (size_t)length);
	while (*place)
		place = &(*place)->next;
	*place = frame;
	return frame;
}

static lapd_result submit(struct channel *channel, struct q921_link *link, struct q921_frame *frame)
{
	size_t length = (size_t)frame->len - I_HEADER;

	return lapd_side_give(&channel->side, Q921_SAPI_CALL_CTRL, address(link), frame->h.data,
		length, clock_now());
}

lapd_result submit_messages(struct channel *channel, struct q921_link *link)
{
	struct q921_frame *frame, **place = &link->tx_queue;
	lapd_result code = LAPD_DONE;

	while ((frame = *place) && code == LAPD_DONE) {
		if (frame->status == Q921_TX_FRAME_NEVER_SENT)
			code = submit(channel, link, frame);
		if (code == LAPD_TOO_LONG) {
			pri_error(channel->ctrl, "TEI=%d Message of %d octets is too long\n",
				link->tei, frame->len - I_HEADER);
			*place = frame->next;
			free(frame);
			code = LAPD_DONE;
		} else if (code == LAPD_DONE) {
			frame->status = Q921_TX_FRAME_SENT;
			place = &frame->next;
		}
	}
	return code;
}

void free_messages(struct q921_link *link, unsigned int count)
{
	struct q921_frame *frame;

	for (; count > 0 && (frame = link->tx_queue); count--) {
		link->tx_queue = frame->next;
		free(frame);
	}
}
