/* SPDX-License-Identifier: GPL-2.0-only
 *
 * Debug output of layer 2: states, and frames (q921_dump). See q921_lapd.h for the terms. */
#include "q921_lapd.h"

#define MOST_TEXT (43 + 2 * LAPD_MOST_FRAME)

const char *state_name(int state)
{
	static const char *const names[] = {
		"Unknown state", "TEI unassigned", "Assign awaiting TEI", "Establish awaiting TEI",
		"TEI assigned", "Awaiting establishment", "Awaiting release",
		"Multi-frame established", "Timer recovery",
	};

	return names[state >= 1 && state <= 8 ? state : 0];
}

/* Changes between states 7 and 8 are not printed. */
void set_state(struct q921_link *link, int state)
{
	int established = Q921_MULTI_FRAME_ESTABLISHED, old = (int)link->state;
	bool is_change = old != state && (old < established || state < established);

	if (is_change && link->ctrl->debug & PRI_DEBUG_Q921_STATE)
		pri_message(link->ctrl, "TEI=%d changes from state %d(%s) to %d(%s)\n", link->tei,
			old, state_name(old), state, state_name(state));
	link->state = state;
}

static void dump_link(struct channel *channel, char mark, int tei)
{
	struct q921_link *link = link_of(channel->ctrl, tei);
	lapd_link_state it;

	if (!link || !get_state(channel, link, &it))
		return;
	pri_message(channel->ctrl,
		"%c TEI: %d State %d(%s) V(A)=%d, V(S)=%d, V(R)=%d, RC=%d%s%s%s, %d waiting\n",
		mark, link->tei, it.state, state_name(it.state), it.va, it.vs, it.vr, it.rc,
		it.peer_busy ? ", peer busy" : "", it.own_busy ? ", own busy" : "",
		it.rejecting ? ", rejecting" : "", it.waiting);
}

static void dump_frame(struct pri *ctrl, const uint8_t *octets, int length, int sent)
{
	bool by_network = ctrl ? NT_MODE(ctrl) == !!sent : !!sent;
	uint8_t text[MOST_TEXT];
	char mark = sent ? '>' : '<';
	size_t count;

	if (length < 0 || length > LAPD_MOST_FRAME)
		return;
	if (lapd_frame_text(octets, (size_t)length, by_network, text, sizeof text, &count))
		return;
	if (ctrl && channel_of(ctrl))
		dump_link(channel_of(ctrl), mark, length > 1 ? octets[1] >> 1 : 0);
	pri_message(ctrl, "%c %.*s\n", mark, (int)count, (const char *)text);
}

/* `ctrl` may be NULL, as in libpri's program pridump. */
void q921_dump(struct pri *ctrl, q921_h *h, int len, int debugflags, int txrx)
{
	const uint8_t *octets = (const uint8_t *)h;
	char mark = txrx ? '>' : '<';
	int at;

	pri_message(ctrl, "\n");
	if (debugflags & PRI_DEBUG_Q921_DUMP)
		dump_frame(ctrl, octets, len, txrx);
	if (!(debugflags & PRI_DEBUG_Q921_RAW))
		return;
	pri_message(ctrl, "%c [ ", mark);
	for (at = 0; at < len; at++)
		pri_message(ctrl, "%02x ", octets[at]);
	pri_message(ctrl, "]\n");
}
