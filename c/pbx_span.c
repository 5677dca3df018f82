/* A span of pbx.c: its messages, its links and its TEIs. */
#include "pbx.h"

#include <stdio.h>
#include <string.h>

#define MOST_EVENTS 4096 /* of a line before timers are served: a flood cannot stop timers */
#define PAUSE 1000       /* milliseconds until a released link is established again */

void note(const struct span *span, const char *call, lapd_result code)
{
	if (code != LAPD_DONE)
		print_code(lapd_line_name(span->line), call, code);
}

static void send_frame(const struct span *span, const uint8_t *frame, size_t length)
{
	if (span->is_traced)
		print_frame(lapd_line_name(span->line), span->is_network, frame, length);
	lapd_line_send(span->line, frame, length); /* one that is dropped is sent again after T200 */
}

/* ---- Messages. */

/* Sends a message on a span. Returns false if it has no room now. */
static bool is_given(struct span *span, const uint8_t *octets, size_t length)
{
	lapd_result code;

	if (span->is_bus && span->terminal == LAPD_GROUP_TEI)
		code = lapd_side_unit(&span->side, 0, LAPD_GROUP_TEI, octets, length, clock_now());
	else
		code = lapd_side_give(&span->side, 0, span->terminal, octets, length, clock_now());
	if (code == LAPD_QUEUE_FULL || code == LAPD_LAYER_3_ESTABLISHING || code == LAPD_PENDING || code == LAPD_NO_MEMORY)
		return false;
	note(span, "a message is lost", code); /* layer 3 would clear its call */
	return true;
}

/* Passes on a message. If the other span has no room, the link is made busy until it has: its peer
 * keeps the messages that follow. */
static void pass_on(struct span *span, uint8_t tei, const uint8_t *octets, size_t length)
{
	struct message *kept = &span->kept[tei];

	if (span->is_bus)
		span->terminal = tei;
	if (is_given(span->other, octets, length))
		return;
	kept->is_kept = true;
	kept->length = length;
	memcpy(kept->octets, octets, length);
	note(span, "busy", lapd_side_busy(&span->side, 0, tei, 1, clock_now()));
}

static void pass_on_kept(struct span *span)
{
	struct message *kept;

	for (kept = span->kept; kept < span->kept + MOST_TEIS; kept++)
		if (kept->is_kept && is_given(span->other, kept->octets, kept->length)) {
			kept->is_kept = false;
			note(span, "busy", lapd_side_busy(&span->side, 0, (uint8_t)(kept - span->kept), 0, clock_now()));
		}
}

/* ---- Links and TEIs. */

/* Establishes the link of a span if it is released. On a bus the terminals do so. */
static void establish(struct span *span)
{
	lapd_link_state link;

	span->again = LAPD_NEVER;
	if (span->is_ending || span->is_bus || !lapd_line_is_up(span->line))
		return;
	/* A terminal without a TEI has no link yet. In other states than 4 a link recovers by itself. */
	if (lapd_side_state(&span->side, 0, 0, &link) == LAPD_NO_LINK)
		note(span, "ask_tei", lapd_side_ask_tei(&span->side, clock_now()));
	else if (link.state == 4)
		note(span, "establish", lapd_side_establish(&span->side, 0, 0, clock_now()));
}

/* Opens the file of the TEIs that a network side holds. A side that is created with them after a
 * restart assigns none of them twice. */
static FILE *list_of(const struct span *span, const char *mode)
{
	char name[32];

	snprintf(name, sizeof name, "pbx-%u.teis", span->number);
	return fopen(name, mode);
}

size_t saved_teis(const struct span *span, uint8_t *teis)
{
	FILE *list = list_of(span, "r");
	size_t count = list == NULL ? 0 : fread(teis, 1, MOST_TEIS, list);

	if (list != NULL)
		fclose(list);
	return count;
}

static void save_teis(const struct span *span)
{
	FILE *list = list_of(span, "w");
	uint8_t teis[MOST_TEIS];
	size_t count = 0;

	note(span, "teis", lapd_side_teis(&span->side, teis, sizeof teis, &count));
	if (list == NULL || fwrite(teis, 1, count, list) != count || fclose(list) != 0)
		perror("the list of TEIs");
}

/* Checks the next TEI. Only one check runs at a time: its outcome begins the next one. */
static void check_next(struct span *span)
{
	if (span->unchecked_count > 0)
		note(span, "check", lapd_side_check_tei(&span->side, span->unchecked[--span->unchecked_count], clock_now()));
}

/* A terminal that answers a check by a TEI that the network does not hold has to request another. The
 * frame is an Identity check response: Q.921 5.3. */
static void remove_unknown(struct span *span, const uint8_t *frame, size_t length)
{
	uint8_t teis[MOST_TEIS];
	size_t count = 0;

	if (length < 8 || frame[0] >> 2 != 63 || frame[3] != 0x0f || frame[6] != 5 || frame[7] >> 1 >= MOST_TEIS)
		return;
	note(span, "teis", lapd_side_teis(&span->side, teis, sizeof teis, &count));
	if (memchr(teis, frame[7] >> 1, count) == NULL)
		note(span, "remove", lapd_side_remove_tei(&span->side, frame[7] >> 1, clock_now()));
}

/* Layer 1 is up. Meanwhile terminals may have been unplugged, or have lost their TEI. */
static void start(struct span *span)
{
	establish(span);
	if (!span->is_bus)
		return;
	note(span, "teis", lapd_side_teis(&span->side, span->unchecked, MOST_TEIS, &span->unchecked_count));
	if (span->unchecked_count == 0)
		note(span, "remove_all", lapd_side_remove_all(&span->side, clock_now()));
	check_next(span);
}

/* ---- Reports of a side. */

static void report(struct span *span, const lapd_primitive *item, const uint8_t *octets)
{
	print_primitive(lapd_line_name(span->line), item);
	switch (item->kind) {
	case LAPD_DATA_IND:
		pass_on(span, item->tei, octets, item->octets);
		break;
	case LAPD_UNIT_DATA_IND: /* it is not acknowledged: what has no room is lost */
		is_given(span->other, octets, item->octets);
		break;
	case LAPD_ESTABLISH_IND:
	case LAPD_ESTABLISH_CONF: /* this has ended the busy condition */
		if (span->kept[item->tei].is_kept)
			note(span, "busy", lapd_side_busy(&span->side, 0, item->tei, 1, clock_now()));
		break;
	case LAPD_RELEASE_IND:
	case LAPD_TEI_GONE:
	case LAPD_TEI_FAILED:
		if (span->is_bus && span->terminal == item->tei)
			span->terminal = LAPD_GROUP_TEI;
		span->again = clock_now() + PAUSE;
		break;
	case LAPD_TEI_GOT:
		establish(span);
		break;
	case LAPD_TEI_FREE:
	case LAPD_TEI_IN_USE:
	case LAPD_TEI_DOUBLED:
		check_next(span);
		/* fall through */
	case LAPD_TEI_GIVEN:
		save_teis(span);
		break;
	default:
		break;
	}
}

/* Sends the frames of the calls so far, and takes what they report. Returns whether there was
 * anything: a report may have made calls for this span and for the other one. */
static bool fetch(struct span *span)
{
	uint8_t octets[LAPD_MOST_FRAME];
	lapd_primitive item;
	bool is_any = false;
	size_t length;

	for (; check(lapd_side_frame(&span->side, octets, sizeof octets, &length), "frame"), length > 0; is_any = true)
		send_frame(span, octets, length);
	check(lapd_side_primitive(&span->side, &item, octets, sizeof octets), "primitive");
	if (item.kind != LAPD_NOTHING)
		report(span, &item, octets);
	return is_any || item.kind != LAPD_NOTHING;
}

/* At the end only frames matter: layer 3 has ended, and messages are not passed on. */
static void fetch_last(struct span *span)
{
	uint8_t octets[LAPD_MOST_FRAME];
	lapd_primitive item;
	size_t left;

	do {
		check(lapd_side_next(&span->side, &item, octets, sizeof octets, &left), "next");
		if (item.kind == LAPD_FRAME)
			send_frame(span, octets, item.octets);
		span->releasing -= item.kind == LAPD_RELEASE_CONF;
	} while (left > 0);
}

void settle(struct span *span)
{
	if (span->is_ending) {
		fetch_last(span);
		return;
	}
	do {
		pass_on_kept(span);
		pass_on_kept(span->other);
	} while (fetch(span) || fetch(span->other));
}

/* ---- The loop. */

/* Passes in every frame that has arrived. Returns a moment for which timers may expire: no other
 * frame had arrived by then. */
static uint64_t receive(struct span *span)
{
	uint8_t frame[LAPD_LINE_MOST_FRAME];
	enum lapd_line_event event;
	uint64_t now = clock_now();
	size_t length;
	int left;

	for (left = MOST_EVENTS; left > 0; left--) {
		event = lapd_line_next(span->line, frame, sizeof frame, &length);
		if (event == LAPD_LINE_NOTHING)
			break;
		if (event == LAPD_LINE_UP)
			start(span);
		if (event != LAPD_LINE_FRAME)
			print_event(span->line, event);
		else if (span->is_bus)
			remove_unknown(span, frame, length);
		if (event == LAPD_LINE_FRAME)
			note(span, "take", lapd_side_take(&span->side, frame, length, now));
		settle(span);
		now = clock_now();
	}
	return now;
}

void serve(struct span *span)
{
	uint64_t now = receive(span);
	uint8_t expired;

	do {
		check(lapd_side_tick(&span->side, now, &expired), "tick");
		settle(span);
	} while (expired);
	if (span->again <= now) {
		establish(span);
		settle(span);
	}
}

int prepare(const struct span *span, struct pollfd *wait)
{
	int most = lapd_line_prepare(span->line, wait);
	uint64_t moment;

	check(lapd_side_deadline(&span->side, &moment), "deadline");
	return shorter(most, wait_time(span->again < moment ? span->again : moment, clock_now()));
}

/* Each link is released after 4 T200 at the latest. */
void release(struct span *span)
{
	uint8_t teis[MOST_TEIS];
	lapd_result code;
	size_t count = 0;

	span->is_ending = true;
	span->again = LAPD_NEVER;
	note(span, "links", lapd_side_links(&span->side, 0, teis, sizeof teis, &count));
	while (count-- > 0) {
		code = lapd_side_release(&span->side, 0, teis[count], clock_now());
		span->releasing += code == LAPD_DONE;
		note(span, "release", code);
	}
	settle(span);
}
