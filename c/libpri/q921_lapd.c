/* SPDX-License-Identifier: GPL-2.0-only
 *
 * libpri's layer 2 on liblapd, to be compiled with q921_queue.c and q921_debug.c in place of
 * libpri's q921.c. The file includes libpri's internal headers and becomes a part of libpri.so, so
 * it is under libpri's terms, the GNU General Public License, version 2. It copies no code of
 * libpri.
 *
 * Each D channel of libpri (struct pri) has one side of liblapd:
 *   point to point, network        a network side that holds TEI 0
 *   point to point, CPE            a user side with the fixed TEI 0
 *   point to multipoint, network   a network side without TEIs; libpri has a link for each TEI that
 *                                  the side assigns (pri_link_new)
 *   point to multipoint, CPE       a user side without a TEI, and libpri's one link
 *
 * One event of libpri's scheduler waits for the side's deadline. Primitives are passed to Q.931
 * (q931_receive, q931_dl_event). An event for the program is returned by q921_receive, or by
 * pri_schedule_run after a timer (schedev). */
#include "q921_lapd.h"

#include <errno.h>
#include <limits.h>
#include <stdlib.h>
#include <string.h>
#include <sys/random.h>
#include <time.h>

#define CHECK_SEQUENCE 2 /* octets that libpri adds to the length of each frame, and ignores */
#define AUTOMATIC_TEIS (Q921_TEI_AUTO_LAST - Q921_TEI_AUTO_FIRST + 1)
#define LONGEST_TIMER 3600000

/* struct pri has no field for the channel, and libpri never frees a struct pri. So the pointer is
 * kept in V(A) and V(S) of its first link, which only q921.c uses. */
#define PLACE offsetof(struct q921_link, v_a)
_Static_assert(offsetof(struct q921_link, v_s) == PLACE + sizeof(int), "they are adjacent");
_Static_assert(sizeof(void *) <= 2 * sizeof(int), "a pointer fits");

struct channel *channel_of(const struct pri *ctrl)
{
	struct channel *channel;

	memcpy(&channel, (const char *)&ctrl->link + PLACE, sizeof channel);
	return channel;
}

static struct channel *new_channel(struct pri *ctrl)
{
	struct channel *channel = calloc(1, sizeof *channel);

	if (!channel) {
		pri_error(ctrl, "Out of memory for layer 2\n");
		return NULL;
	}
	channel->ctrl = ctrl;
	memcpy((char *)&ctrl->link + PLACE, &channel, sizeof channel);
	return channel;
}

uint64_t clock_now(void)
{
	struct timespec time;

	clock_gettime(CLOCK_MONOTONIC, &time);
	return (uint64_t)time.tv_sec * 1000 + (uint64_t)time.tv_nsec / 1000000;
}

static bool keeps_up(const struct pri *ctrl)
{
	return ctrl->l2_persistence == PRI_L2_PERSISTENCE_KEEP_UP;
}

static struct q921_link *first_link(struct pri *ctrl)
{
	return PTMP_MODE(ctrl) ? ctrl->link.next : &ctrl->link;
}

struct q921_link *link_of(struct pri *ctrl, int tei)
{
	struct q921_link *link = first_link(ctrl);

	while (BRI_NT_PTMP(ctrl) && link && link->tei != tei)
		link = link->next;
	return link;
}

/* False for SAPI 1, which libpri uses for GR-303. */
static bool is_served(const struct q921_link *link)
{
	return link->sapi == Q921_SAPI_CALL_CTRL || link->sapi == Q921_SAPI_LAYER2_MANAGEMENT;
}

uint8_t address(const struct q921_link *link)
{
	return link->tei < 0 ? 0 : (uint8_t)link->tei;
}

bool get_state(struct channel *channel, const struct q921_link *link, lapd_link_state *state)
{
	uint8_t tei = address(link);

	return lapd_side_state(&channel->side, Q921_SAPI_CALL_CTRL, tei, state) == LAPD_DONE;
}

/* Copies the state of the side's link or, if a terminal has no TEI and so no link, that of the
 * terminal. On a network a link whose TEI was removed keeps its state. */
static void copy_state(struct channel *channel, struct q921_link *link)
{
	lapd_link_state state;
	uint8_t terminal, tei;

	if (get_state(channel, link, &state))
		set_state(link, state.state);
	else if (lapd_side_tei(&channel->side, &terminal, &tei) == LAPD_DONE && terminal > 0)
		set_state(link, terminal);
}

/* ---- Sending. */

/* Sends a frame. The buffer has CHECK_SEQUENCE more octets than the frame. */
static void send_frame(struct pri *ctrl, uint8_t *octets, size_t length)
{
	int written, size = (int)length + CHECK_SEQUENCE;

	ctrl->q921_txcount++;
	if (ctrl->debug & (PRI_DEBUG_Q921_DUMP | PRI_DEBUG_Q921_RAW))
		q921_dump(ctrl, (q921_h *)octets, (int)length, ctrl->debug, 1);
	memset(octets + length, 0, CHECK_SEQUENCE);
	written = ctrl->write_func ? ctrl->write_func(ctrl, octets, size) : 0;
	if (written != size)
		pri_error(ctrl, "Short write: %d/%d (%s)\n", written, size, strerror(errno));
}

static void send_frames(struct channel *channel)
{
	uint8_t octets[LAPD_MOST_FRAME + CHECK_SEQUENCE];
	size_t count;

	while (!lapd_side_frame(&channel->side, octets, LAPD_MOST_FRAME, &count) && count > 0)
		send_frame(channel->ctrl, octets, count);
}

/* ---- Timers. */

static void on_time(void *of);

/* Schedules libpri's event again only if it would be too late. If it is early, nothing is due then,
 * and it is scheduled again. */
static void wait_until(struct channel *channel, uint64_t moment)
{
	uint64_t now;
	int wait;

	if (moment == LAPD_NEVER || (channel->event && channel->due <= moment))
		return;
	now = clock_now();
	wait = moment > now ? (int)(moment - now) : 0;
	pri_schedule_del(channel->ctrl, channel->event);
	channel->due = moment;
	channel->event = pri_schedule_event(channel->ctrl, wait, on_time, channel);
}

static void wait_for_side(struct channel *channel)
{
	uint64_t moment;

	lapd_side_deadline(&channel->side, &moment);
	wait_until(channel, channel->has_next_event ? 0 : moment);
}

static void finish(struct channel *channel)
{
	send_frames(channel);
	wait_for_side(channel);
}

/* ---- Starting a side, and establishing its links. */

static uint32_t within(int value, uint32_t least, uint32_t most)
{
	return value < (int)least ? least : value > (int)most ? most : (uint32_t)value;
}

static lapd_settings settings_of(const struct pri *ctrl)
{
	const int *timers = ctrl->timers;
	lapd_settings settings = LAPD_PRIMARY;

	settings.t200 = within(timers[PRI_TIMER_T200], 1, LONGEST_TIMER);
	settings.t201 = within(timers[PRI_TIMER_T201], 1, LONGEST_TIMER);
	settings.t202 = within(timers[PRI_TIMER_T202], 1, LONGEST_TIMER);
	settings.t203 = within(timers[PRI_TIMER_T203], 1, LONGEST_TIMER);
	settings.n200 = (uint8_t)within(timers[PRI_TIMER_N200], 1, 100);
	settings.k0 = (uint8_t)within(timers[PRI_TIMER_K], 1, 127);
	return settings;
}

/* Draws a seed from the system, so that terminals on one bus request TEIs with different references
 * (Ri). */
static bool draw_seed(struct pri *ctrl, uint64_t *seed)
{
	if (getrandom(seed, sizeof *seed, 0) == (ssize_t)sizeof *seed)
		return true;
	pri_error(ctrl, "Layer 2 was not created: no random numbers: %s\n", strerror(errno));
	return false;
}

/* Creates the side in place of the present one, if any, which stays if this fails. */
static bool create_side(struct channel *channel)
{
	static const uint8_t tei_0[] = { 0 };
	lapd_settings settings = settings_of(channel->ctrl);
	bool is_ptp = PTP_MODE(channel->ctrl);
	lapd_result code;

	if (!draw_seed(channel->ctrl, &settings.seed))
		return false;
	if (NT_MODE(channel->ctrl))
		code = lapd_side_network(&channel->side, &settings, tei_0, is_ptp ? 1 : 0);
	else
		code = lapd_side_user(&channel->side, &settings, is_ptp ? 0 : LAPD_NO_TEI);
	if (code != LAPD_DONE) {
		pri_error(channel->ctrl, "Layer 2 was not created: %s\n", lapd_code_string(code));
		return false;
	}
	channel->n200 = settings.n200;
	channel->k = settings.k0;
	channel->is_created = true;
	return true;
}

/* Passes T200 to T203 to the side, as the program may have changed them: libpri does not report
 * that. They apply to timers that are started from now on. */
static void set_timers(struct channel *channel)
{
	lapd_settings it = settings_of(channel->ctrl);

	lapd_side_set_timers(&channel->side, it.t200, it.t201, it.t202, it.t203);
}

/* Follows a change of N200 or K. liblapd has no call for them, so a point to point side is created
 * again when its link is to be established; its primitives must have been fetched by then. */
static void follow_limits(struct channel *channel)
{
	lapd_settings it = settings_of(channel->ctrl);
	bool is_new = it.n200 != channel->n200 || it.k0 != channel->k;

	if (is_new && PTP_MODE(channel->ctrl) && !channel->is_delivering)
		create_side(channel);
}

static void stop_restart(struct q921_link *link)
{
	pri_schedule_del(link->ctrl, link->restart_timer);
	link->restart_timer = 0;
}

/* Establishes a link that is down. */
static void establish(struct channel *channel, struct q921_link *link)
{
	lapd_link_state state;
	uint8_t tei = address(link);

	stop_restart(link);
	if (get_state(channel, link, &state) && state.state != Q921_TEI_ASSIGNED)
		return;
	follow_limits(channel);
	if (lapd_side_establish(&channel->side, Q921_SAPI_CALL_CTRL, tei, clock_now()) == LAPD_DONE)
		copy_state(channel, link);
}

static void on_restart(void *of)
{
	struct q921_link *link = of;
	struct channel *channel = channel_of(link->ctrl);

	link->restart_timer = 0;
	set_timers(channel);
	establish(channel, link);
	finish(channel);
}

/* Establishes the link after T200 if the program keeps layer 2 up, which libpri does by default. */
static void restart_later(struct q921_link *link)
{
	struct pri *ctrl = link->ctrl;
	int t200 = ctrl->timers[PRI_TIMER_T200];

	if (!keeps_up(ctrl))
		return;
	stop_restart(link);
	link->restart_timer = pri_schedule_event(ctrl, t200, on_restart, link);
}

static void request_tei(struct channel *channel, struct q921_link *link)
{
	if (keeps_up(channel->ctrl)) {
		establish(channel, link);
		return;
	}
	lapd_side_ask_tei(&channel->side, clock_now());
	copy_state(channel, link);
}

static void on_network_up(void *of)
{
	struct pri *ctrl = of;

	ctrl->schedev = 1;
	ctrl->ev.gen.e = PRI_EVENT_DCHAN_UP;
}

static void start_side(struct channel *channel)
{
	struct pri *ctrl = channel->ctrl;

	if (!create_side(channel))
		return;
	if (PTP_MODE(ctrl)) {
		establish(channel, &ctrl->link);
	} else if (TE_MODE(ctrl)) {
		request_tei(channel, ctrl->link.next);
	} else {
		lapd_side_remove_all(&channel->side, clock_now());
		pri_schedule_event(ctrl, 0, on_network_up, ctrl);
	}
}

/* Prepares the side for a timer, a frame or a request. The first of them creates it, and q921_start
 * does not, so that it has the settings and debug flags that a program sets after pri_new. */
static void prepare_side(struct channel *channel)
{
	if (channel->is_created)
		set_timers(channel);
	else
		start_side(channel);
}

/* ---- TEIs. */

/* Checks the next TEI that needs it. The side runs one check at a time, and refuses others. */
static void check_next_tei(struct channel *channel)
{
	struct q921_link *link = channel->ctrl->link.next;

	while (link && link->tei_check == Q921_TEI_CHECK_NONE)
		link = link->next;
	if (link)
		lapd_side_check_tei(&channel->side, (uint8_t)link->tei, clock_now());
}

/* A check has ended, or a TEI was removed. The primitives of its link follow, and only then is the
 * link destroyed. */
static void end_check(struct channel *channel, int tei, bool is_removed)
{
	struct q921_link *link = link_of(channel->ctrl, tei);

	if (!link)
		return;
	link->tei_check = Q921_TEI_CHECK_NONE;
	link->mdl_free_me = is_removed;
	channel->loses_links = channel->loses_links || is_removed;
}

/* Adds libpri's link for a TEI that was assigned. If none is left, all are checked. */
static void add_link(struct channel *channel, int tei)
{
	struct pri *ctrl = channel->ctrl;
	struct q921_link *last = &ctrl->link, *link = pri_link_new(ctrl, Q921_SAPI_CALL_CTRL, tei);
	int links = 1;

	if (!link) {
		pri_error(ctrl, "Out of memory for the link of TEI %d\n", tei);
		return;
	}
	for (; last->next; last = last->next)
		links++;
	last->next = link;
	set_state(link, Q921_TEI_ASSIGNED);
	restart_later(link);
	for (link = ctrl->link.next; link && links >= AUTOMATIC_TEIS; link = link->next)
		link->tei_check = Q921_TEI_CHECK_DEAD;
}

static void destroy_link(struct q921_link *link)
{
	stop_restart(link);
	free_messages(link, UINT_MAX);
	set_state(link, Q921_TEI_UNASSIGNED);
	q931_dl_event(link, Q931_DL_EVENT_TEI_REMOVAL);
	pri_link_destroy(link);
}

static void destroy_lost_links(struct channel *channel)
{
	struct q921_link *link, **place = &channel->ctrl->link.next;

	channel->loses_links = false;
	while ((link = *place)) {
		if (link->mdl_free_me) {
			*place = link->next;
			destroy_link(link);
		} else {
			place = &link->next;
		}
	}
}

/* The link is down: its messages are lost, and Q.931 is informed. */
static void link_down(struct q921_link *link, enum Q931_DL_EVENT event)
{
	free_messages(link, UINT_MAX);
	restart_later(link);
	q931_dl_event(link, event);
}

/* The terminal drops its TEI after an error. LAPD_TEI_GONE and a primitive of its link follow. */
static void drop_tei(struct channel *channel, struct q921_link *link)
{
	lapd_result code = lapd_side_remove_tei(&channel->side, address(link), clock_now());

	if (code == LAPD_DONE)
		channel->drops_tei = true;
	else if (code != LAPD_NO_LINK) /* its TEI is lost already */
		pri_error(channel->ctrl, "TEI=%d was not dropped: %s\n", link->tei,
			lapd_code_string(code));
}

/* The terminal has lost its TEI. If the network removed it, the terminal requests another, as in
 * libpri. If the terminal dropped it, the next establishment requests one. */
static void lose_tei(struct channel *channel)
{
	struct q921_link *link = channel->ctrl->link.next;
	bool is_dropped = channel->drops_tei;

	channel->loses_tei = channel->drops_tei = false;
	if (link->tei > 0)
		link->tei = -link->tei;
	copy_state(channel, link);
	q931_dl_event(link, Q931_DL_EVENT_TEI_REMOVAL);
	if (!is_dropped)
		request_tei(channel, link);
}

static pri_event *tei_event(struct channel *channel, const lapd_primitive *primitive)
{
	struct pri *ctrl = channel->ctrl;
	struct q921_link *link = ctrl->link.next;

	switch (primitive->kind) {
	case LAPD_TEI_GOT:
		link->tei = primitive->tei;
		copy_state(channel, link);
		ctrl->ev.gen.e = PRI_EVENT_DCHAN_UP;
		return &ctrl->ev;
	case LAPD_TEI_GONE:
		channel->loses_tei = true; /* after the primitives of its link, which follow */
		break;
	case LAPD_TEI_FAILED:
		if (!keeps_up(ctrl))
			pri_error(ctrl, "Unable to receive TEI from network!\n");
		copy_state(channel, link);
		restart_later(link);
		break;
	case LAPD_TEI_GIVEN:
		add_link(channel, primitive->tei);
		break;
	case LAPD_TEI_FREE:
	case LAPD_TEI_DOUBLED:
	case LAPD_TEI_IN_USE:
		end_check(channel, primitive->tei, primitive->kind != LAPD_TEI_IN_USE);
		break;
	}
	return NULL;
}

/* ---- Primitives of links. */

/* Prints an MDL-ERROR, the usual ones only for debugging. On a bus the letters C, D, G and H
 * suggest that the peer has no TEI or another one: a terminal then drops its TEI, and a network
 * checks it. */
static void mdl_error(struct channel *channel, struct q921_link *link, char letter)
{
	struct pri *ctrl = channel->ctrl;
	const char *quiet = PTP_MODE(ctrl) ? "FGHI" : "CDFGHI";

	if (!strchr(quiet, letter) || ctrl->debug & PRI_DEBUG_Q921_STATE)
		pri_message(ctrl, "TEI=%d MDL-ERROR (%c) in state %d(%s)\n", link->tei, letter,
			link->state, state_name(link->state));
	if (!PTMP_MODE(ctrl) || !strchr("CDGH", letter))
		return;
	if (TE_MODE(ctrl))
		drop_tei(channel, link);
	else
		link->tei_check = Q921_TEI_CHECK_DEAD;
}

static pri_event *pass_to_q931(struct q921_link *link, uint8_t *octets, size_t length)
{
	struct pri *ctrl = link->ctrl;
	int result;

	if (ctrl->debug & PRI_DEBUG_Q931_DUMP)
		q931_dump(ctrl, link->tei, (q931_h *)octets, (int)length, 0);
	result = q931_receive(link, (q931_h *)octets, (int)length);
	return result != -1 && result & Q931_RES_HAVEEVENT ? &ctrl->ev : NULL;
}

static void link_up(struct channel *channel, struct q921_link *link, enum Q931_DL_EVENT event)
{
	stop_restart(link);
	submit_messages(channel, link);
	q931_dl_event(link, event);
}

static pri_event *link_event(struct channel *channel, struct q921_link *link,
	const lapd_primitive *primitive, uint8_t *octets)
{
	copy_state(channel, link);
	switch (primitive->kind) {
	case LAPD_DATA_IND:
	case LAPD_UNIT_DATA_IND:
		return pass_to_q931(link, octets, primitive->octets);
	case LAPD_ESTABLISH_IND:
		link_up(channel, link, Q931_DL_EVENT_DL_ESTABLISH_IND);
		break;
	case LAPD_ESTABLISH_CONF:
		link_up(channel, link, Q931_DL_EVENT_DL_ESTABLISH_CONFIRM);
		break;
	case LAPD_RELEASE_IND:
		link_down(link, Q931_DL_EVENT_DL_RELEASE_IND);
		break;
	case LAPD_RELEASE_CONF:
		link_down(link, Q931_DL_EVENT_DL_RELEASE_CONFIRM);
		break;
	case LAPD_ACKNOWLEDGED:
	case LAPD_DROPPED:
		free_messages(link, primitive->count);
		submit_messages(channel, link);
		break;
	case LAPD_MDL_ERROR:
		mdl_error(channel, link, (char)primitive->letter);
		break;
	}
	return NULL;
}

/* ---- Delivery of frames and primitives. */

/* Fetches all frames and primitives. Returns the event for the program, or NULL: a frame or a timer
 * causes at most one message or one TEI. */
static pri_event *deliver_all(struct channel *channel)
{
	lapd_side *side = &channel->side;
	uint8_t octets[LAPD_MOST_MESSAGE + 1];
	pri_event *event = NULL, *next;
	struct q921_link *link;
	lapd_primitive it;

	for (;;) {
		send_frames(channel);
		if (lapd_side_primitive(side, &it, octets, sizeof octets) != LAPD_DONE
			|| it.kind == LAPD_NOTHING)
			return event;
		link = link_of(channel->ctrl, it.tei);
		if (it.kind >= LAPD_TEI_GOT)
			next = tei_event(channel, &it);
		else
			next = link ? link_event(channel, link, &it, octets) : NULL;
		event = next ? next : event;
	}
}

/* DCHAN_UP or DCHAN_DOWN, if the state of a point to point link has changed, or NULL. If the
 * program already gets an event, this one follows by the next timer. */
static pri_event *up_or_down(struct channel *channel, bool has_event)
{
	struct pri *ctrl = channel->ctrl;
	bool is_up;

	if (!PTP_MODE(ctrl))
		return NULL;
	copy_state(channel, &ctrl->link);
	is_up = ctrl->link.state >= Q921_MULTI_FRAME_ESTABLISHED;
	channel->has_next_event = is_up != channel->is_up && has_event;
	if (is_up == channel->is_up || has_event)
		return NULL;
	channel->is_up = is_up;
	ctrl->ev.gen.e = is_up ? PRI_EVENT_DCHAN_UP : PRI_EVENT_DCHAN_DOWN;
	return &ctrl->ev;
}

/* Delivers all, and schedules the side's next timer. Returns the event for the program, or NULL. */
static pri_event *deliver(struct channel *channel)
{
	pri_event *event, *last;

	channel->is_delivering = true;
	event = deliver_all(channel);
	channel->is_delivering = false;
	if (channel->loses_tei)
		lose_tei(channel);
	if (channel->loses_links)
		destroy_lost_links(channel);
	check_next_tei(channel);
	last = up_or_down(channel, event != NULL);
	finish(channel);
	return event ? event : last;
}

static void on_time(void *of)
{
	struct channel *channel = of;
	uint8_t expired;

	channel->event = 0;
	prepare_side(channel);
	while (lapd_side_tick(&channel->side, clock_now(), &expired) == LAPD_DONE && expired)
		;
	if (deliver(channel))
		channel->ctrl->schedev = 1;
}

/* ---- The functions that libpri calls. */

void q921_start(struct q921_link *link)
{
	struct pri *ctrl = link->ctrl;
	struct channel *channel = channel_of(ctrl);

	if (!is_served(link)) {
		pri_error(ctrl, "SAPI %d, of GR-303, is not served by this layer 2\n", link->sapi);
		return;
	}
	if (channel) { /* the link of an assigned TEI */
		pri_schedule_event(ctrl, 0, on_network_up, ctrl);
		return;
	}
	channel = new_channel(ctrl);
	if (channel)
		wait_until(channel, 0);
}

void q921_bring_layer2_up(struct pri *ctrl)
{
	struct channel *channel = channel_of(ctrl);
	struct q921_link *link;

	if (!channel)
		return;
	prepare_side(channel);
	for (link = first_link(ctrl); link; link = PTMP_MODE(ctrl) ? link->next : NULL)
		if (!link->restart_timer)
			establish(channel, link);
	finish(channel);
}

int q921_transmit_uiframe(struct q921_link *link, void *buf, int len)
{
	struct channel *channel = channel_of(link->ctrl);
	lapd_result code;

	if (!channel)
		return -1;
	prepare_side(channel);
	code = lapd_side_unit(&channel->side, Q921_SAPI_CALL_CTRL, address(link), buf,
		(size_t)len, clock_now());
	if (code != LAPD_DONE)
		pri_error(link->ctrl, "TEI=%d Unit data was not sent: %s\n", link->tei,
			lapd_code_string(code));
	finish(channel);
	return code == LAPD_DONE ? 0 : -1;
}

int q921_transmit_iframe(struct q921_link *link, void *buf, int len, int cr)
{
	struct pri *ctrl = link->ctrl;
	struct channel *channel = channel_of(ctrl);
	struct q921_frame *frame;

	if (!channel || link->tei == Q921_TEI_GROUP || !is_served(link)) {
		pri_error(ctrl, "No link for a message of SAPI %d, TEI %d\n", link->sapi,
			link->tei);
		return 0;
	}
	frame = queue_message(link, buf, len);
	if (!frame) {
		pri_error(ctrl, "Out of memory for a message to layer 2\n");
		return -1;
	}
	prepare_side(channel);
	if (ctrl->debug & PRI_DEBUG_Q931_DUMP)
		q931_dump(ctrl, link->tei, (q931_h *)frame->h.data, len, 1);
	if (submit_messages(channel, link) == LAPD_NOT_ESTABLISHED)
		establish(channel, link);
	finish(channel);
	return 0;
}

static bool is_check_request(const uint8_t *octets, int length)
{
	return length == 8 && octets[3] == 0x0f && octets[6] == Q921_TEI_IDENTITY_CHECK_REQUEST;
}

/* The event for a SABME whose C/R bit says that both ends have the same role, or NULL. Q.921 has
 * no such frame, so the side does not receive it. */
static pri_event *same_role(struct pri *ctrl, const uint8_t *octets)
{
	bool by_network = octets[0] & 2, is_sabme = (octets[2] & 0xef) == 0x6f;

	if (!is_sabme || octets[0] >> 2 != Q921_SAPI_CALL_CTRL)
		return NULL;
	ctrl->remotetype = by_network ? PRI_NETWORK : PRI_CPE;
	if (ctrl->remotetype != ctrl->localtype)
		return NULL;
	return pri_mkerror(ctrl, by_network
		? "We think we're the network, but they think they're the network, too."
		: "We think we're the CPE, but they think they're the CPE too.\n");
}

/* Whether the frame is of a terminal that had its TEI before this network started. */
static bool is_of_unknown_tei(struct pri *ctrl, const uint8_t *octets)
{
	int sapi = octets[0] >> 2, tei = octets[1] >> 1;

	return BRI_NT_PTMP(ctrl) && sapi == Q921_SAPI_CALL_CTRL && tei >= Q921_TEI_AUTO_FIRST
		&& tei != Q921_TEI_GROUP && !link_of(ctrl, tei);
}

/* Whether the side must not receive the frame. A point to point link has no TEI management: its
 * terminal only answers checks. */
static bool is_left_out(struct pri *ctrl, const uint8_t *octets, int length)
{
	return PTP_MODE(ctrl) && octets[0] >> 2 == Q921_SAPI_LAYER2_MANAGEMENT
		&& !(TE_MODE(ctrl) && is_check_request(octets, length));
}

pri_event *q921_receive(struct pri *ctrl, q921_h *h, int len)
{
	struct channel *channel = channel_of(ctrl);
	const uint8_t *octets = (const uint8_t *)h;
	pri_event *event;
	lapd_result code;

	len -= CHECK_SEQUENCE;
	ctrl->q921_rxcount++;
	if (!channel || len < 3)
		return NULL;
	prepare_side(channel);
	if (ctrl->debug & (PRI_DEBUG_Q921_DUMP | PRI_DEBUG_Q921_RAW))
		q921_dump(ctrl, h, len, ctrl->debug, 0);
	event = same_role(ctrl, octets);
	if (event || is_left_out(ctrl, octets, len))
		return event;
	if (is_of_unknown_tei(ctrl, octets))
		code = lapd_side_remove_tei(&channel->side, octets[1] >> 1, clock_now());
	else
		code = lapd_side_take(&channel->side, octets, (size_t)len, clock_now());
	if (code != LAPD_DONE)
		pri_error(ctrl, "A frame was not processed: %s\n", lapd_code_string(code));
	return deliver(channel);
}
