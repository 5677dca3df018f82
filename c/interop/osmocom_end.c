#include "their_end.h"

#include <stdlib.h>
#include <string.h>
#include <time.h>

#include <osmocom/abis/lapd.h>
#include <osmocom/core/application.h>
#include <osmocom/core/logging.h>
#include <osmocom/core/msgb.h>
#include <osmocom/core/talloc.h>
#include <osmocom/core/timer.h>
#include <osmocom/core/timer_compat.h>

#define ROOM 1024
#define HEADROOM 64 /* lapd_core writes a header before the data that it is passed */

const char their_name[] = "Osmocom";
const bool they_can_release = false;

static struct lapd_instance *end;
static uint8_t end_tei;

static void on_transmit(struct msgb *frame, void *calls)
{
	((const struct their_calls *)calls)->write(msgb_data(frame), msgb_length(frame));
	msgb_free(frame);
}

static void on_receive(struct osmo_dlsap_prim *delivered, uint8_t tei, uint8_t sapi, void *calls)
{
	static const enum their_primitive primitives[] = { [PRIM_DL_DATA] = THEIR_DATA,
		                                           [PRIM_DL_EST] = THEIR_ESTABLISHED,
		                                           [PRIM_DL_REL] = THEIR_RELEASED,
		                                           [PRIM_MDL_ERROR] = THEIR_ERROR };
	struct msgb *message = delivered->oph.msg;
	const uint8_t *octets = message == NULL ? NULL : message->l3h;

	(void)tei;
	(void)sapi;
	((const struct their_calls *)calls)
	    ->deliver(primitives[delivered->oph.primitive], octets, octets == NULL ? 0 : msgb_l3len(message));
	if (message != NULL)
		msgb_free(message);
}

/* Osmocom's libraries require a context for their buffers, and a log, which is silent here unless
 * INTEROP_LOG is set. */
static void begin(void)
{
	static void *context;

	if (context != NULL)
		return;
	context = talloc_named_const(NULL, 0, "interop");
	msgb_talloc_ctx_init(context, 0);
	osmo_init_logging2(context, NULL);
	log_set_log_level(osmo_stderr_target, getenv("INTEROP_LOG") == NULL ? LOGL_FATAL : LOGL_DEBUG);
}

void their_end(bool network, uint8_t tei, uint8_t k, int t203, const struct their_calls *calls)
{
	struct lapd_profile profile = lapd_profile_isdn;

	begin();
	if (end != NULL)
		lapd_instance_free(end);
	profile.k[0] = k;
	profile.t203_sec = t203 / 1000;
	end = lapd_instance_alloc2(network, on_transmit, (void *)calls, on_receive, (void *)calls, &profile, "interop");
	end_tei = tei;
	if (end == NULL || lapd_tei_alloc(end, tei) == NULL)
		abort();
}

static struct msgb *buffer_of(const uint8_t *octets, size_t length)
{
	struct msgb *buffer = msgb_alloc_headroom(ROOM, HEADROOM, "interop");

	memcpy(msgb_put(buffer, length), octets, length);
	buffer->l2h = buffer->l3h = buffer->data;
	return buffer;
}

void their_take(const uint8_t *frame, size_t length)
{
	int error;

	lapd_receive(end, buffer_of(frame, length), &error);
}

void their_establish(void)
{
	lapd_sap_start(end, end_tei, 0);
}

void their_release(void)
{
	lapd_sap_stop(end, end_tei, 0);
}

void their_give(const uint8_t *message, size_t length)
{
	lapd_transmit(end, end_tei, 0, buffer_of(message, length));
}

int their_wait(int most)
{
	int wait;

	osmo_timers_prepare();
	wait = osmo_timers_nearest_ms();
	return wait < 0 || wait > most ? most : wait;
}

void their_tick(void)
{
	osmo_timers_prepare();
	osmo_timers_update();
}

void their_clock(uint64_t milliseconds)
{
	osmo_gettimeofday_override = true;
	osmo_clock_override_enable(CLOCK_MONOTONIC, true);
	osmo_gettimeofday_override_add((time_t)(milliseconds / 1000), (suseconds_t)(milliseconds % 1000 * 1000));
	osmo_clock_override_add(CLOCK_MONOTONIC, (time_t)(milliseconds / 1000), (long)(milliseconds % 1000 * 1000000));
}
