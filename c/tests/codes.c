/* Tests the codes that calls return because of the handle, the results of queries, names, and that
 * buffers that are too small are unchanged. */
#include "test.h"

#include <string.h>

static const uint8_t message[] = { 0x08, 0x01 };
static uint8_t buffer[LAPD_MOST_FRAME];

/* All calls that pass something in, with numbers in range, return this code. */
static void all_return(lapd_side *side, uint32_t code)
{
	uint8_t expired = 7;

	WANT_CODE(lapd_side_take(side, message, sizeof message, 0), code);
	WANT_CODE(lapd_side_establish(side, 0, 64, 0), code);
	WANT_CODE(lapd_side_release(side, 0, 64, 0), code);
	WANT_CODE(lapd_side_give(side, 0, 64, message, sizeof message, 0), code);
	WANT_CODE(lapd_side_unit(side, 0, 64, message, sizeof message, 0), code);
	WANT_CODE(lapd_side_busy(side, 0, 64, 1, 0), code);
	WANT_CODE(lapd_side_ask_tei(side, 0), code);
	WANT_CODE(lapd_side_check_tei(side, 64, 0), code);
	WANT_CODE(lapd_side_check_all(side, 0), code);
	WANT_CODE(lapd_side_remove_tei(side, 64, 0), code);
	WANT_CODE(lapd_side_remove_all(side, 0), code);
	WANT_CODE(lapd_side_tick(side, 0, &expired), code);
	WANT(expired == 0);
}

/* Calls with invalid links and TEIs. */
static void all_are_out_of_range(lapd_side *side)
{
	lapd_link_state state;
	lapd_link_counters counters;

	WANT_CODE(lapd_side_establish(side, 1, 64, 0), LAPD_OUT_OF_RANGE);
	WANT_CODE(lapd_side_establish(side, 0, 128, 0), LAPD_OUT_OF_RANGE);
	WANT_CODE(lapd_side_release(side, 62, 64, 0), LAPD_OUT_OF_RANGE);
	WANT_CODE(lapd_side_give(side, 17, 64, message, sizeof message, 0), LAPD_OUT_OF_RANGE);
	WANT_CODE(lapd_side_unit(side, 255, 127, message, sizeof message, 0), LAPD_OUT_OF_RANGE);
	WANT_CODE(lapd_side_busy(side, 0, 255, 1, 0), LAPD_OUT_OF_RANGE);
	WANT_CODE(lapd_side_check_tei(side, LAPD_GROUP_TEI, 0), LAPD_OUT_OF_RANGE);
	WANT_CODE(lapd_side_check_tei(side, 128, 0), LAPD_OUT_OF_RANGE);
	WANT_CODE(lapd_side_remove_tei(side, LAPD_GROUP_TEI, 0), LAPD_OUT_OF_RANGE);
	WANT_CODE(lapd_side_remove_tei(side, 255, 0), LAPD_OUT_OF_RANGE);
	memset(&state, 1, sizeof state);
	WANT_CODE(lapd_side_state(side, 2, 64, &state), LAPD_OUT_OF_RANGE);
	WANT(state.state == 0 && state.waiting == 0);
	memset(&counters, 1, sizeof counters);
	WANT_CODE(lapd_side_counters(side, 0, 128, &counters), LAPD_OUT_OF_RANGE);
	WANT(counters.sent == 0 && counters.reports == 0);
}

/* A list of TEIs, those of the side or, with a SAPI, of its links: as text with a space before each.
 * A buffer that is too small for it is unchanged. */
static void a_list(lapd_side *side, int sapi, const char *wanted)
{
	uint8_t teis[128];
	char text[512] = "";
	size_t count = 999, at, none = 0;
	uint32_t code;

	memset(teis, 0xa5, sizeof teis);
	DONE(sapi < 0 ? lapd_side_teis(side, teis, sizeof teis, &count) : lapd_side_links(side, (uint8_t)sapi, teis, sizeof teis, &count));
	for (at = 0; at < count; at++)
		sprintf(text + strlen(text), " %u", teis[at]);
	if (strcmp(text, wanted) != 0) {
		fprintf(stderr, "TEIs of SAPI %d: wanted%s, given%s\n", sapi, wanted, text);
		exit(1);
	}
	WANT(count == sizeof teis || teis[count] == 0xa5);
	if (count == 0) {
		DONE(sapi < 0 ? lapd_side_teis(side, NULL, 0, &none) : lapd_side_links(side, (uint8_t)sapi, NULL, 0, &none));
		return;
	}
	memset(teis, 0xa5, sizeof teis);
	code = sapi < 0 ? lapd_side_teis(side, teis, count - 1, &none) : lapd_side_links(side, (uint8_t)sapi, teis, count - 1, &none);
	WANT(code == LAPD_OUT_OF_RANGE && none == count && teis[0] == 0xa5);
}

/* The TEIs of a side, and those of its links, as they change. */
static void lists(lapd_side *side)
{
	lapd_settings settings = LAPD_BASIC;
	const uint8_t teis[] = { 70, 5, 126, 5, 0 };
	uint8_t all[127], found[128];
	size_t count = 0, at;

	for (at = 0; at < sizeof all; at++)
		all[at] = (uint8_t)at;
	DONE(lapd_side_network(side, &settings, NULL, 0));
	a_list(side, -1, "");
	a_list(side, 0, "");
	DONE(lapd_side_network(side, &settings, teis, sizeof teis));
	a_list(side, -1, " 0 5 70 126");
	a_list(side, 0, " 0 5 70 126");
	a_list(side, 16, "");
	a_list(side, 63, "");
	DONE(lapd_side_take(side, (const uint8_t *)"\xfc\xff\x03\x0f\x12\x34\x01\xff", 8, 0)); /* a TEI is requested */
	a_list(side, -1, " 0 5 64 70 126");
	DONE(lapd_side_remove_tei(side, 70, 0));
	a_list(side, -1, " 0 5 64 126");
	a_list(side, 0, " 0 5 64 126");
	settings.sapi16 = 1;
	DONE(lapd_side_network(side, &settings, teis, 2));
	a_list(side, 16, " 5 70");
	DONE(lapd_side_network(side, &settings, all, sizeof all));
	DONE(lapd_side_teis(side, found, sizeof found, &count));
	WANT(count == sizeof all && memcmp(found, all, sizeof all) == 0);
	DONE(lapd_side_links(side, 16, found, sizeof all, &count));
	WANT(count == sizeof all && memcmp(found, all, sizeof all) == 0);
	DONE(lapd_side_user(side, &settings, LAPD_NO_TEI));
	a_list(side, -1, "");
	a_list(side, 0, "");
	DONE(lapd_side_user(side, &settings, 9));
	a_list(side, -1, " 9");
	a_list(side, 0, " 9");
	a_list(side, 16, " 9");
	WANT_CODE(lapd_side_links(side, 1, found, sizeof found, &count), LAPD_OUT_OF_RANGE);
	WANT(count == 0);
	DONE(lapd_side_remove_tei(side, 9, 0));
	a_list(side, -1, "");
	a_list(side, 0, "");
}

static void no_side(lapd_side *side)
{
	lapd_primitive delivered;
	lapd_link_state state;
	lapd_link_counters counters;
	uint64_t moment = 0, count = 1;
	size_t length = 1, left = 1;
	uint8_t phase = 1, tei = 1;

	memset(&delivered, 1, sizeof delivered);
	memset(&state, 1, sizeof state);
	all_return(side, LAPD_NO_SIDE);
	all_are_out_of_range(side);
	WANT_CODE(lapd_side_teis(side, buffer, sizeof buffer, &length), LAPD_NO_SIDE);
	WANT(length == 0);
	length = 1;
	WANT_CODE(lapd_side_links(side, 0, buffer, sizeof buffer, &length), LAPD_NO_SIDE);
	WANT(length == 0);
	WANT_CODE(lapd_side_links(side, 2, buffer, sizeof buffer, &length), LAPD_OUT_OF_RANGE);
	WANT_CODE(lapd_side_deadline(side, &moment), LAPD_NO_SIDE);
	WANT(moment == LAPD_NEVER);
	WANT_CODE(lapd_side_discarded(side, &count), LAPD_NO_SIDE);
	WANT(count == 0);
	WANT_CODE(lapd_side_state(side, 0, 64, &state), LAPD_NO_SIDE);
	WANT(state.state == 0 && state.rc == 0 && state.waiting == 0);
	WANT_CODE(lapd_side_count(side), LAPD_NO_SIDE);
	memset(&counters, 1, sizeof counters);
	WANT_CODE(lapd_side_counters(side, 0, 64, &counters), LAPD_NO_SIDE);
	WANT(counters.sent == 0 && counters.reports == 0);
	WANT_CODE(lapd_side_frame(side, buffer, sizeof buffer, &length), LAPD_NO_SIDE);
	WANT(length == 0);
	WANT_CODE(lapd_side_primitive(side, &delivered, buffer, sizeof buffer), LAPD_NO_SIDE);
	WANT(delivered.kind == LAPD_NOTHING && delivered.octets == 0);
	memset(&delivered, 1, sizeof delivered);
	WANT_CODE(lapd_side_next(side, &delivered, buffer, sizeof buffer, &left), LAPD_NO_SIDE);
	WANT(delivered.kind == LAPD_NOTHING && delivered.octets == 0 && left == 0);
	WANT_CODE(lapd_side_set_timers(side, 1000, 1000, 2000, 10000), LAPD_NO_SIDE);
	WANT_CODE(lapd_side_set_timers(side, 1000, 1000, 0, 10000), LAPD_OUT_OF_RANGE);
	WANT_CODE(lapd_side_tei(side, &phase, &tei), LAPD_NO_SIDE);
	WANT(phase == 0 && tei == LAPD_NO_TEI);
}

/* Settings with one number out of range: it is named, no side is created, and the handle is
 * unchanged. */
static void not_made(lapd_side *side, const lapd_settings *settings, const char *wanted)
{
	uint8_t setting = 0;

	WANT_CODE(lapd_settings_check(settings, &setting), LAPD_OUT_OF_RANGE);
	WANT(strcmp(lapd_setting_string(setting), wanted) == 0);
	WANT_CODE(lapd_side_network(side, settings, message, 0), LAPD_OUT_OF_RANGE);
	WANT_CODE(lapd_side_user(side, settings, LAPD_NO_TEI), LAPD_OUT_OF_RANGE);
}

static void ranges(lapd_side *side)
{
	const lapd_settings basic = LAPD_BASIC;
	const uint8_t group = LAPD_GROUP_TEI;
	lapd_settings s;
	uint8_t setting = 9;

	DONE(lapd_settings_check(&basic, &setting));
	WANT(setting == LAPD_SETTING_NONE && lapd_setting_string(setting)[0] == 0);
	s = basic, s.seed = UINT64_MAX, s.sapi16 = 255;
	DONE(lapd_settings_check(&s, &setting));
	WANT(setting == LAPD_SETTING_NONE);
	s = basic, s.size = 0, not_made(side, &s, "size");
	s = basic, s.size -= 1, not_made(side, &s, "size");
	s = basic, s.size += 8, s.t200 = 0, not_made(side, &s, "size");
	s = basic, s.t200 = 0, not_made(side, &s, "t200");
	s = basic, s.t201 = 3600001, not_made(side, &s, "t201");
	s = basic, s.t202 = 0, not_made(side, &s, "t202");
	s = basic, s.t203 = UINT32_MAX, not_made(side, &s, "t203");
	s = basic, s.room = 0, not_made(side, &s, "room");
	s = basic, s.room = 1025, not_made(side, &s, "room");
	s = basic, s.most_waiting = 0, not_made(side, &s, "most_waiting");
	s = basic, s.n200 = 0, not_made(side, &s, "n200");
	s = basic, s.n200 = 101, not_made(side, &s, "n200");
	s = basic, s.k0 = 0, not_made(side, &s, "k0");
	s = basic, s.k16 = 128, not_made(side, &s, "k16");
	s = basic, s.reserved[0] = 1, not_made(side, &s, "reserved");
	s = basic, s.reserved[2] = UINT64_MAX, not_made(side, &s, "reserved");
	WANT_CODE(lapd_side_network(side, &basic, &group, 1), LAPD_OUT_OF_RANGE);
	WANT_CODE(lapd_side_user(side, &basic, LAPD_GROUP_TEI), LAPD_OUT_OF_RANGE);
	WANT_CODE(lapd_side_user(side, &basic, 254), LAPD_OUT_OF_RANGE);
}

/* Fetches a frame of a side, and checks the state of its link. */
static void a_frame(lapd_side *side, const char *wanted, size_t wants, unsigned state, unsigned vs, unsigned va, unsigned vr, unsigned waiting)
{
	lapd_link_state link;
	size_t length = 0;

	DONE(lapd_side_state(side, 0, 64, &link));
	WANT(link.state == state && link.vs == vs && link.va == va && link.vr == vr && link.waiting == waiting);
	memset(buffer, 0xa5, sizeof buffer);
	WANT_CODE(lapd_side_frame(side, buffer, wants - 1, &length), LAPD_OUT_OF_RANGE);
	WANT(length == wants && buffer[0] == 0xa5);
	DONE(lapd_side_frame(side, buffer, wants, &length));
	WANT(length == wants && memcmp(buffer, wanted, wants) == 0 && buffer[wants] == 0xa5);
	DONE(lapd_side_frame(side, buffer, 0, &length));
	WANT(length == 0);
}

/* Fetches a primitive of a side, with these octets. */
static void a_primitive(lapd_side *side, unsigned kind, const uint8_t *wanted, size_t wants)
{
	lapd_primitive delivered;

	memset(buffer, 0xa5, sizeof buffer);
	if (wants > 0) {
		WANT_CODE(lapd_side_primitive(side, &delivered, buffer, wants - 1), LAPD_OUT_OF_RANGE);
		WANT(delivered.kind == kind && delivered.octets == wants && buffer[0] == 0xa5);
	}
	DONE(lapd_side_primitive(side, &delivered, buffer, wants));
	WANT(delivered.kind == kind && delivered.sapi == 0 && delivered.tei == 64 && delivered.octets == wants);
	WANT(memcmp(buffer, wanted, wants) == 0 && buffer[wants] == 0xa5);
	DONE(lapd_side_primitive(side, &delivered, buffer, 0));
	WANT(delivered.kind == LAPD_NOTHING);
}

static void a_link(lapd_side *side)
{
	const lapd_settings basic = LAPD_BASIC;
	const uint8_t twice[] = { 64, 64 };
	lapd_link_state link;
	size_t length;

	DONE(lapd_side_network(side, &basic, twice, 2));
	ranges(side);
	all_are_out_of_range(side);
	DONE(lapd_side_state(side, 0, 64, &link));
	WANT(link.state == 4);
	WANT_CODE(lapd_side_state(side, 16, 64, &link), LAPD_NO_LINK);
	WANT(link.state == 0);
	DONE(lapd_side_take(side, (const uint8_t *)"\x00\x81\x7f", 3, 0));
	a_frame(side, "\x00\x81\x73", 3, 7, 0, 0, 0, 0);
	a_primitive(side, LAPD_ESTABLISH_IND, message, 0);
	DONE(lapd_side_give(side, 0, 64, message, sizeof message, 0));
	DONE(lapd_side_give(side, 0, 64, message, sizeof message, 0));
	DONE(lapd_side_frame(side, buffer, sizeof buffer, &length));
	WANT(length == 6);
	DONE(lapd_side_frame(side, buffer, sizeof buffer, &length));
	WANT(length == 0);
	DONE(lapd_side_state(side, 0, 64, &link));
	WANT(link.state == 7 && link.vs == 1 && link.va == 0 && link.waiting == 2);
	DONE(lapd_side_take(side, (const uint8_t *)"\x00\x81\x00\x01\x08\x01", 6, 0));
	a_frame(side, "\x00\x81\x01\x03", 4, 7, 1, 0, 1, 2);
	a_primitive(side, LAPD_DATA_IND, message, sizeof message);
	DONE(lapd_side_busy(side, 0, 64, 2, 0));
	DONE(lapd_side_state(side, 0, 64, &link));
	WANT(link.own_busy == 1 && link.peer_busy == 0 && link.rejecting == 0);
}

/* A pointer with the size 0 may be NULL. */
static void nothing_at_null(lapd_side *side)
{
	const lapd_settings basic = LAPD_BASIC;
	const uint8_t tei = 64;
	lapd_primitive item;
	size_t length = 1, left = 1;
	uint64_t count = 0;

	DONE(lapd_side_network(side, &basic, NULL, 0));
	DONE(lapd_side_take(side, NULL, 0, 0));
	DONE(lapd_side_discarded(side, &count));
	WANT(count == 1);
	DONE(lapd_side_unit(side, 0, LAPD_GROUP_TEI, NULL, 0, 0));
	WANT_CODE(lapd_side_frame(side, NULL, 0, &length), LAPD_OUT_OF_RANGE);
	WANT(length == 3);
	WANT_CODE(lapd_side_next(side, &item, NULL, 0, &left), LAPD_OUT_OF_RANGE);
	DONE(lapd_side_next(side, &item, buffer, sizeof buffer, &left));
	DONE(lapd_side_next(side, &item, NULL, 0, &left));
	WANT(item.kind == LAPD_NOTHING && left == 0);
	DONE(lapd_side_primitive(side, &item, NULL, 0));
	DONE(lapd_side_network(side, &basic, &tei, 1));
	DONE(lapd_side_take(side, (const uint8_t *)"\x00\x81\x7f", 3, 0));
	a_frame(side, "\x00\x81\x73", 3, 7, 0, 0, 0, 0);
	DONE(lapd_side_give(side, 0, 64, NULL, 0, 0));
	a_frame(side, "\x02\x81\x00\x00", 4, 7, 1, 0, 0, 1);
	WANT_CODE(lapd_frame_text(NULL, 0, 0, NULL, 0, &length), LAPD_OUT_OF_RANGE);
	WANT(length == strlen("U>N F1 TooShort"));
	WANT_CODE(lapd_code_name(0, NULL, 0, &length), LAPD_OUT_OF_RANGE);
	WANT_CODE(lapd_kind_name(0, NULL, 0, &length), LAPD_OUT_OF_RANGE);
}

/* Sends unit data to all terminals, with a number as its octets: one frame. */
static void a_unit(lapd_side *side, unsigned number)
{
	uint8_t octets[2];

	octets[0] = (uint8_t)(number >> 8);
	octets[1] = (uint8_t)number;
	DONE(lapd_side_unit(side, 0, LAPD_GROUP_TEI, octets, sizeof octets, 0));
}

static void wants_unit(lapd_side *side, unsigned number)
{
	size_t length = 0;

	DONE(lapd_side_frame(side, buffer, sizeof buffer, &length));
	WANT(length == 5 && buffer[3] == number >> 8 && buffer[4] == (number & 255));
}

/* The results of several calls wait in order, up to the configured limit. */
static void a_pile(lapd_side *side, uint16_t most)
{
	lapd_settings settings = LAPD_BASIC;
	unsigned given, fetched = 0;
	size_t length = 1;

	settings.most_waiting = most;
	DONE(lapd_side_network(side, &settings, message, 0));
	for (given = 0; given < most; given++)
		a_unit(side, given);
	all_return(side, LAPD_PENDING);
	for (; fetched < (most + 1) / 2u; fetched++)
		wants_unit(side, fetched);
	for (; given < most + fetched; given++)
		a_unit(side, given);
	all_return(side, LAPD_PENDING);
	for (; fetched < given; fetched++)
		wants_unit(side, fetched);
	DONE(lapd_side_frame(side, buffer, 0, &length));
	WANT(length == 0);
}

/* Fetches the next frame or primitive, also into a buffer that is too small for it, and checks how
 * many are left. */
static void an_item(lapd_side *side, unsigned kind, size_t octets, size_t waiting)
{
	lapd_primitive item;
	size_t left = 0;

	memset(buffer, 0xa5, sizeof buffer);
	if (octets > 0) {
		WANT_CODE(lapd_side_next(side, &item, buffer, octets - 1, &left), LAPD_OUT_OF_RANGE);
		WANT(item.kind == kind && item.octets == octets && buffer[0] == 0xa5 && left == waiting);
	}
	DONE(lapd_side_next(side, &item, buffer, octets, &left));
	WANT(item.kind == kind && item.octets == octets && buffer[octets] == 0xa5);
	WANT(left == (waiting > 0 ? waiting - 1 : 0));
}

/* Frames are fetched before primitives, and each once. */
static void next_items(lapd_side *side)
{
	const lapd_settings basic = LAPD_BASIC;
	const uint8_t tei = 64;

	DONE(lapd_side_network(side, &basic, &tei, 1));
	an_item(side, LAPD_NOTHING, 0, 0);
	DONE(lapd_side_take(side, (const uint8_t *)"\x00\x81\x7f", 3, 0));
	DONE(lapd_side_take(side, (const uint8_t *)"\x00\x81\x10\x00\x08\x01\x02", 7, 0));
	DONE(lapd_side_take(side, (const uint8_t *)"\x00\x81\x00\x00\x08\x01\x02", 7, 0));
	an_item(side, LAPD_FRAME, 3, 5);
	WANT(memcmp(buffer, "\x00\x81\x73", 3) == 0);
	an_item(side, LAPD_FRAME, 4, 4);
	an_item(side, LAPD_FRAME, 4, 3);
	an_item(side, LAPD_ESTABLISH_IND, 0, 2);
	an_item(side, LAPD_DATA_IND, 3, 1);
	WANT(memcmp(buffer, "\x08\x01\x02", 3) == 0);
	an_item(side, LAPD_NOTHING, 0, 0);
}

/* While a check is in progress, another one is refused, and nothing changes. */
static void a_check(lapd_side *side)
{
	const lapd_settings basic = LAPD_BASIC;
	const uint8_t tei = 64;
	uint64_t moment = 0;
	uint8_t expired = 0;
	size_t length = 0;
	int round;

	DONE(lapd_side_network(side, &basic, &tei, 1));
	DONE(lapd_side_check_tei(side, 64, 0));
	WANT_CODE(lapd_side_check_tei(side, 64, 500), LAPD_CHECK_RUNS);
	WANT_CODE(lapd_side_check_tei(side, 65, 500), LAPD_CHECK_RUNS);
	WANT_CODE(lapd_side_check_all(side, 500), LAPD_CHECK_RUNS);
	for (round = 1; round <= 2; round++) {
		DONE(lapd_side_frame(side, buffer, sizeof buffer, &length));
		WANT(length == 8 && buffer[6] == 4 && buffer[7] == (64 << 1 | 1));
		DONE(lapd_side_frame(side, buffer, sizeof buffer, &length));
		WANT(length == 0);
		DONE(lapd_side_deadline(side, &moment));
		WANT(moment == 1000u * (unsigned)round);
		DONE(lapd_side_tick(side, moment, &expired));
		WANT(expired == 1);
	}
	an_item(side, LAPD_TEI_FREE, 0, 1);
	DONE(lapd_side_check_tei(side, 65, 2000));
	DONE(lapd_side_user(side, &basic, 64));
	DONE(lapd_side_check_tei(side, 64, 0));
	DONE(lapd_side_check_tei(side, 64, 0));
	DONE(lapd_side_check_all(side, 0));
}

/* A running timer keeps its deadline, and timers that are started from then on run as long as was
 * set, also those of a link that is added later. */
static void durations(lapd_side *side)
{
	const lapd_settings basic = LAPD_BASIC;
	const uint8_t tei = 64;
	uint64_t moment = 0;
	uint8_t expired = 0;

	DONE(lapd_side_network(side, &basic, &tei, 1));
	DONE(lapd_side_establish(side, 0, 64, 0));
	WANT_CODE(lapd_side_set_timers(side, 0, 1000, 2000, 10000), LAPD_OUT_OF_RANGE);
	WANT_CODE(lapd_side_set_timers(side, 1000, 3600001, 2000, 10000), LAPD_OUT_OF_RANGE);
	DONE(lapd_side_set_timers(side, 300, 400, 500, 600));
	DONE(lapd_side_deadline(side, &moment));
	WANT(moment == 1000);
	DONE(lapd_side_tick(side, 1000, &expired));
	WANT(expired == 1);
	DONE(lapd_side_deadline(side, &moment));
	WANT(moment == 1300);
	DONE(lapd_side_take(side, (const uint8_t *)"\x02\x81\x73", 3, 1100));
	DONE(lapd_side_deadline(side, &moment));
	WANT(moment == 1700);
	DONE(lapd_side_check_tei(side, 3, 1100));
	DONE(lapd_side_deadline(side, &moment));
	WANT(moment == 1500);
	DONE(lapd_side_take(side, (const uint8_t *)"\xfc\xff\x03\x0f\x12\x34\x01\xff", 8, 1100));
	DONE(lapd_side_establish(side, 0, 65, 1100));
	DONE(lapd_side_deadline(side, &moment));
	WANT(moment == 1400);
	DONE(lapd_side_user(side, &basic, LAPD_NO_TEI));
	DONE(lapd_side_set_timers(side, 300, 400, 500, 600));
	DONE(lapd_side_ask_tei(side, 0));
	DONE(lapd_side_deadline(side, &moment));
	WANT(moment == 500);
}

static void a_terminal(lapd_side *side, unsigned wanted, unsigned wanted_tei)
{
	uint8_t state = 9, tei = 9;

	DONE(lapd_side_tei(side, &state, &tei));
	WANT(state == wanted && tei == wanted_tei);
}

/* The terminal of a user side gets a TEI, and its link is found by any TEI. */
static void terminals(lapd_side *side)
{
	const lapd_settings basic = LAPD_BASIC;
	lapd_link_state link;
	size_t length = 0;
	uint8_t assigned[8];

	DONE(lapd_side_network(side, &basic, message, 0));
	a_terminal(side, 0, LAPD_NO_TEI);
	DONE(lapd_side_user(side, &basic, 5));
	a_terminal(side, 4, 5);
	DONE(lapd_side_state(side, 0, 0, &link));
	WANT(link.state == 4);
	DONE(lapd_side_user(side, &basic, LAPD_NO_TEI));
	a_terminal(side, 1, LAPD_NO_TEI);
	WANT_CODE(lapd_side_state(side, 0, 0, &link), LAPD_NO_LINK);
	DONE(lapd_side_ask_tei(side, 0));
	a_terminal(side, 2, LAPD_NO_TEI);
	DONE(lapd_side_establish(side, 0, 0, 0));
	a_terminal(side, 3, LAPD_NO_TEI);
	DONE(lapd_side_frame(side, assigned, sizeof assigned, &length));
	WANT(length == 8 && assigned[6] == 1);
	assigned[0] = 0xfe;
	assigned[6] = 2;
	assigned[7] = 70 << 1 | 1;
	DONE(lapd_side_take(side, assigned, sizeof assigned, 0));
	a_terminal(side, 4, 70);
	DONE(lapd_side_state(side, 0, 127, &link));
	WANT(link.state == 5);
	WANT_CODE(lapd_side_state(side, 16, 70, &link), LAPD_NO_LINK);
}

/* The counters of a link of TEI 64, in the order of their fields. */
static void wants_counters(lapd_side *side, uint8_t sapi, const char *wanted)
{
	lapd_link_counters c;
	char text[128];

	DONE(lapd_side_counters(side, sapi, 64, &c));
	sprintf(text, "%u %u %u %u %u %u %u %u", (unsigned)c.sent, (unsigned)c.again, (unsigned)c.received,
	    (unsigned)c.rej_sent, (unsigned)c.rej_received, (unsigned)c.rnr_sent, (unsigned)c.rnr_received,
	    (unsigned)c.reports);
	if (strcmp(text, wanted) != 0) {
		fprintf(stderr, "counters of SAPI %u: wanted %s, given %s\n", sapi, wanted, text);
		exit(1);
	}
}

static void take(lapd_side *side, const char *octets, size_t count)
{
	DONE(lapd_side_take(side, (const uint8_t *)octets, count, 0));
}

/* Frames and reports are counted by the call that sends, receives or makes them, each for its link.
 * Nothing is fetched. */
static void counters(lapd_side *side)
{
	const lapd_settings primary = LAPD_PRIMARY;
	const uint8_t tei = 64;
	lapd_link_counters none;
	uint64_t moment = 0;
	uint8_t expired = 0;

	DONE(lapd_side_network(side, &primary, &tei, 1));
	memset(&none, 1, sizeof none);
	WANT_CODE(lapd_side_counters(side, 0, 64, &none), LAPD_NOT_COUNTING);
	WANT(none.sent == 0 && none.again == 0 && none.received == 0 && none.rej_sent == 0);
	WANT(none.rej_received == 0 && none.rnr_sent == 0 && none.rnr_received == 0 && none.reports == 0);
	DONE(lapd_side_count(side));
	take(side, "\x00\x81\x7f", 3); /* SABME */
	wants_counters(side, 0, "0 0 0 0 0 0 0 0");
	DONE(lapd_side_give(side, 0, 64, message, sizeof message, 0));
	DONE(lapd_side_give(side, 0, 64, message, sizeof message, 0));
	wants_counters(side, 0, "2 0 0 0 0 0 0 0");
	take(side, "\x02\x81\x09\x00", 4); /* REJ N(R)=0: both are sent again */
	wants_counters(side, 0, "2 2 0 0 1 0 0 0");
	take(side, "\x02\x81\x05\x04", 4); /* RNR N(R)=2 */
	wants_counters(side, 0, "2 2 0 0 1 0 1 0");
	take(side, "\x00\x81\x02\x04\x08", 5); /* I N(S)=1: N(S)=0 is missing */
	wants_counters(side, 0, "2 2 1 1 1 0 1 0");
	DONE(lapd_side_busy(side, 0, 64, 1, 0));
	wants_counters(side, 0, "2 2 1 1 1 1 1 0");
	DONE(lapd_side_deadline(side, &moment));
	DONE(lapd_side_tick(side, moment - 1, &expired));
	WANT(expired == 0);
	DONE(lapd_side_tick(side, moment, &expired));
	WANT(expired == 1);
	wants_counters(side, 0, "2 2 1 1 1 2 1 0");
	take(side, "\x02\x81\x01\x05", 4); /* RR N(R)=2 F=1 */
	DONE(lapd_side_busy(side, 0, 64, 0, 0));
	take(side, "\x02\x81\x73", 3); /* an unsolicited UA begins no establishment */
	wants_counters(side, 0, "2 2 1 1 1 2 1 1");
	DONE(lapd_side_give(side, 0, 64, message, sizeof message, 0));
	wants_counters(side, 0, "3 2 1 1 1 2 1 1");
	take(side, "\x00\x81\x7f", 3); /* SABME: I frames begin at N(S)=0 again */
	DONE(lapd_side_give(side, 0, 64, message, sizeof message, 0));
	wants_counters(side, 0, "4 2 1 1 1 2 1 2");
	take(side, "\x40\x81\x00\x00", 4); /* the link of SAPI 16 does not exist */
	take(side, "\x40\x81\x00", 3);
	take(side, "\x40\x83\x09\x00", 4);
	wants_counters(side, 16, "0 0 1 0 0 0 0 0");
	wants_counters(side, 63, "0 0 0 0 0 0 0 0");
	wants_counters(side, 0, "4 2 1 1 1 2 1 2");
	WANT_CODE(lapd_side_release(side, 16, 64, 0), LAPD_NO_LINK);
	wants_counters(side, 16, "0 0 1 0 0 0 0 0");
	DONE(lapd_side_count(side));
	wants_counters(side, 0, "0 0 0 0 0 0 0 0");
	DONE(lapd_side_user(side, &primary, 64));
	WANT_CODE(lapd_side_counters(side, 0, 64, &none), LAPD_NOT_COUNTING);
	DONE(lapd_side_count(side));
	take(side, "\x02\x81\x7f", 3);
	take(side, "\x02\x81\x00\x00", 4); /* I N(S)=0, from the network */
	DONE(lapd_side_give(side, 0, 0, message, sizeof message, 0));
	wants_counters(side, 0, "1 0 1 0 0 0 0 0");
	DONE(lapd_side_remove_tei(side, 64, 0));
	wants_counters(side, 0, "1 0 1 0 0 0 0 0");
}

/* A line of text, with a buffer that just fits, one that is too small, and one with room for a 0. */
static void a_text(const char *octets, size_t count, uint8_t network, const char *wanted)
{
	uint8_t text[128];
	size_t length = 0, wants = strlen(wanted);

	memset(text, 0xa5, sizeof text);
	WANT_CODE(lapd_frame_text((const uint8_t *)octets, count, network, text, wants - 1, &length), LAPD_OUT_OF_RANGE);
	WANT(length == wants && text[0] == 0xa5);
	DONE(lapd_frame_text((const uint8_t *)octets, count, network, text, wants, &length));
	WANT(length == wants && memcmp(text, wanted, wants) == 0 && text[wants] == 0xa5);
	DONE(lapd_frame_text((const uint8_t *)octets, count, network, text, wants + 2, &length));
	WANT(length == wants && strcmp((const char *)text, wanted) == 0 && text[wants + 1] == 0xa5);
}

/* The names of codes or kinds: those of the header, and no others. */
static void a_name(uint32_t number, bool is_kind, const char *wanted)
{
	uint8_t text[LAPD_MOST_NAME];
	size_t length = 1, wants = strlen(wanted);

	memset(text, 0xa5, sizeof text);
	if (is_kind)
		DONE(lapd_kind_name((uint8_t)number, text, sizeof text, &length));
	else
		DONE(lapd_code_name(number, text, sizeof text, &length));
	WANT(length == wants && strcmp((const char *)text, wanted) == 0);
}

/* The strings of the header are the names that the library writes. */
static void strings(void)
{
	uint32_t number;

	for (number = 0; number < 256; number++) {
		a_name(number, false, lapd_code_string(number));
		a_name(number, true, lapd_kind_string((uint8_t)number));
	}
	a_name(UINT32_MAX, false, lapd_code_string(UINT32_MAX));
}

static void names(void)
{
	uint8_t text[4] = { 1, 1, 1, 1 };
	size_t length = 0;

	a_name(LAPD_DONE, false, "LAPD_DONE");
	a_name(LAPD_CHECK_RUNS, false, "LAPD_CHECK_RUNS");
	a_name(LAPD_LAYER_3_ESTABLISHING, false, "LAPD_LAYER_3_ESTABLISHING");
	a_name(LAPD_NOT_COUNTING, false, "LAPD_NOT_COUNTING");
	a_name(6, false, "");
	a_name(UINT32_MAX, false, "");
	a_name(LAPD_NOTHING, true, "LAPD_NOTHING");
	a_name(LAPD_TEI_DOUBLED, true, "LAPD_TEI_DOUBLED");
	a_name(LAPD_FRAME, true, "LAPD_FRAME");
	a_name(255, true, "");
	WANT_CODE(lapd_code_name(LAPD_NO_LINK, text, sizeof text, &length), LAPD_OUT_OF_RANGE);
	WANT(length == 12 && text[0] == 1);
	strings();
}

int main(void)
{
	lapd_side side = LAPD_SIDE_INIT;

	WANT(lapd_version() == LAPD_VERSION);
	no_side(&side);
	ranges(&side);
	no_side(&side);
	nothing_at_null(&side);
	a_link(&side);
	a_pile(&side, 1024);
	a_pile(&side, 1);
	a_pile(&side, 2000);
	next_items(&side);
	a_check(&side);
	durations(&side);
	terminals(&side);
	lists(&side);
	counters(&side);
	lapd_side_free(&side);
	lapd_side_free(&side);
	no_side(&side);
	names();
	a_text("\x02\x81\x01\x01", 4, 1, "N>U SAPI 0 TEI 64 C RR N(R)=0 P=1");
	a_text("\x00\x81\x02\x04\x08\x02", 6, 0, "U>N SAPI 0 TEI 64 C I N(S)=1 N(R)=2 P=0 info=0802");
	a_text("\x04\x81\x7f", 3, 0, "U>N F3 SapiNotServed 04817f");
	printf("codes: of handles, buffers, NULL, settings, links, checks, durations, terminals, lists, counters, names and text\n");
	return 0;
}
