/* The work of count.c by the layer 2 of libpri, to compare: `count_libpri WHAT N`,
 * `count_libpri many PAIRS EACH N`. Two ends of a primary rate interface exchange frames in memory.
 * TEIs are assigned by the network end of a bus. The functions of layer 3 and the clock that libpri
 * calls are replaced by those below, so that they do not count. */
#define _POSIX_C_SOURCE 200809L

#include "count.h"

#include <libpri.h>
#include <string.h>
#include <sys/time.h>

#define CHECK_SEQUENCE 2 /* octets that libpri adds to the length of each frame, and ignores */
#define PLACES 16

enum { NETWORK, CPE };

struct q921_link;

/* Frames on the way to an end; none are on the way between two pairs' turns. */
static struct line {
	unsigned sent, taken;
	int length[PLACES];
	uint8_t octets[PLACES][LAPD_MOST_FRAME + CHECK_SEQUENCE];
} lines[2];

static struct pair {
	struct pri *ends[2];
	struct q921_link *links[2];
} pairs[MOST_PAIRS], *served = pairs;
static int at_work; /* the end of the pair that libpri serves */
static long arrived, frames;
static long seconds = 1; /* of the clock */

/* libpri exports this function, but its header does not declare it. */
int q921_transmit_iframe(struct q921_link *link, void *octets, int length, int is_command);

/* Layer 3: an event of the data link, and a message that has arrived. */
void q931_dl_event(struct q921_link *link, int event);
int q931_receive(struct q921_link *link, const void *octets, int length);

void q931_dl_event(struct q921_link *link, int event)
{
	(void)event;
	served->links[at_work] = link;
}

int q931_receive(struct q921_link *link, const void *octets, int length)
{
	static uint8_t message[LAPD_MOST_MESSAGE];

	(void)link;
	memcpy(message, octets, (size_t)length);
	arrived += length == 20;
	return 0;
}

/* count.c passes in moments; here only `expire` moves the clock. */
int gettimeofday(struct timeval *restrict time, void *restrict zone)
{
	(void)zone;
	time->tv_sec = seconds;
	time->tv_usec = 0;
	return 0;
}

static void on_words(struct pri *end, char *words)
{
	(void)end;
	(void)words;
}

static int on_read(struct pri *end, void *octets, int size)
{
	struct line *line = &lines[at_work];
	unsigned place = line->taken % PLACES;

	(void)end;
	(void)size;
	if (line->taken == line->sent)
		return 0;
	line->taken++;
	memcpy(octets, line->octets[place], (size_t)line->length[place]);
	return line->length[place];
}

static void send_to(int at, const void *octets, int length)
{
	struct line *line = &lines[at];
	unsigned place = line->sent++ % PLACES;

	WANT(length <= LAPD_MOST_FRAME + CHECK_SEQUENCE);
	memcpy(line->octets[place], octets, (size_t)length);
	line->length[place] = length;
	frames++;
}

static int on_write(struct pri *end, void *octets, int length)
{
	(void)end;
	send_to(!at_work, octets, length);
	return length;
}

/* Lets both ends take frames until none is left. */
static void carry(void)
{
	while (lines[NETWORK].taken != lines[NETWORK].sent || lines[CPE].taken != lines[CPE].sent)
		for (at_work = NETWORK; at_work <= CPE; at_work++)
			while (lines[at_work].taken != lines[at_work].sent)
				pri_check_event(served->ends[at_work]);
}

static void send_messages(size_t pair, long each)
{
	static uint8_t octets[20] = { 0x08, 0x01, 0x01, 0x05 };
	long at;

	served = &pairs[pair];
	at_work = CPE;
	for (at = 0; at < each; at++)
		q921_transmit_iframe(served->links[CPE], octets, sizeof octets, 1);
	carry();
}

/* Passes a frame to the network end, and takes what it sends from the line. Returns the third octet
 * of the last frame. */
static inline uint8_t pass_in(const uint8_t *frame, int length)
{
	at_work = NETWORK;
	send_to(NETWORK, frame, length);
	pri_check_event(served->ends[NETWORK]);
	WANT(lines[CPE].sent != lines[CPE].taken);
	lines[CPE].taken = lines[CPE].sent;
	return lines[CPE].octets[(lines[CPE].sent - 1) % PLACES][2];
}

/* Passes in an RR with P=1, and takes the response from the line. */
static void poll(void)
{
	static const uint8_t rr[4 + CHECK_SEQUENCE] = { 0x00, 0x01, 0x01, 0x01 };

	WANT(pass_in(rr, sizeof rr) == 0x01);
}

/* Passes in DISC and SABME, and takes each UA. */
static void release(void)
{
	static const uint8_t disc[3 + CHECK_SEQUENCE] = { 0x00, 0x01, 0x53 };
	static const uint8_t sabme[3 + CHECK_SEQUENCE] = { 0x00, 0x01, 0x7f };

	WANT(pass_in(disc, sizeof disc) == 0x73);
	WANT(pass_in(sabme, sizeof sabme) == 0x73);
}

/* Before each eighth action, creates the network end of a bus. No call frees the former one. */
static void renew_network(long at)
{
	at_work = NETWORK;
	if (at % 8 != 0)
		return;
	served->ends[NETWORK] = pri_new_bri_cb(0, 0, PRI_NETWORK, PRI_SWITCH_EUROISDN_E1, on_read, on_write, NULL);
	WANT(served->ends[NETWORK] != NULL);
}

/* The same. Then requests a TEI by an Identity Request, with another Ri each time. The first one makes
 * libpri send Identity Remove twice, too. */
static void assign(long at)
{
	uint8_t request[8 + CHECK_SEQUENCE] = { 0xfc, 0xff, 0x03, 0x0f, 0x00, 0x00, 0x01, 0xff };

	renew_network(at);
	request[4] = (uint8_t)(at >> 8);
	request[5] = (uint8_t)at;
	WANT(pass_in(request, sizeof request) == 0x03);
}

/* Sends a message whose frame is lost. */
static void lose_message(void)
{
	static uint8_t octets[20] = { 0x08, 0x01, 0x01, 0x05 };

	at_work = CPE;
	q921_transmit_iframe(served->links[CPE], octets, sizeof octets, 1);
	lines[NETWORK].taken = lines[NETWORK].sent;
}

/* Loses a message. After the next one it is rejected, and both are sent again. */
static void reject(void)
{
	lose_message();
	send_messages(0, 1);
}

/* Loses a message. T200 expires, and the message is sent again after an enquiry. */
static void expire(void)
{
	lose_message();
	seconds++;
	pri_schedule_run(served->ends[CPE]);
	carry();
}

static void make_pair(size_t pair)
{
	static const int types[] = { PRI_NETWORK, PRI_CPE };

	served = &pairs[pair];
	for (at_work = NETWORK; at_work <= CPE; at_work++) {
		struct pri *end = pri_new_cb(0, types[at_work], PRI_SWITCH_EUROISDN_E1, on_read, on_write, NULL);

		WANT(end != NULL && pri_get_timer(end, PRI_TIMER_K) == 7);
		served->ends[at_work] = end;
	}
	carry();
	WANT(served->links[NETWORK] != NULL && served->links[CPE] != NULL);
	frames = 0;
}

int main(int count, char **words)
{
	long times = count > 2 ? atol(words[count - 1]) : 0, at;
	char what = count > 2 ? words[1][0] : 0;
	bool is_many = count == 5 && strcmp(words[1], "many") == 0;
	long each = what == 'w' ? 7 : 1;

	WANT(times > 0 && (is_many || (count == 3 && what != 0 && strchr("mwprfale", what) != NULL)));
	pri_set_message(on_words);
	pri_set_error(on_words);
	if (is_many) {
		count_many((size_t)atol(words[2]), atol(words[3]), times);
	} else {
		make_pair(0);
		for (at = 0; at < times; at += each)
			switch (what) {
			case 'p': poll(); break;
			case 'r': release(); break;
			case 'f': renew_network(at); break;
			case 'a': assign(at); break;
			case 'l': reject(); break;
			case 'e': expire(); break;
			default: send_messages(0, each);
			}
	}
	WANT(strchr("mwp", what) == NULL || frames == 2 * times);
	WANT(arrived == (strchr("prfa", what) != NULL ? 0 : what == 'l' ? 2 * times : times));
	return 0;
}
