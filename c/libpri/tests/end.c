/* One end of a D channel, by the libpri.so.1.4 that the loader finds.
 *
 * usage: end net|cpe pri|ptp|ptmp SOCKET CALLS IDLE [pause=MS] [hold=MS] [t203=MS] [t309=MS]
 *            [later=MS] [first=MS]
 *
 * SOCKET is the descriptor of a socket that the program inherits, or, if the program is built with
 * WITH_DAHDI, dahdi:CHANNEL, a D channel of DAHDI, as Asterisk uses it.
 *
 * It makes CALLS calls, one after another with a pause between them, holds each for some time, and
 * answers the calls of the other end. The first one is made when the link is up, but not before
 * `first`: if this end begins before the other, that one establishes the link again. It sets T203 to
 * `later` when the link is up. It ends IDLE milliseconds after its last call, or when the other end
 * closes the socket; with IDLE -1 only then. It prints each event with its time, and a last line of
 * counts. The status is 0 if each of its calls was answered. */
#include <libpri.h>
#include <poll.h>
#include <stdbool.h>
#include <stdio.h>
#include <stdlib.h>
#include <string.h>
#include <sys/socket.h>
#include <sys/time.h>
#include <time.h>
#include <unistd.h>

#ifdef WITH_DAHDI
#include <dahdi/user.h>
#include <fcntl.h>
#include <sys/ioctl.h>
#endif

#define MOST_WAIT 20         /* ms */
#define LONGEST_CALL 60.0    /* s */
#define BUS_STARTS 1.5       /* s until the terminals of a bus have TEIs */

static struct {
	const char *name;
	bool is_network, is_basic, is_bus;
	int calls, idle, pause, hold, t203, t309, later, first;
} options;

static struct {
	int up, down, made, answered, failed, received;
} count;

static q931_call *call; /* the call of this end, or NULL */
static double began, call_began, call_ends, next_call, all_done;

static double seconds(void)
{
	struct timespec time;

	clock_gettime(CLOCK_MONOTONIC, &time);
	return (double)time.tv_sec + (double)time.tv_nsec / 1e9 - began;
}

static void on_words(struct pri *pri, char *words)
{
	(void)pri;
	fputs(words, stderr);
}

static void make_call(struct pri *pri)
{
	struct pri_sr *setup = pri_sr_new();

	call = pri_new_call(pri);
	pri_sr_set_channel(setup, options.is_basic ? 1 : 1 + count.made % 15, 1, 0);
	pri_sr_set_bearer(setup, PRI_TRANS_CAP_SPEECH, PRI_LAYER_1_ALAW);
	pri_sr_set_called(setup, "200", PRI_NATIONAL_ISDN, 1);
	pri_sr_set_caller(setup, "100", "A caller", PRI_NATIONAL_ISDN,
		PRES_ALLOWED_USER_NUMBER_PASSED_SCREEN);
	pri_setup(pri, call, setup);
	pri_sr_free(setup);
	count.made++;
	call_began = seconds();
}

static void end_call(bool is_good)
{
	call = NULL;
	call_ends = 0;
	count.failed += !is_good;
	next_call = seconds() + options.pause / 1e3;
}

static void answer(struct pri *pri, pri_event_ring *ring)
{
	count.received++;
	pri_proceeding(pri, ring->call, ring->channel, 0);
	pri_acknowledge(pri, ring->call, ring->channel, 0);
	pri_answer(pri, ring->call, ring->channel, 0);
}

static void on_hangup(struct pri *pri, pri_event *event)
{
	if (call && event->hangup.call == call)
		end_call(event->hangup.cause == PRI_CAUSE_NORMAL_CLEARING);
	if (event->e == PRI_EVENT_HANGUP)
		pri_hangup(pri, event->hangup.call, event->hangup.cause);
}

static void on_event(struct pri *pri, pri_event *event)
{
	if (!event)
		return;
	printf("%s %.3f %s\n", options.name, seconds(), pri_event2str(event->e));
	switch (event->e) {
	case PRI_EVENT_DCHAN_UP:
		count.up++;
		if (options.later)
			pri_set_timer(pri, PRI_TIMER_T203, options.later);
		break;
	case PRI_EVENT_DCHAN_DOWN:
		count.down++;
		break;
	case PRI_EVENT_RING:
		answer(pri, &event->ring);
		break;
	case PRI_EVENT_ANSWER:
		count.answered++;
		call_ends = seconds() + options.hold / 1e3;
		break;
	case PRI_EVENT_HANGUP_REQ:
		pri_hangup(pri, event->hangup.call, event->hangup.cause);
		break;
	case PRI_EVENT_HANGUP:
	case PRI_EVENT_HANGUP_ACK:
		on_hangup(pri, event);
		break;
	}
}

/* Milliseconds until libpri's next timer, or a large number. Less than 0 or 0: it is due. */
static long until_due(struct pri *pri)
{
	struct timeval *due = pri_schedule_next(pri), time;

	if (!due)
		return MOST_WAIT + 1;
	gettimeofday(&time, NULL);
	return (due->tv_sec - time.tv_sec) * 1000L + (due->tv_usec - time.tv_usec + 999) / 1000;
}

#ifdef WITH_DAHDI
static int opened_channel(int channel)
{
	struct dahdi_bufferinfo buffers = {
		.txbufpolicy = DAHDI_POLICY_IMMEDIATE,
		.rxbufpolicy = DAHDI_POLICY_IMMEDIATE,
		.numbufs = 32,
		.bufsize = 1024,
	};
	int it = open("/dev/dahdi/channel", O_RDWR | O_NONBLOCK);

	if (it < 0 || ioctl(it, DAHDI_SPECIFY, &channel) || ioctl(it, DAHDI_SET_BUFINFO, &buffers)) {
		perror("DAHDI");
		exit(2);
	}
	return it;
}

/* Reads an event, such as an alarm: until then the driver returns no frame. */
static void read_event(int channel)
{
	int event = DAHDI_EVENT_NONE;

	if (ioctl(channel, DAHDI_GETEVENT, &event) == 0 && event != DAHDI_EVENT_NONE)
		printf("%s %.3f event %d of DAHDI\n", options.name, seconds(), event);
}
#else
static int opened_channel(int channel)
{
	fprintf(stderr, "end: built without DAHDI, so without its channel %d\n", channel);
	exit(2);
}

static void read_event(int channel)
{
	(void)channel;
}
#endif

/* Waits for a frame or a timer, and runs what is due. Returns false if the socket was closed. */
static bool serve(struct pri *pri, int socket)
{
	struct pollfd ready = { socket, POLLIN | POLLPRI, 0 };
	long wait = until_due(pri);
	char octet;

	if (poll(&ready, 1, wait < 0 ? 0 : wait > MOST_WAIT ? MOST_WAIT : (int)wait) > 0) {
		if (ready.revents & POLLPRI)
			read_event(socket);
		if (recv(socket, &octet, 1, MSG_PEEK | MSG_DONTWAIT) == 0)
			return false;
		on_event(pri, pri_check_event(pri));
	}
	if (until_due(pri) <= 0)
		on_event(pri, pri_schedule_run(pri));
	return true;
}

/* Starts the next call, or ends one that hangs. Returns false if nothing is left to do. */
static bool advance(struct pri *pri)
{
	double now = seconds(), first = options.is_bus && options.is_network ? BUS_STARTS : options.first / 1e3;

	if (call && now - call_began > LONGEST_CALL)
		end_call(false);
	if (call && call_ends > 0 && now >= call_ends) {
		call_ends = 0;
		pri_hangup(pri, call, PRI_CAUSE_NORMAL_CLEARING);
	}
	if (call || options.idle < 0)
		return true;
	if (count.made < options.calls) {
		if (count.up && now >= first && now >= next_call)
			make_call(pri);
		return true;
	}
	all_done = all_done > 0 ? all_done : now;
	return now - all_done <= options.idle / 1e3;
}

static void read_options(char **words)
{
	options.name = words[1];
	options.is_network = strcmp(words[1], "net") == 0;
	options.is_basic = strcmp(words[2], "pri") != 0;
	options.is_bus = strcmp(words[2], "ptmp") == 0;
	options.calls = atoi(words[4]);
	options.idle = atoi(words[5]);
	for (words += 6; *words; words++) {
		sscanf(*words, "pause=%d", &options.pause);
		sscanf(*words, "hold=%d", &options.hold);
		sscanf(*words, "t203=%d", &options.t203);
		sscanf(*words, "t309=%d", &options.t309);
		sscanf(*words, "later=%d", &options.later);
		sscanf(*words, "first=%d", &options.first);
	}
}

static struct pri *new_end(int socket)
{
	int node = options.is_network ? PRI_NETWORK : PRI_CPE;
	struct pri *pri;

	if (options.is_basic)
		pri = pri_new_bri(socket, !options.is_bus, node, PRI_SWITCH_EUROISDN_E1);
	else
		pri = pri_new(socket, node, PRI_SWITCH_EUROISDN_E1);
	if (!pri)
		exit(2);
	pri_facility_enable(pri);
	if (options.t203)
		pri_set_timer(pri, PRI_TIMER_T203, options.t203);
	if (options.t309)
		pri_set_timer(pri, PRI_TIMER_T309, options.t309);
	return pri;
}

int main(int words, char **word)
{
	struct pri *pri;
	int line;

	if (words < 6) {
		fprintf(stderr, "usage: end net|cpe pri|ptp|ptmp SOCKET CALLS IDLE [WORD..]\n");
		return 2;
	}
	read_options(word);
	setvbuf(stdout, NULL, _IOLBF, 0);
	began = seconds();
	srandom((unsigned)getpid() * 7919u);
	pri_set_message(on_words);
	pri_set_error(on_words);
	line = strncmp(word[3], "dahdi:", 6) == 0 ? opened_channel(atoi(word[3] + 6)) : atoi(word[3]);
	pri = new_end(line);
	while (serve(pri, line) && advance(pri))
		;
	printf("%s made %d answered %d failed %d received %d up %d down %d of %s\n", options.name,
		count.made, count.answered, count.failed, count.received, count.up, count.down,
		pri_get_version());
	return count.failed || count.answered != options.calls;
}
