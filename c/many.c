/* Many interfaces in one process: one epoll for their lines, one heap for their deadlines.
 *
 * `many [PAIRS [LOST]]` makes PAIRS primary rate interfaces (1000 by default), with both ends of
 * each. A socket pair takes the place of each D channel. With LOST, each LOST-th frame is lost, so
 * timers expire.
 *
 * `many net LINE user LINE ..` has an end at each LINE, a text of lapd_line.h such as dahdi:16. The
 * other end of a line may be in another process.
 *
 * The user sides establish the links, each end sends a message, and the user sides release the
 * links. The status is 0 if each message was received and acknowledged. */
#define _POSIX_C_SOURCE 200809L

#include "example.h"

#include <errno.h>
#include <stdbool.h>
#include <stdio.h>
#include <stdlib.h>
#include <string.h>
#include <sys/epoll.h>
#include <sys/resource.h>
#include <sys/socket.h>
#include <unistd.h>

#define MOST_FRAMES 4096 /* received before timers are served: a flood cannot stop timers */
#define MOST_PAIRS 32768 /* the number of an end has 16 bits */
#define MESSAGE_OCTETS 5

/* One end of an interface. Of a pair, the network side has an even number, and its user side the
 * next one. */
struct end {
	lapd_side side;
	bool is_network, is_established;
	unsigned messages;  /* received and acknowledged: 2 when both are done */
	lapd_line *line;    /* NULL for an end of a pair */
	struct pollfd wait; /* what the epoll waits for: a socket of a pair, or what the line needs */
	uint64_t line_due;  /* when the line is to be served at the latest */
	uint64_t deadline;  /* of the side and the line, as the heap has it */
	size_t place;       /* in the heap */
};

static struct end *ends, **heap;
static struct epoll_event *events;
static size_t count;
static int poller;
static unsigned long lost;

/* Sums over all ends. */
static size_t established, received, acknowledged, released, errors, frames, expiries;
static bool releases;

/* ---- The deadlines: a binary heap of all ends, the earliest first. LAPD_NEVER is the last. */

static void put(struct end *end, size_t place)
{
	heap[place] = end;
	end->place = place;
}

static void set_deadline(struct end *end, uint64_t deadline)
{
	size_t place = end->place, child;

	end->deadline = deadline;
	for (; place > 0 && heap[(place - 1) / 2]->deadline > deadline; place = (place - 1) / 2)
		put(heap[(place - 1) / 2], place);
	for (; (child = 2 * place + 1) < count; place = child) {
		if (child + 1 < count && heap[child + 1]->deadline < heap[child]->deadline)
			child++;
		if (heap[child]->deadline >= deadline)
			break;
		put(heap[child], place);
	}
	put(end, place);
}

/* ---- Layer 3, which only counts. */

/* A SETUP, with the number of the end as its call reference. */
static void make_message(size_t end, uint8_t *message)
{
	message[0] = 0x08;
	message[1] = 2;
	message[2] = (uint8_t)(end >> 8);
	message[3] = (uint8_t)end;
	message[4] = 0x05;
}

/* Whether a message is that of the other end, which has an unknown number unless it is of a pair. */
static bool is_message_for(const struct end *end, const uint8_t *octets, size_t length)
{
	size_t other = (size_t)(end - ends) ^ 1;
	uint8_t message[MESSAGE_OCTETS];

	make_message(end->line == NULL ? other : (size_t)octets[2] << 8 | octets[3], message);
	return length == sizeof message && memcmp(octets, message, sizeof message) == 0;
}

static void establish(struct end *end)
{
	check(lapd_side_establish(&end->side, 0, 0, clock_now()), "establish");
}

/* Counts a primitive of an end; false if it was not expected. */
static bool count_primitive(struct end *end, const lapd_primitive *item, const uint8_t *octets)
{
	switch (item->kind) {
	case LAPD_NOTHING:
		return true;
	case LAPD_ESTABLISH_IND:
	case LAPD_ESTABLISH_CONF:
		established += !end->is_established;
		end->is_established = true;
		return true;
	case LAPD_DATA_IND:
		received++;
		end->messages++;
		return is_message_for(end, octets, item->octets);
	case LAPD_ACKNOWLEDGED:
		acknowledged += item->count;
		end->messages += item->count;
		return true;
	case LAPD_MDL_ERROR: /* such as a second SABME: the link recovers, or is released */
		errors++;
		return true;
	case LAPD_RELEASE_IND:
	case LAPD_RELEASE_CONF:
		released++;
		return releases || (end->line != NULL && end->messages == 2); /* another process may be ahead */
	default:
		return false;
	}
}

/* Returns how many calls it has made, whose frames wait too. */
static size_t deliver(struct end *end, const lapd_primitive *item, const uint8_t *octets)
{
	/* The program at the other end of the line may not run yet. */
	if (item->kind == LAPD_RELEASE_IND && end->line != NULL && !end->is_network && !end->is_established) {
		establish(end);
		return 1;
	}
	if (count_primitive(end, item, octets))
		return 0;
	fprintf(stderr, "end %zu: %s with %zu octets was not expected\n", (size_t)(end - ends),
	        lapd_kind_string(item->kind), item->octets);
	exit(1);
}

/* ---- The loop. */

/* Lets the epoll wait for what a line needs now. This follows each call that may have closed the
 * line's descriptor: the next one that any line opens can have the same number. */
static void watch(struct end *end)
{
	struct epoll_event event = { 0, { end } };
	struct pollfd wait;
	int most = lapd_line_prepare(end->line, &wait);

	end->line_due = most < 0 ? LAPD_NEVER : clock_now() + (uint64_t)most;
	if (wait.fd == end->wait.fd && wait.events == end->wait.events)
		return;
	if (end->wait.fd >= 0)
		epoll_ctl(poller, EPOLL_CTL_DEL, end->wait.fd, NULL); /* fails if it is closed */
	event.events = (uint32_t)wait.events; /* POLLIN and others have the numbers of EPOLLIN and others */
	if (wait.fd >= 0 && epoll_ctl(poller, EPOLL_CTL_ADD, wait.fd, &event) != 0)
		fail("epoll_ctl");
	end->wait = wait;
}

/* Sends a frame. A line that does not accept it at once, or is down, loses it: the link recovers. */
static void send_frame(struct end *end, const uint8_t *frame, size_t length)
{
	frames++;
	if (lost != 0 && frames % lost == 0)
		return;
	if (end->line != NULL)
		lapd_line_send(end->line, frame, length);
	else if (send(end->wait.fd, frame, length, MSG_NOSIGNAL | MSG_DONTWAIT) < 0 && errno != EAGAIN)
		fail("send");
}

/* Updates the heap. */
static void update(struct end *end)
{
	uint64_t deadline;

	check(lapd_side_deadline(&end->side, &deadline), "deadline");
	if (end->line != NULL) {
		watch(end);
		deadline = end->line_due < deadline ? end->line_due : deadline;
	}
	if (deadline != end->deadline)
		set_deadline(end, deadline);
}

/* After each call for a side: sends its frames, delivers its primitives, and updates the heap. */
static void settle(struct end *end)
{
	uint8_t octets[LAPD_MOST_FRAME];
	lapd_primitive item;
	size_t left;

	do {
		check(lapd_side_next(&end->side, &item, octets, sizeof octets, &left), "next");
		if (item.kind == LAPD_FRAME)
			send_frame(end, octets, item.octets);
		else
			left += deliver(end, &item, octets);
	} while (left > 0);
	update(end);
}

/* The next event of an end's line, as of lapd_line_next. */
static enum lapd_line_event next_event(struct end *end, uint8_t *frame, size_t size, size_t *length)
{
	enum lapd_line_event event;
	ssize_t got;

	if (end->line != NULL) {
		event = lapd_line_next(end->line, frame, size, length);
		watch(end);
		return event;
	}
	got = recv(end->wait.fd, frame, size, MSG_DONTWAIT);
	if (got < 0 && errno == EAGAIN)
		return LAPD_LINE_NOTHING;
	if (got <= 0)
		fail("recv");
	*length = (size_t)got;
	return LAPD_LINE_FRAME;
}

/* Passes in every frame that has arrived. Returns a moment for which timers may expire: no other
 * frame had arrived by then. */
static uint64_t receive(struct end *end)
{
	uint8_t frame[LAPD_LINE_MOST_FRAME];
	enum lapd_line_event event;
	uint64_t now = clock_now();
	size_t length;
	int left;

	for (left = MOST_FRAMES; left > 0; left--) {
		event = next_event(end, frame, sizeof frame, &length);
		if (event == LAPD_LINE_NOTHING)
			break;
		if (event == LAPD_LINE_FRAME)
			check(lapd_side_take(&end->side, frame, length, now), "take");
		else
			print_event(end->line, event);
		if (event == LAPD_LINE_UP && !end->is_network && !end->is_established)
			establish(end);
		settle(end);
		now = clock_now();
	}
	if (end->line != NULL)
		update(end);
	return now;
}

/* Expires the first timer of an end, if it is still due after the frames that have arrived. */
static void expire(struct end *end)
{
	uint8_t expired;

	check(lapd_side_tick(&end->side, receive(end), &expired), "tick");
	settle(end);
	expiries += expired;
}

/* Waits until frames arrive or a timer is due. Receives from all lines that have frames, and then
 * expires the timers that are due. */
static void serve(void)
{
	int ready = epoll_wait(poller, events, (int)count, wait_time(heap[0]->deadline, clock_now())), at;
	uint64_t now;

	if (ready < 0 && errno != EINTR)
		fail("epoll_wait");
	for (at = 0; at < ready; at++)
		receive(events[at].data.ptr);
	now = clock_now();
	while (heap[0]->deadline <= now)
		expire(heap[0]);
}

/* ---- The program. */

static void *room_for(size_t size)
{
	void *room = calloc(count, size);

	if (room == NULL)
		fail("calloc");
	return room;
}

/* Makes a side with TEI 0. */
static void open_end(struct end *end, bool is_network)
{
	static const lapd_settings settings = LAPD_PRIMARY;
	static const uint8_t tei = 0;

	end->is_network = is_network;
	end->wait.fd = -1;
	end->deadline = LAPD_NEVER;
	put(end, (size_t)(end - ends));
	if (is_network)
		check(lapd_side_network(&end->side, &settings, &tei, 1), "network");
	else
		check(lapd_side_user(&end->side, &settings, tei), "user");
}

static void join(struct end *end, int socket)
{
	struct epoll_event event = { EPOLLIN, { end } };

	end->wait.fd = socket;
	if (epoll_ctl(poller, EPOLL_CTL_ADD, socket, &event) != 0)
		fail("epoll_ctl");
}

/* Makes a network side and a user side, and a line between them. */
static void open_pair(struct end *network, struct end *user)
{
	int sockets[2];

	if (socketpair(AF_UNIX, SOCK_SEQPACKET, 0, sockets) != 0)
		fail("socketpair");
	open_end(network, true);
	open_end(user, false);
	join(network, sockets[0]);
	join(user, sockets[1]);
}

static void open_all(void)
{
	struct rlimit descriptors;

	ends = room_for(sizeof *ends);
	heap = room_for(sizeof *heap);
	events = room_for(sizeof *events);
	if (getrlimit(RLIMIT_NOFILE, &descriptors) != 0)
		fail("getrlimit");
	descriptors.rlim_cur = descriptors.rlim_max;
	if (setrlimit(RLIMIT_NOFILE, &descriptors) != 0)
		fail("setrlimit");
	poller = epoll_create1(EPOLL_CLOEXEC);
	if (poller < 0)
		fail("epoll_create1");
}

static void open_pairs(void)
{
	size_t at;

	for (at = 0; at < count; at += 2)
		open_pair(&ends[at], &ends[at + 1]);
}

/* Opens the lines of words such as `net dahdi:16`. */
static void open_lines(char **words)
{
	size_t at;

	for (at = 0; at < count; at++) {
		open_end(&ends[at], strcmp(words[2 * at], "net") == 0);
		ends[at].line = opened(words[2 * at + 1]);
	}
	for (at = 0; at < count; at++)
		update(&ends[at]); /* the heap has all ends now */
}

/* The user sides establish the links, those of lines once the line is up. Each side sends a message,
 * and the user sides release the links. */
static void run(void)
{
	uint8_t message[MESSAGE_OCTETS];
	size_t at;

	for (at = 0; at < count; at++)
		if (!ends[at].is_network && ends[at].line == NULL) {
			establish(&ends[at]);
			settle(&ends[at]);
		}
	while (established < count)
		serve();
	for (at = 0; at < count; at++) {
		make_message(at, message);
		check(lapd_side_give(&ends[at].side, 0, 0, message, sizeof message, clock_now()), "give");
		settle(&ends[at]);
	}
	while (received < count || acknowledged < count)
		serve();
	releases = true;
	for (at = 0; at < count; at++)
		if (!ends[at].is_network) {
			check(lapd_side_release(&ends[at].side, 0, 0, clock_now()), "release");
			settle(&ends[at]);
		}
	while (released < count)
		serve();
}

static void close_all(void)
{
	size_t at;

	for (at = 0; at < count; at++) {
		lapd_side_free(&ends[at].side);
		if (ends[at].line != NULL)
			close_line(ends[at].line);
		else
			close(ends[at].wait.fd);
	}
	close(poller);
	free(events);
	free(heap);
	free(ends);
}

static bool are_lines(int words_count, char **words)
{
	int at;

	for (at = 0; at < words_count; at += 2)
		if (strcmp(words[at], "net") != 0 && strcmp(words[at], "user") != 0)
			return false;
	return words_count > 0 && words_count % 2 == 0;
}

int main(int words_count, char **words)
{
	bool on_lines = are_lines(words_count - 1, words + 1);
	unsigned long pairs = words_count > 1 ? strtoul(words[1], NULL, 10) : 1000;
	uint64_t begin = clock_now();

	lost = words_count > 2 && !on_lines ? strtoul(words[2], NULL, 10) : 0;
	if (!on_lines && (pairs == 0 || pairs > MOST_PAIRS || words_count > 3 || (words_count == 3 && lost == 0))) {
		fprintf(stderr, "usage: many [PAIRS [LOST]]\n       many net|user LINE [net|user LINE ..]\n");
		return 2;
	}
	count = on_lines ? (size_t)words_count / 2 : 2 * pairs;
	open_all();
	if (on_lines)
		open_lines(words + 1);
	else
		open_pairs();
	run();
	close_all();
	printf("%zu %s: %zu messages received, %zu acknowledged; %zu frames, %zu timers expired, %zu errors; %lu ms\n",
	       on_lines ? count : count / 2, on_lines ? "lines" : "pairs", received, acknowledged, frames, expiries, errors,
	       (unsigned long)(clock_now() - begin));
	return 0;
}
