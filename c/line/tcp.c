/* A connection over TCP: each frame follows its length, two octets, the high one first, as with
 * `lapd net` and `lapd user`. */
#define _POSIX_C_SOURCE 200809L

#include "kind.h"

#include <errno.h>
#include <netdb.h>
#include <netinet/in.h>
#include <netinet/tcp.h>
#include <stdio.h>
#include <stdlib.h>
#include <string.h>
#include <sys/socket.h>
#include <unistd.h>

#define LENGTH_OCTETS 2
#define MOST_LENGTH 65535

struct tcp {
	struct addrinfo *addresses, *address; /* of the host, and the one to try next */
	int listener;                         /* -1: this end connects */
	bool is_connecting;
	size_t count;                         /* octets of the next frame, with its length, that arrived */
	uint8_t arrived[LENGTH_OCTETS + MOST_LENGTH];
	size_t left; /* octets of the frame that is being sent, which the connection has not accepted */
	uint8_t rest[LENGTH_OCTETS + LAPD_LINE_MOST_FRAME];
};

static void begin(struct tcp *tcp)
{
	tcp->count = 0;
	tcp->left = 0;
}

static void set_options(int connection)
{
	int on = 1;

	line_descriptor(connection);
	setsockopt(connection, IPPROTO_TCP, TCP_NODELAY, &on, sizeof on);
	setsockopt(connection, SOL_SOCKET, SO_KEEPALIVE, &on, sizeof on);
}

/* Says why there is no connection, and tries again later. */
static void try_later(lapd_line *line, int error)
{
	struct tcp *tcp = line->own;

	if (line->descriptor >= 0)
		close(line->descriptor);
	line->descriptor = -1;
	line->events = POLLIN;
	tcp->is_connecting = false;
	tcp->address = tcp->address->ai_next != NULL ? tcp->address->ai_next : tcp->addresses;
	line_say(line, "no connection: %s", strerror(error));
	line_later(line, LAPD_LINE_RETRY);
}

/* Whether a connection is one to itself. While nobody listens at a port of this machine, the system
 * may draw the same port for this end, and both ends are then one socket (RFC 9293 3.5). */
static bool is_own(int connection)
{
	struct sockaddr_storage near, far;
	socklen_t near_size = sizeof near, far_size = sizeof far;

	memset(&near, 0, sizeof near);
	memset(&far, 0, sizeof far);
	return getsockname(connection, (struct sockaddr *)&near, &near_size) == 0
		&& getpeername(connection, (struct sockaddr *)&far, &far_size) == 0 && memcmp(&near, &far, sizeof near) == 0;
}

static enum lapd_line_event connected(lapd_line *line)
{
	if (!is_own(line->descriptor))
		return line_is_up(line, "connected");
	try_later(line, ECONNREFUSED);
	return LAPD_LINE_NOTHING;
}

static void connect_again(lapd_line *line)
{
	struct tcp *tcp = line->own;

	line->events = POLLIN;
	if (tcp->listener >= 0)
		return;
	line->descriptor = socket(tcp->address->ai_family, SOCK_STREAM, 0);
	if (line->descriptor < 0) {
		try_later(line, errno);
		return;
	}
	set_options(line->descriptor);
	begin(tcp);
	if (connect(line->descriptor, tcp->address->ai_addr, tcp->address->ai_addrlen) == 0) {
		line_keep(line, connected(line));
		return;
	}
	if (errno != EINPROGRESS) {
		try_later(line, errno);
		return;
	}
	tcp->is_connecting = true;
	line->events = POLLOUT;
}

/* Whether the connection is made, or has failed by now. */
static enum lapd_line_event connecting(lapd_line *line)
{
	struct tcp *tcp = line->own;
	struct pollfd made = { line->descriptor, POLLOUT, 0 };
	socklen_t size = sizeof errno;
	int error = 0;

	if (poll(&made, 1, 0) <= 0)
		return LAPD_LINE_NOTHING;
	getsockopt(line->descriptor, SOL_SOCKET, SO_ERROR, &error, &size);
	if (error != 0) {
		try_later(line, error);
		return LAPD_LINE_NOTHING;
	}
	tcp->is_connecting = false;
	line->events = POLLIN;
	return connected(line);
}

static bool open_listener(lapd_line *line, const struct addrinfo *address)
{
	int listener = socket(address->ai_family, SOCK_STREAM, 0), on = 1;
	struct tcp *tcp = line->own;

	if (listener < 0)
		return line_say(line, "%s", strerror(errno));
	line_descriptor(listener);
	setsockopt(listener, SOL_SOCKET, SO_REUSEADDR, &on, sizeof on);
	if (bind(listener, address->ai_addr, address->ai_addrlen) != 0 || listen(listener, 1) != 0) {
		line_say(line, "cannot listen: %s", strerror(errno));
		close(listener);
		return false;
	}
	tcp->listener = listener;
	line->descriptor = listener;
	line_say(line, "it waits for a connection");
	return true;
}

/* HOST:PORT, where HOST may be an IPv6 address in brackets. As with `lapd`, no host is this one, or
 * all its IPv4 addresses to listen at. */
static bool find_addresses(lapd_line *line, char *words, bool listens, struct addrinfo **found)
{
	struct addrinfo wanted = { .ai_family = AF_UNSPEC, .ai_socktype = SOCK_STREAM };
	char *colon = strrchr(words, ':');
	int error;

	if (colon == NULL || line_number(colon + 1, 65535) < 1)
		return line_say(line, "not HOST:PORT, with a port from 1 to 65535");
	*colon = '\0';
	if (words[0] == '[' && colon[-1] == ']') {
		colon[-1] = '\0';
		words++;
	}
	if (words[0] == '\0') {
		wanted.ai_family = AF_INET;
		wanted.ai_flags = listens ? AI_PASSIVE : 0;
	}
	error = getaddrinfo(words[0] == '\0' ? NULL : words, colon + 1, &wanted, found);
	return error == 0 || line_say(line, "the host %.100s: %s", words, gai_strerror(error));
}

static bool tcp_open(lapd_line *line, char *words)
{
	bool listens = line_ends(words, "listen");
	struct tcp *tcp = calloc(1, sizeof *tcp);

	if (tcp == NULL)
		return line_say(line, "out of memory");
	line->own = tcp;
	tcp->listener = -1;
	if (!find_addresses(line, words, listens, &tcp->addresses))
		return false;
	tcp->address = tcp->addresses;
	if (listens)
		return open_listener(line, tcp->addresses);
	connect_again(line);
	return true;
}

static void tcp_close(lapd_line *line)
{
	struct tcp *tcp = line->own;

	if (tcp == NULL)
		return;
	if (tcp->listener >= 0 && tcp->listener != line->descriptor)
		close(tcp->listener);
	if (tcp->addresses != NULL)
		freeaddrinfo(tcp->addresses);
}

/* The connection is lost. A listener waits for the next one. */
static enum lapd_line_event lost(lapd_line *line, const char *why)
{
	struct tcp *tcp = line->own;
	enum lapd_line_event event = line_gone(line, why);

	begin(tcp);
	if (tcp->listener >= 0) {
		line->descriptor = tcp->listener;
		line->due = 0;
	}
	return event;
}

/* The number of octets of the next frame and its length, as far as known. */
static size_t wanted(const struct tcp *tcp)
{
	if (tcp->count < LENGTH_OCTETS)
		return LENGTH_OCTETS;
	return LENGTH_OCTETS + ((size_t)tcp->arrived[0] << 8 | tcp->arrived[1]);
}

/* A complete frame. A longer one than any driver delivers is a fault. */
static enum lapd_line_event complete(lapd_line *line, uint8_t *frame, size_t *length)
{
	struct tcp *tcp = line->own;
	size_t octets = tcp->count - LENGTH_OCTETS;

	tcp->count = 0;
	if (octets == 0)
		return lost(line, "a frame has the length 0");
	if (octets > MOST_READ)
		return line_fault(line, &line->counts.invalid, "a frame is too long");
	memcpy(frame, tcp->arrived + LENGTH_OCTETS, octets);
	*length = octets;
	return LAPD_LINE_FRAME;
}

static enum lapd_line_event tcp_receive(lapd_line *line, uint8_t *frame, size_t *length)
{
	struct tcp *tcp = line->own;
	ssize_t got;

	if (line->descriptor < 0)
		return LAPD_LINE_NOTHING;
	if (line->descriptor == tcp->listener)
		return line_accept(line, tcp->listener);
	if (tcp->is_connecting)
		return connecting(line);
	while (tcp->count < wanted(tcp)) {
		got = recv(line->descriptor, tcp->arrived + tcp->count, wanted(tcp) - tcp->count, 0);
		if (got < 0 && errno == EINTR)
			continue;
		if (got < 0 && errno == EAGAIN)
			return LAPD_LINE_NOTHING;
		if (got <= 0)
			return lost(line, got == 0 ? "the connection is closed" : strerror(errno));
		tcp->count += (size_t)got;
	}
	return complete(line, frame, length);
}

enum lapd_line_event line_accept(lapd_line *line, int listener)
{
	int connection = accept(listener, NULL, NULL);

	if (connection < 0 && errno != EAGAIN) {
		/* Such as too many open files: the connection waits, and would wake poll() at once. */
		line_say(line, "no connection: %s", strerror(errno));
		line->events = 0;
		line_later(line, LAPD_LINE_RETRY);
	}
	if (connection < 0)
		return LAPD_LINE_NOTHING;
	set_options(connection);
	line->descriptor = connection;
	return line_is_up(line, "connected");
}

/* Sends the rest of a frame. */
static enum sent send_rest(lapd_line *line)
{
	struct tcp *tcp = line->own;
	ssize_t done = send(line->descriptor, tcp->rest, tcp->left, MSG_NOSIGNAL);

	if (done < 0 && (errno == EAGAIN || errno == EINTR))
		return FULL;
	if (done < 0) {
		line_keep(line, lost(line, strerror(errno)));
		return GONE;
	}
	tcp->left -= (size_t)done;
	memmove(tcp->rest, tcp->rest + done, tcp->left);
	return tcp->left == 0 ? SENT : FULL;
}

static enum sent tcp_send(lapd_line *line, const uint8_t *frame, size_t length)
{
	struct tcp *tcp = line->own;

	/* If something is left, it is of this frame, which still waits. */
	if (tcp->left == 0) {
		tcp->rest[0] = (uint8_t)(length >> 8);
		tcp->rest[1] = (uint8_t)length;
		memcpy(tcp->rest + LENGTH_OCTETS, frame, length);
		tcp->left = LENGTH_OCTETS + length;
	}
	return send_rest(line);
}

const struct line_kind line_tcp = {
	"tcp", "tcp:HOST:PORT[:listen]", tcp_open, tcp_close, tcp_receive, tcp_send, connect_again, NULL,
};
