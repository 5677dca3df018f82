/* The socket of libosmo-abis' driver `unixsocket`, by which Osmocom's E1 lines run without a card:
 * each message is a frame after the octets 01 00. The driver connects, so this end waits for it. */
#define _POSIX_C_SOURCE 200809L

#include "kind.h"

#include <errno.h>
#include <stdlib.h>
#include <string.h>
#include <sys/socket.h>
#include <sys/stat.h>
#include <sys/un.h>
#include <unistd.h>

/* The version and the type of a message: osmocom/abis/unixsocket_proto.h. Type 0 is a frame, and
 * type 1 a control message, which switches the whole E1 to one channel. */
#define HEAD_OCTETS 2

static const uint8_t data_head[HEAD_OCTETS] = { 0x01, 0x00 };

struct local {
	struct sockaddr_un address;
	int listener; /* -1: this end connects */
};

static void connect_again(lapd_line *line)
{
	struct local *local = line->own;

	line->events = POLLIN;
	if (local->listener >= 0)
		return;
	line->descriptor = socket(AF_UNIX, SOCK_SEQPACKET, 0);
	line_descriptor(line->descriptor);
	if (connect(line->descriptor, (const struct sockaddr *)&local->address, sizeof local->address) == 0) {
		line_keep(line, line_is_up(line, "connected"));
		return;
	}
	line_say(line, "no connection: %s", strerror(errno));
	close(line->descriptor);
	line->descriptor = -1;
	line_later(line, LAPD_LINE_RETRY);
}

/* Removes the socket that a former program left at this path, if nobody listens at it. */
static void remove_former(const struct sockaddr_un *address)
{
	int former = socket(AF_UNIX, SOCK_SEQPACKET, 0);
	struct stat about;

	if (lstat(address->sun_path, &about) == 0 && S_ISSOCK(about.st_mode)
	    && connect(former, (const struct sockaddr *)address, sizeof *address) != 0 && errno == ECONNREFUSED)
		unlink(address->sun_path);
	close(former);
}

static bool open_listener(lapd_line *line)
{
	struct local *local = line->own;
	int listener = socket(AF_UNIX, SOCK_SEQPACKET, 0);

	remove_former(&local->address);
	if (listener < 0 || bind(listener, (const struct sockaddr *)&local->address, sizeof local->address) != 0
	    || listen(listener, 1) != 0) {
		line_say(line, "cannot listen: %s", strerror(errno));
		if (listener >= 0)
			close(listener);
		return false;
	}
	line_descriptor(listener);
	local->listener = listener;
	line->descriptor = listener;
	line_say(line, "it waits for a connection");
	return true;
}

static bool unix_open(lapd_line *line, char *words)
{
	bool connects = line_ends(words, "connect");
	struct local *local = calloc(1, sizeof *local);

	if (local == NULL)
		return line_say(line, "out of memory");
	line->own = local;
	local->listener = -1;
	local->address.sun_family = AF_UNIX;
	if (words[0] == '\0' || strlen(words) >= sizeof local->address.sun_path)
		return line_say(line, "not a path of 1 to %zu octets", sizeof local->address.sun_path - 1);
	memcpy(local->address.sun_path, words, strlen(words));
	if (!connects)
		return open_listener(line);
	connect_again(line);
	return true;
}

static void unix_close(lapd_line *line)
{
	struct local *local = line->own;

	if (local == NULL || local->listener < 0)
		return;
	if (local->listener != line->descriptor)
		close(local->listener);
	unlink(local->address.sun_path);
}

static enum lapd_line_event lost(lapd_line *line, const char *why)
{
	struct local *local = line->own;
	enum lapd_line_event event = line_gone(line, why);

	if (local->listener >= 0) {
		line->descriptor = local->listener;
		line->due = 0;
	}
	return event;
}

static enum lapd_line_event unix_receive(lapd_line *line, uint8_t *frame, size_t *length)
{
	struct local *local = line->own;
	ssize_t got;

	if (line->descriptor < 0)
		return LAPD_LINE_NOTHING;
	if (line->descriptor == local->listener)
		return line_accept(line, local->listener);
	do
		got = recv(line->descriptor, frame, MOST_READ, 0);
	while (got < 0 && errno == EINTR);
	if (got < 0 && errno == EAGAIN)
		return LAPD_LINE_NOTHING;
	if (got <= 0)
		return lost(line, got == 0 ? "the connection is closed" : strerror(errno));
	if (got < HEAD_OCTETS || memcmp(frame, data_head, HEAD_OCTETS) != 0)
		return line_fault(line, &line->counts.invalid, "a message does not begin with 01 00");
	if (got == HEAD_OCTETS)
		return line_fault(line, &line->counts.invalid, "an empty frame");
	*length = (size_t)got - HEAD_OCTETS;
	memmove(frame, frame + HEAD_OCTETS, *length);
	return LAPD_LINE_FRAME;
}

static enum sent unix_send(lapd_line *line, const uint8_t *frame, size_t length)
{
	uint8_t octets[HEAD_OCTETS + LAPD_LINE_MOST_FRAME];

	memcpy(octets, data_head, HEAD_OCTETS);
	memcpy(octets + HEAD_OCTETS, frame, length);
	if (send(line->descriptor, octets, HEAD_OCTETS + length, MSG_NOSIGNAL) >= 0)
		return SENT;
	if (errno == EAGAIN || errno == ENOBUFS || errno == EINTR)
		return FULL;
	if (errno == EMSGSIZE)
		return REFUSED;
	line_keep(line, lost(line, strerror(errno)));
	return GONE;
}

const struct line_kind line_unix = {
	"unix", "unix:PATH[:connect]", unix_open, unix_close, unix_receive, unix_send, connect_again, NULL,
};
