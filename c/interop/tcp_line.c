#define _POSIX_C_SOURCE 200809L

#include "tcp_line.h"

#include <arpa/inet.h>
#include <errno.h>
#include <netinet/in.h>
#include <stdio.h>
#include <stdlib.h>
#include <string.h>
#include <sys/socket.h>

static in_port_t port_of(const char *text)
{
	char *end;
	unsigned long port = strtoul(text, &end, 10);

	if (*text < '0' || *text > '9' || *end != '\0' || port == 0 || port > 65535) {
		fprintf(stderr, "%s: not a port from 1 to 65535\n", text);
		exit(2);
	}
	return htons((uint16_t)port);
}

static struct sockaddr_in address_of(const char *port)
{
	struct sockaddr_in address = { 0 };

	address.sin_family = AF_INET;
	address.sin_port = port_of(port);
	address.sin_addr.s_addr = htonl(INADDR_LOOPBACK);
	return address;
}

int listening(const char *port)
{
	struct sockaddr_in address = address_of(port);
	int listener = socket(AF_INET, SOCK_STREAM, 0), on = 1;

	setsockopt(listener, SOL_SOCKET, SO_REUSEADDR, &on, sizeof on);
	if (bind(listener, (const struct sockaddr *)&address, sizeof address) != 0 || listen(listener, 1) != 0)
		fail("listen");
	return listener;
}

int accepted(int listener)
{
	int line = accept(listener, NULL, NULL);

	if (line < 0)
		fail("accept");
	return line;
}

int connected(bool listens, const char *port)
{
	struct sockaddr_in address = address_of(port);
	int line;

	if (listens)
		return accepted(listening(port));
	line = socket(AF_INET, SOCK_STREAM, 0);
	if (connect(line, (const struct sockaddr *)&address, sizeof address) != 0)
		fail("connect");
	return line;
}

void write_frame(int socket, const uint8_t *frame, size_t length)
{
	uint8_t octets[LENGTH_OCTETS + LAPD_MOST_FRAME];

	if (length > LAPD_MOST_FRAME)
		return;
	octets[0] = (uint8_t)(length >> 8);
	octets[1] = (uint8_t)length;
	memcpy(octets + LENGTH_OCTETS, frame, length);
	if (send(socket, octets, LENGTH_OCTETS + length, MSG_NOSIGNAL | MSG_DONTWAIT) != (ssize_t)(LENGTH_OCTETS + length))
		fail("send");
}

/* The number of octets of the next frame and its length, as far as known. */
static size_t wanted(const struct tcp_line *line)
{
	if (line->count < LENGTH_OCTETS)
		return LENGTH_OCTETS;
	return LENGTH_OCTETS + ((size_t)line->octets[0] << 8 | line->octets[1]);
}

int next_frame(struct tcp_line *line, uint8_t *frame)
{
	size_t length;
	ssize_t got;

	while (line->count < wanted(line)) {
		if (wanted(line) > sizeof line->octets)
			return -1;
		got = recv(line->socket, line->octets + line->count, wanted(line) - line->count, MSG_DONTWAIT);
		if (got < 0 && errno == EAGAIN)
			return 0;
		if (got <= 0)
			return -1;
		line->count += (size_t)got;
	}
	length = line->count - LENGTH_OCTETS;
	memcpy(frame, line->octets + LENGTH_OCTETS, length);
	line->count = 0;
	return length > 0 ? (int)length : -1;
}
