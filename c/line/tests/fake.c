#define _GNU_SOURCE

#include "fake.h"

#include <dahdi/user.h>
#include <errno.h>
#include <netinet/in.h>
#include <stdarg.h>
#include <stdio.h>
#include <stdlib.h>
#include <string.h>
#include <sys/socket.h>
#include <time.h>
#include <unistd.h>

#define ISDN_FAMILY 34
#define EVENT_WAITS 500
#define GET_DEVICE _IOR('I', 68, int)
#define PH_DATA_REQ 0x2001
#define DEVICE 3 /* the number of the only device of mISDN */

struct fake fake = { .driver = -1, .line = -1 };

int __real_socket(int family, int type, int protocol);
int __real_bind(int descriptor, const struct sockaddr *address, socklen_t size);
int __real_open(const char *path, int flags, ...);
int __real_ioctl(int descriptor, unsigned long request, ...);
int __real_close(int descriptor);
ssize_t __real_read(int descriptor, void *octets, size_t size);
ssize_t __real_write(int descriptor, const void *octets, size_t size);
ssize_t __real_send(int descriptor, const void *octets, size_t size, int flags);
int __real_setsockopt(int descriptor, int level, int name, const void *value, socklen_t size);

/* The socket of mISDN that reads the list of devices. The next one is that of the channel. */
static int reader = -1;
static bool is_listed;

static int connection = -1;

/* Counts the frames that nobody read while a former descriptor was open, and closes it. */
static void count_lost(void)
{
	uint8_t octets[8192];
	uint32_t primitive = 0;
	ssize_t got;

	while ((got = fake_written(octets, sizeof octets)) > 0) {
		memcpy(&primitive, octets, sizeof primitive);
		fake.lost += fake.is_dahdi || primitive == PH_DATA_REQ;
	}
	if (fake.driver >= 0)
		__real_close(fake.driver);
}

static int open_pair(int type)
{
	int ends[2];

	if (fake.open_error != 0) {
		errno = fake.open_error;
		return -1;
	}
	if (socketpair(AF_UNIX, type | SOCK_NONBLOCK, 0, ends) != 0)
		abort();
	count_lost();
	fake.driver = ends[1];
	fake.line = ends[0];
	fake.event_count = 0;
	return ends[0];
}

int __wrap_socket(int family, int type, int protocol)
{
	if (family != ISDN_FAMILY)
		return __real_socket(family, type, protocol);
	if (fake.open_error == EAFNOSUPPORT) {
		errno = EAFNOSUPPORT;
		return -1;
	}
	is_listed = !is_listed;
	if (is_listed)
		return reader = __real_socket(AF_UNIX, SOCK_DGRAM, 0);
	return open_pair(SOCK_DGRAM);
}

/* The line sets this option on each of its connections. */
int __wrap_setsockopt(int descriptor, int level, int name, const void *value, socklen_t size)
{
	if (level == IPPROTO_TCP)
		connection = descriptor;
	return __real_setsockopt(descriptor, level, name, value, size);
}

/* A connection accepts frames in parts, or nothing. */
ssize_t __wrap_send(int descriptor, const void *octets, size_t size, int flags)
{
	static unsigned turn;
	int type = SOCK_DGRAM;
	socklen_t length = sizeof type;

	if (descriptor != connection)
		return __real_send(descriptor, octets, size, flags);
	getsockopt(descriptor, SOL_SOCKET, SO_TYPE, &type, &length);
	if (++turn % 5 == 0) {
		errno = EAGAIN;
		return -1;
	}
	return __real_send(descriptor, octets, type == SOCK_STREAM ? 1 + turn * 7 % size : size, flags);
}

int __wrap_bind(int descriptor, const struct sockaddr *address, socklen_t size)
{
	return descriptor == fake.line ? 0 : __real_bind(descriptor, address, size);
}

int __wrap_close(int descriptor)
{
	if (descriptor == reader)
		reader = -1;
	if (descriptor == fake.line)
		fake.line = -1;
	if (descriptor == connection)
		connection = -1;
	return __real_close(descriptor);
}

int __wrap_open(const char *path, int flags, ...)
{
	if (strncmp(path, "/dev/dahdi/", 11) == 0)
		return open_pair(SOCK_SEQPACKET);
	return __real_open(path, flags);
}

static int misdn_device(unsigned int *device)
{
	if (device[0] != DEVICE || fake.open_error == ENODEV) {
		is_listed = device[0] == 63 ? false : is_listed;
		errno = ENODEV;
		return -1;
	}
	device[1] = fake.is_e1 ? 1u << 3 | 1u << 4 : 1u << 1 | 1u << 2;
	return 0;
}

static int dahdi_event(int *event)
{
	*event = fake.event_count > 0 ? fake.events[0] : DAHDI_EVENT_NONE;
	if (fake.event_count > 0)
		memmove(fake.events, fake.events + 1, --fake.event_count * sizeof fake.events[0]);
	return 0;
}

int __wrap_ioctl(int descriptor, unsigned long request, ...)
{
	va_list words;
	void *word;

	va_start(words, request);
	word = va_arg(words, void *);
	va_end(words);
	if (descriptor == reader && request == GET_DEVICE)
		return misdn_device(word);
	if (descriptor != fake.line)
		return __real_ioctl(descriptor, request, word);
	if (request == DAHDI_GETEVENT)
		return dahdi_event(word);
	if (request == DAHDI_GET_PARAMS) {
		((struct dahdi_params *)word)->sigtype = fake.signalling;
		((struct dahdi_params *)word)->chan_alarms = fake.alarms;
	}
	return 0;
}

ssize_t __wrap_read(int descriptor, void *octets, size_t size)
{
	if (descriptor != fake.line)
		return __real_read(descriptor, octets, size);
	if (fake.event_count > 0) {
		errno = EVENT_WAITS;
		return -1;
	}
	return __real_read(descriptor, octets, size);
}

ssize_t __wrap_write(int descriptor, const void *octets, size_t size)
{
	if (descriptor == fake.line && (fake.event_count > 0 || fake.is_full)) {
		errno = fake.event_count > 0 ? EVENT_WAITS : EAGAIN;
		return -1;
	}
	return __real_write(descriptor, octets, size);
}

int __wrap_clock_gettime(clockid_t clock, struct timespec *time)
{
	(void)clock;
	time->tv_sec = fake.now / 1000;
	time->tv_nsec = fake.now % 1000 * 1000000;
	return 0;
}

bool fake_deliver(const uint8_t *octets, size_t length)
{
	return fake.driver >= 0 && send(fake.driver, octets, length, MSG_NOSIGNAL | MSG_DONTWAIT) == (ssize_t)length;
}

bool fake_primitive(uint32_t primitive, uint32_t number, const uint8_t *octets, size_t length)
{
	uint8_t datagram[MISDN_HEAD + 8192];

	memcpy(datagram, &primitive, 4);
	memcpy(datagram + 4, &number, 4);
	if (length > 0)
		memcpy(datagram + MISDN_HEAD, octets, length);
	return fake_deliver(datagram, MISDN_HEAD + length);
}

ssize_t fake_written(uint8_t *octets, size_t size)
{
	return fake.driver < 0 ? -1 : recv(fake.driver, octets, size, MSG_DONTWAIT);
}

void fake_event(int event)
{
	if (fake.event_count < sizeof fake.events / sizeof fake.events[0])
		fake.events[fake.event_count++] = event;
}
