/* The D channel of a device of mISDN, the ISDN drivers of the Linux kernel: a socket for layer 1.
 *
 * Each datagram is a head and a frame, without check sequence. The driver confirms each frame by its
 * number when it has taken it to the line, and the next one waits for that. The kernel copies the
 * requests of all programs to all sockets of a device, so a request of another program is seen. */
#define _POSIX_C_SOURCE 200809L

#include "kind.h"

#include <errno.h>
#include <stdio.h>
#include <stdlib.h>
#include <string.h>
#include <sys/ioctl.h>
#include <sys/socket.h>
#include <unistd.h>

/* The kernel's interface: include/linux/mISDNif.h of Linux 6.1, which no package installs for
 * programs. */
#define ISDN_FAMILY 34 /* PF_ISDN, AF_ISDN */
enum protocol { TE_S0 = 1, NT_S0 = 2, TE_E1 = 3, NT_E1 = 4 };
enum primitive {
	PH_ACTIVATE_REQ = 0x0101,
	PH_DATA_REQ = 0x2001,
	PH_ACTIVATE_IND = 0x0102,
	PH_ACTIVATE_CNF = 0x4102,
	PH_DEACTIVATE_IND = 0x0202,
	PH_DEACTIVATE_CNF = 0x4202,
	PH_DATA_IND = 0x2002,
	PH_DATA_CNF = 0x6002,
	MPH_INFORMATION_IND = 0x0702
};
enum signal { LOS_OFF = 0x10, LOS_ON, AIS_OFF, AIS_ON, RDI_OFF, RDI_ON, SLIP_RX = 0x20, SLIP_TX };
#define TO_LAYER_1 0x0f /* the layer that a primitive is for; 1: a program requests it */
#define MOST_DEVICES 64 /* MAX_DEVICE_ID */
#define MOST_FRAME_L1 300 /* MAX_DFRAME_LEN_L1: drivers discard a longer frame silently */

struct head {
	uint32_t primitive, number;
};

struct address {
	sa_family_t family;
	unsigned char device, channel, sapi, tei;
};

struct device {
	unsigned int number, d_protocols, b_protocols, protocol;
	unsigned char channels[16];
	unsigned int b_channels;
	char name[20];
};

#define GET_DEVICE _IOR('I', 68, int)

#define CONFIRM_WAIT 1000 /* milliseconds; a frame of 300 octets takes 150 at 16 kbit/s */
#define MEMORY_WAIT 10    /* milliseconds until a frame is sent again that the kernel had no memory for */

struct misdn {
	char wanted[LAPD_LINE_MOST_TEXT]; /* a number or a name */
	bool is_network, is_shared;
	uint32_t number;   /* of the last frame sent */
	int64_t confirmed; /* when the driver must have confirmed it; 0 if it has */
};

/* ---- Devices. */

static bool device_at(int socket, unsigned int number, struct device *device)
{
	memset(device, 0, sizeof *device);
	device->number = number;
	return ioctl(socket, GET_DEVICE, device) == 0;
}

static bool is_wanted(const struct device *device, const char *wanted)
{
	long number = line_number(wanted, MOST_DEVICES - 1);

	return number >= 0 ? (unsigned int)number == device->number : strcmp(device->name, wanted) == 0;
}

static bool find_device(int socket, const char *wanted, struct device *device)
{
	for (unsigned int number = 0; number < MOST_DEVICES; number++)
		if (device_at(socket, number, device) && is_wanted(device, wanted))
			return true;
	return false;
}

static bool has(const struct device *device, enum protocol protocol)
{
	return (device->d_protocols & 1u << protocol) != 0;
}

static bool is_e1(const struct device *device)
{
	return has(device, TE_E1) || has(device, NT_E1);
}

static enum protocol protocol_of(const struct device *device, bool is_network)
{
	return is_e1(device) ? (is_network ? NT_E1 : TE_E1) : (is_network ? NT_S0 : TE_S0);
}

/* A socket of any protocol reads the list of devices, and needs no right. */
static int any_socket(void)
{
	return socket(ISDN_FAMILY, SOCK_DGRAM, TE_S0);
}

static const char *no_socket(void)
{
	static char text[LAPD_LINE_MOST_TEXT];

	if (errno == EAFNOSUPPORT)
		return "mISDN is not loaded: load the module of the card, such as hfcsusb or l1oip";
	snprintf(text, sizeof text, "mISDN: %s", strerror(errno));
	return text;
}

static size_t misdn_list(void (*found)(void *, const char *, const char *), void *context)
{
	int reader = any_socket();
	char text[LAPD_LINE_MOST_TEXT], what[LAPD_LINE_MOST_TEXT];
	struct device device;
	size_t count = 0;

	if (reader < 0) {
		found(context, NULL, no_socket());
		return 0;
	}
	for (unsigned int number = 0; number < MOST_DEVICES; number++) {
		if (!device_at(reader, number, &device))
			continue;
		for (int is_network = 0; is_network < 2; is_network++) {
			if (!has(&device, protocol_of(&device, is_network)))
				continue;
			snprintf(text, sizeof text, "misdn:%u:%s", number, is_network ? "nt" : "te");
			snprintf(what, sizeof what, "%s %.19s as the %s", is_e1(&device) ? "E1" : "S0", device.name,
			         is_network ? "network" : "terminal");
			found(context, text, what);
			count++;
		}
	}
	close(reader);
	return count;
}

/* ---- Opening. */

static void activate(lapd_line *line)
{
	struct head head = { PH_ACTIVATE_REQ, 0 };

	send(line->descriptor, &head, sizeof head, MSG_DONTWAIT);
}

static bool bound(lapd_line *line, const struct device *device)
{
	const struct misdn *misdn = line->own;
	struct address address = { .family = ISDN_FAMILY, .device = (unsigned char)device->number };
	const char *role = misdn->is_network ? "network" : "terminal";

	if (!has(device, protocol_of(device, misdn->is_network)))
		return line_say(line, "mISDN's device %.40s cannot be the %s", misdn->wanted, role);
	line->descriptor = socket(ISDN_FAMILY, SOCK_DGRAM, (int)protocol_of(device, misdn->is_network));
	if (line->descriptor < 0)
		return line_say(line, "%s", no_socket());
	line_descriptor(line->descriptor);
	if (bind(line->descriptor, (const struct sockaddr *)&address, sizeof address) == 0)
		return true;
	if (errno == EBUSY)
		line_say(line, "mISDN's device %.40s is taken: another program uses it in the other role", misdn->wanted);
	else
		line_say(line, "mISDN's device %.40s as the %s: %s", misdn->wanted, role, strerror(errno));
	close(line->descriptor);
	line->descriptor = -1;
	return false;
}

/* Opens a device, whose layer 1 may be active or not. */
static bool open_device(lapd_line *line)
{
	struct misdn *misdn = line->own;
	int reader = any_socket();
	struct device device;
	bool is_found;

	if (reader < 0)
		return line_say(line, "%s", no_socket());
	is_found = find_device(reader, misdn->wanted, &device);
	close(reader);
	if (!is_found)
		return line_say(line, "mISDN has no device %.40s; `lapd-line --list` prints those that it has", misdn->wanted);
	if (!bound(line, &device))
		return false;
	misdn->confirmed = 0;
	activate(line);
	line_later(line, LAPD_LINE_RETRY);
	line_say(line, "layer 1 is not active");
	return true;
}

static bool misdn_open(lapd_line *line, char *words)
{
	struct misdn *misdn = calloc(1, sizeof *misdn);

	if (misdn == NULL)
		return line_say(line, "out of memory");
	line->own = misdn;
	misdn->number = (uint32_t)(getpid() & 0x7fff) << 16;
	misdn->is_network = line_ends(words, "nt");
	if ((!misdn->is_network && !line_ends(words, "te")) || words[0] == '\0')
		return line_say(line, "not %s: the number or the name of a device, and its role", line->kind->form);
	memcpy(misdn->wanted, words, strlen(words) + 1);
	return open_device(line);
}

static void misdn_close(lapd_line *line)
{
	(void)line;
}

/* Each second: a device that was unplugged is opened again, and layer 1 activated again. This call
 * lets lapd_line_next find that a device is gone, which wakes no poll(). */
static void misdn_again(lapd_line *line)
{
	line_later(line, LAPD_LINE_RETRY);
	if (line->descriptor < 0)
		open_device(line);
	else if (!line->is_up)
		activate(line);
}

/* ---- Frames and primitives. */

static enum lapd_line_event confirmed(lapd_line *line, uint32_t number)
{
	struct misdn *misdn = line->own;

	if (number == misdn->number) {
		misdn->confirmed = 0;
		line->send_at = 0;
	}
	return LAPD_LINE_NOTHING;
}

/* A request of another program, which the kernel copies to all sockets: reported once. */
static enum lapd_line_event requested(lapd_line *line, const struct head *head)
{
	struct misdn *misdn = line->own;
	bool is_ours = head->number >> 16 == misdn->number >> 16;

	if (head->primitive != PH_DATA_REQ || is_ours || misdn->is_shared)
		return LAPD_LINE_NOTHING;
	misdn->is_shared = true;
	return line_fault(line, &line->counts.invalid, "another program sends on this D channel too");
}

static enum lapd_line_event informed(lapd_line *line, uint32_t signal)
{
	switch (signal) {
	case LOS_ON:
		return line_fault(line, &line->counts.alarms, "loss of signal");
	case AIS_ON:
		return line_fault(line, &line->counts.alarms, "alarm indication signal (AIS)");
	case RDI_ON:
		return line_fault(line, &line->counts.alarms, "remote defect indication (RDI)");
	case SLIP_RX:
	case SLIP_TX:
		return line_fault(line, &line->counts.overrun, "slip: the clocks of the two ends differ");
	default:
		return LAPD_LINE_NOTHING;
	}
}

static enum lapd_line_event deactivated(lapd_line *line)
{
	struct misdn *misdn = line->own;

	misdn->confirmed = 0;
	return line_is_down(line, "layer 1 is not active");
}

static enum lapd_line_event primitive_of(lapd_line *line, const struct head *head, size_t length)
{
	if ((head->primitive & TO_LAYER_1) == 1)
		return requested(line, head);
	switch (head->primitive) {
	case PH_DATA_IND:
		if (length == 0)
			return line_fault(line, &line->counts.invalid, "an empty frame");
		return LAPD_LINE_FRAME;
	case PH_DATA_CNF:
		return confirmed(line, head->number);
	case PH_ACTIVATE_IND:
	case PH_ACTIVATE_CNF:
		return line_is_up(line, "layer 1 is active");
	case PH_DEACTIVATE_IND:
	case PH_DEACTIVATE_CNF:
		return deactivated(line);
	case MPH_INFORMATION_IND:
		return informed(line, head->number);
	default:
		line->counts.invalid++;
		return LAPD_LINE_NOTHING;
	}
}

/* Reads one datagram. Returns its length, 0 if none has arrived, or -1 if a device is gone. */
static ssize_t read_datagram(lapd_line *line, uint8_t *octets)
{
	ssize_t got;

	do
		got = recv(line->descriptor, octets, MOST_READ, MSG_DONTWAIT);
	while (got < 0 && errno == EINTR);
	if (got < 0 && errno == EAGAIN)
		return 0;
	if (got != 0)
		return got;
	/* The kernel returns 0 for a device that was removed. */
	errno = ENODEV;
	return -1;
}

static enum lapd_line_event misdn_receive(lapd_line *line, uint8_t *frame, size_t *length)
{
	enum lapd_line_event event = LAPD_LINE_NOTHING;
	struct head head;
	ssize_t got;

	while (event == LAPD_LINE_NOTHING && line->descriptor >= 0) {
		got = read_datagram(line, frame);
		if (got == 0)
			return LAPD_LINE_NOTHING;
		if (got < 0)
			return line_gone(line, errno == ENODEV ? "the device is gone" : strerror(errno));
		if ((size_t)got < sizeof head)
			return line_fault(line, &line->counts.invalid, "a datagram without a head");
		memcpy(&head, frame, sizeof head);
		*length = (size_t)got - sizeof head;
		event = primitive_of(line, &head, *length);
	}
	memmove(frame, frame + sizeof head, *length);
	return event;
}

/* Whether the driver has the last frame still. A driver that does not confirm it in time is not
 * waited for. */
static bool is_awaited(lapd_line *line)
{
	struct misdn *misdn = line->own;

	if (misdn->confirmed == 0)
		return false;
	if (line_clock() < misdn->confirmed) {
		line->send_at = misdn->confirmed;
		return true;
	}
	misdn->confirmed = 0;
	line_keep(line, line_fault(line, &line->counts.unconfirmed, "the driver did not confirm a frame"));
	return false;
}

static enum sent misdn_send(lapd_line *line, const uint8_t *frame, size_t length)
{
	uint8_t octets[sizeof(struct head) + LAPD_LINE_MOST_FRAME];
	struct misdn *misdn = line->own;
	struct head head = { PH_DATA_REQ, 0 };

	if (is_awaited(line))
		return HELD;
	if (length > MOST_FRAME_L1) {
		errno = EMSGSIZE;
		return REFUSED;
	}
	head.number = (misdn->number & 0x7fff0000) | ((misdn->number + 1) & 0x7fff);
	memcpy(octets, &head, sizeof head);
	memcpy(octets + sizeof head, frame, length);
	if (send(line->descriptor, octets, sizeof head + length, MSG_DONTWAIT) >= 0) {
		misdn->number = head.number;
		misdn->confirmed = line_clock() + CONFIRM_WAIT;
		return SENT;
	}
	if (errno == ENOMEM || errno == ENOBUFS || errno == EAGAIN || errno == EINTR) {
		line->send_at = line_clock() + MEMORY_WAIT;
		return HELD;
	}
	if (errno == EINVAL || errno == EMSGSIZE)
		return REFUSED;
	line_keep(line, line_gone(line, strerror(errno)));
	return GONE;
}

const struct line_kind line_misdn = {
	"misdn", "misdn:DEVICE:te|nt", misdn_open, misdn_close, misdn_receive, misdn_send, misdn_again, misdn_list,
};
