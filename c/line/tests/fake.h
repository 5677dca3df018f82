/* Drivers of D channels that exist only in a test. By the linker's --wrap the line code calls
 * these functions in place of the system's. The driver is the other end of a socket pair. */
#ifndef FAKE_H
#define FAKE_H

#include <stdbool.h>
#include <stddef.h>
#include <stdint.h>
#include <sys/types.h>

#define MISDN_HEAD 8 /* octets of a primitive and a number, before each datagram of mISDN */

struct fake {
	int driver;        /* the driver's end: what the line writes is read here; -1 if not open */
	int line;          /* the line's end */
	int64_t now;       /* the clock, in milliseconds */
	int open_error;    /* the error of the next attempt to open a device; 0: none */
	bool is_full;      /* DAHDI accepts no frame */
	bool is_e1;        /* mISDN: an E1 device, else S0 */
	unsigned alarms;   /* DAHDI: of the channel */
	int signalling;    /* DAHDI: of the channel */
	int events[64];    /* DAHDI: those that wait */
	size_t event_count;
	size_t lost;       /* frames that the line sent to a former descriptor, and nobody read */
	bool is_dahdi;
};

extern struct fake fake;

/* The driver delivers octets to the line. Returns whether there was room. */
bool fake_deliver(const uint8_t *octets, size_t length);

/* The driver delivers a datagram of mISDN. */
bool fake_primitive(uint32_t primitive, uint32_t number, const uint8_t *octets, size_t length);

/* The driver reads what the line wrote. Returns the length, or -1 if there is nothing. */
ssize_t fake_written(uint8_t *octets, size_t size);

/* DAHDI reports an event. */
void fake_event(int event);

#endif
