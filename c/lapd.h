/* LAPD, the data link layer of an ISDN D channel (ITU-T Q.921, 09/97), for C. The header compiles
 * as C89 and as C++.
 *
 * A side is the network or the user end of one interface: its links, its TEI management and its
 * timers. It does no input or output, and has no clock, no thread and no callbacks. A program
 *
 *   passes in  each frame from the line (lapd_side_take), the requests of layer 3
 *              (lapd_side_establish, lapd_side_give and others), and the moments up to which timers
 *              expire (lapd_side_tick);
 *   fetches    the frames to send and the primitives for layer 3, each in order, until none is left
 *              (lapd_side_next; or lapd_side_frame and lapd_side_primitive). It may make other
 *              calls before it has fetched all, such as a request that answers a primitive; their
 *              frames and primitives are queued after the rest;
 *   waits      until lapd_side_deadline, or until a frame arrives.
 *
 * Before you expire timers for a moment, pass in every frame that had arrived by then. A loop reads
 * the clock and takes frames without waiting until none is left. It then calls lapd_side_tick for
 * the moment that was read before the attempt that found no frame, and waits (terminal.c).
 *
 * A frame is its address, control and information field: 3 to 264 octets, without flags, inserted
 * zero bits and frame check sequence. Do not pass in a frame whose check sequence was wrong. `now`
 * is in milliseconds, of any monotonic clock.
 *
 * A program must keep these rules:
 *   - A lapd_side is initialized with LAPD_SIDE_INIT. After that only these functions access it,
 *     and it is never copied.
 *   - Each pointer points to objects of its type, as many as its size argument says. It may be
 *     NULL if that size is 0. Memory that a call writes does not overlap any other argument.
 *   - Only one call at a time uses a side. This holds for calls with a `const lapd_side *` too,
 *     which leave the side unchanged. Calls may be made by several threads if locks, or the start
 *     or join of a thread, put them in order. Sides share nothing. No call is made from a signal
 *     handler.
 * If it does, every call is safe for all numbers, octets and moments: it returns, does not block or
 * call back, and writes nothing outside the buffers. Four things are trusted for this, not proved:
 * the stack suffices; the C compiler and the library agree on the calling convention; a call
 * accesses nothing at NULL if its size argument is 0, which is tested; and malloc, realloc and
 * free, or the heap of your own in their place, do what they promise. For a handle that owns no
 * side, new or freed, a call returns LAPD_NO_SIDE, unless a number is out of range.
 *
 * A side owns its memory, and lapd_side_free frees all of it. A side keeps no pointer that is
 * passed in, so buffers and settings need to exist only during the call. No result has to be
 * freed. */
#ifndef LAPD_H
#define LAPD_H

#include <stddef.h>
#include <stdint.h>

#ifdef __cplusplus
extern "C" {
#endif

/* The version of this header, as text, and as a number: 10,000 times the major version, 100 times
 * the minor one, and the patch. lapd_version() is the number of the library. LAPD_ABI is the number
 * in the name of the shared library, liblapd.so.1.
 *
 * A compiled program runs with every library of the same LAPD_ABI and of its version or a later
 * one. Within one LAPD_ABI
 *   - a later version may add calls, constants and fields, and then has a greater minor version. It
 *     changes and removes none;
 *   - no struct changes its size. New fields take the place of `reserved`: a setting that is 0
 *     means what it meant before, and the library writes 0 to `reserved`;
 *   - a call may return new codes, and deliver new kinds. A program accepts those that it does not
 *     know.
 * Any other change raises LAPD_ABI and the minor or major version. "Since" names the version that
 * first had a call. A version with a greater patch number changes nothing here. */
#define LAPD_VERSION_STRING "0.3.0"
#define LAPD_VERSION 300
#define LAPD_ABI 1

/* LAPD_MUST_USE marks a call whose result must not be ignored: if it is not LAPD_DONE, a frame or a
 * message is lost, and no other call reports that. LAPD_DEPRECATED marks a call that a later
 * version may remove, and says what replaces it; this version marks none. A compiler without such
 * attributes ignores both. */
#if (defined(__cplusplus) && __cplusplus >= 201703L) \
	|| (defined(__STDC_VERSION__) && __STDC_VERSION__ >= 202311L)
#define LAPD_MUST_USE [[nodiscard]]
#define LAPD_DEPRECATED(instead) [[deprecated(instead)]]
#elif defined(__GNUC__)
#define LAPD_MUST_USE __attribute__((warn_unused_result))
#define LAPD_DEPRECATED(instead) __attribute__((deprecated(instead)))
#else
#define LAPD_MUST_USE
#define LAPD_DEPRECATED(instead)
#endif

/* A handle: one word, which owns a side or nothing. It may be a member of a struct of yours. */
typedef struct lapd_side {
	void *lapd_private;
} lapd_side;

/* A handle that owns no side, as in `lapd_side side = LAPD_SIDE_INIT;`. A handle whose octets are
 * all 0 is the same. */
#define LAPD_SIDE_INIT { NULL }

/* The result of a call. If it is not LAPD_DONE, the side is unchanged, with no new frames or
 * primitives. Each call that passes something in can return LAPD_NO_SIDE and LAPD_PENDING, and
 * LAPD_NO_MEMORY if frames or primitives wait to be fetched. The description of a call names the
 * other codes that it can return. If several codes apply, the first of this list is returned:
 *   1. LAPD_OUT_OF_RANGE: a SAPI, a TEI or a setting is out of range;
 *   2. LAPD_NO_MEMORY: the octets of lapd_side_unit cannot be copied, or a side cannot be created;
 *   3. LAPD_NO_SIDE;
 *   4. LAPD_PENDING;
 *   5. LAPD_CHECK_RUNS;
 *   6. LAPD_NO_MEMORY: what the last call left to be fetched cannot be queued, the octets of
 *      lapd_side_give cannot be copied, or the counters of lapd_side_count cannot be allocated;
 *   7. the other codes, and LAPD_OUT_OF_RANGE for a buffer that is too small. */
enum lapd_code {
	LAPD_DONE = 0,
	LAPD_NO_SIDE = 1,              /* the handle owns no side */
	LAPD_PENDING = 2,              /* at least most_waiting frames or primitives wait */
	LAPD_OUT_OF_RANGE = 3,         /* a number is out of range, or the buffer is too small */
	LAPD_CHECK_RUNS = 4,           /* another check of a TEI is in progress */
	LAPD_NOT_COUNTING = 5,         /* counters are requested of a side that does not count */
	LAPD_NO_LINK = 11,             /* B1: no link with this SAPI and TEI exists */
	LAPD_NO_MEMORY = 13,           /* B3: an allocation failed; try again, or first fetch all */
	LAPD_NOT_ESTABLISHED = 21,     /* L1: a message for a link that is not established */
	LAPD_QUEUE_FULL = 22,          /* L2: the queue of the link is full */
	LAPD_TOO_LONG = 23,            /* L3: more than 260 octets */
	LAPD_RELEASING = 24,           /* L4: the link is being released */
	LAPD_LAYER_3_ESTABLISHING = 25 /* L5: a message while layer 3 establishes the link */
};

/* The type of a result, with the representation of uint32_t. In C it is the enum, so that debuggers
 * print names, and -Wswitch reports codes that a switch without a default leaves out. A later
 * version may return other codes, which need not be values of a C++ enum, so in C++ the type is the
 * number. */
#ifdef __cplusplus
typedef uint32_t lapd_result;
#else
typedef enum lapd_code lapd_result;
#endif

/* The primitives for layer 3 and management, and a frame to send. Each comment begins with the
 * fields that the primitive uses besides kind, sapi and tei, if any.
 *
 * When a TEI is removed, LAPD_TEI_GONE, LAPD_TEI_FREE or LAPD_TEI_DOUBLED is delivered first. Then
 * each of its links, SAPI 0 before 16, delivers at most LAPD_RELEASE_IND, or LAPD_RELEASE_CONF if a
 * release was requested. Messages that still waited are not reported by LAPD_DROPPED. Before a
 * call of yours that removes the TEI, read `waiting` by lapd_side_state. A frame or a timer may
 * remove it too, so in general count, for each link, the messages that were accepted, less those
 * acknowledged or dropped: each of the rest was lost, or was received without an
 * acknowledgement. */
enum lapd_kind {
	LAPD_NOTHING = 0,           /* no primitive is left */
	LAPD_DATA_IND = 1,          /* octets: a message, 0 to 260 (DL-DATA indication) */
	LAPD_UNIT_DATA_IND = 2,     /* octets: unit data, 0 to 260; tei is 127 if for all terminals */
	LAPD_ESTABLISH_IND = 3,     /* the link was established by the peer, or re-established */
	LAPD_ESTABLISH_CONF = 4,    /* the link is established, as requested */
	LAPD_RELEASE_IND = 5,       /* the link is released; tei is 127 if a user side got no TEI */
	LAPD_RELEASE_CONF = 6,      /* the link is released, as requested */
	LAPD_ACKNOWLEDGED = 7,      /* count: messages acknowledged, 1 to 127, the oldest waiting ones */
	LAPD_DROPPED = 8,           /* count: messages dropped, 1 to 1024; some may have arrived; not
	                             * reported when the link is removed with its TEI */
	LAPD_MDL_ERROR = 9,         /* letter: 'A' to 'O' (Q.921 Appendix II) */
	LAPD_TEI_GOT = 16,          /* user side: it has been assigned tei */
	LAPD_TEI_GONE = 17,         /* user side: it no longer has tei; its links are removed */
	LAPD_TEI_FAILED = 18,       /* user side: it got no TEI, and stopped requesting one */
	LAPD_TEI_GIVEN = 19,        /* network side: it has assigned tei to a terminal */
	LAPD_TEI_FREE = 20,         /* network side: tei is free, since no terminal answered its check,
	                             * or lapd_side_remove_tei removed it; its links are removed */
	LAPD_TEI_IN_USE = 21,       /* network side: one terminal answered the check of tei */
	LAPD_TEI_DOUBLED = 22,      /* network side: several terminals answered; tei and its links are
	                             * removed */
	LAPD_FRAME = 32             /* octets: a frame to send, from lapd_side_next alone; sapi and tei
	                             * are not used */
};

/* The configuration of a side. */
typedef struct lapd_settings {
	uint32_t size;   /* sizeof(lapd_settings); another size, as that of a header of another LAPD_ABI,
	                  * is out of range */
	uint32_t t200;   /* ms, 1 to 3600000: the wait for a response; must exceed the round trip */
	uint32_t t201;   /* ms, 1 to 3600000: network side, an identity check */
	uint32_t t202;   /* ms, 1 to 3600000: user side, an identity request */
	uint32_t t203;   /* ms, 1 to 3600000: how long a link may be idle before the peer is polled */
	uint16_t room;   /* capacity of the message queue of a link, 1 to 1024 */
	/* 1 to 65535: calls return LAPD_PENDING while this many frames, or primitives, wait to be
	 * fetched. */
	uint16_t most_waiting;
	/* User side: the seed of its references (Ri). Terminals on one bus must have different seeds:
	 * with the same seed they draw the same references, and can be assigned one TEI. Draw the seed
	 * from the system, as by getrandom, and not from the time or a constant. */
	uint64_t seed;
	uint8_t n200;    /* the maximum number of retransmissions of a frame, 1 to 100 */
	uint8_t k0;      /* the window of SAPI 0, 1 to 127 */
	uint8_t k16;     /* the window of SAPI 16, 1 to 127 */
	uint8_t sapi16;  /* 0: only SAPI 0 is served; otherwise SAPI 16 too */
	uint64_t reserved[3]; /* 0: room for settings of later versions */
} lapd_settings;

/* The values of Q.921 5.9 for basic access and primary rate, as in
 * `lapd_settings settings = LAPD_BASIC;`. The seed is 0: set it for a user side without a fixed
 * TEI. */
#define LAPD_BASIC   \
	{ sizeof(lapd_settings), 1000, 1000, 2000, 10000, 512, 1024, 0, 3, 1, 3, 0, { 0, 0, 0 } }
#define LAPD_PRIMARY \
	{ sizeof(lapd_settings), 1000, 1000, 2000, 10000, 512, 1024, 0, 3, 7, 7, 0, { 0, 0, 0 } }

/* The settings that can be out of range, for lapd_settings_check. */
enum lapd_setting {
	LAPD_SETTING_NONE = 0,         /* each setting is in its range */
	LAPD_SETTING_SIZE = 1,         /* the header of the program has another LAPD_ABI, or the settings
	                                * do not begin with LAPD_BASIC or LAPD_PRIMARY */
	LAPD_SETTING_T200 = 2,
	LAPD_SETTING_T201 = 3,
	LAPD_SETTING_T202 = 4,
	LAPD_SETTING_T203 = 5,
	LAPD_SETTING_ROOM = 6,
	LAPD_SETTING_MOST_WAITING = 7,
	LAPD_SETTING_N200 = 8,
	LAPD_SETTING_K0 = 9,
	LAPD_SETTING_K16 = 10,
	LAPD_SETTING_RESERVED = 11     /* as if the library is older than the program */
};

typedef struct lapd_primitive {
	uint8_t kind;    /* enum lapd_kind */
	uint8_t sapi;    /* 0 or 16; 63 for TEI management */
	uint8_t tei;     /* 0 to 126; 127 for the group, or if there is none */
	uint8_t letter;  /* 0 if not used */
	uint16_t count;  /* 0 if not used */
	size_t octets;   /* the number of octets in the buffer; 0 if not used */
	uint64_t reserved; /* 0: room for a field of a later version */
} lapd_primitive;

/* The state of a link. */
typedef struct lapd_link_state {
	uint8_t state;      /* 4 TEI assigned, 5 awaiting establishment, 6 awaiting release,
	                     * 7 established, 8 timer recovery */
	uint8_t rc;         /* RC, the retransmission counter, 0 to N200 */
	uint8_t vs, va, vr; /* V(S), V(A), V(R), 0 to 127 */
	uint8_t peer_busy;  /* 1 if the peer is receiver busy (accepts no messages for now), else 0 */
	uint8_t own_busy;   /* 1 if this end is receiver busy, else 0 */
	uint8_t rejecting;  /* 1 if a message is missing and REJ has requested it, else 0 */
	uint16_t waiting;   /* messages neither acknowledged nor dropped, 0 to 1024 */
	uint64_t reserved[2]; /* 0: room for fields of later versions */
} lapd_link_state;

/* The counters of a link since lapd_side_count. Each stops at UINT64_MAX.
 *
 * A frame is counted for the SAPI and TEI in its address, by the call that sends or receives it,
 * whether the link exists or not. Octets that do not form a valid frame are not counted. A user
 * side receives the frames for all terminals of its bus, so it counts those of other TEIs too. */
typedef struct lapd_link_counters {
	/* I frames sent for the first time, and sent again. A frame is sent for the first time if its
	 * N(S) is one greater, modulo 128, than the highest N(S) that was counted since this end last
	 * sent SABME or UA, or if none was. So if the side begins to count while a link is established,
	 * the next I frame of the link counts as sent for the first time. */
	uint64_t sent;
	uint64_t again;
	uint64_t received;     /* I frames received, also those that the link discards */
	uint64_t rej_sent;     /* REJ sent: a message was missing */
	uint64_t rej_received;
	uint64_t rnr_sent;     /* RNR sent: this end is receiver busy */
	uint64_t rnr_received;
	uint64_t reports;      /* LAPD_MDL_ERROR */
	uint64_t reserved[8];  /* 0: room for counters of later versions */
} lapd_link_counters;

#define LAPD_NO_TEI 255          /* for lapd_side_user: no fixed TEI; from lapd_side_tei: no TEI */
#define LAPD_GROUP_TEI 127       /* all terminals */
#define LAPD_MOST_FRAME 264      /* the maximum number of octets of a frame */
#define LAPD_MOST_MESSAGE 260    /* the maximum number of octets of a message or unit data (N201) */
#define LAPD_MOST_NAME 26        /* the maximum number of octets of a name, with its final 0 */
#define LAPD_NEVER UINT64_MAX    /* from lapd_side_deadline: no timer runs */

/* The number of the library, as LAPD_VERSION. Since 0.1. */
uint32_t lapd_version(void);

/* Checks settings, before a side is created or if that returned LAPD_OUT_OF_RANGE. *setting is a
 * number of enum lapd_setting: 0 if all are in their ranges, else one that is not, and
 * LAPD_SETTING_SIZE before all others. LAPD_OUT_OF_RANGE: a setting is out of range. The call needs
 * no side. Since 0.3. */
lapd_result lapd_settings_check(const lapd_settings *settings, uint8_t *setting);

/* Creates a network side that holds `count` TEIs, each 0 to 126, whose links exist from the start;
 * other TEIs are assigned on request. A TEI that is listed twice counts once. Frees the side that
 * the handle owned.
 * LAPD_OUT_OF_RANGE, LAPD_NO_MEMORY: the handle is unchanged. Since 0.1. */
lapd_result lapd_side_network(lapd_side *side, const lapd_settings *settings, const uint8_t *teis,
	size_t count);

/* Creates a user side with a fixed TEI, 0 to 126, or with LAPD_NO_TEI. Without a TEI it requests
 * one from the network when layer 3 requests to establish a link, and by lapd_side_ask_tei.
 * Otherwise like lapd_side_network. Since 0.1. */
lapd_result lapd_side_user(lapd_side *side, const lapd_settings *settings, uint8_t tei);

/* Frees the side. The handle then owns none, and freeing it again does nothing. Since 0.1. */
void lapd_side_free(lapd_side *side);

/* Processes a frame received from the line. Octets that do not form a valid frame, and frames for
 * no link of this side, are discarded and counted; the result is LAPD_DONE too.
 * LAPD_NO_MEMORY: the frame assigns a TEI, and its links could not be allocated; the frame may be
 * passed in again. Since 0.1. */
LAPD_MUST_USE lapd_result lapd_side_take(lapd_side *side, const uint8_t *frame, size_t length,
	uint64_t now);

/* Requests of layer 3, for the link with a SAPI, 0, 16 or 63, and a TEI, 0 to 127. A user side uses
 * only the SAPI: the TEI is its own, and any number from 0 to 127 is accepted; other numbers return
 * LAPD_OUT_OF_RANGE. */

/* Establishes the link (DL-ESTABLISH request). LAPD_NO_LINK, LAPD_RELEASING. Since 0.1. */
lapd_result lapd_side_establish(lapd_side *side, uint8_t sapi, uint8_t tei, uint64_t now);

/* Releases the link (DL-RELEASE request). LAPD_NO_LINK. Since 0.1. */
lapd_result lapd_side_release(lapd_side *side, uint8_t sapi, uint8_t tei, uint64_t now);

/* Sends a message (DL-DATA request), which the side copies. Any code can be returned. Since 0.1. */
LAPD_MUST_USE lapd_result lapd_side_give(lapd_side *side, uint8_t sapi, uint8_t tei,
	const uint8_t *message, size_t length, uint64_t now);

/* Sends unit data (DL-UNIT DATA request), without acknowledgement; from a network side to all
 * terminals if tei is LAPD_GROUP_TEI. LAPD_NO_LINK, LAPD_NO_MEMORY, LAPD_TOO_LONG. Since 0.1. */
LAPD_MUST_USE lapd_result lapd_side_unit(lapd_side *side, uint8_t sapi, uint8_t tei,
	const uint8_t *octets, size_t length, uint64_t now);

/* Enters own receiver busy on the link if `on` is not 0, so that this end accepts no messages for
 * now, or leaves it (Q.921 5.6.6). LAPD_NO_LINK. Since 0.1. */
lapd_result lapd_side_busy(lapd_side *side, uint8_t sapi, uint8_t tei, uint8_t on, uint64_t now);

/* Requests a TEI if the user side has none. A network side ignores it. Since 0.1. */
lapd_result lapd_side_ask_tei(lapd_side *side, uint64_t now);

/* Checks whether terminals have this TEI, 0 to 126. Check only TEIs that are held: a check of a TEI
 * that no terminal has may end after the TEI was assigned, and then frees it under its terminal. A
 * user side ignores it. LAPD_OUT_OF_RANGE: tei is above 126. LAPD_CHECK_RUNS: another check is in
 * progress; check again after its outcome, LAPD_TEI_FREE, LAPD_TEI_IN_USE or LAPD_TEI_DOUBLED.
 * Since 0.1. */
lapd_result lapd_side_check_tei(lapd_side *side, uint8_t tei, uint64_t now);

/* Checks all TEIs: sends one check request to all terminals (Q.921 5.3.3), and each that has a TEI
 * answers with it. No check begins, and nothing is reported: the answers are frames that you pass
 * in. A TEI that is checked before they have arrived is counted too often, so wait for T201 before
 * lapd_side_check_tei. A user side ignores it. LAPD_CHECK_RUNS: a check is in progress.
 * Since 0.2. */
lapd_result lapd_side_check_all(lapd_side *side, uint64_t now);

/* Removes this TEI, 0 to 126 (MDL-REMOVE request, Q.921 5.3.4), and its links. A network side sends
 * Identity remove twice and reports LAPD_TEI_FREE, whether it has assigned the TEI or not; a check
 * of the TEI ends without its own outcome. From then on the TEI may be assigned to another
 * terminal: one that receives neither message keeps it, so check the TEI before you rely on it. A
 * TEI below 64 is not assigned again. A user side gives up its TEI and reports LAPD_TEI_GONE; it
 * sends nothing. LAPD_NO_LINK: the TEI is not that of this user side. LAPD_OUT_OF_RANGE: tei is
 * above 126. Since 0.1. */
lapd_result lapd_side_remove_tei(lapd_side *side, uint8_t tei, uint64_t now);

/* Removes all TEIs from the terminals of a network side that holds none, as after a restart without
 * its list: sends Identity remove to all terminals twice (Q.921 5.3.4), and reports nothing. A
 * network side that holds a TEI ignores it: first remove each TEI that it holds. A user side
 * ignores it. Since 0.2. */
lapd_result lapd_side_remove_all(lapd_side *side, uint64_t now);

/* Sets T200 to T203 in milliseconds, each 1 to 3600000, for timers that are started from then on,
 * also those of links that are added later. A running timer keeps its deadline. Never returns
 * LAPD_PENDING. LAPD_OUT_OF_RANGE: nothing is changed. Since 0.1. */
lapd_result lapd_side_set_timers(lapd_side *side, uint32_t t200, uint32_t t201, uint32_t t202,
	uint32_t t203);

/* Expires the first timer that is due at `now`. *expired is 1 if one was due, else 0; call it until
 * it is 0. Before you expire timers for a moment, pass in every frame that had arrived by then.
 * Otherwise T200 may expire although its response has arrived, and the peer receives a second
 * SABME, or a message again. Since 0.1. */
lapd_result lapd_side_tick(lapd_side *side, uint64_t now, uint8_t *expired);

/* The next moment at which lapd_side_tick has something to do. LAPD_NEVER if no timer runs or the
 * handle owns no side. Only calls that pass something in change it. Wait until then, or until a
 * frame arrives; then take every frame that has arrived, and only then call lapd_side_tick.
 * Since 0.1. */
lapd_result lapd_side_deadline(const lapd_side *side, uint64_t *moment);

/* The number of frames that lapd_side_take has discarded since the side was created. It stops at
 * UINT64_MAX, and is 0 if the handle owns no side. Since 0.1. */
lapd_result lapd_side_discarded(const lapd_side *side, uint64_t *count);

/* The state of the link with a SAPI, 0, 16 or 63, and a TEI, 0 to 127. A user side uses only the
 * SAPI, as for requests. LAPD_OUT_OF_RANGE, LAPD_NO_SIDE, LAPD_NO_LINK: all of *state is 0.
 * Since 0.1. */
lapd_result lapd_side_state(const lapd_side *side, uint8_t sapi, uint8_t tei,
	lapd_link_state *state);

/* Writes the TEIs that a network side holds, 0 to 126, or the TEI that a user side has, to the
 * beginning of the buffer: each once, in ascending order. *count is their number, at most 127. A
 * network side can be created with this list after a restart. LAPD_OUT_OF_RANGE: there are more
 * than `size`, and nothing is written to the buffer. Since 0.3. */
lapd_result lapd_side_teis(const lapd_side *side, uint8_t *teis, size_t size, size_t *count);

/* Writes the TEIs of the links that exist with a SAPI, 0, 16 or 63, like lapd_side_teis.
 * LAPD_OUT_OF_RANGE is returned for another SAPI too, and *count is 0. Since 0.3. */
lapd_result lapd_side_links(const lapd_side *side, uint8_t sapi, uint8_t *teis, size_t size,
	size_t *count);

/* Begins to count the I frames, REJ, RNR and reports of each link, from 0; if the side counts
 * already, it counts from 0 again. It allocates about 28000 octets, until the side is freed. A new
 * side does not count. LAPD_NO_MEMORY: nothing is changed. Since 0.1. */
lapd_result lapd_side_count(lapd_side *side);

/* The counters of the link with a SAPI, 0, 16 or 63, and a TEI, 0 to 127. A user side uses the TEI
 * too: after it lost its TEI, the counters can still be read. A call counts its frames and reports
 * when it is made, even if they are not fetched yet. LAPD_OUT_OF_RANGE, LAPD_NO_SIDE,
 * LAPD_NOT_COUNTING: all of *counters is 0. Since 0.1. */
lapd_result lapd_side_counters(const lapd_side *side, uint8_t sapi, uint8_t tei,
	lapd_link_counters *counters);

/* The state of a user side's terminal (Q.921 Annex B): 1 TEI unassigned, 2 assign awaiting TEI,
 * 3 establish awaiting TEI, 4 TEI assigned; and its TEI in state 4, else LAPD_NO_TEI. For a network
 * side, and if the handle owns no side, they are 0 and LAPD_NO_TEI. Since 0.1. */
lapd_result lapd_side_tei(const lapd_side *side, uint8_t *state, uint8_t *tei);

/* Fetches the next frame to send or, if none is left, the next primitive, and its octets into the
 * beginning of the buffer. The kind of a frame is LAPD_FRAME, and LAPD_NOTHING if neither is left.
 * *left is the number of frames and primitives that still wait after the call, so a program need
 * not call again to find none. A buffer of LAPD_MOST_FRAME octets has room for each.
 * LAPD_OUT_OF_RANGE: there are more than `size` octets, and *item contains their number; nothing is
 * written to the buffer, and the frame or primitive still waits. Since 0.1. */
lapd_result lapd_side_next(lapd_side *side, lapd_primitive *item, uint8_t *buffer, size_t size,
	size_t *left);

/* Fetches the next frame to send, into the beginning of the buffer. *length is its number of
 * octets, or 0 if none is left. LAPD_OUT_OF_RANGE: the frame has more than `size` octets; nothing
 * is written to the buffer, and the frame still waits. Since 0.1. */
lapd_result lapd_side_frame(lapd_side *side, uint8_t *buffer, size_t size, size_t *length);

/* Fetches the next primitive, and its octets into the beginning of the buffer. Its kind is
 * LAPD_NOTHING if none is left. LAPD_OUT_OF_RANGE: it has more than `size` octets, and *primitive
 * contains their number; nothing is written to the buffer, and the primitive still waits.
 * Since 0.1. */
lapd_result lapd_side_primitive(lapd_side *side, lapd_primitive *primitive, uint8_t *buffer,
	size_t size);

/* Writes a line of text for the octets of a frame, as in `N>U SAPI 0 TEI 64 C RR N(R)=0 P=1`, or
 * for the first fault if they do not form a valid frame. The sender is a network side if `network`
 * is not 0, else a user side. The text is at the beginning of the buffer, followed by a 0 if
 * there is room. *text is its number of characters without the 0, at most 43 plus two for each
 * octet. LAPD_OUT_OF_RANGE: that is more than `size`, and nothing is written to the buffer.
 * LAPD_NO_MEMORY: *text is 0. The call needs no side. Since 0.1. */
lapd_result lapd_frame_text(const uint8_t *frame, size_t length, uint8_t network, uint8_t *buffer,
	size_t size, size_t *text);

/* Writes the name of a code or a kind, as in `LAPD_NO_LINK`, as lapd_frame_text does. *text is
 * its number of characters, 0 if the number has no name. A buffer of LAPD_MOST_NAME octets has room
 * for each name and its final 0. Since 0.1. */
lapd_result lapd_code_name(uint32_t code, uint8_t *buffer, size_t size, size_t *text);
lapd_result lapd_kind_name(uint8_t kind, uint8_t *buffer, size_t size, size_t *text);

/* The same names as strings, "" if the number has no name, without a call of the library. C89 has
 * no inline functions, so they are for C99 and later, and for C++. Since 0.2. */
#if defined(__cplusplus) || (defined(__STDC_VERSION__) && __STDC_VERSION__ >= 199901L)
static inline const char *lapd_code_string(uint32_t code)
{
	switch (code) {
	case LAPD_DONE: return "LAPD_DONE";
	case LAPD_NO_SIDE: return "LAPD_NO_SIDE";
	case LAPD_PENDING: return "LAPD_PENDING";
	case LAPD_OUT_OF_RANGE: return "LAPD_OUT_OF_RANGE";
	case LAPD_CHECK_RUNS: return "LAPD_CHECK_RUNS";
	case LAPD_NOT_COUNTING: return "LAPD_NOT_COUNTING";
	case LAPD_NO_LINK: return "LAPD_NO_LINK";
	case LAPD_NO_MEMORY: return "LAPD_NO_MEMORY";
	case LAPD_NOT_ESTABLISHED: return "LAPD_NOT_ESTABLISHED";
	case LAPD_QUEUE_FULL: return "LAPD_QUEUE_FULL";
	case LAPD_TOO_LONG: return "LAPD_TOO_LONG";
	case LAPD_RELEASING: return "LAPD_RELEASING";
	case LAPD_LAYER_3_ESTABLISHING: return "LAPD_LAYER_3_ESTABLISHING";
	default: return "";
	}
}

static inline const char *lapd_kind_string(uint8_t kind)
{
	switch (kind) {
	case LAPD_NOTHING: return "LAPD_NOTHING";
	case LAPD_DATA_IND: return "LAPD_DATA_IND";
	case LAPD_UNIT_DATA_IND: return "LAPD_UNIT_DATA_IND";
	case LAPD_ESTABLISH_IND: return "LAPD_ESTABLISH_IND";
	case LAPD_ESTABLISH_CONF: return "LAPD_ESTABLISH_CONF";
	case LAPD_RELEASE_IND: return "LAPD_RELEASE_IND";
	case LAPD_RELEASE_CONF: return "LAPD_RELEASE_CONF";
	case LAPD_ACKNOWLEDGED: return "LAPD_ACKNOWLEDGED";
	case LAPD_DROPPED: return "LAPD_DROPPED";
	case LAPD_MDL_ERROR: return "LAPD_MDL_ERROR";
	case LAPD_TEI_GOT: return "LAPD_TEI_GOT";
	case LAPD_TEI_GONE: return "LAPD_TEI_GONE";
	case LAPD_TEI_FAILED: return "LAPD_TEI_FAILED";
	case LAPD_TEI_GIVEN: return "LAPD_TEI_GIVEN";
	case LAPD_TEI_FREE: return "LAPD_TEI_FREE";
	case LAPD_TEI_IN_USE: return "LAPD_TEI_IN_USE";
	case LAPD_TEI_DOUBLED: return "LAPD_TEI_DOUBLED";
	case LAPD_FRAME: return "LAPD_FRAME";
	default: return "";
	}
}

/* The name of a setting, as spelled in lapd_settings. Since 0.3. */
static inline const char *lapd_setting_string(uint8_t setting)
{
	switch (setting) {
	case LAPD_SETTING_SIZE: return "size";
	case LAPD_SETTING_T200: return "t200";
	case LAPD_SETTING_T201: return "t201";
	case LAPD_SETTING_T202: return "t202";
	case LAPD_SETTING_T203: return "t203";
	case LAPD_SETTING_ROOM: return "room";
	case LAPD_SETTING_MOST_WAITING: return "most_waiting";
	case LAPD_SETTING_N200: return "n200";
	case LAPD_SETTING_K0: return "k0";
	case LAPD_SETTING_K16: return "k16";
	case LAPD_SETTING_RESERVED: return "reserved";
	default: return "";
	}
}
#endif

#ifdef __cplusplus
}
#endif

#endif
