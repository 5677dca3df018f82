/* SPDX-License-Identifier: GPL-2.0-only
 *
 * The functions and types of the Linux kernel that fsm.c and layer2.c of mISDN use, for one file
 * and one thread: buffers, their queues, and timers with a clock in milliseconds that is moved by
 * hand. The file is compiled together with these two, so it is under their terms, the GNU General
 * Public License, version 2. It copies no code of the kernel. */
#include <errno.h>
#include <stdarg.h>
#include <stdbool.h>
#include <stddef.h>
#include <stdint.h>
#include <stdio.h>
#include <stdlib.h>
#include <string.h>
#include <sys/socket.h>

#define __KERNEL__
#define inline inline __attribute__((gnu_inline)) /* as the kernel compiles its files */
#define __packed __attribute__((packed))
#define likely(condition) (condition)
#define ARRAY_SIZE(array) (sizeof(array) / sizeof *(array))
#define array3_size(a, b, c) ((a) * (b) * (c))
#define container_of(pointer, type, member) ((type *)(void *)((char *)(pointer)-offsetof(type, member)))
#define EXPORT_SYMBOL(name) struct exported
#define KERN_ERR
#define KERN_WARNING
#define KERN_NOTICE
#define KERN_DEBUG
#define GFP_KERNEL 0
#define GFP_ATOMIC 0
#define kzalloc(size, how) calloc(1, size)
#define kfree free
#define printk(...) (getenv("INTEROP_LOG") == NULL ? 0 : fprintf(stderr, __VA_ARGS__))

/* Members of mISDNif.h that are not used. */
typedef int gfp_t, rwlock_t, wait_queue_head_t, ktime_t;
struct list_head { int unused; };
struct hlist_head { int unused; };
struct mutex { int unused; };
struct sock { int unused; };
struct device { int unused; };
#define dev_get_drvdata(device) NULL

struct va_format {
	const char *fmt;
	va_list *va;
};

#define test_bit(bit, bits) (*(bits) >> (bit)&1)
#define test_and_set_bit(bit, bits) set_bit_to(bit, bits, true)
#define test_and_clear_bit(bit, bits) set_bit_to(bit, bits, false)

/* Returns the bit as it was. */
static inline bool set_bit_to(int bit, unsigned long *bits, bool on)
{
	bool was = test_bit(bit, bits);

	*bits = (*bits & ~(1ul << bit)) | (unsigned long)on << bit;
	return was;
}

/* ---- Timers. */

struct timer_list {
	struct timer_list *next;
	void (*function)(struct timer_list *timer);
	unsigned long expires;
	bool runs;
};

static unsigned long jiffies;
static struct timer_list *timers; /* those that run */

#define HZ 1000
#define from_timer(it, timer, member) container_of(timer, typeof(*it), member)
#define timer_setup(timer, call, flags) ((timer)->function = (call))
#define timer_pending(timer) ((timer)->runs)

static inline void add_timer(struct timer_list *timer)
{
	timer->next = timers;
	timer->runs = true;
	timers = timer;
}

static inline void del_timer(struct timer_list *timer)
{
	struct timer_list **at = &timers;

	while (*at != NULL && *at != timer)
		at = &(*at)->next;
	if (*at != NULL)
		*at = timer->next;
	timer->runs = false;
}

/* ---- Buffers and queues. */

struct sk_buff {
	struct sk_buff *next;
	uint8_t *data;
	unsigned int len;
	char cb[16];
	uint8_t room[512];
};

struct sk_buff_head {
	struct sk_buff *first;
};

#define dev_kfree_skb free
#define skb_reserve(buffer, octets) ((buffer)->data += (octets))
#define skb_push(buffer, octets) ((buffer)->len += (octets), (buffer)->data -= (octets))
#define skb_pull(buffer, octets) ((buffer)->len -= (octets), (buffer)->data += (octets))
#define skb_trim(buffer, length) ((buffer)->len = (length))
#define skb_queue_len(queue) ((queue)->first != NULL) /* used only as a condition */
#define skb_queue_head_init(queue) ((queue)->first = NULL)

static inline struct sk_buff *alloc_skb(unsigned int size, gfp_t how)
{
	struct sk_buff *buffer = calloc(1, sizeof *buffer);

	(void)how;
	if (buffer == NULL || size > sizeof buffer->room)
		abort();
	buffer->data = buffer->room;
	return buffer;
}

static inline void skb_put_data(struct sk_buff *buffer, const void *octets, unsigned int length)
{
	memcpy(buffer->data + buffer->len, octets, length);
	buffer->len += length;
}

static inline struct sk_buff *skb_realloc_headroom(const struct sk_buff *from, unsigned int room)
{
	struct sk_buff *buffer = alloc_skb(room + from->len, GFP_ATOMIC);

	skb_reserve(buffer, room);
	skb_put_data(buffer, from->data, from->len);
	return buffer;
}

static inline void skb_queue_head(struct sk_buff_head *queue, struct sk_buff *buffer)
{
	buffer->next = queue->first;
	queue->first = buffer;
}

static inline void skb_queue_tail(struct sk_buff_head *queue, struct sk_buff *buffer)
{
	struct sk_buff **at = &queue->first;

	while (*at != NULL)
		at = &(*at)->next;
	*at = buffer;
	buffer->next = NULL;
}

static inline struct sk_buff *skb_dequeue(struct sk_buff_head *queue)
{
	struct sk_buff *buffer = queue->first;

	if (buffer != NULL)
		queue->first = buffer->next;
	return buffer;
}

static inline void skb_queue_purge(struct sk_buff_head *queue)
{
	while (queue->first != NULL)
		dev_kfree_skb(skb_dequeue(queue));
}
