/* SPDX-License-Identifier: GPL-2.0-only
 *
 * An end of mISDN's layer 2. The file includes fsm.c and layer2.c of the Linux kernel, so it is
 * under their terms, the GNU General Public License, version 2. It copies no code of the kernel.
 *
 * In place of stack.c, of a driver and of tei.c are one queue of messages, a layer 1 that is always
 * active and confirms each frame at once, and a fixed TEI. */
#include "misdn_kernel.h"

#include "drivers/isdn/mISDN/fsm.c"

#include "drivers/isdn/mISDN/layer2.c"

#include "their_end.h"

const char their_name[] = "mISDN";
const bool they_can_release = true;

static const struct their_calls *calls;
static struct layer2 *end;
static struct mISDNchannel layer3;
static struct mISDNdevice device;
static struct mISDNstack stack;

/* ---- The rest of mISDN. */

#pragma GCC diagnostic ignored "-Wunused-parameter"

/* These are not called with a fixed TEI, nor while the program runs. */
#pragma weak l2_tei
#pragma weak set_channel_address
#pragma weak TEIFree
#pragma weak mISDN_unregister_Bprotocol

const char *mISDNDevName4ch(struct mISDNchannel *channel)
{
	return "interop";
}

int mISDN_register_Bprotocol(struct Bprotocol *protocol)
{
	return 0;
}

int TEIInit(u_int *level)
{
	return 0;
}

void TEIrelease(struct layer2 *link)
{
}

static int on_control(struct mISDNchannel *channel, u_int command, void *argument)
{
	return 0;
}

static int on_message(struct mISDNchannel *channel, struct sk_buff *message)
{
	skb_queue_tail(&stack.msgq, message);
	return 0;
}

static int on_layer3(struct mISDNchannel *channel, struct sk_buff *message)
{
	u_int primitive = mISDN_HEAD_PRIM(message);

	if (primitive == DL_ESTABLISH_IND || primitive == DL_ESTABLISH_CNF)
		calls->deliver(THEIR_ESTABLISHED, NULL, 0);
	if (primitive == DL_RELEASE_IND || primitive == DL_RELEASE_CNF)
		calls->deliver(THEIR_RELEASED, NULL, 0);
	if (primitive == DL_DATA_IND)
		calls->deliver(THEIR_DATA, message->data, message->len);
	dev_kfree_skb(message);
	return 0;
}

/* Passes each queued message to the layer that it is for. */
static void run(void)
{
	struct sk_buff *message;

	while ((message = skb_dequeue(&stack.msgq)) != NULL) {
		if (mISDN_HEAD_PRIM(message) == PH_DATA_REQ) {
			calls->write(message->data, message->len);
			skb_trim(message, 0);
			mISDN_HEAD_PRIM(message) = PH_DATA_CNF;
			skb_queue_tail(&stack.msgq, message);
		} else if (end->ch.send(&end->ch, message) != 0) {
			dev_kfree_skb(message);
		}
	}
}

static void pass(u_int primitive, const uint8_t *octets, size_t length)
{
	skb_queue_tail(&stack.msgq, _alloc_mISDN_skb(primitive, 0, (u_int)length, (void *)octets, GFP_ATOMIC));
	run();
}

/* ---- The end. */

void their_end(bool network, uint8_t tei, uint8_t k, int t203, const struct their_calls *with)
{
	static u_int level;
	u_long options = 1ul << OPTION_L2_FIXEDTEI | 1ul << OPTION_L2_PTP;

	if (end == NULL)
		Isdnl2_Init(&level);
	else
		end->ch.ctrl(&end->ch, CLOSE_CHANNEL, NULL);
	calls = with;
	device.D.ctrl = on_control;
	stack.dev = &device;
	stack.own.recv = on_message;
	skb_queue_purge(&stack.msgq);
	layer3.st = &stack;
	layer3.send = on_layer3;
	end = create_l2(&layer3, network ? ISDN_P_LAPD_NT : ISDN_P_LAPD_TE, options, tei, 0);
	if (end == NULL)
		abort();
	end->window = k;
	end->T203 = t203;
	end->ch.recv = on_message;
	pass(PH_ACTIVATE_IND, NULL, 0);
}

void their_take(const uint8_t *frame, size_t length)
{
	pass(PH_DATA_IND, frame, length);
}

void their_establish(void)
{
	pass(DL_ESTABLISH_REQ, NULL, 0);
}

void their_release(void)
{
	pass(DL_RELEASE_REQ, NULL, 0);
}

void their_give(const uint8_t *message, size_t length)
{
	pass(DL_DATA_REQ, message, length);
}

int their_wait(int most)
{
	unsigned long wait = (unsigned long)most;

	for (struct timer_list *at = timers; at != NULL; at = at->next) {
		if (at->expires < jiffies + wait)
			wait = at->expires > jiffies ? at->expires - jiffies : 0;
	}
	return (int)wait;
}

void their_tick(void)
{
	struct timer_list *at = timers;

	while (at != NULL) {
		if (at->expires > jiffies) {
			at = at->next;
			continue;
		}
		del_timer(at);
		at->function(at);
		run();
		at = timers;
	}
}

void their_clock(uint64_t milliseconds)
{
	jiffies += milliseconds;
}
