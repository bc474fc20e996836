/* The kernel's own sources of the spanning tree, net/bridge/br_stp*.c as they are, in a process: a clock and ports around them.
 *
 * It reads scenarios of the tree from standard input as guest.c does, and writes the lines of the tree (ctl, state, root, change) and the
 * answers. Frames are none here but messages, which the source reads behind its length and LLC header. Time is the scenario's: a timer ends at
 * the moment at which it is due, and those of one moment in the order of `kinds`. Whole seconds (round_jiffies) aren't rounded to.
 */
#define _GNU_SOURCE
#include <arpa/inet.h>
#include <errno.h>
#include <stdbool.h>
#include <stddef.h>
#include <stdint.h>
#include <stdio.h>
#include <stdlib.h>
#include <string.h>

/* ---- what the sources find in the kernel ---- */

#define HZ 250
#define ETH_ALEN 6
#define IFF_UP 1
#define PORTS 64
enum { BR_STATE_DISABLED, BR_STATE_LISTENING, BR_STATE_LEARNING, BR_STATE_FORWARDING, BR_STATE_BLOCKING };
enum { BR_NO_STP, BR_KERNEL_STP, BR_USER_STP };
#define BR_PORT_BITS 10
#define BR_HOLD_TIME (1 * HZ)
#define BR_MRP_AWARE 0
#define BR_ROOT_BLOCK 0
#define BR_BPDU_GUARD 0
#define BR_ADMIN_COST 0
#define BR_STP_PROG ""
#define UMH_WAIT_PROC 0
#define ETH_P_802_2 4
#define TC_PRIO_CONTROL 7
#define RTM_NEWLINK 16
#define READ_ONCE(x) (x)
#define WRITE_ONCE(x, y) ((x) = (y))
#define DIV_ROUND_UP(n, d) (((n) + (d) - 1) / (d))
#define unlikely(x) (x)
#define ASSERT_RTNL() do { } while (0)
#define EXPORT_SYMBOL_GPL(x)
#define IS_ENABLED(x) 0

typedef uint8_t u8, __u8;
typedef uint16_t u16, __u16, port_id;
typedef uint32_t u32, __u32;
typedef uint64_t u64;
typedef long clock_t_of_kernel;
typedef struct bridge_id { unsigned char prio[2], addr[ETH_ALEN]; } bridge_id;
typedef struct { int unused; } spinlock_t;
struct net { int unused; };
struct sock;
struct netlink_ext_ack;
struct stp_proto;
struct work { int unused; };
struct timer_list { void (*function)(struct timer_list *); unsigned long expires; bool pending; };
#define NET_ADDR_SET 3
struct net_device { unsigned int flags; unsigned char addr_assign_type; char name[20]; unsigned char dev_addr[ETH_ALEN]; struct net_bridge_port *port; };
struct ethhdr { unsigned char h_dest[ETH_ALEN], h_source[ETH_ALEN]; uint16_t h_proto; };
struct sk_buff { unsigned char room[2048], *data, *mac; int len, protocol, priority; struct net_device *dev; };
struct llc_pdu_un { u8 dsap, ssap, ctrl_1; };
struct list { int unused; };
struct stats { unsigned long transition_blk, transition_fwd, rx_bpdu, tx_bpdu, rx_tcn, tx_tcn; };

struct net_bridge {
	spinlock_t lock;
	struct list port_list;
	struct net_device *dev;
	bridge_id designated_root, bridge_id;
	u32 root_path_cost, max_age, hello_time, forward_delay, bridge_max_age, bridge_hello_time, bridge_forward_delay;
	unsigned long ageing_time, bridge_ageing_time;
	u8 group_addr[ETH_ALEN];
	bool group_addr_set;
	int stp_enabled;
	unsigned char topology_change, topology_change_detected;
	u16 root_port;
	struct timer_list hello_timer, tcn_timer, topology_change_timer;
	struct work gc_work;
};

struct net_bridge_port {
	struct net_bridge *br;
	struct net_device *dev;
	struct net_bridge_port *next;
	unsigned long flags;
	u8 priority, state;
	u16 port_no;
	unsigned char topology_change_ack, config_pending;
	port_id port_id, designated_port;
	bridge_id designated_root, designated_bridge;
	u32 path_cost, designated_cost;
	unsigned long designated_age;
	struct timer_list forward_delay_timer, hold_timer, message_age_timer;
	struct stats stp_xstats;
	void *backup_port;
};

enum { SWITCHDEV_ATTR_ID_PORT_STP_STATE, SWITCHDEV_ATTR_ID_BRIDGE_AGEING_TIME, SWITCHDEV_F_DEFER, SWITCHDEV_F_SKIP_EOPNOTSUPP };
struct switchdev_attr { struct net_device *orig_dev; int id, flags; union { int stp_state; unsigned long ageing_time; } u; };

static unsigned long jiffies;
static struct net_bridge_port *first;	/* the one that joined last */
static struct net init_net, other_net;
static struct net_device host = { .name = "br0", .addr_assign_type = NET_ADDR_SET, .dev_addr = { 2, 0, 0, 0, 0, 1 } };
static struct net_bridge bridge = { .dev = &host };

#define list_for_each_entry(p, head, ...) for (p = first; p; p = p->next)
#define list_for_each_entry_rcu(p, head, ...) for (p = first; p; p = p->next)
#define container_of(pointer, type, member) ((type *)((char *)(pointer) - offsetof(type, member)))
#define from_timer(var, timer, field) container_of(timer, __typeof__(*var), field)
#define spin_lock(x) ((void)(x))
#define spin_unlock(x) ((void)(x))
#define spin_lock_bh(x) ((void)(x))
#define spin_unlock_bh(x) ((void)(x))
#define rcu_read_lock() do { } while (0)
#define rcu_read_unlock() do { } while (0)
#define rcu_access_pointer(x) (x)
#define nothing(...) do { } while (0)
#define br_info nothing
#define br_debug nothing
#define br_warn nothing
#define br_notice nothing
#define br_err nothing
#define netdev_err nothing
#define netdev_name(dev) ((dev)->name)
#define net_ratelimit() 0
#define br_ifinfo_notify nothing
#define br_multicast_enable_port nothing
#define br_multicast_disable_port nothing
#define br_fdb_delete_by_port nothing
#define br_fdb_change_mac_address nothing
#define netif_carrier_off nothing
#define netif_carrier_on nothing
#define br_opt_get(...) 0
#define br_mst_set_state(...) 0
#define switchdev_port_attr_set(...) (-EOPNOTSUPP)
#define mod_delayed_work nothing
#define cancel_delayed_work_sync nothing
#define br_port_get_rtnl(dev) ((dev)->port)
#define netif_is_bridge_master(dev) ((dev) == &host)
#define netdev_priv(dev) ((void)(dev), &bridge)
#define br_mrp_enabled(br) 0
#define eth_hw_addr_set(dev, address) memcpy((dev)->dev_addr, address, ETH_ALEN)
#define netif_running(dev) 1
#define netif_oper_up(dev) 1
#define dev_net(dev) (&other_net)
#define net_eq(a, b) ((a) == (b))
#define call_usermodehelper(...) (((void)argv, (void)envp), -ENOENT)
#define br_is_root_bridge(br) (!memcmp(&(br)->bridge_id, &(br)->designated_root, 8))
#define br_port_get_check_rcu(dev) ((dev)->port)
#define ether_addr_equal(a, b) (!memcmp(a, b, ETH_ALEN))
#define ether_addr_copy(a, b) memcpy(a, b, ETH_ALEN)
#define eth_hdr(skb) ((struct ethhdr *)(skb)->mac)
#define round_jiffies(j) (j)
#define jiffies_to_clock_t(j) ((clock_t_of_kernel)(j) * 100 / HZ)
#define clock_t_to_jiffies(c) ((unsigned long)(c) * HZ / 100)
#define jiffies_delta_to_clock_t(j) jiffies_to_clock_t(j)
#define timer_setup(timer, what, flags) ((timer)->function = (what))
#define timer_pending(timer) ((timer)->pending)
#define del_timer(timer) ((timer)->pending = false)
#define del_timer_sync(timer) ((timer)->pending = false)
#define time_after(a, b) ((long)((b) - (a)) < 0)
#define NF_HOOK(family, hook, net, sk, skb, in, out, finish) finish(net, sk, skb)
#define NL_SET_ERR_MSG_MOD(extack, ...) ((void)(extack))
#define kfree_skb(skb) ((void)(skb))
#define dev_alloc_skb(bytes) (memset(&sent, 0, sizeof sent), sent.data = sent.room + 100, &sent)
#define skb_reserve(skb, bytes) ((skb)->data += (bytes))
#define skb_reset_mac_header(skb) ((void)(skb))
#define pskb_may_pull(skb, bytes) ((skb)->len >= (int)(bytes))
#define LLC_PDU_TYPE_U 3
#define LLC_SAP_BSPAN 0x42
#define LLC_PDU_CMD 0
#define get_unaligned_be16(bytes) ((bytes)[0] << 8 | (bytes)[1])

static struct sk_buff sent;

static void mod_timer(struct timer_list *timer, unsigned long expires)
{
	timer->expires = expires;
	timer->pending = true;
}

static void __skb_put_data(struct sk_buff *skb, const void *data, int length)
{
	memcpy(skb->data + skb->len, data, length);
	skb->len += length;
}

static unsigned char *skb_pull(struct sk_buff *skb, int bytes)
{
	skb->len -= bytes;
	return skb->data += bytes;
}

static void put_unaligned_be16(unsigned int number, unsigned char *bytes)
{
	bytes[0] = number >> 8;
	bytes[1] = number;
}

static void llc_pdu_header_init(struct sk_buff *skb, int type, int ssap, int dsap, int cr)
{
	skb->data -= 3;
	skb->len += 3;
	skb->data[0] = dsap;
	skb->data[1] = ssap | cr;
	skb->data[2] = type;
}

#define llc_pdu_init_as_ui_cmd(skb) ((skb)->data[2] = 0x03)

static int llc_mac_hdr_init(struct sk_buff *skb, const unsigned char *from, const unsigned char *to)
{
	int length = skb->len;

	skb->data -= 14;
	skb->len += 14;
	memcpy(skb->data, to, ETH_ALEN);
	memcpy(skb->data + ETH_ALEN, from, ETH_ALEN);
	put_unaligned_be16(length, skb->data + 12);
	return 0;
}

static int dev_queue_xmit(struct sk_buff *skb);
void br_set_state(struct net_bridge_port *p, unsigned int state);
void br_init_port(struct net_bridge_port *p);
void br_become_designated_port(struct net_bridge_port *p);
void br_stp_enable_port(struct net_bridge_port *p);
void br_stp_disable_port(struct net_bridge_port *p);
void br_stp_port_timer_init(struct net_bridge_port *p);
void br_stp_timer_init(struct net_bridge *br);
int __set_ageing_time(struct net_device *dev, unsigned long t);
void __br_set_forward_delay(struct net_bridge *br, unsigned long t);
struct net_bridge_port *br_get_port(struct net_bridge *br, u16 port_no);
bool br_stp_recalculate_bridge_id(struct net_bridge *br);

#include "br_private_stp.h"
#include "br_stp.c"
#include "br_stp_timer.c"
#include "br_stp_bpdu.c"
#include "br_stp_if.c"

/* ---- the scenario ---- */

#define BEGIN 1000000	/* jiffies at moment 0 */

static struct net_device devices[PORTS];
static int step;
static bool is_mute;
static char state_told[PORTS], root_told[100], change_told[20];

static int dev_queue_xmit(struct sk_buff *skb)
{
	if (is_mute)
		return 0;
	printf("ctl %d %d ", step, (int)(skb->dev - devices));
	for (int i = 0; i < skb->len; i++)
		printf("%02x", skb->data[i]);
	printf("\n");
	return 0;
}

static void make_bridge(void)
{
	static const u8 group[ETH_ALEN] = { 1, 0x80, 0xc2 };

	jiffies = BEGIN;
	memcpy(bridge.group_addr, group, ETH_ALEN);
	memcpy(bridge.bridge_id.addr, host.dev_addr, ETH_ALEN);
	bridge.bridge_id.prio[0] = 0x80;
	bridge.designated_root = bridge.bridge_id;
	bridge.max_age = bridge.bridge_max_age = 20 * HZ;
	bridge.hello_time = bridge.bridge_hello_time = 2 * HZ;
	bridge.forward_delay = bridge.bridge_forward_delay = 15 * HZ;
	bridge.ageing_time = bridge.bridge_ageing_time = 300 * HZ;
	br_stp_timer_init(&bridge);
	br_stp_enable_bridge(&bridge);
	host.flags = IFF_UP;
}

/* As a port joins the bridge: new_nbp and br_add_if. */
static void port_up(struct net_device *dev)
{
	struct net_bridge_port *p = calloc(1, sizeof *p);

	p->br = &bridge;
	p->dev = dev;
	p->path_cost = 100;
	p->priority = 0x8000 >> BR_PORT_BITS;
	for (p->port_no = 1; br_get_port(&bridge, p->port_no);)
		p->port_no++;
	br_init_port(p);
	br_set_state(p, BR_STATE_DISABLED);
	br_stp_port_timer_init(p);
	p->next = first;
	first = dev->port = p;
	br_stp_enable_port(p);
}

/* As it leaves: del_nbp. */
static void port_down(struct net_device *dev)
{
	struct net_bridge_port **place = &first;

	br_stp_disable_port(dev->port);
	while (*place != dev->port)
		place = &(*place)->next;
	*place = dev->port->next;
	free(dev->port);
	dev->port = NULL;
}

static void switch_tree(bool on)
{
	is_mute = true;
	br_stp_disable_bridge(&bridge);
	is_mute = false;
	host.flags = 0;
	br_stp_set_enabled(&bridge, on, NULL);
	br_stp_enable_bridge(&bridge);
	host.flags = IFF_UP;
}

/* The timer that is due first, of those due at one time the one of the first kind. */
static struct timer_list *first_due(void)
{
	struct timer_list *all[3 * PORTS + 3], *due = NULL;
	struct net_bridge_port *p;
	int count = 0;

	for (p = first; p; p = p->next)
		all[count++] = &p->message_age_timer;
	for (p = first; p; p = p->next)
		all[count++] = &p->forward_delay_timer;
	all[count++] = &bridge.topology_change_timer;
	all[count++] = &bridge.tcn_timer;
	all[count++] = &bridge.hello_timer;
	for (p = first; p; p = p->next)
		all[count++] = &p->hold_timer;
	for (int i = 0; i < count; i++)
		if (all[i]->pending && (!due || all[i]->expires < due->expires))
			due = all[i];
	return due;
}

static void pass_to(long milliseconds)
{
	unsigned long until = BEGIN + milliseconds * HZ / 1000;
	struct timer_list *timer;

	while ((timer = first_due()) && timer->expires <= until) {
		jiffies = timer->expires;
		timer->pending = false;
		timer->function(timer);
	}
	jiffies = until;
}

/* A frame that enters: one to the bridges' group address goes behind its LLC header to the source, as br_handle_frame, llc_rcv and
 * stp_pdu_rcv have it. */
static void enter(struct net_device *dev, const char *hex)
{
	static struct sk_buff skb;
	int length = 0, claimed;

	memset(&skb, 0, sizeof skb);
	for (; length < 2000 && sscanf(hex + 2 * length, "%2hhx", &skb.room[length]) == 1; length++)
		;
	claimed = get_unaligned_be16(skb.room + 12) - 3;
	if (!dev->port || bridge.stp_enabled != BR_KERNEL_STP || memcmp(skb.room, bridge.group_addr, ETH_ALEN) || skb.room[6] & 1 ||
	    claimed < 0 || claimed >= 1536 - 3 || 17 + claimed > length || memcmp(skb.room + 14, "\x42\x42\x03", 3))
		return;
	skb.mac = skb.room;
	skb.data = skb.room + 17;
	skb.len = claimed;
	br_stp_rcv(NULL, &skb, dev);
}

/* Carries out the words of a `cmd` line; gives whether it is refused. */
static bool command(char **w)
{
	int port = atoi(w[1] + (w[1][0] == 'p'));

	if (!strcmp(w[0], "port")) {
		port = atoi(w[2] + 1);
		if (!devices[port].port == !strcmp(w[1], "down"))
			return true;
		(strcmp(w[1], "up") ? port_down : port_up)(&devices[port]);
	} else if (!strcmp(w[0], "link")) {
		if (!devices[port].port)
			return true;
		return strcmp(w[2], "cost") ? br_stp_set_port_priority(devices[port].port, atoi(w[3]) / 4)
					    : br_stp_set_path_cost(devices[port].port, atoi(w[3]));
	} else if (!strcmp(w[0], "stp") && !strcmp(w[1], "priority")) {
		br_stp_set_bridge_priority(&bridge, atoi(w[2]));
	} else if (!strcmp(w[0], "stp")) {
		switch_tree(!strcmp(w[1], "on"));
	}
	return false;
}

static u64 number_of(const bridge_id *id)
{
	u64 number = id->prio[0] << 8 | id->prio[1];

	for (int i = 0; i < ETH_ALEN; i++)
		number = number << 8 | id->addr[i];
	return number;
}

/* Writes what of the tree is otherwise than it was told last. */
static void tell_tree(void)
{
	u64 root = number_of(&bridge.designated_root);
	char now[100];

	for (int i = 1; i < PORTS; i++) {
		char state = devices[i].port ? '0' + devices[i].port->state : '0';

		if (devices[i].name[0] && state != state_told[i])
			printf("state %d %d %c\n", step, i, state_told[i] = state);
	}
	snprintf(now, sizeof now, " %04x.%012lx %u %u", (int)(root >> 48), root & 0xffffffffffff, bridge.root_path_cost, bridge.root_port);
	if (strcmp(now, root_told))
		printf("root %d%s\n", step, strcpy(root_told, now));
	snprintf(now, 20, " %d %d", bridge.topology_change, bridge.topology_change_detected);
	if (strcmp(now, change_told))
		printf("change %d%s\n", step, strcpy(change_told, now));
}

static void do_step(char **w)
{
	step++;
	if (!strcmp(w[0], "cmd"))
		printf("%s %d\n", command(w + 1) ? "refused" : "ok", step);
	else if (!strcmp(w[0], "rx"))
		enter(&devices[atoi(w[1])], w[2]);
	else if (!strcmp(w[0], "now"))
		pass_to(atol(w[1]));
	tell_tree();
}

int main(void)
{
	static char line[20100];
	char *w[40], *rest;
	int n;

	printf("no frames\n");
	make_bridge();
	while (fgets(line, sizeof line, stdin)) {
		line[strcspn(line, "\n")] = 0;
		for (n = 0, rest = line; n < 39 && (w[n] = strsep(&rest, " "));)
			n += *w[n] != 0;
		if (n == 4 && !strcmp(w[0], "port")) {
			struct net_device *dev = &devices[atoi(w[1])];

			snprintf(dev->name, sizeof dev->name, "%s", w[2]);
			memcpy(dev->dev_addr, (u8[]){ 2, 0xfe, 0, 0, 0, atoi(w[1]) }, ETH_ALEN);
		} else if (n && strcmp(w[0], "scenario") && strcmp(w[0], "tree") && strcmp(w[0], "end")) {
			do_step(w);
		}
	}
	return 0;
}
