// SPDX-License-Identifier: GPL-2.0
/* A switchdev driver without a switch, for the guest of kernel/compare.
 *
 * `ip link add NAME type chip` makes a port of its one switch, which forwards nothing. A line written to /proc/chip is
 *
 *     rx NAME MARK HEX         a frame that the switch hands to the processor; MARK 1: it has forwarded it (offload_fwd_mark)
 *     report NAME MAC VLAN     it has learned an address (SWITCHDEV_FDB_ADD_TO_BRIDGE)
 *
 * What the bridge sends by a port is seen by packet sockets, and lost. Reading /proc/chip gives what the bridge told the driver
 * since the last reading, in the reader's network namespace: each line begins with `now` where that was in the context of the
 * command or of the frame, and with `later` where it was in deferred work.
 */
#include <linux/etherdevice.h>
#include <linux/if_bridge.h>
#include <linux/module.h>
#include <linux/nsproxy.h>
#include <linux/proc_fs.h>
#include <linux/rtnetlink.h>
#include <linux/uaccess.h>
#include <net/net_namespace.h>
#include <net/switchdev.h>

#define ROOM 30000

static char told[ROOM];
static size_t length;
static struct net *watched;	/* whose devices are told of; only compared, never read */
static DEFINE_SPINLOCK(lock);

static __printf(2, 3) void note(struct net_device *dev, const char *format, ...)
{
	bool later = !in_softirq() && (current->flags & PF_WQ_WORKER);
	unsigned long flags;
	va_list operands;

	spin_lock_irqsave(&lock, flags);
	if (dev_net(dev) == watched) {
		length += scnprintf(told + length, ROOM - length, later ? "later " : "now ");
		va_start(operands, format);
		length += vscnprintf(told + length, ROOM - length, format, operands);
		va_end(operands);
		length += scnprintf(told + length, ROOM - length, "\n");
	}
	spin_unlock_irqrestore(&lock, flags);
}

/* ---- the ports ---- */

static netdev_tx_t send(struct sk_buff *skb, struct net_device *dev)
{
	dev_kfree_skb_any(skb);
	return NETDEV_TX_OK;
}

static int parent_id(struct net_device *dev, struct netdev_phys_item_id *id)
{
	id->id_len = 1;
	id->id[0] = 1;
	return 0;
}

static const struct net_device_ops device_ops = {
	.ndo_start_xmit = send,
	.ndo_set_mac_address = eth_mac_addr,
	.ndo_get_port_parent_id = parent_id,
};

static bool is_port(const struct net_device *dev)
{
	return dev->netdev_ops == &device_ops;
}

static void set_up(struct net_device *dev)
{
	ether_setup(dev);
	dev->netdev_ops = &device_ops;
	dev->max_mtu = ETH_MAX_MTU;
	dev->priv_flags |= IFF_NO_QUEUE;
	dev->needs_free_netdev = true;
}

static struct rtnl_link_ops link_ops = { .kind = "chip", .setup = set_up };

static int receive(struct net_device *dev, bool mark, const char *hex)
{
	size_t bytes = strspn(hex, "0123456789abcdefABCDEF") / 2;
	struct sk_buff *skb = netdev_alloc_skb_ip_align(dev, bytes);

	if (!skb || bytes < ETH_HLEN || hex2bin(skb_put(skb, bytes), hex, bytes)) {
		kfree_skb(skb);
		return -EINVAL;
	}
	skb->protocol = eth_type_trans(skb, dev);
	skb->offload_fwd_mark = mark;
	netif_rx(skb);
	return 0;
}

/* ---- what the bridge tells ---- */

static void note_flags(struct net_device *dev, const char *what, const struct switchdev_brport_flags *flags)
{
	static const struct { unsigned long bit; const char *name; } names[] = {
		{ BR_LEARNING, "learning" }, { BR_FLOOD, "flood" }, { BR_MCAST_FLOOD, "mcast_flood" },
		{ BR_BCAST_FLOOD, "bcast_flood" }, { BR_ISOLATED, "isolated" },
	};

	for (int i = 0; i < ARRAY_SIZE(names); i++)
		if (flags->mask & names[i].bit)
			note(dev, "%s %s %s %s", what, dev->name, names[i].name, flags->val & names[i].bit ? "on" : "off");
}

static void note_attribute(struct net_device *dev, const struct switchdev_attr *a)
{
	switch (a->id) {
	case SWITCHDEV_ATTR_ID_PORT_STP_STATE:
		return note(dev, "state %s %u", dev->name, a->u.stp_state);
	case SWITCHDEV_ATTR_ID_PORT_PRE_BRIDGE_FLAGS:
		return note_flags(dev, "may-flag", &a->u.brport_flags);
	case SWITCHDEV_ATTR_ID_PORT_BRIDGE_FLAGS:
		return note_flags(dev, "flag", &a->u.brport_flags);
	case SWITCHDEV_ATTR_ID_PORT_MROUTER:
		return note(dev, "router %s %s", dev->name, a->u.mrouter ? "on" : "off");
	case SWITCHDEV_ATTR_ID_BRIDGE_VLAN_FILTERING:
		return note(dev, "filtering %s %s", dev->name, a->u.vlan_filtering ? "on" : "off");
	case SWITCHDEV_ATTR_ID_BRIDGE_MC_DISABLED:
		return note(dev, "snooping %s %s", dev->name, a->u.mc_disabled ? "off" : "on");
	case SWITCHDEV_ATTR_ID_BRIDGE_AGEING_TIME:
		return note(dev, "ageing %s %lu", dev->name, clock_t_to_jiffies(a->u.ageing_time) / HZ);
	default:
		return note(dev, "attribute %s %d", dev->name, a->id);
	}
}

static void note_object(struct net_device *dev, bool add, const struct switchdev_obj *o)
{
	const struct switchdev_obj_port_vlan *v = SWITCHDEV_OBJ_PORT_VLAN(o);
	const struct switchdev_obj_port_mdb *m = SWITCHDEV_OBJ_PORT_MDB(o);
	const char *what = add ? "add" : "del";

	switch (o->id) {
	case SWITCHDEV_OBJ_ID_PORT_VLAN:
		return note(dev, "vlan %s %s %u%s%s", what, dev->name, v->vid,
			    v->flags & BRIDGE_VLAN_INFO_PVID ? " pvid" : "",
			    v->flags & BRIDGE_VLAN_INFO_UNTAGGED ? " untagged" : "");
	case SWITCHDEV_OBJ_ID_PORT_MDB:
		return note(dev, "group %s %s %pM %u", what, dev->name, m->addr, m->vid);
	case SWITCHDEV_OBJ_ID_HOST_MDB:
		return note(dev, "host-group %s %s %pM %u", what, dev->name, m->addr, m->vid);
	default:
		return note(dev, "object %s %s %d", what, dev->name, o->id);
	}
}

static int answer_event(struct notifier_block *block, unsigned long event, void *info)
{
	struct net_device *dev = switchdev_notifier_info_to_dev(info);
	struct switchdev_notifier_port_attr_info *attribute = info;
	struct switchdev_notifier_port_obj_info *object = info;
	struct switchdev_notifier_fdb_info *address = info;

	switch (event) {
	case SWITCHDEV_FDB_ADD_TO_DEVICE:
	case SWITCHDEV_FDB_DEL_TO_DEVICE:
		note(dev, "address %s %s %pM %u%s%s%s", event == SWITCHDEV_FDB_ADD_TO_DEVICE ? "add" : "del", dev->name,
		     address->addr, address->vid, address->added_by_user ? " user" : "", address->is_local ? " local" : "",
		     address->offloaded ? " offloaded" : "");
		return NOTIFY_DONE;
	case SWITCHDEV_PORT_ATTR_SET:
		note_attribute(dev, attribute->attr);
		attribute->handled = is_port(dev);
		return NOTIFY_DONE;
	case SWITCHDEV_PORT_OBJ_ADD:
	case SWITCHDEV_PORT_OBJ_DEL:
		note_object(dev, event == SWITCHDEV_PORT_OBJ_ADD, object->obj);
		object->handled = is_port(dev);
		return NOTIFY_DONE;
	}
	return NOTIFY_DONE;
}

static struct notifier_block atomic_block = { .notifier_call = answer_event };
static struct notifier_block blocking_block = { .notifier_call = answer_event };

/* A port of the switch joins a bridge, or leaves it. */
static int device_event(struct notifier_block *block, unsigned long event, void *info)
{
	struct net_device *dev = netdev_notifier_info_to_dev(info);
	struct netdev_notifier_changeupper_info *change = info;

	if (!is_port(dev) || (event != NETDEV_CHANGEUPPER && event != NETDEV_PRECHANGEUPPER) ||
	    !netif_is_bridge_master(change->upper_dev))
		return NOTIFY_DONE;
	if (event == NETDEV_CHANGEUPPER && change->linking) {
		note(dev, "join %s", dev->name);
		return notifier_from_errno(switchdev_bridge_port_offload(dev, dev, NULL, &atomic_block, &blocking_block, false,
									 netdev_notifier_info_to_extack(info)));
	}
	if (event == NETDEV_PRECHANGEUPPER && !change->linking) {
		note(dev, "leave %s", dev->name);
		switchdev_bridge_port_unoffload(dev, NULL, &atomic_block, &blocking_block);
	}
	return NOTIFY_DONE;
}

static struct notifier_block device_block = { .notifier_call = device_event };

/* ---- /proc/chip ---- */

static ssize_t read_told(struct file *file, char __user *to, size_t room, loff_t *at)
{
	char *copy = kmalloc(ROOM, GFP_KERNEL);
	unsigned long flags;
	ssize_t taken;

	if (!copy)
		return -ENOMEM;
	spin_lock_irqsave(&lock, flags);
	taken = min(room, length);
	memcpy(copy, told, taken);
	memmove(told, told + taken, length - taken);
	length -= taken;
	if (watched != current->nsproxy->net_ns)
		taken = length = 0;
	watched = current->nsproxy->net_ns;
	spin_unlock_irqrestore(&lock, flags);
	if (copy_to_user(to, copy, taken))
		taken = -EFAULT;
	kfree(copy);
	return taken;
}

static int carry_out(const char *line)
{
	struct switchdev_notifier_fdb_info address = { .offloaded = true };
	char name[IFNAMSIZ], mac[18];
	unsigned int vid, mark;
	int hex = 0, result = -EINVAL;
	struct net_device *dev;
	u8 bytes[ETH_ALEN];

	if (sscanf(line, "%*s %15s", name) != 1)
		return -EINVAL;
	rtnl_lock();
	dev = __dev_get_by_name(current->nsproxy->net_ns, name);
	if (dev && sscanf(line, "rx %*s %u %n", &mark, &hex) == 1 && hex) {
		result = receive(dev, mark, line + hex);
	} else if (dev && sscanf(line, "report %*s %17s %u", mac, &vid) == 2 && mac_pton(mac, bytes)) {
		address.addr = bytes;
		address.vid = vid;
		result = notifier_to_errno(call_switchdev_notifiers(SWITCHDEV_FDB_ADD_TO_BRIDGE, dev, &address.info, NULL));
	}
	rtnl_unlock();
	return result;
}

static ssize_t write_line(struct file *file, const char __user *from, size_t count, loff_t *at)
{
	char *line = memdup_user_nul(from, count);
	int result;

	if (IS_ERR(line))
		return PTR_ERR(line);
	result = carry_out(line);
	kfree(line);
	return result ? result : count;
}

static const struct proc_ops proc_ops = { .proc_read = read_told, .proc_write = write_line };

static int __init start(void)
{
	proc_create("chip", 0600, NULL, &proc_ops);
	register_netdevice_notifier(&device_block);
	register_switchdev_notifier(&atomic_block);
	register_switchdev_blocking_notifier(&blocking_block);
	return rtnl_link_register(&link_ops);
}

module_init(start);
MODULE_LICENSE("GPL");
