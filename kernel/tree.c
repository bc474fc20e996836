// SPDX-License-Identifier: GPL-2.0
/* The clock of the spanning tree's timers, for the guest of kernel/compare.
 *
 * The kernel's own timers are late by up to an eighth of their time, and those of hello and hold are set to whole seconds of the
 * kernel's. While a scenario of the tree runs, what is due at one of its moments is to happen there. So this module notes each timer of the
 * tree that the bridge sets, with its moment by the scenario, and puts off its own end; when the moment comes it calls the
 * timer's function. What comes at one moment is called in the order of `functions`. A line written to /proc/tree is
 *
 *     on          a scenario begins, at moment 0: nothing is noted yet
 *     now MS      this moment is there
 *     off         the scenario has ended; timers are the kernel's again
 */
#include <linux/jiffies.h>
#include <linux/kallsyms.h>
#include <linux/kprobes.h>
#include <linux/module.h>
#include <linux/proc_fs.h>
#include <linux/timer.h>
#include <linux/uaccess.h>

#define ROOM 512
#define FAR (24 * 3600 * HZ)
#define SLACK 760	/* milliseconds by which whole seconds may differ from the time that is meant */

/* usual: the milliseconds of those that are set to whole seconds */
static struct { const char *name; long usual; void *address; } functions[] = {
	{ "br_message_age_timer_expired" }, { "br_forward_delay_timer_expired" }, { "br_topology_change_timer_expired" },
	{ "br_tcn_timer_expired" }, { "br_hello_timer_expired", 2000 }, { "br_hold_timer_expired", 1000 },
};

static struct noted { struct timer_list *timer; int kind; long due; } all[ROOM];
static int count;
static long moment;
static bool on;

static int kind_of(void *function)
{
	static void *others[64];	/* functions of other timers that were met */
	static unsigned int met;
	char symbol[KSYM_SYMBOL_LEN];

	for (int i = 0; i < ARRAY_SIZE(functions); i++)
		if (functions[i].address == function)
			return i;
	for (int i = 0; i < ARRAY_SIZE(others); i++)
		if (others[i] == function)
			return -1;
	sprint_symbol_no_offset(symbol, (unsigned long)function);
	for (int i = 0; i < ARRAY_SIZE(functions); i++)
		if (!strncmp(symbol, functions[i].name, strlen(functions[i].name))) {
			functions[i].address = function;
			return i;
		}
	others[met++ % ARRAY_SIZE(others)] = function;
	return -1;
}

static struct noted *place_of(struct timer_list *timer)
{
	for (int i = 0; i < count; i++)
		if (all[i].timer == timer)
			return &all[i];
	return count < ROOM ? &all[count++] : NULL;
}

static int before_mod_timer(struct kprobe *probe, struct pt_regs *regs)
{
	struct timer_list *timer = (void *)regs->di;
	long left = (long)(regs->si - jiffies) * 1000 / HZ;
	struct noted *place;
	int kind;

	if (!on || (kind = kind_of(timer->function)) < 0 || !(place = place_of(timer)))
		return 0;
	if (functions[kind].usual && abs(left - functions[kind].usual) <= SLACK)
		left = functions[kind].usual;
	*place = (struct noted){ timer, kind, moment + left };
	regs->si = jiffies + FAR;
	return 0;
}

static void forget(struct timer_list *timer)
{
	for (int i = 0; i < count; i++)
		if (all[i].timer == timer)
			all[i] = all[--count];
}

/* A port stops all of its timers before it is freed. */
static int before_timer_delete(struct kprobe *probe, struct pt_regs *regs)
{
	forget((void *)regs->di);
	return 0;
}

static struct kprobe probes[] = {
	{ .symbol_name = "mod_timer", .pre_handler = before_mod_timer },
	{ .symbol_name = "timer_delete", .pre_handler = before_timer_delete },
};

static struct noted *first_due(long until)
{
	struct noted *first = NULL;

	for (int i = 0; i < count; i++)
		if (timer_pending(all[i].timer) && all[i].due <= until &&
		    (!first || all[i].due < first->due || (all[i].due == first->due && all[i].kind < first->kind)))
			first = &all[i];
	return first;
}

static void pass_to(long until)
{
	struct timer_list *timer;
	struct noted *next;

	local_bh_disable();
	while ((next = first_due(until))) {
		moment = next->due;
		timer = next->timer;
		timer_delete(timer);
		timer->function(timer);
	}
	moment = until;
	local_bh_enable();
}

static ssize_t write_line(struct file *file, const char __user *from, size_t length, loff_t *at)
{
	char line[40] = "";
	long until;

	if (length >= sizeof line || copy_from_user(line, from, length))
		return -EINVAL;
	if (sscanf(line, "now %ld", &until) == 1) {
		pass_to(until);
		return length;
	}
	on = !strncmp(line, "on", 2);
	count = moment = 0;
	return length;
}

static const struct proc_ops proc_ops = { .proc_write = write_line };

static int __init start(void)
{
	proc_create("tree", 0600, NULL, &proc_ops);
	return register_kprobe(&probes[0]) ?: register_kprobe(&probes[1]);
}

module_init(start);
MODULE_LICENSE("GPL");
