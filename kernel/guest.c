/* Runs scenarios in the kernel's bridge; root's, in the guest.
 *
 * The file holds scenarios, each behind a line `=== NAME`. Each has a network namespace of its own, with a bridge br0
 * and a veth pair for each port of software: frames enter and are seen at the far ends. Ports of the chip are those of the
 * driver in chip.c. A frame that enters there has one word more, what the chip did with it: `copy` and `trap` hand it up, with
 * and without the mark, others don't. `report PORT MAC VLAN` is a report of the chip. For each scenario it writes
 *
 *     === NAME
 *     tx FRAME PORT HEX     the FRAME-th frame left at PORT, or reached the host (0)
 *     ok STEP               the kernel took the command of this step
 *     refused STEP WORDS    it didn't, and said so
 *     told STEP WORDS       the driver was told in this step
 *     fatal WORDS           the scenario ended early
 *     === end
 *
 * Behind a line `tree` the scenario is one of the spanning tree: its timers are those of tree.c, `stp` is switched while the bridge is
 * down, a port that comes up gets the path cost 100, and there are lines more, of what the step changed:
 *
 *     ctl STEP PORT HEX     the bridge sent a message of the spanning tree by the port
 *     state STEP PORT N     the state of the port, 0 where it isn't in the bridge
 *     root STEP ID COST PORT     who is the root, at which cost and by which port
 *     change STEP T D       whether a topology change is on, and whether one was detected
 */
#define _GNU_SOURCE
#include <arpa/inet.h>
#include <errno.h>
#include <fcntl.h>
#include <linux/if_packet.h>
#include <linux/sockios.h>
#include <net/ethernet.h>
#include <net/if.h>
#include <sched.h>
#include <spawn.h>
#include <stdarg.h>
#include <stdio.h>
#include <stdlib.h>
#include <string.h>
#include <sys/ioctl.h>
#include <sys/mount.h>
#include <sys/socket.h>
#include <sys/wait.h>
#include <time.h>
#include <unistd.h>

#define PORTS 64
#define LONGEST 9100	/* bytes of a frame */
#define SETTLE 3000	/* microseconds from a frame to the look at what came out */

extern char **environ;

static char name[PORTS][20];	/* of the bridge's port, "" where none is declared */
static int far_end[PORTS];	/* a socket on the device at the other end of the pair, or on the chip's port */
static int is_chip[PORTS];
static int up[PORTS];
static int host = -1;		/* a socket on br0 */
static unsigned char own[6] = { 2, 0, 0, 0, 0, 1 };
static unsigned char entered[12];	/* the addresses of the last frame */
static struct { int port, type, socket; } past[256];	/* what a port's own device hands up past the bridge, by type */
static int pasts;
static struct timespec start;
static int step, frame;
static char words[400];		/* what the last command said */
static int tree;		/* whether the scenario is one of the spanning tree */
static int is_mute;		/* whether its messages aren't told */
static char state_told[PORTS], root_told[320], change_told[320];
static int state_file[PORTS];	/* of a port that is up, or -1 */

static void fatal(const char *what)
{
	printf("fatal %s (%s) %s\n", what, strerror(errno), words);
	fflush(stdout);
	_exit(1);
}

static void pause_for(long microseconds)
{
	struct timespec t = { microseconds / 1000000, microseconds % 1000000 * 1000 };

	while (nanosleep(&t, &t) && errno == EINTR)
		;
}

/* Waits until all has happened; what the tree does has happened in the call that causes it. */
static void settle(long microseconds)
{
	if (!tree)
		pause_for(microseconds);
	for (int i = 0; tree && i < 4; i++)
		sched_yield();
}

/* Runs a command; gives its status, and leaves what it said in `words`. */
static int run(const char *format, ...)
{
	char line[400], *argv[40], *rest = line;
	int n = 0, said[2], status;
	size_t length = 0;
	ssize_t got;
	pid_t pid;
	va_list operands;
	posix_spawn_file_actions_t files;

	va_start(operands, format);
	vsnprintf(line, sizeof line, format, operands);
	va_end(operands);
	while (n < 39 && (argv[n] = strsep(&rest, " ")))
		n += *argv[n] != 0;
	argv[n] = NULL;
	if (pipe2(said, O_CLOEXEC))
		fatal("pipe");
	posix_spawn_file_actions_init(&files);
	posix_spawn_file_actions_addopen(&files, 0, "/dev/null", O_RDWR, 0);
	posix_spawn_file_actions_adddup2(&files, 0, 1);
	posix_spawn_file_actions_adddup2(&files, said[1], 2);
	if (posix_spawnp(&pid, argv[0], &files, NULL, argv, environ))
		fatal(argv[0]);
	posix_spawn_file_actions_destroy(&files);
	close(said[1]);
	while (length < sizeof words - 1 && (got = read(said[0], words + length, sizeof words - 1 - length)) > 0)
		length += got;
	words[length] = 0;
	for (char *c = words; *c; c++)
		if (*c == '\n')
			*c = ' ';
	close(said[0]);
	waitpid(pid, &status, 0);
	return WIFEXITED(status) ? WEXITSTATUS(status) : 255;
}

/* Keeps the guest's own IPv6 off the devices that are made from now on. */
static void silence(void)
{
	const char *path = "/proc/sys/net/ipv6/conf/default/disable_ipv6";
	int file = open(path, O_WRONLY);

	if (file < 0 || write(file, "1", 1) != 1)
		fatal(path);
	close(file);
}

static int listen_on(const char *device, int type)
{
	struct sockaddr_ll address = { .sll_family = AF_PACKET, .sll_protocol = htons(type),
		.sll_ifindex = if_nametoindex(device) };
	int s = socket(AF_PACKET, SOCK_RAW | SOCK_NONBLOCK | SOCK_CLOEXEC, 0), one = 1, room = 1 << 22;

	if (s < 0 || bind(s, (struct sockaddr *)&address, sizeof address))
		fatal(device);
	setsockopt(s, SOL_PACKET, PACKET_AUXDATA, &one, sizeof one);
	setsockopt(s, SOL_SOCKET, SO_RCVBUFFORCE, &room, sizeof room);
	return s;
}

/* Sets flags of a device, and clears others; gives 0 where the kernel took it. */
static int set_flags(const char *device, int set, int clear)
{
	struct ifreq request = { 0 };
	int s = socket(AF_PACKET, SOCK_RAW | SOCK_CLOEXEC, 0), failed;

	snprintf(request.ifr_name, IFNAMSIZ, "%s", device);
	failed = ioctl(s, SIOCGIFFLAGS, &request);
	request.ifr_flags = (request.ifr_flags | set) & ~clear;
	failed = failed || ioctl(s, SIOCSIFFLAGS, &request);
	close(s);
	return failed;
}

/* Takes a port into the bridge, or out of it. */
static int join(const char *device, int in)
{
	struct ifreq request = { .ifr_name = "br0" };
	int s = socket(AF_PACKET, SOCK_RAW | SOCK_CLOEXEC, 0), failed;

	request.ifr_ifindex = if_nametoindex(device);
	failed = ioctl(s, in ? SIOCBRADDIF : SIOCBRDELIF, &request);
	close(s);
	return failed;
}

static void make_bridge(void)
{
	if (run("ip link add name br0 arp off up address %02x:%02x:%02x:%02x:%02x:%02x mtu 9050 type bridge vlan_filtering 1"
		" stp_state 0 mcast_snooping 1 mcast_querier 0 no_linklocal_learn 1",
		own[0], own[1], own[2], own[3], own[4], own[5]))
		fatal("br0");
	host = listen_on("br0", ETH_P_ALL);
}

static void declare(int port, const char *device, int chip)
{
	char far[20];

	snprintf(name[port], sizeof name[port], "%s", device);
	is_chip[port] = chip;
	state_file[port] = -1;
	if (chip) {
		if (run("ip link add name %s address 02:fe:00:00:00:%02x arp off mtu 9050 type chip", device, port))
			fatal(device);
		far_end[port] = listen_on(device, ETH_P_ALL);
		return;
	}
	snprintf(far, sizeof far, "far%d", port);
	if (run("ip link add name %s address 02:fe:00:00:00:%02x mtu 9050 type veth peer name %s address 02:fd:00:00:00:%02x"
		" mtu 9050", device, port, far, port) || set_flags(far, IFF_NOARP | IFF_PROMISC | IFF_UP, 0))
		fatal(device);
	far_end[port] = listen_on(far, ETH_P_ALL);
}

/* One frame of a socket, with the tag that the kernel took off put back; gives its length, or -1 where none waits. Tells
 * whether the device sent it, and didn't receive it. */
static int take(int s, unsigned char *bytes, int *sent)
{
	union { char room[CMSG_SPACE(sizeof(struct tpacket_auxdata))]; struct cmsghdr header; } control;
	struct sockaddr_ll from;
	struct iovec place = { bytes, LONGEST };
	struct msghdr message = { .msg_name = &from, .msg_namelen = sizeof from, .msg_iov = &place, .msg_iovlen = 1,
		.msg_control = &control, .msg_controllen = sizeof control };
	int length = recvmsg(s, &message, 0);

	if (length < 0)
		return -1;
	*sent = from.sll_pkttype == PACKET_OUTGOING;
	for (struct cmsghdr *c = CMSG_FIRSTHDR(&message); c; c = CMSG_NXTHDR(&message, c)) {
		struct tpacket_auxdata *x = (void *)CMSG_DATA(c);

		if (c->cmsg_level != SOL_PACKET || c->cmsg_type != PACKET_AUXDATA || !(x->tp_status & TP_STATUS_VLAN_VALID))
			continue;
		memmove(bytes + 16, bytes + 12, length - 12);
		bytes[12] = x->tp_vlan_tpid >> 8;
		bytes[13] = x->tp_vlan_tpid;
		bytes[14] = x->tp_vlan_tci >> 8;
		bytes[15] = x->tp_vlan_tci;
		length += 4;
	}
	return length;
}

/* Whether the guest made the frame itself: its source is the bridge's or a pair's. */
static int guests_own(const unsigned char *bytes)
{
	if (!memcmp(bytes, entered, 12))
		return 0;
	return !memcmp(bytes + 6, own, 6) || (bytes[6] == 2 && (bytes[7] == 0xfe || bytes[7] == 0xfd));
}

/* Whether the port's own device sent it to the bridges' group address. */
static int is_message_of(int port, const unsigned char *bytes)
{
	const unsigned char addresses[12] = { 1, 0x80, 0xc2, 0, 0, 0, 2, 0xfe, 0, 0, 0, port };

	return !memcmp(bytes, addresses, 12);
}

/* Takes what waits at a socket; writes what its device received, or what it sent, where `told`. */
static void drain(int s, int port, int wants_sent, int told)
{
	unsigned char bytes[LONGEST + 4];
	int length, sent;

	while ((length = take(s, bytes, &sent)) >= 0) {
		int is_message = tree && !is_mute && port && sent == wants_sent && is_message_of(port, bytes);

		if (!is_message && (!told || sent != wants_sent || guests_own(bytes)))
			continue;
		if (is_message)
			printf("ctl %d %d ", step, port);
		else
			printf("tx %d %d ", frame, port);
		for (int i = 0; i < length; i++)
			printf("%02x", bytes[i]);
		printf("\n");
	}
}

static void drain_all(int told)
{
	drain(host, 0, 0, told);
	for (int i = 0; i < pasts; i++)
		drain(past[i].socket, 0, 0, told && up[past[i].port]);
	for (int port = 1; port < PORTS; port++)
		if (name[port][0])
			drain(far_end[port], port, is_chip[port], told);
}

/* Sees what the port's own device hands up past the bridge of frames of this one's type. */
static void listen_past(int port, const unsigned char *bytes, int length)
{
	int type = bytes[12] << 8 | bytes[13];

	if (type == 0x8100 && length >= 18)
		type = bytes[16] << 8 | bytes[17];
	if (type < 1536)
		type = ETH_P_802_2;
	for (int i = 0; i < pasts; i++)
		if (past[i].port == port && past[i].type == type)
			return;
	if (pasts == 256)
		fatal("types");
	past[pasts].port = port;
	past[pasts].type = type;
	past[pasts++].socket = listen_on(name[port], type);
}

/* Has the driver do what the words say; gives 0 where the kernel took it. */
static int drive(const char *format, ...)
{
	static char line[20100];
	int file = open("/proc/chip", O_RDWR | O_CLOEXEC), length, failed;
	va_list operands;

	if (file < 0)
		fatal("/proc/chip");
	va_start(operands, format);
	length = vsnprintf(line, sizeof line, format, operands);
	va_end(operands);
	failed = write(file, line, length) != length;
	if (failed)
		snprintf(words, sizeof words, "%s", strerror(errno));
	close(file);
	return failed;
}

/* Takes what the driver was told; writes it where `told`, without what is told of the devices' own addresses. */
static void hear(int told)
{
	static char log[30001];
	int file = open("/proc/chip", O_RDONLY | O_CLOEXEC), length = 0, got;
	char own_text[20], *rest = log, *line;

	if (file < 0)
		fatal("/proc/chip");
	while (length < 30000 && (got = read(file, log + length, 30000 - length)) > 0)
		length += got;
	log[length] = 0;
	close(file);
	snprintf(own_text, sizeof own_text, "%02x:%02x:%02x:%02x:%02x:%02x", own[0], own[1], own[2], own[3], own[4], own[5]);
	while (told && (line = strsep(&rest, "\n")))
		if (*line && !strstr(line, " 02:fe:") && !strstr(line, own_text))
			printf("told %d %s\n", step, line);
}

static void enter(int port, const char *hex, const char *handed)
{
	unsigned char bytes[LONGEST];
	const char *digits = hex;
	int length = 0;

	frame++;
	for (; length < LONGEST && sscanf(digits, "%2hhx", &bytes[length]) == 1; digits += 2)
		length++;
	if (length < 14 || (is_chip[port] && strcmp(handed, "copy") && strcmp(handed, "trap")))
		return;
	memcpy(entered, bytes, 12);
	if (up[port] && !memcmp(bytes, "\x01\x80\xc2\x00\x00", 5) && bytes[5] > 0 && bytes[5] < 16)
		listen_past(port, bytes, length);
	drain_all(0);
	if (is_chip[port] ? drive("rx %s %d %s", name[port], !strcmp(handed, "copy"), hex)
			  : send(far_end[port], bytes, length, 0) != length)
		fatal("send");
	settle(SETTLE);
	drain_all(1);
}

/* The state of a port in the bridge, a digit; 0 where it is in none. */
static char port_state(const char *device)
{
	char path[100], state = 0;
	int file;

	snprintf(path, sizeof path, "/sys/class/net/%s/brport/state", device);
	file = open(path, O_RDONLY);
	if (file >= 0 && read(file, &state, 1) != 1)
		state = 0;
	close(file);
	return state;
}

/* Writes a number to a file; gives 0 where the kernel took it. */
static int write_number(const char *path, long number)
{
	int file = open(path, O_WRONLY | O_CLOEXEC), failed;

	failed = file < 0 || dprintf(file, "%ld", number) < 0;
	close(file);
	return failed;
}

static int set_port(const char *device, const char *what, long number)
{
	char path[100];

	snprintf(path, sizeof path, "/sys/class/net/%s/brport/%s", device, what);
	return write_number(path, number);
}

static int set_bridge(const char *what, long number)
{
	char path[100];

	snprintf(path, sizeof path, "/sys/class/net/br0/bridge/%s", what);
	return write_number(path, number);
}

/* Has the clock of tree.c do what the words say. */
static void clock_tree(const char *line)
{
	int file = open("/proc/tree", O_WRONLY | O_CLOEXEC);

	if (file < 0 || dprintf(file, "%s", line) < 0)
		fatal("/proc/tree");
	close(file);
}

static int port_command(const char *what, const char *device)
{
	int port = 1, status;

	while (port < PORTS && strcmp(name[port], device))
		port++;
	if (port == PORTS || up[port] == !strcmp(what, "up")) {
		snprintf(words, sizeof words, "the port is so already");
		return 1;
	}
	if (up[port]) {
		up[port] = 0;
		if (state_file[port] >= 0)
			close(state_file[port]);
		state_file[port] = -1;
		return join(device, 0);
	}
	status = join(device, 1) || set_flags(device, IFF_UP, 0) || (tree && set_port(device, "path_cost", 100));
	up[port] = !status;
	for (int i = 0; i < 200 && !status && port_state(device) < '1'; i++)
		pause_for(5000);
	return status;
}

/* Switches the spanning tree while the bridge is down, so that every port begins anew; what it sends as it goes down isn't told. */
static int switch_tree(int on)
{
	int failed = tree && set_flags("br0", 0, IFF_UP);

	is_mute = 1;
	drain_all(0);
	is_mute = 0;
	return failed || set_bridge("stp_state", on) || (tree && set_flags("br0", IFF_UP, 0));
}

static int delete_address(const char *address, const char *vlan)
{
	for (int port = 1; port < PORTS; port++)
		if (up[port] && !run("bridge fdb del %s dev %s master vlan %s", address, name[port], vlan))
			return 0;
	return run("bridge fdb del %s dev br0 self vlan %s", address, vlan);
}

/* Carries out the words of a `cmd` line; gives 0 where the kernel took it. */
static int command(int n, char **w)
{
#define IS(i, word) (n > (i) && !strcmp(w[i], word))
	if (IS(0, "port") && n == 3)
		return port_command(w[1], w[2]);
	if (IS(0, "link") && IS(2, "cost"))
		return set_port(w[1], "path_cost", atol(w[3]));
	if (IS(0, "link") && IS(2, "priority"))
		return set_port(w[1], "priority", atol(w[3]) / 4);
	if (IS(0, "link") && n == 4)
		return run("bridge link set dev %s %s %s", w[1], w[2], w[3]);
	if (IS(0, "vlan") && n >= 6)
		return run("bridge vlan %s vid %s dev %s %s %s", w[1], w[3], IS(5, "host") ? "br0 self" : w[5],
			   n > 6 ? w[6] : "", n > 7 ? w[7] : "");
	if (IS(0, "fdb") && IS(1, "add") && IS(4, "host"))
		return run("bridge fdb add %s dev br0 self local vlan %s", w[2], w[6]);
	if (IS(0, "fdb") && IS(1, "add") && n == 8)
		return run("bridge fdb add %s dev %s master %s vlan %s", w[2], w[4],
			   IS(7, "extern") ? "extern_learn" : "static", w[6]);
	if (IS(0, "fdb") && IS(1, "del") && n == 5)
		return delete_address(w[2], w[4]);
	if (IS(0, "mdb") && n == 7)
		return run("bridge mdb %s dev br0 port %s grp %s %s vid %s", w[1], IS(4, "host") ? "br0" : w[4], w[2],
			   IS(4, "host") || IS(1, "del") ? "" : "permanent", w[6]);
	if (IS(0, "stp") && IS(1, "priority"))
		return set_bridge("priority", atol(w[2]));
	if (IS(0, "stp"))
		return switch_tree(IS(1, "on"));
	if (IS(0, "ageing"))
		return set_bridge("ageing_time", atol(w[1]) * 100);
	if (IS(0, "snooping"))
		return set_bridge("multicast_snooping", IS(1, "on"));
	fatal("a command that the guest can't carry out");
	return 1;
}

/* Sleeps until so many milliseconds after the declarations. */
static void sleep_until(long milliseconds)
{
	struct timespec t = { start.tv_sec + milliseconds / 1000, start.tv_nsec + milliseconds % 1000 * 1000000 };

	if (t.tv_nsec >= 1000000000) {
		t.tv_nsec -= 1000000000;
		t.tv_sec++;
	}
	while (clock_nanosleep(CLOCK_MONOTONIC, TIMER_ABSTIME, &t, NULL) == EINTR)
		;
}

/* What a file of /sys has, without its line feed; the file is opened once, and has the place -1 before. */
static const char *read_again(int *place, const char *path)
{
	static char text[100];
	int length;

	if (*place < 0)
		*place = open(path, O_RDONLY | O_CLOEXEC);
	length = pread(*place, text, sizeof text - 1, 0);
	text[length > 0 ? length : 0] = 0;
	text[strcspn(text, "\n")] = 0;
	return text;
}

/* Writes what of the tree is otherwise than it was told last. */
static void tell_tree(void)
{
	static int files[5] = { -1, -1, -1, -1, -1 };
	static const char *const names[5] = { "root_id", "root_path_cost", "root_port", "topology_change", "topology_change_detected" };
	char path[100], now[2][sizeof root_told] = { "", "" };

	drain_all(0);
	for (int i = 1; i < PORTS; i++) {
		if (!name[i][0])
			continue;
		snprintf(path, sizeof path, "/sys/class/net/%s/brport/state", name[i]);
		char state = up[i] ? *read_again(&state_file[i], path) : '0';

		if (state != state_told[i])
			printf("state %d %d %c\n", step, i, state_told[i] = state);
	}
	for (int i = 0; i < 5; i++) {
		snprintf(path, sizeof path, "/sys/class/net/br0/bridge/%s", names[i]);
		strcat(strcat(now[i > 2], " "), read_again(&files[i], path));
	}
	if (strcmp(now[0], root_told))
		printf("root %d%s\n", step, strcpy(root_told, now[0]));
	if (strcmp(now[1], change_told))
		printf("change %d%s\n", step, strcpy(change_told, now[1]));
}

static void answer(int failed)
{
	if (failed)
		printf("refused %d %s\n", step, words);
	else
		printf("ok %d\n", step);
	settle(1000);
}

static void pass_to(const char *moment)
{
	char line[40];

	sleep_until(atol(moment));
	snprintf(line, sizeof line, "now %s", moment);
	if (tree)
		clock_tree(line);
}

static void do_step(int n, char **w)
{
	step++;
	if (IS(0, "cmd"))
		answer(command(n - 1, w + 1));
	else if (IS(0, "report") && n == 4)
		answer(drive("report %s %s %s", name[atoi(w[1])], w[2], w[3]));
	else if (IS(0, "rx") && n >= 3)
		enter(atoi(w[1]), w[2], n > 3 ? w[3] : "");
	else if (IS(0, "now") && n == 2)
		pass_to(w[1]);
	else
		return;	/* serve, publish and turn: the kernel has done it */
	if (tree)
		tell_tree();
	else
		hear(1);
}

static void begin(void)
{
	make_bridge();
	if (tree)
		clock_tree("on");
	else
		hear(0);
	clock_gettime(CLOCK_MONOTONIC, &start);
}

static void scenario(FILE *file)
{
	static char line[20100];
	char *w[40], *rest;
	int n;

	while (fgets(line, sizeof line, file)) {
		line[strcspn(line, "\n")] = 0;
		for (n = 0, rest = line; n < 39 && (w[n] = strsep(&rest, " "));)
			n += *w[n] != 0;
		if (IS(0, "end"))
			break;
		if (IS(0, "tree"))
			tree = 1;
		if (IS(0, "bridge")) {
			sscanf(w[1], "%hhx:%hhx:%hhx:%hhx:%hhx:%hhx", own, own + 1, own + 2, own + 3, own + 4, own + 5);
		} else if (IS(0, "port")) {
			declare(atoi(w[1]), w[2], IS(3, "chip"));
		} else if (n && !IS(0, "scenario") && !IS(0, "tree")) {
			if (host < 0)
				begin();
			do_step(n, w);
		}
	}
	if (tree && !run("ip link del br0"))
		clock_tree("off");
}

static void own_namespace(void)
{
	if (unshare(CLONE_NEWNET | CLONE_NEWNS))
		fatal("unshare");
	/* sysfs shows the devices of the namespace that mounted it */
	mount("none", "/", NULL, MS_REC | MS_PRIVATE, NULL);
	umount2("/sys", MNT_DETACH);
	mount("sysfs", "/sys", "sysfs", 0, NULL);
	silence();
}

int main(int argc, char **argv)
{
	static char line[20100];
	FILE *file = fopen(argc > 1 ? argv[1] : "", "r");

	if (!file)
		return 1;
	while (fgets(line, sizeof line, file)) {
		if (strncmp(line, "=== ", 4))
			continue;
		printf("%s", line);
		fflush(stdout);
		long at = ftell(file);
		pid_t child = fork();
		if (!child) {
			FILE *again = fopen(argv[1], "r");

			if (!again || fseek(again, at, SEEK_SET))
				fatal(argv[1]);
			own_namespace();
			scenario(again);
			fflush(stdout);
			_exit(0);
		}
		waitpid(child, NULL, 0);
		printf("=== end\n");
		fflush(stdout);
	}
	return 0;
}
