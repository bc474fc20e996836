#!/bin/bash
# A bridge of four veth pairs: VLANs, stations that move, static entries, groups, isolated ports, and a link that goes down. Its frames are
# those of mausezahn. Where /out is, two more records are made of the bridge in use, by its name, one of headers alone.
send() { # from, source, destination, tag or "", payload
	mausezahn "$1" -c 1 "$3 $2 ${4:+81:00 $4 }88:b5 $5" -q
}
report() { # from, source, the group's last two numbers as hexadecimal and decimal digits, kind
	mausezahn "$1" -c 1 -a "$2" -b "01:00:5e:01:$3" -A 10.0.0.9 -B "239.1.$4" -t ip "proto=2,p=${5:-16}:00:$(sum "${5:-16}" "$4"):ef:01:$3" -q
}
sum() { # of an IGMP message of that kind for 239.1.X.Y
	local x=${2%.*} y=${2#*.} total
	total=$((16#${1}00 + 0xef01 + x * 256 + y))
	while [ $((total >> 16)) -gt 0 ]; do total=$(((total & 0xffff) + (total >> 16))); done
	printf '%02x:%02x' $(((0xffff - total) >> 8)) $(((0xffff - total) & 255))
}
for x in a b c d; do
	ip link add ${x}0 type veth peer name ${x}1
	ip link set ${x}0 up
done
ip link add dev br0 type bridge vlan_filtering 1 mcast_querier 1
for d in a1 b1 c1 d1; do
	ip link set $d master br0
	ip link set $d up
done
ip link set br0 up
for d in a1 b1; do bridge vlan add vid 7 dev $d; done
bridge vlan add vid 8 dev b1 pvid untagged
bridge vlan add vid 8 dev c1 untagged
bridge vlan add vid 7 dev br0 self
bridge link set dev c1 isolated on
bridge link set dev d1 isolated on
bridge fdb add 02:00:00:00:00:0c dev c1 master static vlan 1
bridge mdb add dev br0 port c1 grp 239.1.9.9 permanent vid 1
sleep 2
send a0 02:00:00:00:00:0a ff:ff:ff:ff:ff:ff "" 01
send a0 02:00:00:00:00:0a ff:ff:ff:ff:ff:ff "00:07" 02
send b0 02:00:00:00:00:0b ff:ff:ff:ff:ff:ff "00:07" 03
report b0 02:00:00:00:00:0b 01:01 1.1
report d0 02:00:00:00:00:0d 02:02 2.2
sleep 12
if [ -d /out ]; then
	python3 /tools/record br0 > /out/in_use.pcapng 2> /out/in_use.recorder &
	recorder=$!
	python3 /tools/record --headers br0 > /out/headers.pcapng 2> /out/headers.recorder &
	header_recorder=$!
	until grep -q . /out/in_use.recorder && grep -q . /out/headers.recorder; do sleep 0.1; done
fi
for to in 02:00:00:00:00:0a 02:00:00:00:00:0b 02:00:00:00:00:0c 02:00:00:00:00:0e ff:ff:ff:ff:ff:ff 01:00:5e:01:01:01 01:80:c2:00:00:0e; do
	for from in a b c d; do
		for tag in "" 00:07 00:08 60:01; do
			send ${from}0 02:00:00:00:01:0$from $to "$tag" 04
		done
	done
done
for group in 01:01,1.1 02:02,2.2 09:09,9.9 05:05,5.5; do
	for from in a b c d; do
		mausezahn ${from}0 -c 1 -a 02:00:00:00:01:0$from -b 01:00:5e:01:${group%,*} -A 10.0.0.10 -B 239.1.${group#*,} -t udp "sp=4096,dp=8192" -q
	done
done
sleep 2
send d0 02:00:00:00:01:0a ff:ff:ff:ff:ff:ff "" 05 # a station moves
send c0 02:00:00:00:00:0a 02:00:00:00:01:0a "" 05
send a0 02:00:00:00:00:0c ff:ff:ff:ff:ff:ff "" 05 # the kernel's static entry moves with its station
send b0 02:00:00:00:01:0b 02:00:00:00:00:0c 00:01 05
report d0 02:00:00:00:00:0d 02:02 2.2 17
sleep 4
bridge link set dev c1 isolated off
bridge link set dev a1 flood off
bridge vlan del vid 7 dev b1
bridge fdb add 02:00:00:00:00:0f dev b1 master static vlan 1
bridge fdb del 02:00:00:00:01:0a dev d1 master vlan 1
for to in 02:00:00:00:00:0b 02:00:00:00:00:0f 02:00:00:00:01:0a ff:ff:ff:ff:ff:ff; do
	for from in a b c d; do
		send ${from}0 02:00:00:00:01:0$from $to "" 06
		send ${from}0 02:00:00:00:01:0$from $to 00:07 06
	done
done
ip link set b1 down
sleep 1
send a0 02:00:00:00:01:0a 02:00:00:00:00:0f "" 07 # the entry stays, and leads nowhere
send a0 02:00:00:00:01:0a 02:00:00:00:01:0b "" 07
ip link set b1 up
sleep 1
send a0 02:00:00:00:01:0a 02:00:00:00:00:0f "" 08
ip link set br0 type bridge vlan_filtering 0
for from in a b c; do
	send ${from}0 02:00:00:00:01:0$from 02:00:00:00:01:0d 00:09 09
	send ${from}0 02:00:00:00:01:0$from ff:ff:ff:ff:ff:ff "" 09
done
ip link set br0 type bridge vlan_filtering 1 ageing_time 1000
send c0 02:00:00:00:01:0c ff:ff:ff:ff:ff:ff "" 0a
sleep 14
send a0 02:00:00:00:01:0a 02:00:00:00:01:0c "" 0b
sleep 2
if [ -d /out ]; then
	kill -INT $recorder $header_recorder
	wait $recorder $header_recorder
fi
ip link del br0
for x in a b c d; do ip link del ${x}0; done
