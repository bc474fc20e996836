"""A recorded bridge, judged: what tools/judge is made of.

records   the frames and netlink messages of a record, in the order of the kernel
netlink   the messages that speak of links, addresses, groups and VLANs
kernel    the configuration and the tables of each bridge, as the messages tell them
model     a scenario that is brought to the same configuration by commands
case      one bridge: its frames, matched, and its scenarios
window    what is judged by one scenario, and what a person may set
packets   what is read of a frame, and frames that the judge puts in
named     the differences of docs/KERNEL.md, as they show in a record
verdict   the replay, and what differs
farends   captures at the far ends of a switch's links, in the place of a record
"""
