#!/usr/bin/env python3
"""Writes crates/decide/stdin and stdout: document 01's worked example ('Cases').

Run it from the root of the repository."""
import struct

from case import Machine

OPERATION, CPU, TIME, CONTEXT = 2, 0, 2_250_000, 0
DEADLINE = 9_437_184

# Context 0 is idle, current and in charge; 1 is ready and has a whole slice.
machine = (Machine(1, 2).record(0, currently_scheduled=1)
           .record(1, debug_id=1, sched_affinity=1, userspace=1, prio=20)
           .block(0, present=1, steal_counter=1).queue(0, (1, DEADLINE, 0)))
# What the CPU publishes of its queue plays no part, and the example leaves it 0.
machine = machine.block(0, stealable=0, queue_len=0, published_weight=0)
image = [machine.words.get(place, 0) for place in range(machine.length())]

with open("crates/decide/stdin", "wb") as f:
    f.write(b"".join(struct.pack("<Q", word) for word in [OPERATION, CPU, TIME, CONTEXT] + image))
with open("crates/decide/stdout", "w") as f:
    f.write("0 1 1 1 1048576\n")
