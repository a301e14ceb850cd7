#!/usr/bin/env python3
"""Clients over TCP where the program has 20 descriptors: 50 connections are opened at once, held for three seconds and closed; then 15 clients ask
one after another. Tells how many were answered, how long the slowest waited, and which part of a processor the program took while descriptors
were short. It isn't part of the gate.

  trials/exhausted.py PROGRAM
"""
import socket
import sys
import time

import near

near.serve("127.53.4.1", 0)
process = near.start(sys.argv[1], "127.53.4.53", "127.53.4.54", "127.53.4.1", 20)
try:
    held = []
    for _ in range(50):
        one = socket.socket()
        one.setblocking(False)
        one.connect_ex(("127.53.4.53", 53))
        held.append(one)
    time.sleep(0.5)
    before = near.processor(process)
    time.sleep(3)
    taken = (near.processor(process) - before) / 3
    for one in held:
        one.close()
    answered, slowest = 0, 0.0
    for i in range(15):
        begun = time.time()
        one = socket.create_connection(("127.53.4.53", 53), 10)
        one.settimeout(10)
        one.sendall(near.framed(near.question(f"x{i}.w.trial", i)))
        if near.whole(one):
            answered += 1
            slowest = max(slowest, time.time() - begun)
        one.close()
    print(f"{answered} of 15 answered, the slowest after {slowest:.2f} s; {100 * taken:.1f}% of a processor while descriptors were short")
    sys.exit(0 if answered == 15 and taken < 0.01 else 1)
finally:
    process.kill()
