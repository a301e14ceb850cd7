#!/usr/bin/env python3
"""Clients over TCP that close their sending side behind their query: 10 names that must be fetched, from a server that takes 0.3 seconds, one name
of the cache, and three queries on one connection. And a client that is reset while its query is out: its place is free at once. Tells how many were
answered. It isn't part of the gate.

  trials/half_closed.py PROGRAM
"""
import socket
import struct
import sys
import time

import near

near.serve("127.53.5.1", 0.3)
process = near.start(sys.argv[1], "127.53.5.53", "127.53.5.54", "127.53.5.1")


def asked(names):
    """How many answers come to these queries, behind which the sending side is closed, and whether the stream ends then."""
    one = socket.create_connection(("127.53.5.53", 53), 10)
    one.settimeout(10)
    one.sendall(b"".join(near.framed(near.question(name, i)) for i, name in enumerate(names)))
    one.shutdown(socket.SHUT_WR)
    answers = 0
    for _ in names:
        if near.whole(one):
            answers += 1
    ended = near.whole(one) is None
    one.close()
    return answers, ended


def places():
    """How many connections of clients the program holds."""
    lines = open("/proc/net/tcp").read().splitlines()[1:]
    return sum(1 for line in lines if line.split()[1] == "3505357F:0035" and line.split()[3] in ("01", "08"))


try:
    fetched = sum(asked([f"f{i}.w.trial"])[0] for i in range(10))
    cached, ended = asked(["f0.w.trial"])
    several, _ = asked(["a.w.trial", "b.w.trial", "c.w.trial"])
    print(f"{fetched} of 10 fetched, {cached} of 1 cached, {several} of 3 on one connection; the stream ended behind them: {ended}")
    gone = socket.create_connection(("127.53.5.53", 53), 10)
    gone.sendall(near.framed(near.question("gone.w.trial")))
    time.sleep(0.05)
    before = places()
    gone.setsockopt(socket.SOL_SOCKET, socket.SO_LINGER, struct.pack("ii", 1, 0))
    gone.close()
    time.sleep(0.1)
    after = places()
    print(f"places of a client that was reset: {before} before, {after} after")
    time.sleep(0.5)
    print(f"places at last: {places()}")
    sys.exit(0 if (fetched, cached, several, ended) == (10, 1, 3, True) and (before, after) == (1, 0) and places() == 0 else 1)
finally:
    process.kill()
