#!/usr/bin/env python3
"""Hurried clients: 1000 requests that come at once, and three times 100 names at once where the service has 20 descriptors. Tells for each how many were
answered, and ends with 1 where any wasn't. It isn't part of the gate.

  trials/hurried.py PROGRAM
"""
import signal
import socket
import sys
import time

import near

ADDRESS, SEND_FROM, ROOT = "127.53.12.53", "127.53.12.54", "127.53.12.1"
BUFFER = 8 << 20
FORCED_BUFFER = 33
short = []


def says(what, good, told):
    print(("ok: " if good else "FELL SHORT: ") + what + ": " + told)
    if not good:
        short.append(what)


def client():
    """A client that loses no answer itself."""
    made = socket.socket(socket.AF_INET, socket.SOCK_DGRAM)
    made.setsockopt(socket.SOL_SOCKET, FORCED_BUFFER, BUFFER)
    made.settimeout(0.2)
    return made


def hears(asks, count, seconds):
    """The answers' codes, by number, that come within so many seconds."""
    codes = {}
    until = time.time() + seconds
    while len(codes) < count and time.time() < until:
        try:
            message = asks.recv(4096)
        except OSError:
            continue
        codes[message[:2]] = message[3] & 15
    return list(codes.values())


def burst(program):
    """The service is held still while 1000 requests come, so that all of them wait in its receive buffer."""
    process = near.start(program, ADDRESS, SEND_FROM, ROOT)
    asks = client()
    process.send_signal(signal.SIGSTOP)
    for number in range(1000):
        asks.sendto(near.question("localhost", number), (ADDRESS, 53))
    process.send_signal(signal.SIGCONT)
    codes = hears(asks, 1000, 10)
    says("1000 requests at once", codes == [0] * 1000, f"{len(codes)} answered, {codes.count(0)} of them with an address")
    process.kill()
    process.wait()


def few_descriptors(program):
    process = near.start(program, ADDRESS, SEND_FROM, ROOT, descriptors=20)
    told = []
    for turn in range(3):
        asks = client()
        begun = time.time()
        for number in range(100):
            asks.sendto(near.question(f"h{turn}x{number}.w.trial", number), (ADDRESS, 53))
        codes = hears(asks, 100, 75)
        told.append((codes.count(0), time.time() - begun))
    said = ", ".join(f"{count} within {taken:.1f} s" for count, taken in told)
    says("three times 100 names at once with 20 descriptors", all(count == 100 for count, _ in told), f"with an address: {said}")
    process.kill()
    process.wait()


near.serve(ROOT, 0.3)
burst(sys.argv[1])
few_descriptors(sys.argv[1])
sys.exit(1 if short else 0)
