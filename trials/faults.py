#!/usr/bin/env python3
"""Faults of the system while the service runs over real sockets: the port is taken; descriptors run out while 100 names are fetched at once; the log's
disk is full, or the log's reader is gone; the network can't be reached. Tells for each how the service ended and how many clients were answered. It
isn't part of the gate.

  trials/faults.py PROGRAM
"""
import ctypes
import os
import signal
import socket
import subprocess
import sys
import time

import near

ADDRESS, SEND_FROM, ROOT = "127.53.6.53", "127.53.6.54", "127.53.6.1"
FAULT = "dnscache: fatal: network or log fault\n"
TAKEN = f"{ADDRESS}:53: Address already in use (os error 98)\n"
CLONE_NEWNET = 0x40000000
failed = []


def says(what, good, told):
    print(("ok: " if good else "FAILED: ") + what + ": " + told)
    if not good:
        failed.append(what)


def ends(process, seconds):
    """The exit status of a process that ends within so many seconds, or None."""
    try:
        return process.wait(seconds)
    except subprocess.TimeoutExpired:
        process.kill()
        return None


def room(program, log, root=ROOT, descriptors=None, before=None):
    """The program in a folder of its own, with its log given by the shell's words, and what comes before it in the process."""
    folder = near.folder(root)
    limit = f"ulimit -n {descriptors}; " if descriptors else ""
    command = ["bash", "-c", limit + 'exec "$0" < seed ' + log, os.path.realpath(program)]
    process = subprocess.Popen(command, cwd=folder, env=near.settings(ADDRESS, SEND_FROM), preexec_fn=before, stderr=subprocess.PIPE)
    return process, folder


def asks(names, seconds):
    """How many of these names are answered over UDP, all asked at once, within so many seconds."""
    client = socket.socket(socket.AF_INET, socket.SOCK_DGRAM)
    client.setsockopt(socket.SOL_SOCKET, socket.SO_RCVBUF, 1 << 20)
    client.settimeout(0.2)
    for number, name in enumerate(names):
        client.sendto(near.question(name, number), (ADDRESS, 53))
    answers = {}
    until = time.time() + seconds
    while len(answers) < len(names) and time.time() < until:
        try:
            message, _ = client.recvfrom(4096)
        except OSError:
            continue
        answers[message[:2]] = message[3] & 15
    client.close()
    return list(answers.values())


def taken_port(program):
    holder = socket.socket(socket.AF_INET, socket.SOCK_DGRAM)
    holder.bind((ADDRESS, 53))
    process, folder = room(program, "2> log")
    status = ends(process, 5)
    text = open(folder + "/log").read()
    holder.close()
    says("the port is taken over UDP", status == 111 and text == "dnscache: warning: unable to take datagrams at " + TAKEN + FAULT, f"status {status}, says {text!r}")
    holder = socket.socket()
    holder.bind((ADDRESS, 53))
    holder.listen()
    process, folder = room(program, "2> log")
    status = ends(process, 5)
    text = open(folder + "/log").read()
    holder.close()
    says("the port is taken over TCP", status == 111 and text == "dnscache: warning: unable to take connections at " + TAKEN + FAULT, f"status {status}, says {text!r}")


def few_descriptors(program):
    process, _ = room(program, "2> log", descriptors=20)
    near.stands(ADDRESS)
    names = [f"d{i}.w.trial" for i in range(100)]
    first = asks(names, 75)
    again = [code for i in range(0, 100, 5) for code in asks(names[i : i + 5], 5)]
    says(
        "100 names at once with 20 descriptors",
        first == [0] * 100 and again == [0] * 100,
        f"{len(first)} answered at first, {first.count(0)} of them with an address; {again.count(0)} of 100 with an address when they are asked again, five at a time",
    )
    process.kill()
    process.wait()


def lost_log(program):
    process, _ = room(program, "2> /dev/full")
    status = ends(process, 5)
    says("the log's disk is full from the start", status == 111, f"status {status}")
    process, _ = room(program, "")
    near.stands(ADDRESS)
    process.stderr.close()
    asks(["p.w.trial"], 1)
    status = ends(process, 5)
    says("the log's reader is gone", status == 111, f"status {status}, {'no signal' if status != -signal.SIGPIPE else 'SIGPIPE'}")


def no_network(program):
    """In a network of its own, whose loopback is up and which has no route to the root's server."""
    if ctypes.CDLL(None, use_errno=True).unshare(CLONE_NEWNET) != 0:
        print("skipped: no network of its own")
        return
    if subprocess.run(["ip", "link", "set", "lo", "up"]).returncode != 0:
        print("skipped: no loopback of its own")
        return
    process, _ = room(program, "2> log", root="198.51.100.1")
    near.stands(ADDRESS)
    begun = time.time()
    codes = asks([f"n{i}.w.trial" for i in range(20)], 75)
    taken = time.time() - begun
    local = asks(["localhost"], 2)
    says(
        "the network can't be reached",
        codes == [2] * 20 and local == [0],
        f"{codes.count(2)} of 20 answered SERVFAIL within {taken:.1f} s, and localhost is answered still: {local == [0]}",
    )
    process.kill()
    process.wait()


program = sys.argv[1]
taken_port(program)
near.serve(ROOT, 0.3)
few_descriptors(program)
lost_log(program)
no_network(program)
sys.exit(1 if failed else 0)
