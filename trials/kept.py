#!/usr/bin/env python3
"""A service that keeps its cache, over real sockets: it begins with none and leaves an image, begins with that and answers from it, ends by
SIGTERM, is refused a bad image, has written its last lines when it has ended, is killed at 40 moments of its save, and is started again and again by
a supervisor under a load over TCP and UDP. It isn't part of the gate.

  trials/kept.py PROGRAM
"""
import os
import signal
import socket
import subprocess
import sys
import threading
import time

import near

ADDRESS, SEND_FROM, ROOT = "127.53.8.53", "127.53.8.54", "127.53.8.1"
failed = []


def says(what, good, told):
    print(("ok: " if good else "FAILED: ") + what + ": " + told)
    if not good:
        failed.append(what)


def start(program, room, size, events):
    """The program with its image in this folder, for so many events, or without end. Its log is added to."""
    settings = near.settings(ADDRESS, SEND_FROM) | {"CACHESIZE": str(size), "IMAGE": "image"}
    if events is not None:
        settings["EVENTS"] = str(events)
    command = ["bash", "-c", 'exec "$0" < seed 2>> log', os.path.realpath(program)]
    with open(room + "/seed", "wb") as seed:
        seed.write(os.urandom(32))
    return subprocess.Popen(command, cwd=room, env=settings)


def asks(name, seconds=3):
    """The answer's code over UDP, or None where none comes."""
    client = socket.socket(socket.AF_INET, socket.SOCK_DGRAM)
    client.settimeout(seconds)
    try:
        client.sendto(near.question(name), (ADDRESS, 53))
        return client.recv(4096)[3] & 15
    except OSError:
        return None
    finally:
        client.close()


def asks_over_tcp(name):
    """The answer's code over a connection of its own; "refused" where there was none, "closed" where no answer came over it."""
    try:
        client = socket.create_connection((ADDRESS, 53), 5)
    except OSError:
        return "refused"
    with client:
        client.settimeout(10)
        try:
            client.sendall(near.framed(near.question(name)))
        except OSError:
            return "closed"
        answer = near.whole(client)
        return "closed" if answer is None else answer[3] & 15


def image(room):
    try:
        with open(room + "/image", "rb") as file:
            return file.read()
    except FileNotFoundError:
        return None


def cached(room):
    """How many names were answered from the cache, by the log, which is written before the service next waits."""
    time.sleep(0.5)
    return open(room + "/log").read().count("\ncached 1 ")


def two_runs(program):
    room = near.folder(ROOT)
    first = start(program, room, 1000000, 20)
    near.stands(ADDRESS)
    codes = [asks(f"k{i}.w.trial") for i in range(4)]
    while first.poll() is None:
        asks("localhost", 0.2)
    kept = image(room)
    says("an empty cache is begun with, and left", first.wait() == 0 and codes == [0] * 4 and kept is not None and len(kept) == 1000024, f"codes {codes}, status {first.returncode}, an image of {len(kept or b'')} bytes")
    before = cached(room)
    second = start(program, room, 1000000, None)
    near.stands(ADDRESS)
    codes = [asks(f"k{i}.w.trial") for i in range(4)]
    after = cached(room)
    says("names are answered from the image", codes == [0] * 4 and after - before == 4, f"codes {codes}, {after - before} of 4 from the cache")
    second.send_signal(signal.SIGTERM)
    status = second.wait()
    says("SIGTERM ends it, and nothing is saved", status == -signal.SIGTERM and image(room) == kept and not os.path.exists(room + "/image.new"), f"status {status}, the image as before: {image(room) == kept}")
    bad = kept[:-1]
    with open(room + "/image", "wb") as file:
        file.write(bad)
    third = start(program, room, 1000000, None)
    status = third.wait(10)
    text = open(room + "/log").read().splitlines()[-1]
    says("a bad image is refused", status == 111 and text == "dnscache: fatal: bad cache image" and image(room) == bad, f"status {status}, says {text!r}")
    with open(room + "/image", "wb") as file:
        file.write(kept)
    fourth = start(program, room, 2000000, None)
    says("an image of another size is refused", fourth.wait(10) == 111, f"status {fourth.returncode}")


def last_lines(program):
    """A run of five questions, each one event, which the service answers by itself: behind the last it doesn't wait again, and its log has to have
    the lines of that one too. The trial looks when the service has ended."""
    room = near.folder(ROOT)
    process = start(program, room, 1000000, 5)
    near_stands(process)
    codes = [asks("localhost") for _ in range(5)]
    status = process.wait(30)
    lines = open(room + "/log").read().splitlines()
    heads = [line.split(" ")[0:2] for line in lines]
    wanted = [["starting"]] + [[word, str(number)] for number in range(1, 6) for word in ("query", "sent")]
    says("a run that ends by EVENTS has its last lines on the log", status == 0 and codes == [0] * 5 and heads == wanted, f"codes {codes}, status {status}, {len(lines)} lines, of which the last are {lines[-2:]}")


def is_loaded(program, room, size):
    """Whether the service begins with the image that is there: it listens."""
    process = start(program, room, size, None)
    for _ in range(100):
        if process.poll() is not None:
            return False
        try:
            socket.create_connection((ADDRESS, 53), 1).close()
            process.kill()
            process.wait()
            return True
        except OSError:
            time.sleep(0.05)
    process.kill()
    return False


def saves(program, room, size, name, kill_after):
    """A run of three events, which saves; it is killed so many seconds after the last. Of the first two this name comes into the cache, so that the
    image is a new one. Tells how long it took from the last to its end."""
    process = start(program, room, size, 3)
    near_stands(process)
    asks(name)
    begun = time.time()
    asks("localhost", 0.01)
    if kill_after is not None:
        while time.time() < begun + kill_after:
            time.sleep(0.001)
        process.kill()
    while process.poll() is None:
        time.sleep(0.01)
    return time.time() - begun, process.returncode


def near_stands(process):
    """Waits until the service listens, without a connection, which would be an event."""
    while process.poll() is None:
        place = bytes(map(int, ADDRESS.split(".")[::-1])).hex().upper() + ":0035"
        if all(place in open("/proc/net/" + kind).read() for kind in ("udp", "tcp")):
            return
        time.sleep(0.01)


def killed_while_saving(program):
    size = 30000000
    room = near.folder(ROOT)
    taken, status = saves(program, room, size, "first.w.trial", None)
    old = image(room)
    outcomes = {"old": 0, "new": 0, "ended": 0}
    whole = 0
    for moment in range(40):
        _, status = saves(program, room, size, f"m{moment}.w.trial", taken * (moment + 0.5) / 30)
        left = image(room)
        good = left is not None and len(left) == size + 24
        whole += good
        if status == 0:
            outcomes["ended"] += 1
        elif left == old:
            outcomes["old"] += 1
        else:
            outcomes["new"] += 1
        old = left
    loaded = is_loaded(program, room, size)
    says("killed at 40 moments of a save of 30 MB", whole == 40 and loaded, f"{whole} times a whole image, {outcomes}; the last is loaded: {loaded}; a save without a kill took {taken:.2f} s")


def supervised(program):
    room = near.folder(ROOT)
    over = threading.Event()
    runs = []

    def supervise():
        while not over.is_set():
            process = start(program, room, 1000000, 700)
            while process.poll() is None:
                if over.is_set():
                    process.kill()
                time.sleep(0.002)
            runs.append(process.returncode)

    supervisor = threading.Thread(target=supervise)
    supervisor.start()
    near.stands(ADDRESS)
    told = {"udp": [], "tcp": []}

    def over_udp(number):
        for i in range(600):
            told["udp"].append(asks(f"u{number}-{i % 400}.w.trial", 2))

    def over_tcp(number):
        for i in range(300):
            tries = []
            while 0 not in tries and len(tries) < 500:
                tries.append(asks_over_tcp(f"t{number}-{i % 200}.w.trial"))
                if tries[-1] != 0:
                    time.sleep(0.02)
            told["tcp"].append(tries)

    clients = [threading.Thread(target=over_udp, args=(n,)) for n in range(4)] + [threading.Thread(target=over_tcp, args=(n,)) for n in range(4)]
    for client in clients:
        client.start()
    for client in clients:
        client.join()
    over.set()
    supervisor.join()
    udp, tcp = told["udp"], told["tcp"]
    says(
        "a supervisor under a load",
        set(runs[:-1]) == {0} and udp.count(0) > 0.95 * len(udp) and all(tries[-1] == 0 for tries in tcp),
        f"{len(runs)} runs; over UDP {udp.count(0)} of {len(udp)} answered at the first try, {udp.count(None)} lost; over TCP {sum(tries[-1] == 0 for tries in tcp)} of {len(tcp)} answered,"
        f" {sum(len(tries) == 1 for tries in tcp)} of them at the first try; {sum(tries.count('refused') for tries in tcp)} connections were refused and {sum(tries.count('closed') for tries in tcp)} closed",
    )


program = sys.argv[1]
near.serve(ROOT, 0.0)
two_runs(program)
last_lines(program)
killed_while_saving(program)
supervised(program)
sys.exit(1 if failed else 0)
