#!/usr/bin/env python3
"""How quick the service is, beside Debian's dnscache, unbound with one thread, and what the machine itself allows: an echo of the packet, and a bare
forwarder. Each stands alone on the first processor, with its log in a file, and dnsperf and the authoritative servers on the others; rounds are
interleaved, and medians told. It isn't part of the gate, and is skipped where a tool is missing.

  trials/speed.py PROGRAM [ROUNDS] [SECONDS [BEFORE]]

With BEFORE, another build of the program, only these two are measured, in turn: at least 0.98 times as many names a second as it are wanted, in the
cache and to be fetched.

Wanted: names in the cache at 0.8 of the echo, with at most 2 microseconds of the program's own time a name; names to be fetched at 1.5 times Debian's
dnscache, with less of the program's own time a name; of 10,000 fetched names a second the slowest in a hundred answered sooner than by either peer;
a start with a cache of 1 GB within 0.2 seconds.
"""
import os
import re
import shutil
import socket
import statistics
import subprocess
import sys
import tempfile
import time

import near

ROOT, SERVER = "127.53.11.1", "127.53.11.2"
PEERS = ["Debian's dnscache", "unbound"]
TOOLS = ["tinydns", "tinydns-data", "dnscache", "unbound", "dnsperf", "taskset", "gcc"]
UNBOUND = """server:
  interface: {address}
  outgoing-interface: {send_from}
  do-daemonize: no
  do-not-query-localhost: no
  access-control: 127.0.0.0/8 allow
  chroot: ""
  username: ""
  pidfile: ""
  use-syslog: no
  logfile: "{room}/log"
  log-queries: yes
  root-hints: "{room}/hints"
  module-config: "iterator"
  num-threads: 1
  msg-cache-size: 100m
  rrset-cache-size: 100m
"""
short = []
running = []


def says(what, good, told):
    print(("ok: " if good else "FELL SHORT: ") + what + ": " + told, flush=True)
    if not good:
        short.append(what)


def pinned(processors, words, **more):
    process = subprocess.Popen(["taskset", "-c", processors] + words, **more)
    running.append(process)
    return process


def authority(room, name, address, data):
    """tinydns at this address."""
    folder = f"{room}/{name}"
    os.mkdir(folder)
    with open(folder + "/data", "w") as file:
        file.write(data)
    subprocess.run(["tinydns-data"], cwd=folder, check=True)
    subprocess.run(["chmod", "-R", "a+rX", room])
    settings = {"PATH": os.environ["PATH"], "IP": address, "ROOT": folder, "UID": "65534", "GID": "65534"}
    pinned(OTHERS, ["tinydns"], env=settings, stdout=subprocess.DEVNULL, stderr=subprocess.DEVNULL)


def folder_of(room, name):
    """A folder as dnscache reads it."""
    made = near.folder(ROOT)
    folder = f"{room}/{name}"
    shutil.move(made, folder)
    subprocess.run(["chmod", "-R", "a+rX", folder])
    return folder


def ours(room, address, send_from, size=100_000_000, program=None):
    folder = folder_of(room, address)
    settings = near.settings(address, send_from) | {"CACHESIZE": str(size)}
    return pinned("0", ["bash", "-c", 'exec "$0" < seed 2> log', program or PROGRAM], cwd=folder, env=settings)


def debians(room, address, send_from):
    folder = folder_of(room, address)
    settings = near.settings(address, send_from) | {"CACHESIZE": "100000000", "DATALIMIT": "300000000", "ROOT": folder, "UID": "65534", "GID": "65534"}
    return pinned("0", ["bash", "-c", "exec dnscache < seed > log 2>&1"], cwd=folder, env=settings)


def unbounds(room, address, send_from):
    folder = f"{room}/{address}"
    os.mkdir(folder)
    with open(folder + "/conf", "w") as conf:
        conf.write(UNBOUND.format(address=address, send_from=send_from, room=folder))
    with open(folder + "/hints", "w") as hints:
        hints.write(f". 3600000 NS a.root-servers.\na.root-servers. 3600000 A {ROOT}\n")
    return pinned("0", ["unbound", "-c", folder + "/conf"])


def times(process):
    """The seconds of processor time that a process has had: its own, and the system's for it."""
    fields = open(f"/proc/{process.pid}/stat").read().rsplit(")", 1)[1].split()
    return [int(field) / os.sysconf("SC_CLK_TCK") for field in fields[11:13]]


def answers(address, seconds=10):
    """Waits until a server answers over UDP, and tells whether it did."""
    client = socket.socket(socket.AF_INET, socket.SOCK_DGRAM)
    client.settimeout(0.002)
    until = time.time() + seconds
    while time.time() < until:
        try:
            client.sendto(near.question("localhost"), (address, 53))
            client.recv(4096)
            return True
        except OSError:
            pass
    return False


def names(room, prefix, count):
    path = f"{room}/names"
    with open(path, "w") as file:
        file.writelines(f"{prefix}{i}.w.trial A\n" for i in range(count))
    return path


def load(address, words):
    """What dnsperf says."""
    return subprocess.run(["taskset", "-c", OTHERS, "dnsperf", "-s", address] + words, capture_output=True, text=True).stdout


def measure(process, address, path, seconds):
    """Names a second, how many were lost, and the microseconds a name of the process itself and of all of it."""
    before = times(process)
    said = load(address, ["-d", path, "-l", str(seconds), "-q", "100"])
    used = [after - first for after, first in zip(times(process), before)]
    number = lambda pattern: float(re.search(pattern, said).group(1))
    done = number(r"Queries completed: *(\d+)")
    return number(r"Queries per second: *([\d.]+)"), number(r"Queries lost: *(\d+)"), used[0] / done * 1e6, sum(used) / done * 1e6


def rounds(room, parties, kind, count, seconds):
    """The medians of each party over interleaved rounds."""
    rows = {name: [] for name in parties}
    for turn in range(count):
        for index, (name, (process, address)) in enumerate(parties.items()):
            if kind == "cached":
                path = names(room, "c", 1000)
                load(address, ["-d", path, "-n", "2", "-q", "50"])
            else:
                path = names(room, f"f{turn}x{index}x", 120_000 * seconds)
            rows[name].append(measure(process, address, path, seconds))
    medians = {name: [statistics.median(column) for column in zip(*row)] for name, row in rows.items()}
    for name, (rate, lost, own, whole) in medians.items():
        print(f"{kind}: {name}: {rate:,.0f} names a second, {lost:.0f} lost, {whole:.1f} microseconds of processor a name, {own:.1f} of them its own", flush=True)
    return medians


def slowest(room, address, prefix):
    """The milliseconds within which 99 of 100 names are fetched where 10,000 a second are asked for."""
    said = load(address, ["-d", names(room, prefix, 60_000), "-n", "1", "-Q", "10000", "-q", "2000", "-v"])
    taken = sorted(float(line.rsplit(" ", 1)[1]) for line in said.splitlines() if line.startswith("> NOERROR"))
    lost = 60_000 - len(taken)
    return taken[int(len(taken) * 0.99)] * 1000 if taken else float("inf"), lost


def starts(room, count):
    """The median of seconds from the start of a service with a cache of 1 GB to its first answer."""
    taken = []
    for turn in range(count):
        begun = time.time()
        process = ours(room, f"127.53.11.{200 + turn}", "127.53.11.199", 1_000_000_000)
        answers(f"127.53.11.{200 + turn}")
        taken.append(time.time() - begun)
        process.kill()
        process.wait()
    return statistics.median(taken)


def judge(room, count, seconds):
    echo = pinned("0", [f"{room}/limits", "echo", "127.53.11.51"])
    forwarder = pinned("0", [f"{room}/limits", "forward", "127.53.11.52", SERVER])
    parties = {
        "this dnscache": (ours(room, "127.53.11.53", "127.53.11.63"), "127.53.11.53"),
        "Debian's dnscache": (debians(room, "127.53.11.54", "127.53.11.64"), "127.53.11.54"),
        "unbound": (unbounds(room, "127.53.11.55", "127.53.11.65"), "127.53.11.55"),
    }
    for _, address in parties.values():
        if not answers(address):
            sys.exit(f"no answer from {address}")
    cached = rounds(room, {"an echo": (echo, "127.53.11.51")} | parties, "cached", count, seconds)
    rate, _, own, _ = cached["this dnscache"]
    says("names in the cache, against an echo", rate >= 0.8 * cached["an echo"][0], f"{rate / cached['an echo'][0]:.2f} of it, 0.8 wanted")
    says("its own time for a name in the cache", own <= 2, f"{own:.1f} microseconds, 2 wanted")
    fetched = rounds(room, {"a forwarder": (forwarder, "127.53.11.52")} | parties, "fetched", count, seconds)
    rate, _, own, _ = fetched["this dnscache"]
    theirs = fetched["Debian's dnscache"]
    says("names to be fetched, against Debian's dnscache", rate >= 1.5 * theirs[0], f"{rate / theirs[0]:.2f} times it, 1.5 wanted")
    says("its own time for a name that is fetched", own < theirs[2], f"{own:.1f} microseconds, Debian's {theirs[2]:.1f}")
    late = {name: slowest(room, address, f"p{index}x") for index, (name, (_, address)) in enumerate(parties.items())}
    told = ", ".join(f"{name} {taken:.2f} ms ({lost} lost)" for name, (taken, lost) in late.items())
    says("the slowest in a hundred of 10,000 fetched a second", all(late["this dnscache"] < late[peer] for peer in PEERS), told)
    taken = starts(room, 5)
    says("a start with a cache of 1 GB", taken < 0.2, f"{taken:.3f} seconds, 0.2 wanted")


def beside(room, before, count, seconds):
    """This build beside another one."""
    parties = {
        "this dnscache": (ours(room, "127.53.11.53", "127.53.11.63"), "127.53.11.53"),
        "the build before": (ours(room, "127.53.11.56", "127.53.11.66", program=before), "127.53.11.56"),
    }
    for _, address in parties.values():
        if not answers(address):
            sys.exit(f"no answer from {address}")
    for kind in ["cached", "fetched"]:
        rates = rounds(room, parties, kind, count, seconds)
        ratio = rates["this dnscache"][0] / rates["the build before"][0]
        says(f"names {kind}, against the build before", ratio >= 0.98, f"{ratio:.3f} times it, 0.98 wanted")


PROGRAM = os.path.realpath(sys.argv[1])
OTHERS = f"1-{os.cpu_count() - 1}" if os.cpu_count() > 1 else "0"
for tool in TOOLS:
    if not shutil.which(tool):
        sys.exit(print(f"skipped: no {tool}"))
room = tempfile.mkdtemp(prefix="dnscache-trial.")
try:
    here = os.path.dirname(os.path.realpath(__file__))
    subprocess.run(["gcc", "-O2", "-o", room + "/limits", here + "/limits.c"], check=True)
    authority(room, "root", ROOT, f".:{ROOT}:a.root-servers\n&trial:{SERVER}:a.ns.trial\n")
    authority(room, "trial", SERVER, f".trial:{SERVER}:a.ns.trial\n+*.w.trial:192.0.2.7:86400\n")
    count, seconds = (int(sys.argv[i]) if len(sys.argv) > i else 5 for i in (2, 3))
    if len(sys.argv) > 4:
        beside(room, os.path.realpath(sys.argv[4]), count, seconds)
    else:
        judge(room, count, seconds)
finally:
    for process in running:
        process.kill()
    shutil.rmtree(room)
sys.exit(1 if short else 0)
