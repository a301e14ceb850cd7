#!/usr/bin/env python3
"""Refuses each allocation in turn, and lets each read and write of the standard streams fail, fall short or be interrupted in turn: of a replay, of a
simulation, of a service that a client asks once, and of the lookup tools and the filter where their folder is given. A tool to which memory is
refused has written the texts of the words before, and the filter nothing. Counts the allocations of a service before and after 10,000 queries. It
isn't part of the gate.

  trials/refused_memory.py PROGRAM [TOOLS]
"""
import os
import socket
import struct
import subprocess
import sys
import tempfile
import time

import near

ADDRESS, SEND_FROM, ROOT = "127.53.7.53", "127.53.7.54", "127.53.7.1"
SCRIPT = """dnscache-script 1
cachesize 1000000
forwardonly no
allow 127
zone @ 198.51.100.1
seed 0000000000000000000000000000000000000000000000000000000000000000
begin
at 1000000 request 127.0.0.1 4096 123401000001000000000000096c6f63616c686f73740000010001
at 1000001 request 127.0.0.1 4096 00010100000100000000000003777777076578616d706c6503636f6d0000010001
end
"""
OUT_OF_MEMORY = b"fatal: out of memory\n"

program = os.path.realpath(sys.argv[1])
tools = os.path.realpath(sys.argv[2]) if len(sys.argv) > 2 else None
room = tempfile.mkdtemp(prefix="dnscache-trial.")
shim = room + "/shim.so"
subprocess.run(["cc", "-shared", "-fPIC", "-O1", "-o", shim, os.path.dirname(os.path.realpath(__file__)) + "/shim.c", "-ldl"], check=True)
failed = []


def says(what, good, told):
    print(("ok: " if good else "FAILED: ") + what + ": " + told)
    if not good:
        failed.append(what)


def runs(words, text, settings):
    """Exit status, output and what is said of a run of these words with this input."""
    env = {"LD_PRELOAD": shim, "PATH": os.environ["PATH"], "DNSCACHEIP": ADDRESS, **settings}
    done = subprocess.run(words, input=text, capture_output=True, env=env, cwd=room)
    return done.returncode, done.stdout, done.stderr


def counts():
    """How many allocations and how many reads and writes the last run with COUNTED made, or has made so far."""
    return struct.unpack("qq", open(room + "/counts", "rb").read())


def memory(what, words, text, may_be):
    """Each allocation is refused in turn, until a run needs none more. What is written is what it may be, and never less than where an earlier one is refused."""
    whole = runs(words, text, {"COUNTED": room + "/counts"})
    needed = counts()[0]
    wrong = 0
    lines = [0]
    for number in range(1, needed + 1):
        status, output, said = runs(words, text, {"REFUSE": str(number)})
        if status != 111 or not said.endswith(OUT_OF_MEMORY) or not may_be(output, whole[1]) or output.count(b"\n") < lines[-1]:
            wrong += 1
        lines.append(output.count(b"\n"))
    beyond = runs(words, text, {"REFUSE": str(needed + 1)})
    told = f"{needed} allocations refused in turn, with {sorted(set(lines))} lines written, {wrong} with another end than want of memory"
    says(f"memory of {what}", whole[0] == 0 and wrong == 0 and beyond == whole, told)


def nothing(output, whole):
    return output == b""


def texts_before(output, whole):
    """The texts of the first words, each of which is a line."""
    return output == b"" or output.endswith(b"\n") and whole.startswith(output) and output != whole


def streams(what, words, text, ends):
    """Each read and write fails, is interrupted, which counts as a failure, or falls short, in turn."""
    whole = runs(words, text, {"COUNTED": room + "/counts"})
    calls = counts()[1]
    wrong = []
    for number in range(1, calls + 1):
        for how in ("FAIL", "INTERRUPT"):
            status, output, said = runs(words, text, {how: str(number)})
            if status != 111 or not any(said.endswith(end) for end in ends) or not whole[1].startswith(output):
                wrong.append((how, number, status, said))
        if runs(words, text, {"SHORT": str(number)}) != whole:
            wrong.append(("SHORT", number))
    says(f"streams of {what}", whole[0] == 0 and not wrong, f"{calls} reads and writes, each failed, interrupted and cut short in turn; wrong: {wrong}")


def served(settings):
    """A service with these settings of the shim, and its log."""
    folder = near.folder(ROOT)
    env = {**near.settings(ADDRESS, SEND_FROM), "LD_PRELOAD": shim, **settings}
    log = open(folder + "/log", "wb")
    return subprocess.Popen([program], cwd=folder, env=env, stdin=open(folder + "/seed", "rb"), stderr=log), folder + "/log"


def asks(client, name, number):
    client.sendto(near.question(name, number), (ADDRESS, 53))
    return client.recvfrom(4096)[0][3] & 15


def service():
    process, _ = served({"COUNTED": room + "/counts"})
    near.stands(ADDRESS)
    time.sleep(0.2)
    before = counts()[0]
    client = socket.socket(socket.AF_INET, socket.SOCK_DGRAM)
    client.settimeout(5)
    good = sum(asks(client, f"s{i % 5000}.w.trial", i) == 0 for i in range(10000))
    after = counts()[0]
    process.kill()
    process.wait()
    says("allocations of a service", good == 10000 and before == after, f"{before} before the first query, {after - before} more in {good} of 10000 that were answered")
    wrong = 0
    for number in range(1, before + 1):
        process, log = served({"REFUSE": str(number)})
        try:
            status = process.wait(5)
        except subprocess.TimeoutExpired:
            process.kill()
            status = process.wait()
        if status != 111 or open(log, "rb").read() != b"dnscache: " + OUT_OF_MEMORY:
            wrong += 1
    says("memory of a service", wrong == 0, f"{before} allocations refused in turn, {wrong} with another end than want of memory, or with a line of the log")


replay = [program, "replay"]
memory("a replay", replay, SCRIPT.encode(), nothing)
memory("a simulation", [program, "simulate", "1", "10"], b"", nothing)
runs([program, "simulate", "1", "1"], b"", {"COUNTED": room + "/counts"})
one = counts()[0]
runs([program, "simulate", "1", "10000"], b"", {"COUNTED": room + "/counts"})
says("allocations of a simulation", one == counts()[0], f"{one} with one event, {counts()[0]} with 10000")
streams("a replay", replay, SCRIPT.encode(), [b"unable to read input\n", b"unable to write output\n"])
streams("a simulation", [program, "simulate", "1", "10"], b"", [b"unable to write output\n"])
near.serve(ROOT, 0)
service()
if tools:
    process = near.start(program, ADDRESS, SEND_FROM, ROOT)
    for words, text, may_be in (
        (["dnsip", "192.0.2.77", "a.w.trial", "192.0.2.78", "b.w.trial"], b"", texts_before),
        (["dnsname", "192.0.2.7"], b"", nothing),
        (["dnstxt", "a.w.trial"], b"", nothing),
        (["dnsmx", "a.w.trial"], b"", nothing),
        (["dnsqr", "a", "localhost"], b"", nothing),
        (["dnsfilter"], b"192.0.2.7 a\n\nb\n", nothing),
    ):
        if not os.path.exists(tools + "/" + words[0]):
            continue
        words = [tools + "/" + words[0], *words[1:]]
        memory(os.path.basename(words[0]), words, text, may_be)
        streams(os.path.basename(words[0]), words, text, [b"unable to write output\n"] + ([b"unable to read input\n"] if text else []))
    process.kill()
sys.exit(1 if failed else 0)
