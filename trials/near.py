"""What the trials of clients over TCP share: a server of the root on a loopback address, the program over it, and clients."""
import os
import socket
import struct
import subprocess
import sys
import tempfile
import threading
import time


def question(name, number=1):
    """A query for the addresses of a name."""
    labels = b"".join(bytes([len(label)]) + label.encode() for label in name.split("."))
    return struct.pack(">HHHHHH", number, 0x0100, 1, 0, 0, 0) + labels + b"\0" + struct.pack(">HH", 1, 1)


def framed(message):
    return struct.pack(">H", len(message)) + message


def answer(query):
    """That name has the address 192.0.2.7."""
    end = query.index(b"\0", 12) + 5
    head = query[:2] + struct.pack(">HHHHH", 0x8400, 1, 1, 0, 0)
    return head + query[12:end] + b"\xc0\x0c" + struct.pack(">HHIH", 1, 1, 86400, 4) + bytes([192, 0, 2, 7])


def serve(address, delay):
    """A server that answers each query over UDP after so many seconds."""
    near = socket.socket(socket.AF_INET, socket.SOCK_DGRAM)
    near.bind((address, 53))

    def run():
        while True:
            query, sender = near.recvfrom(4096)
            threading.Timer(delay, lambda q=query, s=sender: near.sendto(answer(q), s)).start()

    threading.Thread(target=run, daemon=True).start()


def settings(address, send_from):
    """The environment of the program."""
    return {"PATH": os.environ["PATH"], "IP": address, "IPSEND": send_from, "CACHESIZE": "1000000"}


def folder(root):
    """A folder as the program reads it: clients of 127, this server of the root, and a seed."""
    if os.geteuid() != 0:
        print("skipped: port 53 needs root")
        sys.exit(0)
    room = tempfile.mkdtemp(prefix="dnscache-trial.")
    os.makedirs(room + "/ip")
    os.makedirs(room + "/servers")
    open(room + "/ip/127", "w").close()
    with open(room + "/servers/@", "w") as servers:
        servers.write(root + "\n")
    with open(room + "/seed", "wb") as seed:
        seed.write(os.urandom(128))
    return room


def stands(address):
    """Waits until connections to this address are taken."""
    for _ in range(50):
        try:
            socket.create_connection((address, 53), 1).close()
            return
        except OSError:
            time.sleep(0.1)
    print("no connection to", address)
    sys.exit(1)


def start(program, address, send_from, root, descriptors=None):
    """The program in a folder of its own, with so many descriptors at most."""
    room = folder(root)
    limit = f"ulimit -n {descriptors}; " if descriptors else ""
    process = subprocess.Popen(["bash", "-c", limit + 'exec "$0" < seed 2> log', os.path.realpath(program)], cwd=room, env=settings(address, send_from))
    stands(address)
    return process


def whole(stream):
    """The message that a stream gives, or None where it ends or ten seconds pass."""
    came = b""
    try:
        while len(came) < 2 or len(came) < 2 + struct.unpack(">H", came[:2])[0]:
            more = stream.recv(4096)
            if not more:
                return None
            came += more
    except OSError:
        return None
    return came[2:]


def processor(process):
    """The seconds of processor time that a process has had."""
    fields = open(f"/proc/{process.pid}/stat").read().rsplit(")", 1)[1].split()
    return (int(fields[11]) + int(fields[12])) / os.sysconf("SC_CLK_TCK")
