#!/usr/bin/env python3
"""check_pbx.py PBX: checks the example pbx over lines of TCP, with a peer of octets at each span.

Messages are passed on from span to span. If the peer of one span acknowledges nothing, the other span
becomes receiver busy, and no message is lost. A lost connection is made again, and the link with it.
At basic access messages for the bus are unit data, terminals have TEIs, which a file keeps over a
restart, and one with an unknown TEI loses it. SIGUSR1 prints states and counters, and SIGTERM
releases the links. TRIED may be a command that runs the program, such as valgrind. Exit status 0 or 1.
"""

import os
import select
import shlex
import signal
import socket
import subprocess
import sys
import tempfile
import time

SECONDS = 30
# Commands and responses of the network and of a user: the first octet of the address, with SAPI 0.
ADDRESS = {("net", "command"): 2, ("net", "response"): 0, ("user", "command"): 0, ("user", "response"): 2}
SABME, UA, DISC = 0x7F, 0x73, 0x53


class Peer:
    """The other end of a span: `role` with this TEI."""

    def __init__(self, role, tei=0):
        self.role, self.tei, self.line, self.came = role, tei, None, b""
        self.place = socket.create_server(("127.0.0.1", 0))
        self.text = f"tcp:127.0.0.1:{self.place.getsockname()[1]}"

    def accept(self):
        self.place.settimeout(SECONDS)
        self.line, self.came = self.place.accept()[0], b""
        return self

    def send(self, *octets, kind="command", tei=None):
        tei = self.tei if tei is None else tei
        self.raw(bytes([ADDRESS[self.role, kind], tei << 1 | 1, *octets]))

    def raw(self, frame):
        self.line.sendall(len(frame).to_bytes(2, "big") + frame)

    def next(self, seconds=SECONDS):
        """The next frame, or None."""
        end = time.monotonic() + seconds
        while len(self.came) < 2 or len(self.came) < 2 + int.from_bytes(self.came[:2], "big"):
            wait = max(0, end - time.monotonic())
            if not select.select([self.line], [], [], wait)[0]:
                return None
            octets = self.line.recv(4096)
            if not octets:
                return None
            self.came += octets
        length = 2 + int.from_bytes(self.came[:2], "big")
        frame, self.came = self.came[2:length], self.came[length:]
        return frame

    def until(self, what, is_it):
        """The first frame that `is_it`. The others are polls and acknowledgements, and are skipped."""
        seen = []
        while (frame := self.next()) is not None:
            if is_it(frame):
                return frame
            seen.append(frame.hex(" "))
        sys.exit(f"check_pbx: no {what} came, but {seen}")

    def control(self, what, *octets):
        return self.until(what, lambda it: it[2 : 2 + len(octets)] == bytes(octets))

    def established(self):
        """The PBX establishes the link. A poll shows that it has received the UA."""
        self.control("SABME", SABME)
        self.send(UA, kind="response")
        self.send(0x01, 0x01)
        self.control("RR", 0x01, 0x01)

    def message(self, ns, nr, *octets):
        self.send(ns << 1, nr << 1, *octets)

    def acknowledge(self, nr):
        self.send(0x01, nr << 1, kind="response")

    def wants_message(self, ns, *octets):
        self.until(f"message {ns}", lambda it: it[2] == ns << 1 and it[4:] == bytes(octets))


class Pbx:
    running = []

    def __init__(self, *words):
        tried = shlex.split(os.environ.get("TRIED", ""))
        how = {"stdin": subprocess.PIPE, "stdout": subprocess.PIPE, "stderr": subprocess.DEVNULL}
        self.run = subprocess.Popen([*tried, os.path.abspath(sys.argv[1]), *words], cwd=FOLDER, text=True, **how)
        self.running.append(self.run)

    def type(self, line):
        self.run.stdin.write(f"{line}\n")
        self.run.stdin.flush()

    def end(self, *peers):
        """Ends it by a signal. Each peer must receive a DISC. Returns what it printed."""
        self.run.send_signal(signal.SIGUSR1)
        time.sleep(0.5)
        self.run.send_signal(signal.SIGTERM)
        for it in peers:
            it.control("DISC", DISC)
            it.send(UA, kind="response")
        printed = self.run.communicate(timeout=SECONDS)[0]
        if self.run.returncode != 0:
            sys.exit(f"check_pbx: exit status {self.run.returncode}")
        return printed


def spans(*words, roles=("net", "user")):
    """A PBX, and the peers of its two spans, which are of the other roles."""
    left, right = Peer("user" if roles[0].endswith("net") else "net"), Peer("user" if roles[1].endswith("net") else "net")
    pbx = Pbx(*words, roles[0], left.text, roles[1], right.text)
    return pbx, left.accept(), right.accept()


def primary():
    pbx, left, right = spans()
    left.established()
    right.established()
    left.message(0, 0, 8, 1, 2)
    right.wants_message(0, 8, 1, 2)
    right.message(0, 1, 8, 3)
    left.wants_message(0, 8, 3)
    left.acknowledge(1)
    # The connection is lost, and made again: T203 of the link runs still, so the peer establishes.
    left.line.close()
    left.accept().send(SABME)
    left.control("UA", UA)
    right.message(1, 1, 8, 4)
    left.wants_message(0, 8, 4)
    left.acknowledge(1)
    # The link is released: it is established again after a second.
    right.send(DISC)
    right.control("UA", UA)
    right.established()
    printed = pbx.end(left, right)
    for it in "state 7", "I frames 1 sent, 0 again, ":
        if it not in printed:
            sys.exit(f"check_pbx: no {it} in {printed}")


def busy():
    """The peer of the second span takes a window of 7 messages, and its queue has room for 2 in all."""
    pbx, left, right = spans("room=2", "t200=20000")
    left.established()
    right.established()
    for number in range(4):
        left.message(number, 0, 8, number)
        if number < 2:
            left.control(f"RR {number + 1}", 0x01, number + 1 << 1)
    left.until("RNR", lambda it: it[2] == 0x05)
    for number in range(2):
        right.wants_message(number, 8, number)
    right.acknowledge(2)
    # The third was kept, and the fourth arrived while the link was busy: it is sent again.
    right.wants_message(2, 8, 2)
    left.control("RR", 0x01, 3 << 1)
    left.message(3, 0, 8, 3)
    right.wants_message(3, 8, 3)
    right.acknowledge(4)
    pbx.end(left, right)


def tei(kind, reference, action, role="user"):
    """A message of TEI management, with SAPI 63 and TEI 127."""
    return bytes([0xFE if role == "net" else 0xFC, 0xFF, 3, 0x0F, reference >> 8, reference & 255, kind, action << 1 | 1])


def is_tei(kind, action):
    return lambda it: len(it) == 8 and it[3] == 0x0F and it[6] == kind and it[7] == action << 1 | 1


def basic():
    """A bus at the first span: the SETUP is unit data for all, and its answer a message."""
    pbx, bus, trunk = spans(roles=("basic-net", "user"))
    trunk.established()
    bus.until("Identity remove for all", is_tei(6, 127))
    trunk.message(0, 0, 8, 5)
    bus.until("unit data", lambda it: it[1:] == bytes([0xFF, 3, 8, 5]))
    bus.raw(tei(1, 77, 127))
    bus.until("Identity assigned", is_tei(2, 64))
    bus.tei = 64
    bus.send(SABME)
    bus.control("UA", UA)
    bus.message(0, 0, 8, 6)
    trunk.wants_message(0, 8, 6)
    trunk.message(1, 1, 8, 7)
    bus.wants_message(0, 8, 7)
    bus.acknowledge(1)
    trunk.acknowledge(1)
    # The operator checks all: the TEI 70 is not known here.
    pbx.type("check")
    bus.until("Identity check request", is_tei(4, 127))
    bus.raw(tei(5, 1, 70))
    bus.until("Identity remove", is_tei(6, 70))
    pbx.type("timers 2000 1000 2000 20000")
    pbx.end(bus, trunk)
    # After a restart it knows the TEI, and checks it.
    pbx, bus, trunk = spans(roles=("basic-net", "user"))
    bus.until("Identity check request", is_tei(4, 64))
    bus.raw(tei(5, 1, 64))
    bus.tei = 64
    bus.send(SABME)
    bus.control("UA", UA)
    trunk.established()
    pbx.end(bus, trunk)


def terminal():
    """The PBX is a terminal at the second span: it requests a TEI."""
    pbx, left, right = spans(roles=("net", "basic-user"))
    left.established()
    request = right.until("Identity request", is_tei(1, 127))
    right.raw(tei(2, request[4] << 8 | request[5], 65, "net"))
    right.tei = 65
    right.established()
    right.raw(bytes([2, 0xFF, 3, 8, 9]))
    left.wants_message(0, 8, 9)
    left.acknowledge(1)
    pbx.end(left, right)


with tempfile.TemporaryDirectory() as FOLDER:
    try:
        for test in primary, busy, basic, terminal:
            test()
    finally:
        for it in Pbx.running:
            it.kill()
print("check_pbx: messages, busy, a lost connection, a bus and its TEIs, signals")
