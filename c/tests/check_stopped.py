#!/usr/bin/env python3
"""check_stopped.py TERMINAL: checks that a user side over TCP receives before it expires timers, and
that half a frame does not stop them.

The program is started as `TERMINAL user tcp:127.0.0.1:PORT`. Stopped for longer than T200 while the
UA is in transit, it must not send a second SABME. Then half an RR arrives: T200 expires meanwhile,
and the other half must still count, so that the link is released. Exit status 0 or 1."""

import select
import signal
import socket
import subprocess
import sys
import time

# Frames of SAPI 0 and TEI 0, each after its length. T200 is a second.
SABME, UA, DISC = b"\0\3\0\x01\x7f", b"\0\3\0\x01\x73", b"\0\3\0\x01\x53"
MESSAGE, RR, ENQUIRY = b"\0\6\0\x01\0\0\x08\x01", b"\0\4\0\x01\x01\x02", b"\0\4\0\x01\x01\x01"


def wants(peer, octets, what):
    came = b""
    while len(came) < len(octets) and select.select([peer], [], [], 3)[0]:
        part = peer.recv(len(octets) - len(came))
        if not part:
            break
        came += part
    if came != octets:
        sys.exit(f"check_stopped: {what}: {came.hex(' ') or 'nothing'} came")


def check(program, peer):
    wants(peer, SABME, "no SABME")
    program.send_signal(signal.SIGSTOP)
    peer.sendall(UA)
    time.sleep(1.5)
    program.send_signal(signal.SIGCONT)
    wants(peer, MESSAGE, "no message after the UA")
    peer.sendall(RR[:4])
    wants(peer, ENQUIRY, "no enquiry while half a frame waits")
    peer.sendall(RR[4:])
    wants(peer, DISC, "no release after the message was acknowledged")
    peer.sendall(UA)
    if select.select([peer], [], [], 0.5)[0] and peer.recv(1):
        sys.exit("check_stopped: octets came after the link was released")
    peer.close()
    if program.wait(5) != 0:
        sys.exit(f"check_stopped: exit status {program.returncode}")


def main():
    with socket.create_server(("127.0.0.1", 0)) as place:
        words = [sys.argv[1], "user", f"tcp:127.0.0.1:{place.getsockname()[1]}"]
        how = {"stdout": subprocess.DEVNULL, "stderr": subprocess.DEVNULL}
        with subprocess.Popen(words, **how) as program:
            try:
                check(program, place.accept()[0])
            finally:
                program.kill()
    print("check_stopped: no frame was sent again, and half a frame stopped no timer")


main()
